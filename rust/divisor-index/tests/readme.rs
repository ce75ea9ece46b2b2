//! The first uses in the repository's README are the examples; that from Rust runs
//! here, that from C, by the README's commands, in rust/c/run.

include!("../examples/first_use.rs");

const README: &str = include_str!("../../../README.md");

#[test]
fn it_runs() {
    assert_eq!(main(), Ok(()));
}

/// The lines of an example's `main`. A code block is indented as they are.
fn lines<'a>(example: &'a str, start: &str, end: &str) -> &'a str {
    let (_, lines) = example.split_once(start).unwrap();
    lines.split_once(end).unwrap().0
}

#[test]
fn it_is_the_example() {
    let example = include_str!("../examples/first_use.rs");
    assert!(README.contains(lines(example, "Refusal> {\n", "    Ok(())\n")));
}

#[test]
fn it_is_the_example_in_c() {
    let example = include_str!("../../c/first_use.c");
    assert!(README.contains(lines(example, "main(void) {\n", "    return 0;\n")));
}
