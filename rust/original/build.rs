//! Lays out the source tree of the original in OUT_DIR/src.
//!
//! The supplied sources are looked for in the folder named by ORIGINAL_SRC,
//! else in the repository's docs/src/src, and must have the checksums listed
//! in supplied.sha256.

use std::{
    env, fs,
    ops::RangeInclusive,
    path::{Path, PathBuf},
    process::Command,
};

const DEFAULT_SRC: &str = "../../docs/src/src";

/// Compiled byte for byte.
const UNCHANGED: [&str; 9] = [
    "fast_compare.rs",
    "kd_tree.rs",
    "ordered_ops.rs",
    "polynomial/mod.rs",
    "polynomial/divmask.rs",
    "polynomial/monomial_ordering.rs",
    "polynomial/signature_basis/indices/mod.rs",
    "polynomial/signature_basis/indices/monomial_index.rs",
    "polynomial/signature_basis/indices/ratio_monomial_index.rs",
];

/// The line of ours that follows the text of some of them. It names a module of
/// ours, which can show what is private to the file.
const SHOWN: [(&str, &str); 4] = [
    (
        "kd_tree.rs",
        "#[path = \"kd_tree/shown.rs\"]\npub mod shown;\n",
    ),
    ("polynomial/divmask.rs", "mod shown;\n"),
    (
        "polynomial/signature_basis/indices/monomial_index.rs",
        "mod shown;\n",
    ),
    (
        "polynomial/signature_basis/indices/ratio_monomial_index.rs",
        "mod shown;\n",
    ),
];

/// Supplied files of which only these lines are compiled, each as it is, and
/// the line of ours that follows them.
const EXCERPTS: [(&str, &[RangeInclusive<usize>], &str); 2] = [
    // All but the rug integers: `CommutativeRing` and `Field`.
    ("field/mod.rs", &[1..=1, 5..=31], ""),
    // All but the reduction and the basis calculator: signatures, ratios,
    // `SignPoly` and the masked references.
    (
        "polynomial/signature_basis/mod.rs",
        &[1..=5, 7..=7, 10..=16, 20..=185],
        "pub mod oracle;\n",
    ),
];

/// Ours: modules that were not supplied, and the access to the index.
const STAND_INS: [&str; 10] = [
    "field/fixed_size.rs",
    "kd_tree/shown.rs",
    "polynomial/divmask/shown.rs",
    "polynomial/signature_basis/indices/monomial_index/shown.rs",
    "polynomial/signature_basis/indices/ratio_monomial_index/shown.rs",
    "polynomial/cocoa_print.rs",
    "polynomial/division.rs",
    "polynomial/grobner_basis.rs",
    "polynomial/signature_basis/oracle.rs",
    "polynomial/signature_basis/oracle/shown.rs",
];

const ROOT_MODULES: [(&str, &str); 5] = [
    ("fast_compare", "fast_compare.rs"),
    ("field", "field/mod.rs"),
    ("kd_tree", "kd_tree.rs"),
    ("ordered_ops", "ordered_ops.rs"),
    ("polynomial", "polynomial/mod.rs"),
];

fn main() {
    let package = PathBuf::from(env::var_os("CARGO_MANIFEST_DIR").unwrap());
    let out = PathBuf::from(env::var_os("OUT_DIR").unwrap());
    let supplied = package.join(env::var_os("ORIGINAL_SRC").unwrap_or(DEFAULT_SRC.into()));
    let laid_out = out.join("src");

    println!("cargo:rerun-if-env-changed=ORIGINAL_SRC");
    println!("cargo:rerun-if-changed=build.rs");
    println!("cargo:rerun-if-changed=supplied.sha256");
    check_sums(&supplied, &package.join("supplied.sha256"));

    for name in UNCHANGED {
        let bytes = read(&supplied.join(name));
        let ours = shown(name);
        write(&laid_out.join(name), &[&bytes, ours.as_bytes()].concat());
        let compiled = fs::read(laid_out.join(name)).unwrap();
        assert!(
            compiled.strip_suffix(ours.as_bytes()) == Some(&bytes[..]),
            "{name} is not as supplied"
        );
    }
    for (name, lines, ours) in EXCERPTS {
        let text = String::from_utf8(read(&supplied.join(name))).unwrap();
        write(
            &laid_out.join(name),
            (excerpt(&text, lines) + ours).as_bytes(),
        );
    }
    for name in STAND_INS {
        write(
            &laid_out.join(name),
            &read(&package.join("stand_ins").join(name)),
        );
    }
    write(&out.join("root.rs"), root(&laid_out).as_bytes());
}

/// Stops the build unless the supplied files have the recorded checksums.
fn check_sums(supplied: &Path, sums: &Path) {
    let status = Command::new("sha256sum")
        .args(["--check", "--strict", "--quiet"])
        .arg(sums)
        .current_dir(supplied)
        .status()
        .unwrap_or_else(|e| panic!("sha256sum in {}: {e}", supplied.display()));
    assert!(
        status.success(),
        "{} is not as supplied",
        supplied.display()
    );
}

/// What of ours follows a file's text.
fn shown(name: &str) -> &'static str {
    let ours = SHOWN.iter().find(|(file, _)| *file == name);
    ours.map_or("", |(_, line)| line)
}

fn excerpt(text: &str, lines: &[RangeInclusive<usize>]) -> String {
    text.split_inclusive('\n')
        .enumerate()
        .filter(|(at, _)| lines.iter().any(|range| range.contains(&(at + 1))))
        .map(|(_, line)| line)
        .collect()
}

fn root(laid_out: &Path) -> String {
    ROOT_MODULES
        .map(|(module, file)| format!("#[path = {:?}]\npub mod {module};\n", laid_out.join(file)))
        .concat()
}

fn read(path: &Path) -> Vec<u8> {
    println!("cargo:rerun-if-changed={}", path.display());
    fs::read(path).unwrap_or_else(|e| panic!("{}: {e}", path.display()))
}

fn write(path: &Path, bytes: &[u8]) {
    fs::create_dir_all(path.parent().unwrap()).unwrap();
    fs::write(path, bytes).unwrap();
}
