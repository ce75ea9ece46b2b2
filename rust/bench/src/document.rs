//! docs/SPEED.md, whose tables stand between marks.

use std::{
    fs, io,
    path::{Path, PathBuf},
};

use crate::parts::Report;

fn docs() -> PathBuf {
    Path::new(env!("CARGO_MANIFEST_DIR")).join("../../docs")
}

/// Puts each text in its place, and each plot beside.
pub fn write(reports: &[(&str, Report)], rounds: usize) -> io::Result<()> {
    let path = docs().join("SPEED.md");
    let page = fs::read_to_string(&path)?;
    let page = put(page, "machine", &machine(rounds));
    let page = reports
        .iter()
        .fold(page, |page, (name, report)| put(page, name, &report.text));
    fs::write(path, page)?;
    let folder = docs().join("speed");
    fs::create_dir_all(&folder)?;
    let mut plots = reports.iter().flat_map(|(_, report)| &report.plots);
    plots.try_for_each(|(name, svg)| fs::write(folder.join(name), svg))
}

/// The page with this text between the marks of that name.
fn put(page: String, name: &str, text: &str) -> String {
    let (start, end) = (
        format!("<!-- {name} -->\n"),
        format!("<!-- end of {name} -->"),
    );
    let parts = page.split_once(&start).and_then(|(before, rest)| {
        let (_, after) = rest.split_once(&end)?;
        Some((before, after))
    });
    let (before, after) = parts.unwrap_or_else(|| panic!("docs/SPEED.md has no place for {name}"));
    format!("{before}{start}\n{}\n\n{end}{after}", text.trim_end())
}

/// The machine, how busy it was, and the command.
fn machine(rounds: usize) -> String {
    let info = fs::read_to_string("/proc/cpuinfo").unwrap_or_default();
    let value = |name| {
        let mut lines = info.lines().filter_map(|line| line.split_once(':'));
        let found = lines.find(|(key, _)| key.trim() == name);
        found.map_or("unknown", |(_, value)| value.trim())
    };
    let cores = std::thread::available_parallelism().map_or(1, |cores| cores.get());
    let load = fs::read_to_string("/proc/loadavg").unwrap_or_default();
    format!(
        "Machine: {} (family {}, model {}), {cores} cores, as `lscpu` names it; load at the end of \
         the run {}, of which the bench is 1. Command: `rust/target/speed/bench write {rounds}`.",
        value("model name"),
        value("cpu family"),
        value("model"),
        load.split(' ').next().unwrap_or_default(),
    )
}

#[cfg(test)]
mod tests {
    use super::put;

    #[test]
    fn a_text_replaces_what_stands_between_its_marks() {
        let page = "a\n<!-- x -->\nold\n<!-- end of x -->\nb\n".to_string();
        let written = put(page, "x", "new\n\n");
        assert_eq!(written, "a\n<!-- x -->\n\nnew\n\n<!-- end of x -->\nb\n");
        assert_eq!(put(written.clone(), "x", "new"), written);
    }

    #[test]
    #[should_panic(expected = "no place for y")]
    fn a_page_without_the_marks_is_no_place() {
        put("<!-- end of y -->\n<!-- y -->\n".into(), "y", "text");
    }
}
