//! The measured table: printed, and written to docs/PERFORMANCE.md between its two marker lines.

use std::fs;
use std::path::Path;

const BEGIN: &str = "<!-- bench begin -->";
const END: &str = "<!-- bench end -->";

/// A time in microseconds with three digits or so.
pub fn micro(seconds: f64) -> String {
    let micro = seconds * 1e6;
    match micro {
        _ if micro >= 100.0 => format!("{micro:.0}"),
        _ if micro >= 10.0 => format!("{micro:.1}"),
        _ => format!("{micro:.2}"),
    }
}

pub fn ratio(ratio: f64) -> String {
    if ratio >= 10.0 {
        format!("{ratio:.0}")
    } else {
        format!("{ratio:.2}")
    }
}

/// A line of a table in markdown.
pub fn line(cells: &[String]) -> String {
    format!("| {} |\n", cells.join(" | "))
}

/// Puts the text between the marker lines of a file that has them.
pub fn write_between(path: &Path, text: &str) -> Result<(), String> {
    let old = fs::read_to_string(path).map_err(|error| format!("{}: {error}", path.display()))?;
    let parts = old.split_once(BEGIN).and_then(|(head, rest)| rest.split_once(END).map(|(_, tail)| (head, tail)));
    let (head, tail) = parts.ok_or(format!("{}: no marker lines {BEGIN} and {END}", path.display()))?;
    fs::write(path, format!("{head}{BEGIN}\n{text}{END}{tail}")).map_err(|error| format!("{}: {error}", path.display()))
}
