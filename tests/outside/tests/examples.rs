//! The example files have the output that their README states, by the reference.

use outside::reference::text::program_text;
use std::path::Path;

/// Each example's name, the bytes of its listing, and the text between the first pair of backquotes after `Output:`.
fn listed() -> Vec<(String, Vec<u8>, String)> {
    let readme = std::fs::read_to_string(Path::new("../../examples/README.md")).expect("the examples have a README");
    let part = |part: &str| {
        let (name, rest) = part.split_once('\n').expect("a name has a line");
        let hex = rest.lines().filter(|line| line.starts_with("    "));
        let bytes = hex.flat_map(str::split_whitespace).map(|byte| u8::from_str_radix(byte, 16).expect("a byte"));
        let (_, output) = rest.split_once("Output:").expect("an output is stated");
        let lines = output.split('`').skip(1).step_by(2);
        let text = lines.map(|line| format!("{line}\n")).collect();
        (name.to_string(), bytes.collect(), text)
    };
    readme.split("\n## ").skip(1).map(part).collect()
}

#[test]
fn outputs_and_listings() {
    let listed = listed();
    assert_eq!(listed.len(), 4);
    for (name, bytes, text) in listed {
        let file = std::fs::read(Path::new("../../examples").join(&name)).expect("the file is there");
        assert_eq!(file, bytes, "{name}");
        assert_eq!(program_text(&file), text, "{name}");
    }
}
