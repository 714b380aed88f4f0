//! The crate says what the repository says: the sentences of the refusals, and the version.

use awelodrun::{Reason, VERSION};
use std::fs;
use std::path::Path;

/// A file of the repository, which is there wherever the crates are; nothing where this crate stands alone.
fn of_the_repository(name: &str) -> Option<String> {
    let root = Path::new(env!("CARGO_MANIFEST_DIR")).join("../..");
    if !root.join(name).exists() && !root.join("crates.txt").exists() {
        return None;
    }
    Some(fs::read_to_string(root.join(name)).unwrap_or_else(|error| panic!("{name}: {error}")))
}

#[test]
fn the_sentences_are_those_of_words_refusals() {
    let said: String = Reason::ALL.iter().map(|reason| format!("{}\t{reason}\n", reason.number())).collect();
    if let Some(words) = of_the_repository("words/refusals") {
        assert_eq!(said, words);
    }
}

#[test]
fn the_version_is_that_of_the_repository() {
    if let Some(version) = of_the_repository("VERSION") {
        assert_eq!(VERSION, version.trim_end());
    }
}
