//! Stands in for the program `shift` with the reference's text, to try the tests of programs before and beside it.
//!
//! A word makes it wrong on purpose: `one-read` looks at the first piece alone, `short` at 65,535 bytes at most,
//! `silent` says nothing of a read error, and `empty-on-error` takes a read error for an empty file.

use outside::reference::text::program_text;
use std::io::{Read, Write};
use std::process::ExitCode;

/// Rust opens a closed standard input as /dev/null for reading and writing before `main`, so a closed one is told by that.
fn input_was_closed() -> std::io::Result<bool> {
    let null = std::fs::read_link("/proc/self/fd/0")?.as_os_str() == "/dev/null";
    let both_ways = |line: &str| line.starts_with("flags:") && line.ends_with('2');
    Ok(null && std::fs::read_to_string("/proc/self/fdinfo/0")?.lines().any(both_ways))
}

fn read(wrong: &str) -> std::io::Result<Vec<u8>> {
    let mut bytes = vec![];
    match wrong {
        "one-read" => {
            bytes = vec![0; 65_536];
            let length = std::io::stdin().read(&mut bytes)?;
            bytes.truncate(length);
        }
        "short" => {
            std::io::stdin().take(65_535).read_to_end(&mut bytes)?;
        }
        _ if input_was_closed()? => return Err(std::io::Error::other("it is closed")),
        _ => {
            std::io::stdin().read_to_end(&mut bytes)?;
        }
    }
    Ok(bytes)
}

fn main() -> ExitCode {
    let wrong = std::env::args().nth(1).unwrap_or_default();
    let file = match read(&wrong) {
        Ok(file) => file,
        Err(_) if wrong == "silent" => return ExitCode::FAILURE,
        Err(_) if wrong == "empty-on-error" => vec![],
        Err(error) => {
            eprintln!("standard input cannot be read: {error}");
            return ExitCode::FAILURE;
        }
    };
    match std::io::stdout().write_all(program_text(&file).as_bytes()) {
        Ok(()) => ExitCode::SUCCESS,
        Err(_) => ExitCode::FAILURE,
    }
}
