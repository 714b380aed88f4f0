//! The tests of the program pass with a program that writes the reference's text, and notice wrong ones.

use outside::program::{run, Program};

fn stand_in(wrong: &[&str]) -> Result<(), String> {
    let path = env!("CARGO_BIN_EXE_shift-stand-in").to_string();
    let args = wrong.iter().map(|word| word.to_string()).collect();
    run(&Program { path, args }, 1.0, Some(2), |_, cases| assert!(cases > 0))
}

#[test]
fn right() {
    stand_in(&[]).unwrap_or_else(|difference| panic!("{difference}"));
}

#[test]
fn wrong_ones_are_noticed() {
    let (lengths, closed) = ("files of many lengths", "a closed descriptor");
    for (wrong, group) in [("one-read", lengths), ("short", lengths), ("silent", closed), ("empty-on-error", closed)] {
        let difference = stand_in(&[wrong]).expect_err(wrong);
        assert!(difference.starts_with(&format!("DIFFERENCE in {group}")), "{wrong}: {difference}");
    }
}
