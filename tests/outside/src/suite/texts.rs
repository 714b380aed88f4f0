//! The program's text, and what it leaves in the map, the pins and the output, for good files and refused ones.

use super::WORKED;
use crate::compare;
use crate::draft::{good_draft, Draft, Entry};
use crate::run::{Outcome, Run};

/// A file with its text, and the first words of the map and of the pins, which were worked out by hand; later words stay.
type Text = (&'static str, Vec<u8>, &'static str, &'static [u32], &'static [u32]);

fn by_hand() -> Vec<Text> {
    // m 1, x 1, (4,1,3): its windows are slots 0 to 2 of 4. m 1, x 2, (1,1,1): its one slot is pinned.
    let three = Entry::new(1, 3, vec![1, 1, 1, 0, 4, 0, 1, 0, 3, 0]);
    let two = Entry::new(1, 2, vec![1, 2, 1, 0, 1, 0, 1, 0, 1, 0]);
    let last = Entry { number: 65_535, ..two.clone() };
    let note = Entry::new(200, 1, vec![7; 9]);
    let bad = Entry::new(1, 4, vec![1, 1, 2, 0, 4, 0, 1, 0, 3, 0, 4, 0, 3, 0, 2, 0]);
    let file = |entries: &[&Entry]| Draft::new(entries.iter().map(|&entry| entry.clone()).collect()).bytes();
    vec![
        (
            "the worked file",
            WORKED.to_vec(),
            "TABLE 7 INFEASIBLE 8 14 13\n",
            &[7, 6, 5, 2, 7, 4, 7, 2, 5, 6, 7, 0],
            &[0, 0, 0, 0, 0, 0, 0, 0, 0, 0, 0, 0],
        ),
        (
            "a shorter frame after a longer one",
            file(&[&three, &note, &two]),
            "TABLE 3 UNDECIDED 4\nTABLE 2 UNDECIDED 1\n",
            &[1, 1, 1, 0],
            &[1, 0, 0, 0],
        ),
        (
            "a longer frame after a shorter one",
            file(&[&note, &two, &three]),
            "TABLE 2 UNDECIDED 1\nTABLE 3 UNDECIDED 4\n",
            &[1, 1, 1, 0],
            &[0, 0, 0, 0],
        ),
        ("the greatest number", file(&[&last]), "TABLE 65535 UNDECIDED 1\n", &[1], &[1]),
        ("a note alone", file(&[&note]), "", &[], &[]),
        ("no bytes", vec![], "REFUSED 9 0 0\n", &[], &[]),
        ("a byte too few", WORKED[..37].to_vec(), "REFUSED 13 0 0\n", &[], &[]),
        ("a bad table after a good one", file(&[&three, &note, &bad]), "REFUSED 6 2 1\n", &[], &[]),
    ]
}

/// What stands in the lists and the output before the call.
const MARK: u32 = 0xA5A5_A5A5;

pub fn hand(run: &mut Run) -> Outcome {
    for (name, file, text, words, pinned) in by_hand() {
        let (mut map, mut pins, mut out) = ([MARK; 4096], [MARK; 4096], [MARK as u8; 4096]);
        let length = run.subject.shift_text(&file, &mut map, &mut pins, &mut out);
        let (mut expected_map, mut expected_pins, mut expected) = ([MARK; 4096], [MARK; 4096], [MARK as u8; 4096]);
        expected_map[..words.len()].copy_from_slice(words);
        expected_pins[..pinned.len()].copy_from_slice(pinned);
        expected[..text.len()].copy_from_slice(text.as_bytes());
        run.same(|| format!("length of the text: {name}"), text.len(), length)?;
        run.same(|| format!("output of the text: {name}"), &expected[..], &out[..])?;
        run.same(|| format!("map of the text: {name}"), &expected_map[..], &map[..])?;
        run.same(|| format!("pins of the text: {name}"), &expected_pins[..], &pins[..])?;
        compare::shift_text(run, &file)?;
    }
    Ok(())
}

/// 64 lines with the greatest numbers that there are.
fn longest(run: &mut Run) -> Outcome {
    let body = [vec![16, 1, 32, 0], [0, 16].repeat(96)].concat();
    let entries = (0..64).map(|i| Entry::new(1, 65_535 - i, body.clone())).collect();
    let text = compare::shift_text(run, &Draft::new(entries).bytes())?;
    let line = "TABLE 65535 INFEASIBLE 4096 131072 65536\n";
    run.same(|| "the longest text".into(), (64 * line.len(), true), (text.len(), text.starts_with(line)))
}

pub fn random(run: &mut Run) -> Outcome {
    longest(run)?;
    while run.more() {
        let n = if run.random.once_in(10) { 64 } else { run.random.from_to(1, 5) };
        let mut file = good_draft(&mut run.random, n).bytes();
        compare::shift_text(run, &file)?;
        let at = run.random.below(file.len());
        file[at] ^= 1 << run.random.below(8);
        let text = compare::shift_text(run, &file)?;
        run.tally(if text.starts_with("REFUSED") { "refused" } else { "good" });
    }
    Ok(())
}
