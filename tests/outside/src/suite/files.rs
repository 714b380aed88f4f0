//! Files cut at each byte, with each byte changed and with bytes added; long files; and random files with faults.

use crate::answers::{Given, Table};
use crate::compare;
use crate::draft::{good_draft, Draft, Entry};
use crate::run::{Outcome, Run};

/// The file's check, find and put on these bytes.
pub fn everything(run: &mut Run, file: &[u8]) -> Outcome {
    let checked = compare::file_check(run, file)?;
    run.tally(if checked.refusal.no == 0 { "good" } else { "refused" });
    let given = Given::from_table(&Table::of(2, 1, &[(2, 1, 1), (3, 2, 2)]));
    compare::find(run, file, 7)?;
    compare::put(run, file, 7, &given, file.len() + 30)?;
    compare::put(run, file, 8, &given, file.len() + 27)?;
    let bad = Given::from_table(&Table { m: 17, ..given.table() });
    compare::put(run, file, 7, &bad, 0)?;
    Ok(())
}

pub fn damaged(run: &mut Run) -> Outcome {
    for n in [1, 2, 3, 5] {
        let mut draft = good_draft(&mut run.random, n);
        draft.entries[0] = Entry::new(1, 7, vec![1, 2, 1, 0, 4, 0, 1, 0, 3, 0]);
        for (i, entry) in draft.entries.iter_mut().enumerate() {
            entry.number = 7 + i as u16;
            entry.body.truncate(40);
        }
        let file = draft.bytes();
        for end in 0..file.len() {
            everything(run, &file[..end])?;
        }
        for more in 1..40 {
            everything(run, &[&file[..], &vec![more as u8; more]].concat())?;
        }
        for at in 0..file.len() {
            for change in 1..=255 {
                let mut changed = file.clone();
                changed[at] ^= change;
                compare::file_check(run, &changed)?;
                if change.count_ones() == 1 {
                    everything(run, &changed)?;
                }
            }
        }
    }
    Ok(())
}

/// A file of so many bytes with one note, which ends with an empty note.
fn of_length(length: usize) -> Draft {
    let body = (0..length - 28).map(|k| (k * 7) as u8 ^ 255).collect();
    Draft::new(vec![Entry::new(128, 7, body), Entry::new(129, 9, vec![])])
}

/// Files at the longest length and around it; bodies whose sums roll over; 64 entries and 65.
pub fn long(run: &mut Run) -> Outcome {
    for length in [65_533, 65_534, 65_535, 65_536, 65_537, 70_000] {
        everything(run, &of_length(length).bytes())?;
    }
    let grown = Table::of(1, 1, &[(1, 1, 1); 32]);
    for length in [65_326, 65_327, 65_328, 65_535] {
        // 12 bytes of contents and 196 of body more, or an output that is too short as well.
        for out in [0, 65_535, 65_536, 65_600] {
            compare::put(run, &of_length(length).bytes(), 8, &Given::from_table(&grown), out)?;
            compare::put(run, &of_length(length).bytes(), 7, &Given::from_table(&grown), out)?;
        }
    }
    // One row to begin with in a file of 22 bytes more; each further row takes 6.
    for length in [65_500, 65_501, 65_502, 65_507, 65_508, 65_513] {
        let mut draft = of_length(length);
        draft.entries.insert(0, Entry::new(1, 8, vec![1, 1, 1, 0, 1, 0, 1, 0, 1, 0]));
        for rows in 1..=3 {
            let table = Table::of(1, 1, &[(1, 1, 1); 3][..rows]);
            compare::put(run, &draft.bytes(), 8, &Given::from_table(&table), 65_535)?;
        }
    }
    full(run)
}

/// Files of 63 to 65 entries, and one of 64 that is too long for another table as well.
fn full(run: &mut Run) -> Outcome {
    let table = Given::from_table(&Table::of(1, 1, &[(2, 1, 1)]));
    for n in [63, 64, 65] {
        let notes = (0..n).map(|i| Entry::new(if i % 9 == 7 { 1 } else { 130 }, i, vec![1, 1, 1, 0, 1, 0, 1, 0, 1, 0]));
        let file = Draft::new(notes.collect()).bytes();
        everything(run, &file)?;
        for number in [3, 7, 63, 64] {
            for out in [0, file.len() - 1, file.len(), file.len() + 30] {
                compare::put(run, &file, number, &table, out)?;
            }
        }
    }
    let mut entries: Vec<Entry> = (0..64).map(|i| Entry::new(130, i, vec![])).collect();
    entries[5].body = vec![3; 65_535 - 4 - 12 * 64];
    let file = Draft::new(entries).bytes();
    for number in [5, 64] {
        for out in [0, 65_535, 65_600] {
            compare::put(run, &file, number, &table, out)?;
        }
    }
    Ok(())
}

/// A random file, good or with a byte or two changed, some with the sums made right again.
pub fn random(run: &mut Run) -> Outcome {
    while run.more() {
        let n = if run.random.once_in(10) { run.random.from_to(1, 64) } else { run.random.from_to(1, 6) };
        let mut draft = good_draft(&mut run.random, n);
        everything(run, &draft.bytes())?;
        for _ in 0..4 {
            let mut changed = draft.bytes();
            for _ in 0..run.random.from_to(1, 2) {
                let at = run.random.below(changed.len());
                changed[at] = run.random.next() as u8;
            }
            everything(run, &changed)?;
        }
        for _ in 0..2 {
            let i = run.random.below(n);
            let length = draft.entries[i].body.len();
            if length > 0 {
                let at = run.random.below(length);
                draft.entries[i].body[at] = run.random.pick(&[0, 1, 2, 9, 16, 17, 32, 33, 255]);
            }
        }
        everything(run, &draft.bytes())?;
        let length = run.random.below(60);
        let junk = run.random.bytes(length);
        everything(run, &junk)?;
    }
    Ok(())
}
