//! Tables put into random files and found in them, with outputs of every nearby length.

use crate::answers::Given;
use crate::compare;
use crate::draft::good_draft;
use crate::draw::{any, good, Size};
use crate::run::{Outcome, Run};

/// Puts a found table back: the same file must come out.
fn put_back(run: &mut Run, file: &[u8], number: u16) -> Outcome {
    let found = compare::find(run, file, number)?;
    if found.refusal.no != 0 {
        run.tally("not found");
        return Ok(());
    }
    run.tally("found and put back");
    let mut out = vec![0; file.len()];
    let got = run.subject.put(file, number, &Given::from_table(&found.table), &mut out);
    run.same(|| format!("{number} put back, length"), (0, file.len() as u32), (got.refusal.no, got.length))?;
    run.same(|| format!("{number} put back into {file:?}"), file, &out[..])
}

pub fn random(run: &mut Run) -> Outcome {
    while run.more() {
        let n = match run.random.below(12) {
            0 => run.random.from_to(60, 64),
            1 => 64,
            _ => run.random.from_to(1, 5),
        };
        let draft = good_draft(&mut run.random, n);
        let file = draft.bytes();
        let i = run.random.below(n);
        let number = draft.entries[i].number;
        put_back(run, &file, number)?;
        let other = if run.random.once_in(2) { number } else { run.random.next() as u16 };
        compare::find(run, &file, other)?;
        let table = Given::from_table(&good(&mut run.random, Size::Small));
        let written = compare::put(run, &file, other, &table, file.len() + 250)?;
        run.tally(if written.refusal.no == 0 { "put" } else { "not put" });
        let length = written.length as usize;
        for out in [0, 1, 4, length.saturating_sub(13), length.saturating_sub(1), length, length + 1, length + 17] {
            compare::put(run, &file, other, &table, out)?;
        }
        let bad = any(&mut run.random);
        for (number, out) in [(number, 0), (other, file.len() + 250)] {
            compare::put(run, &file, number, &bad, out)?;
        }
    }
    Ok(())
}
