//! Rows added to random tables and removed from them, good and bad, up to a full table and down to none.

use crate::answers::{Given, Row};
use crate::compare;
use crate::draw::{any, good, index, Size};
use crate::run::{Outcome, Run};

/// A row from another table, so that it is often a good one; or any numbers.
fn some_row(run: &mut Run) -> Row {
    if run.random.once_in(4) {
        let mut number = || if run.random.once_in(4) { run.random.next() as u16 } else { run.random.below(9) as u16 };
        return Row { period: number(), execution: number(), deadline: number() };
    }
    good(&mut run.random, Size::Small).rows[0]
}

/// Anything past the count, which must come back only from a refusal.
fn with_rest(run: &mut Run, mut given: Given) -> Given {
    let used = 3 + 3 * given.0[2] as usize;
    given.0[used..].iter_mut().for_each(|number| *number = run.random.next() as u16);
    given
}

pub fn random(run: &mut Run) -> Outcome {
    while run.more() {
        let table = good(&mut run.random, Size::Small);
        let given = with_rest(run, Given::from_table(&table));
        let row = some_row(run);
        let added = compare::add(run, &given, row)?;
        run.tally(if added.refusal.no == 0 { "added" } else { "not added" });
        let count = table.count as u32;
        for index in [0, count / 2, count - 1, count, index(&mut run.random)] {
            let removed = compare::remove(run, &given, index)?;
            run.tally(if removed.refusal.no == 0 { "removed" } else { "not removed" });
        }
        let bad = any(&mut run.random);
        compare::add(run, &bad, row)?;
        let index = index(&mut run.random);
        compare::remove(run, &bad, index)?;
    }
    Ok(())
}
