//! Infeasible means that the exact search finds no valid schedule; undecided tables that have none are counted.

use crate::answers::{Given, Ladder, Table};
use crate::compare;
use crate::draw::{good, Size};
use crate::flow::{is_valid, search};
use crate::reference::table::frame_of;
use crate::run::{Outcome, Run};

/// Holds the ladder's lines to the exact search.
pub fn against_search(run: &mut Run, table: &Table, ladder: &Ladder) -> Outcome {
    let frame = frame_of(table).expect("a good table was drawn") as usize;
    let infeasible = ladder.square.iter().any(|line| line[0] > 0);
    let schedule = search(table, frame);
    if let Some(words) = &schedule {
        assert!(is_valid(table, frame, words), "the search gave a schedule that is not valid: {table:?}");
    }
    match (infeasible, schedule) {
        (true, None) => run.tally(if ladder.square[0][0] > 0 { "infeasible at depth 1" } else { "infeasible deeper" }),
        (false, Some(_)) => run.tally("undecided, with a schedule"),
        (false, None) => run.tally("undecided, with no schedule"),
        (true, Some(words)) => {
            return run.difference(
                format!("{table:?}"),
                format!("undecided, schedule {words:?}"),
                format!("{ladder:?}"),
            );
        }
    }
    Ok(())
}

/// A table of few rows for so many processors, where both verdicts come up.
fn draw(run: &mut Run) -> Table {
    loop {
        let mut table = good(&mut run.random, Size::Small);
        if table.count <= 10 {
            table.m = table.m.min(1 + table.count / 2);
            return table;
        }
    }
}

pub fn against_flow(run: &mut Run) -> Outcome {
    while run.more() {
        let table = draw(run);
        let ladder = compare::ladder(run, &Given::from_table(&table), (24, 24))?;
        against_search(run, &table, &ladder)?;
    }
    Ok(())
}
