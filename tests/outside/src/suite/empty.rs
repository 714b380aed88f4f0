//! Lists of no elements for every list that a function is lent, as they are and as null pointers.

use super::WORKED;
use crate::answers::{Given, Table};
use crate::compare;
use crate::run::{Outcome, Run};

fn cases(run: &mut Run) -> Outcome {
    for (m, x) in [(1, 1), (16, 8), (0, 1), (1, 9), (257, 1)] {
        compare::check_list(run, m, x, &[])?;
    }
    let good = Given::from_table(&Table::of(1, 2, &[(4, 1, 3)]));
    let bad = Given::from_table(&Table::of(0, 2, &[(4, 1, 3)]));
    for table in [&good, &bad] {
        for lengths in [(0, 0), (0, 4), (4, 0), (0, 4096), (4096, 0), (4, 4)] {
            compare::judge(run, table, lengths)?;
            compare::ladder(run, table, lengths)?;
        }
        for file in [&[][..], &WORKED] {
            for (number, out) in [(7, 0), (8, 0), (7, 40), (8, 80)] {
                compare::put(run, file, number, table, out)?;
            }
        }
    }
    compare::file_check(run, &[])?;
    compare::find(run, &[], 0)?;
    compare::find(run, &[], 7)?;
    compare::shift_text(run, &[])?;
    Ok(())
}

pub fn all(run: &mut Run) -> Outcome {
    cases(run)?;
    if let Some(subject) = run.subject.with_nulls() {
        let mut nulls = run.beside(subject.as_ref());
        cases(&mut nulls)?;
        run.cases += nulls.cases;
        run.tally("with null pointers");
    }
    Ok(())
}
