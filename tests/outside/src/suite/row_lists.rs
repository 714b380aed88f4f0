//! Lent lists of rows: none, up to more than a table has room for, good and bad.

use crate::answers::Row;
use crate::compare;
use crate::draw::{any, good, Size};
use crate::run::{Outcome, Run};

/// Lists of each length up to 40 rows, and of some that 8 or 16 bits cannot count; with m and x in their range, outside, and
/// outside in such a way that their lower bytes are in range.
pub fn lengths(run: &mut Run) -> Outcome {
    for length in (0..=40).chain([255, 256, 257, 288, 289, 65_536, 65_537]) {
        let rows = vec![Row { period: 4, execution: 2, deadline: 2 }; length];
        for (m, x) in [(1, 1), (16, 8), (16, 1), (1, 8), (2, 3), (0, 3), (17, 0), (2, 0), (2, 9), (9, 2)] {
            compare::check_list(run, m, x, &rows)?;
        }
        for (m, x) in [(257, 1), (1, 257), (259, 0), (2, 264), (528, 8), (65_281, 1), (1, 65_281), (65_535, 65_535)] {
            compare::check_list(run, m, x, &rows)?;
        }
        // Each field of the first and of the last row is looked at, where the list is not too long.
        for at in [0, length.saturating_sub(1)] {
            for wrong in [
                Row { period: 65_535, execution: 2, deadline: 2 },
                Row { period: 4, execution: 65_535, deadline: 2 },
                Row { period: 4, execution: 2, deadline: 65_535 },
            ] {
                let mut changed = rows.clone();
                if let Some(row) = changed.get_mut(at) {
                    *row = wrong;
                }
                compare::check_list(run, 2, 3, &changed)?;
            }
        }
    }
    Ok(())
}

/// Rows of good tables and of damaged ones, cut anywhere and one after another.
pub fn random(run: &mut Run) -> Outcome {
    while run.more() {
        let table = good(&mut run.random, Size::Middle);
        let rows = table.counted().to_vec();
        let checked = compare::check_list(run, table.m, table.x, &rows)?;
        run.tally(if checked.refusal.no == 0 { "good" } else { "refused" });
        let cut = run.random.below(rows.len() + 1);
        compare::check_list(run, table.m, table.x, &rows[..cut])?;
        let damaged = any(&mut run.random).table();
        let damaged_rows = damaged.rows[..32.min(damaged.count as usize)].to_vec();
        compare::check_list(run, damaged.m, damaged.x, &damaged_rows)?;
        let both = [rows, damaged_rows].concat();
        compare::check_list(run, table.m, table.x, &both)?;
    }
    Ok(())
}
