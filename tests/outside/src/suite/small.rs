//! All tables of up to three rows with short periods, at every depth, held to the reference and to the exact search.

use super::sound::against_search;
use crate::answers::{Given, Row, Table};
use crate::compare;
use crate::run::{Outcome, Run};

/// Every row with a period up to the longest.
fn all_rows(longest: u16) -> Vec<Row> {
    let mut rows = vec![];
    for period in 1..=longest {
        for deadline in 1..=period {
            for execution in 1..=deadline {
                rows.push(Row { period, execution, deadline });
            }
        }
    }
    rows
}

fn one(run: &mut Run, m: u16, rows: &[Row]) -> Outcome {
    let mut table = Table { m, x: 1, count: rows.len() as u16, ..Table::default() };
    table.rows[..rows.len()].copy_from_slice(rows);
    let ladder = compare::ladder(run, &Given::from_table(&table), (60, 60))?;
    against_search(run, &table, &ladder)?;
    for x in [1, 2, 3, 8] {
        table.x = x;
        compare::judge(run, &Given::from_table(&table), (60, 60))?;
    }
    Ok(())
}

pub fn all(run: &mut Run) -> Outcome {
    let rows = all_rows(6);
    for (i, &first) in rows.iter().enumerate() {
        one(run, 1, &[first])?;
        for &second in &rows[i..] {
            one(run, 1, &[first, second])?;
            one(run, 2, &[second, first])?;
        }
    }
    let rows = all_rows(4);
    for (i, &first) in rows.iter().enumerate() {
        for (j, &second) in rows.iter().enumerate().skip(i) {
            for &third in &rows[j..] {
                one(run, 1, &[first, third, second])?;
                one(run, 2, &[third, second, first])?;
            }
        }
    }
    Ok(())
}
