//! Adding a row at the end of a table, and removing the row at an index.

use super::table::{frame_of, refuse};
use crate::answers::{Refusal, Row, Table, Tabled};

/// "add and remove then give back the table they got"
fn give_back(table: &Table, refusal: Refusal) -> Tabled {
    Tabled { refusal, table: *table }
}

/// The table of these rows, if it is a good one; the given table with the refusal if not.
fn result(given: &Table, rows: &[Row]) -> Tabled {
    if rows.len() > 32 {
        return give_back(given, refuse(3, 0));
    }
    let mut table = Table { m: given.m, x: given.x, count: rows.len() as u16, ..Table::default() };
    table.rows[..rows.len()].copy_from_slice(rows);
    match frame_of(&table) {
        Ok(_) => Tabled { refusal: Refusal::default(), table },
        Err(refusal) => give_back(given, refusal),
    }
}

/// "Adding puts a row at the end."
pub fn add(table: &Table, row: Row) -> Tabled {
    if let Err(refusal) = frame_of(table) {
        return give_back(table, refusal);
    }
    let mut rows = table.counted().to_vec();
    rows.push(row);
    result(table, &rows)
}

/// "Removing takes the row at an index and moves later rows up by one."
pub fn remove(table: &Table, index: u32) -> Tabled {
    if let Err(refusal) = frame_of(table) {
        return give_back(table, refusal);
    }
    if index >= table.count as u32 {
        return give_back(table, refuse(18, 0));
    }
    let mut rows = table.counted().to_vec();
    rows.remove(index as usize);
    result(table, &rows)
}
