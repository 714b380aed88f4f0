//! Add and remove, with their wrong turns.

use super::table::{frame_of, refuse};
use super::Wrong;
use crate::answers::{Refusal, Row, Table, Tabled};

pub const TURNS: &[&str] = &[
    "add looks at the new row first",
    "add keeps what is past the count",
    "add's refusal with the new count as row",
    "a refused add gives zeros",
    "add that touches nothing",
    "18 before the given table",
    "18 with its row",
    "remove at the count",
    "remove leaves a last row behind",
    "remove keeps what is past the count",
    "a refused remove gives zeros",
    "a refused add gives m in a byte",
    "a refused remove gives m in a byte",
    "a refused add gives x in a byte",
    "a refused remove gives the count in a byte",
    "a refused add gives zeros past the count",
    "a refused remove gives zeros past the count",
    "an index in a byte",
    "an index in 16 bits",
];

fn refused(w: &Wrong, edit: &str, table: &Table, refusal: Refusal) -> Tabled {
    let mut given = *table;
    match w.0.strip_prefix("a refused ").and_then(|turn| turn.strip_prefix(edit)) {
        Some(" gives zeros") => given = Table::default(),
        Some(" gives m in a byte") => given.m %= 256,
        Some(" gives x in a byte") => given.x %= 256,
        Some(" gives the count in a byte") => given.count %= 256,
        Some(" gives zeros past the count") => given.rows[32.min(table.count as usize)..].fill(Row::default()),
        _ => {}
    }
    Tabled { refusal, table: given }
}

/// The table as it came, with or without what is past its count.
fn start(table: &Table, keep: bool) -> Table {
    let mut result = *table;
    if !keep {
        result.rows[table.count as usize..].fill(Row::default());
    }
    result
}

pub fn add(w: &Wrong, table: &Table, row: Row) -> Tabled {
    if w.turn("add looks at the new row first") && row.period == 0 && table.count < 33 {
        return refused(w, "add", table, refuse(4, table.count as usize));
    }
    if let Err(refusal) = frame_of(w, table) {
        return refused(w, "add", table, refusal);
    }
    if table.count == 32 {
        return refused(w, "add", table, refuse(3, 0));
    }
    let mut result = start(table, w.turn("add keeps what is past the count"));
    result.rows[table.count as usize] = row;
    result.count += 1;
    match frame_of(w, &result) {
        Ok(_) if w.turn("add that touches nothing") => Tabled { table: *table, ..Tabled::default() },
        Ok(_) => Tabled { table: result, ..Tabled::default() },
        Err(mut refusal) => {
            refusal.row += w.turn("add's refusal with the new count as row") as u32;
            refused(w, "add", table, refusal)
        }
    }
}

pub fn remove(w: &Wrong, table: &Table, index: u32) -> Tabled {
    let index = match w.0 {
        "an index in a byte" => index % 256,
        "an index in 16 bits" => index % 65_536,
        _ => index,
    };
    let count = table.count as u32 + (w.turn("remove at the count") && table.count < 32) as u32;
    let no_such_row = refuse(18, if w.turn("18 with its row") { index as usize } else { 0 });
    if w.turn("18 before the given table") && index >= table.count as u32 {
        return refused(w, "remove", table, no_such_row);
    }
    if let Err(refusal) = frame_of(w, table) {
        return refused(w, "remove", table, refusal);
    }
    if index >= count {
        return refused(w, "remove", table, no_such_row);
    }
    if table.count == 1 {
        return refused(w, "remove", table, refuse(3, 0));
    }
    let mut result = start(table, w.turn("remove keeps what is past the count"));
    let last = table.count as usize - 1;
    result.rows.copy_within(index as usize + 1..=last.max(index as usize), index as usize);
    if !w.turn("remove leaves a last row behind") {
        result.rows[last] = Row::default();
    }
    result.count -= 1;
    Tabled { table: result, ..Tabled::default() }
}
