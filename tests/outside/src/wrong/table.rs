//! The check of a table, with its wrong turns.

use super::Wrong;
use crate::answers::{Refusal, Row, Table};

pub const TURNS: &[&str] = &[
    "m up to 15",
    "m up to 17",
    "x up to 7",
    "x up to 9",
    "count up to 31",
    "count before x",
    "T up to 4,095",
    "T up to 4,097",
    "D below T",
    "C below D",
    "C up to T",
    "C before D",
    "7 before a later row's 4",
    "7 with row 0",
    "4 with row 0",
    "frame below 4,096",
    "frame by the product",
    "one row past the count",
    "a list of 33 rows by its first 32",
    "an empty list's frame is 1",
    "a list's count rolls over at 256",
    "a list from its second row on",
    "a list's depth is its m",
    "a list's count rolls over at 65,536",
    "a list's m in a byte",
    "a list's x in a byte",
    "m in a byte",
    "x in a byte",
    "the count in a byte",
];

pub fn refuse(no: u32, row: usize) -> Refusal {
    Refusal { no, entry: 0, row: row as u32 }
}

fn greatest_divisor(mut a: u32, mut b: u32) -> u32 {
    while b > 0 {
        (a, b) = (b, a % b);
    }
    a
}

/// The frame of the rows so far, with one more period.
fn longer(w: &Wrong, frame: u32, period: u32) -> u32 {
    if w.turn("frame by the product") {
        return if frame % period == 0 { frame } else { frame * period };
    }
    frame / greatest_divisor(frame, period) * period
}

fn check_row(w: &Wrong, i: usize, row: &Row) -> Result<(), Refusal> {
    let longest = if w.turn("T up to 4,095") { 4095 } else { 4096 + w.turn("T up to 4,097") as u16 };
    if row.period == 0 || row.period > longest {
        return Err(refuse(4, if w.turn("4 with row 0") { 0 } else { i }));
    }
    let bad_deadline = row.deadline == 0 || row.deadline > row.period - (w.turn("D below T") && row.period > 1) as u16;
    let most = if w.turn("C up to T") { row.period } else { row.deadline };
    let bad_execution = row.execution == 0 || row.execution > most || w.turn("C below D") && row.execution == most;
    if bad_execution && w.turn("C before D") {
        return Err(refuse(6, i));
    }
    if bad_deadline {
        return Err(refuse(5, i));
    }
    if bad_execution {
        return Err(refuse(6, i));
    }
    Ok(())
}

fn check_head(w: &Wrong, table: &Table) -> Result<(), Refusal> {
    let most_m = if w.turn("m up to 15") { 15 } else { 16 + w.turn("m up to 17") as u16 };
    let most_x = if w.turn("x up to 7") { 7 } else { 8 + w.turn("x up to 9") as u16 };
    let most_rows = if w.turn("count up to 31") { 31 } else { 32 };
    let bad_count = table.count == 0 || table.count > most_rows;
    if table.m == 0 || table.m > most_m {
        return Err(refuse(1, 0));
    }
    if bad_count && w.turn("count before x") {
        return Err(refuse(3, 0));
    }
    if table.x == 0 || table.x > most_x {
        return Err(refuse(2, 0));
    }
    if bad_count {
        return Err(refuse(3, 0));
    }
    Ok(())
}

pub fn frame_of(w: &Wrong, table: &Table) -> Result<u32, Refusal> {
    check_head(w, table)?;
    let count = table.count as usize;
    let mut frame = 1;
    let mut over = None;
    for (i, row) in table.rows[..count].iter().enumerate() {
        check_row(w, i, row)?;
        if over.is_none() {
            frame = longer(w, frame, row.period as u32);
            if frame > 4096 - w.turn("frame below 4,096") as u32 {
                over = Some(refuse(7, if w.turn("7 with row 0") { 0 } else { i }));
                if w.turn("7 before a later row's 4") {
                    break;
                }
            }
        }
    }
    if w.turn("one row past the count") && count < 32 && table.rows[count] != Row::default() {
        check_row(w, count, &table.rows[count])?;
    }
    match over {
        Some(refusal) => Err(refusal),
        None => Ok(frame),
    }
}

/// The frame of a lent list of rows, by way of a table of as many.
pub fn frame_of_list(w: &Wrong, m: u16, x: u16, list: &[Row]) -> Result<u32, Refusal> {
    let list = if w.turn("a list from its second row on") { list.get(1..).unwrap_or(list) } else { list };
    let rows = list.len();
    let most = if w.turn("a list of 33 rows by its first 32") { 32 } else { 33 };
    let count = match w.0 {
        "a list's count rolls over at 256" => rows % 256,
        "a list's count rolls over at 65,536" => rows % 65_536,
        _ => rows.min(most),
    };
    let mut table = Table { m: w.narrowed("a list's m in a byte", m), count: count as u16, ..Table::default() };
    table.x = if w.turn("a list's depth is its m") { m } else { w.narrowed("a list's x in a byte", x) };
    table.rows.iter_mut().zip(list).for_each(|(row, listed)| *row = *listed);
    let frame = frame_of(w, &table);
    if rows == 0 && w.turn("an empty list's frame is 1") && frame == Err(refuse(3, 0)) {
        return Ok(1);
    }
    frame
}
