//! The check of a table and of a list of rows: refusals 1 to 7 in their order, and the frame.

use crate::answers::{Checked, Refusal, Row, Table};

/// Euclid's divisor: "the divisor of (a, b) is that of (b, a mod b), until b is 0".
fn divisor(a: u64, b: u64) -> u64 {
    if b == 0 {
        a
    } else {
        divisor(b, a % b)
    }
}

/// The least common multiple.
fn multiple(a: u64, b: u64) -> u64 {
    a / divisor(a, b) * b
}

/// The refusal of a table that is in no file.
pub fn refuse(no: u32, row: usize) -> Refusal {
    Refusal { no, entry: 0, row: row as u32 }
}

/// The frame of a table, or its first refusal.
pub fn frame_of(table: &Table) -> Result<u32, Refusal> {
    let count = table.count as usize;
    if count > 32 {
        // No more rows than there is room for; m and x are refused before the count is.
        return frame_of_list(table.m, table.x, &[]);
    }
    frame_of_list(table.m, table.x, &table.rows[..count])
}

/// The frame of a lent list of rows with m and x beside it, or its first refusal.
pub fn frame_of_list(m: u16, x: u16, rows: &[Row]) -> Result<u32, Refusal> {
    if m < 1 || m > 16 {
        return Err(refuse(1, 0));
    }
    if x < 1 || x > 8 {
        return Err(refuse(2, 0));
    }
    if rows.is_empty() || rows.len() > 32 {
        return Err(refuse(3, 0));
    }
    for (i, row) in rows.iter().enumerate() {
        if row.period < 1 || row.period > 4096 {
            return Err(refuse(4, i));
        }
        if row.deadline < 1 || row.deadline > row.period {
            return Err(refuse(5, i));
        }
        if row.execution < 1 || row.execution > row.deadline {
            return Err(refuse(6, i));
        }
    }
    let mut frame = 1;
    for (i, row) in rows.iter().enumerate() {
        frame = multiple(frame, row.period as u64);
        if frame > 4096 {
            return Err(refuse(7, i));
        }
    }
    Ok(frame as u32)
}

/// A check's answer: the frame, or the refusal with frame 0.
fn answer(given: Result<u32, Refusal>) -> Checked {
    match given {
        Ok(frame) => Checked { refusal: Refusal::default(), frame },
        Err(refusal) => Checked { refusal, frame: 0 },
    }
}

pub fn check(table: &Table) -> Checked {
    answer(frame_of(table))
}

pub fn check_list(m: u16, x: u16, rows: &[Row]) -> Checked {
    answer(frame_of_list(m, x, rows))
}
