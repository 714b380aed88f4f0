//! Find and put: a table taken from a task file by its number, and a table written into one.

use super::file::{entries_of, read_table, sum, Entry};
use super::table::frame_of;
use crate::answers::{Refusal, Table, Tabled, Written};

/// The table of that number in a good file.
fn found(file: &[u8], number: u16) -> Result<Table, Refusal> {
    let entries = entries_of(file)?;
    match entries.iter().find(|entry| entry.is_table() && entry.number == number) {
        Some(entry) => read_table(entry.body(file)),
        None => Err(Refusal { no: 17, entry: 0, row: 0 }),
    }
}

/// "Find gives the table with a number."
pub fn find(file: &[u8], number: u16) -> Tabled {
    match found(file, number) {
        Ok(table) => Tabled { refusal: Refusal::default(), table },
        Err(refusal) => Tabled { refusal, table: Table::default() },
    }
}

/// "A table body: m, x, the row count and a zero byte, then T, C, D of each row, 2 bytes each."
pub fn body_of(table: &Table) -> Vec<u8> {
    let byte = |number: u16| u8::try_from(number).expect("a good table was given");
    let mut body = vec![byte(table.m), byte(table.x), byte(table.count), 0];
    for row in table.counted() {
        for number in [row.period, row.execution, row.deadline] {
            body.extend([(number % 256) as u8, (number / 256) as u8]);
        }
    }
    body
}

/// The whole file of these entries, each with its kind, its number and its body; it may be too long.
pub fn whole_file(entries: &[(u16, u16, Vec<u8>)]) -> Vec<u8> {
    let little = |number: usize| [(number % 256) as u8, (number / 256 % 256) as u8];
    let mut file = vec![];
    file.extend(little(entries.len()));
    file.extend(little(1));
    let mut start = 4 + 12 * entries.len();
    for (kind, number, body) in entries {
        file.extend(little(*kind as usize));
        file.extend(little(*number as usize));
        file.extend(little(start));
        file.extend(little(body.len()));
        file.extend(little(sum(body) as usize % 65_536));
        file.extend(little(sum(body) as usize / 65_536));
        start += body.len();
    }
    for (_, _, body) in entries {
        file.extend(body);
    }
    file
}

/// The file with the table replaced in its place or added as the last entry.
fn with_table(file: &[u8], number: u16, table: &Table) -> Result<Vec<u8>, Refusal> {
    let refuse = |no| Err(Refusal { no, entry: 0, row: 0 });
    let old: Vec<Entry> = entries_of(file)?;
    frame_of(table)?;
    let mut entries: Vec<(u16, u16, Vec<u8>)> =
        old.iter().map(|entry| (entry.kind, entry.number, entry.body(file).to_vec())).collect();
    match old.iter().position(|entry| entry.number == number) {
        Some(i) if old[i].is_note() => return refuse(17),
        Some(i) => entries[i].2 = body_of(table),
        None => entries.push((1, number, body_of(table))),
    }
    if entries.len() > 64 {
        return refuse(11);
    }
    let written = whole_file(&entries);
    if written.len() > 65_535 {
        return refuse(9);
    }
    Ok(written)
}

/// "it gives the length, and output bytes past it are unchanged"
pub fn put(file: &[u8], number: u16, table: &Table, out: &mut [u8]) -> Written {
    match with_table(file, number, table) {
        Err(refusal) => Written { refusal, length: 0 },
        Ok(written) if written.len() > out.len() => {
            Written { refusal: Refusal { no: 19, entry: 0, row: 0 }, length: 0 }
        }
        Ok(written) => {
            out[..written.len()].copy_from_slice(&written);
            Written { refusal: Refusal::default(), length: written.len() as u32 }
        }
    }
}
