//! The task file: its contents, its sum and its check.

use super::table::frame_of;
use crate::answers::{Filed, Refusal, Row, Table};

/// One entry of the contents.
#[derive(Clone, Copy, Debug)]
pub struct Entry {
    pub kind: u16,
    pub number: u16,
    pub start: u16,
    pub length: u16,
    pub sum: u32,
}

impl Entry {
    pub fn is_table(&self) -> bool {
        self.kind == 1
    }
    pub fn is_note(&self) -> bool {
        (128..=255).contains(&self.kind)
    }
    /// The first byte past the body, which may be past the file.
    pub fn end(&self) -> usize {
        self.start as usize + self.length as usize
    }
    pub fn body<'a>(&self, file: &'a [u8]) -> &'a [u8] {
        &file[self.start as usize..self.end()]
    }
}

/// Two bytes, little-endian.
fn two(bytes: &[u8], at: usize) -> u16 {
    bytes[at] as u16 + 256 * bytes[at + 1] as u16
}

/// "for each byte, a grows by the byte and then b by a, both rolling over at 65,536"
pub fn sum(body: &[u8]) -> u32 {
    let (mut a, mut b) = (0u32, 0u32);
    for &byte in body {
        a = (a + byte as u32) % 65_536;
        b = (b + a) % 65_536;
    }
    a + 65_536 * b
}

/// Entry i: "kind (2 bytes), number (2), start (2), length (2), sum (4)".
fn entry(file: &[u8], i: usize) -> Entry {
    let at = 4 + 12 * i;
    Entry {
        kind: two(file, at),
        number: two(file, at + 2),
        start: two(file, at + 4),
        length: two(file, at + 6),
        sum: two(file, at + 8) as u32 + 65_536 * two(file, at + 10) as u32,
    }
}

/// The table of a body that has the length of its count, at most 32.
fn table_of(body: &[u8]) -> Table {
    let mut table = Table { m: body[0] as u16, x: body[1] as u16, count: body[2] as u16, ..Table::default() };
    let rows = table.rows.iter_mut().take(body[2] as usize);
    for (i, row) in rows.enumerate() {
        let at = 4 + 6 * i;
        *row = Row { period: two(body, at), execution: two(body, at + 2), deadline: two(body, at + 4) };
    }
    table
}

/// The table in a body, or its refusal 15 or 1 to 7.
pub fn read_table(body: &[u8]) -> Result<Table, Refusal> {
    if body.len() < 4 || body[3] != 0 || body.len() != 4 + 6 * body[2] as usize {
        return Err(Refusal { no: 15, entry: 0, row: 0 });
    }
    let table = table_of(body);
    frame_of(&table)?;
    Ok(table)
}

/// The entries of a good file, or its first refusal.
pub fn entries_of(file: &[u8]) -> Result<Vec<Entry>, Refusal> {
    let refuse = |no, entry: usize| Err(Refusal { no, entry: entry as u32, row: 0 });
    if file.len() < 4 || file.len() > 65_535 {
        return refuse(9, 0);
    }
    if two(file, 2) != 1 {
        return refuse(10, 0);
    }
    let n = two(file, 0) as usize;
    if n < 1 || n > 64 || 4 + 12 * n > file.len() {
        return refuse(11, 0);
    }
    let entries: Vec<Entry> = (0..n).map(|i| entry(file, i)).collect();
    let mut must_start = 4 + 12 * n;
    for (i, entry) in entries.iter().enumerate() {
        if !entry.is_table() && !entry.is_note() {
            return refuse(12, i);
        }
        if entry.start as usize != must_start || entry.end() > file.len() {
            return refuse(13, i);
        }
        if entries[..i].iter().any(|earlier| earlier.number == entry.number) {
            return refuse(16, i);
        }
        must_start = entry.end();
    }
    if must_start != file.len() {
        return refuse(13, n - 1);
    }
    for (i, entry) in entries.iter().enumerate() {
        let body = entry.body(file);
        if sum(body) != entry.sum {
            return refuse(14, i);
        }
        if entry.is_table() {
            if let Err(refusal) = read_table(body) {
                return Err(Refusal { entry: i as u32, ..refusal });
            }
        }
    }
    Ok(entries)
}

/// The check's answer: the number of entries, or the refusal with 0 entries.
pub fn check(file: &[u8]) -> Filed {
    match entries_of(file) {
        Ok(entries) => Filed { refusal: Refusal::default(), entries: entries.len() as u32 },
        Err(refusal) => Filed { refusal, entries: 0 },
    }
}
