//! The file's check, with its wrong turns.

use super::table::frame_of;
use super::Wrong;
use crate::answers::{Refusal, Row, Table};

pub const TURNS: &[&str] = &[
    "9 up to 65,534 bytes",
    "9 from 65,537 bytes",
    "a file of no bytes has form 0",
    "11 before 10",
    "form by its first byte",
    "n up to 63",
    "n up to 65",
    "contents may end past the file",
    "a file may not end with its contents",
    "12 of all entries first",
    "13 before 12",
    "16 before 13",
    "16 before 12",
    "16 after the bodies",
    "16 among tables only",
    "16 against the entry before only",
    "number 0 may repeat",
    "kind by its first byte",
    "kind 127 is a note",
    "kind 255 refused",
    "kind 2 is a table",
    "starts not looked at",
    "a body may end past the file",
    "start and length in 16 bits",
    "bytes left over",
    "bytes left over with entry 0",
    "14 before bytes left over",
    "sums of notes not looked at",
    "sum at 65,521",
    "b before a",
    "sum of 16 bits",
    "15 before 14",
    "15 without the zero byte",
    "15 without the length",
    "15 after 1 to 3",
    "15 of all entries before 1 to 7",
    "a table's refusal without its entry",
    "a table's refusal without its row",
    "entries counted from 1",
];

#[derive(Clone, Copy)]
pub struct Entry {
    pub kind: u16,
    pub number: u16,
    pub start: usize,
    pub length: usize,
    pub sum: u32,
}

impl Entry {
    /// The body, as far as the file has it.
    pub fn body<'a>(&self, file: &'a [u8]) -> &'a [u8] {
        let start = self.start.min(file.len());
        &file[start..(self.start + self.length).min(file.len())]
    }
}

fn two(bytes: &[u8], at: usize) -> u16 {
    u16::from_le_bytes([bytes[at], bytes[at + 1]])
}

pub fn sum(w: &Wrong, body: &[u8]) -> u32 {
    let roll = if w.turn("sum at 65,521") { 65_521 } else { 65_536 };
    let (mut a, mut b) = (0, 0);
    for &byte in body {
        if w.turn("b before a") {
            b = (b + a) % roll;
        }
        a = (a + byte as u32) % roll;
        if !w.turn("b before a") {
            b = (b + a) % roll;
        }
    }
    b << 16 | a
}

/// 0 refused, 1 a table, 2 a note.
pub fn kind_of(w: &Wrong, kind: u16) -> u32 {
    let kind = if w.turn("kind by its first byte") { kind & 255 } else { kind };
    match kind {
        1 => 1,
        2 if w.turn("kind 2 is a table") => 1,
        127 if w.turn("kind 127 is a note") => 2,
        255 if w.turn("kind 255 refused") => 0,
        128..=255 => 2,
        _ => 0,
    }
}

pub fn table_of(body: &[u8]) -> Table {
    let mut table = Table { m: body[0].into(), x: body[1].into(), count: body[2].into(), ..Table::default() };
    let rows = table.rows.iter_mut().take(table.count.into());
    rows.zip(body[4..].chunks_exact(6)).for_each(|(row, bytes)| {
        *row = Row { period: two(bytes, 0), execution: two(bytes, 2), deadline: two(bytes, 4) };
    });
    table
}

fn check_head(w: &Wrong, file: &[u8]) -> Result<usize, u32> {
    let longest = if w.turn("9 up to 65,534 bytes") { 65_534 } else { 65_535 + w.turn("9 from 65,537 bytes") as usize };
    if file.is_empty() && w.turn("a file of no bytes has form 0") {
        return Err(10);
    }
    if file.len() < 4 || file.len() > longest {
        return Err(9);
    }
    let form = if w.turn("form by its first byte") { file[2] as u16 } else { two(file, 2) };
    let n = two(file, 0) as usize;
    let most = if w.turn("n up to 63") { 63 } else { 64 + w.turn("n up to 65") as usize };
    let mut past = 4 + 12 * n > file.len();
    if w.turn("contents may end past the file") {
        past = 4 + 12 * n > file.len() + 12 && n > 1;
    }
    let bad = n < 1 || n > most || past || w.turn("a file may not end with its contents") && 4 + 12 * n == file.len();
    if bad && w.turn("11 before 10") {
        return Err(11);
    }
    if form != 1 {
        return Err(10);
    }
    if bad {
        return Err(11);
    }
    Ok(n)
}

/// The entries, as far as the file has their bytes.
fn read_entries(file: &[u8], n: usize) -> Vec<Entry> {
    let whole = [file, &[0; 12 * 66][..]].concat();
    let entry = |i: usize| {
        let at = 4 + 12 * i;
        let sum = two(&whole, at + 8) as u32 | (two(&whole, at + 10) as u32) << 16;
        let (start, length) = (two(&whole, at + 4) as usize, two(&whole, at + 6) as usize);
        Entry { kind: two(&whole, at), number: two(&whole, at + 2), start, length, sum }
    };
    (0..n).map(entry).collect()
}

fn repeats(w: &Wrong, entries: &[Entry], i: usize) -> bool {
    let from = if w.turn("16 against the entry before only") { i.saturating_sub(1) } else { 0 };
    entries[from..i].iter().any(|earlier| {
        earlier.number == entries[i].number
            && !(w.turn("16 among tables only") && (earlier.kind != 1 || entries[i].kind != 1))
            && !(w.turn("number 0 may repeat") && earlier.number == 0)
    })
}

fn misplaced(w: &Wrong, entry: &Entry, must_start: usize, length: usize) -> bool {
    let mut end = entry.start + entry.length;
    if w.turn("start and length in 16 bits") {
        end %= 65_536;
    }
    let wrong_start = entry.start != must_start && !w.turn("starts not looked at");
    wrong_start || end > length && !w.turn("a body may end past the file")
}

/// 12, 13 and 16 of each entry in turn.
fn check_entries(w: &Wrong, file: &[u8], entries: &[Entry]) -> Result<usize, (u32, usize)> {
    let refused = |entry: &Entry| kind_of(w, entry.kind) == 0;
    if w.turn("12 of all entries first") {
        if let Some(i) = entries.iter().position(refused) {
            return Err((12, i));
        }
    }
    let mut must_start = 4 + 12 * entries.len();
    for (i, entry) in entries.iter().enumerate() {
        let faults =
            [(12, refused(entry)), (13, misplaced(w, entry, must_start, file.len())), (16, repeats(w, entries, i))];
        let order = match w.0 {
            "13 before 12" => vec![1, 0, 2],
            "16 before 13" => vec![0, 2, 1],
            "16 before 12" => vec![2, 0, 1],
            "16 after the bodies" => vec![0, 1],
            _ => vec![0, 1, 2],
        };
        if let Some(&k) = order.iter().find(|&&k| faults[k].1) {
            return Err((faults[k].0, i));
        }
        must_start = entry.start + entry.length;
    }
    Ok(must_start)
}

fn has_body_form(w: &Wrong, body: &[u8]) -> bool {
    body.len() >= 4
        && (body[3] == 0 || w.turn("15 without the zero byte"))
        && (body.len() == 4 + 6 * body[2] as usize || w.turn("15 without the length"))
}

fn check_body(w: &Wrong, body: &[u8]) -> Result<(), Refusal> {
    if w.turn("15 after 1 to 3") && body.len() >= 4 {
        let table = table_of(body);
        if let Some(refusal) = frame_of(w, &table).err().filter(|refusal| refusal.no <= 3) {
            return Err(refusal);
        }
    }
    if !has_body_form(w, body) {
        return Err(Refusal { no: 15, entry: 0, row: 0 });
    }
    frame_of(w, &table_of(body)).map(|_| ())
}

/// 14, 15 and 1 to 7 of one entry.
fn check_sum_and_body(w: &Wrong, entry: &Entry, file: &[u8]) -> Result<(), Refusal> {
    let body = entry.body(file);
    let refuse = |no| Err(Refusal { no, entry: 0, row: 0 });
    let table = kind_of(w, entry.kind) == 1;
    if w.turn("15 before 14") && table && !has_body_form(w, body) {
        return refuse(15);
    }
    let mut wrong_sum = sum(w, body) != entry.sum;
    if w.turn("sum of 16 bits") {
        wrong_sum = sum(w, body) as u16 != entry.sum as u16;
    }
    if wrong_sum && (table || !w.turn("sums of notes not looked at")) {
        return refuse(14);
    }
    if table {
        check_body(w, body).map_err(|mut refusal| {
            refusal.row *= !w.turn("a table's refusal without its row") as u32;
            refusal
        })?;
    }
    Ok(())
}

fn check_bodies(w: &Wrong, file: &[u8], entries: &[Entry]) -> Result<(), Refusal> {
    if w.turn("15 of all entries before 1 to 7") {
        for (i, entry) in entries.iter().enumerate() {
            match check_sum_and_body(w, entry, file) {
                Err(refusal) if refusal.no >= 14 => return Err(Refusal { entry: i as u32, ..refusal }),
                _ => {}
            }
        }
    }
    for (i, entry) in entries.iter().enumerate() {
        check_sum_and_body(w, entry, file).map_err(|refusal| {
            let without = w.turn("a table's refusal without its entry") && refusal.no <= 7;
            Refusal { entry: if without { 0 } else { i as u32 }, ..refusal }
        })?;
    }
    Ok(())
}

pub fn entries_of(w: &Wrong, file: &[u8]) -> Result<Vec<Entry>, Refusal> {
    let from = w.turn("entries counted from 1") as usize;
    let refuse = |no, i: usize| Refusal { no, entry: (i + from) as u32, row: 0 };
    let n = check_head(w, file).map_err(|no| Refusal { no, entry: 0, row: 0 })?;
    let entries = read_entries(file, n);
    let end = check_entries(w, file, &entries).map_err(|(no, i)| refuse(no, i))?;
    if w.turn("14 before bytes left over") {
        check_bodies(w, file, &entries)?;
    }
    if end != file.len() && !w.turn("bytes left over") {
        return Err(refuse(13, if w.turn("bytes left over with entry 0") { 0 } else { n - 1 }));
    }
    check_bodies(w, file, &entries)?;
    if let Some(i) = (0..n).find(|&i| w.turn("16 after the bodies") && repeats(w, &entries, i)) {
        return Err(refuse(16, i));
    }
    Ok(entries)
}
