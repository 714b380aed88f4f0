//! Find and put, with their wrong turns.

use super::file::{entries_of, kind_of, sum, table_of, Entry};
use super::table::frame_of;
use super::Wrong;
use crate::answers::{Refusal, Table, Tabled, Written};

pub const TURNS: &[&str] = &[
    "find gives a note",
    "find gives the first table",
    "find leaves out number 0",
    "a refused find gives m",
    "17 with its entry",
    "the new table before the file",
    "the new table's refusal with an entry",
    "19 before the file",
    "17 before the new table",
    "11 before the new table",
    "9 before the new table",
    "19 before the new table",
    "11 before 17",
    "9 before 17",
    "19 before 17",
    "9 before 11",
    "19 before 11",
    "19 before 9",
    "19 at exactly the length",
    "put into no output gives the length",
    "find by a number's first byte",
    "put by a number's first byte",
    "put over a note",
    "put always adds",
    "put adds at the front",
    "put removes and adds",
    "later starts not moved",
    "the old sum kept",
    "all 32 rows written",
    "bytes past the length cleared",
    "output touched before 19",
    "put that touches nothing",
    "a length in a refused put",
    "a 64th entry refused",
    "a grown file of 65,535 refused",
];

fn found(w: &Wrong, file: &[u8], number: u16) -> Result<Table, Refusal> {
    let entries = entries_of(w, file)?;
    let place = entries.iter().position(|entry| {
        let close = w.turn("find by a number's first byte") && entry.number % 256 == number % 256;
        let wanted = entry.number == number || close || w.turn("find gives the first table");
        let table = kind_of(w, entry.kind) == 1 || w.turn("find gives a note") && entry.length > 3;
        wanted && table && !(w.turn("find leaves out number 0") && number == 0)
    });
    match place {
        Some(i) => Ok(table_of(entries[i].body(file))),
        None => {
            let i = entries.iter().position(|entry| entry.number == number).unwrap_or(0);
            Err(Refusal { no: 17, entry: if w.turn("17 with its entry") { i as u32 } else { 0 }, row: 0 })
        }
    }
}

pub fn find(w: &Wrong, file: &[u8], number: u16) -> Tabled {
    match found(w, file, number) {
        Ok(table) => Tabled { refusal: Refusal::default(), table },
        Err(refusal) => {
            let m = w.turn("a refused find gives m") as u16;
            Tabled { refusal, table: Table { m, ..Table::default() } }
        }
    }
}

fn new_body(w: &Wrong, table: &Table) -> Vec<u8> {
    let count = if w.turn("all 32 rows written") { 32 } else { 32.min(table.count as usize) };
    let rows = &table.rows[..count];
    let mut body = vec![table.m as u8, table.x as u8, table.count as u8, 0];
    for row in rows {
        for number in [row.period, row.execution, row.deadline] {
            body.extend(number.to_le_bytes());
        }
    }
    body
}

/// The entries of the new file, each with its old entry and its new body.
fn new_entries(w: &Wrong, file: &[u8], old: &[Entry], number: u16, table: &Table) -> Vec<(Entry, Vec<u8>)> {
    let mut list: Vec<(Entry, Vec<u8>)> = old.iter().map(|entry| (*entry, entry.body(file).to_vec())).collect();
    let body = new_body(w, table);
    let added = Entry { kind: 1, number, start: 0, length: 0, sum: sum(w, &body) };
    match old.iter().position(|entry| entry.number == number) {
        Some(i) if w.turn("put removes and adds") => {
            list.remove(i);
            list.push((added, body));
        }
        Some(i) if !w.turn("put always adds") => list[i] = (Entry { kind: 1, ..list[i].0 }, body),
        _ if w.turn("put adds at the front") => list.insert(0, (added, body)),
        _ => list.push((added, body)),
    }
    list
}

fn write(w: &Wrong, list: &[(Entry, Vec<u8>)]) -> Vec<u8> {
    let mut file = vec![list.len() as u8, 0, 1, 0];
    let mut start = 4 + 12 * list.len();
    for (entry, body) in list {
        let written = if w.turn("later starts not moved") && entry.start > 0 { entry.start } else { start };
        let sum = if w.turn("the old sum kept") { entry.sum } else { sum(w, body) };
        file.extend(entry.kind.to_le_bytes());
        file.extend(entry.number.to_le_bytes());
        file.extend((written as u16).to_le_bytes());
        file.extend((body.len() as u16).to_le_bytes());
        file.extend(sum.to_le_bytes());
        start += body.len();
    }
    list.iter().for_each(|(_, body)| file.extend(body));
    file
}

/// The order in which the refusals of put are looked at: the new table, 17, 11, 9, 19.
fn order(w: &Wrong) -> [usize; 5] {
    match w.0 {
        "17 before the new table" => [1, 0, 2, 3, 4],
        "11 before the new table" => [2, 0, 1, 3, 4],
        "9 before the new table" => [3, 0, 1, 2, 4],
        "19 before the new table" => [4, 0, 1, 2, 3],
        "11 before 17" => [0, 2, 1, 3, 4],
        "9 before 17" => [0, 3, 1, 2, 4],
        "19 before 17" => [0, 4, 1, 2, 3],
        "9 before 11" => [0, 1, 3, 2, 4],
        "19 before 11" => [0, 1, 4, 2, 3],
        "19 before 9" => [0, 1, 2, 4, 3],
        _ => [0, 1, 2, 3, 4],
    }
}

/// The new file, or the first refusal in the order of the variant.
fn new_file(w: &Wrong, file: &[u8], number: u16, table: &Table, room: usize) -> Result<Vec<u8>, Refusal> {
    let refuse = |no| Some(Refusal { no, entry: 0, row: 0 });
    if w.turn("19 before the file") && room == 0 {
        return Err(Refusal { no: 19, entry: 0, row: 0 });
    }
    if w.turn("the new table before the file") {
        frame_of(w, table)?;
    }
    let old = entries_of(w, file)?;
    let low = |number: u16| if w.turn("put by a number's first byte") { number % 256 } else { number };
    let place = old.iter().position(|entry| low(entry.number) == low(number));
    let number = place.map_or(number, |i| old[i].number);
    let note = place.is_some_and(|i| kind_of(w, old[i].kind) == 2);
    let list = new_entries(w, file, &old, number, table);
    let new = write(w, &list);
    let too_many =
        list.len() > 64 - w.turn("a 64th entry refused") as usize || w.turn("11 before 17") && note && old.len() == 64;
    let short = new.len() + w.turn("19 at exactly the length") as usize > room;
    let faults = [
        frame_of(w, table).err().map(|refusal| {
            let entry = place.unwrap_or(old.len()) as u32;
            Refusal { entry: if w.turn("the new table's refusal with an entry") { entry } else { 0 }, ..refusal }
        }),
        refuse(17).filter(|_| note && !w.turn("put over a note")),
        refuse(11).filter(|_| too_many),
        refuse(9).filter(|_| new.len() > 65_535 - w.turn("a grown file of 65,535 refused") as usize),
        refuse(19).filter(|_| short && !(room == 0 && w.turn("put into no output gives the length"))),
    ];
    match order(w).iter().find_map(|&k| faults[k]) {
        Some(refusal) => Err(refusal),
        None => Ok(new),
    }
}

pub fn put(w: &Wrong, file: &[u8], number: u16, table: &Table, out: &mut [u8]) -> Written {
    match new_file(w, file, number, table, out.len()) {
        Ok(new) => {
            if w.turn("bytes past the length cleared") {
                out.fill(0);
            }
            if !w.turn("put that touches nothing") && !out.is_empty() {
                out[..new.len()].copy_from_slice(&new);
            }
            Written { refusal: Refusal::default(), length: new.len() as u32 }
        }
        Err(refusal) => {
            if w.turn("output touched before 19") && refusal.no == 19 && !out.is_empty() {
                out[0] = 1;
            }
            let length = if w.turn("a length in a refused put") { out.len() as u32 } else { 0 };
            Written { refusal, length }
        }
    }
}
