//! The program's text, with its wrong turns.

use super::file::{entries_of, kind_of, table_of, Entry};
use super::judge::judge;
use super::Wrong;
use crate::answers::Table;

pub const TURNS: &[&str] = &[
    "text with lists of its own",
    "text with a map of its own",
    "text with pins of its own",
    "text clears the lists first",
    "text clears the map between tables",
    "text clears the pins between tables",
    "text clears the map of a refused file",
    "text clears the pins of a refused file",
    "text judges before the whole file is checked",
    "text leaves the lists of the first table",
    "text judges from the last table up",
    "text clears the lists where there is no table",
    "text ends with a zero byte",
    "text counts a zero byte",
    "text clears the output first",
    "text clears the output of a refused file",
    "text clears the output where there is no table",
    "text without its last newline",
    "text with a line for notes",
    "text in the order of the numbers",
    "text with a number's first byte",
    "text with the frame of an infeasible table",
    "text with the frame in its place",
    "text at depth 1",
    "text at depth 8",
    "text refuses with its entry from 1",
    "text refuses without its row",
    "text refuses notes alone",
    "text of a refused file is empty",
];

/// The table of an entry, at the depth of the variant.
fn table_to_judge(w: &Wrong, entry: &Entry, file: &[u8]) -> Table {
    let mut table = table_of(entry.body(file));
    match w.0 {
        "text at depth 1" => table.x = 1,
        "text at depth 8" => table.x = 8,
        _ => {}
    }
    table
}

/// A table's line.
fn line(w: &Wrong, number: u16, table: &Table, map: &mut [u32], pins: &mut [u32]) -> String {
    let judged = judge(w, table, map, pins);
    let number = w.narrowed("text with a number's first byte", number);
    match judged.t {
        0 => format!("TABLE {number} UNDECIDED {}\n", judged.frame),
        t if w.turn("text with the frame in its place") => {
            format!("TABLE {number} INFEASIBLE {t} {} {}\n", judged.work, judged.frame)
        }
        t if w.turn("text with the frame of an infeasible table") => {
            format!("TABLE {number} INFEASIBLE {t} {} {} {}\n", judged.work, judged.supply, judged.frame)
        }
        t => format!("TABLE {number} INFEASIBLE {t} {} {}\n", judged.work, judged.supply),
    }
}

/// The lines of a good file.
fn lines(w: &Wrong, file: &[u8], entries: &[Entry], map: &mut [u32], pins: &mut [u32]) -> String {
    let mut text: Vec<(u16, String)> = vec![];
    let mut tables: Vec<&Entry> = entries.iter().filter(|entry| kind_of(w, entry.kind) == 1).collect();
    if w.turn("text judges from the last table up") {
        tables.reverse();
    }
    for (i, entry) in tables.iter().enumerate() {
        match w.0 {
            "text clears the map between tables" if i > 0 => map.fill(0),
            "text clears the pins between tables" if i > 0 => pins.fill(0),
            _ => {}
        }
        let table = table_to_judge(w, entry, file);
        let (mut own_map, mut own_pins) = (vec![0; 4096], vec![0; 4096]);
        let both = w.turn("text with lists of its own") || i > 0 && w.turn("text leaves the lists of the first table");
        let map = if both || w.turn("text with a map of its own") { &mut own_map[..] } else { &mut map[..] };
        let pins = if both || w.turn("text with pins of its own") { &mut own_pins[..] } else { &mut pins[..] };
        text.push((entry.number, line(w, entry.number, &table, map, pins)));
    }
    if w.turn("text judges from the last table up") {
        text.reverse();
    }
    if w.turn("text with a line for notes") {
        let notes = entries.iter().filter(|entry| kind_of(w, entry.kind) == 2);
        text.extend(notes.map(|entry| (entry.number, format!("NOTE {}\n", entry.number))));
    }
    if w.turn("text in the order of the numbers") {
        text.sort();
    }
    if text.is_empty() && w.turn("text refuses notes alone") {
        return "REFUSED 17 0 0\n".into();
    }
    text.into_iter().map(|(_, line)| line).collect()
}

pub fn shift_text(
    w: &Wrong,
    file: &[u8],
    map: &mut [u32; 4096],
    pins: &mut [u32; 4096],
    out: &mut [u8; 4096],
) -> usize {
    let checked = entries_of(w, file);
    let refused = checked.is_err();
    if refused && w.turn("text judges before the whole file is checked") && file.len() > 26 {
        let first = Entry { kind: 1, number: 0, start: 4 + 12 * file[0] as usize, length: 10, sum: 0 };
        if first.body(file).len() == 10 {
            judge(w, &table_of(first.body(file)), map, pins);
        }
    }
    match w.0 {
        "text clears the lists first" if !refused => {
            map.fill(0);
            pins.fill(0);
        }
        "text clears the map of a refused file" if refused => map.fill(0),
        "text clears the pins of a refused file" if refused => pins.fill(0),
        "text clears the output first" if !refused => out.fill(0),
        "text clears the output of a refused file" if refused => out.fill(0),
        _ => {}
    }
    let mut text = match checked {
        Ok(entries) => lines(w, file, &entries, map, pins),
        Err(_) if w.turn("text of a refused file is empty") => String::new(),
        Err(refusal) => {
            let entry = refusal.entry + w.turn("text refuses with its entry from 1") as u32;
            let row = if w.turn("text refuses without its row") { 0 } else { refusal.row };
            format!("REFUSED {} {entry} {row}\n", refusal.no)
        }
    };
    match w.0 {
        "text clears the lists where there is no table" if text.is_empty() => {
            map.fill(0);
            pins.fill(0);
        }
        "text clears the output where there is no table" if text.is_empty() => out.fill(0),
        "text without its last newline" => drop(text.pop()),
        "text ends with a zero byte" => out[text.len()] = 0,
        _ => {}
    }
    out[..text.len()].copy_from_slice(text.as_bytes());
    text.len() + w.turn("text counts a zero byte") as usize
}
