//! Deliberately wrong variants of the library, each with one wrong turn, to show that the suite notices them.

pub mod edit;
pub mod file;
pub mod judge;
pub mod put;
pub mod table;
pub mod text;

use crate::answers::{Checked, Filed, Given, Judged, Ladder, Refusal, Row, Table, Tabled, Written};
use crate::subject::Subject;

/// A second implementation with one wrong turn in it; with the empty name it has none.
#[derive(Clone, Copy)]
pub struct Wrong(pub &'static str);

impl Wrong {
    fn turn(&self, name: &str) -> bool {
        self.0 == name
    }

    /// A number in 8 bits, where that is the wrong turn.
    fn narrowed(&self, name: &str, number: u16) -> u16 {
        if self.turn(name) {
            number % 256
        } else {
            number
        }
    }

    /// The table that is lent.
    fn table(&self, given: &Given) -> Table {
        let mut table = given.table();
        table.m = self.narrowed("m in a byte", table.m);
        table.x = self.narrowed("x in a byte", table.x);
        table.count = self.narrowed("the count in a byte", table.count);
        table
    }
}

/// Wrong turns with null pointers alone, each with the turn that it takes then.
const NULLS: [(&str, &str); 5] = [
    ("a null list of rows has the frame 1", "an empty list's frame is 1"),
    ("a null map is long enough", "8 by the pins alone"),
    ("null pins are long enough", "8 by the map alone"),
    ("a null file has form 0", "a file of no bytes has form 0"),
    ("a null output is not looked at", "put into no output gives the length"),
];

/// The name of every wrong turn.
pub fn turns() -> Vec<&'static str> {
    let nulls = NULLS.map(|(turn, _)| turn);
    [table::TURNS, judge::TURNS, edit::TURNS, file::TURNS, put::TURNS, text::TURNS, &nulls].concat()
}

fn checked(frame: Result<u32, Refusal>) -> Checked {
    match frame {
        Ok(frame) => Checked { frame, ..Checked::default() },
        Err(refusal) => Checked { refusal, frame: 0 },
    }
}

impl Subject for Wrong {
    fn check(&self, given: &Given) -> Checked {
        checked(table::frame_of(self, &self.table(given)))
    }
    fn check_list(&self, m: u16, x: u16, rows: &[Row]) -> Checked {
        checked(table::frame_of_list(self, m, x, rows))
    }
    fn judge(&self, given: &Given, map: &mut [u32], pins: &mut [u32]) -> Judged {
        judge::judge(self, &self.table(given), map, pins)
    }
    fn ladder(&self, given: &Given, map: &mut [u32], pins: &mut [u32]) -> Ladder {
        judge::ladder(self, &self.table(given), map, pins)
    }
    fn add(&self, given: &Given, row: Row) -> Tabled {
        edit::add(self, &self.table(given), row)
    }
    fn remove(&self, given: &Given, index: u32) -> Tabled {
        edit::remove(self, &self.table(given), index)
    }
    fn file_check(&self, bytes: &[u8]) -> Filed {
        match file::entries_of(self, bytes) {
            Ok(entries) => Filed { entries: entries.len() as u32, ..Filed::default() },
            Err(refusal) => Filed { refusal, entries: 0 },
        }
    }
    fn find(&self, bytes: &[u8], number: u16) -> Tabled {
        put::find(self, bytes, number)
    }
    fn put(&self, bytes: &[u8], number: u16, given: &Given, out: &mut [u8]) -> Written {
        put::put(self, bytes, number, &self.table(given), out)
    }
    fn shift_text(&self, bytes: &[u8], map: &mut [u32; 4096], pins: &mut [u32; 4096], out: &mut [u8; 4096]) -> usize {
        text::shift_text(self, bytes, map, pins, out)
    }
    fn with_nulls(&self) -> Option<Box<dyn Subject>> {
        let turn = NULLS.iter().find(|(turn, _)| self.turn(turn)).map_or(self.0, |(_, turn)| turn);
        Some(Box::new(Wrong(turn)))
    }
}
