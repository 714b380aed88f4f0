//! An independent reading of document 01, literal and slow, which shares nothing with the library.

pub mod edit;
pub mod file;
pub mod judge;
pub mod put;
pub mod table;
pub mod text;

use crate::answers::{Checked, Filed, Given, Judged, Ladder, Row, Tabled, Written};
use crate::subject::Subject;

/// The reference as a library under test.
pub struct Reference;

impl Subject for Reference {
    fn check(&self, given: &Given) -> Checked {
        table::check(&given.table())
    }
    fn check_list(&self, m: u16, x: u16, rows: &[Row]) -> Checked {
        table::check_list(m, x, rows)
    }
    fn judge(&self, given: &Given, map: &mut [u32], pins: &mut [u32]) -> Judged {
        judge::judge(&given.table(), map, pins)
    }
    fn ladder(&self, given: &Given, map: &mut [u32], pins: &mut [u32]) -> Ladder {
        judge::ladder(&given.table(), map, pins)
    }
    fn add(&self, given: &Given, row: Row) -> Tabled {
        edit::add(&given.table(), row)
    }
    fn remove(&self, given: &Given, index: u32) -> Tabled {
        edit::remove(&given.table(), index)
    }
    fn file_check(&self, bytes: &[u8]) -> Filed {
        file::check(bytes)
    }
    fn find(&self, bytes: &[u8], number: u16) -> Tabled {
        put::find(bytes, number)
    }
    fn put(&self, bytes: &[u8], number: u16, given: &Given, out: &mut [u8]) -> Written {
        put::put(bytes, number, &given.table(), out)
    }
    fn shift_text(&self, bytes: &[u8], map: &mut [u32; 4096], pins: &mut [u32; 4096], out: &mut [u8; 4096]) -> usize {
        let text = text::shift_text(bytes, map, pins);
        out[..text.len()].copy_from_slice(text.as_bytes());
        text.len()
    }
}
