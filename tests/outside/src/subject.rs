//! What the suite asks of a library under test; the reference, the wrong variants, the static library and the crate over it
//! each answer it.

use crate::answers::{Checked, Filed, Given, Judged, Ladder, Row, Tabled, Written};

pub trait Subject {
    fn check(&self, table: &Given) -> Checked;
    /// The check of a lent list of rows, with m and x beside them.
    fn check_list(&self, m: u16, x: u16, rows: &[Row]) -> Checked;
    fn judge(&self, table: &Given, map: &mut [u32], pins: &mut [u32]) -> Judged;
    fn ladder(&self, table: &Given, map: &mut [u32], pins: &mut [u32]) -> Ladder;
    fn add(&self, table: &Given, row: Row) -> Tabled;
    fn remove(&self, table: &Given, index: u32) -> Tabled;
    fn file_check(&self, file: &[u8]) -> Filed;
    fn find(&self, file: &[u8], number: u16) -> Tabled;
    fn put(&self, file: &[u8], number: u16, table: &Given, out: &mut [u8]) -> Written;
    /// The program's text, written to `out`; gives its length.
    fn shift_text(&self, file: &[u8], map: &mut [u32; 4096], pins: &mut [u32; 4096], out: &mut [u8; 4096]) -> usize;

    /// The same library, lent each list of no elements as a null pointer; None where it is lent no pointers.
    fn with_nulls(&self) -> Option<Box<dyn Subject>> {
        None
    }
}
