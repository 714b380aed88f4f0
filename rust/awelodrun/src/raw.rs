//! The C functions of the library, each behind a thin wrapper. Not for users: this module may change with any version.
//!
//! The tests reach every number and every length through it: a table is its 99 numbers, a list has any length, and `None`
//! is a list that is lent as a null pointer with length 0. An answer is its numbers in turn, of which each is marked before
//! the call, so that one that is not written is seen.
//!
//! All `unsafe` code of the crate is here. It rests on this: the library asks nothing of the values that it gets, reads and
//! writes no more elements than it is told of, keeps no pointer, and always returns. What it writes is lent with `&mut`, and
//! so overlaps nothing else.

use crate::Row;
use std::mem::{align_of, size_of};
use std::ptr::{null, null_mut};

/// A table: m, x, the row count, then T, C, D of 32 rows.
pub type Numbers = [u16; 99];

/// What an answer holds before the call.
const MARK: u32 = 0xDEAD_BEEF;

/// What stands beside a lent list of rows.
#[repr(C)]
struct Beside {
    processors: u16,
    depth: u16,
}

/// The answer of the check of a list, which comes back by value.
#[repr(C)]
struct Checked {
    no: u32,
    entry: u32,
    row: u32,
    frame: u32,
}

// The sizes that the C header states too.
const _: () = assert!(size_of::<Row>() == 6 && align_of::<Row>() == 2);
const _: () = assert!(size_of::<crate::Table>() == 198 && size_of::<Numbers>() == 198);
const _: () = assert!(size_of::<Beside>() == 4 && align_of::<Beside>() == 2);
const _: () = assert!(size_of::<Checked>() == 16 && align_of::<Checked>() == 4);

extern "C" {
    fn awelodrun_raw_check(table: *const Numbers, answer: *mut [u32; 4]);
    fn awelodrun_raw_check_list(beside: Beside, rows: *const Row, rows_len: usize) -> Checked;
    fn awelodrun_raw_judge(
        table: *const Numbers,
        map: *mut u32,
        map_len: usize,
        pins: *mut u32,
        pins_len: usize,
        answer: *mut [u32; 7],
    );
    fn awelodrun_raw_ladder(
        table: *const Numbers,
        map: *mut u32,
        map_len: usize,
        pins: *mut u32,
        pins_len: usize,
        lines: *mut [u32; 24],
        refusal: *mut [u32; 3],
    );
    fn awelodrun_raw_add(table: *const Numbers, row: Row, result: *mut Numbers, refusal: *mut [u32; 3]);
    fn awelodrun_raw_remove(table: *const Numbers, index: u32, result: *mut Numbers, refusal: *mut [u32; 3]);
    fn awelodrun_raw_file_check(file: *const u8, file_len: usize, answer: *mut [u32; 4]);
    fn awelodrun_raw_find(file: *const u8, file_len: usize, number: u16, result: *mut Numbers, refusal: *mut [u32; 3]);
    fn awelodrun_raw_put(
        file: *const u8,
        file_len: usize,
        number: u16,
        table: *const Numbers,
        out: *mut u8,
        out_len: usize,
        answer: *mut [u32; 4],
    );
    fn awelodrun_raw_shift_text(
        file: *const u8,
        file_len: usize,
        map: *mut [u32; 4096],
        pins: *mut [u32; 4096],
        out: *mut [u8; 4096],
    ) -> usize;
}

/// A list to read, as C takes it.
fn read<T>(list: Option<&[T]>) -> (*const T, usize) {
    list.map_or((null(), 0), |list| (list.as_ptr(), list.len()))
}

/// A list to write, as C takes it.
fn written<T>(list: Option<&mut [T]>) -> (*mut T, usize) {
    list.map_or((null_mut(), 0), |list| (list.as_mut_ptr(), list.len()))
}

/// The check of a table: no, entry, row, frame.
pub fn check(table: &Numbers) -> [u32; 4] {
    let mut answer = [MARK; 4];
    unsafe { awelodrun_raw_check(table, &mut answer) };
    answer
}

/// The check of a list of rows, with m and x beside it: no, entry, row, frame.
pub fn check_list(processors: u16, depth: u16, rows: Option<&[Row]>) -> [u32; 4] {
    let (rows, rows_len) = read(rows);
    let Checked { no, entry, row, frame } =
        unsafe { awelodrun_raw_check_list(Beside { processors, depth }, rows, rows_len) };
    [no, entry, row, frame]
}

/// The judge: no, entry, row, t, work, supply, frame.
pub fn judge(table: &Numbers, map: Option<&mut [u32]>, pins: Option<&mut [u32]>) -> [u32; 7] {
    let (map, map_len) = written(map);
    let (pins, pins_len) = written(pins);
    let mut answer = [MARK; 7];
    unsafe { awelodrun_raw_judge(table, map, map_len, pins, pins_len, &mut answer) };
    answer
}

/// The ladder: t, work, supply of each depth from 1 to 8; and no, entry, row.
pub fn ladder(table: &Numbers, map: Option<&mut [u32]>, pins: Option<&mut [u32]>) -> ([u32; 24], [u32; 3]) {
    let (map, map_len) = written(map);
    let (pins, pins_len) = written(pins);
    let (mut lines, mut refusal) = ([MARK; 24], [MARK; 3]);
    unsafe { awelodrun_raw_ladder(table, map, map_len, pins, pins_len, &mut lines, &mut refusal) };
    (lines, refusal)
}

/// Adding a row: the table that comes back; and no, entry, row.
pub fn add(table: &Numbers, row: Row) -> (Numbers, [u32; 3]) {
    let (mut result, mut refusal) = ([MARK as u16; 99], [MARK; 3]);
    unsafe { awelodrun_raw_add(table, row, &mut result, &mut refusal) };
    (result, refusal)
}

/// Removing the row at an index: the table that comes back; and no, entry, row.
pub fn remove(table: &Numbers, index: u32) -> (Numbers, [u32; 3]) {
    let (mut result, mut refusal) = ([MARK as u16; 99], [MARK; 3]);
    unsafe { awelodrun_raw_remove(table, index, &mut result, &mut refusal) };
    (result, refusal)
}

/// The check of a task file: no, entry, row, number of entries.
pub fn file_check(file: Option<&[u8]>) -> [u32; 4] {
    let (file, file_len) = read(file);
    let mut answer = [MARK; 4];
    unsafe { awelodrun_raw_file_check(file, file_len, &mut answer) };
    answer
}

/// The table that has a number in a task file; and no, entry, row.
pub fn find(file: Option<&[u8]>, number: u16) -> (Numbers, [u32; 3]) {
    let (file, file_len) = read(file);
    let (mut result, mut refusal) = ([MARK as u16; 99], [MARK; 3]);
    unsafe { awelodrun_raw_find(file, file_len, number, &mut result, &mut refusal) };
    (result, refusal)
}

/// Putting a table into a task file: no, entry, row, length of the new file.
pub fn put(file: Option<&[u8]>, number: u16, table: &Numbers, out: Option<&mut [u8]>) -> [u32; 4] {
    let (file, file_len) = read(file);
    let (out, out_len) = written(out);
    let mut answer = [MARK; 4];
    unsafe { awelodrun_raw_put(file, file_len, number, table, out, out_len, &mut answer) };
    answer
}

/// The text of the shift check on a task file: its length.
pub fn shift_text(file: Option<&[u8]>, map: &mut [u32; 4096], pins: &mut [u32; 4096], out: &mut [u8; 4096]) -> usize {
    let (file, file_len) = read(file);
    unsafe { awelodrun_raw_shift_text(file, file_len, map, pins, out) }
}
