//! Task files: their check, the tables in them, and the text of the shift check.
//!
//! A file is its bytes. Every function checks the whole file before it does anything else.

use crate::{raw, table};
use crate::{Refusal, Table, SLOTS, TEXT};

/// The most bytes that a file has.
const LONGEST: usize = 65_535;

/// What a file grows by at most where a table is put into it: an entry of 12 bytes, and a body of 4 and 6 for each of 32 rows.
const GROWTH: usize = 12 + 4 + 6 * 32;

/// The check of a task file: its number of entries, tables and notes together.
///
/// ```
/// use awelodrun::{file, Reason};
///
/// // One entry, a note of kind 128 with the number 5, whose body is empty.
/// let note = [1, 0, 1, 0, 128, 0, 5, 0, 16, 0, 0, 0, 0, 0, 0, 0];
/// assert_eq!(file::check(&note), Ok(1));
/// assert_eq!(file::check(&[]).unwrap_err().reason, Reason::FileLength);
/// ```
pub fn check(file: &[u8]) -> Result<u32, Refusal> {
    let [no, entry, row, entries] = raw::file_check(Some(file));
    Refusal::none_in([no, entry, row])?;
    Ok(entries)
}

/// The table that has a number in a task file.
///
/// ```
/// use awelodrun::{file, Reason, Row, Table};
///
/// let note = [1, 0, 1, 0, 128, 0, 5, 0, 16, 0, 0, 0, 0, 0, 0, 0];
/// let table = Table::new(1, 2, &[Row::new(4, 1, 3)])?;
/// let both = file::put(&note, 7, &table)?;
/// assert_eq!(file::find(&both, 7), Ok(table));
/// assert_eq!(file::find(&both, 5).unwrap_err().reason, Reason::NoTable);
/// # Ok::<(), awelodrun::Refusal>(())
/// ```
pub fn find(file: &[u8], number: u16) -> Result<Table, Refusal> {
    table::given(raw::find(Some(file), number))
}

/// The file with the table of a number replaced in its place, or added as the last entry.
///
/// ```
/// use awelodrun::{file, Row, Table};
///
/// let note = [1, 0, 1, 0, 128, 0, 5, 0, 16, 0, 0, 0, 0, 0, 0, 0];
/// let one = file::put(&note, 7, &Table::new(1, 2, &[Row::new(4, 1, 3)])?)?;
/// assert_eq!(file::check(&one), Ok(2));
/// let other = file::put(&one, 7, &Table::new(1, 3, &[Row::new(4, 1, 3)])?)?;
/// assert_eq!((other.len(), file::find(&other, 7)?.depth), (one.len(), 3));
/// # Ok::<(), awelodrun::Refusal>(())
/// ```
pub fn put(file: &[u8], number: u16, table: &Table) -> Result<Vec<u8>, Refusal> {
    let mut out = vec![0; file.len().saturating_add(GROWTH).min(LONGEST)];
    let length = put_into(file, number, table, &mut out)?;
    out.truncate(length);
    Ok(out)
}

/// Writes the file that [`put`] gives to an output that is lent, and gives its length.
///
/// Bytes of the output past that length are as they were, and so is the whole output after a refusal. An output that is too
/// short is refused with 19; one of 65,535 bytes never is.
///
/// ```
/// use awelodrun::{file, Reason, Row, Table};
///
/// let note = [1, 0, 1, 0, 128, 0, 5, 0, 16, 0, 0, 0, 0, 0, 0, 0];
/// let table = Table::new(1, 2, &[Row::new(4, 1, 3)])?;
/// let mut out = [9; 40];
/// assert_eq!(file::put_into(&note, 7, &table, &mut out)?, 38);
/// assert_eq!(out[38..], [9, 9]);
/// assert_eq!(file::put_into(&note, 7, &table, &mut out[..37]).unwrap_err().reason, Reason::ShortOutput);
/// # Ok::<(), awelodrun::Refusal>(())
/// ```
pub fn put_into(file: &[u8], number: u16, table: &Table, out: &mut [u8]) -> Result<usize, Refusal> {
    let [no, entry, row, length] = raw::put(Some(file), number, &table.numbers(), Some(out));
    Refusal::none_in([no, entry, row])?;
    Ok(length as usize)
}

/// The text of the shift check on a task file: a line for each table in the order of the contents, or the one line of the
/// refusal. Each line ends with a newline.
///
/// It has the two lists and the output inside, and so takes some 75 KiB of stack.
///
/// ```
/// use awelodrun::{file, Row, Table};
///
/// let note = [1, 0, 1, 0, 128, 0, 5, 0, 16, 0, 0, 0, 0, 0, 0, 0];
/// let table = Table::new(2, 1, &[Row::new(2, 1, 1), Row::new(3, 2, 2), Row::new(4, 2, 3)])?;
/// let file = file::put(&note, 7, &table)?;
/// assert_eq!(file::shift_text(&file), "TABLE 7 INFEASIBLE 8 14 13\n");
/// assert_eq!(file::shift_text(&[]), "REFUSED 9 0 0\n");
/// # Ok::<(), awelodrun::Refusal>(())
/// ```
pub fn shift_text(file: &[u8]) -> String {
    let mut out = [0; TEXT];
    let length = shift_text_with(file, &mut [0; SLOTS], &mut [0; SLOTS], &mut out);
    out[..length].iter().map(|&byte| char::from(byte)).collect()
}

/// Writes the text of the shift check to an output that is lent, with two lists that are lent, and gives its length.
///
/// The text of every file has room, and is ASCII. Bytes of the output past it are as they were. The lists are left as the
/// judge of each table in turn leaves them; for a refused file they are as they were.
///
/// ```
/// use awelodrun::{file, SLOTS, TEXT};
///
/// let mut out = [b'.'; TEXT];
/// let length = file::shift_text_with(b"nothing", &mut [0; SLOTS], &mut [0; SLOTS], &mut out);
/// assert_eq!(&out[..length + 1], b"REFUSED 10 0 0\n.");
/// ```
pub fn shift_text_with(file: &[u8], map: &mut [u32; SLOTS], pins: &mut [u32; SLOTS], out: &mut [u8; TEXT]) -> usize {
    raw::shift_text(Some(file), map, pins, out)
}
