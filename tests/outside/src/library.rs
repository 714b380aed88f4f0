//! The static library as a library under test, through the wrappers of the crate `awelodrun`.

use crate::answers::{Checked, Filed, Given, Judged, Ladder, Refusal, Row, Tabled, Written};
use crate::subject::Subject;
use awelodrun::raw;

/// The static library. A list of no elements is lent as it is, or as a null pointer.
#[derive(Default)]
pub struct Library {
    nulls: bool,
}

impl Library {
    fn to_read<'a, T>(&self, list: &'a [T]) -> Option<&'a [T]> {
        Some(list).filter(|list| !self.nulls || !list.is_empty())
    }

    fn to_write<'a, T>(&self, list: &'a mut [T]) -> Option<&'a mut [T]> {
        Some(list).filter(|list| !self.nulls || !list.is_empty())
    }
}

fn refusal([no, entry, row]: [u32; 3]) -> Refusal {
    Refusal { no, entry, row }
}

fn tabled((numbers, answer): (raw::Numbers, [u32; 3])) -> Tabled {
    Tabled { refusal: refusal(answer), table: Given(numbers).table() }
}

impl Subject for Library {
    fn check(&self, table: &Given) -> Checked {
        let [no, entry, row, frame] = raw::check(&table.0);
        Checked { refusal: refusal([no, entry, row]), frame }
    }

    fn check_list(&self, m: u16, x: u16, rows: &[Row]) -> Checked {
        let rows: Vec<awelodrun::Row> =
            rows.iter().map(|row| awelodrun::Row::new(row.period, row.execution, row.deadline)).collect();
        let [no, entry, row, frame] = raw::check_list(m, x, self.to_read(&rows));
        Checked { refusal: refusal([no, entry, row]), frame }
    }

    fn judge(&self, table: &Given, map: &mut [u32], pins: &mut [u32]) -> Judged {
        let [no, entry, row, t, work, supply, frame] = raw::judge(&table.0, self.to_write(map), self.to_write(pins));
        Judged { refusal: refusal([no, entry, row]), t, work, supply, frame }
    }

    fn ladder(&self, table: &Given, map: &mut [u32], pins: &mut [u32]) -> Ladder {
        let (lines, answer) = raw::ladder(&table.0, self.to_write(map), self.to_write(pins));
        let square = std::array::from_fn(|y| [lines[3 * y], lines[3 * y + 1], lines[3 * y + 2]]);
        Ladder { refusal: refusal(answer), square }
    }

    fn add(&self, table: &Given, row: Row) -> Tabled {
        tabled(raw::add(&table.0, awelodrun::Row::new(row.period, row.execution, row.deadline)))
    }

    fn remove(&self, table: &Given, index: u32) -> Tabled {
        tabled(raw::remove(&table.0, index))
    }

    fn file_check(&self, file: &[u8]) -> Filed {
        let [no, entry, row, entries] = raw::file_check(self.to_read(file));
        Filed { refusal: refusal([no, entry, row]), entries }
    }

    fn find(&self, file: &[u8], number: u16) -> Tabled {
        tabled(raw::find(self.to_read(file), number))
    }

    fn put(&self, file: &[u8], number: u16, table: &Given, out: &mut [u8]) -> Written {
        let [no, entry, row, length] = raw::put(self.to_read(file), number, &table.0, self.to_write(out));
        Written { refusal: refusal([no, entry, row]), length }
    }

    fn shift_text(&self, file: &[u8], map: &mut [u32; 4096], pins: &mut [u32; 4096], out: &mut [u8; 4096]) -> usize {
        raw::shift_text(self.to_read(file), map, pins, out)
    }

    fn with_nulls(&self) -> Option<Box<dyn Subject>> {
        Some(Box::new(Library { nulls: true }))
    }
}
