//! The functions of the crate `awelodrun` that users call, as a library under test.
//!
//! Where the crate has two functions for one thing, one with its own lists or output and one that is lent them, both are called,
//! and an answer in which they differ is marked.

use crate::answers::{Checked, Filed, Given, Judged, Ladder, Refusal, Row, Table, Tabled, Written};
use crate::subject::Subject;
use awelodrun::{file, Line, Reason, Verdict, ROWS};

/// The crate `awelodrun`.
pub struct Safe;

/// No function has this refusal.
const TWO_ANSWERS: Refusal = Refusal { no: u32::MAX, entry: u32::MAX, row: u32::MAX };

fn row_to(row: &Row) -> awelodrun::Row {
    awelodrun::Row { period: row.period, execution: row.execution, deadline: row.deadline }
}

fn row_from(row: &awelodrun::Row) -> Row {
    Row { period: row.period, execution: row.execution, deadline: row.deadline }
}

fn table_to(table: &Table) -> awelodrun::Table {
    let rows: [awelodrun::Row; ROWS] = std::array::from_fn(|i| row_to(&table.rows[i]));
    awelodrun::Table { processors: table.m, depth: table.x, count: table.count, rows }
}

fn table_from(table: &awelodrun::Table) -> Table {
    let rows = std::array::from_fn(|i| row_from(&table.rows[i]));
    Table { m: table.processors, x: table.depth, count: table.count, rows }
}

fn refusal(refusal: awelodrun::Refusal) -> Refusal {
    Refusal { no: refusal.number(), entry: refusal.entry, row: refusal.row }
}

fn checked(frame: Result<u32, awelodrun::Refusal>) -> Checked {
    match frame {
        Ok(frame) => Checked { refusal: Refusal::default(), frame },
        Err(why) => Checked { refusal: refusal(why), frame: 0 },
    }
}

/// A table, or after a refusal the one that the caller has.
fn tabled(table: Result<awelodrun::Table, awelodrun::Refusal>, otherwise: Table) -> Tabled {
    match table {
        Ok(table) => Tabled { refusal: Refusal::default(), table: table_from(&table) },
        Err(why) => Tabled { refusal: refusal(why), table: otherwise },
    }
}

/// Whether the answer of a function with its own lists or output is the one with those lent, which may be too short.
fn agree<T: PartialEq>(
    own: &Result<T, awelodrun::Refusal>,
    lent: &Result<T, awelodrun::Refusal>,
    too_short: Reason,
) -> bool {
    match (own, lent) {
        (Err(own), _) if own.reason == too_short => false,
        (Ok(_), Err(lent)) => lent.reason == too_short,
        _ => own == lent,
    }
}

impl Subject for Safe {
    fn check(&self, table: &Given) -> Checked {
        checked(awelodrun::check(&table_to(&table.table())))
    }

    fn check_list(&self, m: u16, x: u16, rows: &[Row]) -> Checked {
        let rows: Vec<awelodrun::Row> = rows.iter().map(row_to).collect();
        let answer = awelodrun::check_list(m, x, &rows);
        let of_a_table = awelodrun::Table::new(m, x, &rows).and_then(|table| {
            assert_eq!(table.counted(), rows);
            awelodrun::check(&table)
        });
        match of_a_table == answer {
            true => checked(answer),
            false => Checked { refusal: TWO_ANSWERS, frame: 0 },
        }
    }

    fn judge(&self, table: &Given, map: &mut [u32], pins: &mut [u32]) -> Judged {
        let table = table_to(&table.table());
        let lent = awelodrun::judge_with(&table, map, pins);
        if !agree(&awelodrun::judge(&table), &lent, Reason::ShortList) {
            return Judged { refusal: TWO_ANSWERS, ..Judged::default() };
        }
        match lent {
            Ok(Verdict::Infeasible { t, work, supply, frame }) => {
                Judged { refusal: Refusal::default(), t, work, supply, frame }
            }
            Ok(Verdict::Undecided { frame }) => Judged { frame, ..Judged::default() },
            Err(why) => Judged { refusal: refusal(why), ..Judged::default() },
        }
    }

    fn ladder(&self, table: &Given, map: &mut [u32], pins: &mut [u32]) -> Ladder {
        let table = table_to(&table.table());
        let lent = awelodrun::ladder_with(&table, map, pins);
        if !agree(&awelodrun::ladder(&table), &lent, Reason::ShortList) {
            return Ladder { refusal: TWO_ANSWERS, ..Ladder::default() };
        }
        let line = |line: Line| match line {
            Line::Infeasible { t, work, supply } => [t, work, supply],
            Line::Undecided => [0; 3],
        };
        match lent {
            Ok(lines) => Ladder { refusal: Refusal::default(), square: lines.map(line) },
            Err(why) => Ladder { refusal: refusal(why), ..Ladder::default() },
        }
    }

    fn add(&self, table: &Given, row: Row) -> Tabled {
        let table = table.table();
        tabled(awelodrun::add(&table_to(&table), row_to(&row)), table)
    }

    fn remove(&self, table: &Given, index: u32) -> Tabled {
        let table = table.table();
        tabled(awelodrun::remove(&table_to(&table), index), table)
    }

    fn file_check(&self, bytes: &[u8]) -> Filed {
        match file::check(bytes) {
            Ok(entries) => Filed { refusal: Refusal::default(), entries },
            Err(why) => Filed { refusal: refusal(why), entries: 0 },
        }
    }

    fn find(&self, bytes: &[u8], number: u16) -> Tabled {
        tabled(file::find(bytes, number), Table::default())
    }

    fn put(&self, bytes: &[u8], number: u16, table: &Given, out: &mut [u8]) -> Written {
        let table = table_to(&table.table());
        let lent = file::put_into(bytes, number, &table, out);
        let written = lent.map(|length| out[..length].to_vec());
        if !agree(&file::put(bytes, number, &table), &written, Reason::ShortOutput) {
            return Written { refusal: TWO_ANSWERS, length: 0 };
        }
        match lent {
            Ok(length) => Written { refusal: Refusal::default(), length: length as u32 },
            Err(why) => Written { refusal: refusal(why), length: 0 },
        }
    }

    fn shift_text(&self, bytes: &[u8], map: &mut [u32; 4096], pins: &mut [u32; 4096], out: &mut [u8; 4096]) -> usize {
        let length = file::shift_text_with(bytes, map, pins, out);
        match file::shift_text(bytes).as_bytes() == &out[..length] {
            true => length,
            false => usize::MAX,
        }
    }
}
