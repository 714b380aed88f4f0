//! Tables: their rows, their check, and rows added and removed.

use crate::raw::{self, Numbers};
use crate::{Refusal, ROWS};

/// A row: a task's period T, execution time C and deadline D.
#[repr(C)]
#[derive(Clone, Copy, Debug, Default, PartialEq, Eq, Hash)]
pub struct Row {
    /// T: a job is released every so many slots.
    pub period: u16,
    /// C: a job takes so many slots.
    pub execution: u16,
    /// D: a job has to be done within so many slots of its release.
    pub deadline: u16,
}

impl Row {
    /// The row (T, C, D).
    pub const fn new(period: u16, execution: u16, deadline: u16) -> Row {
        Row { period, execution, deadline }
    }
}

/// A table: processors m, depth x, the row count, and room for 32 rows, of which the first `count` matter.
///
/// Every field may have any value: each function checks the whole table before it does anything else, and narrows no
/// number. [`Table::new`] gives only tables that the check accepts. Two tables are equal where all their fields are, with the
/// rows past the count; these are zeros in every table that this crate gives.
///
/// ```
/// use awelodrun::{check, Reason, Row, Table};
///
/// let mut table = Table::new(2, 1, &[Row::new(2, 1, 1), Row::new(3, 2, 2), Row::new(4, 2, 3)])?;
/// assert_eq!(check(&table), Ok(12));
/// table.processors = 259;
/// assert_eq!(check(&table).unwrap_err().reason, Reason::Processors);
/// # Ok::<(), awelodrun::Refusal>(())
/// ```
#[repr(C)]
#[derive(Clone, Copy, Debug, Default, PartialEq, Eq, Hash)]
pub struct Table {
    /// m, 1 to 16 in a table that is accepted.
    pub processors: u16,
    /// x, 1 to 8 in a table that is accepted.
    pub depth: u16,
    /// How many rows matter, 1 to 32 in a table that is accepted.
    pub count: u16,
    /// The rows, and room for more.
    pub rows: [Row; ROWS],
}

impl Table {
    /// The table of these rows, where it is accepted; what [`check_list`] refuses otherwise.
    ///
    /// ```
    /// use awelodrun::{Reason, Row, Table};
    ///
    /// let table = Table::new(1, 2, &[Row::new(4, 1, 3)])?;
    /// assert_eq!(table.counted(), [Row::new(4, 1, 3)]);
    /// assert_eq!(Table::new(1, 2, &[]).unwrap_err().reason, Reason::Count);
    /// assert_eq!(Table::new(1, 2, &[Row::new(1, 1, 1); 33]).unwrap_err().reason, Reason::Count);
    /// # Ok::<(), awelodrun::Refusal>(())
    /// ```
    pub fn new(processors: u16, depth: u16, rows: &[Row]) -> Result<Table, Refusal> {
        check_list(processors, depth, rows)?;
        let mut table = Table { processors, depth, count: rows.len() as u16, ..Table::default() };
        table.rows[..rows.len()].copy_from_slice(rows);
        Ok(table)
    }

    /// The rows that matter: the first `count`, or all 32 where the count is greater.
    pub fn counted(&self) -> &[Row] {
        &self.rows[..ROWS.min(self.count.into())]
    }

    /// The table as the library takes it.
    pub(crate) fn numbers(&self) -> Numbers {
        let mut numbers = [0; 99];
        [numbers[0], numbers[1], numbers[2]] = [self.processors, self.depth, self.count];
        for (three, row) in numbers[3..].chunks_exact_mut(3).zip(&self.rows) {
            three.copy_from_slice(&[row.period, row.execution, row.deadline]);
        }
        numbers
    }

    /// The table as the library gives it.
    pub(crate) fn from_numbers(numbers: &Numbers) -> Table {
        let mut table = Table { processors: numbers[0], depth: numbers[1], count: numbers[2], ..Table::default() };
        for (row, three) in table.rows.iter_mut().zip(numbers[3..].chunks_exact(3)) {
            *row = Row::new(three[0], three[1], three[2]);
        }
        table
    }
}

/// The check of a table: its frame H, the least common multiple of the periods.
///
/// ```
/// use awelodrun::{check, Reason, Refusal, Row, Table};
///
/// let mut table = Table { processors: 1, depth: 1, count: 2, ..Table::default() };
/// table.rows[0] = Row::new(4096, 1, 1);
/// table.rows[1] = Row::new(2, 1, 1);
/// assert_eq!(check(&table), Ok(4096));
/// table.rows[1] = Row::new(3, 1, 1);
/// assert_eq!(check(&table), Err(Refusal { reason: Reason::Frame, entry: 0, row: 1 }));
/// ```
pub fn check(table: &Table) -> Result<u32, Refusal> {
    frame(raw::check(&table.numbers()))
}

/// The check of a list of rows, with m and x beside it: what [`check`] says of a table of those rows. The rows are read where
/// they stand. A list of no row, or of more than 32, is refused with 3.
///
/// ```
/// use awelodrun::{check_list, Reason, Row};
///
/// let rows = [Row::new(2, 1, 1), Row::new(3, 2, 2), Row::new(4, 2, 3)];
/// assert_eq!(check_list(2, 1, &rows), Ok(12));
/// assert_eq!(check_list(2, 9, &rows).unwrap_err().reason, Reason::Depth);
/// ```
pub fn check_list(processors: u16, depth: u16, rows: &[Row]) -> Result<u32, Refusal> {
    frame(raw::check_list(processors, depth, Some(rows)))
}

fn frame([no, entry, row, frame]: [u32; 4]) -> Result<u32, Refusal> {
    Refusal::none_in([no, entry, row])?;
    Ok(frame)
}

/// The table with a row put at its end.
///
/// The given table is checked first, and then the one with the row, so a 33rd row is refused with 3.
///
/// ```
/// use awelodrun::{add, Reason, Row, Table};
///
/// let table = Table::new(1, 1, &[Row::new(4, 1, 2)])?;
/// let longer = add(&table, Row::new(8, 1, 6))?;
/// assert_eq!(longer.counted(), [Row::new(4, 1, 2), Row::new(8, 1, 6)]);
/// assert_eq!(add(&table, Row::new(0, 1, 6)).unwrap_err().reason, Reason::Period);
/// # Ok::<(), awelodrun::Refusal>(())
/// ```
pub fn add(table: &Table, row: Row) -> Result<Table, Refusal> {
    given(raw::add(&table.numbers(), row))
}

/// The table without the row at an index, from 0; later rows move up by one.
///
/// The given table is checked first, then the index, and then the table without the row, so removing the only row is refused
/// with 3.
///
/// ```
/// use awelodrun::{remove, Reason, Row, Table};
///
/// let table = Table::new(1, 1, &[Row::new(4, 1, 2), Row::new(8, 1, 6)])?;
/// assert_eq!(remove(&table, 0)?.counted(), [Row::new(8, 1, 6)]);
/// assert_eq!(remove(&table, 256).unwrap_err().reason, Reason::NoRow);
/// # Ok::<(), awelodrun::Refusal>(())
/// ```
pub fn remove(table: &Table, index: u32) -> Result<Table, Refusal> {
    given(raw::remove(&table.numbers(), index))
}

/// The table of an answer.
pub(crate) fn given((numbers, refusal): (Numbers, [u32; 3])) -> Result<Table, Refusal> {
    Refusal::none_in(refusal)?;
    Ok(Table::from_numbers(&numbers))
}

#[cfg(test)]
mod tests {
    use super::*;

    #[test]
    fn a_table_is_its_numbers() {
        let numbers: Numbers = std::array::from_fn(|k| 65_535 - 7 * k as u16);
        let table = Table::from_numbers(&numbers);
        assert_eq!((table.processors, table.depth, table.count), (65_535, 65_528, 65_521));
        assert_eq!(table.rows[0], Row::new(65_514, 65_507, 65_500));
        assert_eq!(table.rows[31], Row::new(65_535 - 7 * 96, 65_535 - 7 * 97, 65_535 - 7 * 98));
        assert_eq!(table.numbers(), numbers);
    }

    #[test]
    fn the_rows_that_matter() {
        for (count, matter) in [(0, 0), (1, 1), (32, 32), (33, 32), (256, 32), (65_535, 32)] {
            assert_eq!(Table { count, ..Table::default() }.counted().len(), matter);
        }
    }
}
