//! The judge of a table, and the ladder over the depths.

use crate::raw;
use crate::{Refusal, Table, DEPTHS, SLOTS};

/// What the judge says of a table.
#[derive(Clone, Copy, Debug, PartialEq, Eq, Hash)]
pub enum Verdict {
    /// No schedule at all can carry the table.
    Infeasible {
        /// The least number of slots, from slot 0, in which more work is due than can be done.
        t: u32,
        /// The work due in these slots.
        work: u32,
        /// What the processors can use of these slots, less than the work.
        supply: u32,
        /// The frame H: the least common multiple of the periods.
        frame: u32,
    },
    /// No such length was found. That promises nothing: there may be a schedule, or none.
    Undecided {
        /// The frame H: the least common multiple of the periods.
        frame: u32,
    },
}

impl Verdict {
    /// Whether no schedule can carry the table.
    pub const fn is_infeasible(&self) -> bool {
        matches!(self, Verdict::Infeasible { .. })
    }

    /// The frame H.
    pub const fn frame(&self) -> u32 {
        match *self {
            Verdict::Infeasible { frame, .. } | Verdict::Undecided { frame } => frame,
        }
    }
}

/// What the ladder says of a table at one depth.
#[derive(Clone, Copy, Debug, PartialEq, Eq, Hash)]
pub enum Line {
    /// No schedule at all can carry the table.
    Infeasible {
        /// The least number of slots, from slot 0, in which more work is due than can be done.
        t: u32,
        /// The work due in these slots.
        work: u32,
        /// What the processors can use of these slots, less than the work.
        supply: u32,
    },
    /// No such length was found. That promises nothing: there may be a schedule, or none.
    Undecided,
}

impl Line {
    /// Whether no schedule can carry the table.
    pub const fn is_infeasible(&self) -> bool {
        matches!(self, Line::Infeasible { .. })
    }

    fn of([t, work, supply]: [u32; 3]) -> Line {
        match t {
            0 => Line::Undecided,
            _ => Line::Infeasible { t, work, supply },
        }
    }
}

/// Judges a table at its depth.
///
/// It has the two lists inside, and so takes some 70 KiB of stack. [`judge_with`] takes 36 KiB, and leaves the sets of rows.
///
/// ```
/// use awelodrun::{judge, Row, Table, Verdict};
///
/// let table = Table::new(2, 1, &[Row::new(2, 1, 1), Row::new(3, 2, 2), Row::new(4, 2, 3)])?;
/// assert_eq!(judge(&table)?, Verdict::Infeasible { t: 8, work: 14, supply: 13, frame: 12 });
/// # Ok::<(), awelodrun::Refusal>(())
/// ```
pub fn judge(table: &Table) -> Result<Verdict, Refusal> {
    judge_with(table, &mut [0; SLOTS], &mut [0; SLOTS])
}

/// Judges a table at its depth x, with two lists that are lent.
///
/// Each list has to have at least as many words as the frame has slots, 4,096 at most; a shorter one is refused with 8. After
/// a verdict the first words of the map, as many as the frame has slots, are the sets of rows available at depth x, and those
/// of the pins are the sets pinned at depth x - 1 (zeros where x is 1); bit i is row i. Later words are as they were, and so
/// are both lists after a refusal.
///
/// ```
/// use awelodrun::{judge_with, Row, Table, Verdict};
///
/// let table = Table::new(1, 2, &[Row::new(4, 1, 3)])?;
/// let (mut map, mut pins) = ([9; 5], [9; 5]);
/// assert_eq!(judge_with(&table, &mut map, &mut pins)?, Verdict::Undecided { frame: 4 });
/// assert_eq!(map, [1, 0, 0, 0, 9]);
/// assert_eq!(pins, [1, 0, 0, 0, 9]);
/// # Ok::<(), awelodrun::Refusal>(())
/// ```
pub fn judge_with(table: &Table, map: &mut [u32], pins: &mut [u32]) -> Result<Verdict, Refusal> {
    let [no, entry, row, t, work, supply, frame] = raw::judge(&table.numbers(), Some(map), Some(pins));
    Refusal::none_in([no, entry, row])?;
    Ok(match t {
        0 => Verdict::Undecided { frame },
        _ => Verdict::Infeasible { t, work, supply, frame },
    })
}

/// Judges a table at each depth from 1 to 8: the first line is that of depth 1. The table's own depth is checked, and not used.
///
/// It has the two lists inside, and so takes some 70 KiB of stack.
///
/// ```
/// use awelodrun::{ladder, Line, Row, Table};
///
/// let rows = [Row::new(2, 1, 1), Row::new(3, 2, 2), Row::new(4, 2, 3), Row::new(8, 1, 6)];
/// let lines = ladder(&Table::new(2, 1, &rows)?)?;
/// assert_eq!(lines[0], Line::Undecided);
/// assert_eq!(lines[1], Line::Infeasible { t: 8, work: 15, supply: 14 });
/// # Ok::<(), awelodrun::Refusal>(())
/// ```
pub fn ladder(table: &Table) -> Result<[Line; DEPTHS], Refusal> {
    ladder_with(table, &mut [0; SLOTS], &mut [0; SLOTS])
}

/// Judges a table at each depth from 1 to 8, with two lists that are lent. They are left as [`judge_with`] leaves them at
/// depth 8.
///
/// ```
/// use awelodrun::{ladder_with, Line, Reason, Row, Table};
///
/// let table = Table::new(1, 1, &[Row::new(4, 1, 3)])?;
/// let (mut map, mut pins) = ([9; 5], [9; 5]);
/// assert_eq!(ladder_with(&table, &mut map, &mut pins)?, [Line::Undecided; 8]);
/// assert_eq!(map, [1, 0, 0, 0, 9]);
/// assert_eq!(ladder_with(&table, &mut map, &mut []).unwrap_err().reason, Reason::ShortList);
/// # Ok::<(), awelodrun::Refusal>(())
/// ```
pub fn ladder_with(table: &Table, map: &mut [u32], pins: &mut [u32]) -> Result<[Line; DEPTHS], Refusal> {
    let (lines, refusal) = raw::ladder(&table.numbers(), Some(map), Some(pins));
    Refusal::none_in(refusal)?;
    Ok(std::array::from_fn(|y| Line::of([lines[3 * y], lines[3 * y + 1], lines[3 * y + 2]])))
}
