//! Refusals: why a table, a list or a file has no other answer.

use std::error::Error;
use std::fmt;

/// What was asked and not given. Each reason has a number, from 1 to 19, and a sentence.
///
/// ```
/// use awelodrun::Reason;
///
/// assert_eq!(Reason::Frame.number(), 7);
/// assert_eq!(Reason::from_number(7), Some(Reason::Frame));
/// assert_eq!(Reason::Depth.sentence(), "x, the depth, must be 1 to 8");
/// ```
#[derive(Clone, Copy, Debug, PartialEq, Eq, PartialOrd, Ord, Hash)]
pub enum Reason {
    /// m, the number of processors.
    Processors = 1,
    /// x, the depth.
    Depth = 2,
    /// The number of rows.
    Count = 3,
    /// T of the row.
    Period = 4,
    /// D of the row.
    Deadline = 5,
    /// C of the row.
    Execution = 6,
    /// H, the frame. The row is the first whose period takes it over.
    Frame = 7,
    /// The lengths of the two lists.
    ShortList = 8,
    /// The length of the file.
    FileLength = 9,
    /// The form of the file.
    Form = 10,
    /// The number of entries.
    Entries = 11,
    /// The kind of the entry.
    Kind = 12,
    /// The place of the entry's body, or bytes past the last body.
    Start = 13,
    /// The sum of the entry.
    Sum = 14,
    /// The body of the entry's table.
    Body = 15,
    /// The number of the entry.
    NumberUsed = 16,
    /// The number that was asked for.
    NoTable = 17,
    /// The index of the row to remove.
    NoRow = 18,
    /// The length of the output.
    ShortOutput = 19,
}

/// The sentences in the order of their numbers. They are those of the file words/refusals.
const SENTENCES: [&str; 19] = [
    "m, the number of processors, must be 1 to 16",
    "x, the depth, must be 1 to 8",
    "the number of rows must be 1 to 32",
    "T, the period of the row, must be 1 to 4,096",
    "D, the deadline of the row, must be 1 to its T",
    "C, the execution time of the row, must be 1 to its D",
    "H, the least common multiple of all periods, must be at most 4,096; the row takes it over",
    "each of the two lists of words, map and pins, must have at least H words",
    "the file must have 4 to 65,535 bytes",
    "the form of the file, its bytes 2 and 3, must be 1",
    "the number of entries must be 1 to 64, and the contents must fit in the file",
    "the kind of the entry must be 1, a table, or 128 to 255, a note",
    "the bodies must follow the contents and each other with no gap, to the end of the file",
    "the sum of the entry must be the sum of its body",
    "the body of a table must have 4 bytes, the last of them 0, and 6 for each row it counts",
    "the number of the entry must not be that of an earlier entry",
    "find: a table must have the number; put: no note may have it",
    "remove: the table must have a row with the index",
    "put: the output must be at least as long as the file that is written",
];

impl Reason {
    /// All reasons, in the order of their numbers.
    pub const ALL: [Reason; 19] = [
        Reason::Processors,
        Reason::Depth,
        Reason::Count,
        Reason::Period,
        Reason::Deadline,
        Reason::Execution,
        Reason::Frame,
        Reason::ShortList,
        Reason::FileLength,
        Reason::Form,
        Reason::Entries,
        Reason::Kind,
        Reason::Start,
        Reason::Sum,
        Reason::Body,
        Reason::NumberUsed,
        Reason::NoTable,
        Reason::NoRow,
        Reason::ShortOutput,
    ];

    /// The number, from 1 to 19.
    pub const fn number(self) -> u32 {
        self as u32
    }

    /// The reason of a number; None where there is none.
    pub fn from_number(number: u32) -> Option<Reason> {
        Reason::ALL.into_iter().find(|reason| reason.number() == number)
    }

    /// The sentence, which says what must be.
    pub const fn sentence(self) -> &'static str {
        SENTENCES[self as usize - 1]
    }
}

impl fmt::Display for Reason {
    fn fmt(&self, f: &mut fmt::Formatter<'_>) -> fmt::Result {
        f.write_str(self.sentence())
    }
}

/// A refusal: its reason, and the entry and the row that it names.
///
/// Entries and rows are numbered from 0, and are 0 where none applies. An entry is named by the reasons 12 to 16, and by 1 to
/// 7 of a table inside a file; a row by 4 to 7.
///
/// ```
/// use awelodrun::{check_list, Reason, Refusal, Row};
///
/// let refusal = check_list(1, 1, &[Row::new(4, 1, 2), Row::new(4, 3, 2)]).unwrap_err();
/// assert_eq!(refusal, Refusal { reason: Reason::Execution, entry: 0, row: 1 });
/// assert_eq!(
///     refusal.to_string(),
///     "C, the execution time of the row, must be 1 to its D (refusal 6, entry 0, row 1)"
/// );
/// ```
#[derive(Clone, Copy, Debug, PartialEq, Eq, Hash)]
pub struct Refusal {
    /// Why it was refused.
    pub reason: Reason,
    /// The entry of the file, from 0.
    pub entry: u32,
    /// The row of the table, from 0.
    pub row: u32,
}

impl Refusal {
    /// The number of the reason.
    pub const fn number(&self) -> u32 {
        self.reason.number()
    }

    /// Nothing where the library refuses nothing, or else the refusal of these numbers: no, entry, row.
    pub(crate) fn none_in([no, entry, row]: [u32; 3]) -> Result<(), Refusal> {
        match Reason::from_number(no) {
            Some(reason) => Err(Refusal { reason, entry, row }),
            None if no == 0 => Ok(()),
            None => panic!("the library that is linked has a refusal {no}, which version {} has not", crate::VERSION),
        }
    }
}

impl fmt::Display for Refusal {
    fn fmt(&self, f: &mut fmt::Formatter<'_>) -> fmt::Result {
        write!(f, "{} (refusal {}, entry {}, row {})", self.reason, self.number(), self.entry, self.row)
    }
}

impl Error for Refusal {}

#[cfg(test)]
mod tests {
    use super::*;

    #[test]
    fn the_reasons_have_the_numbers_1_to_19() {
        let numbers: Vec<u32> = Reason::ALL.iter().map(|reason| reason.number()).collect();
        assert_eq!(numbers, (1..=19).collect::<Vec<u32>>());
        for number in 0..40 {
            let reason = Reason::from_number(number);
            assert_eq!(reason.map(Reason::number), Some(number).filter(|number| (1..=19).contains(number)));
        }
    }

    #[test]
    fn numbers_of_an_answer() {
        assert_eq!(Refusal::none_in([0, 0, 0]), Ok(()));
        assert_eq!(Refusal::none_in([4, 2, 9]), Err(Refusal { reason: Reason::Period, entry: 2, row: 9 }));
        assert_eq!(Refusal::none_in([19, 0, 0]), Err(Refusal { reason: Reason::ShortOutput, entry: 0, row: 0 }));
    }

    #[test]
    #[should_panic(expected = "has a refusal 20")]
    fn a_number_that_there_is_not() {
        let _ = Refusal::none_in([20, 0, 0]);
    }
}
