//! Says of a table of real-time tasks whether it is proved that no schedule at all could carry it.
//!
//! A table has m identical processors, a depth x, and up to 32 rows: a task's period T, execution time C and deadline D, in
//! whole slots. The judge calls a table [infeasible](Verdict::Infeasible) where within some number of slots more work is due
//! than the processors can use. That is proved: no schedule can carry such a table. [Undecided](Verdict::Undecided) promises
//! nothing. A greater depth takes longer, and may find more tables infeasible.
//!
//! ```
//! use awelodrun::{judge, Row, Table, Verdict};
//!
//! // Two processors, depth 1, and three rows (T, C, D).
//! let table = Table::new(2, 1, &[Row::new(2, 1, 1), Row::new(3, 2, 2), Row::new(4, 2, 3)])?;
//! match judge(&table)? {
//!     Verdict::Infeasible { t, work, supply, .. } => {
//!         println!("in {t} slots {work} are due, and {supply} can be used");
//! #       assert_eq!((t, work, supply), (8, 14, 13));
//!     }
//!     Verdict::Undecided { frame } => println!("no length within the frame of {frame} slots fails"),
//! }
//! # Ok::<(), awelodrun::Refusal>(())
//! ```
//!
//! Every function answers for every input: what is not as it must be is a [`Refusal`], and no number is narrowed. Nothing that
//! was lent is changed by a refusal. The functions are those of a static library that is written in Rattle and proved to meet
//! its contracts; this crate adds types to them, and no rule of its own.

#![deny(missing_docs)]
#![deny(unsafe_code)]
#![deny(rustdoc::broken_intra_doc_links)]

pub mod file;
mod judge;
#[allow(unsafe_code)]
#[doc(hidden)]
pub mod raw;
mod refusal;
mod table;

pub use judge::{judge, judge_with, ladder, ladder_with, Line, Verdict};
pub use refusal::{Reason, Refusal};
pub use table::{add, check, check_list, remove, Row, Table};

/// The version of this crate and of the library that it is made for.
pub const VERSION: &str = env!("CARGO_PKG_VERSION");

/// A table has room for so many rows.
pub const ROWS: usize = 32;

/// The ladder has so many depths, from 1.
pub const DEPTHS: usize = 8;

/// A frame has at most so many slots.
pub const SLOTS: usize = 4096;

/// The text of every task file has room in so many bytes.
pub const TEXT: usize = 4096;

/// The example of the README, so that it is run too.
#[cfg(doctest)]
#[doc = include_str!("../README.md")]
pub struct Readme;
