//! The outside tests: an independent reading of document 01, and the suite that holds a library to it.

pub mod answers;
#[cfg(feature = "library")]
pub mod bound;
pub mod compare;
pub mod draft;
pub mod draw;
pub mod flow;
pub mod lend;
#[cfg(feature = "library")]
pub mod library;
pub mod program;
pub mod random;
pub mod reference;
pub mod run;
#[cfg(feature = "library")]
pub mod safe;
pub mod subject;
pub mod suite;
pub mod wrong;
