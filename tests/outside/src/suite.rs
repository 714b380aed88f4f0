//! The comparison suite: its groups in order, each with its share of the time.

mod edits;
mod empty;
mod file_faults;
mod files;
mod hand;
mod lists;
mod put_order;
mod puts;
mod row_lists;
mod small;
mod sound;
mod table_faults;
mod tables;
mod texts;

pub use hand::{verdicts, Verdict, WORKED};

use crate::run::{Difference, Outcome, Run};
use crate::subject::Subject;
use std::collections::BTreeMap;
use std::time::Instant;

/// A group's name, its share of the seconds (0 where its inputs are listed and not drawn), and its cases.
type Group = (&'static str, f64, fn(&mut Run) -> Outcome);

const GROUPS: [Group; 21] = [
    ("hand tables and examples", 0.0, hand::tables),
    ("hand files", 0.0, hand::files),
    ("hand texts", 0.0, texts::hand),
    ("empty lists and null pointers", 0.0, empty::all),
    ("numbers that fit no byte", 0.0, table_faults::wide),
    ("lists of rows of every length", 0.0, row_lists::lengths),
    ("rows past the count", 0.0, table_faults::past_the_count),
    ("faults of a table, two at once", 0.0, table_faults::pairs),
    ("faults of a file, two at once", 0.0, file_faults::pairs),
    ("faults of put, two at once", 0.0, put_order::pairs),
    ("files cut, changed and lengthened", 0.0, files::damaged),
    ("long files", 0.0, files::long),
    ("all small tables", 0.0, small::all),
    ("word lists of every nearby length", 0.10, lists::nearby),
    ("random tables", 0.32, tables::random),
    ("random lists of rows", 0.03, row_lists::random),
    ("infeasible has no schedule", 0.10, sound::against_flow),
    ("add and remove", 0.10, edits::random),
    ("random files", 0.15, files::random),
    ("put and find", 0.15, puts::random),
    ("the program's text", 0.05, texts::random),
];

/// What a run draws.
#[derive(Clone, Default)]
pub struct Plan {
    /// The seconds of all random inputs together.
    pub seconds: f64,
    /// With a seed, each group of random inputs runs twice: half its time for the fixed ones, half for those of the seed.
    pub seed: Option<u64>,
    /// One group alone, by its name.
    pub only: Option<String>,
}

/// What a group came to.
pub struct Report {
    pub name: &'static str,
    /// Whether the inputs were drawn from the seed.
    pub seeded: bool,
    pub cases: u64,
    pub tallies: BTreeMap<&'static str, u64>,
    pub seconds: f64,
}

/// The names of the groups.
pub fn names() -> [&'static str; 21] {
    GROUPS.map(|(name, _, _)| name)
}

/// Runs every group, up to the first difference; tells each group's report as it ends.
pub fn run(subject: &dyn Subject, plan: &Plan, mut tell: impl FnMut(&Report)) -> Result<(), Box<Difference>> {
    let wanted = |name: &str| plan.only.as_ref().is_none_or(|only| only == name);
    for (name, share, cases) in GROUPS.into_iter().filter(|(name, _, _)| wanted(name)) {
        let mut one = |seed: Option<u64>, seconds: f64| -> Outcome {
            let begin = Instant::now();
            let mut run = Run::new(subject, name, seconds, seed);
            cases(&mut run)?;
            let seconds = begin.elapsed().as_secs_f64();
            tell(&Report { name, seeded: seed.is_some(), cases: run.cases, tallies: run.tallies, seconds });
            Ok(())
        };
        match plan.seed {
            Some(seed) if share > 0.0 => {
                one(None, plan.seconds * share / 2.0)?;
                one(Some(seed), plan.seconds * share / 2.0)?;
            }
            _ => one(None, plan.seconds * share)?,
        }
    }
    Ok(())
}
