//! A run of the suite: the library under test, the seed, the time, the count of cases, and the first difference.

use crate::random::Random;
use crate::subject::Subject;
use std::collections::BTreeMap;
use std::fmt;
use std::time::{Duration, Instant};

/// The first input on which the library and the reference differ.
#[derive(Debug)]
pub struct Difference {
    pub group: &'static str,
    /// The seed that was given, where the inputs came from it, and the round.
    pub drawn: Option<(u64, u64)>,
    pub input: String,
    pub expected: String,
    pub got: String,
}

pub type Outcome = Result<(), Box<Difference>>;

impl fmt::Display for Difference {
    fn fmt(&self, f: &mut fmt::Formatter) -> fmt::Result {
        writeln!(f, "DIFFERENCE in {}", self.group)?;
        if let Some((seed, round)) = self.drawn {
            writeln!(f, "seed:     {seed}, round {round}")?;
        }
        writeln!(f, "input:    {}", self.input)?;
        writeln!(f, "expected: {}", self.expected)?;
        write!(f, "got:      {}", self.got)
    }
}

/// The rounds that every group of random inputs draws, however little time there is.
const LEAST_ROUNDS: u64 = 400;

pub struct Run<'a> {
    pub subject: &'a dyn Subject,
    pub random: Random,
    pub cases: u64,
    pub tallies: BTreeMap<&'static str, u64>,
    group: &'static str,
    seed: Option<u64>,
    rounds: u64,
    until: Instant,
}

/// Where a group's draws begin: at a place of its own, which is always the same without a seed, and follows the seed if not.
fn beginning(group: &str, seed: Option<u64>) -> u64 {
    let own = group.bytes().fold(1, |own: u64, byte| own.wrapping_mul(257) + byte as u64);
    seed.map_or(own, |seed| own ^ Random::new(seed).next())
}

impl<'a> Run<'a> {
    /// A run of one group, which draws random inputs for so many seconds: the fixed ones, or those of a seed.
    pub fn new(subject: &'a dyn Subject, group: &'static str, seconds: f64, seed: Option<u64>) -> Run<'a> {
        Run {
            subject,
            random: Random::new(beginning(group, seed)),
            cases: 0,
            tallies: BTreeMap::new(),
            group,
            seed,
            rounds: 0,
            until: Instant::now() + Duration::from_secs_f64(seconds),
        }
    }

    /// A run of the same group on another library, which draws no more than it must.
    pub fn beside<'b>(&self, subject: &'b dyn Subject) -> Run<'b> {
        Run::new(subject, self.group, 0.0, self.seed)
    }

    /// Whether to draw another round of random inputs: at least so many rounds, then for as long as there is time.
    pub fn more(&mut self) -> bool {
        self.rounds += 1;
        self.rounds <= LEAST_ROUNDS || Instant::now() < self.until
    }

    /// Counts something worth knowing of the inputs drawn.
    pub fn tally(&mut self, what: &'static str) {
        *self.tallies.entry(what).or_insert(0) += 1;
    }

    /// A difference, with the input that shows it.
    pub fn difference(&self, input: String, expected: String, got: String) -> Outcome {
        let drawn = self.seed.map(|seed| (seed, self.rounds));
        Err(Box::new(Difference { group: self.group, drawn, input, expected, got }))
    }

    /// One case: both answers must be the same.
    pub fn same<T: PartialEq + fmt::Debug>(&mut self, input: impl FnOnce() -> String, expected: T, got: T) -> Outcome {
        self.cases += 1;
        if expected == got {
            return Ok(());
        }
        self.difference(input(), format!("{expected:?}"), format!("{got:?}"))
    }
}
