//! Times of calls: each contender in turn, several times over, and the median of what each took.

use crate::clock;
use crate::wire::Call;
use outside::answers::{Given, Judged, Ladder};
use std::hint::black_box;

/// One way to judge and to climb the ladder.
pub struct Contender {
    pub name: &'static str,
    pub judge: fn(&Given, &mut [u32], &mut [u32]) -> Judged,
    pub ladder: fn(&Given, &mut [u32], &mut [u32]) -> Ladder,
    /// The least seconds that one sample takes; 0 for one call a sample.
    pub sample: f64,
}

pub struct Lists {
    pub map: Vec<u32>,
    pub pins: Vec<u32>,
}

impl Lists {
    pub fn new(length: usize) -> Lists {
        Lists { map: vec![0; length], pins: vec![0; length] }
    }
}

fn call(contender: &Contender, call: Call, table: &Given, lists: &mut Lists) {
    let (map, pins) = (&mut lists.map, &mut lists.pins);
    match call {
        Call::Judge => drop(black_box((contender.judge)(black_box(table), map, pins))),
        Call::Ladder => drop(black_box((contender.ladder)(black_box(table), map, pins))),
    }
}

/// Seconds that one call takes, over as many calls as make a sample.
fn sample(contender: &Contender, what: Call, table: &Given, lists: &mut Lists) -> f64 {
    let begin = clock::seconds();
    let mut calls = 0;
    loop {
        call(contender, what, table, lists);
        calls += 1;
        let seconds = clock::seconds() - begin;
        if seconds >= contender.sample {
            return seconds / calls as f64;
        }
    }
}

pub fn median(mut list: Vec<f64>) -> f64 {
    list.sort_by(f64::total_cmp);
    list[list.len() / 2]
}

/// The median seconds of each contender on each table, in the contenders' order; the samples of one table are interleaved.
pub fn times(
    contenders: &[Contender],
    what: Call,
    tables: &[Given],
    lists: &mut Lists,
    samples: usize,
) -> Vec<Vec<f64>> {
    let mut medians = vec![vec![]; contenders.len()];
    for table in tables {
        let mut taken = vec![vec![]; contenders.len()];
        for _ in 0..samples {
            for (contender, taken) in contenders.iter().zip(&mut taken) {
                taken.push(sample(contender, what, table, lists));
            }
        }
        for (list, taken) in medians.iter_mut().zip(taken) {
            list.push(median(taken));
        }
    }
    medians
}
