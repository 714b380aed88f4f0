//! A run draws the same inputs from the same seed, others from another, and the fixed ones beside them.

use outside::answers::{Checked, Filed, Given, Judged, Ladder, Row, Tabled, Written};
use outside::reference::Reference;
use outside::subject::Subject;
use outside::suite::{run, Plan};
use outside::wrong::Wrong;
use std::cell::RefCell;

/// The reference, which keeps the tables that a row is added to.
#[derive(Default)]
struct Listening(RefCell<Vec<Given>>);

impl Subject for Listening {
    fn check(&self, table: &Given) -> Checked {
        Reference.check(table)
    }
    fn check_list(&self, m: u16, x: u16, rows: &[Row]) -> Checked {
        Reference.check_list(m, x, rows)
    }
    fn judge(&self, table: &Given, map: &mut [u32], pins: &mut [u32]) -> Judged {
        Reference.judge(table, map, pins)
    }
    fn ladder(&self, table: &Given, map: &mut [u32], pins: &mut [u32]) -> Ladder {
        Reference.ladder(table, map, pins)
    }
    fn add(&self, table: &Given, row: Row) -> Tabled {
        self.0.borrow_mut().push(*table);
        Reference.add(table, row)
    }
    fn remove(&self, table: &Given, index: u32) -> Tabled {
        Reference.remove(table, index)
    }
    fn file_check(&self, file: &[u8]) -> Filed {
        Reference.file_check(file)
    }
    fn find(&self, file: &[u8], number: u16) -> Tabled {
        Reference.find(file, number)
    }
    fn put(&self, file: &[u8], number: u16, table: &Given, out: &mut [u8]) -> Written {
        Reference.put(file, number, table, out)
    }
    fn shift_text(&self, file: &[u8], map: &mut [u32; 4096], pins: &mut [u32; 4096], out: &mut [u8; 4096]) -> usize {
        Reference.shift_text(file, map, pins, out)
    }
}

fn plan(seed: Option<u64>) -> Plan {
    Plan { seconds: 0.0, seed, only: Some("add and remove".into()) }
}

/// The tables that a run of one group drew.
fn drawn(seed: Option<u64>) -> Vec<Given> {
    let listening = Listening::default();
    run(&listening, &plan(seed), |_| {}).unwrap_or_else(|difference| panic!("{difference}"));
    listening.0.into_inner()
}

#[test]
fn a_seed_draws_its_own_inputs_beside_the_fixed_ones() {
    let (fixed, one, two) = (drawn(None), drawn(Some(1)), drawn(Some(2)));
    assert_eq!(fixed, drawn(None));
    assert_eq!(one, drawn(Some(1)));
    for seeded in [&one, &two] {
        assert_eq!(seeded.len(), 2 * fixed.len());
        assert_eq!(seeded[..fixed.len()], fixed);
        assert_ne!(seeded[fixed.len()..], fixed);
    }
    assert_ne!(one[fixed.len()..], two[fixed.len()..]);
}

/// A difference that only a seed's inputs show names the seed and the round.
#[test]
fn a_difference_names_its_seed() {
    let difference = run(&Wrong("add that touches nothing"), &plan(None), |_| {}).unwrap_err();
    assert_eq!(difference.drawn, None);
    assert!(!difference.to_string().contains("seed"));
    let seen = outside::run::Run::new(&Reference, "a group", 0.0, Some(77)).difference("".into(), "".into(), "".into());
    assert_eq!(seen.unwrap_err().to_string().lines().nth(1), Some("seed:     77, round 0"));
}

#[test]
fn new_seeds_differ() {
    assert_ne!(outside::random::new_seed(), outside::random::new_seed());
}
