//! The suite notices every wrong variant, and none in the second implementation without a wrong turn.

use outside::answers::Given;
use outside::subject::Subject;
use outside::suite::{self, Plan};
use outside::wrong::{turns, Wrong};

#[test]
fn no_wrong_turn_is_no_difference() {
    suite::run(&Wrong(""), &Plan::default(), |_| {}).unwrap_or_else(|difference| panic!("{difference}"));
}

#[test]
fn every_wrong_turn_is_noticed() {
    let is_missed = |turn: &&'static str| suite::run(&Wrong(turn), &Plan::default(), |_| {}).is_ok();
    let missed: Vec<&str> = turns().into_iter().filter(is_missed).collect();
    assert!(missed.is_empty(), "of {} wrong turns these go unnoticed: {missed:?}", turns().len());
}

/// The answers that wrong turns give on the least tables, as they were worked out beside the right ones.
#[test]
fn the_wrong_answers_are_the_ones_known() {
    let known = [
        ("the printed rule for depth 1", "the printed rule for depth 1", [0, 0, 0]),
        ("pinning over m", "pinning over m", [2, 2, 1]),
        ("pinning past C", "pinning past C, and below m", [0, 0, 0]),
        ("only earlier pins counted", "only earlier pins counted", [0, 0, 0]),
        ("size below m", "pinning past C, and below m", [3, 6, 5]),
        ("only the end looked at", "only the end looked at", [2, 3, 2]),
    ];
    for (turn, name, wrong) in known {
        let verdict = suite::verdicts().into_iter().find(|verdict| verdict.name == name).expect("it is listed");
        let got = Wrong(turn).judge(&Given::from_table(&verdict.table), &mut [0; 64], &mut [0; 64]);
        assert_eq!([got.t, got.work, got.supply], wrong, "{turn}");
        assert_ne!(got, verdict.answer, "{turn}");
    }
}
