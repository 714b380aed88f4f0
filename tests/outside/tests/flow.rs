//! The exact search against trying every schedule, on tables small enough for that.

use outside::answers::Table;
use outside::draw::{good, Size};
use outside::flow::{is_valid, jobs, search, Job};
use outside::random::Random;
use outside::reference::table::frame_of;

/// Whether the jobs from `next` on can be placed, `left` being the processors left in each slot: tries all ways.
fn any_way(jobs: &[Job], left: &mut [usize]) -> bool {
    let Some((job, rest)) = jobs.split_first() else { return true };
    let slots = job.end - job.release;
    for choice in 0u32..1 << slots {
        let chosen: Vec<usize> = (0..slots).filter(|k| choice >> k & 1 == 1).map(|k| job.release + k).collect();
        if chosen.len() != job.execution || chosen.iter().any(|&t| left[t] == 0) {
            continue;
        }
        chosen.iter().for_each(|&t| left[t] -= 1);
        let found = any_way(rest, left);
        chosen.iter().for_each(|&t| left[t] += 1);
        if found {
            return true;
        }
    }
    false
}

#[test]
fn finds_a_schedule_exactly_where_there_is_one() {
    let mut random = Random::new(4);
    let (mut with, mut without) = (0, 0);
    while with < 300 || without < 300 {
        let table: Table = good(&mut random, Size::Small);
        let frame = frame_of(&table).unwrap() as usize;
        if table.count > 4 || frame > 8 {
            continue;
        }
        let found = search(&table, frame);
        let expected = any_way(&jobs(&table, frame), &mut vec![table.m as usize; frame]);
        assert_eq!(found.is_some(), expected, "{table:?}");
        match found {
            Some(schedule) => {
                assert!(is_valid(&table, frame, &schedule), "{table:?}");
                with += 1;
            }
            None => without += 1,
        }
    }
}

#[test]
fn tells_a_schedule_that_is_not_valid() {
    let table = Table::of(1, 1, &[(2, 1, 1), (4, 1, 2)]);
    let schedule = search(&table, 4).unwrap();
    assert_eq!(schedule, [1, 2, 1, 0]);
    for wrong in [[1, 2, 0, 0], [1, 2, 1, 1], [3, 0, 1, 0], [1, 2, 1, 2], [1, 0, 1, 2]] {
        assert!(!is_valid(&table, 4, &wrong), "{wrong:?}");
    }
}
