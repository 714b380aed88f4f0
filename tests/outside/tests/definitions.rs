//! The reference against the definitions of document 01 as one recursion, with nothing kept between questions.

use outside::answers::{Row, Table};
use outside::draw::{good, Size};
use outside::flow;
use outside::random::Random;
use outside::reference::judge::{at_depth, least_failing, work_due};
use outside::reference::table::frame_of;

fn release(row: &Row, t: usize) -> usize {
    t / row.period as usize * row.period as usize
}

fn window(row: &Row, t: usize) -> std::ops::Range<usize> {
    release(row, t)..release(row, t) + row.deadline as usize
}

fn available(table: &Table, y: usize, i: usize, t: usize) -> bool {
    let row = &table.rows[i];
    if y == 1 {
        return t % (row.period as usize) < row.deadline as usize;
    }
    let pins = || window(row, t).filter(|&s| pinned(table, y - 1, i, s)).count();
    window(row, t).contains(&t) && (pinned(table, y - 1, i, t) || pins() < row.execution as usize)
}

fn size(table: &Table, y: usize, t: usize) -> usize {
    (0..table.count as usize).filter(|&i| available(table, y, i, t)).count()
}

fn pinned(table: &Table, y: usize, i: usize, t: usize) -> bool {
    let row = &table.rows[i];
    let earlier = || (release(row, t)..t).filter(|&s| pinned(table, y, i, s)).count();
    available(table, y, i, t) && size(table, y, t) <= table.m as usize && earlier() < row.execution as usize
}

#[test]
fn available_and_pinned_sets() {
    let mut random = Random::new(1);
    let mut tried = 0;
    while tried < 400 {
        let table = good(&mut random, Size::Small);
        let longest = table.counted().iter().map(|row| row.period).max().unwrap();
        if table.count > 4 || longest > 6 {
            continue;
        }
        tried += 1;
        let frame = frame_of(&table).unwrap() as usize;
        for x in 1..=if longest > 4 { 2 } else { 3 } {
            let (map, pins) = at_depth(table.counted(), table.m as usize, frame, x);
            for t in 0..frame {
                for i in 0..table.count as usize {
                    assert_eq!(map[t][i], available(&table, x, i, t), "{table:?} depth {x} row {i} slot {t}");
                    let pin = x > 1 && pinned(&table, x - 1, i, t);
                    assert_eq!(pins[t][i], pin, "{table:?} depth {x} row {i} slot {t}");
                }
            }
        }
    }
}

/// Work due is the execution of the jobs whose windows end by t; verdicts are the least failing lengths.
#[test]
fn work_and_verdicts() {
    let mut random = Random::new(2);
    for _ in 0..2000 {
        let table = good(&mut random, Size::Small);
        let frame = frame_of(&table).unwrap() as usize;
        let due = |t: usize| {
            let ended = flow::jobs(&table, frame).into_iter().filter(|job| job.end <= t);
            ended.map(|job| job.execution as u64).sum::<u64>()
        };
        let (map, _) = at_depth(table.counted(), table.m as usize, frame, 2);
        let supply = |t: usize| {
            let unusable = |set: &[bool; 32]| (table.m as i64 - set.iter().filter(|&&on| on).count() as i64).max(0);
            (table.m as i64 * t as i64 - map[..t].iter().map(unusable).sum::<i64>()) as u64
        };
        let first = (1..=frame).find(|&t| due(t) > supply(t));
        let expected = first.map_or([0; 3], |t| [t as u32, due(t) as u32, supply(t) as u32]);
        assert_eq!(least_failing(table.counted(), table.m as usize, &map), expected);
        assert!((1..=frame).all(|t| due(t) == work_due(table.counted(), t)));
    }
}

/// Document 01: "the available sets never grow with depth".
#[test]
fn available_sets_never_grow() {
    let mut random = Random::new(3);
    for _ in 0..2000 {
        let table = good(&mut random, Size::Small);
        let frame = frame_of(&table).unwrap() as usize;
        for x in 1..8 {
            let sets = |x| at_depth(table.counted(), table.m as usize, frame, x).0;
            let (now, next) = (sets(x), sets(x + 1));
            assert!((0..frame).all(|t| (0..32).all(|i| now[t][i] || !next[t][i])), "{table:?} depth {x}");
        }
    }
}
