//! Document 000's Algorithm 1 read literally, with document 01's corrections: sets as lists of truth values, counts taken afresh.
//!
//! The letters are the paper's: A is whether a task is available in a slot, AV how many are, PJ whether it is pinned.
//! Corrected are lines 2 and 9 (d), which say `(t+1) mod T <= D`, the window's start, which lacks the factor T, and the
//! window's end in 9 (f), which is a slot late; the demand is the plain one.

use outside::answers::{Given, Judged, Ladder, Refusal, Row};
use outside::reference::table::frame_of;

type Sets = Vec<Vec<bool>>;

/// Lines 1 and 2.
fn first(rows: &[Row], frame: usize) -> Sets {
    rows.iter().map(|row| (0..frame).map(|t| t % (row.period as usize) < row.deadline as usize).collect()).collect()
}

/// Lines 3 and 10.
fn sizes(a: &Sets, frame: usize) -> Vec<usize> {
    (0..frame).map(|t| a.iter().filter(|a| a[t]).count()).collect()
}

/// Line 7.
fn pinned(rows: &[Row], m: usize, a: &Sets, av: &[usize]) -> Sets {
    let frame = av.len();
    let mut pj = vec![vec![false; frame]; rows.len()];
    for t in 0..frame {
        for (i, row) in rows.iter().enumerate() {
            let release = t / row.period as usize * row.period as usize;
            let earlier = |pj: &[bool]| pj[release..t].iter().filter(|&&pinned| pinned).count();
            if a[i][t] && av[t] <= m && earlier(&pj[i]) < row.execution as usize {
                pj[i][t] = true;
            }
        }
    }
    pj
}

/// Line 9.
fn next(rows: &[Row], pj: &Sets, frame: usize) -> Sets {
    let mut a = vec![vec![false; frame]; rows.len()];
    for t in 0..frame {
        for (i, row) in rows.iter().enumerate() {
            let (period, deadline) = (row.period as usize, row.deadline as usize);
            let release = t / period * period;
            let whole = || pj[i][release..release + deadline].iter().filter(|&&pinned| pinned).count();
            a[i][t] = t % period < deadline && (pj[i][t] || whole() < row.execution as usize);
        }
    }
    a
}

/// Theorem 3's bound, kept from slot to slot, against the plain demand.
fn least_failing(rows: &[Row], m: usize, av: &[usize]) -> [u32; 3] {
    let mut supply = 0;
    for t in 1..=av.len() {
        supply += m - m.saturating_sub(av[t - 1]);
        let jobs = |row: &Row| (t + row.period as usize).saturating_sub(row.deadline as usize) / row.period as usize;
        let work: usize = rows.iter().map(|row| jobs(row) * row.execution as usize).sum();
        if work > supply {
            return [t as u32, work as u32, supply as u32];
        }
    }
    [0; 3]
}

fn write(sets: &Sets, list: &mut [u32], frame: usize) {
    for (t, word) in list[..frame].iter_mut().enumerate() {
        *word = sets.iter().enumerate().map(|(i, set)| (set[t] as u32) << i).sum();
    }
}

/// All depths up to x: the line of each, with the lists written at the end.
fn depths(rows: &[Row], m: usize, frame: usize, x: usize, map: &mut [u32], pins: &mut [u32]) -> Vec<[u32; 3]> {
    let mut a = first(rows, frame);
    let mut av = sizes(&a, frame);
    let mut pj = vec![vec![false; frame]; rows.len()];
    let mut lines = vec![least_failing(rows, m, &av)];
    for _ in 2..=x {
        pj = pinned(rows, m, &a, &av);
        a = next(rows, &pj, frame);
        av = sizes(&a, frame);
        lines.push(least_failing(rows, m, &av));
    }
    write(&a, map, frame);
    write(&pj, pins, frame);
    lines
}

pub fn judge(given: &Given, map: &mut [u32], pins: &mut [u32]) -> Judged {
    let table = given.table();
    let frame = frame_of(&table).expect("a good table is measured");
    let lines = depths(table.counted(), table.m as usize, frame as usize, table.x as usize, map, pins);
    let [t, work, supply] = lines[table.x as usize - 1];
    Judged { refusal: Refusal::default(), t, work, supply, frame }
}

pub fn ladder(given: &Given, map: &mut [u32], pins: &mut [u32]) -> Ladder {
    let table = given.table();
    let frame = frame_of(&table).expect("a good table is measured");
    let lines = depths(table.counted(), table.m as usize, frame as usize, 8, map, pins);
    Ladder { refusal: Refusal::default(), square: std::array::from_fn(|y| lines[y]) }
}
