//! The judge and the ladder: sets of rows by slot, and counts of pins by job, as document 01 words them.

use super::table::{frame_of, refuse};
use crate::answers::{Judged, Ladder, Refusal, Row, Table};

/// Sets of rows by slot: `sets[t][i]` says whether row i is in the set of slot t.
pub type Sets = Vec<[bool; 32]>;

/// A slot is in a row's window when it is one of the D slots from its job's release.
fn in_window(row: &Row, t: usize) -> bool {
    let release = t / row.period as usize * row.period as usize;
    t < release + row.deadline as usize
}

/// The number of the job of a row that has slot t in its period.
fn job_in(row: &Row, t: usize) -> usize {
    t / row.period as usize
}

/// "the size of a set is its count of ones"
fn size(set: &[bool; 32]) -> usize {
    set.iter().filter(|&&member| member).count()
}

/// "Depth 1: a row is available in t when t mod T is less than D."
pub fn first_available(rows: &[Row], frame: usize) -> Sets {
    let mut available = vec![[false; 32]; frame];
    for (t, set) in available.iter_mut().enumerate() {
        for (i, row) in rows.iter().enumerate() {
            set[i] = t % (row.period as usize) < row.deadline as usize;
        }
    }
    available
}

/// "going through slots from 0 up, a row is pinned in t when it is available there at depth y, the available set
/// of that slot has at most m rows, and its job was pinned at depth y in fewer than C earlier slots"
pub fn pinned(rows: &[Row], m: usize, available: &Sets) -> Sets {
    let frame = available.len();
    let mut pinned = vec![[false; 32]; frame];
    let mut earlier: Vec<Vec<usize>> = rows.iter().map(|row| vec![0; frame / row.period as usize]).collect();
    for t in 0..frame {
        for (i, row) in rows.iter().enumerate() {
            let count = &mut earlier[i][job_in(row, t)];
            if available[t][i] && size(&available[t]) <= m && *count < row.execution as usize {
                pinned[t][i] = true;
                *count += 1;
            }
        }
    }
    pinned
}

/// "a row is available in t when t is in its job's window and either the job is pinned at depth y in t, or it is
/// pinned at depth y in fewer than C slots of its whole window, later slots included"
pub fn next_available(rows: &[Row], pinned: &Sets) -> Sets {
    let mut available = vec![[false; 32]; pinned.len()];
    for (i, row) in rows.iter().enumerate() {
        let (period, deadline) = (row.period as usize, row.deadline as usize);
        let jobs = pinned.len() / period;
        let in_whole_window: Vec<usize> =
            (0..jobs).map(|k| (k * period..k * period + deadline).filter(|&t| pinned[t][i]).count()).collect();
        for t in 0..pinned.len() {
            let few = in_whole_window[job_in(row, t)] < row.execution as usize;
            available[t][i] = in_window(row, t) && (pinned[t][i] || few);
        }
    }
    available
}

/// The available sets at depth x, and the pinned sets at depth x - 1 (no rows where x is 1).
pub fn at_depth(rows: &[Row], m: usize, frame: usize, x: usize) -> (Sets, Sets) {
    let mut available = first_available(rows, frame);
    let mut pins = vec![[false; 32]; frame];
    for _ in 1..x {
        pins = pinned(rows, m, &available);
        available = next_available(rows, &pins);
    }
    (available, pins)
}

/// "the sum over rows of C times (floor((t - D)/T) + 1), where the floor is -1 for t below D"
pub fn work_due(rows: &[Row], t: usize) -> u64 {
    let mut work = 0;
    for row in rows {
        let (t, deadline) = (t as i64, row.deadline as i64);
        let floor = if t < deadline { -1 } else { (t - deadline) / row.period as i64 };
        work += row.execution as i64 * (floor + 1);
    }
    work as u64
}

/// The least t in 1 to H with more work due than usable supply, that work and that supply; or three zeros.
pub fn least_failing(rows: &[Row], m: usize, available: &Sets) -> [u32; 3] {
    let mut supply = 0;
    for t in 1..=available.len() {
        supply += size(&available[t - 1]).min(m) as u64;
        let work = work_due(rows, t);
        if work > supply {
            return [t as u32, work as u32, supply as u32];
        }
    }
    [0, 0, 0]
}

/// "Each slot's set of rows is one 32-bit word, bit i for row i"
fn word(set: &[bool; 32]) -> u32 {
    (0..32).map(|i| if set[i] { 1 << i } else { 0 }).sum()
}

/// Writes the sets to the first H words of a list; the words from H on stay.
fn write(sets: &Sets, list: &mut [u32]) {
    for (t, set) in sets.iter().enumerate() {
        list[t] = word(set);
    }
}

/// The frame of a table that may be judged with lists of these lengths, or the refusal.
fn frame_to_judge(table: &Table, map: &[u32], pins: &[u32]) -> Result<u32, Refusal> {
    let frame = frame_of(table)?;
    if map.len() < frame as usize || pins.len() < frame as usize {
        return Err(refuse(8, 0));
    }
    Ok(frame)
}

pub fn judge(table: &Table, map: &mut [u32], pins: &mut [u32]) -> Judged {
    let frame = match frame_to_judge(table, map, pins) {
        Ok(frame) => frame,
        Err(refusal) => return Judged { refusal, ..Judged::default() },
    };
    let (rows, m) = (table.counted(), table.m as usize);
    let (available, pinned) = at_depth(rows, m, frame as usize, table.x as usize);
    write(&available, map);
    write(&pinned, pins);
    let [t, work, supply] = least_failing(rows, m, &available);
    Judged { refusal: Refusal::default(), t, work, supply, frame }
}

pub fn ladder(table: &Table, map: &mut [u32], pins: &mut [u32]) -> Ladder {
    let frame = match frame_to_judge(table, map, pins) {
        Ok(frame) => frame,
        Err(refusal) => return Ladder { refusal, ..Ladder::default() },
    };
    let (rows, m) = (table.counted(), table.m as usize);
    let mut square = [[0; 3]; 8];
    let mut available = first_available(rows, frame as usize);
    square[0] = least_failing(rows, m, &available);
    let mut pins_before = vec![];
    for line in &mut square[1..] {
        pins_before = pinned(rows, m, &available);
        available = next_available(rows, &pins_before);
        *line = least_failing(rows, m, &available);
    }
    write(&available, map);
    write(&pins_before, pins);
    Ladder { refusal: Refusal::default(), square }
}
