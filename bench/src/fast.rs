//! The judge and the ladder in good plain Rust: in place in the two lent lists, with no other memory that grows.
//!
//! No index is checked: a table's check makes every window end inside the frame, and the frame inside both lists.
//! The map of depth 1 is made in one of two ways: slot by slot with a remainder for every row, as the library makes it now,
//! or row by row along the windows.

use outside::answers::{Given, Judged, Ladder, Refusal, Row};

/// The rows of a table that was checked, beside m, x and the frame.
struct Checked {
    rows: [Row; 32],
    count: usize,
    m: u32,
    x: u16,
    frame: usize,
}

fn divisor(mut a: u32, mut b: u32) -> u32 {
    while b != 0 {
        (a, b) = (b, a % b);
    }
    a
}

fn refuse(no: u32, row: usize) -> Refusal {
    Refusal { no, entry: 0, row: row as u32 }
}

fn check(given: &Given, map: &[u32], pins: &[u32]) -> Result<Checked, Refusal> {
    let table = given.table();
    if table.m.wrapping_sub(1) >= 16 {
        return Err(refuse(1, 0));
    }
    if table.x.wrapping_sub(1) >= 8 {
        return Err(refuse(2, 0));
    }
    if table.count.wrapping_sub(1) >= 32 {
        return Err(refuse(3, 0));
    }
    let count = table.count as usize;
    for (i, row) in table.rows[..count].iter().enumerate() {
        if row.period.wrapping_sub(1) >= 4096 {
            return Err(refuse(4, i));
        }
        if row.deadline.wrapping_sub(1) >= row.period {
            return Err(refuse(5, i));
        }
        if row.execution.wrapping_sub(1) >= row.deadline {
            return Err(refuse(6, i));
        }
    }
    let mut frame = 1;
    for (i, row) in table.rows[..count].iter().enumerate() {
        let period = row.period as u32;
        frame = frame / divisor(frame, period) * period;
        if frame > 4096 {
            return Err(refuse(7, i));
        }
    }
    let frame = frame as usize;
    if map.len() < frame || pins.len() < frame {
        return Err(refuse(8, 0));
    }
    Ok(Checked { rows: table.rows, count, m: table.m as u32, x: table.x, frame })
}

impl Checked {
    fn rows(&self) -> &[Row] {
        &self.rows[..self.count]
    }

    fn first_map<const WINDOWS: bool>(&self, map: &mut [u32]) {
        if WINDOWS {
            self.by_windows(map);
        } else {
            self.by_remainders(map);
        }
    }

    /// Depth 1, slot by slot: the rows in whose windows the slot is.
    fn by_remainders(&self, map: &mut [u32]) {
        for (t, word) in map[..self.frame].iter_mut().enumerate() {
            let mut rows = 0;
            for (i, row) in self.rows().iter().enumerate() {
                rows |= u32::from((t as u32) % (row.period as u32) < row.deadline as u32) << i;
            }
            *word = rows;
        }
    }

    /// Depth 1, row by row: a row's bit in each of its windows.
    fn by_windows(&self, map: &mut [u32]) {
        map[..self.frame].fill(0);
        for (i, row) in self.rows().iter().enumerate() {
            let (period, deadline) = (row.period as usize, row.deadline as usize);
            for release in (0..self.frame).step_by(period) {
                let window = unsafe { map.get_unchecked_mut(release..release + deadline) };
                window.iter_mut().for_each(|word| *word |= 1 << i);
            }
        }
    }

    /// From depth y to y + 1: the map is moved on, the pins become those of depth y. False where nothing changed.
    fn deepen(&self, map: &mut [u32], pins: &mut [u32]) -> bool {
        let (map, pins) = (&mut map[..self.frame], &mut pins[..self.frame]);
        // The room: the rows that a slot can pin, before executions are counted.
        for (pin, &word) in pins.iter_mut().zip(map.iter()) {
            *pin = if word.count_ones() <= self.m { word } else { 0 };
        }
        let mut changed = 0;
        for (i, row) in self.rows().iter().enumerate() {
            let (period, deadline) = (row.period as usize, row.deadline as usize);
            for release in (0..self.frame).step_by(period) {
                let (map, pins) = unsafe {
                    (
                        map.get_unchecked_mut(release..release + deadline),
                        pins.get_unchecked_mut(release..release + deadline),
                    )
                };
                changed |= keep_first(map, pins, i as u32, row.execution as u32);
            }
        }
        changed != 0
    }

    /// The least t with more work due than usable supply. What falls due and what is usable are put into lists first, so
    /// that the walk over the lengths has only two sums to keep.
    fn least_failing(&self, map: &[u32]) -> [u32; 3] {
        let mut due = [0; 4096];
        for row in self.rows() {
            let (period, deadline) = (row.period as usize, row.deadline as usize);
            for last in (deadline - 1..self.frame).step_by(period) {
                unsafe { *due.get_unchecked_mut(last) += row.execution as u32 };
            }
        }
        let mut usable = [0; 4096];
        for (usable, word) in usable.iter_mut().zip(&map[..self.frame]) {
            *usable = word.count_ones().min(self.m);
        }
        let (mut work, mut supply) = (0, 0);
        for t in 0..self.frame {
            work += unsafe { *due.get_unchecked(t) };
            supply += unsafe { *usable.get_unchecked(t) };
            if work > supply {
                return [t as u32 + 1, work, supply];
            }
        }
        [0; 3]
    }
}

/// One job: keeps the first C pins of its window and, where it has C, its map to these. Not 0 where the map changed.
fn keep_first(map: &mut [u32], pins: &mut [u32], i: u32, execution: u32) -> u32 {
    let room: u32 = pins.iter().map(|pin| pin >> i & 1).sum();
    if room < execution {
        return 0;
    }
    let (mut left, mut t) = (execution, 0);
    while left > 0 {
        left -= unsafe { pins.get_unchecked(t) } >> i & 1;
        t += 1;
    }
    let others = !(1 << i);
    unsafe { pins.get_unchecked_mut(t..) }.iter_mut().for_each(|pin| *pin &= others);
    let mut changed = 0;
    for (word, &pin) in map.iter_mut().zip(pins.iter()) {
        let kept = *word & (pin | others);
        changed |= *word ^ kept;
        *word = kept;
    }
    changed
}

pub fn judge<const WINDOWS: bool>(given: &Given, map: &mut [u32], pins: &mut [u32]) -> Judged {
    let table = match check(given, map, pins) {
        Ok(table) => table,
        Err(refusal) => return Judged { refusal, ..Judged::default() },
    };
    table.first_map::<WINDOWS>(map);
    if table.x == 1 {
        pins[..table.frame].fill(0);
    }
    for _ in 1..table.x {
        if !table.deepen(map, pins) {
            break;
        }
    }
    let [t, work, supply] = table.least_failing(map);
    Judged { refusal: Refusal::default(), t, work, supply, frame: table.frame as u32 }
}

pub fn ladder<const WINDOWS: bool>(given: &Given, map: &mut [u32], pins: &mut [u32]) -> Ladder {
    let table = match check(given, map, pins) {
        Ok(table) => table,
        Err(refusal) => return Ladder { refusal, ..Ladder::default() },
    };
    table.first_map::<WINDOWS>(map);
    let mut line = table.least_failing(map);
    let mut square = [line; 8];
    for y in 1..8 {
        if !table.deepen(map, pins) {
            break;
        }
        line = table.least_failing(map);
        square[y..].fill(line);
    }
    Ladder { refusal: Refusal::default(), square }
}

/// At how many depths the map still changes, up to depth 8.
pub fn depths_that_change(given: &Given, map: &mut [u32], pins: &mut [u32]) -> usize {
    let Ok(table) = check(given, map, pins) else { return 0 };
    table.by_windows(map);
    (1..8).take_while(|_| table.deepen(map, pins)).count()
}
