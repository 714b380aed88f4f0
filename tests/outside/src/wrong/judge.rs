//! The judge and the ladder over words, with their wrong turns.

use super::table::{frame_of, refuse};
use super::Wrong;
use crate::answers::{Judged, Ladder, Refusal, Row, Table};

pub const TURNS: &[&str] = &[
    "pinning over m",
    "pinning past C",
    "only earlier pins counted",
    "size below m",
    "only the end looked at",
    "the end not looked at",
    "the printed rule for depth 1",
    "the forced-forward demand",
    "supply of all processors",
    "16 bits for work",
    "16 bits for supply",
    "work from t 0",
    "pins left at x 1",
    "pins of depth x",
    "map of depth x - 1",
    "pins that only grow",
    "one depth too many",
    "stops when the supply repeats",
    "the whole lists cleared",
    "one word past H",
    "the last word not written",
    "8 by the map alone",
    "8 by the pins alone",
    "8 at exactly H",
    "map written before 8",
    "frame in a refusal 8",
    "supply of an undecided table",
    "no frame when infeasible",
    "words or-ed into the map",
    "row 31 lost",
    "always undecided",
    "a ladder that copies depth 1",
    "a ladder that ends at depth x",
    "a ladder that does not refuse x",
    "a ladder whose pins are of depth 8",
    "a ladder that stops at the first failure",
];

fn first_map(w: &Wrong, rows: &[Row], frame: usize) -> Vec<u32> {
    let mut map = vec![0; frame];
    for (t, word) in map.iter_mut().enumerate() {
        for (i, row) in rows.iter().enumerate() {
            let (period, deadline) = (row.period as usize, row.deadline as usize);
            let printed = w.turn("the printed rule for depth 1");
            let available = if printed { (t + 1) % period <= deadline } else { t % period < deadline };
            *word |= (available as u32) << i;
        }
    }
    map
}

/// Whether a slot with so many available rows pins.
fn pins_in(w: &Wrong, size: u32, m: u32) -> bool {
    w.turn("pinning over m") || if w.turn("size below m") { size < m } else { size <= m }
}

fn pins_of(w: &Wrong, rows: &[Row], m: u32, map: &[u32], before: &[u32]) -> Vec<u32> {
    let mut pins = vec![0; map.len()];
    for (i, row) in rows.iter().enumerate() {
        for release in (0..map.len()).step_by(row.period as usize) {
            let mut count = 0;
            for t in release..release + row.deadline as usize {
                let more = count < row.execution || w.turn("pinning past C");
                if map[t] >> i & 1 == 1 && pins_in(w, map[t].count_ones(), m) && more {
                    pins[t] |= 1 << i;
                    count += 1;
                }
            }
        }
    }
    if w.turn("pins that only grow") {
        pins.iter_mut().zip(before).for_each(|(pin, before)| *pin |= before);
    }
    pins
}

fn next_map(w: &Wrong, rows: &[Row], pins: &[u32]) -> Vec<u32> {
    let mut map = vec![0; pins.len()];
    for (i, row) in rows.iter().enumerate() {
        let pinned = |t: usize| pins[t] >> i & 1 == 1;
        for release in (0..pins.len()).step_by(row.period as usize) {
            let window = release..release + row.deadline as usize;
            let all = window.clone().filter(|&t| pinned(t)).count();
            let mut earlier = 0;
            for t in window {
                let count = if w.turn("only earlier pins counted") { earlier } else { all };
                earlier += pinned(t) as usize;
                if pinned(t) || count < row.execution as usize {
                    map[t] |= 1 << i;
                }
            }
        }
    }
    map
}

fn usable(w: &Wrong, m: u32, word: u32) -> u64 {
    let size = if w.turn("row 31 lost") { (word & 0x7FFF_FFFF).count_ones() } else { word.count_ones() };
    if w.turn("supply of all processors") {
        m as u64
    } else {
        size.min(m) as u64
    }
}

fn work_due(w: &Wrong, rows: &[Row], t: i64) -> u64 {
    let mut work = 0;
    for row in rows {
        let (period, execution, deadline) = (row.period as i64, row.execution as i64, row.deadline as i64);
        if t >= deadline || w.turn("work from t 0") {
            work += execution * ((t - deadline) / period + 1);
        }
        if w.turn("the forced-forward demand") {
            work += ((t - deadline).rem_euclid(period) - period + execution).max(0);
        }
    }
    work as u64
}

fn least_failing(w: &Wrong, rows: &[Row], m: u32, map: &[u32]) -> [u32; 3] {
    let mut supply = 0;
    let last = map.len() - w.turn("the end not looked at") as usize;
    for t in 1..=last {
        supply += usable(w, m, map[t - 1]);
        let mut work = work_due(w, rows, t as i64);
        if w.turn("16 bits for work") {
            work %= 65_536;
        }
        if w.turn("16 bits for supply") {
            supply %= 65_536;
        }
        let looked_at = t == last || !w.turn("only the end looked at");
        if work > supply && looked_at && !w.turn("always undecided") {
            return [t as u32, work as u32, supply as u32];
        }
    }
    if w.turn("supply of an undecided table") {
        [0, 0, supply as u32]
    } else {
        [0; 3]
    }
}

/// The map of depth x, and the pins of depth x - 1.
fn at_depth(w: &Wrong, rows: &[Row], m: u32, frame: usize, x: usize) -> (Vec<u32>, Vec<u32>) {
    let mut map = first_map(w, rows, frame);
    let mut pins = vec![0; frame];
    for _ in 1..x + w.turn("one depth too many") as usize {
        pins = pins_of(w, rows, m, &map, &pins);
        let next = next_map(w, rows, &pins);
        let supply = |map: &[u32]| map.iter().map(|&word| usable(w, m, word)).sum::<u64>();
        if w.turn("stops when the supply repeats") && supply(&next) == supply(&map) {
            break;
        }
        map = next;
    }
    (map, pins)
}

fn frame_to_judge(w: &Wrong, table: &Table, map: &mut [u32], pins: &[u32]) -> Result<u32, Refusal> {
    let frame = frame_of(w, table)?;
    let needed = frame as usize + w.turn("8 at exactly H") as usize;
    let map_short = map.len() < needed && !w.turn("8 by the pins alone");
    let pins_short = pins.len() < needed && !w.turn("8 by the map alone");
    if map_short || pins_short {
        if w.turn("map written before 8") && map.len() >= frame as usize {
            map[0] = 0;
        }
        return Err(refuse(8, if w.turn("frame in a refusal 8") { frame as usize } else { 0 }));
    }
    Ok(frame)
}

fn write(w: &Wrong, words: &[u32], list: &mut [u32]) {
    let frame = words.len().min(list.len()) - w.turn("the last word not written") as usize;
    if w.turn("the whole lists cleared") {
        list.fill(0);
    }
    if w.turn("one word past H") && list.len() > frame {
        list[frame] = 0;
    }
    for t in 0..frame {
        list[t] = words[t] | if w.turn("words or-ed into the map") { list[t] } else { 0 };
    }
}

pub fn judge(w: &Wrong, table: &Table, map: &mut [u32], pins: &mut [u32]) -> Judged {
    let frame = match frame_to_judge(w, table, map, pins) {
        Ok(frame) => frame,
        Err(refusal) => return Judged { refusal, ..Judged::default() },
    };
    let (rows, m, x) = (table.counted(), table.m as u32, table.x as usize);
    let (words, mut pinned) = at_depth(w, rows, m, frame as usize, x);
    let [t, work, supply] = least_failing(w, rows, m, &words);
    if w.turn("pins of depth x") {
        pinned = pins_of(w, rows, m, &words, &pinned);
    }
    if w.turn("map of depth x - 1") && x > 1 {
        write(w, &at_depth(w, rows, m, frame as usize, x - 1).0, map);
    } else {
        write(w, &words, map);
    }
    if x > 1 || !w.turn("pins left at x 1") {
        write(w, &pinned, pins);
    }
    let frame = if t > 0 && w.turn("no frame when infeasible") { 0 } else { frame };
    Judged { refusal: Refusal::default(), t, work, supply, frame }
}

pub fn ladder(w: &Wrong, table: &Table, map: &mut [u32], pins: &mut [u32]) -> Ladder {
    let mut checked = *table;
    if w.turn("a ladder that does not refuse x") && table.m >= 1 {
        checked.x = 8;
    }
    let frame = match frame_to_judge(w, &checked, map, pins) {
        Ok(frame) => frame as usize,
        Err(refusal) => return Ladder { refusal, ..Ladder::default() },
    };
    let (rows, m) = (table.counted(), table.m as u32);
    let mut square = [[0; 3]; 8];
    for x in 1..=8 {
        let depth = if w.turn("a ladder that copies depth 1") { 1 } else { x };
        square[x - 1] = least_failing(w, rows, m, &at_depth(w, rows, m, frame, depth).0);
        if w.turn("a ladder that stops at the first failure") && square[x - 1][0] > 0 {
            break;
        }
    }
    let last = if w.turn("a ladder that ends at depth x") { table.x as usize } else { 8 };
    let (words, mut pinned) = at_depth(w, rows, m, frame, last);
    if w.turn("a ladder whose pins are of depth 8") {
        pinned = pins_of(w, rows, m, &words, &pinned);
    }
    write(w, &words, map);
    write(w, &pinned, pins);
    Ladder { refusal: Refusal::default(), square }
}
