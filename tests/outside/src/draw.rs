//! Random tables of all shapes: good ones, ones with a fault or two, and any numbers at all.

use crate::answers::{Given, Row, Table};
use crate::random::Random;

/// How long the frame may be.
#[derive(Clone, Copy, Debug, PartialEq, Eq)]
pub enum Size {
    Small,
    Middle,
    Large,
}

/// Frames with many divisors, up to the longest.
const RICH: [usize; 14] = [720, 840, 1024, 1260, 1680, 2048, 2520, 2880, 3360, 3600, 3840, 4032, 4095, 4096];

fn divisors(frame: usize) -> Vec<usize> {
    (1..=frame).filter(|t| frame % t == 0).collect()
}

/// A number that every period will divide.
fn bound_of_frame(random: &mut Random, size: Size) -> usize {
    match size {
        Size::Small => random.from_to(1, 24),
        Size::Middle => random.from_to(1, 256),
        Size::Large if random.once_in(3) => random.from_to(257, 4096),
        Size::Large => random.pick(&RICH),
    }
}

fn number_of_rows(random: &mut Random) -> usize {
    match random.below(8) {
        0 => 1,
        1 | 2 => random.from_to(2, 4),
        3 | 4 => random.from_to(2, 8),
        5 | 6 => random.from_to(2, 32),
        _ => 32,
    }
}

/// Processors: any number, or one near the number of rows or half of it, where pins come about.
fn processors(random: &mut Random, count: usize) -> u16 {
    let m = match random.below(4) {
        0 => random.from_to(1, 16),
        1 => count.saturating_sub(random.below(3)),
        2 => count.div_ceil(2) + random.below(2),
        _ => random.from_to(1, count),
    };
    m.clamp(1, 16) as u16
}

/// One row of a period: D up to T, C up to D, both often at their bounds.
fn row(random: &mut Random, period: usize, style: usize) -> Row {
    let deadline = match style {
        0 => period,
        1 => random.from_to(1, period.div_ceil(2)),
        _ if random.once_in(4) => period,
        _ => random.from_to(1, period),
    };
    let execution = match random.below(5) {
        0 => 1,
        1 => deadline,
        2 => random.from_to(1, deadline.div_ceil(3)),
        _ => random.from_to(1, deadline),
    };
    Row { period: period as u16, execution: execution as u16, deadline: deadline as u16 }
}

/// Document 000's own kind of table: little more rows than processors and a load near m, where deeper depths matter.
fn loaded(random: &mut Random, size: Size) -> Table {
    let periods = divisors(bound_of_frame(random, size));
    let most = if random.once_in(4) { 16 } else { 4 };
    let m = random.from_to(1, most);
    let count = (m + random.from_to(1, m + 1)).min(32);
    let mut table = Table { m: m as u16, x: random.from_to(1, 8) as u16, count: count as u16, ..Table::default() };
    let weights: Vec<usize> = (0..count).map(|_| random.from_to(1, 100)).collect();
    let load = random.from_to(70, 105) * m;
    for (row, weight) in table.rows.iter_mut().zip(&weights) {
        let period = random.pick(&periods);
        let share = load * weight / weights.iter().sum::<usize>();
        let execution = (period * share / 100).clamp(1, period);
        let deadline = random.from_to(execution, period);
        *row = Row { period: period as u16, execution: execution as u16, deadline: deadline as u16 };
    }
    table
}

/// A good table, with zeros past its count.
pub fn good(random: &mut Random, size: Size) -> Table {
    if random.once_in(2) {
        return loaded(random, size);
    }
    let periods = divisors(bound_of_frame(random, size));
    let count = number_of_rows(random);
    let style = random.below(4);
    let kinds = if random.once_in(4) { random.from_to(1, 3) } else { count };
    let some: Vec<Row> = (0..kinds)
        .map(|_| {
            let period = if random.once_in(3) { periods[periods.len() - 1] } else { random.pick(&periods) };
            row(random, period, style)
        })
        .collect();
    let mut table = Table { m: processors(random, count), x: random.from_to(1, 8) as u16, ..Table::default() };
    table.count = count as u16;
    for i in 0..count {
        table.rows[i] = if kinds == count { some[i] } else { random.pick(&some) };
    }
    table
}

/// A size: most tables are short, so that many can be tried.
pub fn size(random: &mut Random) -> Size {
    match random.below(20) {
        0 => Size::Large,
        1..=5 => Size::Middle,
        _ => Size::Small,
    }
}

/// A value at or near a bound.
fn bound(random: &mut Random, near: u16) -> u16 {
    match random.below(8) {
        0 => 0,
        1 => 1,
        2 => near.wrapping_add(1),
        3 => near.wrapping_sub(1),
        4 => random.pick(&[4095, 4096, 4097]),
        5 => 65_535,
        6 => near.wrapping_add(256),
        _ => random.next() as u16,
    }
}

/// A number whose lower byte may well be in range, and which is not.
pub fn wide(random: &mut Random, near: u16) -> u16 {
    match random.below(4) {
        0 => near.wrapping_add(256),
        1 => near.wrapping_add(256 * random.from_to(1, 255) as u16),
        2 => random.pick(&[256, 257, 259, 272, 32_768, 65_280, 65_535]),
        _ => random.next() as u16 | 256,
    }
}

/// An index of a row: near the count, or one whose lower bits are.
pub fn index(random: &mut Random) -> u32 {
    let near = random.below(40) as u32;
    let any = random.next() as u32;
    random.pick(&[near, near, near + 256, near + 65_536, near | 1 << 24, 300, 65_536, u32::MAX, any])
}

/// Changes one number of a table.
fn damage(random: &mut Random, table: &mut Table) {
    let i = random.below(32);
    let row = if random.once_in(8) { i } else { i % (table.count as usize).clamp(1, 32) };
    let row = &mut table.rows[row];
    match random.below(10) {
        0 => table.m = random.pick(&[0, 1, 16, 17, 255]),
        1 => table.x = random.pick(&[0, 1, 8, 9, 255]),
        2 => table.count = random.pick(&[0, 1, 31, 32, 33, 64, 128, 255]),
        7 => table.m = wide(random, table.m),
        8 => table.x = wide(random, table.x),
        9 => table.count = wide(random, table.count),
        3 => row.period = bound(random, row.period),
        4 => row.deadline = bound(random, row.period),
        5 => row.execution = bound(random, row.deadline),
        _ => *row = Row { period: random.from_to(1, 4096) as u16, execution: 1, deadline: 1 },
    }
}

/// A table as a caller may lend it: good, with a fault or two, or any numbers; and with anything past the count.
pub fn any(random: &mut Random) -> Given {
    let mut table = good(random, Size::Small);
    for _ in 0..random.below(3) {
        damage(random, &mut table);
    }
    let mut given = Given::from_table(&table);
    if random.once_in(2) {
        let used = 3 + 3 * (table.count as usize).min(32);
        given.0[used..].iter_mut().for_each(|number| *number = random.next() as u16);
    }
    if random.once_in(8) {
        given.0.iter_mut().for_each(|number| *number = random.next() as u16);
    }
    given
}
