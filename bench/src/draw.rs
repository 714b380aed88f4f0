//! How the measured tables are drawn: full frames, and windows and executions with which every depth has work to do.

use crate::fast::{depths_that_change, ladder};
use outside::answers::{Given, Row, Table};
use outside::random::Random;

/// The number of rows, processors, depth and frame; the frame is a power of two.
#[derive(Clone, Copy, Debug, PartialEq, Eq)]
pub struct Shape {
    pub rows: usize,
    pub m: usize,
    pub x: usize,
    pub frame: usize,
}

/// How many tables are drawn for one that is kept.
pub const TRIES: usize = 1_000;

/// Periods: divisors of the frame not below rows/m, one of them the frame. A table has its own scale of windows, from half
/// of m/rows of the period, where about half of m rows are available in a slot, to eight times that; and its own load.
fn draw(random: &mut Random, shape: Shape) -> Table {
    let least = shape.rows.div_ceil(shape.m).next_power_of_two().min(shape.frame);
    let steps = (shape.frame / least).ilog2() as usize;
    let longest = random.below(shape.rows);
    let windows = random.from_to(50, 800) * shape.m / shape.rows;
    let load = random.from_to(10, 100);
    let mut table = Table { m: shape.m as u16, x: shape.x as u16, count: shape.rows as u16, ..Table::default() };
    for (i, row) in table.rows[..shape.rows].iter_mut().enumerate() {
        let period = if i == longest { shape.frame } else { least << random.from_to(0, steps) };
        let deadline = (period * windows * random.from_to(30, 170) / 10_000).clamp(1, period);
        let most = (period * load * shape.m * random.from_to(10, 190) / (10_000 * shape.rows)).max(1);
        let execution = random.from_to(most.div_ceil(4), most).min(deadline);
        *row = Row { period: period as u16, execution: execution as u16, deadline: deadline as u16 };
    }
    table
}

/// Whether a good table is undecided at depth 8, and so at every depth.
pub fn is_undecided(table: &Given) -> bool {
    ladder::<true>(table, &mut [0; 4096], &mut [0; 4096]).square[7][0] == 0
}

/// Of many draws one that is undecided at every depth, so that the whole frame is looked at, and whose map changes at the
/// most depths; where none is undecided, the one with the most such depths.
pub fn table(shape: Shape, seed: u64) -> (Given, usize) {
    let mut random = Random::new(seed * 1_000 + shape.rows as u64 * 64 + shape.m as u64);
    let mut lists = (vec![0; shape.frame], vec![0; shape.frame]);
    let mut best = (0, 0, Given::from_table(&draw(&mut random, shape)));
    for _ in 0..TRIES {
        let given = Given::from_table(&draw(&mut random, shape));
        let depths = depths_that_change(&given, &mut lists.0, &mut lists.1);
        let score = depths + if is_undecided(&given) { 8 } else { 0 };
        if score >= best.0 {
            best = (score, depths, given);
        }
    }
    (best.2, best.1)
}
