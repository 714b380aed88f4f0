//! The server of a tree whose binding has no `outside::bound`, such as 4894323 and the commits before it: there
//! `outside::ffi::Library` is called with a `Given`, and answers a `Judged` or a `Ladder`.

#[path = "../src/clock.rs"]
mod clock;
mod serve;
#[path = "../src/wire.rs"]
mod wire;

use outside::answers::{Given, Table};
use outside::ffi::Library;
use outside::subject::Subject;
use std::io;

fn ready(m: u8, x: u8, rows: &[(u16, u16, u16)]) -> Given {
    Given::from_table(&Table::of(m, x, rows))
}

fn judge(table: &Given, map: &mut [u32], pins: &mut [u32]) -> [u32; 7] {
    let judged = Library.judge(table, map, pins);
    let refusal = judged.refusal;
    [refusal.no, refusal.entry, refusal.row, judged.t, judged.work, judged.supply, judged.frame]
}

fn ladder(table: &Given, map: &mut [u32], pins: &mut [u32]) -> [u32; 27] {
    let ladder = Library.ladder(table, map, pins);
    let refusal = [ladder.refusal.no, ladder.refusal.entry, ladder.refusal.row];
    std::array::from_fn(|k| if k < 3 { refusal[k] } else { ladder.square[k / 3 - 1][k % 3] })
}

pub fn run() -> io::Result<()> {
    serve::serve(&serve::Binding { ready, judge, ladder }, io::stdin().lock(), io::stdout().lock())
}
