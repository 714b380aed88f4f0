//! The judge and the ladder of the static library for `bench/run --against`, which builds a server with this file as it stands
//! in an earlier commit. What is public here stays as it is when the C functions change.

use crate::answers::{Given, Table};
use awelodrun::raw;

/// A table as the library takes it, made once for many calls.
pub struct Ready(raw::Numbers);

/// A table of at most 32 rows (T, C, D).
pub fn ready(m: u8, x: u8, rows: &[(u16, u16, u16)]) -> Ready {
    Ready(Given::from_table(&Table::of(m.into(), x.into(), rows)).0)
}

/// The judge's numbers: no, entry and row of the refusal, t, work, supply, frame.
pub fn judge(table: &Ready, map: &mut [u32], pins: &mut [u32]) -> [u32; 7] {
    raw::judge(&table.0, Some(map), Some(pins))
}

/// The ladder's numbers: no, entry and row of the refusal, then t, work, supply of each depth from 1 to 8.
pub fn ladder(table: &Ready, map: &mut [u32], pins: &mut [u32]) -> [u32; 27] {
    let (lines, refusal) = raw::ladder(&table.0, Some(map), Some(pins));
    std::array::from_fn(|k| if k < 3 { refusal[k] } else { lines[k - 3] })
}
