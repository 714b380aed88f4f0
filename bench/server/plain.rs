//! The server of plain Rust, so that it is measured as the libraries are.

#[path = "../src/clock.rs"]
mod clock;
#[allow(dead_code)] // the benchmark itself uses more of it
#[path = "../src/fast.rs"]
mod fast;
mod serve;
#[path = "../src/wire.rs"]
mod wire;

use outside::answers::{Given, Table};
use std::io;

pub fn run() -> io::Result<()> {
    let binding = serve::Binding {
        ready: |m, x, rows| Given::from_table(&Table::of(m.into(), x.into(), rows)),
        judge: |table, map, pins| fast::judge::<false>(table, map, pins).numbers(),
        ladder: |table, map, pins| fast::ladder::<false>(table, map, pins).numbers(),
    };
    serve::serve(&binding, io::stdin().lock(), io::stdout().lock())
}
