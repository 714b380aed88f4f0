//! The server of a tree whose binding has `outside::bound`, as every commit has since `bench/run --against` is there.

#[path = "../src/clock.rs"]
mod clock;
mod serve;
#[path = "../src/wire.rs"]
mod wire;

use outside::bound;
use std::io;

pub fn run() -> io::Result<()> {
    let binding = serve::Binding { ready: bound::ready, judge: bound::judge, ladder: bound::ladder };
    serve::serve(&binding, io::stdin().lock(), io::stdout().lock())
}
