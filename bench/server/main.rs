//! The program of a server: moves all code of the server by some bytes, as many as its name says (at-0, at-4 ..), and runs it.
//!
//! Where a loop happens to begin in a line of 64 bytes can change its time much. So a server is linked at several places.

use std::arch::global_asm;
use std::hint::black_box;
use std::io;
use std::ptr::addr_of;

/// The number in a name; 0 where there is none.
const fn number(name: &str) -> usize {
    let (bytes, mut number, mut k) = (name.as_bytes(), 0, 0);
    while k < bytes.len() {
        if bytes[k].is_ascii_digit() {
            number = 10 * number + (bytes[k] - b'0') as usize;
        }
        k += 1;
    }
    number
}

// The linker puts the code of this program first, and after it that of the server and of the library.
global_asm!(
    ".pushsection .text.place, \"ax\"",
    "awelodrun_bench_place: .zero 4 + {bytes}",
    ".globl awelodrun_bench_place",
    ".popsection",
    bytes = const number(env!("CARGO_BIN_NAME")),
);

extern "C" {
    static awelodrun_bench_place: u8;
}

fn main() -> io::Result<()> {
    // Named here, so that the linker keeps the bytes.
    black_box(addr_of!(awelodrun_bench_place));
    server::run()
}
