//! One comparison for each function: the library and the reference on the same input, with all lent memory.

use crate::answers::{Checked, Filed, Given, Judged, Ladder, Row, Tabled, Written};
use crate::lend::{bytes, words, Lent};
use crate::reference::Reference;
use crate::run::{Difference, Outcome, Run};
use crate::subject::Subject;
use std::fmt::{Debug, Write};

/// The reference's answer, which the library gave too; or the difference.
type Compared<T> = Result<T, Box<Difference>>;

/// A file in hexadecimal; a long one is written to a temporary file instead.
fn show_file(file: &[u8]) -> String {
    if file.len() > 2_000 {
        let path = std::env::temp_dir().join("outside-difference.tasks");
        let wrote = std::fs::write(&path, file).is_ok();
        return format!(
            "file of {} bytes{} {}",
            file.len(),
            if wrote { " in" } else { ", not written to" },
            path.display()
        );
    }
    let mut shown = format!("file of {} bytes:", file.len());
    for byte in file {
        write!(shown, " {byte:02X}").expect("a string takes all");
    }
    shown
}

fn show_table(given: &Given) -> String {
    let [m, x, count, rows @ ..] = &given.0;
    let rows: Vec<String> = rows.chunks(3).map(|row| format!("{row:?}")).collect();
    format!("table m {m} x {x} count {count} rows {}", rows.join(" "))
}

/// Two lent lists must be the same, sides included.
fn same_list<T: Copy + PartialEq + Debug>(
    run: &mut Run,
    input: impl FnOnce() -> String,
    name: &str,
    expected: &Lent<T>,
    got: &Lent<T>,
) -> Outcome {
    match expected.first_difference(got) {
        None => Ok(()),
        Some((at, expected, got)) => {
            run.difference(input(), format!("{name}[{at}] = {expected:?}"), format!("{name}[{at}] = {got:?}"))
        }
    }
}

pub fn check(run: &mut Run, given: &Given) -> Compared<Checked> {
    let expected = Reference.check(given);
    let got = run.subject.check(given);
    run.same(|| format!("check of {}", show_table(given)), expected, got)?;
    Ok(expected)
}

pub fn check_list(run: &mut Run, m: u16, x: u16, rows: &[Row]) -> Compared<Checked> {
    let expected = Reference.check_list(m, x, rows);
    let got = run.subject.check_list(m, x, rows);
    run.same(|| format!("check of the list m {m} x {x} {rows:?}"), expected, got)?;
    Ok(expected)
}

/// The two lists for the reference and the same two for the library.
fn two_lists(run: &mut Run, lengths: (usize, usize)) -> [Lent<u32>; 4] {
    let map = words(&mut run.random, lengths.0);
    let pins = words(&mut run.random, lengths.1);
    [map.clone(), pins.clone(), map, pins]
}

pub fn judge(run: &mut Run, given: &Given, lengths: (usize, usize)) -> Compared<Judged> {
    let [mut map, mut pins, mut got_map, mut got_pins] = two_lists(run, lengths);
    let expected = Reference.judge(given, map.list(), pins.list());
    let got = run.subject.judge(given, got_map.list(), got_pins.list());
    let input = || format!("judge of {}, lists of {lengths:?}", show_table(given));
    run.same(input, expected, got)?;
    same_list(run, input, "map", &map, &got_map)?;
    same_list(run, input, "pins", &pins, &got_pins)?;
    Ok(expected)
}

pub fn ladder(run: &mut Run, given: &Given, lengths: (usize, usize)) -> Compared<Ladder> {
    let [mut map, mut pins, mut got_map, mut got_pins] = two_lists(run, lengths);
    let expected = Reference.ladder(given, map.list(), pins.list());
    let got = run.subject.ladder(given, got_map.list(), got_pins.list());
    let input = || format!("ladder of {}, lists of {lengths:?}", show_table(given));
    run.same(input, expected, got)?;
    same_list(run, input, "map", &map, &got_map)?;
    same_list(run, input, "pins", &pins, &got_pins)?;
    Ok(expected)
}

pub fn add(run: &mut Run, given: &Given, row: Row) -> Compared<Tabled> {
    let expected = Reference.add(given, row);
    let got = run.subject.add(given, row);
    run.same(|| format!("add of {row:?} to {}", show_table(given)), expected, got)?;
    Ok(expected)
}

pub fn remove(run: &mut Run, given: &Given, index: u32) -> Compared<Tabled> {
    let expected = Reference.remove(given, index);
    let got = run.subject.remove(given, index);
    run.same(|| format!("remove of {index} from {}", show_table(given)), expected, got)?;
    Ok(expected)
}

pub fn file_check(run: &mut Run, file: &[u8]) -> Compared<Filed> {
    let expected = Reference.file_check(file);
    let got = run.subject.file_check(file);
    run.same(|| format!("check of {}", show_file(file)), expected, got)?;
    Ok(expected)
}

pub fn find(run: &mut Run, file: &[u8], number: u16) -> Compared<Tabled> {
    let expected = Reference.find(file, number);
    let got = run.subject.find(file, number);
    run.same(|| format!("find of {number} in {}", show_file(file)), expected, got)?;
    Ok(expected)
}

pub fn put(run: &mut Run, file: &[u8], number: u16, given: &Given, length: usize) -> Compared<Written> {
    let mut out = bytes(&mut run.random, length);
    let mut got_out = out.clone();
    let expected = Reference.put(file, number, given, out.list());
    let got = run.subject.put(file, number, given, got_out.list());
    let input =
        || format!("put of {} as {number}, output of {length} bytes, into {}", show_table(given), show_file(file));
    run.same(input, expected, got)?;
    same_list(run, input, "output", &out, &got_out)?;
    Ok(expected)
}

/// A lent list of the 4,096 words or bytes that the text's function takes.
fn whole<T: Copy>(lent: &mut Lent<T>) -> &mut [T; 4096] {
    lent.list().try_into().expect("4,096 are lent")
}

/// The program's text, all that is left in the lists, and the output past the text; gives the text.
pub fn shift_text(run: &mut Run, file: &[u8]) -> Compared<String> {
    let [mut map, mut pins, mut got_map, mut got_pins] = two_lists(run, (4096, 4096));
    let mut out = bytes(&mut run.random, 4096);
    let mut got_out = out.clone();
    let length = Reference.shift_text(file, whole(&mut map), whole(&mut pins), whole(&mut out));
    let got = run.subject.shift_text(file, whole(&mut got_map), whole(&mut got_pins), whole(&mut got_out));
    let input = || format!("text of {}", show_file(file));
    let text =
        |out: &mut Lent<u8>, length: usize| String::from_utf8_lossy(&out.list()[..length.min(4096)]).into_owned();
    let expected = text(&mut out, length);
    let got_text = text(&mut got_out, got);
    run.same(input, (length, &expected), (got, &got_text))?;
    same_list(run, input, "output", &out, &got_out)?;
    same_list(run, input, "map", &map, &got_map)?;
    same_list(run, input, "pins", &pins, &got_pins)?;
    Ok(expected)
}
