//! Inputs with answers stated by hand: document 01's tables, and the examples where the papers are easily misread.

use crate::answers::{Checked, Given, Judged, Refusal, Row, Table};
use crate::compare;
use crate::run::{Outcome, Run};

/// A table with the answer that was worked out by hand.
pub struct Verdict {
    pub name: &'static str,
    pub table: Table,
    pub answer: Judged,
    /// The first words of the map and of the pins, where they were worked out too.
    pub lists: Option<(&'static [u32], &'static [u32])>,
}

type Rows<'a> = &'a [(u16, u16, u16)];

/// (t, work, supply) and the frame; t 0 is undecided.
fn verdict(name: &'static str, m: u16, x: u16, rows: Rows, answer: (u32, u32, u32), frame: u32) -> Verdict {
    let (t, work, supply) = answer;
    let answer = Judged { refusal: Refusal::default(), t, work, supply, frame };
    Verdict { name, table: Table::of(m, x, rows), answer, lists: None }
}

fn refused(name: &'static str, m: u16, x: u16, rows: Rows, no: u32, row: u32) -> Verdict {
    let answer = Judged { refusal: Refusal { no, entry: 0, row }, ..Judged::default() };
    Verdict { name, table: Table::of(m, x, rows), answer, lists: None }
}

const UNDECIDED: (u32, u32, u32) = (0, 0, 0);

/// Document 01's tables 1 to 12, in its order.
fn of_document_01() -> Vec<Verdict> {
    let three: Rows = &[(2, 1, 1), (3, 2, 2), (4, 2, 3)];
    let four: Rows = &[(2, 1, 1), (3, 2, 2), (4, 2, 3), (8, 1, 6)];
    let mut list = vec![
        verdict("01: 1", 2, 1, three, (8, 14, 13), 12),
        verdict("01: 2", 2, 1, four, UNDECIDED, 24),
        verdict("01: 3", 2, 2, four, (8, 15, 14), 24),
        verdict("01: 4", 1, 1, &[(1, 1, 1)], UNDECIDED, 1),
        verdict("01: 5", 2, 1, &[(1, 1, 1); 3], (1, 3, 2), 1),
        verdict("01: 6", 1, 1, &[(2, 1, 1); 2], (1, 2, 1), 2),
        verdict("01: 7", 2, 1, &[(3, 2, 3); 3], UNDECIDED, 3),
        verdict("01: 8", 2, 1, &[(2, 2, 2); 3], (2, 6, 4), 2),
        verdict("01: 9", 1, 1, &[(4, 1, 3)], UNDECIDED, 4),
        verdict("01: 10", 1, 2, &[(4, 1, 3)], UNDECIDED, 4),
        verdict("01: 11, period 4,096", 1, 1, &[(4096, 1, 1)], UNDECIDED, 4096),
        verdict("01: 11, all numbers 4,096", 1, 8, &[(4096, 4096, 4096)], UNDECIDED, 4096),
        refused("01: 11, and 3", 1, 1, &[(4096, 1, 1), (3, 1, 1)], 7, 1),
        refused("01: 12, C 3 with D 2", 1, 1, &[(4, 3, 2)], 6, 0),
        refused("01: 12, D 5 with T 4", 1, 1, &[(4, 1, 5)], 5, 0),
        refused("01: 12, C 0", 1, 1, &[(4, 0, 2)], 6, 0),
    ];
    list[8].lists = Some((&[1, 1, 1, 0], &[0, 0, 0, 0]));
    list[9].lists = Some((&[1, 0, 0, 0], &[1, 0, 0, 0]));
    list
}

/// The least tables on which the sources and the wrong turns go another way.
fn easily_misread() -> Vec<Verdict> {
    let forced: Rows = &[(2, 1, 2), (4, 2, 2), (4, 3, 3)];
    vec![
        verdict("the printed rule for depth 1", 2, 1, &[(2, 1, 1), (2, 2, 2), (2, 1, 1)], (2, 4, 3), 2),
        verdict("the forced-forward demand", 2, 1, forced, UNDECIDED, 4),
        verdict("pinning over m", 1, 2, &[(2, 1, 1), (2, 1, 2)], UNDECIDED, 2),
        verdict("pinning past C, and below m", 2, 2, forced, (4, 7, 6), 4),
        verdict("only earlier pins counted", 2, 3, &[(8, 5, 5), (2, 1, 2), (4, 3, 4)], (5, 10, 9), 8),
        verdict("only the end looked at", 1, 1, &[(1, 1, 1), (2, 1, 1)], (1, 2, 1), 2),
        refused("(4,9,5)", 1, 1, &[(4, 9, 5)], 5, 0),
        refused("(12,0,0)", 1, 1, &[(12, 0, 0)], 5, 0),
        refused("(0,0,0)", 1, 1, &[(0, 0, 0)], 4, 0),
        refused("a bad row 2 beats a long frame", 1, 1, &[(4096, 1, 1), (3, 1, 1), (2, 2, 1)], 6, 2),
        refused("no rows, m 0", 0, 1, &[], 1, 0),
        refused("no rows, x 9", 1, 9, &[], 2, 0),
        refused("no rows", 1, 1, &[], 3, 0),
        refused("33 rows, m 0", 0, 1, &[(1, 1, 1); 33], 1, 0),
        refused("33 rows", 1, 1, &[(0, 0, 0); 33], 3, 0),
        // Numbers that would be good ones in a byte.
        refused("m 259", 259, 1, &[(1, 1, 1)], 1, 0),
        refused("x 257", 1, 257, &[(1, 1, 1)], 2, 0),
        refused("257 rows", 1, 1, &[(1, 1, 1); 257], 3, 0),
        // Neither work nor supply fits 16 bits: 32 rows of 4,096 due at once, 16 processors all along.
        verdict("the greatest work and supply", 16, 1, &[(4096, 4096, 4096); 32], (4096, 131_072, 65_536), 4096),
        verdict("supply that is just enough", 16, 1, &[(4096, 2048, 4096); 32], UNDECIDED, 4096),
    ]
}

/// All verdicts that were worked out by hand.
pub fn verdicts() -> Vec<Verdict> {
    of_document_01().into_iter().chain(easily_misread()).collect()
}

/// Document 01: the pinned sets need not grow, "m 1, (5,2,4) and (4,1,3)".
fn pins_need_not_grow(run: &mut Run) -> Outcome {
    for (x, slot, pinned) in [(2, 7, true), (3, 7, false), (3, 5, true), (3, 6, true)] {
        let given = Given::from_table(&Table::of(1, x, &[(5, 2, 4), (4, 1, 3)]));
        let mut pins = [9; 20];
        run.subject.judge(&given, &mut [0; 20], &mut pins);
        let input = || format!("pins in slot {slot} of m 1 x {x} (5,2,4) (4,1,3)");
        run.same(input, pinned, pins[slot] & 1 == 1)?;
    }
    Ok(())
}

pub fn tables(run: &mut Run) -> Outcome {
    for Verdict { name, table, answer, lists } in verdicts() {
        let given = Given::from_table(&table);
        let checked = Checked { refusal: answer.refusal, frame: answer.frame };
        let got = run.subject.check(&given);
        run.same(|| format!("check of {name}"), checked, got)?;
        let (mut map, mut pins) = ([9; 4096], [9; 4096]);
        let got = run.subject.judge(&given, &mut map, &mut pins);
        run.same(|| format!("judge of {name}"), answer, got)?;
        if let Some((words, pinned)) = lists {
            run.same(|| format!("map of {name}"), words, &map[..words.len()])?;
            run.same(|| format!("pins of {name}"), pinned, &pins[..words.len()])?;
        }
        compare::judge(run, &given, (4096, 4096))?;
        let ladder = compare::ladder(run, &given, (4096, 4096))?;
        if answer.refusal.no == 0 {
            let line = [answer.t, answer.work, answer.supply];
            run.same(|| format!("line of the ladder of {name}"), line, ladder.square[table.x as usize - 1])?;
        }
    }
    pins_need_not_grow(run)?;
    edits(run)
}

/// What add and remove give: the refusal's number and row, and the whole table that comes back. After a refusal it is exactly
/// the one that was lent, with what stands past its count.
fn edits(run: &mut Run) -> Outcome {
    let full = Table::of(1, 1, &[(1, 1, 1); 32]);
    let one = Table::of(1, 1, &[(4, 1, 2)]);
    let none = Table::of(1, 1, &[]);
    let long = Table::of(1, 1, &[(4096, 1, 1)]);
    let wide = Table { rows: [Row { period: 1, execution: 2, deadline: 3 }; 32], m: 259, x: 1, count: 1 };
    let (good, bad) = (Row { period: 3, execution: 1, deadline: 2 }, Row::default());
    for (table, row, no, at, result) in [
        (none, good, 3, 0, none),
        (full, good, 3, 0, full),
        (full, bad, 3, 0, full),
        (one, bad, 4, 1, one),
        (one, good, 0, 0, Table::of(1, 1, &[(4, 1, 2), (3, 1, 2)])),
        (long, good, 7, 1, long),
        (wide, good, 1, 0, wide),
        (Table { m: 1, x: 257, ..wide }, good, 2, 0, Table { m: 1, x: 257, ..wide }),
        (Table { m: 1, count: 257, ..wide }, good, 3, 0, Table { m: 1, count: 257, ..wide }),
    ] {
        let got = run.subject.add(&Given::from_table(&table), row);
        let input = || format!("add of {row:?} to {table:?}");
        run.same(input, (no, at, result), (got.refusal.no, got.refusal.row, got.table))?;
    }
    let mut less = Table::of(1, 1, &[(1, 1, 1); 31]);
    for (table, index, no, result) in [
        (none, 0, 3, none),
        (none, 1, 3, none),
        (one, 0, 3, one),
        (one, 1, 18, one),
        (full, 32, 18, full),
        (full, 256, 18, full),
        (full, 300, 18, full),
        (full, 65_536, 18, full),
        (full, u32::MAX, 18, full),
        (full, 31, 0, less),
        (wide, 0, 1, wide),
        (Table { m: 1, x: 257, ..wide }, 0, 2, Table { m: 1, x: 257, ..wide }),
        (Table { m: 1, count: 257, ..wide }, 300, 3, Table { m: 1, count: 257, ..wide }),
    ] {
        let got = run.subject.remove(&Given::from_table(&table), index);
        let input = || format!("remove of {index} from {table:?}");
        run.same(input, (no, 0, result), (got.refusal.no, got.refusal.row, got.table))?;
    }
    // What stands past the count goes where nothing is refused.
    less.rows[31] = Row { period: 9, execution: 9, deadline: 9 };
    let got = run.subject.add(&Given::from_table(&less), full.rows[0]);
    run.same(|| format!("add to {less:?}"), (0, full), (got.refusal.no, got.table))?;
    Ok(())
}

/// Document 01's file of 38 bytes.
pub const WORKED: [u8; 38] = [
    0x01, 0x00, 0x01, 0x00, 0x01, 0x00, 0x07, 0x00, 0x10, 0x00, 0x16, 0x00, 0x1A, 0x00, 0x2D, 0x01, 0x02, 0x01, 0x03,
    0x00, 0x02, 0x00, 0x01, 0x00, 0x01, 0x00, 0x03, 0x00, 0x02, 0x00, 0x02, 0x00, 0x04, 0x00, 0x02, 0x00, 0x03, 0x00,
];

/// Files with the refusal that was worked out by hand: number, entry, row.
fn refused_files() -> Vec<(&'static str, Vec<u8>, (u32, u32, u32))> {
    let note = |kind: u8, start: u8| vec![1, 0, 1, 0, kind, 0, 0, 0, start, 0, 0, 0, 0, 0, 0, 0];
    let mut changed = WORKED.to_vec();
    changed[14] = 0x2E;
    let mut longer = WORKED.to_vec();
    longer.push(0);
    vec![
        ("no bytes", vec![], (9, 0, 0)),
        ("three bytes", vec![1, 0, 1], (9, 0, 0)),
        ("four zero bytes", vec![0; 4], (10, 0, 0)),
        ("n 0 with form 2", vec![0, 0, 2, 0], (10, 0, 0)),
        ("n 0", vec![0, 0, 1, 0], (11, 0, 0)),
        ("n 1 with no contents", vec![1, 0, 1, 0], (11, 0, 0)),
        ("n 65", [vec![65, 0, 1, 0], vec![0; 12 * 65]].concat(), (11, 0, 0)),
        ("65,536 bytes", vec![0; 65_536], (9, 0, 0)),
        ("an empty note", note(128, 16), (0, 0, 0)),
        ("kind 127", note(127, 16), (12, 0, 0)),
        ("kind 127 and a wrong start", note(127, 17), (12, 0, 0)),
        ("a wrong start", note(128, 17), (13, 0, 0)),
        ("a wrong sum", changed, (14, 0, 0)),
        ("a byte left over", longer, (13, 0, 0)),
    ]
}

pub fn files(run: &mut Run) -> Outcome {
    for (name, file, answer) in refused_files() {
        let got = run.subject.file_check(&file);
        let entries = if answer.0 == 0 { 1 } else { 0 };
        let input = || format!("check of a file: {name}");
        run.same(input, (answer, entries), ((got.refusal.no, got.refusal.entry, got.refusal.row), got.entries))?;
    }
    let got = run.subject.file_check(&WORKED);
    run.same(|| "entries of the worked file".into(), (0, 1), (got.refusal.no, got.entries))?;
    let table = Table::of(2, 1, &[(2, 1, 1), (3, 2, 2), (4, 2, 3)]);
    let got = run.subject.find(&WORKED, 7).table;
    run.same(|| "table 7 of the worked file".into(), table, got)?;
    let mut out = [0; 40];
    let got = run.subject.put(&WORKED, 7, &Given::from_table(&table), &mut out);
    run.same(|| "put back into the worked file".into(), (0, 38), (got.refusal.no, got.length))?;
    run.same(|| "the worked file put back".into(), &WORKED[..], &out[..38])?;
    // "0 is a number like any other"
    let mut zero = WORKED;
    zero[6] = 0;
    let got = run.subject.find(&zero, 0);
    run.same(|| "table 0 of the worked file with that number".into(), (0, table), (got.refusal.no, got.table))?;
    // Numbers of tables have 16 bits.
    let got = run.subject.find(&WORKED, 7 + 256);
    run.same(|| "table 263 of the worked file".into(), (17, Table::default()), (got.refusal.no, got.table))?;
    let written = compare::put(run, &WORKED, 7 + 256, &Given::from_table(&table), 72)?;
    run.same(|| "table 263 put into the worked file".into(), 72, written.length)
}
