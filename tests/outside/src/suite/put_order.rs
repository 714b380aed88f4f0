//! The order of put's refusals: inputs in which two or more apply at once, each with the one that document 01 puts first.
//!
//! "Put: the file, the new table 1 to 7, 17, then 11 for a 65th entry, 9 for a file grown too long, 19."

use crate::answers::{Given, Table};
use crate::compare;
use crate::draft::{Draft, Entry};
use crate::run::{Outcome, Run};

/// A file of so many entries: table 7 of one row, note 5, note 6 with no bytes, and further such notes. Where it is long it has
/// 65,535 bytes, by the body of note 5.
fn draft(entries: usize, long: bool) -> Draft {
    let note = if long { 65_535 - (4 + 12 * entries + 10) } else { 3 };
    let mut list = vec![
        Entry::new(1, 7, vec![1, 1, 1, 0, 1, 0, 1, 0, 1, 0]),
        Entry::new(200, 5, vec![0xA5; note]),
        Entry::new(128, 6, vec![]),
    ];
    list.extend((3..entries as u16).map(|i| Entry::new(255, 100 + i, vec![])));
    Draft::new(list)
}

/// Entries, whether the file is long, the number that is put, and the refusal of a good table of two rows, which is 6 bytes
/// longer than table 7: with room for every file, and with no room at all.
const CASES: [(usize, bool, u16, u32, u32); 16] = [
    // Few entries in a short file: there is nothing but 17 and 19.
    (3, false, 7, 0, 19),
    (3, false, 5, 17, 17),
    (3, false, 6, 17, 17),
    (3, false, 900, 0, 19),
    // 64 entries: a new number would be the 65th.
    (64, false, 7, 0, 19),
    (64, false, 5, 17, 17),
    (64, false, 6, 17, 17),
    (64, false, 900, 11, 11),
    // The longest file: any growth is too much.
    (3, true, 7, 9, 9),
    (3, true, 5, 17, 17),
    (3, true, 6, 17, 17),
    (3, true, 900, 9, 9),
    // Both.
    (64, true, 7, 9, 9),
    (64, true, 5, 17, 17),
    (64, true, 6, 17, 17),
    (64, true, 900, 11, 11),
];

/// New tables with the refusal's number and row.
fn bad_tables() -> [(Table, u32, u32); 8] {
    let of = |rows: &[(u16, u16, u16)]| Table::of(2, 3, rows);
    let good = of(&[(4, 1, 2), (4, 1, 2)]);
    [
        (Table { m: 259, ..good }, 1, 0),
        (Table { x: 9, ..good }, 2, 0),
        (Table { count: 33, ..good }, 3, 0),
        (of(&[]), 3, 0),
        (of(&[(4, 1, 2), (0, 1, 2)]), 4, 1),
        (of(&[(4, 1, 2), (4, 1, 5)]), 5, 1),
        (of(&[(4, 1, 2), (4, 3, 2)]), 6, 1),
        (of(&[(4096, 1, 2), (3, 1, 2)]), 7, 1),
    ]
}

/// A change of the file with the refusal's number and entry.
type Damage = (fn(&mut Draft), u32, u32);

const BAD_FILES: [Damage; 4] = [
    (|draft| draft.form = 2, 10, 0),
    (|draft| draft.entries[2].kind = 127, 12, 2),
    (|draft| draft.entries[1].sum = Some(1), 14, 1),
    (|draft| draft.entries[0].body[1] = 9, 2, 0),
];

/// One case, with an output that must be as it was where put is refused.
fn one(run: &mut Run, file: &[u8], number: u16, table: &Table, room: usize, expected: (u32, u32, u32)) -> Outcome {
    let given = Given::from_table(table);
    let mut out = vec![0x5A; room];
    let got = run.subject.put(file, number, &given, &mut out);
    let refusal = got.refusal;
    let input = || format!("put of {table:?} as {number}, output of {room} bytes, into a file of {}", file.len());
    run.same(input, expected, (refusal.no, refusal.entry, refusal.row))?;
    if expected.0 > 0 {
        run.same(input, 0, got.length)?;
        run.same(input, true, out.iter().all(|&byte| byte == 0x5A))?;
    }
    compare::put(run, file, number, &given, room)?;
    Ok(())
}

pub fn pairs(run: &mut Run) -> Outcome {
    let good = Table::of(2, 3, &[(4, 1, 2), (4, 1, 2)]);
    for (entries, long, number, with_room, without) in CASES {
        let file = draft(entries, long).bytes();
        for (room, no) in [(66_000, with_room), (0, without)] {
            one(run, &file, number, &good, room, (no, 0, 0))?;
            for (bad, no, row) in bad_tables() {
                one(run, &file, number, &bad, room, (no, 0, row))?;
            }
            for (damage, no, entry) in BAD_FILES {
                let mut damaged = draft(entries, long);
                damage(&mut damaged);
                let file = damaged.bytes();
                for table in [good].into_iter().chain(bad_tables().map(|(bad, _, _)| bad)) {
                    one(run, &file, number, &table, room, (no, entry, 0))?;
                }
            }
        }
    }
    Ok(())
}
