//! The reference's order of refusals: of two faults in different places, the one that document 01 puts first is given.

use outside::answers::{Row, Table};
use outside::draft::{Draft, Entry};
use outside::reference::{file, table};

type Fault<T> = ((u32, u32, u32), fn(&mut T));

/// Faults of a table of four rows in the paper's order, each with the refusal that it has alone.
const OF_A_TABLE: [Fault<Table>; 13] = [
    ((1, 0, 0), |table| table.m = 17),
    ((2, 0, 0), |table| table.x = 9),
    ((3, 0, 0), |table| table.count = 33),
    ((4, 0, 0), |table| table.rows[0].period = 0),
    ((5, 0, 0), |table| table.rows[0].deadline = 4096),
    ((6, 0, 0), |table| table.rows[0].execution = 0),
    ((4, 0, 1), |table| table.rows[1].period = 4097),
    ((5, 0, 1), |table| table.rows[1].deadline = 0),
    ((6, 0, 1), |table| table.rows[1].execution = 4096),
    ((4, 0, 3), |table| table.rows[3].period = 0),
    ((5, 0, 3), |table| table.rows[3].deadline = 0),
    ((6, 0, 3), |table| table.rows[3].execution = 0),
    ((7, 0, 2), |table| table.rows[2] = Row { period: 4095, execution: 1, deadline: 1 }),
];

#[test]
fn of_a_table() {
    for (k, (first, one)) in OF_A_TABLE.iter().enumerate() {
        for (second, other) in &OF_A_TABLE[k..] {
            let mut faulty = Table::of(2, 2, &[(2, 1, 1), (3, 1, 2), (4, 2, 3), (6, 1, 5)]);
            one(&mut faulty);
            other(&mut faulty);
            let refusal = table::check(&faulty).refusal;
            assert_eq!((refusal.no, refusal.entry, refusal.row), *first, "{first:?} before {second:?}");
        }
    }
}

/// Faults of a file of a table, a note and a table, in the paper's order.
const OF_A_FILE: [Fault<Draft>; 20] = [
    ((9, 0, 0), |draft| draft.tail = vec![0; 65_536]),
    ((10, 0, 0), |draft| draft.form = 0),
    ((11, 0, 0), |draft| draft.n = Some(65)),
    ((12, 0, 0), |draft| draft.entries[0].kind = 127),
    ((13, 0, 0), |draft| draft.entries[0].start = Some(39)),
    ((12, 1, 0), |draft| draft.entries[1].kind = 256),
    ((13, 1, 0), |draft| draft.entries[1].length = Some(65_535)),
    ((16, 1, 0), |draft| draft.entries[1].number = 7),
    ((12, 2, 0), |draft| draft.entries[2].kind = 0),
    ((13, 2, 0), |draft| draft.entries[2].start = Some(0)),
    ((16, 2, 0), |draft| draft.entries[2].number = 0),
    ((13, 2, 0), |draft| draft.tail.push(0)),
    ((14, 0, 0), |draft| draft.entries[0].sum = Some(0)),
    ((15, 0, 0), |draft| draft.entries[0].body[3] = 1),
    ((1, 0, 0), |draft| draft.entries[0].body[0] = 0),
    ((14, 1, 0), |draft| draft.entries[1].sum = Some(0)),
    ((14, 2, 0), |draft| draft.entries[2].sum = Some(1)),
    ((15, 2, 0), |draft| draft.entries[2].body[2] = 2),
    ((3, 2, 0), |draft| draft.entries[2].body = vec![1, 2, 0, 0]),
    ((5, 2, 0), |draft| draft.entries[2].body = vec![1, 2, 1, 0, 4, 0, 1, 0, 5, 0]),
];

#[test]
fn of_a_file() {
    for (k, (first, one)) in OF_A_FILE.iter().enumerate() {
        for (second, other) in &OF_A_FILE[k..] {
            let mut draft = Draft::new(vec![
                Entry::new(1, 7, vec![1, 2, 1, 0, 4, 0, 1, 0, 3, 0]),
                Entry::new(200, 0, vec![9, 8, 7]),
                Entry::new(1, 300, vec![1, 2, 1, 0, 4, 0, 1, 0, 3, 0]),
            ]);
            // The later fault goes in first, so that the earlier one stands where both change one field.
            other(&mut draft);
            one(&mut draft);
            let refusal = file::check(&draft.bytes()).refusal;
            assert_eq!((refusal.no, refusal.entry, refusal.row), *first, "{first:?} before {second:?}");
        }
    }
}
