//! The crate's functions on inputs whose answers were worked out by hand, and what they leave in the lists.

use awelodrun::*;

/// Document 01's file of 38 bytes: table 7, which is infeasible.
const WORKED: [u8; 38] = [
    0x01, 0x00, 0x01, 0x00, 0x01, 0x00, 0x07, 0x00, 0x10, 0x00, 0x16, 0x00, 0x1A, 0x00, 0x2D, 0x01, 0x02, 0x01, 0x03,
    0x00, 0x02, 0x00, 0x01, 0x00, 0x01, 0x00, 0x03, 0x00, 0x02, 0x00, 0x02, 0x00, 0x04, 0x00, 0x02, 0x00, 0x03, 0x00,
];

fn rows(list: &[(u16, u16, u16)]) -> Vec<Row> {
    list.iter().map(|&(period, execution, deadline)| Row::new(period, execution, deadline)).collect()
}

fn table(processors: u16, depth: u16, list: &[(u16, u16, u16)]) -> Table {
    Table::new(processors, depth, &rows(list)).expect("a good table")
}

fn refusal(reason: Reason, entry: u32, row: u32) -> Refusal {
    Refusal { reason, entry, row }
}

const THREE: [(u16, u16, u16); 3] = [(2, 1, 1), (3, 2, 2), (4, 2, 3)];
const FOUR: [(u16, u16, u16); 4] = [(2, 1, 1), (3, 2, 2), (4, 2, 3), (8, 1, 6)];

#[test]
fn verdicts() {
    assert_eq!(judge(&table(2, 1, &THREE)), Ok(Verdict::Infeasible { t: 8, work: 14, supply: 13, frame: 12 }));
    assert_eq!(judge(&table(2, 1, &FOUR)), Ok(Verdict::Undecided { frame: 24 }));
    assert_eq!(judge(&table(2, 2, &FOUR)), Ok(Verdict::Infeasible { t: 8, work: 15, supply: 14, frame: 24 }));
    assert_eq!(judge(&table(1, 1, &[(1, 1, 1)])), Ok(Verdict::Undecided { frame: 1 }));
    // Neither work nor supply fits 16 bits.
    let greatest = Verdict::Infeasible { t: 4096, work: 131_072, supply: 65_536, frame: 4096 };
    assert_eq!(judge(&table(16, 1, &[(4096, 4096, 4096); 32])), Ok(greatest));
    assert!(greatest.is_infeasible() && greatest.frame() == 4096);
    let undecided = Verdict::Undecided { frame: 3 };
    assert!(!undecided.is_infeasible() && undecided.frame() == 3);
}

#[test]
fn lines() {
    let mut expected = [Line::Infeasible { t: 8, work: 15, supply: 14 }; 8];
    expected[0] = Line::Undecided;
    let got = ladder(&table(2, 1, &FOUR)).unwrap();
    assert_eq!(got, expected);
    assert!(got[1].is_infeasible() && !got[0].is_infeasible());
    let greatest = Line::Infeasible { t: 4096, work: 131_072, supply: 65_536 };
    assert_eq!(ladder(&table(16, 1, &[(4096, 4096, 4096); 32])), Ok([greatest; 8]));
}

#[test]
fn lists_are_written_up_to_the_frame() {
    let (mut map, mut pins) = ([9; 14], [9; 13]);
    judge_with(&table(2, 1, &THREE), &mut map, &mut pins).unwrap();
    assert_eq!(map, [7, 6, 5, 2, 7, 4, 7, 2, 5, 6, 7, 0, 9, 9]);
    assert_eq!(pins, [0, 0, 0, 0, 0, 0, 0, 0, 0, 0, 0, 0, 9]);
    for (short, long) in [(11, 12), (12, 11), (0, 0), (0, 4096)] {
        let (mut map, mut pins) = (vec![9; short], vec![9; long]);
        let refused = refusal(Reason::ShortList, 0, 0);
        assert_eq!(judge_with(&table(2, 1, &THREE), &mut map, &mut pins), Err(refused));
        assert_eq!(ladder_with(&table(2, 1, &THREE), &mut map, &mut pins), Err(refused));
        assert!(map.iter().chain(&pins).all(|&word| word == 9));
    }
}

/// Numbers that would be in range if their upper bits were lost.
#[test]
fn no_number_is_narrowed() {
    let good = table(2, 1, &THREE);
    for more in [256, 512, 65_280] {
        let wide = [
            (Table { processors: 2 + more, ..good }, Reason::Processors),
            (Table { depth: 1 + more, ..good }, Reason::Depth),
            (Table { count: 3 + more, ..good }, Reason::Count),
        ];
        for (table, reason) in wide {
            let refused = refusal(reason, 0, 0);
            assert_eq!(check(&table), Err(refused));
            assert_eq!(judge(&table), Err(refused));
            assert_eq!(ladder(&table), Err(refused));
            assert_eq!(add(&table, Row::new(2, 1, 1)), Err(refused));
            assert_eq!(remove(&table, 0), Err(refused));
            assert_eq!(file::put(&WORKED, 7, &table), Err(refused));
        }
        assert_eq!(check_list(2 + more, 1, &rows(&THREE)), Err(refusal(Reason::Processors, 0, 0)));
        assert_eq!(check_list(2, 1 + more, &rows(&THREE)), Err(refusal(Reason::Depth, 0, 0)));
        assert_eq!(file::find(&WORKED, 7 + more), Err(refusal(Reason::NoTable, 0, 0)));
    }
    for index in [3, 32, 255, 256, 258, 300, 65_535, 65_536, 65_538, 1 << 24, u32::MAX] {
        assert_eq!(remove(&good, index), Err(refusal(Reason::NoRow, 0, 0)), "{index}");
    }
}

#[test]
fn rows_come_and_go() {
    let three = table(2, 1, &THREE);
    let four = add(&three, Row::new(8, 1, 6)).unwrap();
    assert_eq!(four, table(2, 1, &FOUR));
    assert_eq!(remove(&four, 3), Ok(three));
    assert_eq!(remove(&four, 0).unwrap().counted(), rows(&FOUR[1..]));
    // What stands past the count goes.
    let mut with_more = three;
    with_more.rows[3..].fill(Row::new(1, 2, 3));
    assert_eq!(add(&with_more, Row::new(8, 1, 6)), Ok(four));
    assert_eq!(add(&three, Row::new(4096, 1, 1)), Err(refusal(Reason::Frame, 0, 3)));
    assert_eq!(add(&table(1, 1, &[(1, 1, 1); 32]), Row::new(1, 1, 1)), Err(refusal(Reason::Count, 0, 0)));
    assert_eq!(remove(&table(1, 1, &[(1, 1, 1)]), 0), Err(refusal(Reason::Count, 0, 0)));
}

#[test]
fn lists_of_rows() {
    assert_eq!(check_list(2, 1, &rows(&THREE)), Ok(12));
    let many = vec![Row::new(1, 1, 1); 65_568];
    for (length, expected) in [(0, false), (1, true), (32, true), (33, false), (288, false), (65_568, false)] {
        let got = check_list(1, 1, &many[..length]);
        assert_eq!(got, if expected { Ok(1) } else { Err(refusal(Reason::Count, 0, 0)) }, "{length}");
        assert_eq!(Table::new(1, 1, &many[..length]).is_ok(), expected);
    }
}

#[test]
fn files() {
    assert_eq!(file::check(&WORKED), Ok(1));
    assert_eq!(file::find(&WORKED, 7), Ok(table(2, 1, &THREE)));
    assert_eq!(file::put(&WORKED, 7, &table(2, 1, &THREE)), Ok(WORKED.to_vec()));
    assert_eq!(file::shift_text(&WORKED), "TABLE 7 INFEASIBLE 8 14 13\n");
    let mut wrong = WORKED;
    wrong[20] = 0;
    assert_eq!(file::check(&wrong), Err(refusal(Reason::Sum, 0, 0)));
    assert_eq!(file::shift_text(&wrong), "REFUSED 14 0 0\n");
    let full = file::put(&WORKED, 8, &table(1, 1, &[(1, 1, 1); 32])).unwrap();
    assert_eq!((full.len(), file::check(&full)), (38 + 12 + 196, Ok(2)));
    assert_eq!(file::shift_text(&full), "TABLE 7 INFEASIBLE 8 14 13\nTABLE 8 INFEASIBLE 1 32 1\n");
}

/// The output that put makes for itself is never too short: a file grown too long is refused with 9.
#[test]
fn put_at_the_longest_file() {
    let greatest = table(1, 1, &[(1, 1, 1); 32]);
    for length in [65_326, 65_327, 65_328, 65_535, 65_536, 70_000] {
        let mut bytes = vec![0; length];
        // One note of the number 5, whose body is all that follows: zeros, with the sum 0.
        bytes[..10].copy_from_slice(&[1, 0, 1, 0, 128, 0, 5, 0, 16, 0]);
        bytes[10..12].copy_from_slice(&((length - 16) as u16).to_le_bytes());
        let got = file::put(&bytes, 7, &greatest);
        match length {
            ..=65_327 => assert_eq!(got.map(|file| file.len()), Ok(length + 208)),
            _ => assert_eq!(got, Err(refusal(Reason::FileLength, 0, 0))),
        }
    }
}

#[test]
fn the_text_leaves_what_the_judge_leaves() {
    let (mut map, mut pins, mut out) = ([9; SLOTS], [9; SLOTS], [9; TEXT]);
    let length = file::shift_text_with(&WORKED, &mut map, &mut pins, &mut out);
    assert_eq!(&out[..length], b"TABLE 7 INFEASIBLE 8 14 13\n");
    assert!(out[length..].iter().all(|&byte| byte == 9));
    assert_eq!(map[..13], [7, 6, 5, 2, 7, 4, 7, 2, 5, 6, 7, 0, 9]);
    assert_eq!(pins[..13], [0, 0, 0, 0, 0, 0, 0, 0, 0, 0, 0, 0, 9]);
    let (mut map, mut pins) = ([9; SLOTS], [9; SLOTS]);
    let length = file::shift_text_with(&WORKED[..37], &mut map, &mut pins, &mut out);
    assert_eq!(&out[..length], b"REFUSED 13 0 0\n");
    assert!(map.iter().chain(&pins).all(|&word| word == 9));
}
