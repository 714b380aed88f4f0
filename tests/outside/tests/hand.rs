//! The reference gives the answers that were worked out by hand.

use outside::reference::text::program_text;
use outside::reference::{judge, table, Reference};
use outside::suite::{names, verdicts, Plan, WORKED};

#[test]
fn document_01_and_the_easily_misread() {
    for verdict in verdicts() {
        let (mut map, mut pins) = ([7; 4100], [7; 4100]);
        let got = judge::judge(&verdict.table, &mut map, &mut pins);
        assert_eq!(got, verdict.answer, "{}", verdict.name);
        let frame = got.frame as usize;
        assert!(map[frame..].iter().chain(&pins[frame..]).all(|&word| word == 7), "{}", verdict.name);
        if let Some((words, pinned)) = verdict.lists {
            assert_eq!((words, pinned), (&map[..frame], &pins[..frame]), "{}", verdict.name);
        }
    }
}

#[test]
fn the_worked_file() {
    assert_eq!(program_text(&WORKED), "TABLE 7 INFEASIBLE 8 14 13\n");
}

#[test]
fn a_file_of_notes_alone_has_no_text() {
    let file = [1, 0, 1, 0, 128, 0, 5, 0, 16, 0, 0, 0, 0, 0, 0, 0];
    assert_eq!(program_text(&file), "");
}

/// Document 01 on table 1: "Document 000 shows 11 (20 against 19)".
#[test]
fn document_000_s_figure() {
    let table = verdicts()[0].table;
    let available = judge::first_available(table.counted(), 12);
    let supply: usize = available[..11].iter().map(|set| set.iter().filter(|&&on| on).count().min(2)).sum();
    assert_eq!((judge::work_due(table.counted(), 11), supply), (20, 19));
}

/// A list of rows is checked as a table of those rows is, and refused for its length.
#[test]
fn lists_of_rows() {
    for verdict in verdicts() {
        let rows = verdict.table.rows;
        let count = verdict.table.count as usize;
        if count <= 32 {
            let listed = table::frame_of_list(verdict.table.m, verdict.table.x, &rows[..count]);
            assert_eq!(listed, table::frame_of(&verdict.table));
        }
    }
    let rows = [verdicts()[0].table.rows[0]; 33];
    for (m, x, length, no) in [(1, 1, 0, 3), (1, 1, 33, 3), (0, 1, 33, 1), (1, 9, 0, 2)] {
        assert_eq!(table::frame_of_list(m, x, &rows[..length]).unwrap_err().no, no);
    }
}

/// Every group passes with the reference in the library's place, and has cases.
#[test]
fn the_whole_suite_on_the_reference() {
    let plan = Plan { seed: Some(1), ..Plan::default() };
    let mut groups = vec![];
    outside::suite::run(&Reference, &plan, |report| {
        assert!(report.cases > 0, "{} is empty", report.name);
        groups.push(report.name);
    })
    .unwrap_or_else(|difference| panic!("{difference}"));
    groups.dedup();
    assert_eq!(groups, names());
}
