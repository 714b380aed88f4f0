//! The text that the shift check program writes for a task file.

use super::file::{entries_of, read_table};
use super::judge::judge;

/// The whole output, with two lists of at least 4,096 words that are used again for each table.
pub fn shift_text(file: &[u8], map: &mut [u32], pins: &mut [u32]) -> String {
    let entries = match entries_of(file) {
        Ok(entries) => entries,
        Err(refusal) => return format!("REFUSED {} {} {}\n", refusal.no, refusal.entry, refusal.row),
    };
    let mut text = String::new();
    for entry in entries.iter().filter(|entry| entry.is_table()) {
        let table = read_table(entry.body(file)).expect("the file was checked");
        let judged = judge(&table, map, pins);
        text += &match judged.t {
            0 => format!("TABLE {} UNDECIDED {}\n", entry.number, judged.frame),
            t => format!("TABLE {} INFEASIBLE {} {} {}\n", entry.number, t, judged.work, judged.supply),
        };
    }
    text
}

/// The program's output: "It makes its two lists as 4,096 zero words each."
pub fn program_text(file: &[u8]) -> String {
    shift_text(file, &mut [0; 4096], &mut [0; 4096])
}
