//! A server: it judges the tables that it is sent, through one binding, and says what came of it and how long it took.

use crate::clock;
use crate::wire::{Answer, Call, Request};
use std::hint::black_box;
use std::io::{self, BufRead, Write};

/// How a library is called. A table is made ready once, which is not measured, and then judged many times.
pub struct Binding<T> {
    pub ready: fn(u8, u8, &[(u16, u16, u16)]) -> T,
    /// The numbers of the refusal, t, work, supply, frame.
    pub judge: fn(&T, &mut [u32], &mut [u32]) -> [u32; 7],
    /// The numbers of the refusal, then t, work, supply of each depth.
    pub ladder: fn(&T, &mut [u32], &mut [u32]) -> [u32; 27],
}

/// What stands in a list before a call whose outcome is asked for: every word of the frame must be written, and no other.
const MARK: u32 = 0xDEAD_BEEF;

/// A table and two lists as long as its frame, which are not cleared between the calls that are measured.
struct Current<T> {
    table: T,
    map: Vec<u32>,
    pins: Vec<u32>,
}

fn outcome<T>(binding: &Binding<T>, call: Call, current: &Current<T>) -> Answer {
    let mut map = vec![MARK; current.map.len() + 8];
    let mut pins = map.clone();
    let numbers = match call {
        Call::Judge => (binding.judge)(&current.table, &mut map, &mut pins).to_vec(),
        Call::Ladder => (binding.ladder)(&current.table, &mut map, &mut pins).to_vec(),
    };
    Answer::Outcome { numbers, map, pins }
}

/// The time of the calls, after one that is not measured: between two requests other processes had this one's processor.
fn time<T>(binding: &Binding<T>, call: Call, calls: u32, current: &mut Current<T>) -> Answer {
    let Current { table, map, pins } = current;
    let mut one = || match call {
        Call::Judge => drop(black_box((binding.judge)(black_box(table), map, pins))),
        Call::Ladder => drop(black_box((binding.ladder)(black_box(table), map, pins))),
    };
    one();
    let begin = clock::seconds();
    (0..calls).for_each(|_| one());
    Answer::Time(((clock::seconds() - begin) * 1e9) as u64)
}

/// Answers each line of the requests with a line, until they end.
pub fn serve<T>(binding: &Binding<T>, requests: impl BufRead, mut answers: impl Write) -> io::Result<()> {
    let mut current = None;
    for line in requests.lines() {
        let answer = match (line?.parse(), &mut current) {
            (Ok(Request::Table { frame, m, x, rows }), _) => {
                let table = (binding.ready)(m, x, &rows);
                current = Some(Current { table, map: vec![0; frame], pins: vec![0; frame] });
                Answer::Ready
            }
            (Ok(Request::Outcome(call)), Some(current)) => outcome(binding, call, current),
            (Ok(Request::Time(call, calls)), Some(current)) => time(binding, call, calls.get(), current),
            _ => Answer::Wrong,
        };
        writeln!(answers, "{answer}")?;
        answers.flush()?;
    }
    Ok(())
}

#[cfg(test)]
mod tests {
    use super::*;
    use crate::fast;
    use outside::answers::{Given, Table};

    /// Two rows with a frame of 8, as a request has them.
    const ROWS: &str = "4 2 2 8 8 8";

    /// What a server of plain Rust says.
    fn said(requests: &str) -> Vec<Answer> {
        let binding = Binding {
            ready: |m, x, rows| Given::from_table(&Table::of(m.into(), x.into(), rows)),
            judge: |table, map, pins| fast::judge::<false>(table, map, pins).numbers(),
            ladder: |table, map, pins| fast::ladder::<false>(table, map, pins).numbers(),
        };
        let mut text = vec![];
        serve(&binding, requests.as_bytes(), &mut text).unwrap();
        String::from_utf8(text).unwrap().lines().map(|line| line.parse().unwrap()).collect()
    }

    #[test]
    fn it_answers_what_the_library_answers() {
        let rows = [(4, 2, 2), (8, 8, 8)];
        for (m, x) in [(1, 1), (2, 8), (1, 8), (0, 1)] {
            let table = Given::from_table(&Table::of(m, x, &rows));
            let said = said(&format!("table 8 {m} {x} {ROWS}\noutcome judge\noutcome ladder\n"));
            let (mut map, mut pins) = (vec![MARK; 16], vec![MARK; 16]);
            let numbers = fast::judge::<false>(&table, &mut map, &mut pins).numbers().to_vec();
            let judged = Answer::Outcome { numbers, map, pins };
            let (mut map, mut pins) = (vec![MARK; 16], vec![MARK; 16]);
            let numbers = fast::ladder::<false>(&table, &mut map, &mut pins).numbers().to_vec();
            assert_eq!(said, [Answer::Ready, judged, Answer::Outcome { numbers, map, pins }]);
        }
    }

    #[test]
    fn it_says_a_time_and_goes_on() {
        let said = said(&format!("table 8 2 1 {ROWS}\ntime judge 3\ntime ladder 1\noutcome judge\n"));
        assert!(matches!(said[..], [Answer::Ready, Answer::Time(_), Answer::Time(_), Answer::Outcome { .. }]));
    }

    #[test]
    fn it_goes_on_after_what_it_does_not_understand() {
        let said =
            said(&format!("outcome judge\ntime judge 1\nnonsense\ntable 8 2 1 {ROWS}\noutcome\noutcome judge\n"));
        assert_eq!(said[..5], [Answer::Wrong, Answer::Wrong, Answer::Wrong, Answer::Ready, Answer::Wrong]);
        assert!(matches!(said[5], Answer::Outcome { .. }));
    }
}
