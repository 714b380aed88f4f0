//! What the benchmark and a server say to each other: a line asks, and a line answers it.

use std::fmt::{self, Display, Formatter};
use std::num::NonZeroU32;
use std::str::FromStr;

#[derive(Clone, Copy, Debug, PartialEq, Eq)]
pub enum Call {
    Judge,
    Ladder,
}

#[derive(Clone, Debug, PartialEq, Eq)]
pub enum Request {
    /// The table of all later requests: its frame, and its rows (T, C, D). `table FRAME M X T C D T C D ..`
    Table { frame: usize, m: u8, x: u8, rows: Vec<(u16, u16, u16)> },
    /// One call with lists that are somewhat longer than the frame: what it answers and leaves. `outcome judge`
    Outcome(Call),
    /// The time of so many calls with lists as long as the frame. `time judge 20`
    Time(Call, NonZeroU32),
}

#[derive(Clone, Debug, PartialEq, Eq)]
pub enum Answer {
    /// The table is there. `ready`
    Ready,
    /// The numbers, the map and the pins after a call. `outcome 0 0 0 .. / 7 7 .. / 0 0 ..`
    Outcome { numbers: Vec<u32>, map: Vec<u32>, pins: Vec<u32> },
    /// The nanoseconds of all calls together. `time 2000000`
    Time(u64),
    /// The request was not understood, or there is no table yet. `wrong`
    Wrong,
}

/// A line of neither kind.
#[derive(Clone, Debug, PartialEq, Eq)]
pub struct NotALine;

fn numbers<T: FromStr>(words: &[&str]) -> Result<Vec<T>, NotALine> {
    words.iter().map(|word| word.parse().map_err(|_| NotALine)).collect()
}

fn number<T: FromStr>(word: &str) -> Result<T, NotALine> {
    word.parse().map_err(|_| NotALine)
}

fn joined(list: &[u32]) -> String {
    list.iter().map(u32::to_string).collect::<Vec<_>>().join(" ")
}

impl Display for Call {
    fn fmt(&self, f: &mut Formatter) -> fmt::Result {
        f.write_str(match self {
            Call::Judge => "judge",
            Call::Ladder => "ladder",
        })
    }
}

impl FromStr for Call {
    type Err = NotALine;
    fn from_str(word: &str) -> Result<Call, NotALine> {
        [Call::Judge, Call::Ladder].into_iter().find(|call| call.to_string() == word).ok_or(NotALine)
    }
}

impl Display for Request {
    fn fmt(&self, f: &mut Formatter) -> fmt::Result {
        match self {
            Request::Table { frame, m, x, rows } => {
                write!(f, "table {frame} {m} {x}")?;
                rows.iter().try_for_each(|(t, c, d)| write!(f, " {t} {c} {d}"))
            }
            Request::Outcome(call) => write!(f, "outcome {call}"),
            Request::Time(call, calls) => write!(f, "time {call} {calls}"),
        }
    }
}

impl FromStr for Request {
    type Err = NotALine;
    fn from_str(line: &str) -> Result<Request, NotALine> {
        match line.split(' ').collect::<Vec<_>>()[..] {
            ["table", frame, m, x, ref rows @ ..] if rows.len() % 3 == 0 => {
                let rows = numbers(rows)?.chunks(3).map(|row| (row[0], row[1], row[2])).collect();
                Ok(Request::Table { frame: number(frame)?, m: number(m)?, x: number(x)?, rows })
            }
            ["outcome", call] => Ok(Request::Outcome(call.parse()?)),
            ["time", call, calls] => Ok(Request::Time(call.parse()?, number(calls)?)),
            _ => Err(NotALine),
        }
    }
}

impl Display for Answer {
    fn fmt(&self, f: &mut Formatter) -> fmt::Result {
        match self {
            Answer::Ready => f.write_str("ready"),
            Answer::Outcome { numbers, map, pins } => {
                write!(f, "outcome {} / {} / {}", joined(numbers), joined(map), joined(pins))
            }
            Answer::Time(nanoseconds) => write!(f, "time {nanoseconds}"),
            Answer::Wrong => f.write_str("wrong"),
        }
    }
}

impl FromStr for Answer {
    type Err = NotALine;
    fn from_str(line: &str) -> Result<Answer, NotALine> {
        match line.split(' ').collect::<Vec<_>>()[..] {
            ["ready"] => Ok(Answer::Ready),
            ["outcome", ref lists @ ..] => match lists.split(|&word| word == "/").collect::<Vec<_>>()[..] {
                [answer, map, pins] => {
                    Ok(Answer::Outcome { numbers: numbers(answer)?, map: numbers(map)?, pins: numbers(pins)? })
                }
                _ => Err(NotALine),
            },
            ["time", nanoseconds] => Ok(Answer::Time(number(nanoseconds)?)),
            ["wrong"] => Ok(Answer::Wrong),
            _ => Err(NotALine),
        }
    }
}

#[cfg(test)]
mod tests {
    use super::*;

    #[test]
    fn a_request_is_read_as_it_was_written() {
        let calls = NonZeroU32::new(20).unwrap();
        let requests = [
            (Request::Table { frame: 8, m: 2, x: 3, rows: vec![(4, 1, 2), (8, 3, 8)] }, "table 8 2 3 4 1 2 8 3 8"),
            (Request::Table { frame: 1, m: 0, x: 255, rows: vec![] }, "table 1 0 255"),
            (Request::Outcome(Call::Ladder), "outcome ladder"),
            (Request::Time(Call::Judge, calls), "time judge 20"),
        ];
        for (request, line) in requests {
            assert_eq!(request.to_string(), line);
            assert_eq!(line.parse(), Ok(request));
        }
    }

    #[test]
    fn an_answer_is_read_as_it_was_written() {
        let outcome = Answer::Outcome { numbers: vec![0, 1, 2], map: vec![u32::MAX, 0], pins: vec![7, 8] };
        let answers = [
            (Answer::Ready, "ready"),
            (outcome, "outcome 0 1 2 / 4294967295 0 / 7 8"),
            (Answer::Time(1_234_567), "time 1234567"),
            (Answer::Wrong, "wrong"),
        ];
        for (answer, line) in answers {
            assert_eq!(answer.to_string(), line);
            assert_eq!(line.parse(), Ok(answer));
        }
    }

    #[test]
    fn other_lines_are_not_read() {
        let requests = [
            "",
            "table",
            "table 8 2",
            "table 8 2 3 4 1",
            "table 8 256 3",
            "table 8 2 3 65536 1 1",
            "table 8  2 3",
            "outcome",
            "outcome scan",
            "time judge",
            "time judge 0",
            "time judge -1",
            "judge",
            "ready",
        ];
        for line in requests {
            assert_eq!(line.parse::<Request>(), Err(NotALine), "{line:?}");
        }
        let answers = [
            "",
            "readyy",
            "outcome",
            "outcome 0 / 1",
            "outcome 0 / 1 / 2 / 3",
            "outcome 0 / x / 2",
            "time",
            "time 1.5",
        ];
        for line in answers {
            assert_eq!(line.parse::<Answer>(), Err(NotALine), "{line:?}");
        }
    }
}
