//! The library of this tree against that of an earlier commit: `bench/run --against COMMIT`.
//!
//! Both archives export the same names, and their C functions may differ. So each is called by a server, a process of its own,
//! which is built with its own tree's binding. A second process of the old server shows the noise, and plain Rust is measured
//! in a server too, so that all are measured alike. The servers take turns.
//!
//! Where code stands in memory can change its time by more than what is looked for. So each server is linked at several places,
//! and its time on a table is the mean over these.

use crate::draw::{self, Shape};
use crate::measure::median;
use crate::report::{line, micro, ratio};
use crate::tree::{check_out, is_changed, resolve, rooms, title, Failure, Programs, Tree, PLACES};
use crate::wire::{Answer, Call, Request};
use outside::answers::Given;
use std::fs;
use std::io::{BufRead, BufReader, Write};
use std::num::NonZeroU32;
use std::path::{Path, PathBuf};
use std::process::{Child, ChildStdout, Command, Stdio};

/// How much is measured.
pub struct Plan {
    pub seeds: u64,
    /// Samples of a table at each place.
    pub samples: usize,
    /// The parts of the table: a name, and the shapes with their calls.
    pub parts: Vec<(&'static str, Vec<(Call, Shape)>)>,
}

/// The least seconds that the old library takes for a sample; all others make as many calls.
const SAMPLE: f64 = 0.002;

/// The sides, and where they stand in every list of them.
const NAMES: [&str; 4] = ["the old library", "the old library once more", "the new library", "plain Rust"];
const OLD: usize = 0;
const AGAIN: usize = 1;
const NEW: usize = 2;
const PLAIN: usize = 3;

/// Which times are divided by which.
const RATIOS: [(&str, usize, usize); 3] =
    [("new / old", NEW, OLD), ("old / old", AGAIN, OLD), ("new / plain", NEW, PLAIN)];

struct Server {
    name: &'static str,
    process: Child,
    answers: BufReader<ChildStdout>,
}

impl Server {
    fn start(name: &'static str, program: &Path) -> Result<Server, String> {
        let mut command = Command::new(program);
        let process = command.stdin(Stdio::piped()).stdout(Stdio::piped()).spawn();
        let mut process = process.map_err(|error| format!("{}: {error}", program.display()))?;
        let answers = BufReader::new(process.stdout.take().expect("it is piped"));
        Ok(Server { name, process, answers })
    }

    fn ask(&mut self, request: &Request) -> Result<Answer, String> {
        let requests = self.process.stdin.as_mut().expect("it is piped");
        let mut line = String::new();
        let asked = writeln!(requests, "{request}").and_then(|()| self.answers.read_line(&mut line));
        let failed = |what: String| format!("the server of {} {what}", self.name);
        match (asked, line.trim_end().parse()) {
            (Err(error), _) => Err(failed(format!("ended: {error}"))),
            (Ok(0), _) => Err(failed("ended".into())),
            (Ok(_), Err(_) | Ok(Answer::Wrong)) => Err(failed(format!("said {line:?} when asked {request}"))),
            (Ok(_), Ok(answer)) => Ok(answer),
        }
    }

    /// Seconds that one call takes.
    fn time(&mut self, call: Call, calls: NonZeroU32) -> Result<f64, String> {
        match self.ask(&Request::Time(call, calls))? {
            Answer::Time(nanoseconds) => Ok(nanoseconds as f64 * 1e-9 / f64::from(calls.get())),
            answer => Err(format!("the server of {} said {answer} for a time", self.name)),
        }
    }
}

impl Drop for Server {
    fn drop(&mut self) {
        let _ = self.process.kill();
        let _ = self.process.wait();
    }
}

/// All sides must judge the table, give the same answers and leave the same lists.
fn agree(servers: &mut [Server], call: Call, table: &Given) -> Result<(), String> {
    let outcome = |server: &mut Server| server.ask(&Request::Outcome(call));
    let outcomes = servers.iter_mut().map(outcome).collect::<Result<Vec<Answer>, String>>()?;
    if !matches!(&outcomes[PLAIN], Answer::Outcome { numbers, .. } if numbers.first() == Some(&0)) {
        return Err(format!("{call}: plain Rust does not judge {table:?}"));
    }
    match outcomes.iter().position(|outcome| *outcome != outcomes[PLAIN]) {
        Some(side) => Err(format!("{call}: {} and {} differ on {table:?}", NAMES[side], NAMES[PLAIN])),
        None => Ok(()),
    }
}

/// The side whose turn it is. Each round begins with another side, none comes twice in a row, and at every other place the
/// turns go backwards, so that none always comes after the same one.
fn side(place: usize, round: usize, turn: usize) -> usize {
    let side = (round + turn + 1) % 4;
    [side, 3 - side][place % 2]
}

/// The seconds of each side on a table at one of the places: the median of interleaved samples.
fn medians(
    sides: &[Programs; 4],
    place: usize,
    call: Call,
    table: &Given,
    frame: usize,
    samples: usize,
) -> Result<[f64; 4], String> {
    let start = |(side, name): (&Programs, &'static str)| Server::start(name, &side.at(PLACES[place]));
    let mut servers = sides.iter().zip(NAMES).map(start).collect::<Result<Vec<Server>, String>>()?;
    let lent = table.table();
    let rows = lent.counted().iter().map(|row| (row.period, row.execution, row.deadline)).collect();
    let byte = |number: u16| u8::try_from(number).map_err(|_| format!("{number} fits no byte: {lent:?}"));
    let request = Request::Table { frame, m: byte(lent.m)?, x: byte(lent.x)?, rows };
    for server in &mut servers {
        server.ask(&request)?;
    }
    agree(&mut servers, call, table)?;
    let one = servers[OLD].time(call, NonZeroU32::MIN)?;
    let calls = NonZeroU32::new((SAMPLE / one).ceil().clamp(1.0, 1e6) as u32).expect("it is at least 1");
    let mut taken: [Vec<f64>; 4] = Default::default();
    for round in 0..samples {
        for side in (0..4).map(|turn| side(place, round, turn)) {
            taken[side].push(servers[side].time(call, calls)?);
        }
    }
    Ok(taken.map(median))
}

/// The seconds of each side on a table: the mean over the places.
fn times(sides: &[Programs; 4], call: Call, table: &Given, frame: usize, samples: usize) -> Result<[f64; 4], String> {
    let mut means = [0.0; 4];
    for place in 0..PLACES.len() {
        let medians = medians(sides, place, call, table, frame, samples)?;
        means.iter_mut().zip(medians).for_each(|(mean, median)| *mean += median / PLACES.len() as f64);
    }
    Ok(means)
}

/// The quotients of two sides' times, table by table.
fn quotients(times: &[[f64; 4]], over: usize, under: usize) -> Vec<f64> {
    times.iter().map(|times| times[over] / times[under]).collect()
}

const HEADS: [&str; 10] =
    ["call", "rows", "m", "H", "old µs", "new µs", "new / old", "old / old", "plain Rust µs", "new / plain"];

/// A line of the table: medians over the tables of one shape.
fn row(call: Call, shape: Shape, times: &[[f64; 4]]) -> String {
    let name = if call == Call::Judge { format!("judge, x {}", shape.x) } else { call.to_string() };
    let time = |side: usize| micro(median(times.iter().map(|times| times[side]).collect()));
    let [new_old, old_old, new_plain] = RATIOS.map(|(_, over, under)| ratio(median(quotients(times, over, under))));
    let [rows, m, frame] = [shape.rows, shape.m, shape.frame].map(|number| number.to_string());
    line(&[name, rows, m, frame, time(OLD), time(NEW), new_old, old_old, time(PLAIN), new_plain])
}

/// What the ratios were over all tables.
fn summary(times: &[[f64; 4]]) -> String {
    let said = |(name, over, under): (&str, usize, usize)| {
        let mut list = quotients(times, over, under);
        list.sort_by(f64::total_cmp);
        let [least, middle, most] = [list[0], median(list.clone()), list[list.len() - 1]].map(ratio);
        format!("- {name}: {least} to {most}, median {middle}\n")
    };
    format!("\nOver the single tables:\n\n{}", RATIOS.map(said).concat())
}

/// Builds the servers, and says which libraries are measured.
fn sides(root: &Path, commit: &str) -> Result<([Programs; 4], String), Failure> {
    let commit = resolve(root, commit)?;
    let rooms = rooms(root)?;
    let room = rooms.join(&commit[..12]);
    let folder = room.join("tree");
    let old_title = title(root, &commit);
    eprintln!("building {old_title} (where it is new here, its library takes some minutes)");
    check_out(root, &commit, &folder)?;
    let tree = Tree::new(&folder).map_err(|why| Failure::Commit(format!("{old_title}: cannot be measured: {why}")))?;
    let old_archive = tree.archive()?;
    let old = tree.server(root, &old_archive, &room.join("server"))?;

    let changed = if is_changed(root) { ", with changes" } else { "" };
    let mut new_title = title(root, "HEAD") + changed;
    eprintln!("building {new_title}");
    let tree = Tree::new(root)?;
    let new_archive = match std::env::var_os("AWELODRUN_LIB_DIR").filter(|folder| !folder.is_empty()) {
        Some(folder) => {
            let archive = PathBuf::from(folder).join("libawelodrun.a");
            new_title = format!("{}, with the binding of {new_title}", archive.display());
            archive
        }
        None => tree.archive()?,
    };
    let new = tree.server(root, &new_archive, &rooms.join("new"))?;
    let plain = Programs::build(&rooms.join("plain"), &root.join("bench/server/plain.rs"), root, None)?;

    let mut said = format!("- old: {old_title}\n- new: {new_title}\n");
    if fs::read(old_archive).ok() == fs::read(new_archive).ok() {
        said += "- The two archives are the same, byte for byte.\n";
    }
    Ok(([old.clone(), old, new, plain], said))
}

/// The whole run, printed line by line.
pub fn run(root: &Path, commit: &str, plan: &Plan) -> Result<(), Failure> {
    let (sides, said) = sides(root, commit)?;
    println!(
        "{said}\nMeasured on {} with {} tables a line, {} samples a table at each of {} places of the code. The lists were not\n\
         cleared before a call.",
        std::env::consts::ARCH,
        plan.seeds,
        plan.samples,
        PLACES.len()
    );
    let mut all = vec![];
    let mut drawn: Option<(Shape, Vec<Given>)> = None;
    for (name, shapes) in &plan.parts {
        print!("\n### {name}\n\n{}{}", line(&HEADS.map(String::from)), line(&HEADS.map(|_| "---".into())));
        for &(call, shape) in shapes {
            let tables = match drawn.take() {
                Some((last, tables)) if last == shape => tables,
                _ => (1..=plan.seeds).map(|seed| draw::table(shape, seed).0).collect(),
            };
            let one = |table: &Given| times(&sides, call, table, shape.frame, plan.samples);
            let taken = tables.iter().map(one).collect::<Result<Vec<[f64; 4]>, String>>()?;
            print!("{}", row(call, shape, &taken));
            all.extend(taken);
            drawn = Some((shape, tables));
        }
    }
    print!("{}", summary(&all));
    Ok(())
}

#[cfg(test)]
mod tests {
    use super::*;

    #[test]
    fn each_round_has_each_side_once_and_none_twice_in_a_row() {
        for place in 0..PLACES.len() {
            // The old side is asked just before.
            let mut last = OLD;
            for round in 0..8 {
                let mut seen = [false; 4];
                for turn in 0..4 {
                    let next = side(place, round, turn);
                    assert_ne!(next, last);
                    seen[next] = true;
                    last = next;
                }
                assert_eq!(seen, [true; 4]);
            }
        }
    }

    #[test]
    fn a_line_has_the_medians_of_its_tables() {
        let shape = Shape { rows: 5, m: 4, x: 1, frame: 4096 };
        let times = [[50e-6, 51e-6, 40e-6, 80e-6], [10e-6, 10e-6, 9e-6, 9e-6], [20e-6, 20e-6, 30e-6, 15e-6]];
        let said = "| judge, x 1 | 5 | 4 | 4096 | 20.0 | 30.0 | 0.90 | 1.00 | 15.0 | 1.00 |\n";
        assert_eq!(row(Call::Judge, shape, &times), said);
        assert!(summary(&times)
            .contains("- new / old: 0.80 to 1.50, median 0.90\n- old / old: 1.00 to 1.02, median 1.00\n"));
    }
}
