//! Runs the comparison suite against the static library, the crate over it, the reference or a wrong variant, and tests the
//! program.

use outside::program::{self, Program};
use outside::random::new_seed;
use outside::reference::Reference;
use outside::subject::Subject;
use outside::suite::{self, Plan, Report};
use outside::wrong::{turns, Wrong};
use std::process::ExitCode;

const USAGE: &str =
    "usage: outside [--library] [--crate] [--reference | --wrong NAME | --wrongs] [--shift PATH [WORD..]]
               [--seconds N | --long] [--seed N] [--only GROUP]
--library    hold the static library to the reference (built with the feature `library`)
--crate      hold the functions of the Rust crate to it; beside --library it gets a fifth of the seconds
--reference  hold the reference to itself, which shows only that the suite runs
--wrong NAME hold a wrong variant to it; --wrongs lists their names
--shift PATH test the program at PATH (also: SHIFT_PROGRAM); the words after it are given to it
--seconds N  seconds for the random inputs (default 45; also: OUTSIDE_SECONDS); --long: 900
--seed N     draws what a run drew that printed this seed (also: OUTSIDE_SEED); without it each run has a new one
--only GROUP runs one group of the suite alone";

struct Wanted {
    subjects: Vec<(&'static str, Box<dyn Subject>)>,
    program: Option<Program>,
    plan: Plan,
}

#[cfg(feature = "library")]
fn library() -> Result<Box<dyn Subject>, String> {
    Ok(Box::new(outside::library::Library::default()))
}

#[cfg(feature = "library")]
fn safe() -> Result<Box<dyn Subject>, String> {
    Ok(Box::new(outside::safe::Safe))
}

#[cfg(not(feature = "library"))]
fn library() -> Result<Box<dyn Subject>, String> {
    Err("this was built without the static library: build it with --features library".into())
}

#[cfg(not(feature = "library"))]
fn safe() -> Result<Box<dyn Subject>, String> {
    library()
}

fn variant(name: &str) -> Result<Box<dyn Subject>, String> {
    match turns().into_iter().find(|turn| *turn == name) {
        Some(turn) => Ok(Box::new(Wrong(turn))),
        None => Err(format!("no wrong variant is named {name:?}")),
    }
}

fn seconds(text: &str) -> Result<f64, String> {
    text.parse().ok().filter(|seconds| (0.0..1e6).contains(seconds)).ok_or(format!("{text:?} is no number of seconds"))
}

fn seed(text: &str) -> Result<u64, String> {
    text.parse().map_err(|_| format!("{text:?} is no seed"))
}

fn group(name: String) -> Result<String, String> {
    let names = suite::names();
    let listed = || format!("no group is named {name:?}; there are {names:?}");
    names.contains(&&*name).then_some(()).ok_or_else(listed)?;
    Ok(name)
}

fn wanted() -> Result<Wanted, String> {
    let plan = Plan { seconds: 45.0, seed: Some(new_seed()), only: None };
    let mut wanted = Wanted { subjects: vec![], program: None, plan };
    if let Ok(text) = std::env::var("OUTSIDE_SECONDS") {
        wanted.plan.seconds = seconds(&text)?;
    }
    if let Ok(text) = std::env::var("OUTSIDE_SEED") {
        wanted.plan.seed = Some(seed(&text)?);
    }
    if let Ok(path) = std::env::var("SHIFT_PROGRAM") {
        wanted.program = Some(Program { path, args: vec![] });
    }
    let mut words = std::env::args().skip(1).peekable();
    while let Some(word) = words.next() {
        let mut value = || words.next().ok_or(format!("{word} needs a word after it"));
        match word.as_str() {
            "--library" => wanted.subjects.push(("the static library", library()?)),
            "--crate" => wanted.subjects.push(("the Rust crate", safe()?)),
            "--reference" => wanted.subjects.push(("the reference", Box::new(Reference))),
            "--wrong" => wanted.subjects.push(("a wrong variant", variant(&value()?)?)),
            "--seconds" => wanted.plan.seconds = seconds(&value()?)?,
            "--long" => wanted.plan.seconds = 900.0,
            "--seed" => wanted.plan.seed = Some(seed(&value()?)?),
            "--only" => wanted.plan.only = Some(group(value()?)?),
            "--shift" => {
                let path = value()?;
                let mut args = vec![];
                while let Some(arg) = words.next_if(|word| !word.starts_with("--")) {
                    args.push(arg);
                }
                wanted.program = Some(Program { path, args });
            }
            _ => return Err(USAGE.into()),
        }
    }
    if wanted.subjects.is_empty() && wanted.program.is_none() {
        return Err(USAGE.into());
    }
    Ok(wanted)
}

fn tell(report: &Report) {
    let of_the_seed = if report.seeded { ", of the seed" } else { "" };
    let name = format!("{}{of_the_seed}", report.name);
    println!("{name:48} {:>10} cases {:>7.1} s", report.cases, report.seconds);
    for (what, count) in &report.tallies {
        println!("    {what:44} {count:>10}");
    }
}

fn run(wanted: &Wanted) -> Result<u64, String> {
    let mut all = 0;
    // The program gets a tenth of the seconds, and of several subjects each but the first a fifth.
    let for_program = if wanted.program.is_some() { 0.1 } else { 0.0 };
    let for_others = 0.2 * wanted.subjects.len().saturating_sub(1) as f64;
    for (k, (name, subject)) in wanted.subjects.iter().enumerate() {
        println!("== {name}");
        let share = if k == 0 { 1.0 - for_program - for_others } else { 0.2 };
        let plan = Plan { seconds: wanted.plan.seconds * share.max(0.0), ..wanted.plan.clone() };
        suite::run(subject.as_ref(), &plan, |report| {
            tell(report);
            all += report.cases;
        })
        .map_err(|difference| difference.to_string())?;
    }
    if let Some(program) = &wanted.program {
        println!("== the program");
        program::run(program, wanted.plan.seconds * for_program, wanted.plan.seed, |name, cases| {
            println!("{name:48} {cases:>10} cases");
            all += cases;
        })?;
    }
    Ok(all)
}

fn main() -> ExitCode {
    if std::env::args().any(|word| word == "--wrongs") {
        turns().iter().for_each(|turn| println!("{turn}"));
        return ExitCode::SUCCESS;
    }
    let wanted = match wanted() {
        Ok(wanted) => wanted,
        Err(message) => {
            eprintln!("{message}");
            return ExitCode::from(2);
        }
    };
    if let Some(seed) = wanted.plan.seed {
        println!("seed {seed}: --seed {seed} draws the same again");
    }
    match run(&wanted) {
        Ok(cases) => {
            println!("no difference in {cases} cases");
            ExitCode::SUCCESS
        }
        Err(message) => {
            eprintln!("{message}");
            ExitCode::FAILURE
        }
    }
}
