//! Measures judge and ladder in one run on the same tables: the static library, plain Rust and the literal algorithm, or the
//! static library, that of an earlier commit and plain Rust.

mod against;
mod agree;
mod clock;
mod draw;
mod fast;
mod literal;
mod measure;
mod report;
#[cfg(test)]
#[path = "../server/serve.rs"]
mod serve;
mod tree;
mod wire;

use agree::agree;
use draw::{is_undecided, table, Shape, TRIES};
use measure::{median, times, Contender, Lists};
use outside::answers::Given;
use report::{line, micro, ratio};
use std::path::PathBuf;
use std::process::ExitCode;
use tree::Failure;
use wire::Call;

const USAGE: &str = "usage: bench [--quick] [--write FILE]
       bench [--quick] --root FOLDER --against COMMIT
--quick           fewer tables and samples
--write FILE      puts the result between the marker lines of FILE
--against COMMIT  measures the library of the tree at FOLDER against that of an earlier commit";

/// How much is measured.
struct Plan {
    seeds: u64,
    samples: usize,
}

fn contenders() -> Vec<Contender> {
    let fast =
        Contender { name: "plain Rust", judge: fast::judge::<false>, ladder: fast::ladder::<false>, sample: 0.002 };
    let windows =
        Contender { name: "by windows", judge: fast::judge::<true>, ladder: fast::ladder::<true>, sample: 0.002 };
    let literal = Contender { name: "literal", judge: literal::judge, ladder: literal::ladder, sample: 0.0 };
    #[cfg(feature = "library")]
    {
        use outside::{library::Library, subject::Subject};
        let judge = |table: &Given, map: &mut [u32], pins: &mut [u32]| Library::default().judge(table, map, pins);
        let ladder = |table: &Given, map: &mut [u32], pins: &mut [u32]| Library::default().ladder(table, map, pins);
        let library = Contender { name: "library", judge, ladder, sample: 0.002 };
        return vec![library, fast, windows, literal];
    }
    #[cfg(not(feature = "library"))]
    vec![fast, windows, literal]
}

/// Measures one shape: a line with the times, and the ratios of each contender to plain Rust, medians over the tables.
fn measure(plan: &Plan, contenders: &[Contender], what: Call, shape: Shape) -> Result<String, String> {
    let drawn: Vec<(Given, usize)> = (1..=plan.seeds).map(|seed| table(shape, seed)).collect();
    let deepest = if what == Call::Judge { shape.x } else { 8 };
    let depths: Vec<String> = drawn.iter().map(|(_, depths)| (depths + 1).min(deepest).to_string()).collect();
    let undecided = drawn.iter().filter(|(table, _)| is_undecided(table)).count();
    let tables: Vec<Given> = drawn.into_iter().map(|(table, _)| table).collect();
    for table in &tables {
        agree(contenders, table, shape.frame)?;
    }
    let mut lists = Lists::new(shape.frame);
    let medians = times(contenders, what, &tables, &mut lists, plan.samples);
    let plain = contenders.iter().position(|contender| contender.name == "plain Rust").expect("it is listed");
    let name = if what == Call::Judge { format!("judge, x {}", shape.x) } else { "ladder".into() };
    let mut cells = vec![
        name,
        shape.rows.to_string(),
        shape.m.to_string(),
        shape.frame.to_string(),
        depths.join(" "),
        undecided.to_string(),
    ];
    for times in &medians {
        cells.push(micro(median(times.clone())));
    }
    for (_, times) in medians.iter().enumerate().filter(|(k, _)| *k != plain) {
        cells.push(ratio(median(times.iter().zip(&medians[plain]).map(|(a, b)| a / b).collect())));
    }
    Ok(line(&cells))
}

fn heading(contenders: &[Contender]) -> String {
    let mut cells: Vec<String> = ["call", "rows", "m", "H", "depths", "undecided"].map(String::from).to_vec();
    cells.extend(contenders.iter().map(|contender| format!("{} µs", contender.name)));
    cells.extend(contenders.iter().filter(|one| one.name != "plain Rust").map(|one| format!("{} / plain", one.name)));
    let rule = vec!["---".to_string(); cells.len()];
    line(&cells) + &line(&rule)
}

/// The shapes that are asked for, at the longest frame.
fn full_frames() -> Vec<(Call, Shape)> {
    let shapes = [(5, 4, 1), (25, 8, 8), (32, 16, 8), (32, 2, 8)];
    let both = shapes.map(|(rows, m, x)| {
        let shape = Shape { rows, m, x, frame: 4096 };
        [(Call::Judge, shape), (Call::Ladder, shape)]
    });
    both.concat()
}

fn growing_frames() -> Vec<(Call, Shape)> {
    (6..=12).map(|k| (Call::Judge, Shape { rows: 16, m: 8, x: 8, frame: 1 << k })).collect()
}

fn growing_rows() -> Vec<(Call, Shape)> {
    let rows = [1, 2, 4, 8, 12, 16, 20, 24, 28, 32];
    rows.iter().map(|&rows| (Call::Judge, Shape { rows, m: rows.div_ceil(2), x: 8, frame: 4096 })).collect()
}

fn parts() -> Vec<(&'static str, Vec<(Call, Shape)>)> {
    vec![
        ("Full frames", full_frames()),
        ("Growth with the frame", growing_frames()),
        ("Growth with the rows", growing_rows()),
    ]
}

fn run(plan: &Plan) -> Result<String, String> {
    let contenders = contenders();
    let mut text = format!(
        "Measured on {} with {} tables a line (each the best of {TRIES} draws), {} samples a table; medians. The lists were not\n\
         cleared before a call. `depths` is each table's deepest depth whose map differs from the one before, `undecided` how many\n\
         tables are undecided at depth 8.\n",
        std::env::consts::ARCH, plan.seeds, plan.samples
    );
    for (name, shapes) in parts() {
        let head = format!("\n### {name}\n\n{}", heading(&contenders));
        print!("{head}");
        text += &head;
        for (what, shape) in shapes {
            let line = measure(plan, &contenders, what, shape)?;
            print!("{line}");
            text += &line;
        }
    }
    Ok(text + "\n")
}

/// What the words ask for.
#[derive(Debug, PartialEq, Eq)]
enum Wanted {
    Measured { quick: bool, write: Option<PathBuf> },
    Against { quick: bool, root: PathBuf, commit: String },
}

fn wanted(mut words: impl Iterator<Item = String>) -> Option<Wanted> {
    let (mut quick, mut write, mut root, mut commit) = (false, None, None, None);
    while let Some(word) = words.next() {
        match word.as_str() {
            "--quick" => quick = true,
            "--write" => write = Some(words.next()?.into()),
            "--root" => root = Some(words.next()?.into()),
            "--against" => commit = Some(words.next()?),
            _ => return None,
        }
    }
    match (write, root, commit) {
        (write, None, None) => Some(Wanted::Measured { quick, write }),
        (None, Some(root), Some(commit)) => Some(Wanted::Against { quick, root, commit }),
        _ => None,
    }
}

fn done(wanted: Wanted) -> Result<(), Failure> {
    match wanted {
        Wanted::Measured { quick, write } => {
            let (seeds, samples) = if quick { (2, 3) } else { (5, 7) };
            let text = run(&Plan { seeds, samples })?;
            Ok(write.map_or(Ok(()), |path| report::write_between(&path, &text))?)
        }
        Wanted::Against { quick, root, commit } => {
            let (seeds, samples) = if quick { (2, 3) } else { (5, 3) };
            let parts = parts().into_iter().take(if quick { 1 } else { 3 }).collect();
            against::run(&root, &commit, &against::Plan { seeds, samples, parts })
        }
    }
}

fn main() -> ExitCode {
    let Some(wanted) = wanted(std::env::args().skip(1)) else {
        eprintln!("{USAGE}");
        return ExitCode::from(2);
    };
    let (message, status) = match done(wanted) {
        Ok(()) => return ExitCode::SUCCESS,
        Err(Failure::Commit(message)) => (message, 2),
        Err(Failure::Other(message)) => (message, 1),
    };
    eprintln!("bench: {message}");
    ExitCode::from(status)
}

#[cfg(test)]
mod tests {
    use super::*;

    #[test]
    fn the_words_say_what_is_wanted() {
        let wanted = |words: &str| wanted(words.split_whitespace().map(String::from));
        assert_eq!(wanted(""), Some(Wanted::Measured { quick: false, write: None }));
        let written = Some(Wanted::Measured { quick: true, write: Some("FILE".into()) });
        assert_eq!(wanted("--write FILE --quick"), written);
        let against = Some(Wanted::Against { quick: true, root: "ROOT".into(), commit: "COMMIT".into() });
        assert_eq!(wanted("--root ROOT --quick --against COMMIT"), against);
        assert_eq!(wanted("--root ROOT --against COMMIT --quick"), against);
        let others = ["--root ROOT --against", "--against COMMIT", "--root ROOT", "--write", "--slow", "COMMIT"];
        for words in others.into_iter().chain(["--root ROOT --against COMMIT --write FILE"]) {
            assert_eq!(wanted(words), None, "{words}");
        }
    }
}
