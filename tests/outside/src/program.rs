//! Tests of the shift check program: what it writes for files that come whole, in pieces, too long, or not at all.

use crate::draft::good_draft;
use crate::random::Random;
use crate::reference::text::program_text;
use crate::suite::WORKED;
use std::fs::File;
use std::io::Write;
use std::process::{Child, Command, Output, Stdio};
use std::sync::atomic::{AtomicUsize, Ordering::Relaxed};
use std::thread::sleep;
use std::time::{Duration, Instant};

/// The program under test, with words to give it.
pub struct Program {
    pub path: String,
    pub args: Vec<String>,
}

/// How the bytes reach the program.
#[derive(Clone, Copy, Debug)]
enum Way {
    Whole,
    FromFile,
    /// Pieces of so many bytes, with a pause after each.
    Pieces(usize),
}

impl Program {
    fn spawn(&self, input: Stdio) -> Result<Child, String> {
        let mut command = Command::new(&self.path);
        command.args(&self.args).stdin(input).stdout(Stdio::piped()).stderr(Stdio::piped());
        command.spawn().map_err(|error| format!("{} does not start: {error}", self.path))
    }

    /// Runs the program on these bytes.
    fn run(&self, file: &[u8], way: Way) -> Result<Output, String> {
        let failed = |error: std::io::Error| format!("running {}: {error}", self.path);
        if let Way::FromFile = way {
            let child = self.spawn(Stdio::from(written(file).map_err(failed)?))?;
            return child.wait_with_output().map_err(failed);
        }
        let mut child = self.spawn(Stdio::piped())?;
        let mut input = child.stdin.take().expect("its input is a pipe");
        let size = if let Way::Pieces(size) = way { size } else { file.len().max(1) };
        for piece in file.chunks(size) {
            // A program that has seen enough may close its input: that is no fault.
            if input.write_all(piece).and_then(|()| input.flush()).is_err() {
                break;
            }
            if let Way::Pieces(_) = way {
                sleep(Duration::from_millis(2));
            }
        }
        drop(input);
        child.wait_with_output().map_err(failed)
    }

    /// The program must write the reference's text, nothing to standard error, and end of itself.
    fn expect_text(&self, name: &str, file: &[u8], way: Way) -> Result<(), String> {
        let output = self.run(file, way)?;
        let (expected, got) = (program_text(file), String::from_utf8_lossy(&output.stdout).into_owned());
        let clean = output.stderr.is_empty() && output.status.code().is_some();
        if got == expected && clean {
            return Ok(());
        }
        let shown: String = file.iter().take(400).map(|byte| format!(" {byte:02X}")).collect();
        let wrong = String::from_utf8_lossy(&output.stderr).into_owned();
        Err(format!(
            "DIFFERENCE in {name}, {way:?}\ninput of {} bytes:{shown}\nexpected: {expected:?}\ngot:      {got:?}\nstderr:   {wrong:?}, {}",
            file.len(),
            output.status
        ))
    }

    /// A read error: no line on standard output, and a message on standard error.
    fn expect_message(&self, name: &str, redirection: &str) -> Result<(), String> {
        let script = format!("exec \"$0\" \"$@\" {redirection}");
        let mut command = Command::new("sh");
        command.arg("-c").arg(script).arg(&self.path).args(&self.args);
        let output = command.output().map_err(|error| format!("sh does not start: {error}"))?;
        if output.stdout.is_empty() && !output.stderr.is_empty() {
            return Ok(());
        }
        let texts = [output.stdout, output.stderr].map(|bytes| String::from_utf8_lossy(&bytes).into_owned());
        Err(format!(
            "DIFFERENCE in {name}\nexpected: no output and a message\ngot:      {:?}, {:?}, {}",
            texts[0], texts[1], output.status
        ))
    }
}

/// An open file of these bytes, which is gone when it is closed.
fn written(bytes: &[u8]) -> std::io::Result<File> {
    static COUNT: AtomicUsize = AtomicUsize::new(0);
    let name = format!("outside-{}-{}.tasks", std::process::id(), COUNT.fetch_add(1, Relaxed));
    let path = std::env::temp_dir().join(name);
    std::fs::write(&path, bytes)?;
    let file = File::open(&path);
    std::fs::remove_file(&path)?;
    file
}

/// A file of so many bytes: a table, and a note that takes the rest.
fn of_length(length: usize) -> Vec<u8> {
    use crate::draft::{Draft, Entry};
    let table = WORKED[16..].to_vec();
    let note = vec![5; length - 28 - table.len()];
    Draft::new(vec![Entry::new(1, 7, table), Entry::new(128, 8, note)]).bytes()
}

fn lengths(program: &Program) -> Result<u64, String> {
    let mut cases = 0;
    for way in [Way::Whole, Way::FromFile, Way::Pieces(4_000)] {
        for length in [60, 4_095, 4_096, 4_097, 65_534, 65_535, 65_536, 65_537, 131_072, 200_000] {
            program.expect_text("files of many lengths", &of_length(length), way)?;
            cases += 1;
        }
        for length in 0..5 {
            program.expect_text("short files", &WORKED[..length], way)?;
            cases += 1;
        }
    }
    Ok(cases)
}

fn pieces(program: &Program, random: &mut Random) -> Result<u64, String> {
    let mut cases = 0;
    for size in [1, 2, 3, 5, 7, 16, 37, 38] {
        program.expect_text("the worked file", &WORKED, Way::Pieces(size))?;
        let n = random.from_to(2, 5);
        program.expect_text("files in pieces", &good_draft(random, n).bytes(), Way::Pieces(size + 10))?;
        cases += 2;
    }
    Ok(cases)
}

fn read_errors(program: &Program) -> Result<u64, String> {
    program.expect_message("a closed descriptor", "<&-")?;
    program.expect_message("a folder as input", "</")?;
    Ok(2)
}

/// Random files, good and changed, whole.
fn random_files(program: &Program, random: &mut Random, seconds: f64) -> Result<u64, String> {
    let begin = Instant::now();
    let mut cases = 0;
    while begin.elapsed().as_secs_f64() < seconds {
        let n = if random.once_in(6) { random.from_to(1, 64) } else { random.from_to(1, 5) };
        let mut file = good_draft(random, n).bytes();
        program.expect_text("random files", &file, Way::Whole)?;
        let at = random.below(file.len());
        file[at] ^= 1 << random.below(8);
        program.expect_text("changed files", &file, Way::FromFile)?;
        cases += 2;
    }
    Ok(cases)
}

/// All tests of the program; tells the count of each group. With a seed, half of the random files are drawn from it.
pub fn run(program: &Program, seconds: f64, seed: Option<u64>, mut tell: impl FnMut(&str, u64)) -> Result<(), String> {
    let mut random = Random::new(38);
    program.expect_text("the worked file", &WORKED, Way::Whole)?;
    tell("program: lengths", lengths(program)?);
    tell("program: input in pieces", pieces(program, &mut random)?);
    tell("program: read errors", read_errors(program)?);
    let seconds = if seed.is_some() { seconds / 2.0 } else { seconds };
    tell("program: random files", random_files(program, &mut random, seconds)?);
    if let Some(seed) = seed {
        let cases = random_files(program, &mut Random::new(seed), seconds);
        let cases = cases.map_err(|difference| format!("{difference}\nseed:     {seed}"))?;
        tell("program: random files, of the seed", cases);
    }
    Ok(())
}
