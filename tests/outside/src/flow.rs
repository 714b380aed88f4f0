//! An exact search for a valid schedule of one frame, by a maximal flow from jobs to slots.
//!
//! A schedule is valid when each job runs in exactly C different slots of its window, and at most m jobs run in a slot.

use crate::answers::Table;

/// One job: the row it is of, and the window and execution that it has.
#[derive(Clone, Debug)]
pub struct Job {
    pub row: usize,
    pub release: usize,
    pub end: usize,
    pub execution: usize,
}

/// All jobs of one frame.
pub fn jobs(table: &Table, frame: usize) -> Vec<Job> {
    let mut jobs = vec![];
    for (row, numbers) in table.counted().iter().enumerate() {
        for release in (0..frame).step_by(numbers.period as usize) {
            let end = release + numbers.deadline as usize;
            jobs.push(Job { row, release, end, execution: numbers.execution as usize });
        }
    }
    jobs
}

/// The flow: which jobs run in each slot.
struct Flow {
    jobs: Vec<Job>,
    runs: Vec<Vec<usize>>,
    m: usize,
}

impl Flow {
    /// Finds one more slot for the job, moving other jobs where that helps.
    fn place(&mut self, job: usize, seen: &mut [bool]) -> bool {
        for t in self.jobs[job].release..self.jobs[job].end {
            if seen[t] || self.runs[t].contains(&job) {
                continue;
            }
            seen[t] = true;
            if self.runs[t].len() < self.m {
                self.runs[t].push(job);
                return true;
            }
            for k in 0..self.runs[t].len() {
                let other = self.runs[t][k];
                if self.place(other, seen) {
                    // The other job got a slot more elsewhere, so it leaves this one.
                    self.runs[t][k] = job;
                    return true;
                }
            }
        }
        false
    }
}

/// A valid schedule, as the word of rows that run in each slot; None where there is none.
pub fn search(table: &Table, frame: usize) -> Option<Vec<u32>> {
    let mut flow = Flow { jobs: jobs(table, frame), runs: vec![vec![]; frame], m: table.m as usize };
    for job in 0..flow.jobs.len() {
        for _ in 0..flow.jobs[job].execution {
            if !flow.place(job, &mut vec![false; frame]) {
                return None;
            }
        }
    }
    let word = |slot: &Vec<usize>| slot.iter().map(|&job| 1 << flow.jobs[job].row).sum();
    Some(flow.runs.iter().map(word).collect())
}

/// Whether a schedule is valid, read off its words.
pub fn is_valid(table: &Table, frame: usize, schedule: &[u32]) -> bool {
    let runs = |row: usize, t: usize| schedule[t] >> row & 1 == 1;
    let full = jobs(table, frame)
        .iter()
        .all(|job| (job.release..job.end).filter(|&t| runs(job.row, t)).count() == job.execution);
    let outside_windows = (0..frame).any(|t| {
        table
            .counted()
            .iter()
            .enumerate()
            .any(|(i, row)| runs(i, t) && t % row.period as usize >= row.deadline as usize)
    });
    full && !outside_windows && schedule.iter().all(|word| word.count_ones() <= table.m as u32)
}
