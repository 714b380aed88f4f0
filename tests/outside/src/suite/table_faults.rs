//! Every refusal of a table at every bound, alone and two at once in either order.

use crate::answers::{Given, Row, Table};
use crate::compare;
use crate::run::{Outcome, Run};

/// A change of one field, at a bound or past it.
#[derive(Clone, Copy, Debug)]
enum Fault {
    Processors(u16),
    Depth(u16),
    Count(u16),
    Period(usize, u16),
    Deadline(usize, u16),
    Execution(usize, u16),
    /// D one past T, and C one past D, whatever these are.
    DeadlinePast(usize),
    ExecutionPast(usize),
    /// A good row whose period takes the frame over 4,096.
    LongFrame(usize),
    /// A row with every number at its upper bound.
    FullRow(usize),
}

impl Fault {
    fn apply(self, table: &mut Table) {
        match self {
            Fault::Processors(m) => table.m = m,
            Fault::Depth(x) => table.x = x,
            Fault::Count(count) => table.count = count,
            Fault::Period(i, period) => table.rows[i].period = period,
            Fault::Deadline(i, deadline) => table.rows[i].deadline = deadline,
            Fault::Execution(i, execution) => table.rows[i].execution = execution,
            Fault::DeadlinePast(i) => table.rows[i].deadline = table.rows[i].period.wrapping_add(1),
            Fault::ExecutionPast(i) => table.rows[i].execution = table.rows[i].deadline.wrapping_add(1),
            Fault::LongFrame(i) => table.rows[i] = Row { period: 4095, execution: 1, deadline: 1 },
            Fault::FullRow(i) => table.rows[i] = Row { period: 4096, execution: 4096, deadline: 4096 },
        }
    }
}

fn faults(rows: &[usize]) -> Vec<Fault> {
    let mut list = vec![];
    list.extend([0, 1, 16, 17, 255, 259].map(Fault::Processors));
    list.extend([0, 1, 8, 9, 255, 257].map(Fault::Depth));
    list.extend([0, 1, 32, 33, 34, 255, 258, 288].map(Fault::Count));
    for &i in rows {
        list.extend([0, 1, 4096, 4097, 65_535].map(|period| Fault::Period(i, period)));
        list.extend([0, 1, 65_535].map(|deadline| Fault::Deadline(i, deadline)));
        list.extend([0, 1, 65_535].map(|execution| Fault::Execution(i, execution)));
        list.extend([Fault::DeadlinePast(i), Fault::ExecutionPast(i), Fault::LongFrame(i), Fault::FullRow(i)]);
    }
    list
}

/// Every function that takes a table, on this one.
fn everything(run: &mut Run, given: &Given) -> Outcome {
    let checked = compare::check(run, given)?;
    run.tally(if checked.refusal.no == 0 { "good" } else { "refused" });
    let table = given.table();
    compare::check_list(run, table.m, table.x, &table.rows[..32.min(table.count as usize)])?;
    let lists = if checked.frame > 64 { (0, 0) } else { (64, 64) };
    compare::judge(run, given, lists)?;
    compare::ladder(run, given, lists)?;
    for row in [Row { period: 2, execution: 1, deadline: 2 }, Row { period: 4096, execution: 0, deadline: 0 }] {
        compare::add(run, given, row)?;
    }
    for index in [0, 1, table.count as u32, 255, 256, 300, 65_536, u32::MAX] {
        compare::remove(run, given, index)?;
    }
    let file = [1, 0, 1, 0, 128, 0, 5, 0, 16, 0, 0, 0, 0, 0, 0, 0];
    for (number, length) in [(5, 300), (6, 300), (6, 3)] {
        compare::put(run, &file, number, given, length)?;
    }
    Ok(())
}

pub fn pairs(run: &mut Run) -> Outcome {
    let few = Table::of(2, 2, &[(2, 1, 1), (3, 2, 2), (4, 2, 3)]);
    let full = Table::of(16, 8, &[(4, 1, 2); 32]);
    for (base, rows) in [(few, vec![0, 1, 2, 3]), (full, vec![0, 30, 31])] {
        let faults = faults(&rows);
        for first in &faults {
            for second in &faults {
                let mut table = base;
                first.apply(&mut table);
                second.apply(&mut table);
                everything(run, &Given::from_table(&table))?;
            }
        }
    }
    Ok(())
}

/// Every number of a table and every index with bits that 8 or 16 bits do not hold, over lower bits that are in range.
pub fn wide(run: &mut Run) -> Outcome {
    let few = Table::of(2, 2, &[(2, 1, 1), (3, 2, 2), (4, 2, 3)]);
    let full = Table::of(16, 8, &[(4, 1, 2); 32]);
    for base in [few, full] {
        for upper in [256, 512, 4096, 32_768, 65_280] {
            let faults = [
                Fault::Processors(base.m + upper),
                Fault::Depth(base.x + upper),
                Fault::Count(base.count + upper),
                Fault::Period(2, base.rows[2].period + upper),
                Fault::Deadline(2, base.rows[2].deadline + upper),
                Fault::Execution(2, base.rows[2].execution + upper),
            ];
            for fault in faults {
                let mut table = base;
                fault.apply(&mut table);
                everything(run, &Given::from_table(&table))?;
            }
        }
        for low in 0..=base.count as u32 {
            for upper in [0, 1 << 8, 1 << 9, 1 << 15, 1 << 16, 1 << 17, 1 << 24, 1 << 31, u32::MAX - 255] {
                compare::remove(run, &Given::from_table(&base), low | upper)?;
            }
        }
    }
    for number in [259, 300, 4_660, 65_535] {
        everything(run, &Given([number; 99]))?;
    }
    Ok(())
}

/// Something past the count: good rows, bad rows and zeros, of which none matters. Only a refused add or remove gives it back.
pub fn past_the_count(run: &mut Run) -> Outcome {
    for count in [0, 1, 2, 31, 32, 33, 255, 256, 258, 65_535] {
        for used in 0..=32 {
            for rest in [0, 1, 3, 4_097, 65_535] {
                let mut table = Table { m: 2, x: 3, count, ..Table::default() };
                table.rows[..used].fill(Row { period: 4, execution: 2, deadline: 2 });
                table.rows[used..].fill(Row { period: rest, execution: rest, deadline: rest });
                everything(run, &Given::from_table(&table))?;
            }
        }
    }
    Ok(())
}
