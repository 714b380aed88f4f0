//! A table as a value, and the answer of each function as plain numbers.

/// The numbers of a refusal; all are 0 where nothing is refused.
#[derive(Clone, Copy, Debug, Default, PartialEq, Eq)]
pub struct Refusal {
    pub no: u32,
    pub entry: u32,
    pub row: u32,
}

/// One row (T, C, D).
#[derive(Clone, Copy, Debug, Default, PartialEq, Eq)]
pub struct Row {
    pub period: u16,
    pub execution: u16,
    pub deadline: u16,
}

/// "processors m, depth x, a row count, and room for 32 rows (T, C, D)"
#[derive(Clone, Copy, Debug, Default, PartialEq, Eq)]
pub struct Table {
    pub m: u16,
    pub x: u16,
    pub count: u16,
    pub rows: [Row; 32],
}

/// What the check of a table answers.
#[derive(Clone, Copy, Debug, Default, PartialEq, Eq)]
pub struct Checked {
    pub refusal: Refusal,
    pub frame: u32,
}

/// What the judge answers.
#[derive(Clone, Copy, Debug, Default, PartialEq, Eq)]
pub struct Judged {
    pub refusal: Refusal,
    pub t: u32,
    pub work: u32,
    pub supply: u32,
    pub frame: u32,
}

/// What the ladder answers: a line (t, work, supply) for each depth from 1 to 8.
#[derive(Clone, Copy, Debug, Default, PartialEq, Eq)]
pub struct Ladder {
    pub refusal: Refusal,
    pub square: [[u32; 3]; 8],
}

/// What add, remove and find answer.
#[derive(Clone, Copy, Debug, Default, PartialEq, Eq)]
pub struct Tabled {
    pub refusal: Refusal,
    pub table: Table,
}

/// What the file's check answers.
#[derive(Clone, Copy, Debug, Default, PartialEq, Eq)]
pub struct Filed {
    pub refusal: Refusal,
    pub entries: u32,
}

/// What put answers.
#[derive(Clone, Copy, Debug, Default, PartialEq, Eq)]
pub struct Written {
    pub refusal: Refusal,
    pub length: u32,
}

impl Refusal {
    pub fn numbers(&self) -> [u32; 3] {
        [self.no, self.entry, self.row]
    }
}

impl Judged {
    /// The refusal's numbers, t, work, supply, frame.
    pub fn numbers(&self) -> [u32; 7] {
        let [no, entry, row] = self.refusal.numbers();
        [no, entry, row, self.t, self.work, self.supply, self.frame]
    }
}

impl Ladder {
    /// The refusal's numbers, then the lines of the square.
    pub fn numbers(&self) -> [u32; 27] {
        let refusal = self.refusal.numbers();
        std::array::from_fn(|k| if k < 3 { refusal[k] } else { self.square[k / 3 - 1][k % 3] })
    }
}

impl Table {
    /// A table of the given rows (T, C, D), zeros past them; there is room for 32, whatever the count.
    pub fn of(m: u16, x: u16, rows: &[(u16, u16, u16)]) -> Table {
        let mut table = Table { m, x, count: rows.len() as u16, ..Table::default() };
        for (row, &(period, execution, deadline)) in table.rows.iter_mut().zip(rows) {
            *row = Row { period, execution, deadline };
        }
        table
    }

    /// The rows that count.
    pub fn counted(&self) -> &[Row] {
        &self.rows[..self.count as usize]
    }
}

/// A table as a caller lends it, always whole: m, x, count, then T, C, D of 32 rows.
#[derive(Clone, Copy, Debug, PartialEq, Eq)]
pub struct Given(pub [u16; 99]);

impl Given {
    pub fn table(&self) -> Table {
        let row =
            |i: usize| Row { period: self.0[3 + 3 * i], execution: self.0[4 + 3 * i], deadline: self.0[5 + 3 * i] };
        Table { m: self.0[0], x: self.0[1], count: self.0[2], rows: std::array::from_fn(row) }
    }

    /// All 99 numbers of a table, whatever its count.
    pub fn from_table(table: &Table) -> Given {
        let mut numbers = [table.m; 99];
        numbers[1] = table.x;
        numbers[2] = table.count;
        for (i, row) in table.rows.iter().enumerate() {
            numbers[3 + 3 * i] = row.period;
            numbers[4 + 3 * i] = row.execution;
            numbers[5 + 3 * i] = row.deadline;
        }
        Given(numbers)
    }
}
