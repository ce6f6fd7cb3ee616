//! The same operators over plain vectors, chunk by chunk. A column is marks and values. An operator's answers alone are
//! timed, and a chunk that goes through it stays as it is.
//! Each line that it writes is a name, nanoseconds, and a number that the cells of the answers make.

use std::time::Instant;

const ROWS: usize = 1_000_000;
const CHUNK: usize = 20_000;
const ROUNDS: usize = 5;

/// Numbers, and which of them are there.
#[derive(Clone, Default)]
struct Numbers {
    marks: Vec<bool>,
    values: Vec<i64>,
}

/// The bytes of all texts, where each ends, and which of them are there.
#[derive(Default)]
struct Texts {
    marks: Vec<bool>,
    bytes: Vec<u8>,
    ends: Vec<usize>,
}

impl Numbers {
    fn slice(&self, from: usize, len: usize) -> Numbers {
        Numbers { marks: self.marks[from..from + len].to_vec(), values: self.values[from..from + len].to_vec() }
    }

    fn take(&self, rows: &[u32]) -> Numbers {
        Numbers {
            marks: rows.iter().map(|row| self.marks[*row as usize]).collect(),
            values: rows.iter().map(|row| self.values[*row as usize]).collect(),
        }
    }

    fn plus(&self, other: &Numbers) -> Numbers {
        Numbers {
            marks: self.marks.iter().zip(&other.marks).map(|(a, b)| *a && *b).collect(),
            values: self.values.iter().zip(&other.values).map(|(a, b)| a.wrapping_add(*b)).collect(),
        }
    }

    fn sum(&self) -> u64 {
        self.marks.iter().zip(&self.values).filter(|(mark, _)| **mark).fold(0, |sum, (_, x)| sum.wrapping_add(*x as u64))
    }
}

impl Texts {
    fn push(&mut self, text: &str) {
        self.marks.push(true);
        self.bytes.extend_from_slice(text.as_bytes());
        self.ends.push(self.bytes.len());
    }

    fn sum(&self) -> u64 {
        self.bytes.iter().fold(0, |sum, byte| sum.wrapping_add(u64::from(*byte)))
    }
}

fn next(state: u64) -> u64 {
    state
        .wrapping_mul(6_364_136_223_846_793_005)
        .wrapping_add(1_442_695_040_888_963_407)
}

fn numbers(limit: u64, start: u64, height: usize) -> Numbers {
    let mut state = start;
    let values = (0..height)
        .map(|_| {
            state = next(state);
            ((state >> 33) % limit) as i64
        })
        .collect();
    Numbers { marks: vec![true; height], values }
}

fn chunks(frame: &[Numbers]) -> impl Iterator<Item = Vec<Numbers>> + '_ {
    (0..ROWS).step_by(CHUNK).map(move |from| {
        let len = CHUNK.min(ROWS - from);
        frame.iter().map(|column| column.slice(from, len)).collect()
    })
}

/// What a frame of numbers makes, whatever the order of its rows.
fn cells_of(columns: &[Numbers]) -> u64 {
    let mut sum = columns.first().map_or(0, |column| column.values.len()) as u64;
    let mut factor: u64 = 1;
    for column in columns {
        sum = sum.wrapping_add(column.sum().wrapping_mul(factor));
        factor = factor.wrapping_add(2);
    }
    sum
}

/// The rows at which the first column is below a number: first which they are, then column by column.
fn filtered(chunk: &[Numbers]) -> Vec<Numbers> {
    let kept = Numbers {
        marks: chunk[0].marks.clone(),
        values: chunk[0].values.iter().map(|k| i64::from(*k < 500)).collect(),
    };
    let rows: Vec<u32> = (0..kept.marks.len() as u32)
        .filter(|row| kept.marks[*row as usize] && kept.values[*row as usize] == 1)
        .collect();
    chunk.iter().map(|column| column.take(&rows)).collect()
}

fn sums(chunk: &[Numbers]) -> Vec<Numbers> {
    vec![chunk[0].plus(&chunk[1]), chunk[1].plus(&chunk[2]), chunk[2].plus(&chunk[3])]
}

fn extended(chunk: &[Numbers]) -> Vec<Numbers> {
    let mut columns = chunk.to_vec();
    columns.extend(sums(chunk));
    columns
}

/// Four columns, row by row one under another, beside their names.
fn unpivoted(chunk: &[Numbers]) -> (Texts, Numbers) {
    let height = chunk[0].values.len();
    let mut variable = Texts::default();
    let mut value = Numbers { marks: Vec::with_capacity(4 * height), values: Vec::with_capacity(4 * height) };
    for row in 0..height {
        for (name, column) in ["k", "a", "b", "c"].iter().zip(chunk) {
            variable.push(name);
            value.marks.push(column.marks[row]);
            value.values.push(column.values[row]);
        }
    }
    (variable, value)
}

fn time<A>(name: &str, frame: &[Numbers], operator: impl Fn(&[Numbers]) -> A, cells: impl Fn(&A) -> u64) {
    for _ in 0..ROUNDS {
        let (mut nanoseconds, mut sum) = (0, 0u64);
        for chunk in chunks(frame) {
            let start = Instant::now();
            let made = operator(&chunk);
            nanoseconds += start.elapsed().as_nanos();
            sum = sum.wrapping_add(cells(&made));
        }
        println!("{name} {nanoseconds} {sum}");
    }
}

/// What names and numbers beside them make, whatever the order of their rows.
fn named_cells((variable, value): &(Texts, Numbers)) -> u64 {
    (value.values.len() as u64).wrapping_add(variable.sum()).wrapping_add(value.sum().wrapping_mul(3))
}

fn main() {
    let frame: Vec<Numbers> = (1..5).map(|start| numbers(1000, start, ROWS)).collect();
    time("filter that keeps half", &frame, filtered, |made| cells_of(made));
    time("projection of three sums", &frame, sums, |made| cells_of(made));
    time("extension by three sums", &frame, extended, |made| cells_of(made));
    time("unpivot of four columns", &frame, unpivoted, named_cells);
}
