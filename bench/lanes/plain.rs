//! Lanes by hand: threads claim the chunks of a frame of two columns from a counter; each keeps the rows of its chunk at
//! which the first column is below a number, makes a sum of both columns of them, and keeps those sums that are below 0,
//! which are none.
//! Each line that it writes is a name, nanoseconds, and how many rows came.

use std::sync::atomic::{AtomicUsize, Ordering};
use std::thread;
use std::time::Instant;

const ROWS: usize = 10_000_000;
const CHUNK: usize = 65_536;
const ROUNDS: usize = 5;

/// Numbers, and which of them are there.
struct Numbers {
    marks: Vec<bool>,
    values: Vec<i64>,
}

impl Numbers {
    fn slice(&self, from: usize, len: usize) -> Numbers {
        Numbers { marks: self.marks[from..from + len].to_vec(), values: self.values[from..from + len].to_vec() }
    }

    fn take(&self, rows: &[u32]) -> Numbers {
        Numbers {
            marks: rows.iter().map(|row| self.marks[*row as usize]).collect(),
            values: rows.iter().map(|row| self.values[*row as usize]).collect(),
        }
    }

    /// The rows at which it is below a number: first which they are, then their places.
    fn rows_below(&self, limit: i64) -> Vec<u32> {
        let kept: Vec<bool> = self.marks.iter().zip(&self.values).map(|(mark, x)| *mark && *x < limit).collect();
        (0..kept.len() as u32).filter(|row| kept[*row as usize]).collect()
    }

    fn plus(&self, other: &Numbers) -> Numbers {
        Numbers {
            marks: self.marks.iter().zip(&other.marks).map(|(a, b)| *a && *b).collect(),
            values: self.values.iter().zip(&other.values).map(|(a, b)| a.wrapping_add(*b)).collect(),
        }
    }
}

fn next(state: u64) -> u64 {
    state
        .wrapping_mul(6_364_136_223_846_793_005)
        .wrapping_add(1_442_695_040_888_963_407)
}

fn numbers(limit: u64, start: u64) -> Numbers {
    let mut state = start;
    let values = (0..ROWS)
        .map(|_| {
            state = next(state);
            ((state >> 33) % limit) as i64
        })
        .collect();
    Numbers { marks: vec![true; ROWS], values }
}

/// How many rows come of the chunk from a row on.
fn come_of(frame: &[Numbers; 2], from: usize) -> usize {
    let len = CHUNK.min(ROWS - from);
    let chunk = [frame[0].slice(from, len), frame[1].slice(from, len)];
    let rows = chunk[0].rows_below(500);
    let sums = chunk[0].take(&rows).plus(&chunk[1].take(&rows));
    let none = sums.rows_below(0);
    sums.take(&none).values.len()
}

fn lanes(frame: &[Numbers; 2], count: usize) -> usize {
    let claimed = AtomicUsize::new(0);
    thread::scope(|scope| {
        let lanes: Vec<_> = (0..count)
            .map(|_| {
                scope.spawn(|| {
                    let mut rows = 0;
                    loop {
                        let from = claimed.fetch_add(1, Ordering::SeqCst) * CHUNK;
                        if from >= ROWS {
                            return rows;
                        }
                        rows += come_of(frame, from);
                    }
                })
            })
            .collect();
        lanes.into_iter().map(|lane| lane.join().unwrap_or(0)).sum()
    })
}

fn main() {
    let frame = [numbers(1000, 1), numbers(1000, 2)];
    for count in [1, 2, 4] {
        for _ in 0..ROUNDS {
            let start = Instant::now();
            let rows = lanes(&frame, count);
            println!("{count} lanes {} {rows}", start.elapsed().as_nanos());
        }
    }
}
