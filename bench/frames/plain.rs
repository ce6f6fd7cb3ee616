//! The same work as `main.rattle`, over plain vectors. Each line that it writes is a name, nanoseconds and rows.

#[path = "../random.rs"]
mod random;

use random::{next, text_of};
use std::time::Instant;

const ROWS: usize = 1_000_000;
const PIECES: usize = 1_000;
const ROUNDS: usize = 9;

/// Values of one width, with marks beside them.
#[derive(Default)]
struct Fixed<T> {
    marks: Vec<bool>,
    values: Vec<T>,
}

impl<T: Copy> Fixed<T> {
    fn take(&self, rows: &[u32]) -> Fixed<T> {
        Fixed {
            marks: rows.iter().map(|&row| self.marks[row as usize]).collect(),
            values: rows.iter().map(|&row| self.values[row as usize]).collect(),
        }
    }

    fn slice(&self, from: usize, count: usize) -> Fixed<T> {
        Fixed {
            marks: self.marks[from..from + count].to_vec(),
            values: self.values[from..from + count].to_vec(),
        }
    }

    fn append(&mut self, other: &Fixed<T>) {
        self.marks.extend_from_slice(&other.marks);
        self.values.extend_from_slice(&other.values);
    }
}

/// Texts in one buffer, with their ends and marks beside it.
#[derive(Default)]
struct Texts {
    marks: Vec<bool>,
    bytes: Vec<u8>,
    ends: Vec<usize>,
}

impl Texts {
    fn push(&mut self, text: Option<&str>) {
        self.marks.push(text.is_some());
        self.bytes.extend_from_slice(text.unwrap_or("").as_bytes());
        self.ends.push(self.bytes.len());
    }

    fn start(&self, row: usize) -> usize {
        if row == 0 { 0 } else { self.ends[row - 1] }
    }

    fn piece(&self, row: usize) -> &[u8] {
        &self.bytes[self.start(row)..self.ends[row]]
    }

    // Summing the lengths first, to take memory once, is slower here: it reads the ends in random order twice.
    fn take(&self, rows: &[u32]) -> Texts {
        let marks = rows.iter().map(|&row| self.marks[row as usize]).collect();
        let mut bytes = Vec::new();
        let mut ends = Vec::with_capacity(rows.len());
        for &row in rows {
            bytes.extend_from_slice(self.piece(row as usize));
            ends.push(bytes.len());
        }
        Texts { marks, bytes, ends }
    }

    fn slice(&self, from: usize, count: usize) -> Texts {
        let start = self.start(from);
        let end = self.start(from + count);
        Texts {
            marks: self.marks[from..from + count].to_vec(),
            bytes: self.bytes[start..end].to_vec(),
            ends: self.ends[from..from + count].iter().map(|end| end - start).collect(),
        }
    }

    fn append(&mut self, other: &Texts) {
        let start = self.bytes.len();
        self.marks.extend_from_slice(&other.marks);
        self.bytes.extend_from_slice(&other.bytes);
        self.ends.extend(other.ends.iter().map(|end| start + end));
    }
}

#[derive(Default)]
struct Frame {
    numbers: Fixed<i64>,
    marks: Fixed<bool>,
    texts: Texts,
}

impl Frame {
    fn height(&self) -> usize {
        self.numbers.values.len()
    }

    fn take(&self, rows: &[u32]) -> Frame {
        Frame {
            numbers: self.numbers.take(rows),
            marks: self.marks.take(rows),
            texts: self.texts.take(rows),
        }
    }

    fn filter(&self, mask: &Fixed<bool>) -> Frame {
        let mut rows = Vec::new();
        for row in 0..self.height() {
            if mask.marks[row] && mask.values[row] {
                rows.push(row as u32);
            }
        }
        self.take(&rows)
    }

    fn slice(&self, from: usize, count: usize) -> Frame {
        Frame {
            numbers: self.numbers.slice(from, count),
            marks: self.marks.slice(from, count),
            texts: self.texts.slice(from, count),
        }
    }

    fn append(&mut self, other: &Frame) {
        self.numbers.append(&other.numbers);
        self.marks.append(&other.marks);
        self.texts.append(&other.texts);
    }
}

fn random_frame(height: usize) -> Frame {
    let mut frame = Frame::default();
    let mut state = 1;
    for i in 0..height {
        state = next(state);
        let x = state >> 40;
        frame.numbers.marks.push(x % 16 != 0);
        frame.numbers.values.push(if x % 16 == 0 { 0 } else { i as i64 });
        frame.marks.marks.push(true);
        frame.marks.values.push(x % 2 == 0);
        frame.texts.push(text_of(x));
    }
    frame
}

fn random_rows(count: usize, height: usize) -> Vec<u32> {
    let mut rows = Vec::with_capacity(count);
    let mut state = 2;
    for _ in 0..count {
        state = next(state);
        rows.push(((state >> 33) % height as u64) as u32);
    }
    rows
}

fn main() {
    let frame = random_frame(ROWS);
    for _ in 0..ROUNDS {
        let rows = random_rows(ROWS, frame.height());
        let start = Instant::now();
        let taken = frame.take(&rows);
        println!("take {} {}", start.elapsed().as_nanos(), taken.height());
        drop(taken);

        let start = Instant::now();
        let kept = frame.filter(&frame.marks);
        println!("filter {} {}", start.elapsed().as_nanos(), kept.height());
        drop(kept);

        let height = frame.height() / PIECES;
        let pieces: Vec<Frame> = (0..PIECES).map(|i| frame.slice(i * height, height)).collect();
        let mut stacked = Frame::default();
        let start = Instant::now();
        for piece in &pieces {
            stacked.append(piece);
        }
        println!("vstack_mut {} {}", start.elapsed().as_nanos(), stacked.height());
    }
}
