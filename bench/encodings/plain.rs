//! The same work as `main.rattle`, over plain vectors, column by column into one buffer that is sized first.
//! Each line that it writes is a name, nanoseconds, and a byte count.

#[path = "../random.rs"]
mod random;

use random::{next, text_of};
use std::time::Instant;

const ROWS: usize = 1_000_000;
const ROUNDS: usize = 9;
const TOP_BIT: u64 = 1 << 63;

/// Values of 64 bits, with marks beside them.
#[derive(Default)]
struct Numbers {
    marks: Vec<bool>,
    values: Vec<i64>,
}

/// Texts in one buffer, with their ends and marks beside it.
#[derive(Default)]
struct Texts {
    marks: Vec<bool>,
    bytes: Vec<u8>,
    ends: Vec<usize>,
}

impl Texts {
    fn get(&self, row: usize) -> Option<&[u8]> {
        let start = if row == 0 { 0 } else { self.ends[row - 1] };
        self.marks[row].then(|| &self.bytes[start..self.ends[row]])
    }
}

enum Column {
    Numbers(Numbers),
    Texts(Texts),
}

impl Column {
    fn len(&self) -> usize {
        match self {
            Column::Numbers(column) => column.marks.len(),
            Column::Texts(column) => column.marks.len(),
        }
    }
}

/// How wide a text is where each byte 0 gets another and two stand at the end.
fn ended_len(text: &[u8]) -> usize {
    text.len() + text.iter().filter(|byte| **byte == 0).count() + 2
}

/// Adds each row's width.
fn add_widths(column: &Column, ordered: bool, ends: &mut [usize], nulls: &mut [bool]) {
    match column {
        Column::Numbers(column) => {
            for (row, mark) in column.marks.iter().enumerate() {
                ends[row] += if *mark { 9 } else { 1 };
                nulls[row] |= !mark;
            }
        }
        Column::Texts(column) => {
            for row in 0..column.marks.len() {
                ends[row] += match column.get(row) {
                    Some(text) if ordered => 1 + ended_len(text),
                    Some(text) => 9 + text.len(),
                    None => 1,
                };
                nulls[row] |= !column.marks[row];
            }
        }
    }
}

/// Writes bytes at a cursor, and moves it.
fn put(buffer: &mut [u8], cursor: &mut usize, bytes: &[u8]) {
    buffer[*cursor..*cursor + bytes.len()].copy_from_slice(bytes);
    *cursor += bytes.len();
}

fn write_numbers(column: &Numbers, ordered: bool, buffer: &mut [u8], cursors: &mut [usize]) {
    for (row, cursor) in cursors.iter_mut().enumerate() {
        if !column.marks[row] {
            put(buffer, cursor, &[0]);
            continue;
        }
        let x = column.values[row] as u64;
        put(buffer, cursor, &[1]);
        let bytes = if ordered { x.wrapping_add(TOP_BIT).to_be_bytes() } else { x.to_le_bytes() };
        put(buffer, cursor, &bytes);
    }
}

fn write_texts(column: &Texts, ordered: bool, buffer: &mut [u8], cursors: &mut [usize]) {
    for (row, cursor) in cursors.iter_mut().enumerate() {
        let Some(text) = column.get(row) else {
            put(buffer, cursor, &[0]);
            continue;
        };
        put(buffer, cursor, &[1]);
        if !ordered {
            put(buffer, cursor, &(text.len() as u64).to_le_bytes());
            put(buffer, cursor, text);
            continue;
        }
        for byte in text {
            put(buffer, cursor, &[*byte]);
            if *byte == 0 {
                put(buffer, cursor, &[255]);
            }
        }
        put(buffer, cursor, &[0, 0]);
    }
}

struct Encoded {
    bytes: Vec<u8>,
    ends: Vec<usize>,
    _nulls: Vec<bool>,
}

fn encode(columns: &[Column], ordered: bool) -> Encoded {
    let height = columns[0].len();
    let mut ends = vec![0; height];
    let mut nulls = vec![false; height];
    for column in columns {
        add_widths(column, ordered, &mut ends, &mut nulls);
    }
    let mut size = 0;
    for end in &mut ends {
        let width = *end;
        *end = size;
        size += width;
    }
    let mut bytes = vec![0; size];
    for column in columns {
        match column {
            Column::Numbers(column) => write_numbers(column, ordered, &mut bytes, &mut ends),
            Column::Texts(column) => write_texts(column, ordered, &mut bytes, &mut ends),
        }
    }
    Encoded { bytes, ends, _nulls: nulls }
}

/// Row by row, into a buffer that grows.
fn encode_rows(columns: &[Column], ordered: bool) -> Encoded {
    let height = columns[0].len();
    let mut bytes = Vec::new();
    let mut ends = Vec::with_capacity(height);
    let mut nulls = Vec::with_capacity(height);
    for row in 0..height {
        let mut null = false;
        for column in columns {
            match column {
                Column::Numbers(column) => {
                    if column.marks[row] {
                        let x = column.values[row] as u64;
                        bytes.push(1);
                        let word = if ordered { x.wrapping_add(TOP_BIT).to_be_bytes() } else { x.to_le_bytes() };
                        bytes.extend_from_slice(&word);
                    } else {
                        bytes.push(0);
                        null = true;
                    }
                }
                Column::Texts(column) => match column.get(row) {
                    Some(text) if ordered => {
                        bytes.push(1);
                        for byte in text {
                            bytes.push(*byte);
                            if *byte == 0 {
                                bytes.push(255);
                            }
                        }
                        bytes.extend_from_slice(&[0, 0]);
                    }
                    Some(text) => {
                        bytes.push(1);
                        bytes.extend_from_slice(&(text.len() as u64).to_le_bytes());
                        bytes.extend_from_slice(text);
                    }
                    None => {
                        bytes.push(0);
                        null = true;
                    }
                },
            }
        }
        ends.push(bytes.len());
        nulls.push(null);
    }
    Encoded { bytes, ends, _nulls: nulls }
}

/// How many bytes there are, of every thousandth row.
fn sample(rows: &Encoded) -> usize {
    assert!(rows.ends.last() == Some(&rows.bytes.len()));
    (0..rows.ends.len())
        .step_by(1_000)
        .map(|row| rows.ends[row] - if row == 0 { 0 } else { rows.ends[row - 1] })
        .sum()
}

fn random_columns(height: usize) -> Vec<Column> {
    let mut numbers = Numbers::default();
    let mut texts = Texts::default();
    let mut state = 1;
    for i in 0..height {
        state = next(state);
        let x = state >> 40;
        numbers.marks.push(x % 16 != 0);
        numbers.values.push(if x % 16 == 0 { 0 } else { i as i64 });
        texts.marks.push(text_of(x).is_some());
        texts.bytes.extend_from_slice(text_of(x).unwrap_or("").as_bytes());
        texts.ends.push(texts.bytes.len());
    }
    vec![Column::Numbers(numbers), Column::Texts(texts)]
}

fn time(name: &str, columns: &[Column], ordered: bool) {
    let start = Instant::now();
    let rows = encode(columns, ordered);
    println!("{name} {} {}", start.elapsed().as_nanos(), sample(&rows));
}

fn main() {
    let columns = random_columns(ROWS);
    if std::env::args().count() > 1 {
        for _ in 0..ROUNDS {
            for (name, part, ordered) in [("equality (Int64)", &columns[..1], false), ("equality (Int64, String)", &columns[..], false), ("ordered (Int64)", &columns[..1], true), ("ordered (Int64, String)", &columns[..], true)] {
                let start = Instant::now();
                let rows = encode_rows(part, ordered);
                println!("{name} {} {}", start.elapsed().as_nanos(), sample(&rows));
            }
        }
        return;
    }
    for _ in 0..ROUNDS {
        time("equality (Int64)", &columns[..1], false);
        time("equality (Int64, String)", &columns, false);
        time("ordered (Int64)", &columns[..1], true);
        time("ordered (Int64, String)", &columns, true);
    }
}
