//! The same work as `main.rattle`, each expression as one loop that is fused by hand, over plain vectors.
//! Each line that it writes is a name, nanoseconds, and how many rows are true.

#[path = "../random.rs"]
mod random;

use random::{next, text_of};
use std::time::Instant;

const ROWS: usize = 1_000_000;
const CHUNK: usize = 20_000;
const ROUNDS: usize = 9;

/// Values, with marks beside them.
#[derive(Default)]
struct Column<T> {
    marks: Vec<bool>,
    values: Vec<T>,
}

impl<T: Default> Column<T> {
    fn push(&mut self, value: Option<T>) {
        self.marks.push(value.is_some());
        self.values.push(value.unwrap_or_default());
    }
}

/// Texts in one buffer, with their ends and marks beside it.
#[derive(Default)]
struct Texts {
    marks: Vec<bool>,
    bytes: Vec<u8>,
    ends: Vec<usize>,
}

impl Texts {
    fn push(&mut self, text: Option<&str>) {
        self.marks.push(text.is_some());
        self.bytes.extend_from_slice(text.unwrap_or("").as_bytes());
        self.ends.push(self.bytes.len());
    }
}

fn random_numbers(seed: u64, height: usize) -> Column<i64> {
    let mut numbers = Column::default();
    let mut state = seed;
    for _ in 0..height {
        state = next(state);
        let x = state >> 40;
        numbers.push(if x % 16 == 0 { None } else { Some((x % 1_000_000) as i64) });
    }
    numbers
}

fn random_texts(seed: u64, height: usize) -> Texts {
    let mut texts = Texts::default();
    let mut state = seed;
    for _ in 0..height {
        state = next(state);
        texts.push(text_of(state >> 40));
    }
    texts
}

/// The result of one loop over the rows, which gives each row's mark and value.
fn fused<const ROWS: usize>(row: impl Fn(usize) -> (bool, bool)) -> Column<bool> {
    let mut made = Column {
        marks: vec![false; ROWS],
        values: vec![false; ROWS],
    };
    let marks = &mut made.marks[..ROWS];
    let values = &mut made.values[..ROWS];
    for i in 0..ROWS {
        (marks[i], values[i]) = row(i);
    }
    made
}

fn greater<const ROWS: usize>(k: &Column<i64>, m: &Column<i64>) -> Column<bool> {
    let (k_marks, k, m_marks, m) = (&k.marks[..ROWS], &k.values[..ROWS], &m.marks[..ROWS], &m.values[..ROWS]);
    fused::<ROWS>(|i| (k_marks[i] & m_marks[i], k[i] > m[i]))
}

fn greater_sum<const ROWS: usize>(k: &Column<i64>, m: &Column<i64>) -> Column<bool> {
    let (k_marks, k, m_marks, m) = (&k.marks[..ROWS], &k.values[..ROWS], &m.marks[..ROWS], &m.values[..ROWS]);
    fused::<ROWS>(|i| (k_marks[i] & m_marks[i], k[i].wrapping_mul(3).wrapping_add(1) > m[i]))
}

fn greater_with_text<const ROWS: usize>(k: &Column<i64>, m: &Column<i64>, t: &Texts) -> Column<bool> {
    let (k_marks, k, m_marks, m) = (&k.marks[..ROWS], &k.values[..ROWS], &m.marks[..ROWS], &m.values[..ROWS]);
    let t_marks = &t.marks[..ROWS];
    fused::<ROWS>(|i| {
        let known = k_marks[i] & m_marks[i];
        let greater = k[i].wrapping_mul(3).wrapping_add(1) > m[i];
        (known | !t_marks[i], known & greater & t_marks[i])
    })
}

fn count(column: &Column<bool>) -> usize {
    column.marks.iter().zip(&column.values).filter(|(mark, value)| **mark && **value).count()
}

fn time(written: &str, times: usize, call: impl Fn() -> Column<bool>) {
    let start = Instant::now();
    let mut made = std::hint::black_box(call());
    for _ in 1..times {
        made = std::hint::black_box(call());
    }
    let time = start.elapsed();
    println!("{written} {} {}", time.as_nanos(), count(&made));
}

fn time_all<const HEIGHT: usize>(place: &str, columns: &(Column<i64>, Column<i64>, Texts)) {
    let (k, m, t) = columns;
    let times = ROWS / HEIGHT;
    time(&format!("{place}k > m"), times, || greater::<HEIGHT>(k, m));
    time(&format!("{place}k * 3 + 1 > m"), times, || greater_sum::<HEIGHT>(k, m));
    time(&format!("{place}k * 3 + 1 > m and not is_null(t)"), times, || greater_with_text::<HEIGHT>(k, m, t));
}

fn main() {
    let columns = |height| (random_numbers(1, height), random_numbers(2, height), random_texts(3, height));
    let (whole, part) = (columns(ROWS), columns(CHUNK));
    for _ in 0..ROUNDS {
        time_all::<ROWS>("", &whole);
        time_all::<CHUNK>("in chunks: ", &part);
    }
}
