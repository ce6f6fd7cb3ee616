//! The counterpart over `AtomicU32`.

use std::sync::atomic::{AtomicU32, Ordering};
use std::thread;
use std::time::Instant;

#[path = "../random.rs"]
#[allow(dead_code)]
mod random;

use random::next;

const KEYS: u32 = 1_000_000;
const STEPS: u32 = 10_000_000;
const ROUNDS: usize = 3;

fn mark_keys(flags: &[AtomicU32], lane: u32, start: u64, count: u32) -> u64 {
    let mut state = start;
    let mut firsts = 0u64;
    for _ in 0..count {
        state = next(state);
        let key = (state >> 33) as u32 % flags.len() as u32;
        let found =
            flags[key as usize].compare_exchange(0, lane + 1, Ordering::SeqCst, Ordering::SeqCst);
        if found.is_ok() {
            firsts += 1;
        }
    }
    firsts
}

fn draw(next: &AtomicU32, count: u32) -> u64 {
    let mut sum = 0u64;
    for _ in 0..count {
        sum = sum.wrapping_add(u64::from(next.fetch_add(1, Ordering::SeqCst)));
    }
    sum
}

fn starts(threads: u32) -> Vec<u64> {
    let mut state = 1;
    (0..threads)
        .map(|_| {
            let start = state;
            state = next(state);
            start
        })
        .collect()
}

fn main() {
    for _ in 0..ROUNDS {
        for threads in [1, 2, 4] {
            let count = STEPS / threads;
            let flags: Vec<AtomicU32> = (0..KEYS).map(|_| AtomicU32::new(0)).collect();
            let flags = flags.as_slice();
            let starts = starts(threads);
            let start = Instant::now();
            let firsts: u64 = thread::scope(|scope| {
                let lanes: Vec<_> = (0..threads)
                    .zip(starts)
                    .map(|(lane, state)| scope.spawn(move || mark_keys(flags, lane, state, count)))
                    .collect();
                lanes.into_iter().map(|lane| lane.join().unwrap()).sum()
            });
            println!("mark by {threads} {} {firsts}", start.elapsed().as_nanos());

            let claims = AtomicU32::new(0);
            let claims = &claims;
            let start = Instant::now();
            let sum: u64 = thread::scope(|scope| {
                let lanes: Vec<_> = (0..threads)
                    .map(|_| scope.spawn(move || draw(claims, count)))
                    .collect();
                lanes.into_iter().map(|lane| lane.join().unwrap()).sum()
            });
            println!("claim by {threads} {} {sum}", start.elapsed().as_nanos());
        }
    }
}
