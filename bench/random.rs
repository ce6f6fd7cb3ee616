//! Pseudorandom data of the benchmarks' Rust programs; each `main.rattle` makes the same.

/// The next of a run of pseudorandom numbers.
pub fn next(state: u64) -> u64 {
    state
        .wrapping_mul(6_364_136_223_846_793_005)
        .wrapping_add(1_442_695_040_888_963_407)
}

/// The text of a number, none for one in eight.
pub fn text_of(x: u64) -> Option<&'static str> {
    match x % 8 {
        0 => Some("Alfa"),
        1 => Some("Bravo in the north"),
        2 => Some("Charlie"),
        3 => Some(""),
        4 => Some("Echo of an echo"),
        5 => Some("Foxtrot, Golf, Hotel, India"),
        6 => Some("J"),
        _ => None,
    }
}
