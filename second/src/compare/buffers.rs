//! Lent buffers: lists as bytes, and the pattern in those that are to be written.

pub fn bytes_of_ticks(ticks: &[i64]) -> Vec<u8> {
    ticks.iter().flat_map(|tick| tick.to_le_bytes()).collect()
}

/// Numbers that no answer has, each in its place: "on a refusal nothing lent is
/// written" can then be seen.
pub fn blank(length: usize) -> Vec<u8> {
    let numbers = (0..).map(|i: i64| 0x5a5a_5a5a_0000_0000 + i);
    numbers.flat_map(i64::to_le_bytes).take(length).collect()
}

/// A blank list of so many ticks.
pub fn blank_ticks(many: usize) -> Vec<u8> {
    blank(8 * many)
}
