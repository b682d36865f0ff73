//! A list of TAI−UTC, looked at without second's own rules.

/// By how much the seconds change after this day: 1, -1, or 0.
pub fn change_after(list: &[i64], day: i64) -> i64 {
    let mut both = list.chunks_exact(2).zip(list.chunks_exact(2).skip(1));
    let next = both.find(|(_, after)| after[0] - 1 == day);
    next.map_or(0, |(before, after)| after[1] - before[1])
}
