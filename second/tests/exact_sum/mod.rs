//! The exact sum of two doubles, told by two doubles.

/// The sum rounded to a double, and what that rounding left off, which is a
/// double itself. Equal sums have both alike; of two sums the lesser has the
/// lesser first one, or the lesser second one where the first are alike.
pub fn exact_sum((a, b): (f64, f64)) -> (f64, f64) {
    let sum = a + b;
    let of_b = sum - a;
    let left_off = (a - (sum - of_b)) + (b - of_b);
    (sum, left_off)
}
