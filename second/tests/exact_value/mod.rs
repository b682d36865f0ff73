//! The exact value of a double, found without a look at its bits.

use second::exact::{Fraction, Whole};

/// As a fraction of whole numbers: by doubling, which is exact, until it is a
/// whole number.
pub fn exact_value(value: f64) -> Fraction {
    let (mut whole, mut halvings) = (value.abs(), 0);
    while whole.fract() != 0.0 {
        whole *= 2.0;
        halvings += 1;
    }
    assert!(whole < 2f64.powi(100));
    let numerator = Whole::from(whole as i128);
    let numerator = if value < 0.0 { -&numerator } else { numerator };
    Fraction::new(numerator, Whole::from(2).power(halvings))
}
