//! Exact arithmetic: rounding in i128 where that is surely wide enough, and a
//! small whole number of any size and its fractions where it is not.

mod fraction;
mod whole;

pub use fraction::Fraction;
pub use whole::Whole;

/// The whole number nearest to numerator / denominator; "an exact half goes to
/// the greater", towards plus infinity for negative numbers too.
///
/// The denominator is positive. Every caller says why twice the numerator plus
/// the denominator fits; if it did not, the overflow check would stop us.
pub fn nearest(numerator: i128, denominator: i128) -> i128 {
    assert!(denominator > 0, "a denominator is positive");
    (2 * numerator + denominator).div_euclid(2 * denominator)
}

/// The greatest common divisor of the number and the modulus, and the least
/// that gives this divisor, modulo the modulus, when the number is multiplied by
/// it. Both are positive.
pub fn divisor_and_inverse(number: i128, modulus: i128) -> (i128, i128) {
    assert!(number > 0 && modulus > 0, "both are positive");
    // Modulo the modulus, these are so many times the number.
    let (mut greater, mut smaller) = (modulus, number);
    let (mut times_greater, mut times_smaller) = (0, 1);
    while smaller != 0 {
        let quotient = greater / smaller;
        (greater, smaller) = (smaller, greater % smaller);
        (times_greater, times_smaller) = (times_smaller, times_greater - quotient * times_smaller);
    }
    (greater, times_greater.rem_euclid(modulus / greater))
}

#[cfg(test)]
mod tests {
    use super::*;
    use crate::generate::Random;

    #[test]
    fn halves_go_to_the_greater() {
        let cases = [
            (1, 2, 1),
            (-1, 2, 0),
            (3, 2, 2),
            (-3, 2, -1),
            (-5, 2, -2),
            (5, 3, 2),
            (-5, 3, -2),
            (-4, 3, -1),
            (0, 7, 0),
            (-7, 7, -1),
        ];
        for (numerator, denominator, expected) in cases {
            assert_eq!(nearest(numerator, denominator), expected);
        }
    }

    #[test]
    fn nearest_is_the_only_whole_number_in_its_interval() {
        let mut random = Random::new(1);
        for _ in 0..20_000 {
            let numerator = random.wide() >> random.between(3, 100);
            let denominator = (random.wide() >> random.between(3, 100)).abs() + 1;
            let whole = nearest(numerator, denominator);
            // -1/2 < whole - x <= 1/2, so that a half went up.
            let twice = &Whole::from(2)
                * &(&(&Whole::from(whole) * &Whole::from(denominator)) - &Whole::from(numerator));
            assert!(twice > -&Whole::from(denominator));
            assert!(twice <= Whole::from(denominator));
        }
    }

    #[test]
    fn nearest_agrees_with_the_fraction() {
        let mut random = Random::new(2);
        for _ in 0..2_000 {
            let numerator = random.wide() >> random.between(3, 120);
            let denominator = (random.wide() >> random.between(3, 120)).abs() + 1;
            let fraction = Fraction::new(Whole::from(numerator), Whole::from(denominator));
            assert_eq!(
                fraction.nearest(),
                Whole::from(nearest(numerator, denominator))
            );
        }
    }

    #[test]
    fn divisors_and_inverses() {
        for (number, modulus, divisor, inverse) in [
            (3, 7, 1, 5),
            (1, 2, 1, 1),
            (10, 7, 1, 5),
            (4, 6, 2, 2),
            (6, 4, 2, 1),
            (5, 5, 5, 0),
            (7, 1, 1, 0),
        ] {
            let found = divisor_and_inverse(number, modulus);
            assert_eq!(found, (divisor, inverse), "{number} {modulus}");
        }
    }

    #[test]
    fn an_inverse_times_the_number_is_the_divisor() {
        let mut random = Random::new(3);
        for _ in 0..20_000 {
            // Below 2^62, so that products fit.
            let mut some = || i128::from(random.up_to(i64::MAX / 2)) + 1;
            let (number, modulus) = (some(), some());
            let (divisor, inverse) = divisor_and_inverse(number, modulus);
            assert_eq!((number % divisor, modulus % divisor), (0, 0));
            // A common divisor that is such a sum is the greatest.
            assert_eq!((inverse * number - divisor) % modulus, 0);
            assert!((0..modulus / divisor).contains(&inverse));
        }
    }
}
