//! A fraction of two whole numbers, the denominator positive.

use super::Whole;
use std::cmp::Ordering;
use std::ops::{Add, Mul, Sub};

#[derive(Clone, Debug)]
pub struct Fraction {
    pub numerator: Whole,
    pub denominator: Whole,
}

impl Fraction {
    pub fn new(numerator: Whole, denominator: Whole) -> Fraction {
        assert!(!denominator.is_negative() && !denominator.is_zero());
        Fraction {
            numerator,
            denominator,
        }
    }

    pub fn whole(value: i128) -> Fraction {
        Fraction::new(Whole::from(value), Whole::from(1))
    }

    pub fn magnitude(&self) -> Fraction {
        Fraction::new(self.numerator.magnitude(), self.denominator.clone())
    }

    /// The same value in lowest terms.
    pub fn reduced(&self) -> Fraction {
        let (mut a, mut b) = (self.denominator.clone(), self.numerator.magnitude());
        while !b.is_zero() {
            (a, b) = (b.clone(), a.divided_by(&b).1);
        }
        Fraction::new(
            self.numerator.divided_by(&a).0,
            self.denominator.divided_by(&a).0,
        )
    }

    /// The nearest whole number, an exact half to the greater.
    pub fn nearest(&self) -> Whole {
        let two = Whole::from(2);
        let moved = &(&two * &self.numerator) + &self.denominator;
        moved.divided_by(&(&two * &self.denominator)).0
    }
}

impl Add for &Fraction {
    type Output = Fraction;
    fn add(self, other: &Fraction) -> Fraction {
        Fraction::new(
            &(&self.numerator * &other.denominator) + &(&other.numerator * &self.denominator),
            &self.denominator * &other.denominator,
        )
    }
}

impl Sub for &Fraction {
    type Output = Fraction;
    fn sub(self, other: &Fraction) -> Fraction {
        self + &Fraction::new(-&other.numerator, other.denominator.clone())
    }
}

impl Mul for &Fraction {
    type Output = Fraction;
    fn mul(self, other: &Fraction) -> Fraction {
        Fraction::new(
            &self.numerator * &other.numerator,
            &self.denominator * &other.denominator,
        )
    }
}

impl PartialEq for Fraction {
    fn eq(&self, other: &Fraction) -> bool {
        self.cmp(other) == Ordering::Equal
    }
}

impl Eq for Fraction {}

impl Ord for Fraction {
    fn cmp(&self, other: &Fraction) -> Ordering {
        (&self.numerator * &other.denominator).cmp(&(&other.numerator * &self.denominator))
    }
}

impl PartialOrd for Fraction {
    fn partial_cmp(&self, other: &Fraction) -> Option<Ordering> {
        Some(self.cmp(other))
    }
}

#[cfg(test)]
mod tests {
    use super::*;

    fn fraction(numerator: i128, denominator: i128) -> Fraction {
        Fraction::new(Whole::from(numerator), Whole::from(denominator))
    }

    #[test]
    fn small_sums() {
        assert_eq!(&fraction(1, 2) + &fraction(1, 3), fraction(5, 6));
        assert_eq!(&fraction(1, 2) - &fraction(2, 3), fraction(-1, 6));
        assert_eq!(&fraction(-3, 4) * &fraction(2, 3), fraction(-1, 2));
        assert!(fraction(-1, 2) < fraction(-1, 3));
        assert!(fraction(7, 3) > Fraction::whole(2));
        assert_eq!(fraction(-7, 3).magnitude(), fraction(14, 6));
    }

    #[test]
    fn lowest_terms() {
        let reduced = fraction(-84, 126).reduced();
        assert_eq!(reduced.numerator, Whole::from(-2));
        assert_eq!(reduced.denominator, Whole::from(3));
        let zero = fraction(0, 9).reduced();
        assert_eq!(zero.denominator, Whole::from(1));
    }

    #[test]
    fn nearest_with_halves_up() {
        for (numerator, expected) in [(5, 3), (-5, -2), (4, 2), (-3, -1), (-1, 0), (1, 1)] {
            assert_eq!(fraction(numerator, 2).nearest(), Whole::from(expected));
        }
    }
}
