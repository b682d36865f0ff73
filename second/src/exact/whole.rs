//! A whole number of any size: sign and digits of 32 bits, lowest first.

use std::cmp::Ordering;
use std::ops::{Add, Mul, Neg, Sub};

#[derive(Clone, Debug, PartialEq, Eq)]
pub struct Whole {
    /// Zero is never negative, so that equal numbers have equal fields.
    negative: bool,
    /// The highest digit is never zero; zero has no digits.
    digits: Vec<u32>,
}

impl Whole {
    fn new(negative: bool, mut digits: Vec<u32>) -> Whole {
        while digits.last() == Some(&0) {
            digits.pop();
        }
        Whole {
            negative: negative && !digits.is_empty(),
            digits,
        }
    }

    pub fn is_zero(&self) -> bool {
        self.digits.is_empty()
    }

    pub fn is_negative(&self) -> bool {
        self.negative
    }

    pub fn magnitude(&self) -> Whole {
        Whole::new(false, self.digits.clone())
    }

    pub fn power(&self, exponent: u32) -> Whole {
        (0..exponent).fold(Whole::from(1), |product, _| &product * self)
    }

    /// The greatest whole number not above self / divisor, and what is left,
    /// which lies from 0 to the divisor less one. The divisor is positive.
    pub fn divided_by(&self, divisor: &Whole) -> (Whole, Whole) {
        assert!(!divisor.negative && !divisor.is_zero());
        let (quotient, left) = divide_digits(&self.digits, &divisor.digits);
        let (quotient, left) = (Whole::new(false, quotient), Whole::new(false, left));
        match (self.negative, left.is_zero()) {
            (false, _) => (quotient, left),
            (true, true) => (-&quotient, left),
            (true, false) => (-&(&quotient + &Whole::from(1)), divisor - &left),
        }
    }

    /// Self times 2^power.
    pub fn times_two_to(&self, power: usize) -> Whole {
        let mut digits = vec![0; power / 32];
        let mut carry = 0u64;
        for digit in &self.digits {
            carry += u64::from(*digit) << (power % 32);
            digits.push(carry as u32);
            carry >>= 32;
        }
        digits.push(carry as u32);
        Whole::new(self.negative, digits)
    }

    /// The greatest whole number not above self / 2^power: what `divided_by`
    /// gives, without its long division.
    fn over_two_to(&self, power: usize) -> Whole {
        let kept = self.digits.get(power / 32..).unwrap_or(&[]);
        let from = |i: usize| u64::from(kept.get(i).copied().unwrap_or(0));
        let digits =
            (0..kept.len()).map(|i| ((from(i + 1) << 32 | from(i)) >> (power % 32)) as u32);
        let towards_zero = Whole::new(self.negative, digits.collect());
        match self < &towards_zero.times_two_to(power) {
            true => &towards_zero - &Whole::from(1),
            false => towards_zero,
        }
    }

    /// The whole number nearest to self / 2^power, an exact half to the greater.
    pub fn nearest_over_two_to(&self, power: usize) -> Whole {
        let one = Whole::from(1).times_two_to(power);
        (&self.times_two_to(1) + &one).over_two_to(power + 1)
    }

    /// The same number, which the caller knows to have at most 96 bits.
    pub fn to_i128(&self) -> i128 {
        assert!(self.digits.len() <= 3, "at most 96 bits");
        let digits = self.digits.iter().rev();
        let magnitude = digits.fold(0, |sum, digit| sum << 32 | i128::from(*digit));
        if self.negative { -magnitude } else { magnitude }
    }
}

impl From<i128> for Whole {
    fn from(value: i128) -> Whole {
        let magnitude = value.unsigned_abs();
        let digits = (0..4).map(|i| (magnitude >> (32 * i)) as u32).collect();
        Whole::new(value < 0, digits)
    }
}

fn compare_digits(a: &[u32], b: &[u32]) -> Ordering {
    a.len()
        .cmp(&b.len())
        .then_with(|| a.iter().rev().cmp(b.iter().rev()))
}

fn add_digits(a: &[u32], b: &[u32]) -> Vec<u32> {
    let length = a.len().max(b.len()) + 1;
    let mut carry = 0u64;
    let mut sum = Vec::with_capacity(length);
    for i in 0..length {
        let digit = |list: &[u32]| u64::from(list.get(i).copied().unwrap_or(0));
        carry += digit(a) + digit(b);
        sum.push(carry as u32);
        carry >>= 32;
    }
    sum
}

/// a - b, where a is not less than b.
fn subtract_digits(a: &[u32], b: &[u32]) -> Vec<u32> {
    let mut borrow = 0i64;
    let mut difference = Vec::with_capacity(a.len());
    for (i, digit) in a.iter().enumerate() {
        let value = i64::from(*digit) - i64::from(b.get(i).copied().unwrap_or(0)) - borrow;
        borrow = i64::from(value < 0);
        difference.push((value + (borrow << 32)) as u32);
    }
    assert_eq!(borrow, 0, "the lesser is taken from the greater");
    difference
}

fn multiply_digits(a: &[u32], b: &[u32]) -> Vec<u32> {
    let mut product = vec![0u32; a.len() + b.len()];
    for (i, x) in a.iter().enumerate() {
        let mut carry = 0u64;
        for (j, y) in b.iter().enumerate() {
            carry += u64::from(product[i + j]) + u64::from(*x) * u64::from(*y);
            product[i + j] = carry as u32;
            carry >>= 32;
        }
        product[i + b.len()] = carry as u32;
    }
    product
}

/// Long division one bit at a time, as on paper. The highest digits of a, one
/// fewer than b has, are less than b, so they are left over from the start.
fn divide_digits(a: &[u32], b: &[u32]) -> (Vec<u32>, Vec<u32>) {
    let undivided = a.len().min(b.len() - 1);
    let divided = a.len() - undivided;
    let mut quotient = vec![0u32; divided];
    let mut left = Whole::new(false, a[divided..].to_vec());
    for bit in (0..32 * divided).rev() {
        let next = (a[bit / 32] >> (bit % 32)) & 1;
        left = &(&left + &left) + &Whole::from(i128::from(next));
        if compare_digits(&left.digits, b) != Ordering::Less {
            left = Whole::new(false, subtract_digits(&left.digits, b));
            quotient[bit / 32] |= 1 << (bit % 32);
        }
    }
    (quotient, left.digits)
}

impl Neg for &Whole {
    type Output = Whole;
    fn neg(self) -> Whole {
        Whole::new(!self.negative, self.digits.clone())
    }
}

impl Add for &Whole {
    type Output = Whole;
    fn add(self, other: &Whole) -> Whole {
        if self.negative == other.negative {
            return Whole::new(self.negative, add_digits(&self.digits, &other.digits));
        }
        if compare_digits(&self.digits, &other.digits) == Ordering::Less {
            return other + self;
        }
        Whole::new(self.negative, subtract_digits(&self.digits, &other.digits))
    }
}

impl Sub for &Whole {
    type Output = Whole;
    fn sub(self, other: &Whole) -> Whole {
        self + &-other
    }
}

impl Mul for &Whole {
    type Output = Whole;
    fn mul(self, other: &Whole) -> Whole {
        let digits = multiply_digits(&self.digits, &other.digits);
        Whole::new(self.negative != other.negative, digits)
    }
}

impl Ord for Whole {
    fn cmp(&self, other: &Whole) -> Ordering {
        match (self.negative, other.negative) {
            (false, true) => Ordering::Greater,
            (true, false) => Ordering::Less,
            (false, false) => compare_digits(&self.digits, &other.digits),
            (true, true) => compare_digits(&other.digits, &self.digits),
        }
    }
}

impl PartialOrd for Whole {
    fn partial_cmp(&self, other: &Whole) -> Option<Ordering> {
        Some(self.cmp(other))
    }
}

#[cfg(test)]
mod tests {
    use super::*;
    use crate::exact::Fraction;
    use crate::generate::Random;

    /// Where everything fits i128, i128 is the judge.
    #[test]
    fn agrees_with_i128() {
        let mut random = Random::new(3);
        for _ in 0..5_000 {
            let a = random.wide() >> random.between(65, 126);
            let b = random.wide() >> random.between(65, 126);
            let (x, y) = (Whole::from(a), Whole::from(b));
            assert_eq!(&x + &y, Whole::from(a + b));
            assert_eq!(&x - &y, Whole::from(a - b));
            assert_eq!(&x * &y, Whole::from(a * b));
            assert_eq!(x.cmp(&y), a.cmp(&b));
            assert_eq!(x.is_negative(), a < 0);
            if b > 0 {
                let (quotient, left) = x.divided_by(&y);
                assert_eq!(quotient, Whole::from(a.div_euclid(b)));
                assert_eq!(left, Whole::from(a.rem_euclid(b)));
            }
        }
    }

    /// Where it does not fit, the laws of arithmetic are.
    #[test]
    fn keeps_the_laws_of_arithmetic_when_large() {
        let mut random = Random::new(4);
        for _ in 0..200 {
            let mut large = || {
                let parts = [random.wide(), random.wide(), random.wide()];
                parts.iter().fold(Whole::from(1), |product, part| {
                    &(&product * &Whole::from(*part)) + &Whole::from(*part)
                })
            };
            let (a, b, c) = (large(), large(), large());
            assert_eq!(&(&a + &b) * &c, &(&a * &c) + &(&b * &c));
            assert_eq!(&(&a - &b) + &b, a);
            assert_eq!(&(&a + &b) * &(&a - &b), &a.power(2) - &b.power(2));
            let divisor = c.magnitude();
            let (quotient, left) = a.divided_by(&divisor);
            assert_eq!(&(&quotient * &divisor) + &left, a);
            assert!(!left.is_negative() && left < divisor);
        }
    }

    /// Powers of two by shifting, against the general rules.
    #[test]
    fn powers_of_two_agree_with_products_and_quotients() {
        let mut random = Random::new(5);
        let two = Whole::from(2);
        for power in (0..200).chain([1023, 1024, 1074, 1075]) {
            let powered = two.power(power as u32);
            let (a, b) = (random.wide(), random.wide() >> random.between(0, 126));
            let large = &(&Whole::from(a) * &powered) + &Whole::from(b);
            assert_eq!(large.times_two_to(power), &large * &powered);
            for value in [Whole::from(b), large] {
                assert_eq!(value.over_two_to(power), value.divided_by(&powered).0);
                let fraction = Fraction::new(value.clone(), powered.clone());
                assert_eq!(value.nearest_over_two_to(power), fraction.nearest());
            }
        }
    }

    #[test]
    fn halves_over_a_power_of_two_go_to_the_greater() {
        for (value, power, expected) in [
            (5, 1, 3),
            (-5, 1, -2),
            (4, 3, 1),
            (-4, 3, 0),
            (-5, 3, -1),
            (-12, 3, -1),
            (7, 0, 7),
            (0, 9, 0),
            (3, 200, 0),
        ] {
            let nearest = Whole::from(value).nearest_over_two_to(power);
            assert_eq!(nearest.to_i128(), expected, "{value} over 2^{power}");
        }
        // The last of many digits decides.
        let half = Whole::from(-3).times_two_to(1073);
        assert_eq!(half.nearest_over_two_to(1074).to_i128(), -1);
        let below = &half - &Whole::from(1);
        assert_eq!(below.nearest_over_two_to(1074).to_i128(), -2);
    }

    #[test]
    fn small_ones_come_back_as_i128() {
        let mut random = Random::new(6);
        for _ in 0..2_000 {
            let value = random.wide() >> random.between(32, 127);
            assert_eq!(Whole::from(value).to_i128(), value);
        }
    }

    #[test]
    fn known_power() {
        let googol = Whole::from(10).power(100);
        assert_eq!(
            googol.divided_by(&Whole::from(10).power(98)).0,
            Whole::from(100)
        );
        assert!(googol > Whole::from(2).power(332));
        assert!(googol < Whole::from(2).power(333));
        assert_eq!(&googol - &googol, Whole::from(0));
        assert!(!(-&Whole::from(0)).is_negative());
    }
}
