//! Random accepted tables: all degrees, few and many granules, H at both ends,
//! coefficients near their bounds, joins near 1024.

use super::Random;
use crate::scales::GREATEST_EPOCH;
use crate::table::{
    GREATEST_COEFFICIENT, GREATEST_COUNT, GREATEST_DEGREE, GREATEST_GAP, GREATEST_LENGTH,
    GREATEST_WEIGHT, LEAST_LENGTH, Table,
};

/// A table's numbers before its coefficients.
#[derive(Clone, Copy, Debug)]
pub struct Shape {
    pub degree: u32,
    pub count: u32,
    pub length: i64,
}

impl Shape {
    pub fn random(random: &mut Random) -> Shape {
        let degree = random.between(0, i64::from(GREATEST_DEGREE)) as u32;
        Shape {
            degree,
            count: any_count(random),
            length: any_length(random),
        }
    }
}

fn any_count(random: &mut Random) -> u32 {
    let few = random.between(1, 7) as u32;
    let many = random.between(8, i64::from(GREATEST_COUNT)) as u32;
    match random.index(8) {
        0 => GREATEST_COUNT - random.index(3) as u32,
        1 => many,
        _ => few,
    }
}

fn any_length(random: &mut Random) -> i64 {
    let middle = LEAST_LENGTH + random.up_to(GREATEST_LENGTH - LEAST_LENGTH);
    random.pick(&[
        LEAST_LENGTH,
        LEAST_LENGTH + 1,
        GREATEST_LENGTH - 1,
        GREATEST_LENGTH,
        GREATEST_WEIGHT - 1,
        GREATEST_WEIGHT,
        GREATEST_WEIGHT + 1,
        middle,
        middle,
    ])
}

/// At both ends of the range, at zero, or anywhere.
fn any_start(random: &mut Random, shape: Shape) -> i64 {
    let last = GREATEST_EPOCH - i64::from(shape.count) * shape.length;
    let anywhere = random.between(-GREATEST_EPOCH, last);
    random.pick(&[-GREATEST_EPOCH, last, 0, anywhere, anywhere, anywhere])
}

/// c_1..c_n within a weight: spent from the top down, so that c_1, where there
/// is one, can bring the weight to its bound exactly.
fn coefficients_within(random: &mut Random, degree: usize, bound: i64) -> Vec<i64> {
    let exact = random.one_in(3);
    let mut left = if exact { bound } else { random.up_to(bound) };
    let mut coefficients = vec![0; degree];
    for k in (2..=degree).rev() {
        let square = (k * k) as i64;
        let most = left / square;
        let size = match random.index(4) {
            0 => most,
            1 => 0,
            _ => random.up_to(most),
        };
        coefficients[k - 1] = random.signed(size);
        left -= size * square;
    }
    if degree > 0 {
        let size = if exact { left } else { random.up_to(left) };
        coefficients[0] = random.signed(size);
    }
    coefficients
}

fn sums(coefficients: &[i64]) -> (i64, i64) {
    let plain = coefficients.iter().sum();
    let sign = |k: usize| if k.is_multiple_of(2) { 1 } else { -1 };
    let signed = coefficients.iter().enumerate().map(|(k, c)| sign(k) * c);
    (plain, signed.sum())
}

fn any_gap(random: &mut Random) -> i64 {
    let greatest = GREATEST_GAP as i64;
    let other = random.up_to(greatest);
    let size = random.pick(&[0, 1, greatest - 1, greatest, greatest, other]);
    random.signed(size)
}

/// A granule that joins the one before within the gap allowed.
fn joined_granule(random: &mut Random, before: &[i64], bound: i64) -> Vec<i64> {
    let (plain, _) = sums(before);
    for _ in 0..6 {
        let mut granule = vec![0];
        granule.extend(coefficients_within(random, before.len() - 1, bound));
        let (_, alternating) = sums(&granule);
        granule[0] = plain + any_gap(random) - alternating;
        if granule[0].abs() <= GREATEST_COEFFICIENT {
            return granule;
        }
    }
    mirrored_granule(random, before)
}

/// The granule before run backwards joins it at any gap, so that c_0 can be
/// kept within its bound.
fn mirrored_granule(random: &mut Random, before: &[i64]) -> Vec<i64> {
    let mut granule = before.to_vec();
    for c in granule.iter_mut().skip(1).step_by(2) {
        *c = -*c;
    }
    let gap = any_gap(random).abs();
    granule[0] -= if before[0] < 0 { -gap } else { gap };
    granule
}

fn first_granule(random: &mut Random, degree: usize, bound: i64) -> Vec<i64> {
    let size = random.up_to(GREATEST_COEFFICIENT);
    let size = random.pick(&[0, GREATEST_COEFFICIENT, size, size, size]);
    let mut granule = vec![random.signed(size)];
    granule.extend(coefficients_within(random, degree, bound));
    granule
}

pub fn accepted_table(random: &mut Random, shape: Shape) -> Table {
    let greatest = shape.length.min(GREATEST_WEIGHT);
    // A quarter of the tables are small, so that brute force can follow them.
    let small = random.one_in(4);
    let bound = if small {
        greatest.min(1 << 24)
    } else {
        greatest
    };
    let mut granule = first_granule(random, shape.degree as usize, bound);
    if small {
        granule[0] %= 1 << 24;
    }
    let mut coefficients = granule.clone();
    for _ in 1..shape.count {
        granule = joined_granule(random, &granule, bound);
        coefficients.extend(&granule);
    }
    Table {
        start: any_start(random, shape),
        length: shape.length,
        count: shape.count,
        degree: shape.degree,
        coefficients,
    }
}

/// Tables in which every degree comes in turn.
pub fn accepted_tables(random: &mut Random, how_many: usize) -> Vec<Table> {
    (0..how_many)
        .map(|i| {
            let mut shape = Shape::random(random);
            shape.degree = i as u32 % (GREATEST_DEGREE + 1);
            accepted_table(random, shape)
        })
        .collect()
}
