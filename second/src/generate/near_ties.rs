//! Ticks for which a drifting linear step's exact value is a half of a tick or
//! lies as near to one as it can (request 2026-04): a step worked with a number
//! that is ever so little wrong answers wrongly there, and hardly anywhere else.

use super::ticks::{edge_ticks, with_neighbours};
use crate::exact::divisor_and_inverse;
use crate::scales::{GREATEST_EPOCH, Line, Scale, is_valid_epoch, line};

/// About so many near ties are taken of each step, the nearest to a half.
const HOW_MANY: i128 = 8_000;

/// The exact value is past a half by so many times 1/(2q), before it where
/// negative; q is the step's divisor in lowest terms.
#[derive(Clone, Copy, Debug, PartialEq, Eq)]
pub struct NearTie {
    pub tick: i64,
    pub past: i128,
}

/// The same line in lowest terms, and the inverse of its factor modulo its
/// divisor. What divides factor and divisor divides every offset that there is.
fn lowest_terms(line: Line) -> (Line, i128) {
    let (common, inverse) = divisor_and_inverse(line.factor, line.divisor);
    assert_eq!(line.offset % common, 0);
    let reduced = Line {
        factor: line.factor / common,
        offset: line.offset / common,
        divisor: line.divisor / common,
    };
    (reduced, inverse)
}

/// Every tick of the range whose exact value lies within so many times 1/(2q)
/// of a half that there are about as many as wanted.
///
/// With factor p, offset r and divisor q, 2(p·t + r) is q + j modulo 2q where j
/// is even or odd as q is, and t is the inverse of p times (q + j)/2 − r modulo
/// q. The offset is below 10^21; what is multiplied is below q, which is at most
/// 5·10^18, so that i128 holds the product.
pub fn near_ties(from: Scale, to: Scale) -> Vec<NearTie> {
    let (line, inverse) = lowest_terms(line(from, to));
    let (q, greatest) = (line.divisor, i128::from(GREATEST_EPOCH));
    // Each second j has solutions, and each of these one in q ticks.
    let furthest = HOW_MANY * q / (2 * greatest);
    let mut ties = Vec::new();
    for past in (-furthest..=furthest).filter(|past| (past - q) % 2 == 0) {
        let wanted = ((q + past) / 2 - line.offset).rem_euclid(q);
        let solution = wanted * inverse % q;
        // The first solution of the range.
        let mut tick = -greatest + (solution + greatest).rem_euclid(q);
        while is_valid_epoch(tick) {
            let valid = i64::try_from(tick).expect("a valid epoch fits 64 bits");
            ties.push(NearTie { tick: valid, past });
            tick += q;
        }
    }
    ties
}

/// The step's near ties with their neighbours, ticks around zero and around the
/// TCB offset, and the edges, from which some steps lead outside.
pub fn ticks_around_ties(from: Scale, to: Scale) -> Vec<i64> {
    let ties: Vec<i64> = near_ties(from, to).iter().map(|tie| tie.tick).collect();
    let mut ticks = with_neighbours(&ties, 1);
    ticks.extend(with_neighbours(&[0, 65_500, -65_500], 50));
    ticks.extend(edge_ticks());
    ticks.sort();
    ticks.dedup();
    ticks
}
