//! Ticks and scales: the codes, the only path, and the linear steps.

use crate::exact::nearest;
use crate::refusal::{self, Refusal};

/// "It must lie from -6·10^18 to 6·10^18, ends included."
pub const GREATEST_EPOCH: i64 = 6_000_000_000_000_000_000;

pub fn is_valid_epoch(tick: i128) -> bool {
    let greatest = i128::from(GREATEST_EPOCH);
    (-greatest..=greatest).contains(&tick)
}

#[derive(Clone, Copy, Debug, PartialEq, Eq)]
pub enum Scale {
    Gps,
    Tai,
    Tt,
    Tcg,
    Tdb,
    Tcb,
}

/// "Codes: 1 GPS, 2 TAI, 3 TT, 4 TCG, 5 TDB, 6 TCB; 0 is read as TT."
pub fn scale_of_code(code: u32) -> Option<Scale> {
    match code {
        0 | 3 => Some(Scale::Tt),
        1 => Some(Scale::Gps),
        2 => Some(Scale::Tai),
        4 => Some(Scale::Tcg),
        5 => Some(Scale::Tdb),
        6 => Some(Scale::Tcb),
        _ => None,
    }
}

/// "UTC is code 7 for readings and written readings only", and these have no
/// other code. Their TAI tick is what is converted: the path of code 7 is TAI's.
pub fn scale_of_utc_code(code: u32) -> Option<Scale> {
    match code {
        7 => Some(Scale::Tai),
        _ => None,
    }
}

impl Scale {
    /// The neighbour on the way to TT. "The scales form one line with a
    /// branch: GPS, TAI, TT, then TT to TCG, and TT to TDB to TCB."
    fn towards_tt(self) -> Option<Scale> {
        match self {
            Scale::Gps => Some(Scale::Tai),
            Scale::Tai => Some(Scale::Tt),
            Scale::Tt => None,
            Scale::Tcg => Some(Scale::Tt),
            Scale::Tdb => Some(Scale::Tt),
            Scale::Tcb => Some(Scale::Tdb),
        }
    }

    fn way_to_tt(self) -> Vec<Scale> {
        let mut way = vec![self];
        while let Some(next) = way[way.len() - 1].towards_tt() {
            way.push(next);
        }
        way
    }
}

/// "A conversion walks the only path": the scales met, both ends in.
pub fn path(from: Scale, to: Scale) -> Vec<Scale> {
    let mut path = Vec::new();
    let way_down = to.way_to_tt();
    for scale in from.way_to_tt() {
        path.push(scale);
        if let Some(meeting) = way_down.iter().position(|other| *other == scale) {
            path.extend(way_down[..meeting].iter().rev());
            return path;
        }
    }
    unreachable!("both ways end at TT")
}

/// The path between what the two codes are, or refusal 1: "0 from, 1 to", and
/// "1 (from, then to)".
pub fn path_between(from: Option<Scale>, to: Option<Scale>) -> Result<Vec<Scale>, Refusal> {
    let refused = |place| Refusal::new(refusal::SCALE_CODE, place);
    Ok(path(from.ok_or(refused(0))?, to.ok_or(refused(1))?))
}

/// Only the step between TT and TDB, either way, needs the table.
pub fn crosses_table(path: &[Scale]) -> bool {
    path.contains(&Scale::Tt) && path.contains(&Scale::Tdb)
}

const TEN_19: i128 = 10_i128.pow(19);
/// L_G = 6969290134 / 10^19.
const L_G: i128 = 6_969_290_134;
const TEN_17: i128 = 10_i128.pow(17);
/// L_B = 1550519768 / 10^17.
const L_B: i128 = 1_550_519_768;
/// "TDB = TCB − L_B·TCB − 65,500 ticks".
const TDB_OFFSET: i128 = 65_500;
/// "TAI = GPS + 19 s."
const GPS_TO_TAI: i128 = 19_000_000_000;
/// "TT = TAI + 32.184 s, that is 32,184,000,000 ticks."
const TAI_TO_TT: i128 = 32_184_000_000;

/// What a linear step gives exactly: (factor·tick + offset) / divisor.
#[derive(Clone, Copy, Debug)]
pub struct Line {
    pub factor: i128,
    pub offset: i128,
    pub divisor: i128,
}

/// "TCG from TT and TCB from TDB are the exact inverse fractions."
pub fn line(from: Scale, to: Scale) -> Line {
    let (factor, offset, divisor) = match (from, to) {
        (Scale::Gps, Scale::Tai) => (1, GPS_TO_TAI, 1),
        (Scale::Tai, Scale::Gps) => (1, -GPS_TO_TAI, 1),
        (Scale::Tai, Scale::Tt) => (1, TAI_TO_TT, 1),
        (Scale::Tt, Scale::Tai) => (1, -TAI_TO_TT, 1),
        (Scale::Tcg, Scale::Tt) => (TEN_19 - L_G, 0, TEN_19),
        (Scale::Tt, Scale::Tcg) => (TEN_19, 0, TEN_19 - L_G),
        (Scale::Tcb, Scale::Tdb) => (TEN_17 - L_B, -TDB_OFFSET * TEN_17, TEN_17),
        (Scale::Tdb, Scale::Tcb) => (TEN_17, TDB_OFFSET * TEN_17, TEN_17 - L_B),
        _ => panic!("{from:?} to {to:?} is no linear step"),
    };
    Line {
        factor,
        offset,
        divisor,
    }
}

/// One linear step: "the tick nearest to the exact value; an exact half goes
/// to the greater". The TCB offset is whole, so the whole value is rounded once.
///
/// Widest is TCG from TT: twice 6·10^18·10^19 and 10^19 are below 1.3·10^38,
/// and i128 reaches 1.7·10^38. The answer is below 6.1·10^18, so i64 holds it.
pub fn linear_step(from: Scale, to: Scale, tick: i64) -> i64 {
    let line = line(from, to);
    let answer = nearest(line.factor * i128::from(tick) + line.offset, line.divisor);
    i64::try_from(answer).expect("a valid epoch's linear step fits 64 bits")
}

/// Every linear step there is, for tests and generators.
pub const LINEAR_STEPS: [(Scale, Scale); 8] = [
    (Scale::Gps, Scale::Tai),
    (Scale::Tai, Scale::Gps),
    (Scale::Tai, Scale::Tt),
    (Scale::Tt, Scale::Tai),
    (Scale::Tcg, Scale::Tt),
    (Scale::Tt, Scale::Tcg),
    (Scale::Tcb, Scale::Tdb),
    (Scale::Tdb, Scale::Tcb),
];

/// Those of them that drift, so that their exact value is seldom a whole tick.
pub const DRIFTING_STEPS: [(Scale, Scale); 4] = [
    (Scale::Tcg, Scale::Tt),
    (Scale::Tt, Scale::Tcg),
    (Scale::Tcb, Scale::Tdb),
    (Scale::Tdb, Scale::Tcb),
];
