//! The linear steps over bare ticks, and the range of an epoch.

use super::nearest;

/// L_G = 6969290134 / 10^19
const L_G: i128 = 6_969_290_134;
const D_G: i128 = 10_000_000_000_000_000_000;
/// L_B = 1550519768 / 10^17
const L_B: i128 = 1_550_519_768;
const D_B: i128 = 100_000_000_000_000_000;
const TDB_0: i64 = 65_500;

pub fn valid(tick: i64) -> bool {
    (-6_000_000_000_000_000_000..=6_000_000_000_000_000_000).contains(&tick)
}

pub fn gps_to_tai(gps: i64) -> i64 {
    gps + 19_000_000_000
}

pub fn tai_to_tt(tai: i64) -> i64 {
    tai + 32_184_000_000
}

/// TT = TCG − L_G·TCG
pub fn tcg_to_tt(tcg: i64) -> i64 {
    tcg + nearest(-L_G * i128::from(tcg), D_G)
}

/// The exact inverse: TCG = TT + TT·L_G/(1 − L_G)
pub fn tt_to_tcg(tt: i64) -> i64 {
    tt + nearest(L_G * i128::from(tt), D_G - L_G)
}

/// TDB = TCB − L_B·TCB − 65,500 ticks
pub fn tcb_to_tdb(tcb: i64) -> i64 {
    tcb - TDB_0 + nearest(-L_B * i128::from(tcb), D_B)
}

/// The exact inverse, of TDB + 65,500 ticks
pub fn tdb_to_tcb(tdb: i64) -> i64 {
    let since = tdb + TDB_0;
    since + nearest(L_B * i128::from(since), D_B - L_B)
}
