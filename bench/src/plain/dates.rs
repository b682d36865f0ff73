//! Two-part Julian dates read, and ticks written as dates.

use super::Refusal;
use super::scales::valid;

const DAY: i64 = 86_400_000_000_000;
/// JD 2443144.5003725, in ticks
const ORIGIN: i128 = 211_087_684_832_184_000_000;
/// JD 2443144.5, in ticks before the origin
const MIDNIGHT: i64 = 32_184_000_000;

/// A double's digits with its sign, and how many of them are below one.
fn apart(days: f64) -> (i64, i32) {
    let bits = days.to_bits();
    let field = (bits >> 52) as i32 & 0x7ff;
    let low = bits as i64 & ((1 << 52) - 1);
    let digits = if field == 0 { low } else { low | 1 << 52 };
    let signed = if days.is_sign_negative() {
        -digits
    } else {
        digits
    };
    (signed, 1075 - field.max(1))
}

/// The exact sum of both parts, to the nearest tick. The coarser part's places hold every half, so
/// the finer one is cut there. Where both are below a minute, the sum is before every valid tick.
fn ticks(first: f64, second: f64) -> i128 {
    let (a, b) = (apart(first), apart(second));
    let ((coarse, places), (fine, more)) = if a.1 <= b.1 { (a, b) } else { (b, a) };
    if places > 64 {
        return 0;
    }
    let day = i128::from(DAY);
    let cut = (i128::from(fine) * day) >> (more - places).min(127);
    (((i128::from(coarse) * day + cut) >> (places - 1)) + 1) >> 1
}

pub fn read(first: f64, second: f64) -> Result<i64, Refusal> {
    let parts = [first, second];
    if let Some(part) = parts.iter().position(|part| !part.is_finite()) {
        return Err(Refusal::new(2, part as u64));
    }
    if let Some(part) = parts.iter().position(|part| part.abs() > 5_000_000.0) {
        return Err(Refusal::new(3, part as u64));
    }
    match i64::try_from(ticks(first, second) - ORIGIN) {
        Ok(tick) if valid(tick) => Ok(tick),
        _ => Err(Refusal::new(4, 0)),
    }
}

#[inline(never)]
pub fn write(tick: i64) -> Result<(f64, f64), Refusal> {
    if !valid(tick) {
        return Err(Refusal::new(4, 0));
    }
    let since = tick + MIDNIGHT;
    let days = since.div_euclid(DAY);
    let rest = since.rem_euclid(DAY);
    Ok((2_443_144.5 + days as f64, rest as f64 / DAY as f64))
}
