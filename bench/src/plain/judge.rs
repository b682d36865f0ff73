//! Judging the bytes of a table: refusals 10 to 16 in their order, and the decoded table.

use super::Refusal;
use super::scales::valid;
use super::table::Table;

const BLOCK: usize = 512;
const GRANULE: usize = 128;
const HEAD: usize = 8;
const LARGEST: u64 = 1 << 40;

fn refuse<T>(number: u32, place: usize) -> Result<T, Refusal> {
    Err(Refusal::new(number, place as u64))
}

fn pair(bytes: &[u8], at: usize) -> u32 {
    u16::from_le_bytes(bytes[at..at + 2].try_into().unwrap()).into()
}

fn quad(bytes: &[u8], at: usize) -> u32 {
    u32::from_le_bytes(bytes[at..at + 4].try_into().unwrap())
}

fn number(bytes: &[u8], at: usize) -> i64 {
    i64::from_le_bytes(bytes[at..at + 8].try_into().unwrap())
}

fn zero(bytes: &[u8]) -> bool {
    bytes.iter().fold(0, |all, byte| all | byte) == 0
}

fn checked(block: &[u8]) -> bool {
    let (mut a, mut b) = (0, 0);
    for (i, bytes) in block[..508].chunks_exact(2).enumerate() {
        let word = pair(bytes, 0);
        a += word;
        b += (254 - i as u32) * word;
    }
    a % 65_535 == pair(block, 508) && b % 65_535 == pair(block, 510)
}

/// Bytes 0, 1, 3 and 4..7.
fn headed(block: &[u8], kind: u8, k: usize) -> bool {
    block[0] == kind && block[1] == 1 && block[3] == 0 && quad(block, 4) as usize == k
}

fn bounded(table: &Table) -> bool {
    table.degree <= 15
        && (1_000_000_000..=1 << 50).contains(&table.length)
        && (1..=360).contains(&table.count)
        && valid(table.start)
        && valid(table.last())
}

/// Block k above 0, which holds so many granules.
fn formed(block: &[u8], k: usize, held: usize, width: usize) -> bool {
    headed(block, 2, k)
        && usize::from(block[2]) == held
        && block[HEAD..HEAD + held * GRANULE]
            .chunks_exact(GRANULE)
            .all(|granule| zero(&granule[8 * width..]))
        && zero(&block[HEAD + held * GRANULE..508])
}

fn weight(granule: &[i64]) -> u64 {
    let squares = (0u64..).map(|k| k * k);
    granule
        .iter()
        .zip(squares)
        .map(|(c, square)| square * c.unsigned_abs())
        .sum()
}

fn alternating(granule: &[i64]) -> i64 {
    granule.iter().rev().fold(0, |sum, c| c - sum)
}

/// Refusals 14, 15 and 16.
fn granules(table: &Table) -> Result<(), Refusal> {
    let width = table.degree as usize + 1;
    let all = || table.coefficients.chunks_exact(width);
    if let Some(g) = all().position(|granule| granule.iter().any(|c| c.unsigned_abs() > LARGEST)) {
        return refuse(14, g);
    }
    let most = LARGEST.min(table.length as u64);
    if let Some(g) = all().position(|granule| weight(granule) > most) {
        return refuse(15, g);
    }
    let mut joins = all().zip(all().skip(1));
    let apart = |(before, after): (&[i64], &[i64])| {
        before.iter().sum::<i64>().abs_diff(alternating(after)) > 1024
    };
    match joins.position(apart) {
        Some(g) => refuse(16, g + 1),
        None => Ok(()),
    }
}

pub fn judge(bytes: &[u8]) -> Result<Table, Refusal> {
    if !bytes.len().is_multiple_of(BLOCK) || !(2..=121).contains(&(bytes.len() / BLOCK)) {
        return refuse(10, 0);
    }
    if let Some(k) = bytes.chunks_exact(BLOCK).position(|block| !checked(block)) {
        return refuse(11, k);
    }
    if !headed(bytes, 1, 0) || !zero(&bytes[28..508]) {
        return refuse(12, 0);
    }
    let mut table = Table {
        start: number(bytes, 8),
        length: number(bytes, 16),
        count: quad(bytes, 24),
        degree: bytes[2].into(),
        coefficients: Vec::new(),
    };
    if !bounded(&table) || bytes.len() / BLOCK != 1 + (table.count as usize).div_ceil(3) {
        return refuse(13, 0);
    }
    let width = table.degree as usize + 1;
    table
        .coefficients
        .reserve_exact(table.count as usize * width);
    let mut left = table.count as usize;
    for (k, block) in bytes.chunks_exact(BLOCK).enumerate().skip(1) {
        let held = left.min(3);
        if !formed(block, k, held, width) {
            return refuse(12, k);
        }
        left -= held;
        for granule in block[HEAD..].chunks_exact(GRANULE).take(held) {
            let stored = granule.chunks_exact(8).take(width);
            table.coefficients.extend(stored.map(|c| number(c, 0)));
        }
    }
    granules(&table)?;
    Ok(table)
}
