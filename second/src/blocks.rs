//! A table as blocks: judging, reading and writing.

use crate::refusal::{self, Refusal};
use crate::table::{Judged, Table};

pub const BLOCK: usize = 512;
const LEAST_BLOCKS: usize = 2;
pub const GREATEST_BLOCKS: usize = 121;
/// "from byte 8, 128 bytes a granule, sixteen 8-byte coefficients"
pub const FIRST_GRANULE: usize = 8;
pub const GRANULE_BYTES: usize = 128;
const COEFFICIENT_PLACES: usize = 16;
const GRANULES_PER_BLOCK: u32 = 3;
/// Bytes 508..511 hold the check.
pub const CHECK: usize = 508;
const EDITION: u8 = 1;
const HEAD_KIND: u8 = 1;
const DATA_KIND: u8 = 2;
/// Block 0's last named byte before the check is 27.
pub const HEAD_END: usize = 28;

fn bytes_at<const N: usize>(block: &[u8], at: usize) -> [u8; N] {
    block[at..at + N].try_into().expect("inside the block")
}

/// "Check: bytes 0..507 as 254 words of 16 bits, w_0 first. A = sum of w_i mod
/// 65535, B = sum of (254−i)·w_i mod 65535; Bytes 508..509 hold A, 510..511
/// hold B."
pub fn check(block: &[u8]) -> [u8; 4] {
    let (mut a, mut b) = (0u64, 0u64);
    for i in 0..254 {
        let word = u64::from(u16::from_le_bytes(bytes_at(block, 2 * i)));
        a += word;
        b += (254 - i as u64) * word;
    }
    let [a0, a1] = ((a % 65_535) as u16).to_le_bytes();
    let [b0, b1] = ((b % 65_535) as u16).to_le_bytes();
    [a0, a1, b0, b1]
}

/// Writes the check that belongs to the block's other bytes.
pub fn seal(block: &mut [u8]) {
    let check = check(block);
    block[CHECK..].copy_from_slice(&check);
}

/// "1 plus G/3 rounded up"
pub fn blocks_needed(count: u32) -> u64 {
    1 + u64::from(count.div_ceil(GRANULES_PER_BLOCK))
}

/// "Byte 2 how many granules (3, in the last block what is left, 1 to 3)"
fn granules_in_block(count: u32, number: usize) -> u32 {
    let before = GRANULES_PER_BLOCK * (number as u32 - 1);
    (count - before).min(GRANULES_PER_BLOCK)
}

/// Judges a table's bytes: 10, 11 over all blocks, 12 for block 0, 13, 12 for
/// the others, then 14, 15 and 16 over all granules.
pub fn judge(bytes: &[u8]) -> Judged {
    let refused = |number, place: usize| Err(Refusal::new(number, place as u64));
    let blocks: Vec<&[u8]> = bytes.chunks(BLOCK).collect();
    let whole = bytes.len().is_multiple_of(BLOCK);
    if !whole || !(LEAST_BLOCKS..=GREATEST_BLOCKS).contains(&blocks.len()) {
        return refused(refusal::NOT_WHOLE_BLOCKS, 0);
    }
    let wrong_check = |block: &&[u8]| block[CHECK..] != check(block);
    if let Some(number) = blocks.iter().position(wrong_check) {
        return refused(refusal::CHECK_WRONG, number);
    }
    if !is_head_right(blocks[0]) {
        return refused(refusal::BYTE_WRONG, 0);
    }
    let mut table = head_numbers(blocks[0]);
    if !table.keeps_bounds() || blocks.len() as u64 != blocks_needed(table.count) {
        return refused(refusal::BOUND_BROKEN, 0);
    }
    let wrong_data = |number: &usize| !is_data_right(&table, blocks[*number], *number);
    if let Some(number) = (1..blocks.len()).find(wrong_data) {
        return refused(refusal::BYTE_WRONG, number);
    }
    table.coefficients = coefficients(&table, &blocks);
    table.judge_granules()?;
    Ok(table)
}

/// "Bytes 0 kind, 1 edition (1, the same in every block), 4..7 block number
/// from 0", and byte 3 is not named.
fn is_frame_right(block: &[u8], kind: u8, number: usize) -> bool {
    block[0] == kind
        && block[1] == EDITION
        && block[3] == 0
        && u32::from_le_bytes(bytes_at(block, 4)) as usize == number
}

fn is_head_right(block: &[u8]) -> bool {
    is_frame_right(block, HEAD_KIND, 0) && block[HEAD_END..CHECK].iter().all(|b| *b == 0)
}

/// "Block 0: kind 1; byte 2 degree; 8..15 S; 16..23 H; 24..27 G."
fn head_numbers(block: &[u8]) -> Table {
    Table {
        degree: u32::from(block[2]),
        start: i64::from_le_bytes(bytes_at(block, 8)),
        length: i64::from_le_bytes(bytes_at(block, 16)),
        count: u32::from_le_bytes(bytes_at(block, 24)),
        coefficients: Vec::new(),
    }
}

/// Where coefficient k of a block's granule begins.
pub fn coefficient_at(granule_in_block: usize, k: usize) -> usize {
    FIRST_GRANULE + GRANULE_BYTES * granule_in_block + 8 * k
}

/// "Others: kind 2; byte 2 how many granules", "those above the degree zero",
/// and "Bytes not named are zero."
fn is_data_right(table: &Table, block: &[u8], number: usize) -> bool {
    let granules = granules_in_block(table.count, number);
    if !is_frame_right(block, DATA_KIND, number) || u32::from(block[2]) != granules {
        return false;
    }
    let zero = |from: usize, to: usize| block[from..to].iter().all(|b| *b == 0);
    let above_degree = |granule: usize| {
        let first = coefficient_at(granule, table.degree as usize + 1);
        zero(first, coefficient_at(granule, COEFFICIENT_PLACES))
    };
    let granules = granules as usize;
    (0..granules).all(above_degree) && zero(coefficient_at(granules, 0), CHECK)
}

fn coefficients(table: &Table, blocks: &[&[u8]]) -> Vec<i64> {
    let per_block = GRANULES_PER_BLOCK as usize;
    let one = |g: usize, k: usize| {
        let at = coefficient_at(g % per_block, k);
        i64::from_le_bytes(bytes_at(blocks[1 + g / per_block], at))
    };
    (0..table.count as usize)
        .flat_map(|g| (0..=table.degree as usize).map(move |k| one(g, k)))
        .collect()
}

/// Reading: "hands the coefficients into a list of exactly G·(n+1); there 8
/// comes after the table's own numbers."
pub fn read(bytes: &[u8], list_length: usize) -> Judged {
    let table = judge(bytes)?;
    if table.coefficients.len() != list_length {
        return Err(Refusal::new(refusal::LENT_LENGTHS, 0));
    }
    Ok(table)
}

/// How many coefficients the given G and degree want, "even where these break
/// a bound": up to 2^64, so in u128.
pub fn coefficients_needed(count: u32, degree: u32) -> u128 {
    u128::from(count) * (u128::from(degree) + 1)
}

/// Writing: 8, then "refuses with 13 to 16 as reading does".
pub fn write(table: &Table, buffer_length: usize) -> Result<Vec<u8>, Refusal> {
    let wanted = coefficients_needed(table.count, table.degree);
    let size = blocks_needed(table.count) * BLOCK as u64;
    if table.coefficients.len() as u128 != wanted || buffer_length as u64 != size {
        return Err(Refusal::new(refusal::LENT_LENGTHS, 0));
    }
    if !table.keeps_bounds() {
        return Err(Refusal::new(refusal::BOUND_BROKEN, 0));
    }
    table.judge_granules()?;
    Ok(image(table))
}

/// The block image of a table whose list fits its numbers; 13 to 16 are not
/// asked here.
pub fn image(table: &Table) -> Vec<u8> {
    let mut image = vec![0u8; blocks_needed(table.count) as usize * BLOCK];
    for (number, block) in image.chunks_mut(BLOCK).enumerate() {
        block[1] = EDITION;
        block[4..8].copy_from_slice(&(number as u32).to_le_bytes());
        if number == 0 {
            write_head(table, block);
        } else {
            write_data(table, block, number);
        }
        seal(block);
    }
    image
}

fn write_head(table: &Table, block: &mut [u8]) {
    block[0] = HEAD_KIND;
    block[2] = table.degree as u8;
    block[8..16].copy_from_slice(&table.start.to_le_bytes());
    block[16..24].copy_from_slice(&table.length.to_le_bytes());
    block[24..28].copy_from_slice(&table.count.to_le_bytes());
}

fn write_data(table: &Table, block: &mut [u8], number: usize) {
    let granules = granules_in_block(table.count, number) as usize;
    block[0] = DATA_KIND;
    block[2] = granules as u8;
    for granule in 0..granules {
        let g = GRANULES_PER_BLOCK as usize * (number - 1) + granule;
        for (k, c) in table.granule_coefficients(g).iter().enumerate() {
            let at = coefficient_at(granule, k);
            block[at..at + 8].copy_from_slice(&c.to_le_bytes());
        }
    }
}
