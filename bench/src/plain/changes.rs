//! What changed between two tables: each granule that differs, with the largest coefficient
//! difference and the sum of the absolute differences.

use super::Refusal;
use super::judge::judge;
use super::table::Table;

/// Granule, largest and sum.
type Entry = [i64; 3];

/// The entry of granule g where it differs, "a missing coefficient counting as zero".
fn change(g: i64, first: &[i64], second: &[i64]) -> Option<Entry> {
    if first == second {
        return None;
    }
    let both = first.len().min(second.len());
    let differences = first.iter().zip(second).map(|(c, d)| (c - d).abs());
    let missing = first[both..].iter().chain(&second[both..]).map(|c| c.abs());
    let (largest, sum) = differences
        .chain(missing)
        .fold((0, 0), |(largest, sum), by| (by.max(largest), sum + by));
    (largest > 0).then_some([g, largest, sum])
}

fn granules(table: &Table) -> impl Iterator<Item = &[i64]> {
    table.coefficients.chunks_exact(table.degree as usize + 1)
}

/// Writes the entries to the front of the list, first into one of our own, and tells how many they
/// are; or the refusal, and which table got it.
pub fn compare(first: &[u8], second: &[u8], entries: &mut [i64]) -> Result<usize, (Refusal, u32)> {
    let first = judge(first).map_err(|refusal| (refusal, 0))?;
    let second = judge(second).map_err(|refusal| (refusal, 1))?;
    if (first.start, first.length, first.count) != (second.start, second.length, second.count) {
        return Err((Refusal::new(20, 0), 0));
    }
    let changes: Vec<Entry> = (0..)
        .zip(granules(&first).zip(granules(&second)))
        .filter_map(|(g, (first, second))| change(g, first, second))
        .collect();
    match entries.get_mut(..3 * changes.len()) {
        Some(front) => front.copy_from_slice(changes.as_flattened()),
        None => return Err((Refusal::new(8, 0), 0)),
    }
    Ok(changes.len())
}
