//! The inputs that all comparisons share: tables, judged once by second, with
//! ticks that suit them.

use crate::blocks;
use crate::generate::{
    Random, accepted_tables, broken_tables, doubly_broken_table, edge_ticks, random_tick,
    table_ticks,
};
use crate::table::{Judged, Table};

/// A table of the kind that a host would load.
const REAL: &[u8] = include_bytes!("../../data/real.blk");

/// One table's bytes, second's own judgement, and ticks to convert.
pub struct Staged {
    pub bytes: Vec<u8>,
    pub judged: Judged,
    pub ticks: Vec<i64>,
}

/// How much is compared: tables, conversions for each table, and dates split in
/// two around a half of a tick.
#[derive(Clone, Copy, Debug)]
pub struct Size {
    pub tables: usize,
    pub conversions: usize,
    pub splits: u64,
}

impl Size {
    /// Dates, seconds or ticks where there is no table.
    pub fn readings(self) -> usize {
        self.tables * self.conversions
    }
}

pub struct Stage {
    pub seed: u64,
    pub size: Size,
    /// Every accepted table generated, the real one first.
    pub accepted: Vec<Table>,
    /// Every image to be judged: accepted, broken in one way, and in two.
    pub images: Vec<Vec<u8>>,
    /// A smaller choice of images, and no table at all, for conversions.
    pub staged: Vec<Staged>,
}

impl Stage {
    pub fn new(seed: u64, size: Size) -> Stage {
        let mut random = Random::new(seed);
        let mut accepted = vec![blocks::judge(REAL).expect("the real table is accepted")];
        accepted.extend(accepted_tables(&mut random, size.tables));
        let mut images = Vec::new();
        let mut chosen = Vec::new();
        for (i, table) in accepted.iter().enumerate() {
            // No table at all, once in a while.
            if i % 16 == 0 {
                chosen.push(Vec::new());
            }
            let image = blocks::image(table);
            let broken = broken_tables(&mut random, table);
            // In turn over all of them, so that every refusal is met.
            chosen.push(image.clone());
            chosen.push(broken[chosen.len() % broken.len()].bytes.clone());
            chosen.push(broken[random.index(broken.len())].bytes.clone());
            images.push(image);
            images.extend(broken.into_iter().map(|broken| broken.bytes));
            images.extend((0..4).map(|_| doubly_broken_table(&mut random, table)));
        }
        let staged = chosen.into_iter().map(|bytes| staged(&mut random, bytes));
        Stage {
            seed,
            size,
            staged: staged.collect(),
            accepted,
            images,
        }
    }

    /// For a path that never looks at it any table will do: most often none, at
    /// times one that is accepted or refused.
    pub fn any_table(&self, random: &mut Random) -> &[u8] {
        match random.index(16) {
            0 => &self.staged[random.index(self.staged.len())].bytes,
            1 => &[1],
            _ => &[],
        }
    }
}

fn staged(random: &mut Random, bytes: Vec<u8>) -> Staged {
    let judged = blocks::judge(&bytes);
    let mut ticks = edge_ticks();
    ticks.extend((0..50).map(|_| random_tick(random)));
    if let Ok(table) = &judged {
        // Weighed so that most ticks lie in the table.
        let inside = table_ticks(random, table);
        ticks.truncate(inside.len() / 3);
        ticks.extend(inside);
    }
    Staged {
        bytes,
        judged,
        ticks,
    }
}

/// Codes that are no scale's, just and far above 6.
const BEYOND: [u32; 9] = [7, 8, 255, 256, 259, 65_539, 1 << 31, u32::MAX - 2, u32::MAX];

/// The codes of a case: all 49 pairs of 0 to 6 in turn, then some with a code
/// beyond these in either place or in both.
pub fn codes_in_turn(random: &mut Random, case: u64) -> (u32, u32) {
    let (beyond, right) = (random.pick(&BEYOND), random.index(7) as u32);
    match case % 55 {
        pair @ 0..49 => (pair as u32 / 7, pair as u32 % 7),
        49 | 50 => (beyond, right),
        51 | 52 => (right, beyond),
        _ => (beyond, random.pick(&BEYOND)),
    }
}

#[cfg(test)]
mod tests {
    use super::*;
    use std::collections::BTreeSet;

    #[test]
    fn every_pair_of_codes_comes_and_some_beyond() {
        let mut random = Random::new(70);
        let codes: BTreeSet<(u32, u32)> = (0..55)
            .map(|case| codes_in_turn(&mut random, case))
            .collect();
        assert!((0..49).all(|pair| codes.contains(&(pair / 7, pair % 7))));
        let some = |wanted: &dyn Fn(bool, bool) -> bool| {
            codes.iter().any(|(from, to)| wanted(*from > 6, *to > 6))
        };
        assert!(some(&|from, to| from && !to));
        assert!(some(&|from, to| !from && to));
        assert!(some(&|from, to| from && to));
    }
}
