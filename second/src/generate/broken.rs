//! Tables broken in each way that refusals 10 to 16 name.

use super::Random;
use crate::blocks::{BLOCK, CHECK, GREATEST_BLOCKS, HEAD_END, coefficient_at, image, seal};
use crate::refusal;
use crate::scales::GREATEST_EPOCH;
use crate::table::{
    GREATEST_COEFFICIENT, GREATEST_COUNT, GREATEST_GAP, GREATEST_LENGTH, GREATEST_WEIGHT,
    LEAST_LENGTH, Table,
};

/// A table's bytes and the refusal that its one fault deserves.
#[derive(Clone, Debug)]
pub struct Broken {
    pub bytes: Vec<u8>,
    pub number: u32,
    pub place: u64,
    pub way: &'static str,
}

struct Ways<'a> {
    random: &'a mut Random,
    table: &'a Table,
    image: Vec<u8>,
    list: Vec<Broken>,
}

/// One broken table for each way that the given accepted table can be broken.
pub fn broken_tables(random: &mut Random, table: &Table) -> Vec<Broken> {
    let image = image(table);
    let mut ways = Ways {
        random,
        table,
        image,
        list: Vec::new(),
    };
    ways.lengths();
    ways.checks();
    ways.head_bytes();
    ways.bounds();
    ways.block_counts();
    ways.data_frames();
    ways.data_zeros();
    ways.coefficients();
    ways.weights();
    ways.joins();
    ways.list
}

/// One of the faults, each number as likely as another where there is one.
fn any_fault(random: &mut Random, faults: &[Broken]) -> Broken {
    loop {
        let number = random.between(10, 16) as u32;
        let of_number: Vec<&Broken> = faults.iter().filter(|b| b.number == number).collect();
        if !of_number.is_empty() {
            return random.pick(&of_number).clone();
        }
    }
}

/// Two faults in one image, for the order of the tests; no answer is foretold.
pub fn doubly_broken_table(random: &mut Random, table: &Table) -> Vec<u8> {
    let faults = broken_tables(random, table);
    let first = any_fault(random, &faults);
    let second = any_fault(random, &faults);
    let original = image(table);
    let mut bytes = first.bytes.clone();
    for (i, byte) in second.bytes.iter().enumerate() {
        if i < bytes.len() && original.get(i) != Some(byte) {
            bytes[i] = *byte;
        }
    }
    if first.number != refusal::CHECK_WRONG && second.number != refusal::CHECK_WRONG {
        bytes.chunks_exact_mut(BLOCK).for_each(seal);
    }
    bytes
}

impl Ways<'_> {
    fn add(&mut self, number: u32, place: usize, way: &'static str, bytes: Vec<u8>) {
        self.list.push(Broken {
            bytes,
            number,
            place: place as u64,
            way,
        });
    }

    fn blocks(&self) -> usize {
        self.image.len() / BLOCK
    }

    /// The image with one block changed and sealed again.
    fn changed(&self, block: usize, change: impl FnOnce(&mut [u8])) -> Vec<u8> {
        let mut bytes = self.image.clone();
        let block = &mut bytes[block * BLOCK..(block + 1) * BLOCK];
        change(block);
        seal(block);
        bytes
    }

    /// 10: "bytes not 2 to 121 whole blocks".
    fn lengths(&mut self) {
        let inside = self.random.index(BLOCK - 1) + 1;
        let cut = self.image.len() - inside;
        for length in [0, 1, BLOCK - 1, BLOCK, BLOCK + 1, cut] {
            let bytes = self.image[..length].to_vec();
            self.add(refusal::NOT_WHOLE_BLOCKS, 0, "too short or cut", bytes);
        }
        for length in [self.image.len() + inside, (GREATEST_BLOCKS + 1) * BLOCK] {
            let mut bytes = self.image.clone();
            bytes.resize(length, 0);
            self.add(refusal::NOT_WHOLE_BLOCKS, 0, "too long", bytes);
        }
    }

    /// 11: any byte changed by one bit, and 65535 in the place of a residue 0.
    fn checks(&mut self) {
        let (low, high) = (self.random.index(self.blocks()), self.blocks() - 1);
        for within in [self.random.index(CHECK), CHECK + self.random.index(4)] {
            let mut bytes = self.image.clone();
            let bit = 1 << self.random.index(8);
            bytes[low * BLOCK + within] ^= bit;
            bytes[high * BLOCK + within] ^= if high == low { 0 } else { bit };
            self.add(refusal::CHECK_WRONG, low, "a bit changed", bytes);
        }
        // Only an empty block's sums are sure to be 0.
        for check_bytes in [0..2, 2..4] {
            let mut bytes = self.image.clone();
            let block = &mut bytes[low * BLOCK..(low + 1) * BLOCK];
            block.fill(0);
            block[CHECK..][check_bytes].fill(255);
            self.add(refusal::CHECK_WRONG, low, "65535 for 0", bytes);
        }
    }

    /// 12 for block 0, where a broken bound must not be told first.
    fn head_bytes(&mut self) {
        let inside = HEAD_END + self.random.index(CHECK - HEAD_END);
        let places = [0, 1, 3, 4, 5, 6, 7, HEAD_END, inside, CHECK - 1];
        for place in places {
            let bit = 1 << self.random.index(8);
            let degree = self.random.pick(&[self.table.degree as u8, 16]);
            let bytes = self.changed(0, |block| {
                block[place] ^= bit;
                block[2] = degree;
            });
            self.add(refusal::BYTE_WRONG, 0, "block 0", bytes);
        }
    }

    /// 13: each bound, by one and by far.
    fn bounds(&mut self) {
        let last_start = GREATEST_EPOCH - i64::from(self.table.count) * self.table.length;
        let starts = [-GREATEST_EPOCH - 1, last_start + 1, i64::MIN, i64::MAX];
        let lengths = [
            LEAST_LENGTH - 1,
            GREATEST_LENGTH + 1,
            0,
            -1,
            i64::MIN,
            i64::MAX,
        ];
        let counts = [0, GREATEST_COUNT + 1, u32::MAX, 1 << 31];
        let mut heads: Vec<(usize, Vec<u8>)> = Vec::new();
        heads.extend([16, 17, 255].map(|degree: u8| (2, vec![degree])));
        heads.extend(starts.map(|start| (8, start.to_le_bytes().to_vec())));
        heads.extend(lengths.map(|length| (16, length.to_le_bytes().to_vec())));
        heads.extend(counts.map(|count| (24, count.to_le_bytes().to_vec())));
        for (at, number) in heads {
            let bytes = self.changed(0, |block| {
                block[at..at + number.len()].copy_from_slice(&number);
            });
            self.add(refusal::BOUND_BROKEN, 0, "bound", bytes);
        }
    }

    /// 13: "the blocks aren't 1 plus G/3 rounded up".
    fn block_counts(&mut self) {
        let blocks = self.blocks();
        if blocks > 2 {
            let bytes = self.image[..(blocks - 1) * BLOCK].to_vec();
            self.add(refusal::BOUND_BROKEN, 0, "a block too few", bytes);
        }
        if blocks < GREATEST_BLOCKS {
            let mut bytes = self.image.clone();
            let mut block = self.image[(blocks - 1) * BLOCK..].to_vec();
            block[4..8].copy_from_slice(&(blocks as u32).to_le_bytes());
            seal(&mut block);
            bytes.extend(block);
            self.add(refusal::BOUND_BROKEN, 0, "a block too many", bytes);
        }
    }

    /// 12 for the others: kind, edition, count, byte 3 and number.
    fn data_frames(&mut self) {
        for place in 0..8 {
            let block = 1 + self.random.index(self.blocks() - 1);
            let bit = 1 << self.random.index(8);
            let bytes = self.changed(block, |block| block[place] ^= bit);
            self.add(refusal::BYTE_WRONG, block, "data block's frame", bytes);
        }
        let last = self.blocks() - 1;
        for count in 0..=4 {
            if count != self.image[last * BLOCK + 2] {
                let bytes = self.changed(last, |block| block[2] = count);
                self.add(refusal::BYTE_WRONG, last, "count of granules", bytes);
            }
        }
    }

    /// 12 for the others: coefficients above the degree, unused granule places
    /// and the bytes past the granules.
    fn data_zeros(&mut self) {
        let block = 1 + self.random.index(self.blocks() - 1);
        let last = self.blocks() - 1;
        let used = usize::from(self.image[last * BLOCK + 2]);
        let past = coefficient_at(3, 0);
        let mut places = vec![
            (block, past, "first past the granules"),
            (
                block,
                past + self.random.index(CHECK - past),
                "past the granules",
            ),
            (block, CHECK - 1, "last before the check"),
        ];
        if self.table.degree < 15 {
            let first = coefficient_at(0, self.table.degree as usize + 1);
            let end = coefficient_at(0, 16);
            places.push((block, first, "first above the degree"));
            places.push((
                block,
                first + self.random.index(end - first),
                "above the degree",
            ));
        }
        if used < 3 {
            let first = coefficient_at(used, 0);
            places.push((last, first, "first unused granule place"));
            places.push((
                last,
                first + self.random.index(past - first),
                "unused granule place",
            ));
        }
        for (block, place, way) in places {
            let bit = 1 << self.random.index(8);
            let bytes = self.changed(block, |block| block[place] ^= bit);
            self.add(refusal::BYTE_WRONG, block, way, bytes);
        }
    }

    fn with_granule(&self, g: usize, granule: &[i64]) -> Vec<u8> {
        let mut table = self.table.clone();
        let size = granule.len();
        table.coefficients[g * size..(g + 1) * size].copy_from_slice(granule);
        image(&table)
    }

    /// 14: one more than 2^40, and by far, either way.
    fn coefficients(&mut self) {
        let over = GREATEST_COEFFICIENT + 1;
        for coefficient in [over, -over, i64::MAX, i64::MIN] {
            let g = self.random.index(self.table.count as usize);
            let mut granule = self.table.granule(g).coefficients.to_vec();
            let k = self.random.index(granule.len());
            granule[k] = coefficient;
            let bytes = self.with_granule(g, &granule);
            self.add(refusal::COEFFICIENT, g, "coefficient", bytes);
        }
    }

    /// 15: one more than the lesser of 2^40 and H. A weight of more than 2^40
    /// without a coefficient beyond it takes a degree of at least 2.
    fn weights(&mut self) {
        let g = self.random.index(self.table.count as usize);
        let mut granule = self.table.granule(g).coefficients.to_vec();
        let bound = self.table.length.min(GREATEST_WEIGHT);
        granule[1..].fill(0);
        match granule.len() {
            1 => return,
            2 if bound == GREATEST_WEIGHT => return,
            2 => granule[1] = self.random.signed(bound + 1),
            _ => {
                granule[1] = self.random.signed((bound + 1) % 4);
                granule[2] = self.random.signed((bound + 1) / 4);
            }
        }
        let bytes = self.with_granule(g, &granule);
        self.add(refusal::WEIGHT, g, "weight one above", bytes);
    }

    /// 16: a gap of 1025 either way, where c_0 stays within its bound.
    fn joins(&mut self) {
        if self.table.count < 2 {
            return;
        }
        let gap = GREATEST_GAP as i64 + 1;
        for gap in [gap, -gap] {
            let g = 1 + self.random.index(self.table.count as usize - 1);
            let plain = self.table.granule(g - 1).plain_sum() as i64;
            let alternating = self.table.granule(g).alternating_sum() as i64;
            let mut granule = self.table.granule(g).coefficients.to_vec();
            granule[0] += plain + gap - alternating;
            if granule[0].abs() <= GREATEST_COEFFICIENT {
                let bytes = self.with_granule(g, &granule);
                self.add(refusal::JOIN, g, "join of 1025", bytes);
            }
        }
    }
}

#[cfg(test)]
mod tests {
    use super::*;
    use crate::blocks::judge;
    use crate::generate::accepted_tables;
    use crate::refusal::Refusal;
    use std::collections::BTreeSet;

    #[test]
    fn every_broken_table_is_refused_as_foretold() {
        let mut random = Random::new(10);
        let mut met = BTreeSet::new();
        for table in accepted_tables(&mut random, 96) {
            for broken in broken_tables(&mut random, &table) {
                let expected = Refusal::new(broken.number, broken.place);
                assert_eq!(judge(&broken.bytes), Err(expected), "{}", broken.way);
                met.insert((broken.number, broken.way));
            }
        }
        assert_eq!(met.len(), 20, "{met:?}");
    }

    #[test]
    fn two_faults_meet_many_refusals() {
        let mut random = Random::new(11);
        let (mut refused, mut met) = (0, BTreeSet::new());
        for table in accepted_tables(&mut random, 128) {
            if let Err(refusal) = judge(&doubly_broken_table(&mut random, &table)) {
                refused += 1;
                met.insert(refusal.number);
            }
        }
        // Two changes may undo each other, but seldom.
        assert!(refused >= 124, "{refused}");
        assert_eq!(
            met.into_iter().collect::<Vec<u32>>(),
            [10, 11, 12, 13, 14, 15, 16]
        );
    }
}
