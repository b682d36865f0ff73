//! Planted differences in the list of what changed between two tables, and in
//! what is written of it: each is reported.

mod two_tables;

use second::changes::{Entry, changes};
use second::compare::{Called, ChangesAnswer, Lent, bytes_of_ticks};
use second::table::Table;
use two_tables::{answered, is_told, is_told_of_tables, refuse};

/// A difference where two accepted tables get this number: 0, or 8.
#[track_caller]
fn is_told_of(number: u32, change: impl Fn([&Table; 2], &Lent, &mut Called)) {
    is_told_of_tables(|tables, lent, called| {
        if let [Ok(first), Ok(second)] = tables
            && called.reply.number() == number
        {
            change([first, second], lent, called);
        }
    });
}

/// Answers these triples; 8 where there is no room for them.
fn answer(called: &mut Called, lent: &Lent, triples: &[[i64; 3]]) {
    let list = bytes_of_ticks(triples.as_flattened());
    if lent.buffer.len() < list.len() {
        return refuse(called, lent, 8);
    }
    *answered(called) = ChangesAnswer::from(Ok(triples.len()));
    called.buffer = lent.buffer.clone();
    called.buffer[..list.len()].copy_from_slice(&list);
}

/// Another list is answered.
#[track_caller]
fn is_told_of_lists(change: impl Fn(&mut Vec<[i64; 3]>)) {
    is_told_of(0, |[first, second], lent, called| {
        let list = changes(first, second);
        let mut triples = list.iter().map(Entry::numbers).collect();
        change(&mut triples);
        answer(called, lent, &triples);
    });
}

/// Another largest and another sum are found for two granules, or none, which is
/// no entry.
#[track_caller]
fn is_told_of_granules(entry: impl Fn(&[i64], &[i64]) -> Option<(i64, i64)>) {
    is_told_of(0, |tables, lent, called| {
        let one = |g: usize| {
            let [first, second] = tables.map(|table| table.granule_coefficients(g));
            let (largest, sum) = entry(first, second)?;
            Some([g as i64, largest, sum])
        };
        let list: Vec<[i64; 3]> = (0..tables[0].count as usize).filter_map(one).collect();
        answer(called, lent, &list);
    });
}

/// The differences of two granules, signs and all: first less second.
fn differences(first: &[i64], second: &[i64]) -> Vec<i64> {
    let c = |granule: &[i64], k: usize| granule.get(k).copied().unwrap_or(0);
    (0..first.len().max(second.len()))
        .map(|k| c(first, k) - c(second, k))
        .collect()
}

/// The right entry, if these are the differences.
fn entry(differences: &[i64]) -> Option<(i64, i64)> {
    let sizes = differences.iter().map(|difference| difference.abs());
    let largest = sizes.clone().max().unwrap_or(0);
    (largest > 0).then(|| (largest, sizes.sum()))
}

#[test]
fn wrong_numbers_of_an_entry_are_reported() {
    let each = |change: &dyn Fn(&mut [i64; 3])| {
        is_told_of_lists(|list| list.iter_mut().for_each(change));
    };
    each(&|entry| entry.swap(1, 2));
    each(&|entry| entry[1] = entry[2]);
    each(&|entry| entry[2] = entry[1]);
    each(&|entry| entry[0] += 1);
    // In fewer bits than they take.
    for (at, bits) in [(0, 8), (1, 32), (1, 41), (2, 32), (2, 42)] {
        each(&|entry| entry[at] %= 1 << bits);
    }
}

/// The largest, or the sum, is not that of the absolute differences.
#[test]
fn signs_that_count_are_reported() {
    for sign in [1, -1] {
        is_told_of_granules(|first, second| {
            let differences = differences(first, second);
            let (_, sum) = entry(&differences)?;
            let signed = differences.iter().map(|difference| sign * difference);
            Some((signed.max()?, sum))
        });
    }
    is_told_of_granules(|first, second| {
        let differences = differences(first, second);
        let (largest, _) = entry(&differences)?;
        Some((largest, differences.iter().sum::<i64>().abs()))
    });
    // A granule whose differences add up to nothing is taken for the same.
    is_told_of_granules(|first, second| {
        let differences = differences(first, second);
        entry(&differences).filter(|_| differences.iter().sum::<i64>() != 0)
    });
}

#[test]
fn coefficients_that_are_not_compared_are_reported() {
    // A missing one is not counted: in either table, in the first, in the second.
    is_told_of_granules(|first, second| {
        let both = first.len().min(second.len());
        entry(&differences(&first[..both], &second[..both]))
    });
    is_told_of_granules(|first, second| entry(&differences(first, second)[..second.len()]));
    is_told_of_granules(|first, second| entry(&differences(first, second)[..first.len()]));
    // c_0, the last one, or all above some degree.
    is_told_of_granules(|first, second| entry(&differences(first, second)[1..]));
    is_told_of_granules(|first, second| {
        let mut differences = differences(first, second);
        differences.pop();
        entry(&differences)
    });
    for degree in [0, 1, 7, 14] {
        is_told_of_granules(|first, second| {
            let mut differences = differences(first, second);
            differences.truncate(degree + 1);
            entry(&differences)
        });
    }
}

/// Tables of unequal degrees are refused, or are never the same.
#[test]
fn degrees_that_count_are_reported() {
    is_told_of(0, |[first, second], lent, called| {
        if first.degree != second.degree {
            refuse(called, lent, 20);
        }
    });
    is_told_of_granules(|first, second| {
        let nothing = (first.len() != second.len()).then_some((0, 0));
        entry(&differences(first, second)).or(nothing)
    });
}

#[test]
fn granules_left_out_or_out_of_order_are_reported() {
    is_told_of_lists(|list| list.reverse());
    is_told_of_lists(|list| list.truncate(1));
    is_told_of_lists(|list| list.truncate(359));
    is_told_of_lists(|list| list.extend(list.clone().last()));
    for in_block in 0..3 {
        is_told_of_lists(|list| list.retain(|entry| entry[0] % 3 != in_block));
    }
    for granule in [0, 358, 359] {
        is_told_of_lists(|list| list.retain(|entry| entry[0] != granule));
    }
    // The last one, whichever it is.
    is_told_of(0, |[first, second], lent, called| {
        let list = changes(first, second);
        let mut triples: Vec<[i64; 3]> = list.iter().map(Entry::numbers).collect();
        triples.retain(|entry| entry[0] + 1 < first.count.into());
        answer(called, lent, &triples);
    });
}

/// "its length is returned", in triples; on a refusal it is 0.
#[test]
fn a_wrong_count_of_entries_is_reported() {
    is_told(|_, called| answered(called).entries *= 3);
    is_told_of(0, |_, lent, called| {
        answered(called).entries = lent.buffer.len() as u64 / 24;
    });
    is_told_of(8, |[first, second], _, called| {
        answered(called).entries = changes(first, second).len() as u64;
    });
}

/// Where the list that was answered ends, in the buffer's bytes.
fn end(called: &mut Called) -> usize {
    24 * answered(called).entries as usize
}

/// "all or nothing", and "the rest of the buffer stays".
#[test]
fn what_is_written_wrongly_is_reported() {
    is_told(|lent, called| called.buffer = lent.buffer.clone());
    is_told_of(0, |_, _, called| {
        let end = end(called);
        called.buffer[end..].fill(0);
    });
    // One bit: right behind the list, or at the buffer's end.
    is_told_of(0, |_, _, called| {
        let end = end(called);
        if let Some(byte) = called.buffer.get_mut(end) {
            *byte ^= 1;
        }
    });
    is_told_of(0, |_, _, called| {
        let end = end(called);
        if let Some(byte) = called.buffer[end..].last_mut() {
            *byte ^= 128;
        }
    });
    // As much of the list as there is room for, though it is refused.
    is_told_of(8, |[first, second], _, called| {
        let list = changes(first, second);
        let triples: Vec<[i64; 3]> = list.iter().map(Entry::numbers).collect();
        let (bytes, room) = (bytes_of_ticks(triples.as_flattened()), called.buffer.len());
        called.buffer.copy_from_slice(&bytes[..room]);
    });
}

/// "8 exactly when the buffer is shorter than the list."
#[test]
fn a_wrong_room_is_reported() {
    // A longer buffer is refused; one of no whole triples; one that is filled.
    is_told_of(0, |_, lent, called| {
        if lent.buffer.len() > end(called) {
            refuse(called, lent, 8);
        }
    });
    for left in [8, 16] {
        is_told_of(0, |_, lent, called| {
            if lent.buffer.len() % 24 == left {
                refuse(called, lent, 8);
            }
        });
    }
    is_told_of(0, |_, lent, called| {
        if !lent.buffer.is_empty() && lent.buffer.len() == end(called) {
            refuse(called, lent, 8);
        }
    });
    // One that is so many numbers short is accepted; or has a number an entry.
    for short in [1, 2, 3] {
        is_told_of(8, |[first, second], lent, called| {
            let many = changes(first, second).len();
            if lent.buffer.len() / 8 + short == 3 * many {
                *answered(called) = ChangesAnswer::from(Ok(many));
            }
        });
    }
    is_told_of(8, |[first, second], lent, called| {
        let many = changes(first, second).len();
        if lent.buffer.len() / 8 == many {
            *answered(called) = ChangesAnswer::from(Ok(many));
        }
    });
}
