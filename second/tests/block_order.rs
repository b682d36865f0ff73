//! A table as blocks: refusals 10 to 12, the lowest place, and the order of all.

mod common;

use common::{both_refuse, flat, refused, table};
use second::blocks::{self, BLOCK, image, judge, seal};

#[test]
fn refusals_10_by_length() {
    let bytes = image(&flat(0, 360));
    assert_eq!(bytes.len(), 121 * BLOCK);
    assert!(judge(&bytes).is_ok());
    for length in [0, 1, 511, 512, 513, 1023, 1025, 121 * BLOCK - 1] {
        assert_eq!(judge(&bytes[..length]), refused(10, 0));
    }
    let longer = [bytes, vec![0; BLOCK]].concat();
    assert_eq!(judge(&longer[..121 * BLOCK + 1]), refused(10, 0));
    assert_eq!(judge(&longer), refused(10, 0));
    assert!(judge(&image(&flat(0, 3))).is_ok());
}

/// Of two faults of one number the lowest block or granule is told.
#[test]
fn the_lowest_is_told() {
    let bytes = image(&flat(1, 9));
    let spoilt = |places: &[usize], sealed: bool| {
        let mut bytes = bytes.clone();
        for block in places {
            bytes[block * BLOCK + 450] = 1;
        }
        if sealed {
            bytes.chunks_exact_mut(BLOCK).for_each(seal);
        }
        judge(&bytes)
    };
    assert_eq!(spoilt(&[3, 2], false), refused(11, 2));
    assert_eq!(spoilt(&[3, 2], true), refused(12, 2));
    assert_eq!(spoilt(&[1, 3], true), refused(12, 1));
    let over = (1 << 40) + 1;
    both_refuse(
        &table(1, 1 << 50, &[&[0, 0], &[0, over], &[over, 0]]),
        14,
        1,
    );
    let heavy = 1_000_000_001;
    both_refuse(
        &table(1, 1_000_000_000, &[&[0, 0], &[0, heavy], &[0, heavy]]),
        15,
        1,
    );
}

/// Each test over all blocks before the next: a later fault is not told while
/// an earlier test refuses.
#[test]
fn the_order_of_10_to_16() {
    let mut bytes = image(&table(
        0,
        1_000_000_000,
        &[&[0], &[0], &[0], &[(1 << 40) + 1]],
    ));
    let block = |number: usize| number * BLOCK..(number + 1) * BLOCK;
    let mut expect = |change: &dyn Fn(&mut [u8]), number, place| {
        change(&mut bytes);
        assert_eq!(judge(&bytes), refused(number, place));
    };
    expect(&|_| {}, 14, 3);
    let spoil = |bytes: &mut [u8], number: usize, at: usize, value: u8| {
        bytes[block(number)][at] = value;
        seal(&mut bytes[block(number)]);
    };
    expect(&|bytes| spoil(bytes, 2, 400, 1), 12, 2);
    expect(&|bytes| spoil(bytes, 1, 3, 1), 12, 1);
    expect(&|bytes| spoil(bytes, 0, 2, 16), 13, 0);
    expect(&|bytes| spoil(bytes, 0, 100, 1), 12, 0);
    expect(&|bytes| bytes[2 * BLOCK + 10] ^= 1, 11, 2);
    expect(&|bytes| bytes[10] ^= 1, 11, 0);
}

/// Every byte of a small image matters: changed and sealed, it is refused or it
/// gives other numbers; changed and not sealed, it is 11.
#[test]
fn every_single_byte_matters() {
    let original = table(1, 1_000_000_000, &[&[1, 2], &[3, 4], &[5, 6], &[7, 8]]);
    let bytes = image(&original);
    for at in 0..bytes.len() {
        for bit in 0..8 {
            let mut changed = bytes.clone();
            changed[at] ^= 1 << bit;
            let number = (at / BLOCK) as u64;
            assert_eq!(judge(&changed), refused(11, number));
            changed.chunks_exact_mut(BLOCK).for_each(seal);
            if at % BLOCK < blocks::CHECK {
                assert_ne!(judge(&changed).as_ref(), Ok(&original), "byte {at}");
            } else {
                assert_eq!(changed, bytes);
            }
        }
    }
}
