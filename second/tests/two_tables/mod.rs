//! Planted differences in comparing two tables.

#[path = "../planted/mod.rs"]
mod planted;

use planted::planted;
use second::changes::PairRefusal;
use second::compare::{Asked, COMPARISONS, Called, ChangesAnswer, Lent, Own, Reply, Size, Stage};
use second::refusal::Refusal;
use second::table::Judged;
use std::sync::LazyLock;

/// A small one: each of its tables is compared with many others.
static STAGE: LazyLock<Stage> = LazyLock::new(|| {
    let size = Size {
        tables: 16,
        conversions: 1,
        splits: 1,
    };
    Stage::new(8, size)
});

#[track_caller]
pub fn answered(called: &mut Called) -> &mut ChangesAnswer {
    match &mut called.reply {
        Reply::Changes(changes) => changes,
        other => panic!("{other:?}"),
    }
}

/// The refusal in place of any answer, place 0; nothing is written then.
pub fn refuse(called: &mut Called, lent: &Lent, number: u32) {
    let (refusal, which) = (Refusal::new(number, 0), 0);
    *answered(called) = ChangesAnswer::from(Err(PairRefusal { refusal, which }));
    called.buffer = lent.buffer.clone();
}

/// The change of what each call did is reported.
#[track_caller]
pub fn is_told(mut change: impl FnMut(&Lent, &mut Called)) {
    let change = |_: Asked, lent: &Lent, called: &mut Called| change(lent, called);
    let name = "colliedash_compare_tables";
    let comparison = COMPARISONS.iter().find(|c| c.name == name);
    let ledger = comparison
        .expect("a comparison")
        .run(&mut planted(change), &STAGE);
    assert!(ledger.different > 0);
    assert!(!ledger.first_differences.is_empty());
}

/// The same for a change that depends on both tables.
#[track_caller]
pub fn is_told_of_tables(change: impl Fn([&Judged; 2], &Lent, &mut Called)) {
    let mut own = Own::default();
    is_told(|lent, called| change(own.both_judged(lent), lent, called));
}
