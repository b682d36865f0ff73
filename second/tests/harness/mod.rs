//! What the tests of the comparisons share: a stage, and planted differences.

#[path = "../planted/mod.rs"]
mod planted;

pub use planted::planted;
use second::compare::{Answer, Asked, COMPARISONS, Called, Desk, Ledger, Lent, Reply, Size, Stage};
use std::sync::LazyLock;

pub static STAGE: LazyLock<Stage> = LazyLock::new(|| {
    let size = Size {
        tables: 64,
        conversions: 40,
        splits: 10_000,
    };
    Stage::new(7, size)
});

pub fn compared(name: &str, desk: &mut dyn Desk) -> Ledger {
    let comparison = COMPARISONS
        .iter()
        .find(|c| c.name == name)
        .expect("a comparison");
    comparison.run(desk, &STAGE)
}

#[track_caller]
pub fn is_reported(name: &str, change: impl FnMut(Asked, &Lent, &mut Called)) {
    let ledger = compared(name, &mut planted(change));
    assert!(ledger.different > 0, "{name}");
    assert!(!ledger.first_differences.is_empty());
}

/// The answer of a conversion or a batch.
#[track_caller]
pub fn answer(called: &mut Called) -> &mut Answer {
    match &mut called.reply {
        Reply::Answer(answer) => answer,
        other => panic!("{other:?}"),
    }
}
