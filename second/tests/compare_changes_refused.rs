//! Planted differences in what refuses two tables to be compared, and in which
//! order: each is reported.

mod two_tables;

use second::changes::{PairRefusal, changes};
use second::compare::{Called, ChangesAnswer, Lent};
use second::refusal::Refusal;
use second::table::Table;
use two_tables::{answered, is_told, is_told_of_tables, refuse};

/// The number, and which table was refused.
fn number_and_which(called: &mut Called) -> (u32, u32) {
    let answer = answered(called);
    (answer.number, answer.which)
}

#[test]
fn a_wrong_table_or_place_is_reported() {
    // `which` is forgotten, or the other table is told.
    is_told(|_, called| answered(called).which = 0);
    is_told(|_, called| {
        let answer = answered(called);
        answer.which = u32::from((10..=16).contains(&answer.number)) - answer.which;
    });
    for number in [8, 20] {
        is_told(|_, called| answered(called).place += u64::from(called.reply.number() == number));
    }
    for which in [0, 1] {
        for number in [11, 12, 14, 15, 16] {
            is_told(|_, called| {
                if number_and_which(called) == (number, which) {
                    answered(called).place = 0;
                }
            });
        }
    }
}

/// A table is not looked at, or not all of it is.
#[test]
fn a_table_that_is_not_judged_is_reported() {
    for which in [0, 1] {
        for from in [10, 14, 16] {
            is_told(|lent, called| {
                let (number, of) = number_and_which(called);
                if of == which && (from..=16).contains(&number) {
                    refuse(called, lent, 20);
                }
            });
        }
    }
}

/// A table's refusal is told in place of any answer.
fn refuse_second(called: &mut Called, refusal: Refusal) {
    let which = 1;
    *answered(called) = ChangesAnswer::from(Err(PairRefusal { refusal, which }));
}

/// "The first table is judged wholly before the second".
#[test]
fn tables_judged_out_of_turn_are_reported() {
    is_told_of_tables(|tables, _, called| {
        if let [Err(_), Err(second)] = tables {
            refuse_second(called, *second);
        }
    });
    // Each test over both tables before the next, the second or the first before
    // the other.
    for same in [true, false] {
        is_told_of_tables(|tables, _, called| {
            if let [Err(first), Err(second)] = tables
                && (second.number < first.number || same && second.number == first.number)
            {
                refuse_second(called, *second);
            }
        });
    }
}

/// S, H and G where block 0 has them, though the table may be refused.
fn is_apart(lent: &Lent) -> bool {
    let heads = [lent.table, lent.second_table].map(|bytes| bytes.get(8..28));
    matches!(heads, [Some(first), Some(second)] if first != second)
}

#[test]
fn refusals_out_of_order_are_reported() {
    // 20 before 10 to 16 of either table, or before the later of these.
    for which in [0, 1] {
        for from in [11, 14] {
            is_told(|lent, called| {
                let (number, of) = number_and_which(called);
                if of == which && (from..=16).contains(&number) && is_apart(lent) {
                    refuse(called, lent, 20);
                }
            });
        }
    }
    // 8 before the first table, before the second, and before 20.
    for (numbers, which) in [(10..=16, 0), (10..=16, 1), (20..=20, 0)] {
        is_told(|lent, called| {
            let (number, of) = number_and_which(called);
            if of == which && numbers.contains(&number) && lent.buffer.is_empty() {
                refuse(called, lent, 8);
            }
        });
    }
    // 8 before 20, by the list that there would be.
    is_told_of_tables(|tables, lent, called| {
        if let [Ok(first), Ok(second)] = tables
            && called.reply.number() == 20
            && lent.buffer.len() < 24 * changes_of_common(first, second)
        {
            refuse(called, lent, 8);
        }
    });
}

/// How many of the granules that both have differ, if S, H and G do not matter.
fn changes_of_common(first: &Table, second: &Table) -> usize {
    let count = first.count.min(second.count);
    let cut = |table: &Table| Table {
        count,
        ..table.clone()
    };
    changes(&cut(first), &cut(second)).len()
}

/// Two accepted tables that are apart are taken for ones that are not.
#[track_caller]
fn is_told_of_apart(is_taken: impl Fn(&Table, &Table) -> bool) {
    is_told_of_tables(|tables, _, called| {
        if let [Ok(first), Ok(second)] = tables
            && called.reply.number() == 20
            && is_taken(first, second)
        {
            *answered(called) = ChangesAnswer::default();
        }
    });
}

#[test]
fn numbers_that_are_not_compared_are_reported() {
    let (start, length) = (
        |a: &Table, b: &Table| a.start == b.start,
        |a: &Table, b: &Table| a.length == b.length,
    );
    let count = |a: &Table, b: &Table| a.count == b.count;
    // S, H or G, or what few bits of it do not show.
    is_told_of_apart(|a, b| length(a, b) && count(a, b));
    is_told_of_apart(|a, b| start(a, b) && count(a, b));
    is_told_of_apart(|a, b| start(a, b) && length(a, b));
    is_told_of_apart(|a, b| a.start as u32 == b.start as u32 && length(a, b) && count(a, b));
    is_told_of_apart(|a, b| start(a, b) && a.length as u32 == b.length as u32 && count(a, b));
    is_told_of_apart(|a, b| start(a, b) && length(a, b) && a.count as u8 == b.count as u8);
    // The last tick in the place of one of them.
    let last = |a: &Table, b: &Table| a.last_tick() == b.last_tick();
    is_told_of_apart(|a, b| last(a, b) && count(a, b));
    is_told_of_apart(|a, b| last(a, b) && length(a, b));
    // The lesser of two numbers is not refused, first or second.
    is_told_of_apart(|a, b| a.start <= b.start && a.length <= b.length && a.count <= b.count);
    is_told_of_apart(|a, b| a.start >= b.start && a.length >= b.length && a.count >= b.count);
}
