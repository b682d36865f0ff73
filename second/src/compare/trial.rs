//! A desk on trial: it is asked what second is asked, and every difference is
//! noted.

use super::interface::{Asked, Called, Desk, Lent, Outcome};
use super::ledger::Ledger;
use super::own::Own;
use crate::dates::Reading;
use crate::generate::Random;
use crate::table::Judged;
use crate::utc::GREATEST_PAIRS;

/// So much of a lent list is shown with a difference: all of a list of TAI−UTC.
const SHOWN: usize = 2 * GREATEST_PAIRS;

pub struct Trial<'a> {
    desk: &'a mut dyn Desk,
    own: Own,
    random: Random,
    pub ledger: Ledger,
}

impl<'a> Trial<'a> {
    pub fn new(desk: &'a mut dyn Desk) -> Trial<'a> {
        Trial {
            desk,
            own: Own::default(),
            random: Random::new(0),
            ledger: Ledger::default(),
        }
    }

    /// Makes one call of both.
    pub fn ask(&mut self, asked: Asked, lent: Lent) -> Result<(), String> {
        self.ask_all(&[asked], lent)
    }

    /// Makes these calls of both, by null pointers or not. Fails where there is
    /// no answer at all.
    pub fn ask_all(&mut self, asked: &[Asked], mut lent: Lent) -> Result<(), String> {
        lent.null = self.random.one_in(2);
        let mut outcomes = self.desk.calls(asked, &lent).into_iter();
        for asked in asked {
            let outcome = outcomes.next().unwrap_or(Err("no answer".into()));
            self.judge(*asked, &lent, outcome)?;
        }
        Ok(())
    }

    fn judge(&mut self, asked: Asked, lent: &Lent, outcome: Outcome) -> Result<(), String> {
        let expected = self.own.call(asked, lent)?;
        self.ledger.count(expected.reply.number());
        let case = self.ledger.cases;
        let told = |own: &mut Own| format!("case {case}, {}", told(own, asked, lent));
        let called = outcome.map_err(|why| format!("{}: {why}", told(&mut self.own)))?;
        for what in differences(&called, &expected) {
            let own = &mut self.own;
            self.ledger.differs(|| format!("{}: {what}", told(own)));
        }
        Ok(())
    }
}

fn differences(called: &Called, expected: &Called) -> Vec<String> {
    let mut list = Vec::new();
    if called.reply != expected.reply {
        list.push(format!(
            "got {:?}, expected {:?}",
            called.reply, expected.reply
        ));
    }
    if called.buffer != expected.buffer {
        let both = called.buffer.iter().zip(&expected.buffer);
        let same = both.take_while(|(byte, other)| byte == other).count();
        list.push(format!(
            "the lent buffer is not as it should be from byte {same} on"
        ));
    }
    list.extend(called.beside.iter().map(|what| what.to_string()));
    list
}

/// A table in a few words.
fn told_table(bytes: &[u8], judged: &Judged) -> String {
    let what = match judged {
        Ok(table) => format!(
            "S {} H {} G {} n {}",
            table.start, table.length, table.count, table.degree
        ),
        Err(refusal) => format!("refused {}", refusal.number),
    };
    format!("table of {} bytes ({what})", bytes.len())
}

/// The call in a few words.
fn told(own: &mut Own, asked: Asked, lent: &Lent) -> String {
    let [first, second] = own.both_judged(lent);
    let mut tables = told_table(lent.table, first);
    if let Asked::CompareTables = asked {
        let second = told_table(lent.second_table, second);
        tables = format!("{tables}, second {second}");
    }
    // A double's digits do not tell which NaN it is.
    let bits = match asked {
        Asked::Convert {
            reading: Reading::TwoPart(first, second),
            ..
        } => vec![first.to_bits(), second.to_bits()],
        Asked::Convert {
            reading: Reading::SinceJ2000(seconds),
            ..
        } => vec![seconds.to_bits()],
        _ => vec![],
    };
    let list = &lent.list[..lent.list.len().min(SHOWN)];
    format!(
        "{asked:?} bits {bits:x?}, {tables}, list of {} ({list:?}), buffer of {} bytes",
        lent.list.len(),
        lent.buffer.len()
    )
}
