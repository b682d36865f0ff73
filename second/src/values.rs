//! `second values`: the values of 01 and 02, from one table, asked of a desk and
//! of second itself.

mod amount;
mod row;

use crate::compare::{Called, Desk, Own};
use row::{Call, Row};

/// The table: one row a value.
pub const PAGE: &str = include_str!("../data/values.txt");

/// What was run, and all that came out otherwise.
#[derive(Debug, Default)]
pub struct Run {
    pub rows: u64,
    /// The page's P of each row that has one.
    pub marks: Vec<String>,
    pub calls: u64,
    pub differences: Vec<String>,
}

impl Run {
    pub fn summary(&self) -> String {
        format!(
            "known values: {} rows ({} of them with a P), {} calls, {} differences",
            self.rows,
            self.marks.len(),
            self.calls,
            self.differences.len()
        )
    }

    fn ask(
        &mut self,
        call: &Call,
        desk: &mut dyn Desk,
        own: &mut Own,
    ) -> Result<Vec<String>, String> {
        self.calls += 1;
        let lent = call.lent();
        let answered = desk.call(call.asked, &lent)?;
        Ok(differences(call, &answered, &own.call(call.asked, &lent)?))
    }
}

/// Asks for every row. Fails where a row is not understood, where there is none,
/// and where the desk answers nothing.
pub fn run(table: &str, desk: &mut dyn Desk) -> Result<Run, String> {
    let (mut run, mut own) = (Run::default(), Own::default());
    for (line, text) in (1..).zip(table.lines()) {
        if text.is_empty() || text.starts_with('#') {
            continue;
        }
        let words: Vec<&str> = text.split_whitespace().collect();
        let told = |what: String| format!("line {line}, {}: {what}", words.join(" "));
        let row = Row::read(text).ok_or_else(|| told("not understood".into()))?;
        run.rows += 1;
        if !row.mark.is_empty() {
            run.marks.push(row.mark.into());
        }
        for call in &row.calls {
            let differences = run.ask(call, desk, &mut own).map_err(told)?;
            run.differences.extend(differences.into_iter().map(told));
        }
    }
    match run.rows {
        0 => Err("there is no row".into()),
        _ => Ok(run),
    }
}

/// The answers are held to the row; what stands in a lent buffer, which the row
/// does not tell, to second's own.
fn differences(call: &Call, answered: &Called, own: &Called) -> Vec<String> {
    let mut list = Vec::new();
    for (who, reply) in [("the library", answered.reply), ("second", own.reply)] {
        if reply != call.expected {
            let expected = call.expected;
            list.push(format!("{who} answers {reply:?}, the row {expected:?}"));
        }
    }
    if answered.buffer != own.buffer {
        list.push("the lent buffer is not as it should be".into());
    }
    list.extend(answered.beside.iter().map(|what| what.to_string()));
    list
}
