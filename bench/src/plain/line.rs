//! The line program: any path, over a table that was judged once.

use super::Refusal;
use super::convert::Path;
use super::judge::judge;
use super::scales::valid;
use super::table::Table;
use std::io::{self, BufRead, BufWriter, Write};

type Judged = Result<Table, Refusal>;

/// The tick and the steps, or the refusal's number.
fn convert(from: i64, to: i64, tick: i64, judged: &Judged) -> Result<(i64, u32), u32> {
    let code = |number: i64| u32::try_from(number).unwrap_or(u32::MAX);
    let path = Path::new(code(from), code(to)).map_err(|refusal| refusal.number)?;
    let table = if path.crosses() {
        Some(judged.as_ref().map_err(|refusal| refusal.number)?)
    } else {
        None
    };
    if !valid(tick) {
        return Err(4);
    }
    path.walk(tick, table).map_err(|refusal| refusal.number)
}

/// An optional minus and 1 to 20 digits that fit.
fn number(field: &[u8]) -> Option<i64> {
    let digits = field.strip_prefix(b"-").unwrap_or(field);
    if !(1..=20).contains(&digits.len()) || !digits.iter().all(u8::is_ascii_digit) {
        return None;
    }
    str::from_utf8(field).ok()?.parse().ok()
}

fn numbers(line: &[u8]) -> Option<[i64; 3]> {
    let mut fields = line.split(|byte| *byte == b' ');
    let mut next = || number(fields.next()?);
    let numbers = [next()?, next()?, next()?];
    (line.len() <= 64 && fields.next().is_none()).then_some(numbers)
}

/// "It prints `to tick steps` [...] or `refused N`, one line each".
fn answer(line: &[u8], judged: &Judged, output: &mut impl Write) -> io::Result<()> {
    let Some([from, to, tick]) = numbers(line) else {
        return writeln!(output, "refused 9");
    };
    match convert(from, to, tick, judged) {
        Ok((tick, steps)) => writeln!(output, "{to} {tick} {steps}"),
        Err(number) => writeln!(output, "refused {number}"),
    }
}

/// Standard input to standard output, over the file `table.blk`.
pub fn run() -> io::Result<()> {
    let judged = judge(&std::fs::read("table.blk").unwrap_or_default());
    let mut input = io::stdin().lock();
    let mut output = BufWriter::new(io::stdout().lock());
    let mut line = Vec::new();
    while input.read_until(b'\n', &mut line)? > 0 {
        answer(
            line.strip_suffix(b"\n").unwrap_or(&line),
            &judged,
            &mut output,
        )?;
        line.clear();
    }
    output.flush()
}
