//! The line program `tickline`.

use crate::blocks::{self, BLOCK, GREATEST_BLOCKS};
use crate::dates::Reading;
use crate::desk::{Converted, convert};
use crate::refusal::{self, Refusal};
use crate::table::Judged;
use std::fs::File;
use std::io::{self, BufRead, ErrorKind, Read, Write};
use std::path::Path;

/// "at most 64 bytes without the newline"
const GREATEST_LINE: usize = 64;
/// "1 to 20 digits"
const GREATEST_DIGITS: usize = 20;

/// "optional minus on each, 1 to 20 digits, each fitting signed 64 bits"
fn number(field: &[u8]) -> Option<i64> {
    let (negative, digits) = match field {
        [b'-', digits @ ..] => (true, digits),
        digits => (false, digits),
    };
    if !(1..=GREATEST_DIGITS).contains(&digits.len()) {
        return None;
    }
    let mut magnitude = 0i128;
    for digit in digits {
        if !digit.is_ascii_digit() {
            return None;
        }
        magnitude = 10 * magnitude + i128::from(digit - b'0');
    }
    i64::try_from(if negative { -magnitude } else { magnitude }).ok()
}

/// "`from to tick`, one space between"
fn understood(line: &[u8]) -> Option<[i64; 3]> {
    if line.len() > GREATEST_LINE {
        return None;
    }
    let numbers: Option<Vec<i64>> = line.split(|byte| *byte == b' ').map(number).collect();
    numbers?.try_into().ok()
}

/// "A code outside 0..6 is refusal 1, after 9", and 7 is still one of these. The
/// desk's code is unsigned, so one that does not fit is any code above 6.
fn desk_code(code: i64) -> u32 {
    u32::try_from(code).unwrap_or(u32::MAX)
}

/// The answer to one line, with `to`, "the code asked"; lines count from 1.
pub fn answer(line: &[u8], line_number: u64, table: &Judged) -> Result<(i64, Converted), Refusal> {
    let [from, to, tick] =
        understood(line).ok_or(Refusal::new(refusal::NOT_UNDERSTOOD, line_number))?;
    let reading = Reading::Ticks(tick);
    let converted = convert(desk_code(from), desk_code(to), reading, &[], table)?;
    Ok((to, converted))
}

/// "It prints `to tick steps` [...] or `refused N`, one line each, no header";
/// "the last newline may be missing".
pub fn run(input: &mut impl BufRead, output: &mut impl Write, table: &Judged) -> io::Result<()> {
    let mut line_number = 0;
    let mut line = Vec::new();
    while input.read_until(b'\n', &mut line)? > 0 {
        line_number += 1;
        let text = line.strip_suffix(b"\n").unwrap_or(&line);
        match answer(text, line_number, table) {
            Ok((to, Converted { tick, steps })) => writeln!(output, "{to} {tick} {steps}")?,
            Err(Refusal { number, .. }) => writeln!(output, "refused {number}")?,
        }
        line.clear();
    }
    output.flush()
}

/// "The table is the file `table.blk`, no file counting as no bytes." A file
/// that is there and cannot be read counts so too, and we say so. More bytes
/// than one past 121 blocks change nothing, so no more are read.
pub fn table_file(path: &Path) -> Judged {
    let mut bytes = Vec::new();
    let most = (GREATEST_BLOCKS * BLOCK + 1) as u64;
    let read = File::open(path).and_then(|file| file.take(most).read_to_end(&mut bytes));
    if let Err(error) = read {
        bytes.clear();
        if error.kind() != ErrorKind::NotFound {
            eprintln!("{} cannot be read: {error}", path.display());
        }
    }
    blocks::judge(&bytes)
}
