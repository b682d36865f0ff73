//! A bridge with second's own functions in it, and with faults on demand: the
//! other end when the client and the comparisons themselves are tested.

use super::wire::{
    self, ANSWER_NUMBERS, Arguments, Fields, GIVEN, NOTHING, PLACES, REQUEST_NUMBERS, SAME,
};
use crate::compare::{Desk, Lent, Own};
use std::io::{self, ErrorKind, Read, Write};

/// The request from which on a fault shows.
const FROM: u64 = 50;

#[derive(Clone, Copy, Debug, PartialEq, Eq)]
pub enum Fault {
    None,
    Ends,
    EndsInAnswer,
    Silent,
    /// Says a byte that is none of an answer's.
    Stray,
    /// Answers a number that is too great for its field.
    Wide,
    /// Has seen what it has no name for.
    Seen,
    ChangesTable,
    ChangesSecondTable,
    ChangesList,
    WritesBeside,
    /// Answers another number than the right one.
    Wrong,
    /// Leaves another last byte in the buffer than the right one.
    WrongByte,
}

impl Fault {
    pub const ALL: [(&str, Fault); 13] = [
        ("none", Fault::None),
        ("ends", Fault::Ends),
        ("ends-in-answer", Fault::EndsInAnswer),
        ("silent", Fault::Silent),
        ("stray", Fault::Stray),
        ("wide", Fault::Wide),
        ("seen", Fault::Seen),
        ("changes-table", Fault::ChangesTable),
        ("changes-second-table", Fault::ChangesSecondTable),
        ("changes-list", Fault::ChangesList),
        ("writes-beside", Fault::WritesBeside),
        ("wrong", Fault::Wrong),
        ("wrong-byte", Fault::WrongByte),
    ];

    pub fn named(name: &str) -> Option<Fault> {
        let (_, fault) = Fault::ALL.iter().find(|(other, _)| *other == name)?;
        Some(*fault)
    }

    /// Changes the numbers and the bytes of an answer.
    fn plant(self, head: &mut [u64; ANSWER_NUMBERS], written: &mut [u8]) {
        let [_, seen, number, ..] = head;
        match self {
            Fault::Wide => *number |= 1 << 32,
            Fault::Seen => *seen |= 1 << wire::SEEN.len(),
            Fault::ChangesTable => *seen |= 1,
            Fault::ChangesSecondTable => *seen |= 2,
            Fault::ChangesList => *seen |= 4,
            Fault::WritesBeside => *seen |= 64,
            Fault::Wrong => *number ^= 1,
            Fault::WrongByte => {
                if let Some(last) = written.last_mut() {
                    *last ^= 1;
                }
            }
            _ => {}
        }
    }
}

/// The places that are lent: what was GIVEN last, and what is lent now.
#[derive(Default)]
struct Places {
    given: [Vec<u8>; PLACES],
    lent: [bool; PLACES],
}

impl Places {
    /// Takes the bytes of those that are GIVEN.
    fn take(&mut self, loans: &[u64], input: &mut dyn Read) -> io::Result<()> {
        for (i, loan) in loans.chunks_exact(2).enumerate() {
            let length = loan[1] as usize;
            self.lent[i] = loan[0] != NOTHING;
            match loan[0] {
                NOTHING if length == 0 => {}
                GIVEN => {
                    self.given[i] = vec![0; length];
                    input.read_exact(&mut self.given[i])?;
                }
                SAME if length == self.given[i].len() => {}
                _ => return Err(ErrorKind::InvalidData.into()),
            }
        }
        Ok(())
    }

    fn bytes(&self, place: usize) -> &[u8] {
        match self.lent[place] {
            true => &self.given[place],
            false => &[],
        }
    }
}

/// Calls the function. Gives the answer's numbers, and the bytes of the buffer
/// lent to be written.
fn call(
    own: &mut Own,
    function: u64,
    arguments: Arguments,
    places: &Places,
) -> io::Result<(Fields, Vec<u8>)> {
    if function == wire::NONE {
        return Ok(([0; 6], Vec::new()));
    }
    let asked = wire::asked_of(function, arguments).ok_or(ErrorKind::InvalidData)?;
    let lent = Lent {
        table: places.bytes(0),
        second_table: places.bytes(1),
        list: &wire::ticks_of_bytes(places.bytes(2)),
        buffer: places.bytes(3).to_vec(),
        null: false,
    };
    let called = own.call(asked, &lent).map_err(io::Error::other)?;
    Ok((wire::fields_of(&called.reply), called.buffer))
}

/// One request's numbers; None where the input ends.
fn head(input: &mut dyn Read) -> io::Result<Option<[u64; REQUEST_NUMBERS]>> {
    let mut bytes = Vec::new();
    let length = 8 * REQUEST_NUMBERS as u64;
    input.take(length).read_to_end(&mut bytes)?;
    let numbers: Vec<u64> = wire::numbers(&bytes).collect();
    match (bytes.len(), numbers.try_into()) {
        (0, _) => Ok(None),
        (_, Ok(numbers)) => Ok(Some(numbers)),
        _ => Err(ErrorKind::UnexpectedEof.into()),
    }
}

/// Answers requests until the input ends, or until the fault ends it.
pub fn serve(input: &mut dyn Read, output: &mut dyn Write, fault: Fault) -> io::Result<()> {
    let (mut own, mut places) = (Own::default(), Places::default());
    let mut count = 0;
    while let Some(numbers) = head(input)? {
        count += 1;
        let [function, a, b, c, d, loans @ ..] = numbers;
        places.take(&loans, input)?;
        let (fields, mut written) = call(&mut own, function, [a, b, c, d], &places)?;
        let [a, b, c, d, e, f] = fields;
        let mut head = [count, 0, a, b, c, d, e, f];
        let mut answer = Vec::new();
        if count >= FROM {
            fault.plant(&mut head, &mut written);
        }
        wire::put(&mut answer, &head);
        answer.extend(written);
        match fault {
            Fault::Ends if count == FROM => return Ok(()),
            Fault::EndsInAnswer if count == FROM => {
                return output
                    .write_all(&answer[..answer.len() - 1])
                    .and(output.flush());
            }
            Fault::Silent if count == FROM => return io::copy(input, &mut io::sink()).map(|_| ()),
            Fault::Stray if count == FROM => output.write_all(b"\n")?,
            _ => {}
        }
        output.write_all(&answer)?;
        output.flush()?;
    }
    Ok(())
}
