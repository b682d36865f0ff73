//! Random and hostile text lines for the line program.

use super::Random;

/// A line that is understood: both codes right, the tick from the list.
pub fn plain_line(random: &mut Random, ticks: &[i64]) -> Vec<u8> {
    let (from, to) = (random.between(0, 6), random.between(0, 6));
    format!("{from} {to} {}", random.pick(ticks)).into_bytes()
}

/// Numbers as text that stand at some limit of the rules.
const NUMBERS: [&str; 36] = [
    "0",
    "-0",
    "00",
    "3",
    "5",
    "6",
    "7",
    "-1",
    "-6",
    "+1",
    "-",
    "--1",
    "1-",
    "",
    " ",
    "03",
    "-03",
    "9223372036854775807",
    "9223372036854775808",
    "-9223372036854775808",
    "-9223372036854775809",
    "18446744073709551621",
    "00000000000000000005",
    "000000000000000000005",
    "-00000000000000000006",
    "-000000000000000000006",
    "99999999999999999999",
    "100000000000000000000",
    "6000000000000000000",
    "-6000000000000000001",
    "4294967299",
    "4294967301",
    "256",
    "0x5",
    "1e3",
    "5.0",
];

fn from_numbers(random: &mut Random) -> Vec<u8> {
    let fields: Vec<&str> = (0..random.pick(&[1, 2, 3, 3, 3, 3, 3, 3, 4]))
        .map(|_| random.pick(&NUMBERS))
        .collect();
    fields
        .join(random.pick(&[" ", " ", " ", " ", " ", "  ", "\t", ","]))
        .into_bytes()
}

/// A right line with one byte changed, added or taken away.
fn spoilt(random: &mut Random, ticks: &[i64]) -> Vec<u8> {
    let mut line = plain_line(random, ticks);
    let byte = random.pick(b"\0\r\t +-/:.xX\xff\x80\x0b\x0c0159 ");
    let at = random.index(line.len());
    match random.index(5) {
        0 => line[at] = byte,
        1 => line.insert(at, byte),
        2 => line.push(byte),
        3 => line.insert(0, byte),
        _ => drop(line.remove(at)),
    }
    line
}

/// Lines of 63 to 66 bytes, where 64 is the most.
fn near_64_bytes(random: &mut Random) -> Vec<u8> {
    let widths = random.pick(&[[20, 20, 20], [21, 20, 20], [21, 21, 20], [21, 21, 21]]);
    let minus = |width: usize| if width == 21 { "-" } else { "" };
    let number = |width: usize, value: u32| {
        let digits = width - minus(width).len();
        format!("{}{value:0digits$}", minus(width))
    };
    let [a, b, c] = widths;
    let codes = (random.index(8) as u32, random.index(8) as u32);
    let tick = random.bits() as u32;
    let mut line = format!(
        "{} {} {}",
        number(a, codes.0),
        number(b, codes.1),
        number(c, tick)
    );
    if random.one_in(3) {
        line.insert(line.len() - 1, '0');
    }
    line.into_bytes()
}

fn long_line(random: &mut Random) -> Vec<u8> {
    let length = random.pick(&[64, 65, 66, 100, 1_000, 4_095, 4_096, 4_097, 8_193, 100_000]);
    let byte = random.pick(b"0 1-\0x");
    let mut line = b"3 3 ".to_vec();
    line.resize(length, byte);
    line
}

fn any_bytes(random: &mut Random) -> Vec<u8> {
    let bytes = (0..random.index(70)).map(|_| random.bits() as u8);
    bytes.filter(|byte| *byte != b'\n').collect()
}

/// A line that may or may not be understood; it holds no newline.
pub fn hostile_line(random: &mut Random, ticks: &[i64]) -> Vec<u8> {
    match random.index(16) {
        0..=4 => from_numbers(random),
        5..=9 => spoilt(random, ticks),
        10 | 11 => near_64_bytes(random),
        12 => any_bytes(random),
        13 => [plain_line(random, ticks), b"\r".to_vec()].concat(),
        14 if random.one_in(8) => long_line(random),
        _ => Vec::new(),
    }
}

/// A whole standard input; the last newline may be missing.
pub fn input(random: &mut Random, ticks: &[i64]) -> Vec<u8> {
    let lines = match random.index(6) {
        0 => random.index(3),
        _ => random.index(120),
    };
    let hostile = random.pick(&[2, 2, 4, 20]);
    let mut input = Vec::new();
    for _ in 0..lines {
        input.extend(match random.one_in(hostile) {
            true => hostile_line(random, ticks),
            false => plain_line(random, ticks),
        });
        input.push(b'\n');
    }
    match random.index(5) {
        0 => drop(input.pop()),
        1 => input.extend(hostile_line(random, ticks)),
        2 => input.extend(long_line(random)),
        _ => {}
    }
    input
}

#[cfg(test)]
mod tests {
    use super::*;

    #[test]
    fn lines_of_64_and_65_bytes_come_up() {
        let mut random = Random::new(13);
        let lengths: Vec<usize> = (0..200).map(|_| near_64_bytes(&mut random).len()).collect();
        for length in [62, 63, 64, 65] {
            assert!(lengths.contains(&length), "{length}");
        }
    }

    #[test]
    fn hostile_lines_hold_no_newline() {
        let mut random = Random::new(14);
        for _ in 0..5_000 {
            assert!(!hostile_line(&mut random, &[1, -5]).contains(&b'\n'));
        }
    }

    #[test]
    fn inputs_come_empty_and_with_and_without_a_last_newline() {
        let mut random = Random::new(15);
        let inputs: Vec<Vec<u8>> = (0..300).map(|_| input(&mut random, &[0])).collect();
        assert!(inputs.iter().any(|input| input.is_empty()));
        assert!(inputs.iter().any(|input| input.ends_with(b"\n")));
        assert!(
            inputs
                .iter()
                .any(|input| !input.is_empty() && !input.ends_with(b"\n"))
        );
        assert!(inputs.iter().any(|input| input.len() > 100_000));
    }
}
