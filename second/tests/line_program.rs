//! The line program: what is understood, what is printed, and the table file.

use second::blocks;
use second::line;
use second::refusal::Refusal;
use second::table::{Judged, Table};
use std::fs;
use std::io::Write;
use std::path::PathBuf;
use std::process::{Command, Output, Stdio};

fn no_table() -> Judged {
    blocks::judge(&[])
}

fn printed(input: &[u8]) -> String {
    let mut output = Vec::new();
    line::run(&mut &input[..], &mut output, &no_table()).unwrap();
    String::from_utf8(output).unwrap()
}

#[track_caller]
fn each_prints(cases: &[(&[u8], &str)]) {
    for (line, expected) in cases {
        let text = String::from_utf8_lossy(line);
        assert_eq!(printed(line), format!("{expected}\n"), "{text:?}");
    }
}

#[test]
fn lines_that_are_not_understood() {
    let not_understood: [&[u8]; 30] = [
        b"\n",
        b" ",
        b"3",
        b"3 3",
        b"3 3 ",
        b" 3 3 0",
        b"3  3 0",
        b"3 3  0",
        b"3 3 0 ",
        b"3 3 0 0",
        b"3\t3\t0",
        b"3 3 0\r",
        b"3 3 0\r\n",
        b"+3 3 0",
        b"3 3 +0",
        b"- 3 0",
        b"3 3 -",
        b"3 3 --1",
        b"3 3 1-",
        b"3 3 0x1",
        b"3 3 1.0",
        b"3 3 1e3",
        b"3 3 \xff",
        b"3 3 0\0",
        b"\0",
        b"3,3,0",
        b"three 3 0",
        b"3 3 9223372036854775808",
        b"3 3 -9223372036854775809",
        b"9223372036854775808 3 0",
    ];
    for line in not_understood {
        let text = String::from_utf8_lossy(line);
        assert_eq!(printed(line), "refused 9\n", "{text:?}");
    }
}

#[test]
fn lines_that_are_understood() {
    each_prints(&[
        (b"3 3 0", "3 0 0"),
        (b"0 0 7", "0 7 0"),
        (b"-0 3 7", "3 7 0"),
        (b"3 -0 7", "0 7 0"),
        (b"3 3 -0", "3 0 0"),
        (b"003 0003 007", "3 7 0"),
        (b"3 3 -00000000000000000007", "3 -7 0"),
        (b"3 3 00000000000000000007", "3 7 0"),
        (b"3 3 000000000000000000007", "refused 9"),
        (b"3 3 -000000000000000000007", "refused 9"),
        (b"3 3 9223372036854775807", "refused 4"),
        (b"3 3 -9223372036854775808", "refused 4"),
        (b"3 3 6000000000000000000", "3 6000000000000000000 0"),
        (b"3 3 6000000000000000001", "refused 4"),
        (b"3 5 0", "refused 10"),
        (b"1 4 0", "4 51184000036 3"),
    ]);
}

/// "A code outside 0..6 is refusal 1, after 9."
#[test]
fn codes_are_judged_after_the_line_is_understood() {
    each_prints(&[
        (b"7 3 0", "refused 1"),
        (b"3 7 0", "refused 1"),
        (b"-1 3 0", "refused 1"),
        (b"3 -3 0", "refused 1"),
        (b"4294967299 3 0", "refused 1"),
        (b"3 4294967299 0", "refused 1"),
        (b"-9223372036854775808 3 0", "refused 1"),
        (b"9223372036854775807 3 0", "refused 1"),
        (b"7 3 x", "refused 9"),
        (b"7 3 9223372036854775808", "refused 9"),
        (b"9 9 9223372036854775807", "refused 1"),
    ]);
}

#[test]
fn a_line_has_at_most_64_bytes() {
    let at_most = "-00000000000000000000 -00000000000000000000 00000000000000000009";
    assert_eq!(at_most.len(), 64);
    let over = "-00000000000000000000 -00000000000000000000 -00000000000000000009";
    assert_eq!(over.len(), 65);
    each_prints(&[
        (at_most.as_bytes(), "0 9 0"),
        (over.as_bytes(), "refused 9"),
    ]);
    for length in [65, 1_000, 100_000] {
        let mut input = vec![b'0'; length];
        input.extend(b"\n3 3 5\n");
        assert_eq!(printed(&input), "refused 9\n3 5 0\n");
    }
}

#[test]
fn the_last_newline_may_be_missing() {
    assert_eq!(printed(b""), "");
    assert_eq!(printed(b"\n"), "refused 9\n");
    assert_eq!(printed(b"\n\n"), "refused 9\nrefused 9\n");
    assert_eq!(printed(b"3 3 1"), "3 1 0\n");
    assert_eq!(printed(b"3 3 1\n"), "3 1 0\n");
    assert_eq!(printed(b"3 3 1\n3 3 2"), "3 1 0\n3 2 0\n");
    assert_eq!(printed(b"x\n3 3 2\n"), "refused 9\n3 2 0\n");
}

/// 9's place is the line, from 1.
#[test]
fn the_place_of_9_is_the_line() {
    let place = |line: &[u8], number| line::answer(line, number, &no_table()).map(|_| ());
    assert_eq!(place(b"x", 1), Err(Refusal::new(9, 1)));
    assert_eq!(place(b"x", 12), Err(Refusal::new(9, 12)));
    assert_eq!(place(b"7 3 0", 12), Err(Refusal::new(1, 0)));
}

/// A folder of its own for one run, taken away at the end.
struct Folder(PathBuf);

impl Folder {
    fn new(name: &str) -> Folder {
        let name = format!("second-line-{}-{name}", std::process::id());
        let path = std::env::temp_dir().join(name);
        fs::create_dir_all(&path).unwrap();
        Folder(path)
    }

    fn tickline(&self, input: &[u8]) -> Output {
        let mut child = Command::new(env!("CARGO_BIN_EXE_second"))
            .arg("tickline")
            .current_dir(&self.0)
            .stdin(Stdio::piped())
            .stdout(Stdio::piped())
            .stderr(Stdio::piped())
            .spawn()
            .unwrap();
        child.stdin.take().unwrap().write_all(input).unwrap();
        child.wait_with_output().unwrap()
    }
}

impl Drop for Folder {
    fn drop(&mut self) {
        let _ = fs::remove_dir_all(&self.0);
    }
}

const EXAMPLE: &[u8] = b"6 5 100000000000000000\n0 2 0\n4 9 1\n";
const EXAMPLE_PRINTS: &str = "5 99999998449414732 1\n2 -32184000000 1\nrefused 1\n";

#[test]
fn the_example_as_a_program() {
    let folder = Folder::new("example");
    let output = folder.tickline(EXAMPLE);
    assert_eq!(String::from_utf8_lossy(&output.stdout), EXAMPLE_PRINTS);
    assert!(output.stderr.is_empty());
    assert!(output.status.success());
    let output = folder.tickline(b"3 5 0\n");
    assert_eq!(output.stdout, b"refused 10\n");
    assert!(
        output.stderr.is_empty(),
        "a missing table is nothing to speak of"
    );
}

#[test]
fn the_table_file_is_used() {
    let folder = Folder::new("table");
    let table = Table {
        start: 0,
        length: 1_000_000_000,
        count: 1,
        degree: 1,
        coefficients: vec![0, 65_536],
    };
    let image = blocks::image(&table);
    fs::write(folder.0.join("table.blk"), &image).unwrap();
    let output = folder.tickline(b"3 5 0\n5 3 999999999\n5 0 0\n6 0 0");
    assert_eq!(
        output.stdout,
        b"5 1 1\n3 1000000000 1\nrefused 6\nrefused 6\n"
    );
    // A longer one than 121 blocks is 10, however long.
    fs::write(
        folder.0.join("table.blk"),
        [image, vec![0; 3_000_000]].concat(),
    )
    .unwrap();
    assert_eq!(folder.tickline(b"3 5 0\n").stdout, b"refused 10\n");
}

#[test]
fn a_table_that_cannot_be_read_counts_as_no_bytes_and_is_told() {
    let folder = Folder::new("unreadable");
    fs::create_dir(folder.0.join("table.blk")).unwrap();
    let output = folder.tickline(b"3 5 0\n3 3 0\n");
    assert_eq!(output.stdout, b"refused 10\n3 0 0\n");
    assert!(String::from_utf8_lossy(&output.stderr).contains("table.blk"));
}
