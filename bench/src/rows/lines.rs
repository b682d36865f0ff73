//! The line program `tickline`, of a million lines, beside plain Rust's and the second program's.
//! The rows are there where `bench/build` has made the program for this machine.

use super::{print_growth, print_row};
use crate::inputs::lines;
use crate::plain::judge::judge;
use std::fs::{self, File};
use std::path::{Path, PathBuf};
use std::process::{Command, Stdio};

const OURS: &str = concat!(env!("CARGO_MANIFEST_DIR"), "/../target/native/tickline");
const SECOND: &str = concat!(
    env!("CARGO_MANIFEST_DIR"),
    "/../second/target/release/second"
);
/// A round takes seconds.
const ROUNDS: usize = 5;
const SIZES: [usize; 3] = [10_000, 100_000, 1_000_000];

/// A folder with the table and so many lines of input.
fn folder(bytes: &[u8], many: usize) -> PathBuf {
    let folder = Path::new(env!("CARGO_MANIFEST_DIR")).join(format!("target/lines-{many}"));
    let table = judge(bytes).expect("an accepted table");
    fs::create_dir_all(&folder).expect("a folder");
    fs::write(folder.join("table.blk"), bytes).expect("a table");
    fs::write(folder.join("input"), lines(many, table.start, table.last())).expect("lines");
    folder
}

/// Runs a program over the folder's lines.
fn run(program: &[&str], folder: &Path, output: &str) {
    let status = Command::new(program[0])
        .args(&program[1..])
        .current_dir(folder)
        .stdin(File::open(folder.join("input")).expect("lines"))
        .stdout(Stdio::from(
            File::create(folder.join(output)).expect("a file"),
        ))
        .status();
    assert!(status.expect("a program").success());
}

pub fn rows(bytes: &[u8]) {
    if !Path::new(OURS).exists() {
        return;
    }
    let many = SIZES[2];
    let folder = folder(bytes, many);
    let plain = std::env::current_exe().expect("this program");
    let plain = plain.to_str().expect("a path in letters");
    for (name, program) in [("plain Rust", plain), ("the second program", SECOND)] {
        let other = [program, "tickline"];
        run(&[OURS], &folder, "ours");
        run(&other, &folder, "others");
        let read = |output| fs::read(folder.join(output)).expect("what was printed");
        assert!(read("ours") == read("others"), "{name}");
        print_row(
            &format!("a line of `tickline`, beside {name}'s"),
            many,
            ROUNDS,
            vec![
                Box::new(|| run(&[OURS], &folder, "ours")),
                Box::new(|| run(&other, &folder, "others")),
            ],
        );
    }
}

/// The program, by its lines.
pub fn growth(bytes: &[u8]) {
    if !Path::new(OURS).exists() {
        return;
    }
    let folders = SIZES.map(|many| folder(bytes, many));
    print_growth(
        "`tickline`, lines",
        &SIZES,
        1,
        ROUNDS,
        folders
            .iter()
            .map(|folder| Box::new(|| run(&[OURS], folder, "ours")) as _)
            .collect(),
    );
}
