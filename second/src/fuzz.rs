//! `second fuzz COMMAND..`: a line program against second's own on random and
//! hostile input and tables.

use crate::blocks::{self, BLOCK, GREATEST_BLOCKS};
use crate::generate::{
    Random, Shape, accepted_table, broken_tables, edge_ticks, input, random_tick, table_ticks,
};
use crate::line;
use crate::table::Judged;
use std::fs;
use std::io::{self, Read, Write};
use std::path::{self, Path, PathBuf};
use std::process::{Child, Command, ExitStatus, Stdio};
use std::thread;
use std::time::{Duration, Instant};

pub const DEFAULT_CASES: u64 = 300;
/// A program that takes longer is a difference.
pub const TIME_LIMIT: Duration = Duration::from_secs(20);
const SEED: u64 = 0x00c0_111e;
const SHOWN: u64 = 5;
const PAUSES: usize = 60;
/// A program that prints without end is cut off this far past second's output.
const MORE_OUTPUT: usize = 100_000;

/// What lies at `table.blk`.
#[derive(Debug)]
pub enum TableFile {
    Missing,
    /// A folder of that name is there and cannot be read.
    Folder,
    Bytes(Vec<u8>),
}

/// One run of the line program.
#[derive(Debug)]
pub struct Case {
    pub table: TableFile,
    pub input: Vec<u8>,
    /// How many bytes are written at once.
    pub piece: usize,
}

fn any_table(random: &mut Random) -> TableFile {
    let shape = Shape::random(random);
    let table = accepted_table(random, shape);
    let image = blocks::image(&table);
    match random.index(12) {
        0 => TableFile::Missing,
        1 => match random.index(3) {
            0 => TableFile::Folder,
            1 => TableFile::Bytes(Vec::new()),
            _ => {
                let length = GREATEST_BLOCKS * BLOCK + random.pick(&[1, 512, 1_000_000]);
                TableFile::Bytes([image, vec![0; length]].concat())
            }
        },
        2 | 3 => {
            let broken = broken_tables(random, &table);
            TableFile::Bytes(broken[random.index(broken.len())].bytes.clone())
        }
        4 => TableFile::Bytes(include_bytes!("../data/real.blk").to_vec()),
        _ => TableFile::Bytes(image),
    }
}

impl TableFile {
    fn judged(&self) -> Judged {
        match self {
            TableFile::Bytes(bytes) => blocks::judge(bytes),
            TableFile::Missing | TableFile::Folder => blocks::judge(&[]),
        }
    }

    fn lay_out(&self, folder: &Path) -> io::Result<()> {
        let path = folder.join("table.blk");
        match self {
            TableFile::Missing => Ok(()),
            TableFile::Folder => fs::create_dir(path),
            TableFile::Bytes(bytes) => fs::write(path, bytes),
        }
    }
}

pub fn any_case(random: &mut Random) -> Case {
    let table = any_table(random);
    let mut ticks: Vec<i64> = (0..60).map(|_| random_tick(random)).collect();
    match table.judged() {
        Ok(table) => ticks.extend(table_ticks(random, &table)),
        Err(_) => ticks.extend(edge_ticks()),
    }
    let input = input(random, &ticks);
    let small = random.one_in(8) && input.len() < 5_000;
    let piece = if small {
        random.pick(&[1, 7, 61])
    } else {
        usize::MAX
    };
    Case {
        table,
        input,
        piece,
    }
}

/// Second's own output, made in this process.
pub fn expected(case: &Case) -> Vec<u8> {
    let mut output = Vec::new();
    line::run(&mut &case.input[..], &mut output, &case.table.judged())
        .expect("reading and writing memory does not fail");
    output
}

/// A folder of its own for each case, taken away at the end.
struct Folder(PathBuf);

impl Folder {
    fn new(case: u64) -> io::Result<Folder> {
        let name = format!("second-fuzz-{}-{case}", std::process::id());
        let path = std::env::temp_dir().join(name);
        fs::create_dir_all(&path)?;
        Ok(Folder(path))
    }
}

impl Drop for Folder {
    fn drop(&mut self) {
        // Nothing can be done where this fails.
        let _ = fs::remove_dir_all(&self.0);
    }
}

/// Writes the input; the first small pieces with a pause after each, so that
/// the program meets lines that are not whole yet.
fn feed(child: &mut Child, case: &Case) -> thread::JoinHandle<()> {
    let mut stdin = child.stdin.take().expect("standard input is piped");
    let (input, piece) = (case.input.clone(), case.piece);
    thread::spawn(move || {
        for (i, part) in input.chunks(piece).enumerate() {
            // A program that has ended reads no more; its output tells.
            if stdin.write_all(part).and_then(|()| stdin.flush()).is_err() {
                return;
            }
            if piece < usize::MAX && i < PAUSES {
                thread::sleep(Duration::from_micros(200));
            }
        }
    })
}

/// How the program ended; None where it did not in time.
fn wait(child: &mut Child, limit: Duration) -> io::Result<Option<ExitStatus>> {
    let begin = Instant::now();
    while begin.elapsed() < limit {
        if let Some(status) = child.try_wait()? {
            return Ok(Some(status));
        }
        thread::sleep(Duration::from_micros(500));
    }
    child.kill()?;
    child.wait()?;
    Ok(None)
}

/// The program's output, up to the given length, and how it ended; None where
/// it did not in time.
fn run_program(
    command: &[PathBuf],
    folder: &Path,
    case: &Case,
    most: usize,
    limit: Duration,
) -> io::Result<Option<(Vec<u8>, ExitStatus)>> {
    let (program, arguments) = command.split_first().ok_or(io::ErrorKind::InvalidInput)?;
    let mut child = Command::new(program)
        .args(arguments)
        .current_dir(folder)
        .stdin(Stdio::piped())
        .stdout(Stdio::piped())
        .stderr(Stdio::null())
        .spawn()?;
    let feeder = feed(&mut child, case);
    let stdout = child.stdout.take().expect("standard output is piped");
    let reader = thread::spawn(move || {
        let mut output = Vec::new();
        let read = stdout.take(most as u64).read_to_end(&mut output);
        read.map(|_| output)
    });
    let Some(status) = wait(&mut child, limit)? else {
        return Ok(None);
    };
    feeder.join().expect("the feeder does not fail");
    let output = reader.join().expect("the reader does not fail")?;
    Ok(Some((output, status)))
}

/// The first line in which two outputs differ, with the line that asked.
fn first_difference(case: &Case, got: &[u8], expected: &[u8]) -> String {
    let (got, expected): (Vec<_>, Vec<_>) = (
        got.split_inclusive(|b| *b == b'\n').collect(),
        expected.split_inclusive(|b| *b == b'\n').collect(),
    );
    let at = (0..got.len().max(expected.len()))
        .find(|i| got.get(*i) != expected.get(*i))
        .unwrap_or(0);
    let text = |line: Option<&&[u8]>| match line {
        None => "nothing".to_string(),
        Some(line) => format!(
            "{:?}",
            String::from_utf8_lossy(&line[..line.len().min(100)])
        ),
    };
    let asked: Vec<&[u8]> = case.input.split_inclusive(|b| *b == b'\n').collect();
    format!(
        "line {} {}: got {}, expected {}",
        at + 1,
        text(asked.get(at)),
        text(got.get(at)),
        text(expected.get(at))
    )
}

/// One case: None where the program did as second does.
fn difference(command: &[PathBuf], number: u64, case: &Case, limit: Duration) -> Option<String> {
    let folder = Folder::new(number).expect("a temporary folder");
    case.table
        .lay_out(&folder.0)
        .expect("table.blk is laid out");
    let expected = expected(case);
    let most = expected.len() + MORE_OUTPUT;
    match run_program(command, &folder.0, case, most, limit) {
        Err(error) => Some(format!("the program cannot be run: {error}")),
        Ok(None) => Some(format!("did not finish in {limit:?}")),
        Ok(Some((output, _))) if output != expected => {
            Some(first_difference(case, &output, &expected))
        }
        Ok(Some((_, status))) if !status.success() => Some(format!("ended with {status}")),
        Ok(Some(_)) => None,
    }
}

/// The words of a command that is to run in other folders. As in a shell, a
/// word with a slash in it is a path; it is made whole if it leads anywhere, and
/// that of the program must.
fn words(command: &[&str]) -> io::Result<Vec<PathBuf>> {
    let is_path = |word: &str| word.contains('/');
    if let Some(program) = command.first().filter(|word| is_path(word)) {
        fs::metadata(program)?;
    }
    let whole = |word: &&str| match is_path(word) && Path::new(word).exists() {
        true => path::absolute(word),
        false => Ok(PathBuf::from(word)),
    };
    command.iter().map(whole).collect()
}

/// Runs the cases, prints the first differences, and gives their number.
pub fn run(command: &[&str], cases: u64, limit: Duration) -> io::Result<u64> {
    let command = words(command)?;
    let mut different = 0;
    for number in 0..cases {
        // Each case has its own seed, so that one can be looked at alone.
        let case = any_case(&mut Random::new(SEED + number));
        if let Some(what) = difference(&command, number, &case, limit) {
            different += 1;
            if different <= SHOWN {
                let judged = match case.table.judged() {
                    Ok(_) => "accepted".to_string(),
                    Err(refusal) => format!("refused {}", refusal.number),
                };
                println!("case {number} (table {judged}): {what}");
            }
        }
    }
    println!("{cases} cases, {different} differences");
    Ok(different)
}
