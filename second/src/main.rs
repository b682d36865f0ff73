//! The commands: `second tickline`, `second compare`, `second values`, `second
//! fuzz`. A fifth, `second bridge`, is there for second's own tests alone.

use second::bridge::{self, Bridge, Fault};
use second::compare::{self, Desk, Size, Stage};
use second::{fuzz, line, values};
use std::io::{self, BufReader, BufWriter};
use std::path::Path;
use std::process::ExitCode;

const USAGE: &str = "usage: second tickline | second compare [COMMAND..] | \
     second values COMMAND.. | second fuzz [--cases N] COMMAND..";
const SEED: u64 = 1;
const SIZE: Size = Size {
    tables: 160,
    conversions: 120,
    splits: 2_000_000,
};

fn main() -> ExitCode {
    let arguments: Vec<String> = std::env::args().skip(1).collect();
    let arguments: Vec<&str> = arguments.iter().map(String::as_str).collect();
    match &arguments[..] {
        ["tickline"] => tickline(),
        ["compare"] => {
            compare::list();
            ExitCode::SUCCESS
        }
        ["compare", command @ ..] => compare_archive(command),
        ["values", command @ ..] if !command.is_empty() => values_of_archive(command),
        ["fuzz", "--cases", cases, command @ ..] => match cases.parse() {
            Ok(cases) if !command.is_empty() => fuzz_program(command, cases),
            _ => usage(),
        },
        ["fuzz", command @ ..] if !command.is_empty() => fuzz_program(command, fuzz::DEFAULT_CASES),
        ["bridge", fault] => match Fault::named(fault) {
            Some(fault) => serve(fault),
            None => usage(),
        },
        _ => usage(),
    }
}

fn usage() -> ExitCode {
    eprintln!("{USAGE}");
    ExitCode::from(2)
}

/// Standard input and output may fail; then there is nothing more to say there.
fn ended(result: io::Result<()>) -> ExitCode {
    match result {
        Ok(()) => ExitCode::SUCCESS,
        Err(error) => {
            eprintln!("standard input or output: {error}");
            ExitCode::FAILURE
        }
    }
}

fn tickline() -> ExitCode {
    let table = line::table_file(Path::new("table.blk"));
    let mut output = BufWriter::new(io::stdout().lock());
    ended(line::run(&mut io::stdin().lock(), &mut output, &table))
}

fn serve(fault: Fault) -> ExitCode {
    let mut input = BufReader::new(io::stdin().lock());
    ended(bridge::serve(&mut input, &mut io::stdout().lock(), fault))
}

fn compare_archive(command: &[&str]) -> ExitCode {
    let start = || {
        let bridge = Bridge::start(command, bridge::TIME_LIMIT)?;
        Ok(Box::new(bridge) as Box<dyn Desk>)
    };
    match compare::run(start, &Stage::new(SEED, SIZE)) {
        Ok(0) => ExitCode::SUCCESS,
        Ok(_) => ExitCode::FAILURE,
        Err(what) => {
            eprintln!("{}: {what}", command.join(" "));
            ExitCode::FAILURE
        }
    }
}

fn values_of_archive(command: &[&str]) -> ExitCode {
    let run = Bridge::start(command, bridge::TIME_LIMIT)
        .and_then(|mut bridge| values::run(values::PAGE, &mut bridge));
    match run {
        Ok(run) => {
            println!("{}", run.summary());
            for difference in &run.differences {
                println!("    {difference}");
            }
            match run.differences.is_empty() {
                true => ExitCode::SUCCESS,
                false => ExitCode::FAILURE,
            }
        }
        Err(what) => {
            eprintln!("{}: {what}", command.join(" "));
            ExitCode::FAILURE
        }
    }
}

fn fuzz_program(command: &[&str], cases: u64) -> ExitCode {
    match fuzz::run(command, cases, fuzz::TIME_LIMIT) {
        Ok(0) => ExitCode::SUCCESS,
        Ok(_) => ExitCode::FAILURE,
        Err(error) => {
            eprintln!("{}: {error}", command.join(" "));
            ExitCode::from(2)
        }
    }
}
