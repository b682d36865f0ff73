//! `bench`: how fast the proved library is, beside plain Rust and plain C, in one run on one
//! machine. Before anything is timed the answers of all sides are compared, every one. `bench
//! tickline` is the line program in plain Rust, which it times.

mod inputs;
mod ours;
mod plain;
mod plain_c;
mod rows;
mod timing;

use rows::{batches, changes, dates, few, lines, tables, utc};

/// "table.blk", a table as a host would load it.
const TABLE: &[u8] = include_bytes!("../../examples/table.blk");
/// The leap seconds, as a host would load them.
const LEAPS: &str = include_str!("../../examples/leaps.txt");

fn main() {
    if std::env::args().nth(1).as_deref() == Some("tickline") {
        return plain::line::run().expect("standard input and output");
    }
    println!("| case | ours, ns | plain Rust, ns | ratio | plain C, ns |");
    println!("|---|---|---|---|---|");
    batches::rows(TABLE);
    tables::row(TABLE);
    few::rows(TABLE);
    changes::rows(TABLE);
    dates::rows();
    utc::rows(LEAPS);
    lines::rows(TABLE);
    println!();
    println!("| growth of ours | sizes | ns for each |");
    println!("|---|---|---|");
    batches::growth(TABLE);
    tables::growth(TABLE);
    lines::growth(TABLE);
}
