//! `second compare`: every function of the proved library's archive against
//! second's own answer on the generators' inputs.

mod batches;
mod buffers;
mod changes;
mod conversions;
mod guesses;
mod interface;
mod ledger;
mod near_ties;
mod own;
mod readings;
mod stage;
mod table_steps;
mod tables;
mod trial;
mod utc;
mod written_dates;

pub use buffers::{blank, bytes_of_ticks};
pub use interface::{
    Answer, Asked, Called, ChangesAnswer, Date, Desk, Lent, Outcome, Reply, TableAnswer, UtcAnswer,
};
pub use ledger::Ledger;
pub use own::Own;
pub use stage::{Size, Stage};
use trial::Trial;

/// One comparison: the function's name with what it is asked, and how it is
/// compared.
pub struct Comparison {
    pub name: &'static str,
    run: fn(&Stage, &mut Trial) -> Result<(), String>,
}

impl Comparison {
    /// A desk that breaks down is a difference, and ends the comparison.
    pub fn run(&self, desk: &mut dyn Desk, stage: &Stage) -> Ledger {
        let mut trial = Trial::new(desk);
        let outcome = (self.run)(stage, &mut trial);
        let mut ledger = trial.ledger;
        if let Err(why) = outcome {
            ledger.differs(|| why);
        }
        ledger
    }
}

/// Every comparison there is.
pub const COMPARISONS: [Comparison; 22] = [
    Comparison {
        name: "colliedash_judge",
        run: tables::judge,
    },
    Comparison {
        name: "colliedash_read_table",
        run: tables::read_table,
    },
    Comparison {
        name: "colliedash_write_table",
        run: tables::write_table,
    },
    Comparison {
        name: "colliedash_compare_tables",
        run: changes::compare_tables,
    },
    Comparison {
        name: "colliedash_write_date",
        run: written_dates::write_date,
    },
    Comparison {
        name: "colliedash_convert_ticks",
        run: conversions::convert_ticks,
    },
    Comparison {
        name: "colliedash_convert_ticks, TT to TDB",
        run: table_steps::tt_to_tdb,
    },
    Comparison {
        name: "colliedash_convert_ticks, TDB to TT",
        run: table_steps::tdb_to_tt,
    },
    Comparison {
        name: "colliedash_convert_ticks, around halves of a tick",
        run: near_ties::convert_ticks,
    },
    Comparison {
        name: "colliedash_convert_ticks, around halves of a unit of u",
        run: guesses::halves_of_u,
    },
    Comparison {
        name: "colliedash_convert_date",
        run: conversions::convert_date,
    },
    Comparison {
        name: "colliedash_convert_date, the reading alone",
        run: readings::read_date,
    },
    Comparison {
        name: "colliedash_convert_date, around halves of a tick",
        run: readings::read_splits,
    },
    Comparison {
        name: "colliedash_convert_j2000",
        run: conversions::convert_j2000,
    },
    Comparison {
        name: "colliedash_convert_j2000, the reading alone",
        run: readings::read_j2000,
    },
    Comparison {
        name: "colliedash_batch",
        run: batches::batch,
    },
    Comparison {
        name: "colliedash_batch, around halves of a tick",
        run: near_ties::batch,
    },
    Comparison {
        name: "colliedash_batch, rising ticks over a table",
        run: guesses::rising,
    },
    Comparison {
        name: "colliedash_convert_utc",
        run: utc::convert_utc,
    },
    Comparison {
        name: "colliedash_convert_utc, the reading alone",
        run: utc::read_utc,
    },
    Comparison {
        name: "colliedash_write_utc",
        run: utc::write_utc,
    },
    Comparison {
        name: "colliedash_write_utc, the writing alone",
        run: utc::write_tai,
    },
];

/// Runs every comparison and prints a line for each. Gives the number of
/// differences. Each comparison starts a desk of its own, so that a function
/// that breaks it takes no other one with it.
pub fn run(
    start: impl Fn() -> Result<Box<dyn Desk>, String>,
    stage: &Stage,
) -> Result<u64, String> {
    let mut different = 0;
    for comparison in &COMPARISONS {
        let ledger = comparison.run(&mut *start()?, stage);
        println!("{}: {}", comparison.name, ledger.summary());
        for difference in &ledger.first_differences {
            println!("    {difference}");
        }
        different += ledger.different;
    }
    Ok(different)
}

/// What `second compare` says when it is given no command.
pub fn list() {
    println!("No bridge was named, so nothing was compared.");
    println!("The comparisons that exist:");
    for comparison in &COMPARISONS {
        println!("    {}", comparison.name);
    }
}
