//! Generators with a fixed seed: the inputs that second and any other program
//! are compared on. The same seed always gives the same inputs.

mod broken;
mod doubles;
mod fresh;
mod leaps;
mod lines;
mod near_ties;
mod random;
mod readings;
mod splits;
mod tables;
mod ticks;
mod utc;

pub use broken::{Broken, broken_tables, doubly_broken_table};
pub use doubles::{date_pairs, edge_days, edge_seconds, seconds_past_j2000};
pub use fresh::{extended, fresh_tables, moved_tables, widest_tables};
pub use leaps::{BrokenLeaps, REAL_LEAPS, accepted_leaps, broken_leaps};
pub use lines::{hostile_line, input, plain_line};
pub use near_ties::{NearTie, near_ties, ticks_around_ties};
pub use random::Random;
pub use readings::{any_double, read_dates, read_seconds};
pub use splits::splits;
pub use tables::{Shape, accepted_table, accepted_tables};
pub use ticks::{edge_ticks, random_tick, table_ticks, tdb_ticks, tt_ticks};
pub use utc::{random_utc, tai_edges, utc_edges};
