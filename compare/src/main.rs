//! Compares every entry of the library with the second program. The declarations
//! by which it is called are held to its header when this is built.
//!
//! `compare [--seed N] [--seconds S] [--endless] [--only ENTRY]`: a seed repeats a
//! run; with seconds it runs on with new seeds until the time is up, `--endless`
//! until a difference; with a name as it is reported, that entry alone is compared. `compare --limits` prints the table of
//! limits.

mod entries;
mod harness;
mod input;
mod lend;
mod limits;

use std::process::ExitCode;
use std::time::{Duration, Instant};

use harness::Harness;

/// What follows a flag.
fn argument(flag: &str) -> Option<String> {
    let mut arguments = std::env::args().skip_while(|argument| argument != flag);
    arguments.next()?;
    let value = arguments.next();
    Some(value.unwrap_or_else(|| panic!("{flag} needs a value")))
}

/// The number that follows a flag.
fn number(flag: &str) -> Option<u64> {
    let value = argument(flag)?.parse();
    Some(value.unwrap_or_else(|_| panic!("{flag} needs a number")))
}

fn main() -> ExitCode {
    if std::env::args().any(|argument| argument == "--limits") {
        limits::print();
        return ExitCode::SUCCESS;
    }
    let first_seed = number("--seed").unwrap_or(1);
    let until = number("--seconds").map(|s| Instant::now() + Duration::from_secs(s));
    let mut entries = entries::all();
    if let Some(only) = argument("--only") {
        entries.retain(|entry| entry.name == only);
        assert!(!entries.is_empty(), "no entry is called {only}");
    }
    let mut harness = Harness::new();
    let mut seed = first_seed;
    // The first round is always whole, later ones stop when the time is up.
    for (number, entry) in (0..).zip(&entries) {
        harness.round(entry, number, seed, None);
    }
    let endless = std::env::args().any(|argument| argument == "--endless");
    while endless || until.is_some_and(|until| Instant::now() < until) {
        if endless {
            println!("no difference with seed {seed}");
        }
        seed = seed.wrapping_add(1);
        for (number, entry) in (0..).zip(&entries) {
            if endless || until.is_some_and(|until| Instant::now() < until) {
                harness.round(entry, number, seed, until);
            }
        }
    }
    println!("seeds {first_seed} to {seed}");
    let declarations = env!("DECLARATIONS");
    let version = unsafe { compare::library::mulgreddi_version() };
    println!("{declarations} of version {version} held to include/mulgreddi.h by type and name");
    if harness.report(&entries) {
        println!("no difference");
        ExitCode::SUCCESS
    } else {
        ExitCode::FAILURE
    }
}
