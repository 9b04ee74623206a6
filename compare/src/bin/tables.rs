//! Prints what the build gives for rule files, a line a file, for a comparison with what is stored.
//!
//! `tables PROGRAM FILE..`: the answer of the build at full room, a hash of
//! each slice to its end, the same for the trimmed build, and length and hash
//! of what the listing program PROGRAM writes.

use std::fs::{self, File};
use std::process::{Command, ExitCode, Stdio};

use compare::library::{mulgreddi_build, mulgreddi_build_trimmed, Answer};

/// The rooms that count.
const CODES: usize = 65_536;
const TRANSITIONS: usize = 1_048_576;

/// FNV-1a over the bytes.
fn hash(bytes: impl Iterator<Item = u8>) -> u64 {
    bytes.fold(0xcbf2_9ce4_8422_2325, |h, b| {
        (h ^ u64::from(b)).wrapping_mul(0x100_0000_01b3)
    })
}

type Build = unsafe extern "C" fn(*const u8, usize, *mut u64, usize, *mut u64, usize) -> Answer;

/// The answer of a build and the hashes of both slices, which are lent full of ones.
fn built(build: Build, file: &[u8]) -> String {
    let mut codes = vec![u64::MAX; CODES];
    let mut transitions = vec![u64::MAX; TRANSITIONS];
    let answer = unsafe {
        build(
            file.as_ptr(),
            file.len(),
            codes.as_mut_ptr(),
            CODES,
            transitions.as_mut_ptr(),
            TRANSITIONS,
        )
    };
    let slice = |xs: &[u64]| hash(xs.iter().flat_map(|x| x.to_le_bytes()));
    format!(
        "{} {} {} {:016x} {:016x}",
        answer.refusal,
        answer.first,
        answer.second,
        slice(&codes),
        slice(&transitions)
    )
}

fn main() -> ExitCode {
    let mut args = std::env::args().skip(1);
    let Some(program) = args.next() else {
        eprintln!("usage: tables PROGRAM FILE..");
        return ExitCode::FAILURE;
    };
    for path in args {
        let file = fs::read(&path).unwrap_or_else(|error| panic!("{path}: {error}"));
        let listing = Command::new(&program)
            .stdin(Stdio::from(File::open(&path).unwrap()))
            .output()
            .unwrap_or_else(|error| panic!("{program}: {error}"))
            .stdout;
        println!(
            "{path}: built {}; trimmed {}; listing {} {:016x}",
            built(mulgreddi_build, &file),
            built(mulgreddi_build_trimmed, &file),
            listing.len(),
            hash(listing.iter().copied())
        );
    }
    ExitCode::SUCCESS
}
