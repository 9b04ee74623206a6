//! The table of limits. Each line names entries, what is counted of a call of them,
//! and a limit; the numbers somewhat below it, the limit itself and the numbers
//! above it are its three classes. Every class must be seen in a run, in each entry
//! of its line. A class that no call can be in says why.
//!
//! How a class is recognised: what is compared of an entry tells the numbers of the
//! call by `Harness::count`, under the name that stands here. Numbers of a file are
//! those of its trailer and its count bytes, whatever else is wrong with it; numbers
//! of slices are their lengths, in elements; numbers of what is found or written are
//! those that both programs answer.

use std::ops::RangeInclusive;

/// The numbers of a class, or why there are none.
pub enum Class {
    Numbers(RangeInclusive<u64>),
    None(&'static str),
}

pub struct Limit {
    pub entries: &'static [&'static str],
    pub counted: &'static str,
    pub classes: [Class; 3],
}

pub const CLASSES: [&str; 3] = ["below", "at", "above"];

use Class::{None as Never, Numbers};

/// From `below` up to the limit, the limit, and up to `above`.
const fn limit(
    entries: &'static [&'static str],
    counted: &'static str,
    below: u64,
    limit: u64,
    above: u64,
) -> Limit {
    Limit {
        entries,
        counted,
        classes: [
            Numbers(below..=limit - 1),
            Numbers(limit..=limit),
            Numbers(limit + 1..=above),
        ],
    }
}

/// A limit that nothing exceeds, and why.
const fn most(
    entries: &'static [&'static str],
    counted: &'static str,
    below: u64,
    limit: u64,
    why: &'static str,
) -> Limit {
    Limit {
        entries,
        counted,
        classes: [
            Numbers(below..=limit - 1),
            Numbers(limit..=limit),
            Never(why),
        ],
    }
}

/// The entries that read a rule file.
const READERS: &[&str] = &[
    "check",
    "same_rules",
    "judge",
    "build",
    "judge_table",
    "tidy",
    "mixed_loop",
    "judge_choices",
    "judge_sheet",
    "translate",
    "build_trimmed",
    "build_rejecting",
    "write_hoa",
    "live",
    "stricter",
];
const WRITERS: &[&str] = &["write", "write_named"];
/// The entries that take a word; of a sheet the longest lead-in and cycle count.
const WORDS: &[&str] = &[
    "same_words",
    "judge",
    "judge_table",
    "tidy_word",
    "judge_choices",
    "judge_sheet",
];
const BUILDS: &[&str] = &["build", "build_trimmed", "build_rejecting"];
const COMPARED: &[&str] = &["stricter"];
/// The entries that are lent a table.
const TABLES: &[&str] = &["judge_table", "write_hoa", "live"];
const READ_HOA: &[&str] = &["read_hoa"];

const U32: u64 = u32::MAX as u64;
const BITS_32: u64 = U32 + 1;
const MIB: u64 = 1 << 20;

const EIGHT_STATES: &str = "a rule has 8 states at most";
const ALL_WRITTEN: &str =
    "names 130, clauses 1,024, counts 128 and trailer 8 are all that is written";
const SEVEN_OPEN: &str = "a component of seven open states in a row of ranks brings, by the monotone step back, all 94,586 cores that differ \
     from it inside the component, or it has 85,220 cores to begin with: more than the cap";
const TWO_CAPS: &str = "both factors are 65,536 at most";

pub const LIMITS: &[Limit] = &[
    // 01: n 1 to 8, s 1 to 16, counts 0 to 8.
    limit(READERS, "states", 7, 8, 255),
    limit(READERS, "letters", 15, 16, 255),
    limit(READERS, "clauses of an entry", 7, 8, 255),
    limit(WRITERS, "states", 7, 8, U32),
    limit(WRITERS, "letters", 15, 16, U32),
    limit(WRITERS, "clauses of an entry", 7, 8, 255),
    limit(&["write_named"], "bytes of names", 113, 128, 160),
    most(
        &["check"],
        "bytes behind the preface",
        1_161,
        1_290,
        ALL_WRITTEN,
    ),
    most(&["write"], "bytes written", 1_033, 1_160, ALL_WRITTEN),
    most(&["write_named"], "bytes written", 1_161, 1_290, ALL_WRITTEN),
    most(&["tidy"], "bytes written", 1_161, 1_290, ALL_WRITTEN),
    most(&["mixed_loop"], "states of the loop", 7, 8, EIGHT_STATES),
    // 01: lead-in 0 to 32, cycle 1 to 32.
    limit(WORDS, "letters of the lead-in", 31, 32, 5_000),
    limit(WORDS, "letters of the cycle", 31, 32, 5_000),
    most(
        &["tidy_word"],
        "letters written",
        60,
        64,
        "a word of a call has 64 places at most",
    ),
    // M-103: distances do not fit in a byte; the longest way sees no pair twice.
    limit(&["judge_choices"], "distance", 224, 255, 287),
    most(
        &["judge_choices"],
        "distance",
        256,
        288,
        "a way sees no pair twice: 32 places of the lead-in, then 8 × 32 pairs of the cycle",
    ),
    // M-107: 64 words.
    limit(&["judge_sheet"], "words", 60, 64, 40_000),
    most(&["judge_sheet"], "cycles", 45, 64, "65 words are refused"),
    limit(
        &["judge_sheet"],
        "bytes of the sheet",
        32_000,
        32_768,
        34_000,
    ),
    // M-108: 64 lines; logs of any length.
    limit(&["translate"], "lines", 63, 64, 70),
    limit(&["translate"], "events", 65_000, 65_536, 66_000),
    limit(&["translate"], "events", 990_000, 1_000_000, 1_010_000),
    // 01: "Room counts at most 65,536 macrostates and 1,048,576 transitions."
    limit(BUILDS, "room for codes", 65_500, 65_536, 140_000),
    limit(BUILDS, "room for transitions", 1_048_000, MIB, 2_200_000),
    // Above: 17 and 18 in rooms over the caps.
    limit(BUILDS, "macrostates", 50_000, 65_536, 65_537),
    limit(BUILDS, "transitions", 700_000, MIB, MIB + 1),
    Limit {
        entries: &["build_trimmed"],
        counted: "macrostates kept",
        classes: [
            Numbers(30_001..=65_535),
            Never("no rule is known whose macrostates fill the room and all matter"),
            Never("what is kept is part of what is built"),
        ],
    },
    most(BUILDS, "components", 7, 8, EIGHT_STATES),
    most(BUILDS, "rank", 5, 6, SEVEN_OPEN),
    // M-109.
    limit(COMPARED, "room for codes of A", 65_500, 65_536, 66_000),
    limit(
        COMPARED,
        "room for transitions of A",
        1_048_000,
        MIB,
        1_049_000,
    ),
    limit(COMPARED, "room for codes of B", 65_500, 65_536, 66_000),
    limit(
        COMPARED,
        "room for transitions of B",
        1_048_000,
        MIB,
        1_049_000,
    ),
    limit(COMPARED, "macrostates of A", 2_501, 65_536, 65_537),
    limit(COMPARED, "transitions of A", 700_000, MIB, MIB + 1),
    limit(COMPARED, "macrostates of B", 2_501, 65_536, 65_537),
    limit(COMPARED, "transitions of B", 700_000, MIB, MIB + 1),
    most(COMPARED, "components of A", 7, 8, EIGHT_STATES),
    most(COMPARED, "components of B", 7, 8, EIGHT_STATES),
    limit(COMPARED, "P", 3_000_001, 1 << 24, 1 << 25),
    most(COMPARED, "P refused", 1 << 31, BITS_32, TWO_CAPS),
    Limit {
        entries: COMPARED,
        counted: "3 × P refused",
        classes: [
            Numbers(MIB..=U32),
            Never("3 divides no power of 2"),
            Numbers(BITS_32 + 1..=3 * BITS_32),
        ],
    },
    limit(COMPARED, "word slice refused", 1_000_000, MIB, 1_100_000),
    limit(COMPARED, "scratch refused", 1_000_000, MIB, 1_100_000),
    Limit {
        entries: COMPARED,
        counted: "letters of the word",
        classes: [
            Numbers(33..=300),
            Never("which word it is, no definition decides"),
            Numbers(301..=3 * BITS_32),
        ],
    },
    // Row 15: 65,536 codes, and no cap for transitions.
    limit(TABLES, "codes", 65_000, 65_536, 66_000),
    limit(TABLES, "transitions", 1_000_000, MIB, 1_100_000),
    most(
        &["judge_table"],
        "nodes",
        330_001,
        65_536 * 64,
        "65,536 macrostates at 64 places",
    ),
    limit(READ_HOA, "states", 65_000, 65_536, 66_000),
    limit(READ_HOA, "transitions", 1_000_000, MIB, 1_100_000),
    // M-110, M-111: 512 letters, marks 0 to 15.
    limit(&["live"], "letters held", 500, 512, 513),
    limit(&["live"], "mark", 14, 15, U32),
];

/// The lines of an entry, with their numbers.
pub fn of(entry: &str) -> impl Iterator<Item = (usize, &'static Limit)> + '_ {
    let lines = LIMITS.iter().enumerate();
    lines.filter(move |(_, limit)| limit.entries.contains(&entry))
}

/// Prints the table, a class a line: entry, what is counted, class, its numbers, or
/// why it has none.
pub fn print() {
    for limit in LIMITS {
        for entry in limit.entries {
            for (class, name) in limit.classes.iter().zip(CLASSES) {
                let numbers = match class {
                    Numbers(own) => format!("{}\t{}", own.start(), own.end()),
                    Never(why) => format!("none\t{why}"),
                };
                println!("{entry}\t{}\t{name}\t{numbers}", limit.counted);
            }
        }
    }
}

impl Limit {
    /// The number that stands for the limit: that of its class, or the last below it.
    pub fn number(&self) -> u64 {
        match &self.classes {
            [_, Numbers(at), _] => *at.start(),
            [Numbers(below), ..] => *below.end(),
            _ => 0,
        }
    }
}
