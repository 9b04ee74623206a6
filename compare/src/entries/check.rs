//! The reader: the refusal of a file, or the length of its preface and how many
//! of its bytes are names.

use compare::library::mulgreddi_check;
use second::names::{LENGTH, MARK};
use second::rule::check;
use second::sample;

use crate::harness::{Entry, Harness, Seen, RULE};
use crate::input::{any_file, largest, limit_file, plain, refused, LIMITS, RULES};

pub const ENTRY: Entry = Entry {
    name: "check",
    refusals: &[RULE],
    verdict: false,
    kinds: &[],
    round: 120_000,
    examples,
    random: |harness| {
        let file = any_file(&mut harness.random);
        compare(harness, &file);
    },
};

fn compare(harness: &mut Harness, file: &[u8]) -> Seen {
    let expected = check(file).map(|(preface, names)| (preface as u64, names as u64));
    harness.begin();
    harness.count_file(file);
    if let Ok((preface, names)) = expected {
        let marked = if names > 0 { names + 2 } else { 0 };
        let behind = file.len() - preface as usize + marked as usize;
        harness.count("bytes behind the preface", behind);
    }
    let lent = harness.lend("file", file);
    let file = harness.bytes(lent);
    harness.call(expected, || unsafe { mulgreddi_check(file.0, file.1) });
    Seen(expected)
}

/// The largest files with names, and somewhat smaller ones.
fn limits(harness: &mut Harness) {
    for fewer in [0, 1, 64, 128] {
        let random = &mut harness.random;
        let rule = largest(random, random.clone().below(fewer + 1));
        let length = random.below(40);
        let mut file = plain(random, length);
        file.extend(sample::names(random, 16));
        file.extend(MARK);
        file.extend(sample::file(&rule));
        compare(harness, &file);
    }
}

fn examples(harness: &mut Harness) {
    limits(harness);
    names(harness);
    for (number, file) in refused() {
        let expected = compare(harness, file);
        harness.by_01(&expected.0, &Err(number));
    }
    for rule in RULES {
        let lengths = (0..=2_000).chain([4_095, 4_096, 65_535, 65_536, 300_000]);
        for length in lengths {
            let mut file = plain(&mut harness.random, length);
            file.extend(rule);
            let expected = compare(harness, &file);
            harness.by_01(&expected.0, &Ok((length as u64, 0)));
        }
        // Every cut of the file, and every change of one byte.
        for cut in 0..rule.len() {
            compare(harness, &rule[cut..]);
            compare(harness, &rule[..cut]);
            for value in 0..=255 {
                let mut changed = rule.to_vec();
                changed[cut] = value;
                compare(harness, &changed);
            }
        }
    }
    for (n, s, count) in LIMITS {
        let file = limit_file(n, s, count);
        let expected = compare(harness, &file);
        let said = match (n, s, count) {
            (0 | 9.., _, _) => Err(3),
            (_, 0 | 17.., _) => Err(4),
            (_, _, 9..) => Err(8),
            // Equal clauses.
            _ if n < count => Err(20),
            _ => Ok((0, 0)),
        };
        harness.by_01(&expected.0, &said);
        compare(harness, &file[1..]);
    }
}

/// The file of a rule of one state and s letters after a preface.
fn after(preface: &[u8], s: usize) -> Vec<u8> {
    [preface, &limit_file(1, s, 1)].concat()
}

/// A preface, s letters and what is said of their file.
fn said(harness: &mut Harness, preface: &[u8], s: usize, said: Result<usize, u8>) {
    let expected = compare(harness, &after(preface, s));
    let said = said.map(|names| (preface.len() as u64, names as u64));
    harness.by_01(&expected.0, &said);
}

/// Names for 1 to 16 letters, and prefaces that are nearly names.
fn names(harness: &mut Harness) {
    for s in 1..=16 {
        let names = sample::names(&mut harness.random, s);
        let length = LENGTH * s;
        let marked = |names: &[u8]| [names, &MARK].concat();
        said(harness, &marked(&names), s, Ok(length));
        for more in [1, 2, 7, 8, 9, 300] {
            let before = harness.random.bytes(more);
            said(harness, &[before, marked(&names)].concat(), s, Ok(length));
        }
        for fewer in 1..=length {
            said(harness, &marked(&names[fewer..]), s, Err(21));
        }
        // The mark one byte off, and with a byte after it.
        for mark in [
            &[0x4e][..],
            &[0x4d],
            &[0x4d, 0x4e],
            &[0x4e, 0x4e],
            &[0x4d, 0x4d],
        ] {
            let preface = [&names[..], mark].concat();
            // A name may end with the mark's first byte.
            if !preface.ends_with(&MARK) {
                said(harness, &preface, s, Ok(0));
            }
        }
        for last in 0..=255 {
            let file = [marked(&names), vec![last]].concat();
            said(harness, &file, s, Ok(0));
        }
        for at in 0..length {
            for byte in [0, 0x1f, 0x20, 0x7e, 0x7f, 0x80, 0xff] {
                let mut changed = names.clone();
                changed[at] = byte;
                let expected = compare(harness, &after(&marked(&changed), s));
                if !(0x20..=0x7e).contains(&byte) {
                    harness.by_01(&expected.0, &Err(22));
                }
            }
        }
        for one in 0..s {
            for other in (0..s).filter(|&other| other != one) {
                let mut equal = names.clone();
                equal.copy_within(LENGTH * one..LENGTH * (one + 1), LENGTH * other);
                said(harness, &marked(&equal), s, Err(23));
                // Names that differ in their last byte alone.
                let last = &mut equal[LENGTH * (other + 1) - 1];
                *last = if *last == b'x' { b'y' } else { b'x' };
                compare(harness, &after(&marked(&equal), s));
                // Row 22 in a later name comes before two equal ones.
                equal[LENGTH * (other + 1) - 1] = 0x7f;
                said(harness, &marked(&equal), s, Err(22));
            }
        }
    }
    // Rows 20 and 11 come before the names.
    for (number, file) in sample::REFUSED.into_iter().skip(10) {
        let expected = compare(harness, &[&MARK, file].concat());
        harness.by_01(&expected.0, &Err(number));
    }
}
