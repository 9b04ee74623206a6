//! The tidy tool.

use compare::library::mulgreddi_tidy;
use second::build::reachable;
use second::names::MARK;
use second::rule::{read, same_rules, take_apart};
use second::sample::{self, F};
use second::tidy::{tidy, tidy_rule};

use crate::harness::{Entry, Harness, Seen};
use crate::input::{any_file, largest, near, nested_rule, plain, prefaced, refused, RULES};

pub const ENTRY: Entry = Entry {
    name: "tidy",
    refusals: &[&[1, 2, 3, 4, 5, 6, 7, 8, 9, 10, 11, 21, 22, 23, 16]],
    verdict: false,
    kinds: &[],
    round: 100_000,
    examples,
    random,
};

/// A clause that contains the empty one glues two components together. 02: "its
/// macrostates may differ in number"; with the counts of macrostates and
/// transitions before and after.
const GLUED: &[u8] = &[0, 2, 1, 2, 1, 2, 1, 0, 0, 3, 0, 0x41, 0x57];
const GLUED_COUNTS: [(usize, usize); 2] = [(12, 16), (11, 14)];

fn compare(harness: &mut Harness, file: &[u8], room: usize) -> Seen {
    let tidied = tidy(file).and_then(|tidied| {
        if room < tidied.len() {
            return Err(16);
        }
        Ok(tidied)
    });
    let out = harness.pattern(room);
    harness.begin();
    harness.count_file(file);
    if let Ok(tidied) = &tidied {
        harness.count("bytes written", tidied.len());
    }
    let file = harness.lend("file", file);
    let lent = harness.lend_out("out", &out);
    let expected = match tidied {
        Ok(tidied) => {
            let mut after = out;
            after[..tidied.len()].copy_from_slice(&tidied);
            harness.expect(lent, after);
            Ok((tidied.len() as u64, 0))
        }
        Err(number) => Err(number),
    };
    let (file, out) = (harness.bytes(file), harness.bytes(lent));
    harness.call(expected, || unsafe {
        mulgreddi_tidy(file.0, file.1, out.0, out.1)
    });
    Seen(expected)
}

/// The largest files with names, and such with clauses inside others.
fn limits(harness: &mut Harness) {
    for nested in [0, 0, 1, 60, 120] {
        let random = &mut harness.random;
        let mut rule = largest(random, 0);
        for _ in 0..nested {
            let entry = &mut rule.entries[random.below(8)][random.below(16)];
            let (one, other) = (random.below(8), random.below(8));
            entry[one] |= entry[other];
        }
        let names = sample::names(random, 16);
        let file = [&names[..], &MARK, &sample::file(&rule)].concat();
        let needed = tidy(&file).unwrap().len();
        for room in [needed - 1, needed, 1_290, 2_000] {
            compare(harness, &file, room);
        }
    }
}

fn examples(harness: &mut Harness) {
    limits(harness);
    for (number, file) in refused() {
        let expected = compare(harness, file, 99);
        match number {
            // A mixed component, though a clause inside another glues it.
            20 => harness.by_01(&expected.0, &Err(11)),
            _ => harness.by_01(&expected.0, &Err(number)),
        }
    }
    // A rule that passes row 20 is written as it stands, without its preface.
    for rule in RULES {
        for length in [0, 1, 7, 300] {
            let file = [&plain(&mut harness.random, length)[..], rule].concat();
            for room in 0..rule.len() + 3 {
                let expected = compare(harness, &file, room);
                let said = if room < rule.len() {
                    Err(16)
                } else {
                    Ok((rule.len() as u64, 0))
                };
                harness.by_01(&expected.0, &said);
            }
        }
    }
    // Of a preface the names stay, as the writer lays them out.
    let named = [&b"FETCH   STORE   NM"[..], &F].concat();
    let file = [&b"a preface"[..], &named].concat();
    harness.by_01(&tidy(&file), &Ok(named.clone()));
    for room in 0..named.len() + 3 {
        compare(harness, &file, room);
    }
    let (glued, _) = take_apart(GLUED).unwrap();
    for (rule, counts) in [glued.clone(), tidy_rule(&glued)].iter().zip(GLUED_COUNTS) {
        let (codes, transitions) = reachable(rule, 99, 99).unwrap();
        harness.by_01(&(codes.len(), transitions.len()), &counts);
    }
    compare(harness, GLUED, 99);
}

fn random(harness: &mut Harness) {
    let random = &mut harness.random;
    let file = if random.once_in(4) {
        any_file(random)
    } else {
        let rule = nested_rule(random);
        prefaced(random, &rule)
    };
    let needed = tidy(&file).map_or(20, |tidied| tidied.len());
    let room = near(random, needed);
    if compare(harness, &file, room).0.is_err() {
        return;
    }
    // The tidied file is accepted, and tidying it again changes nothing.
    let tidied = tidy(&file).unwrap();
    harness.by_01(&read(&tidied).is_ok(), &true);
    harness.by_01(&tidy(&tidied), &Ok(tidied.clone()));
    if read(&file).is_ok() {
        harness.by_01(&same_rules(&file, &tidied), &Ok(true));
    }
    compare(harness, &tidied, room);
}
