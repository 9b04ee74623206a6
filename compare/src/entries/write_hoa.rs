//! Tables written as Hanoi texts.

use compare::library::mulgreddi_write_hoa;
use compare::stored::LARGE;
use second::build::build;
use second::hanoi;
use second::hoa::{carried_by, propositions, write_hoa, ACCEPTING, INITIAL};
use second::rule::read;
use second::sample::{self, D, E, F, I, SHAPES, Z};
use second::trim::trim;

use super::build::stored;
use super::judge_table::{bytes, damage, fault, large_tables, made_up};
use crate::harness::{Entry, Harness, Seen, RULE};
use crate::input::{any_file, limit_file, near, preface, refused, varied};

pub const ENTRY: Entry = Entry {
    name: "write_hoa",
    refusals: &[RULE, &[15, 16]],
    verdict: false,
    kinds: &["no macrostate", "0 AP", "1 AP", "2 AP", "3 AP", "4 AP"],
    round: 100_000,
    examples,
    random,
};

/// What the second program writes; a table's length that 8 does not divide is 15.
fn written(file: &[u8], table: [&[u8]; 2], room: usize) -> Result<Vec<u8>, u8> {
    read(file)?;
    let numbers = |bytes: &[u8]| -> Result<Vec<u64>, u8> {
        if bytes.len() % 8 != 0 {
            return Err(15);
        }
        let eight = bytes.chunks(8);
        Ok(eight
            .map(|b| u64::from_le_bytes(b.try_into().unwrap()))
            .collect())
    };
    write_hoa(file, &numbers(table[0])?, &numbers(table[1])?, room)
}

fn compare(harness: &mut Harness, file: &[u8], table: [&[u8]; 2], room: usize) -> Seen {
    let written = written(file, table, room);
    let text = harness.pattern(room);
    harness.begin();
    harness.count_file(file);
    harness.count("codes", table[0].len() / 8);
    harness.count("transitions", table[1].len() / 8);
    let file = harness.lend("file", file);
    let codes = harness.lend("codes", table[0]);
    let transitions = harness.lend("transitions", table[1]);
    let lent = harness.lend_out("text", &text);
    let expected = match written {
        Ok(written) => {
            let mut after = text;
            after[..written.len()].copy_from_slice(&written);
            harness.expect(lent, after);
            Ok((written.len() as u64, 0))
        }
        Err(number) => Err(number),
    };
    let (file, text) = (harness.bytes(file), harness.bytes(lent));
    let (codes, transitions) = (harness.bytes(codes), harness.bytes(transitions));
    harness.call(expected, || unsafe {
        mulgreddi_write_hoa(
            file.0,
            file.1,
            codes.0,
            codes.1,
            transitions.0,
            transitions.1,
            text.0,
            text.1,
        )
    });
    Seen(expected)
}

/// A text that was written reads back as the table, by the reader of these texts
/// and by a reader of the format at large.
fn read_back(harness: &mut Harness, file: &[u8], text: &[u8], transitions: &[u64]) {
    let carried = carried_by(text).unwrap();
    harness.by_01(&&carried.transitions[..], &transitions);
    let seen = hanoi::read(text).unwrap();
    let flags = (0..seen.states).map(|number| {
        let initial = if seen.starts.contains(&number) {
            INITIAL
        } else {
            0
        };
        let accepting = if seen.accepting[number] { ACCEPTING } else { 0 };
        initial + accepting
    });
    harness.agree(&carried.flags, &flags.collect());
    let edges = seen.edges.iter().map(|&(source, valuation, target)| {
        source as u64 * 16_777_216 + valuation as u64 * 65_536 + target as u64
    });
    harness.agree(&carried.transitions, &edges.collect());
    let letters = read(file).unwrap().0.letters;
    let names = (0..propositions(letters)).map(|bit| format!("e{bit}"));
    harness.agree(&seen.propositions, &names.collect());
    harness.saw(match seen.propositions.len() {
        0 => "0 AP",
        1 => "1 AP",
        2 => "2 AP",
        3 => "3 AP",
        _ => "4 AP",
    });
    if seen.states == 0 {
        harness.saw("no macrostate");
    }
}

/// The text of F's table.
pub const TEXT_OF_F: &str = "\
HOA: v1
States: 3
Start: 1
AP: 1 \"e0\"
acc-name: Buchi
Acceptance: 1 Inf(0)
properties: trans-labels explicit-labels state-acc
--BODY--
State: 0 {0}
[!0] 0
State: 1 {0}
[!0] 2
[0] 0
[0] 2
State: 2
[!0] 2
[0] 0
[0] 1
--END--
";

/// Tables around the most codes and around the most transitions of a build.
fn limits(harness: &mut Harness) {
    for (codes, transitions, s) in large_tables(&mut harness.random) {
        let file = limit_file(1, s, 1);
        let text = write_hoa(&file, &codes, &transitions, usize::MAX);
        let room = text.map_or(0, |text| text.len());
        compare(harness, &file, [&bytes(&codes), &bytes(&transitions)], room);
    }
}

fn examples(harness: &mut Harness) {
    limits(harness);
    for (number, file) in refused() {
        let expected = compare(harness, file, [&[1], &[]], 0);
        harness.by_01(&expected.0, &Err(number));
    }
    let (codes, transitions) = build(&F, 3, 7).unwrap();
    let text = write_hoa(&F, &codes, &transitions, 999);
    harness.by_01(&text, &Ok(TEXT_OF_F.as_bytes().to_vec()));
    for file in [&F[..], &D, &E, &I, &Z] {
        let (codes, transitions) = build(file, 99, 99).unwrap();
        for (codes, transitions) in [
            trim(&codes, &transitions),
            (codes.clone(), vec![]),
            (vec![], vec![]),
            (codes, transitions),
        ] {
            let text = write_hoa(file, &codes, &transitions, 9_999).unwrap();
            read_back(harness, file, &text, &transitions);
            let (codes, transitions) = (bytes(&codes), bytes(&transitions));
            for room in 0..text.len() + 3 {
                let expected = compare(harness, file, [&codes, &transitions], room);
                harness.by_01(&expected.0.is_err(), &(room < text.len()));
            }
        }
    }
    // Row 15 comes before 16.
    let tables: [(&[u64], &[u64]); 5] = [
        (&[5, 5], &[]),
        (&[1 << 48], &[]),
        (&[1], &[1]),
        (&[1], &[131_072]),
        (&[1], &[0, 0]),
    ];
    for (codes, transitions) in tables {
        let expected = compare(harness, &F, [&bytes(codes), &bytes(transitions)], 0);
        harness.by_01(&expected.0, &Err(15));
    }
    for (codes, transitions) in [(7, 0), (9, 0), (8, 7), (8, 9), (1, 1)] {
        let table: [&[u8]; 2] = [&[0; 16][..codes], &[0; 16][..transitions]];
        let expected = compare(harness, &F, table, 999);
        harness.by_01(&expected.0, &Err(15));
    }
    // A table that nearly fills both rooms.
    let (file, ..) = LARGE[0];
    let table = stored(file, true);
    let text = write_hoa(file, &table.0, &table.1, usize::MAX);
    let length = text.unwrap().len();
    let (codes, transitions) = (bytes(&table.0), bytes(&table.1));
    for room in [length - 1, length, length + 9] {
        compare(harness, file, [&codes, &transitions], room);
    }
}

fn random(harness: &mut Harness) {
    let random = &mut harness.random;
    let states = *random.pick(&[1, 1, 2, 2, 2, 3, 3, 4]);
    let alphabet = match random.below(3) {
        0 => random.between(1, 16),
        _ => random.between(1, 3),
    };
    let shape = *random.pick(&SHAPES);
    let rule = varied(random, shape, states, alphabet);
    let file = [preface(random), sample::file(&rule)].concat();
    let built = build(&file, 80, 500).ok();
    let rounds = if built.is_some() { 8 } else { 4 };
    for _ in 0..rounds {
        let random = &mut harness.random;
        let (mut codes, mut transitions) = match (&built, random.below(6)) {
            (Some((codes, transitions)), 0) => trim(codes, transitions),
            (Some((codes, transitions)), 1..=3) => {
                let (mut codes, mut transitions) = (codes.clone(), transitions.clone());
                if random.once_in(2) {
                    damage(random, &rule, &mut codes, &mut transitions);
                }
                (codes, transitions)
            }
            _ => made_up(random, &rule),
        };
        if random.once_in(6) {
            fault(random, &rule, &mut codes, &mut transitions);
        }
        let (mut code_bytes, mut transition_bytes) = (bytes(&codes), bytes(&transitions));
        if random.once_in(40) {
            // A length that 8 does not divide.
            let part = if random.once_in(2) {
                &mut code_bytes
            } else {
                &mut transition_bytes
            };
            if random.once_in(2) {
                part.push(0);
            } else {
                part.pop();
            }
        }
        let table = [&code_bytes[..], &transition_bytes];
        let other = any_file(random);
        let file = if random.once_in(16) { &other } else { &file };
        let text = written(file, table, usize::MAX);
        let room = near(random, text.as_ref().map_or(300, Vec::len));
        if compare(harness, file, table, room).0.is_ok() {
            read_back(harness, file, &text.unwrap(), &transitions);
        }
    }
}
