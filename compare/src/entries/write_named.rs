//! The writer with names for letters.

use compare::library::mulgreddi_write_named;
use second::names::LENGTH;
use second::rule::{check, read_named, write_named};
use second::sample::{self, F};

use super::write::{any_parts, Parts};
use crate::harness::{Entry, Harness, Seen};
use crate::input::{largest, names, near};

pub const ENTRY: Entry = Entry {
    name: "write_named",
    refusals: &[&[3, 4, 5, 6, 7, 8, 9, 10, 20, 11, 21, 22, 23, 16]],
    verdict: false,
    kinds: &["names", "no names"],
    round: 100_000,
    examples,
    random,
};

fn compare(harness: &mut Harness, parts: &Parts, names: &[u8], room: usize) -> Seen {
    let written = write_named(parts.numbers, &parts.counts, &parts.clauses, names, room);
    let out = harness.pattern(room);
    harness.begin();
    parts.count(harness, &written);
    harness.count("bytes of names", names.len());
    // The four numbers too, so that a difference shows them.
    let numbers = parts.numbers.map(u32::to_be_bytes).concat();
    harness.lend("n, s, initial, accepting (high byte first)", &numbers);
    let counts = harness.lend("counts", &parts.counts);
    let clauses = harness.lend("clauses", &parts.clauses);
    let given = harness.lend("names", names);
    let lent = harness.lend_out("out", &out);
    let expected = match written {
        Ok(file) => {
            harness.saw(if names.is_empty() {
                "no names"
            } else {
                "names"
            });
            let mut after = out;
            after[..file.len()].copy_from_slice(&file);
            harness.expect(lent, after);
            Ok((file.len() as u64, 0))
        }
        Err(number) => Err(number),
    };
    let [n, s, initial, accepting] = parts.numbers;
    let (counts, clauses) = (harness.bytes(counts), harness.bytes(clauses));
    let (names, out) = (harness.bytes(given), harness.bytes(lent));
    harness.call(expected, || unsafe {
        mulgreddi_write_named(
            n, s, initial, accepting, counts.0, counts.1, clauses.0, clauses.1, names.0, names.1,
            out.0, out.1,
        )
    });
    Seen(expected)
}

/// The largest rules with names, somewhat smaller ones, and name bytes around all
/// that sixteen letters have.
fn limits(harness: &mut Harness) {
    for fewer in [0, 1, 64, 128] {
        let random = &mut harness.random;
        let parts = Parts::of(&largest(random, random.clone().below(fewer + 1)));
        let names = sample::names(random, 16);
        let needed = parts.needed() + 130;
        for room in [needed - 1, needed, 2_000] {
            compare(harness, &parts, &names, room);
        }
        let more = [&names[..], &names].concat();
        for length in [
            127,
            129,
            harness.random.between(113, 127),
            harness.random.between(129, 160),
        ] {
            compare(harness, &parts, &more[..length], needed);
        }
    }
}

fn examples(harness: &mut Harness) {
    limits(harness);
    let f = Parts {
        numbers: [1, 2, 0, 0],
        counts: vec![1, 1],
        clauses: vec![1, 0],
    };
    let names = b"FETCH   STORE   ";
    let written = write_named(f.numbers, &f.counts, &f.clauses, names, 30);
    let named = [&b"FETCH   STORE   NM"[..], &F].concat();
    harness.by_01(&written, &Ok(named));
    for room in 0..40 {
        let expected = compare(harness, &f, names, room);
        let said = if room < 30 { Err(16) } else { Ok((30, 0)) };
        harness.by_01(&expected.0, &said);
        let expected = compare(harness, &f, &[], room);
        let said = if room < 12 { Err(16) } else { Ok((12, 0)) };
        harness.by_01(&expected.0, &said);
    }
    // "name bytes given to it that are neither none nor 8 × s are 21"
    let long = sample::names(&mut harness.random, 16).repeat(600);
    for length in (0..40).chain([65_536, 65_552, 76_800]) {
        let expected = compare(harness, &f, &long[..length], 99);
        harness.by_01(
            &expected.0.err().unwrap_or(0),
            &match length {
                0 | 16 => 0,
                _ => 21,
            },
        );
    }
    let rows: [(&[u8; 16], u8); 4] = [
        (b"FETCH   FETCH  \x7f", 22),
        (b"\x1fETCH   \x1fETCH   ", 22),
        (b"FETCH   FETCH   ", 23),
        (b"FETCH   FETCH  ~", 0),
    ];
    for (names, row) in rows {
        let expected = compare(harness, &f, names, 99);
        harness.by_01(&expected.0.err().unwrap_or(0), &row);
        // These rows come before 16.
        let expected = compare(harness, &f, names, 0);
        harness.by_01(&expected.0, &Err(if row == 0 { 16 } else { row }));
    }
    for s in 1..=16 {
        let parts = Parts {
            numbers: [1, s, 0, 0],
            counts: vec![0; s as usize],
            clauses: vec![],
        };
        let names = sample::names(&mut harness.random, s as usize);
        for length in 0..=names.len() {
            compare(harness, &parts, &names[..length], 999);
        }
        let needed = parts.needed() + names.len() + 2;
        compare(harness, &parts, &names, needed);
        compare(harness, &parts, &names, needed - 1);
    }
}

fn random(harness: &mut Harness) {
    let parts = any_parts(harness);
    let random = &mut harness.random;
    let s = (parts.numbers[1] as usize).clamp(1, 20);
    let names = match random.below(8) {
        0 => vec![],
        _ => names(random, s),
    };
    let marked = if names.is_empty() { 0 } else { names.len() + 2 };
    let room = near(random, parts.needed() + marked);
    if compare(harness, &parts, &names, room).0.is_err() {
        return;
    }
    // Written and read back: the same numbers and the same names.
    let [n, s, initial, accepting] = parts.numbers;
    let file = write_named(parts.numbers, &parts.counts, &parts.clauses, &names, room).unwrap();
    harness.by_01(&check(&file), &Ok((marked, names.len())));
    let read = read_named(&file).unwrap();
    let numbers = [read.rule.states, read.rule.letters, read.rule.initial];
    harness.by_01(&numbers, &[n, s, initial].map(|number| number as usize));
    harness.by_01(&u32::from(read.rule.accepting), &accepting);
    harness.by_01(&read.names.unwrap_or_default().concat(), &names);
    harness.by_01(&(names.len() % LENGTH), &0);
}
