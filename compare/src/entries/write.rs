//! The writer.

use compare::library::mulgreddi_write;
use second::rule::{write, Rule};
use second::sample::{file, F};

use crate::harness::{Entry, Harness, Seen};
use crate::input::{largest, limit_file, near, nested_rule, rule, LIMITS};

pub const ENTRY: Entry = Entry {
    name: "write",
    refusals: &[&[3, 4, 5, 6, 7, 8, 9, 10, 11, 16, 20]],
    verdict: false,
    kinds: &[],
    round: 110_000,
    examples,
    random,
};

/// What the writer takes.
#[derive(Clone, Debug)]
pub struct Parts {
    pub numbers: [u32; 4],
    pub counts: Vec<u8>,
    pub clauses: Vec<u8>,
}

impl Parts {
    pub fn of(rule: &Rule) -> Self {
        let entries = rule.entries.iter().flatten();
        Parts {
            numbers: [
                rule.states as u32,
                rule.letters as u32,
                rule.initial as u32,
                rule.accepting.into(),
            ],
            counts: entries.clone().map(|clauses| clauses.len() as u8).collect(),
            clauses: entries.flatten().copied().collect(),
        }
    }

    /// The numbers of a call of a writer.
    pub fn count(&self, harness: &mut Harness, written: &Result<Vec<u8>, u8>) {
        harness.count("states", self.numbers[0] as usize);
        harness.count("letters", self.numbers[1] as usize);
        let most = self.counts.iter().max();
        harness.count("clauses of an entry", most.map_or(0, |&most| most.into()));
        if let Ok(file) = written {
            harness.count("bytes written", file.len());
        }
    }

    pub fn needed(&self) -> usize {
        self.clauses.len() + self.counts.len() + 8
    }
}

fn compare(harness: &mut Harness, parts: &Parts, room: usize) -> Seen {
    let written = write(parts.numbers, &parts.counts, &parts.clauses, room);
    let out = harness.pattern(room);
    harness.begin();
    parts.count(harness, &written);
    // The four numbers too, so that a difference shows them.
    let numbers = parts.numbers.map(u32::to_be_bytes).concat();
    harness.lend("n, s, initial, accepting (high byte first)", &numbers);
    let counts = harness.lend("counts", &parts.counts);
    let clauses = harness.lend("clauses", &parts.clauses);
    let lent = harness.lend_out("out", &out);
    let expected = match written {
        Ok(file) => {
            let mut after = out;
            after[..file.len()].copy_from_slice(&file);
            harness.expect(lent, after);
            Ok((file.len() as u64, 0))
        }
        Err(number) => Err(number),
    };
    let [n, s, initial, accepting] = parts.numbers;
    let (counts, clauses, out) = (
        harness.bytes(counts),
        harness.bytes(clauses),
        harness.bytes(lent),
    );
    harness.call(expected, || unsafe {
        mulgreddi_write(
            n, s, initial, accepting, counts.0, counts.1, clauses.0, clauses.1, out.0, out.1,
        )
    });
    Seen(expected)
}

/// The largest rules, and somewhat smaller ones.
fn limits(harness: &mut Harness) {
    for fewer in [0, 1, 64, 127] {
        let random = &mut harness.random;
        let parts = Parts::of(&largest(random, random.clone().below(fewer + 1)));
        for room in [parts.needed() - 1, parts.needed(), 1_290] {
            compare(harness, &parts, room);
        }
    }
}

fn examples(harness: &mut Harness) {
    limits(harness);
    let f = Parts {
        numbers: [1, 2, 0, 0],
        counts: vec![1, 1],
        clauses: vec![1, 0],
    };
    let written = write(f.numbers, &f.counts, &f.clauses, 12);
    harness.by_01(&written, &Ok(F.to_vec()));
    for room in 0..40 {
        let expected = compare(harness, &f, room);
        let said = if room < 12 { Err(16) } else { Ok((12, 0)) };
        harness.by_01(&expected.0, &said);
    }
    // Numbers at and over their limits, whole and taken modulo 256.
    for (at, limits) in [
        (0, [0, 9, 257, 65_537, 1 << 24, u32::MAX]),
        (1, [0, 17, 258, 65_538, 1 << 24, u32::MAX]),
        (2, [1, 2, 256, 65_536, 1 << 24, u32::MAX]),
        (3, [2, 128, 256, 65_536, 1 << 31, u32::MAX]),
    ] {
        for limit in limits {
            let mut parts = f.clone();
            parts.numbers[at] = limit;
            let expected = compare(harness, &parts, 99);
            harness.by_01(&expected.0, &Err(3 + at as u8));
        }
    }
    // All eight states, sixteen letters and eight clauses, and one more.
    for (n, s, count) in LIMITS {
        let mut parts = Parts {
            numbers: [n as u32, s as u32, 0, 0],
            counts: vec![count as u8; n * s],
            clauses: limit_file(n, s, count)[..n * s * count].to_vec(),
        };
        for room in [parts.needed() - 1, parts.needed(), 9_999] {
            compare(harness, &parts, room);
        }
        parts.clauses.push(0);
        compare(harness, &parts, 9_999);
    }
    // "c being the number of clauses given", whole.
    for extra in [65_535, 65_536, 65_537, 131_072, 262_144, 16_777_216] {
        let mut parts = f.clone();
        parts.clauses.extend(vec![0; extra]);
        let expected = compare(harness, &parts, 99);
        harness.by_01(&expected.0, &Err(9));
        parts.counts = vec![0, 0];
        parts.clauses.truncate(extra);
        let expected = compare(harness, &parts, 9_999);
        harness.by_01(&expected.0, &Err(9));
    }
}

/// Parts of a rule, every other time with faults.
pub fn any_parts(harness: &mut Harness) -> Parts {
    let random = &mut harness.random;
    let rule = if random.once_in(12) {
        nested_rule(random)
    } else {
        rule(random)
    };
    let mut parts = Parts::of(&rule);
    if random.once_in(2) {
        for _ in 0..random.between(1, 2) {
            damage(harness, &mut parts);
        }
    }
    parts
}

fn random(harness: &mut Harness) {
    let parts = any_parts(harness);
    let room = near(&mut harness.random, parts.needed());
    let served = compare(harness, &parts, room).0.is_ok();
    if served {
        let written = write(parts.numbers, &parts.counts, &parts.clauses, room);
        harness.by_01(&written, &Ok(file(&rule_of(&parts))));
    }
}

/// The rule of parts that pass every check.
fn rule_of(parts: &Parts) -> Rule {
    let [n, s, initial, accepting] = parts.numbers;
    let mut rest = parts.clauses.iter().copied();
    let mut counts = parts.counts.iter();
    let mut entry = || {
        let count = *counts.next().unwrap() as usize;
        rest.by_ref().take(count).collect()
    };
    Rule {
        entries: (0..n).map(|_| (0..s).map(|_| entry()).collect()).collect(),
        states: n as usize,
        letters: s as usize,
        initial: initial as usize,
        accepting: accepting as u8,
    }
}

fn damage(harness: &mut Harness, parts: &mut Parts) {
    let random = &mut harness.random;
    let n = parts.numbers[0];
    match random.below(14) {
        0 => parts.numbers[0] = *random.pick(&[0, 8, 9, 256 + n, u32::MAX, n.wrapping_add(1)]),
        1 => {
            let s = parts.numbers[1];
            parts.numbers[1] = *random.pick(&[0, 16, 17, 256 + s % 256, u32::MAX]);
        }
        2 => {
            let initial = parts.numbers[2] % 256;
            parts.numbers[2] = *random.pick(&[n, n.wrapping_sub(1), 256 + initial, u32::MAX]);
        }
        3 => parts.numbers[3] |= 1u32.wrapping_shl(n),
        4 => parts.numbers[3] |= 1 << random.below(32),
        5 => parts.numbers[3] = random.number() as u32 & ((1u64 << (n % 9)) - 1) as u32,
        6 => drop(parts.counts.pop()),
        7 => parts.counts.push(0),
        8 | 9 if !parts.counts.is_empty() => {
            let at = random.below(parts.counts.len());
            let old = parts.counts[at];
            parts.counts[at] =
                *random.pick(&[0, 8, 9, 255, old.wrapping_add(1), old.wrapping_sub(1)]);
        }
        10 => drop(parts.clauses.pop()),
        11 => parts.clauses.push(0),
        12 if !parts.clauses.is_empty() => {
            let at = random.below(parts.clauses.len());
            parts.clauses[at] ^= 1 << random.below(8);
        }
        13 if random.once_in(200) => parts.clauses.extend(vec![0; 65_536]),
        _ => random.shuffle(&mut parts.clauses),
    }
}
