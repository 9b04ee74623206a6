//! Sameness of rules.

use compare::library::mulgreddi_same_rules;
use second::names::MARK;
use second::rule::{same_rules, Rule};
use second::sample::{self, Random, F};

use crate::harness::{Entry, Harness, Seen, RULE};
use crate::input::{any_file, preface, refused, rule, RULES};

pub const ENTRY: Entry = Entry {
    name: "same_rules",
    refusals: &[RULE],
    verdict: true,
    kinds: &[],
    round: 105_000,
    examples,
    random,
};

fn compare(harness: &mut Harness, first: &[u8], second: &[u8]) -> Seen {
    let expected = same_rules(first, second).map(|same| (same.into(), 0));
    harness.begin();
    harness.count_file(first);
    harness.count_file(second);
    let first = harness.lend("first file", first);
    let second = harness.lend("second file", second);
    let (first, second) = (harness.bytes(first), harness.bytes(second));
    harness.call(expected, || unsafe {
        mulgreddi_same_rules(first.0, first.1, second.0, second.1)
    });
    Seen(expected)
}

fn examples(harness: &mut Harness) {
    for (number, file) in refused() {
        for (first, second) in [(file, &F[..]), (&F[..], file)] {
            let expected = compare(harness, first, second);
            harness.by_01(&expected.0, &Err(number));
        }
        for (_, other) in refused() {
            let expected = compare(harness, file, other);
            harness.by_01(&expected.0, &Err(number));
        }
    }
    // "both lack names or all names agree"
    let named = |names: &[u8]| [names, &F].concat();
    let files = [
        named(b""),
        named(b"FETCH   STORE   NM"),
        named(b"FETCH   STORE  aNM"),
        named(b"GETCH   STORE   NM"),
        named(b"STORE   FETCH   NM"),
    ];
    for (one, first) in files.iter().enumerate() {
        for (other, second) in files.iter().enumerate() {
            let second = [&b"a preface"[..], second].concat();
            let expected = compare(harness, first, &second);
            harness.by_01(&expected.0, &Ok(((one == other).into(), 0)));
        }
    }
    for first in RULES {
        for second in RULES {
            let expected = compare(harness, first, second);
            harness.by_01(&expected.0, &Ok(((first == second).into(), 0)));
        }
    }
}

fn random(harness: &mut Harness) {
    let random = &mut harness.random;
    let (first, second) = if random.once_in(4) {
        (any_file(random), any_file(random))
    } else {
        let first = rule(random);
        let mut second = first.clone();
        // Changes that keep the sets, then at times one that may not.
        for _ in 0..random.below(4) {
            keep_sets(harness, &mut second);
        }
        let random = &mut harness.random;
        if random.once_in(2) {
            change(harness, &mut second);
        }
        let random = &mut harness.random;
        let names = alike(random, first.letters, second.letters);
        let with_preface = |random: &mut _, names: &[u8], rule| {
            [&preface(random)[..], names, &sample::file(rule)].concat()
        };
        (
            with_preface(random, &names[0], &first),
            with_preface(random, &names[1], &second),
        )
    };
    if harness.random.once_in(2) {
        compare(harness, &first, &second);
    } else {
        compare(harness, &second, &first);
    }
}

/// Names with their mark for the letters of two rules, mostly the same or none.
fn alike(random: &mut Random, first: usize, second: usize) -> [Vec<u8>; 2] {
    if random.once_in(2) {
        return [vec![], vec![]];
    }
    let one = sample::names(random, first);
    let mut other = if first == second && !random.once_in(8) {
        one.clone()
    } else {
        sample::names(random, second)
    };
    let at = random.below(other.len());
    match random.below(8) {
        0 => other[at] = *random.pick(b" ~aM"),
        1 => {
            let name = random.below(second);
            other.rotate_left(8 * name);
        }
        _ => {}
    }
    let marked = |names: Vec<u8>| [names, MARK.to_vec()].concat();
    match random.below(12) {
        0 => [marked(one), vec![]],
        1 => [vec![], marked(other)],
        _ => [marked(one), marked(other)],
    }
}

/// Another clause list that the same sets satisfy: another order or, seldom,
/// one that row 20 refuses.
fn keep_sets(harness: &mut Harness, rule: &mut Rule) {
    let random = &mut harness.random;
    let nested = random.once_in(16);
    for clauses in rule.entries.iter_mut().flatten() {
        if clauses.is_empty() || random.once_in(2) {
            continue;
        }
        let at = random.below(clauses.len());
        match random.below(2) {
            0 if nested && clauses.len() < 8 => clauses.push(clauses[at]),
            // A clause that another one absorbs; states already named keep
            // the components.
            1 if nested && clauses.len() < 8 => {
                let all = clauses.iter().fold(0, |all, clause| all | clause);
                let absorbed = clauses[at] | (all & random.byte());
                clauses.insert(at, absorbed);
            }
            _ => random.shuffle(clauses),
        }
    }
}

/// One difference in some field.
fn change(harness: &mut Harness, rule: &mut Rule) {
    let random = &mut harness.random;
    let q = random.below(rule.states);
    let letter = random.below(rule.letters);
    match random.below(9) {
        0 => rule.initial = random.below(rule.states),
        1 => rule.accepting ^= 1 << q,
        2 => rule.accepting ^= rule.all(),
        3 if rule.states < 8 => {
            rule.entries.push(vec![Vec::new(); rule.letters]);
            rule.states += 1;
        }
        4 if rule.letters < 16 => {
            rule.letters += 1;
            let row = rule.entries.iter_mut();
            row.for_each(|row| row.push(Vec::new()));
        }
        5 => {
            let clauses = &mut rule.entries[q][letter];
            if !clauses.is_empty() {
                let at = random.below(clauses.len());
                clauses[at] ^= 1 << random.below(rule.states);
            }
        }
        6 => drop(rule.entries[q][letter].pop()),
        7 if rule.entries[q][letter].len() < 8 => {
            let clause = if random.once_in(3) { 0 } else { 1 << q };
            rule.entries[q][letter].push(clause);
        }
        _ => {
            let other = random.below(rule.letters);
            rule.entries[q].swap(letter, other);
        }
    }
}
