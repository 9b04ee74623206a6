//! The judge of words on a built table.

use compare::chains::{self, Order};
use compare::library::mulgreddi_judge_table;
use compare::stored::LARGE;
use second::build::{build, Macrostate};
use second::game;
use second::rule::Rule;
use second::sample::{self, letters, Random, D, F, I, SHAPES, Z};
use second::table::judge_table;

use super::build::stored;
use crate::harness::{Entry, Expected, Harness, Seen, RULE};
use crate::input::{any_file, around, limit_file, near, refused, varied, word};

pub const ENTRY: Entry = Entry {
    name: "judge_table",
    refusals: &[RULE, &[12, 13, 14, 15, 16]],
    verdict: true,
    kinds: &["as built, word as a game too"],
    round: 105_000,
    examples,
    random,
};

fn compare(
    harness: &mut Harness,
    file: &[u8],
    word: [&[u8]; 2],
    table: [&[u8]; 2],
    room: usize,
) -> Seen {
    let judged = judge_table(file, word, table, room);
    let expected = judged.map(|start| start.map_or((0, 0), |number| (1, number as u64)));
    let scratch = harness.pattern(room);
    harness.begin();
    harness.count_file(file);
    harness.count_word(word);
    harness.count("codes", table[0].len() / 8);
    harness.count("transitions", table[1].len() / 8);
    if expected.is_ok() {
        let places = word[0].len() + word[1].len();
        harness.count("nodes", table[0].len() / 8 * places);
    }
    let file = harness.lend("file", file);
    let lead = harness.lend("lead-in", word[0]);
    let cycle = harness.lend("cycle", word[1]);
    let codes = harness.lend("codes", table[0]);
    let transitions = harness.lend("transitions", table[1]);
    let scratch = harness.lend_out("scratch", &scratch);
    if expected.is_ok() {
        // "Scratch ends all zero."
        harness.expect(scratch, vec![0; room]);
    }
    let (file, scratch) = (harness.bytes(file), harness.bytes(scratch));
    let (lead, cycle) = (harness.bytes(lead), harness.bytes(cycle));
    let (codes, transitions) = (harness.bytes(codes), harness.bytes(transitions));
    harness.call(expected, || unsafe {
        mulgreddi_judge_table(
            file.0,
            file.1,
            lead.0,
            lead.1,
            cycle.0,
            cycle.1,
            codes.0,
            codes.1,
            transitions.0,
            transitions.1,
            scratch.0,
            scratch.1,
        )
    });
    Seen(expected)
}

pub fn bytes(numbers: &[u64]) -> Vec<u8> {
    numbers.iter().flat_map(|x| x.to_le_bytes()).collect()
}

/// A table of numbers, and its scratch exact.
fn compare_table(
    harness: &mut Harness,
    file: &[u8],
    word: [&[u8]; 2],
    codes: &[u64],
    transitions: &[u64],
) -> Seen {
    let room = codes.len() * (word[0].len() + word[1].len());
    let (codes, transitions) = (bytes(codes), bytes(transitions));
    compare(harness, file, word, [&codes, &transitions], room)
}

/// Tables around the most codes, and around as many transitions as a build can have,
/// with the number of letters of a rule of one state: made up, each macrostate with
/// a few transitions or with all to some.
pub fn large_tables(random: &mut Random) -> Vec<(Vec<u64>, Vec<u64>, usize)> {
    let mut tables = Vec::new();
    for count in [65_535, 65_536, 65_537, around(random, 65_536, 400)] {
        let s = random.between(1, 3);
        let mut codes: Vec<u64> = (0..count as u64)
            .map(|m| m << 4 | (m % 8 / 7) << 44 | 1)
            .collect();
        codes.sort_unstable();
        let next = random.between(1, count - 1);
        let mut transitions = Vec::new();
        for source in 0..count.min(65_536) {
            for letter in 0..s {
                let target = (source + next * (letter + 1)) % count.min(65_536);
                transitions.push((source << 24 | letter << 16 | target) as u64);
            }
        }
        tables.push((codes, transitions, s));
    }
    let mut full = Vec::new();
    for source in 0..262u64 {
        for letter in 0..16 {
            full.extend((0..262).map(|target| source << 24 | letter << 16 | target));
        }
    }
    let codes: Vec<u64> = (0..262).map(|m| (m % 2) << 44 | m << 8 | 1).collect();
    let codes = {
        let mut codes = codes;
        codes.sort_unstable();
        codes
    };
    for count in [
        (1 << 20) - 1,
        1 << 20,
        (1 << 20) + 1,
        around(random, 1 << 20, 40_000),
    ] {
        // As many of all transitions, left out here and there.
        let mut left = full.len() - count;
        let mut transitions = full.clone();
        let often = full.len() / (left + 1);
        let from = random.below(often.max(1));
        let mut number = 0;
        transitions.retain(|_| {
            number += 1;
            let out = left > 0 && (number + from) % often.max(1) == 0;
            left -= usize::from(out);
            !out
        });
        transitions.truncate(count);
        tables.push((codes.clone(), transitions, 16));
    }
    tables
}

/// Tables at their limits with short words, and the most nodes that a call has.
fn limits(harness: &mut Harness) {
    for (codes, transitions, s) in large_tables(&mut harness.random) {
        let file = limit_file(1, s, 1);
        let lead = letters(&mut harness.random, s, 1);
        let cycle = letters(&mut harness.random, s, 2);
        compare_table(harness, &file, [&lead, &cycle], &codes, &transitions);
    }
    // Two chains of all macrostates, over letter 0 the accepting one.
    for (count, lead, cycle) in [(65_536, 32, 32), (65_536, 31, 32), (30_000, 3, 9)] {
        let random = &mut harness.random;
        let count = count - if lead == 3 { random.below(3_000) } else { 0 };
        let (lead, cycle) = (letters(random, 2, lead), letters(random, 2, cycle));
        let mut codes: Vec<u64> = (0..count as u64)
            .map(|m| m << 4 | (m % 2) << 44 | 1)
            .collect();
        codes.sort_unstable();
        let next = random.between(1, 999);
        let transitions: Vec<u64> = (0..count)
            .flat_map(|m| [(m, 0, (m + next) % count), (m, 1, (m + 1) % count)])
            .map(|(source, letter, target)| (source << 24 | letter << 16 | target) as u64)
            .collect();
        compare_table(
            harness,
            &limit_file(1, 2, 1),
            [&lead, &cycle],
            &codes,
            &transitions,
        );
    }
}

fn examples(harness: &mut Harness) {
    limits(harness);
    let one: [&[u8]; 2] = [&[], &[0]];
    for (number, file) in refused() {
        let expected = compare(harness, file, [&[], &[]], [&[1], &[]], 0);
        harness.by_01(&expected.0, &Err(number));
    }
    for (word, number) in [
        ([&[0][..], &[]], 12),
        ([&[0; 33], &[0]], 13),
        ([&[2], &[0]], 14),
        ([&[0], &[0]], 15),
    ] {
        let expected = compare(harness, &F, word, [&[1], &[]], 0);
        harness.by_01(&expected.0, &Err(number));
    }
    // Row 15, and what is just within it.
    let tables: [(&[u64], &[u64], Expected); 16] = [
        (&[5, 5], &[], Err(15)),
        (&[6, 5], &[], Err(15)),
        (&[1 << 48], &[], Err(15)),
        (&[u64::MAX], &[], Err(15)),
        (&[(1 << 48) - 1], &[], Ok((0, 0))),
        (&[], &[], Ok((0, 0))),
        (&[], &[0], Err(15)),
        (&[1], &[0], Ok((1, 0))),
        (&[1], &[0, 0], Err(15)),
        (&[1], &[1], Err(15)),
        (&[1], &[0, 65_536], Ok((1, 0))),
        (&[1], &[65_536, 0], Err(15)),
        (&[1], &[0, 131_072], Err(15)),
        (&[1], &[0, 16_777_216], Err(15)),
        (&[1], &[0, 1 << 40], Err(15)),
        (&[0, 1], &[0, 16_777_217], Ok((1, 1))),
    ];
    for (codes, transitions, said) in tables {
        let expected = compare_table(harness, &F, one, codes, transitions);
        harness.by_01(&expected.0, &said);
    }
    for (codes, transitions) in [(7, 0), (9, 0), (8, 7), (8, 9), (1, 1)] {
        let table: [&[u8]; 2] = [&[0; 16][..codes], &[0; 16][..transitions]];
        let expected = compare(harness, &F, one, table, 99);
        harness.by_01(&expected.0, &Err(15));
    }
    // Cases 5 to 9.
    let cases: [(&[u8], [&[u8]; 2], Option<u64>); 5] = [
        (&F, [&[0, 1], &[0]], Some(1)),
        (&F, [&[], &[0]], None),
        (&I, [&[1], &[0]], None),
        (&D, [&[], &[0]], Some(4)),
        (&Z, [&[], &[0]], None),
    ];
    for (file, word, start) in cases {
        let (codes, transitions) = build(file, 99, 99).unwrap();
        let expected = compare_table(harness, file, word, &codes, &transitions);
        harness.by_01(&expected.0, &Ok(start.map_or((0, 0), |number| (1, number))));
        let needed = codes.len() * (word[0].len() + word[1].len());
        let (codes, transitions) = (bytes(&codes), bytes(&transitions));
        for room in 0..needed + 70 {
            let expected = compare(harness, file, word, [&codes, &transitions], room);
            harness.by_01(&expected.0.is_err(), &(room < needed));
        }
    }
    long_tables(harness);
    built_tables(harness);
    slow_tables(harness);
}

/// Tables on which the judge takes long; how long is told by `make bench`.
fn slow_tables(harness: &mut Harness) {
    use Order::{Ascending, Descending, Zigzag};
    for (looped, said) in [(false, Ok((0, 0))), (true, Ok((1, 0)))] {
        let mut judge = |[codes, transitions]: [Vec<u64>; 2], cycle: &[u8]| {
            let expected = compare_table(harness, &F, [&[], cycle], &codes, &transitions);
            harness.by_01(&expected.0, &said);
        };
        for accepting in [Ascending, Descending] {
            for rejecting in [Ascending, Descending] {
                judge(chains::table(4_096, accepting, rejecting, looped), &[0]);
            }
        }
        for order in [Ascending, Descending, Zigzag] {
            judge(chains::table(256, order, Zigzag, looped), &[0]);
            judge(chains::ladder(128, order, looped), &[0]);
            let (chain, ladder) = (
                chains::table(64, order, order, looped),
                chains::ladder(16, order, looped),
            );
            judge(chains::slowed(chain), &chains::SLOW);
            judge(chains::slowed(ladder), &chains::SLOW);
        }
    }
    for order in [Ascending, Descending, Zigzag] {
        let [codes, transitions] = chains::dead_end(512, order);
        let expected = compare_table(harness, &F, [&[], &[0]], &codes, &transitions);
        harness.by_01(&expected.0, &Ok((0, 0)));
    }
}

/// The most codes, one more, and more transitions than a build can hold.
fn long_tables(harness: &mut Harness) {
    let one: [&[u8]; 2] = [&[], &[0]];
    let codes: Vec<u64> = (0..65_537).map(|code| code * 3).collect();
    let most = &codes[..65_536];
    let last = 65_535 * 16_777_216 + 65_535;
    for (codes, transitions, said) in [
        (most, vec![], Ok((0, 0))),
        // The code 196605 is initial for F: its set is 253, K and k are 0.
        (most, vec![last], Ok((1, 65_535))),
        (most, vec![last, last + 65_536], Ok((1, 65_535))),
        (most, vec![last, last + 131_072], Err(15)),
        (most, vec![last, last + 16_777_216], Err(15)),
        (&codes[..], vec![], Err(15)),
        (&codes[..65_535], vec![last], Err(15)),
    ] {
        let expected = compare_table(harness, &F, one, codes, &transitions);
        harness.by_01(&expected.0, &said);
    }
    // A chain through all codes, back to the start at its end.
    let mut chain: Vec<u64> = (0..65_535).map(|m| m * 16_777_216 + m + 1).collect();
    chain.push(65_535 * 16_777_216);
    let expected = compare_table(harness, &F, one, most, &chain);
    harness.by_01(&expected.0, &Ok((1, 1)));
    let word = [&[0, 1][..], &[0, 0, 1]];
    compare_table(harness, &F, word, most, &chain);
    let full = (0..260u64).flat_map(|from| {
        let letters = (0..16).map(move |letter| from * 16_777_216 + letter * 65_536);
        letters.flat_map(|base| (0..260).map(move |to| base + to))
    });
    let full: Vec<u64> = full.collect();
    let file = crate::input::limit_file(8, 16, 1);
    let mut codes: Vec<u64> = (0..260).map(|m| (m % 2) << 44 | m << 8 | 2).collect();
    codes.sort_unstable();
    compare_table(harness, &file, [&[3], &[0, 15]], &codes, &full);
    codes[7] |= 1;
    compare_table(harness, &file, [&[3], &[0, 15]], &codes, &full);
}

/// Built tables of tens of thousands of macrostates.
fn built_tables(harness: &mut Harness) {
    for (file, macrostates, transitions) in LARGE {
        let table = stored(file, true);
        let (codes, listed) = &*table;
        harness.by_01(&(codes.len(), listed.len()), &(macrostates, transitions));
        for _ in 0..2 {
            let lead = letters(&mut harness.random, 16, 1);
            let cycle = letters(&mut harness.random, 16, 2);
            compare_table(harness, file, [&lead, &cycle], codes, listed);
        }
    }
}

fn random(harness: &mut Harness) {
    let random = &mut harness.random;
    let states = *random.pick(&[1, 2, 2, 3, 3, 3, 4, 5]);
    let alphabet = *random.pick(&[1, 2, 2, 2, 3, 16]);
    let shape = *random.pick(&SHAPES);
    let rule = varied(random, shape, states, alphabet);
    let file = sample::file(&rule);
    let built = build(&file, 400, 3_000).ok();
    let rounds = if built.is_some() { 12 } else { 4 };
    for _ in 0..rounds {
        let random = &mut harness.random;
        let mut whole = false;
        let (mut codes, mut transitions) = match &built {
            Some((codes, transitions)) if !random.once_in(4) => {
                let (mut codes, mut transitions) = (codes.clone(), transitions.clone());
                whole = random.once_in(2);
                if !whole {
                    damage(random, &rule, &mut codes, &mut transitions);
                }
                (codes, transitions)
            }
            _ => made_up(random, &rule),
        };
        if random.once_in(6) {
            fault(random, &rule, &mut codes, &mut transitions);
            whole = false;
        }
        let [lead, cycle] = word(random, rule.letters);
        let (mut code_bytes, mut transition_bytes) = (bytes(&codes), bytes(&transitions));
        if random.once_in(40) {
            // A length that 8 does not divide.
            let part = if random.once_in(2) {
                &mut code_bytes
            } else {
                &mut transition_bytes
            };
            if random.once_in(2) {
                part.push(0);
            } else {
                part.pop();
            }
        }
        let room = near(random, codes.len() * (lead.len() + cycle.len()));
        let other = any_file(random);
        let mut file = &file;
        if random.once_in(16) {
            file = &other;
            whole = false;
        }
        let word = [&lead[..], &cycle];
        let seen = compare(harness, file, word, [&code_bytes, &transition_bytes], room);
        // On a rule's own table the verdict is that of the rule.
        if let (true, Ok((yes, _))) = (whole, seen.0) {
            harness.agree(&(yes == 1), &game::accepts(&rule, &lead, &cycle));
            harness.judged(true, false);
            harness.saw("as built, word as a game too");
        }
    }
}

/// Takes away, adds and changes transitions, and changes codes, so that the
/// table stays within row 15.
pub fn damage(random: &mut Random, rule: &Rule, codes: &mut [u64], transitions: &mut Vec<u64>) {
    if codes.is_empty() {
        return;
    }
    for _ in 0..random.between(1, 3) {
        match random.below(5) {
            0 if !transitions.is_empty() => {
                let at = random.below(transitions.len());
                transitions.remove(at);
            }
            1 => transitions.retain(|_| !random.once_in(4)),
            2 | 3 => {
                for _ in 0..random.between(1, 8) {
                    transitions.push(transition(random, rule, codes.len()));
                }
            }
            _ => {
                let at = random.below(codes.len());
                codes[at] ^= 1 << random.below(48);
                codes.sort_unstable();
            }
        }
        transitions.sort_unstable();
        transitions.dedup();
    }
}

fn transition(random: &mut Random, rule: &Rule, codes: usize) -> u64 {
    let source = random.below(codes) as u64;
    let letter = random.below(rule.letters) as u64;
    let target = random.below(codes) as u64;
    source * 16_777_216 + letter * 65_536 + target
}

/// Codes and transitions that no build made.
pub fn made_up(random: &mut Random, rule: &Rule) -> (Vec<u64>, Vec<u64>) {
    let count = match random.below(8) {
        0 => random.between(0, 60),
        _ => random.between(1, 9),
    };
    let accepting = random.between(1, 4);
    let mut codes: Vec<u64> = (0..count)
        .map(|_| {
            let mut code = random.number() >> 16;
            if random.once_in(accepting) {
                code &= (1 << 44) - 1;
            }
            if random.once_in(2) {
                code &= (1 << 40) - 1 | 15 << 44;
            }
            if random.once_in(4) {
                code &= 255;
            }
            code
        })
        .collect();
    codes.sort_unstable();
    codes.dedup();
    let mut transitions = Vec::new();
    if !codes.is_empty() {
        let most = codes.len() * rule.letters * random.between(1, 3);
        for _ in 0..random.between(0, most) {
            transitions.push(transition(random, rule, codes.len()));
        }
    }
    transitions.sort_unstable();
    transitions.dedup();
    (codes, transitions)
}

/// A fault of row 15, as far as the table has what it needs.
pub fn fault(random: &mut Random, rule: &Rule, codes: &mut Vec<u64>, transitions: &mut Vec<u64>) {
    let count = codes.len() as u64;
    match random.below(12) {
        0 if !codes.is_empty() => {
            let at = random.below(codes.len());
            codes.insert(at, codes[at]);
        }
        1 if codes.len() > 1 => {
            let at = random.below(codes.len() - 1);
            codes.swap(at, at + 1);
        }
        2 => codes.push(1 << random.between(48, 63)),
        3 if !codes.is_empty() => {
            let at = random.below(codes.len());
            codes[at] |= 1 << random.between(48, 63);
        }
        4 if !transitions.is_empty() => {
            let at = random.below(transitions.len());
            transitions.insert(at, transitions[at]);
        }
        5 if transitions.len() > 1 => {
            let at = random.below(transitions.len() - 1);
            transitions.swap(at, at + 1);
        }
        6 => transitions.push(count * 16_777_216),
        7 => transitions.push(1 << random.between(40, 63)),
        8 if !codes.is_empty() => {
            // The letter s, or one up to 255.
            let letter = random.between(rule.letters, 255) as u64;
            let letter = *random.pick(&[letter, rule.letters as u64]);
            transitions.push((count - 1) * 16_777_216 + letter * 65_536);
        }
        9 => {
            // The target past the last code.
            transitions.push(count.saturating_sub(1) * 16_777_216 + count);
            transitions.sort_unstable();
        }
        10 if !codes.is_empty() && !transitions.is_empty() => {
            // A code fewer than the transitions name, at times.
            codes.pop();
        }
        _ => {
            // No fault: the same table for another initial state's codes.
            let state = random.below(8);
            for code in codes.iter_mut() {
                let macrostate = Macrostate::from_code(*code);
                if macrostate.is_accepting() {
                    *code ^= 1 << state;
                }
            }
            codes.sort_unstable();
        }
    }
}
