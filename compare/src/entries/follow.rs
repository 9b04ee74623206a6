//! Following a log without end: a start and calls of any lengths, cut anywhere,
//! and calls on any sets and tables.

use compare::library::{mulgreddi_follow, mulgreddi_follow_start};
use compare::stored::TRIMMED;
use second::follow::{follow, start, Left};
use second::live::{afresh, Lent};
use second::rule::read;
use second::sample::{self, Random, D, E, F, I, SHAPES, Z};
use second::table::Table;
use second::trim::build_trimmed;

use super::judge_table::{bytes, damage, fault, made_up};
use crate::harness::{Entry, Expected, Harness, RULE};
use crate::input::{any_file, near, refused, varied};

pub const ENTRY: Entry = Entry {
    name: "follow",
    refusals: &[RULE, &[14, 15, 16]],
    verdict: false,
    kinds: &[
        "start",
        "no letter",
        "one letter",
        "512 letters",
        "513 letters",
        "100,000 letters",
        "the set comes to be empty",
        "an empty set",
        "bytes that are neither 0 nor 1",
        "cut at random",
        "a set with more bytes",
    ],
    round: 60_000,
    examples,
    random,
};

/// What a call is lent besides letters and set.
#[derive(Clone, Copy)]
struct Input<'a> {
    file: &'a [u8],
    codes: &'a [u8],
    transitions: &'a [u8],
}

fn numbers(bytes: &[u8]) -> Vec<u64> {
    let chunks = bytes.chunks_exact(8);
    chunks
        .map(|chunk| u64::from_le_bytes(chunk.try_into().unwrap()))
        .collect()
}

/// What is to be answered and left: a start if there are no letters to speak of.
fn expected(input: Input, letters: Option<&[u8]>, set: &[u8]) -> Result<Left, u8> {
    let (rule, _) = read(input.file)?;
    let known = |&letter: &u8| (letter as usize) < rule.letters;
    if !letters.unwrap_or(&[]).iter().all(known) {
        return Err(14);
    }
    if input.codes.len() % 8 != 0 || input.transitions.len() % 8 != 0 {
        return Err(15);
    }
    let (codes, transitions) = (numbers(input.codes), numbers(input.transitions));
    Table::new(&rule, &codes, &transitions)?;
    let lent = Lent {
        file: input.file,
        codes: &codes,
        transitions: &transitions,
        room: set.len(),
    };
    match letters {
        None => start(&lent),
        Some(letters) => follow(&lent, letters, set),
    }
}

/// Makes the call and compares; the slice as it is left, and both counts.
fn compare(
    harness: &mut Harness,
    input: Input,
    letters: Option<&[u8]>,
    set: &[u8],
) -> Result<(Vec<u8>, Left), u8> {
    let answer = expected(input, letters, set);
    notice(harness, letters, set, &answer);
    harness.begin();
    let file = harness.lend("file", input.file);
    let lent_letters = harness.lend("letters", letters.unwrap_or(&[]));
    let codes = harness.lend("codes", input.codes);
    let transitions = harness.lend("transitions", input.transitions);
    let lent_set = harness.lend_out("set", set);
    let mut after = set.to_vec();
    let counts: Expected = match &answer {
        Ok(left) => {
            after[..left.set.len()].copy_from_slice(&left.set);
            harness.expect(lent_set, after.clone());
            Ok((left.first as u64, left.second as u64))
        }
        Err(row) => Err(*row),
    };
    let (f, c, t) = (
        harness.bytes(file),
        harness.bytes(codes),
        harness.bytes(transitions),
    );
    let (l, s) = (harness.bytes(lent_letters), harness.bytes(lent_set));
    harness.call(counts, || unsafe {
        match letters {
            None => mulgreddi_follow_start(f.0, f.1, c.0, c.1, t.0, t.1, s.0, s.1),
            Some(_) => mulgreddi_follow(f.0, f.1, l.0, l.1, c.0, c.1, t.0, t.1, s.0, s.1),
        }
    });
    answer.map(|left| (after, left))
}

/// Counts what is worth seeing of a call.
fn notice(harness: &mut Harness, letters: Option<&[u8]>, set: &[u8], answer: &Result<Left, u8>) {
    let Some(letters) = letters else {
        return harness.saw("start");
    };
    let Ok(left) = answer else {
        return;
    };
    match letters.len() {
        0 => harness.saw("no letter"),
        1 => harness.saw("one letter"),
        512 => harness.saw("512 letters"),
        513 => harness.saw("513 letters"),
        100_000 => harness.saw("100,000 letters"),
        _ => {}
    }
    let part = &set[..left.set.len()];
    if part.iter().all(|&byte| byte == 0) {
        harness.saw("an empty set");
    } else if left.first == 0 {
        harness.saw("the set comes to be empty");
    }
    if part.iter().any(|&byte| byte > 1) {
        harness.saw("bytes that are neither 0 nor 1");
    }
    if set.len() > part.len() {
        harness.saw("a set with more bytes");
    }
}

/// A start, and the letters cut at random: the set is always the one worked out
/// afresh, and one call over all letters leaves it too.
fn cut(harness: &mut Harness, input: Input, letters: &[u8]) {
    let (codes, transitions) = (numbers(input.codes), numbers(input.transitions));
    let more = harness.random.below(5);
    let slice = harness.random.bytes(codes.len() + more);
    let Ok((begun, _)) = compare(harness, input, None, &slice) else {
        return;
    };
    harness.saw("cut at random");
    let (mut set, mut at, mut emptied) = (begun.clone(), 0, None);
    while at < letters.len() {
        let most = (letters.len() - at).min(*harness.random.pick(&[1, 3, 40, 600, letters.len()]));
        let length = harness.random.between(0, most);
        let part = compare(harness, input, Some(&letters[at..at + length]), &set);
        // A file of another rule may have fewer letters.
        let Ok((after, left)) = part else {
            return;
        };
        if left.first == 0 && emptied.is_none() {
            emptied = Some(at + left.second);
        }
        set = after;
        at += length;
    }
    let (whole, left) = compare(harness, input, Some(letters), &begun).unwrap();
    harness.agree(&whole, &set);
    harness.agree(&left.second, &emptied.unwrap_or(letters.len()));
    let lent = Lent {
        file: input.file,
        codes: &codes,
        transitions: &transitions,
        room: codes.len(),
    };
    if letters.len() <= 2_000 {
        harness.agree(
            &whole[..codes.len()].to_vec(),
            &afresh(&lent, letters).unwrap(),
        );
    }
}

fn letters_of(random: &mut Random, alphabet: usize, length: usize) -> Vec<u8> {
    (0..length).map(|_| random.below(alphabet) as u8).collect()
}

/// As many macrostates as row 15 lets pass, all initial for F, and one more.
fn most_codes(harness: &mut Harness) {
    let codes: Vec<u64> = (0..65_537).map(|m| 2 * m + 1).collect();
    // From each number over letter 0 to the one before, from the last to itself too.
    let mut transitions: Vec<u64> = (1..65_536).map(|m| m * 16_777_216 + m - 1).collect();
    transitions.push(65_535 * 16_777_216 + 65_535);
    let (codes, transitions) = (bytes(&codes), bytes(&transitions));
    let input = Input {
        file: &F,
        codes: &codes[..8 * 65_536],
        transitions: &transitions,
    };
    cut(harness, input, &[0, 0, 0, 1, 0]);
    let mut last = vec![0; 65_537];
    last[65_535] = 9;
    let (after, left) = compare(harness, input, Some(&[0, 0, 0]), &last).unwrap();
    harness.by_01(&(left.first, left.second), &(4, 3));
    harness.by_01(&&after[65_532..], &&[1, 1, 1, 1, 0][..]);
    let over = Input {
        codes: &codes,
        ..input
    };
    let left = compare(harness, over, Some(&[0]), &last);
    harness.by_01(&left.map(|_| ()), &Err(15));
}

fn examples(harness: &mut Harness) {
    for (row, file) in refused() {
        let input = Input {
            file,
            codes: &[5],
            transitions: &[],
        };
        for letters in [None, Some(&[99][..])] {
            let left = compare(harness, input, letters, &[]);
            harness.by_01(&left.map(|_| ()), &Err(row));
        }
    }
    for file in [&F[..], &D, &E, &I, &Z] {
        let (codes, transitions) = build_trimmed(file, 99, 99).unwrap();
        let (codes, transitions) = (bytes(&codes), bytes(&transitions));
        let input = Input {
            file,
            codes: &codes,
            transitions: &transitions,
        };
        let alphabet = read(file).unwrap().0.letters;
        for length in [0, 1, 2, 511, 512, 513, 3_000, 100_000] {
            let letters = letters_of(&mut harness.random, alphabet, length);
            cut(harness, input, &letters);
            // Letter 0 alone, which E takes for ever, and a 1 at its end.
            let mut zeros = vec![0; length];
            cut(harness, input, &zeros);
            if let Some(last) = zeros.last_mut() {
                *last = alphabet as u8 - 1;
                cut(harness, input, &zeros);
            }
        }
        // 14 before 15 before 16, wherever the letter stands.
        let ragged = Input {
            codes: &[0; 7],
            ..input
        };
        for (input, letters, row) in [
            (input, &[0, 0, alphabet as u8][..], 14),
            (input, &[255, 0], 14),
            (ragged, &[alphabet as u8], 14),
            (ragged, &[0], 15),
        ] {
            let left = compare(harness, input, Some(letters), &[]);
            harness.by_01(&left.map(|_| ()), &Err(row));
        }
        if !codes.is_empty() {
            for letters in [None, Some(&[0][..])] {
                let short = vec![1; codes.len() / 8 - 1];
                let left = compare(harness, input, letters, &short);
                harness.by_01(&left.map(|_| ()), &Err(16));
            }
        }
    }
    most_codes(harness);
    // A table of tens of thousands of macrostates.
    let (file, macrostates, transitions) = TRIMMED[1].0;
    let (codes, transitions) = build_trimmed(file, macrostates, transitions).unwrap();
    let (codes, transitions) = (bytes(&codes), bytes(&transitions));
    let input = Input {
        file,
        codes: &codes,
        transitions: &transitions,
    };
    for length in [0, 1, 20] {
        let letters = letters_of(&mut harness.random, 16, length);
        cut(harness, input, &letters);
    }
}

fn random(harness: &mut Harness) {
    let random = &mut harness.random;
    let states = *random.pick(&[1, 2, 2, 3, 3, 4]);
    let alphabet = *random.pick(&[1, 2, 2, 2, 3, 16]);
    let shape = *random.pick(&SHAPES);
    let rule = varied(random, shape, states, alphabet);
    let mut file = sample::file(&rule);
    let (mut codes, mut transitions) = match build_trimmed(&file, 400, 3_000) {
        Ok(built) if !random.once_in(6) => built,
        _ => made_up(random, &rule),
    };
    match random.below(12) {
        0 => damage(random, &rule, &mut codes, &mut transitions),
        1 => fault(random, &rule, &mut codes, &mut transitions),
        2 => file = any_file(random),
        _ => {}
    }
    let mut table = (bytes(&codes), bytes(&transitions));
    if random.once_in(30) {
        table.0.push(0);
    }
    if random.once_in(30) {
        table.1.pop();
    }
    let input = Input {
        file: &file,
        codes: &table.0,
        transitions: &table.1,
    };
    let length = match random.below(200) {
        0 => 512,
        1 => 513,
        2..=20 => random.below(700),
        _ => random.below(30),
    };
    let mut letters = letters_of(random, alphabet, length);
    if random.once_in(3) {
        return cut(harness, input, &letters);
    }
    // Sets of any bytes, of any length near the number of codes.
    if random.once_in(20) && !letters.is_empty() {
        let place = random.below(letters.len());
        letters[place] = alphabet as u8 + random.below(4) as u8;
    }
    let length = near(random, codes.len()).max(random.below(2) * codes.len());
    let set = match random.below(4) {
        0 => vec![0; length],
        1 => (0..length).map(|_| random.once_in(8).into()).collect(),
        2 => (0..length)
            .map(|_| if random.once_in(8) { random.byte() } else { 0 })
            .collect(),
        _ => random.bytes(length),
    };
    let started = harness.random.once_in(8);
    let _ = compare(harness, input, (!started).then_some(&letters[..]), &set);
}
