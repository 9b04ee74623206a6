//! The comparison of two rules.

use std::cmp::Ordering;

use compare::library::{mulgreddi_stricter, Comparison};
use compare::stored::{FULL, LARGE, OVER};
use second::build::{reachable_begun, MACROSTATE_CAP, TRANSITION_CAP};
use second::dual::dual;
use second::rule::{read, Rule};
use second::sample::{self, Random, Shape, D, E, F, I, SHAPES, Z};
use second::stricter::{stricter, word_of_both, Compared};
use second::{game, long};

use super::build::{small_rule, stored, turned};
use crate::harness::{Entry, Harness, RULE};
use crate::input::{any_file, around as around_limit, prefaced, refused, varied};

pub const ENTRY: Entry = Entry {
    name: "stricter",
    refusals: &[RULE, &[17, 18, 28, 29]],
    verdict: true,
    kinds: &[
        "words judged as games",
        "word over 32",
        "word over 100",
        "P over 100",
        "P over 10,000",
        "P over 100,000",
        "P over 1,000,000",
        "17 or 18 of A",
        "17 or 18 of B",
    ],
    round: 20_000,
    examples,
    random,
};

/// A rule of one letter, and so one word, with 65,312 macrostates.
const MANY: &[u8] = include_bytes!("../../../bench/one_62_s1.rule");

/// The lengths of the rooms, of the word slice and of the scratch.
#[derive(Clone, Copy, Debug)]
struct Lengths {
    rooms: [usize; 4],
    word: usize,
    scratch: usize,
}

const CAPS: [usize; 4] = [
    MACROSTATE_CAP,
    TRANSITION_CAP,
    MACROSTATE_CAP,
    TRANSITION_CAP,
];

/// What is answered with these lengths, by what is answered in ample rooms.
fn within(lengths: Lengths, ample: &Result<Compared, u8>) -> Result<Compared, u8> {
    let compared = ample.clone()?;
    let needed = needs(&compared);
    for (i, number) in [(0, 17), (1, 18), (2, 17), (3, 18)] {
        if lengths.rooms[i].min(CAPS[i]) < needed.rooms[i] {
            return Err(number);
        }
    }
    if lengths.word < needed.word || lengths.scratch < needed.scratch {
        return Err(29);
    }
    Ok(compared)
}

/// The lengths that a served call needs.
fn needs(compared: &Compared) -> Lengths {
    let (a, b) = (&compared.a, &compared.b);
    let pairs = a.0.len() * b.0.len();
    Lengths {
        rooms: [a.0.len(), a.1.len(), b.0.len(), b.1.len()],
        word: 3 * pairs,
        scratch: pairs,
    }
}

fn compare(harness: &mut Harness, a: &[u8], b: &[u8], lengths: Lengths) {
    let compared = stricter(a, b, lengths.rooms, lengths.word, lengths.scratch);
    compare_with(harness, a, b, lengths, &compared);
}

/// Compares with what the second program has answered already. The word is the
/// library's own: it is judged on both rules.
fn compare_with(
    harness: &mut Harness,
    a: &[u8],
    b: &[u8],
    lengths: Lengths,
    compared: &Result<Compared, u8>,
) {
    compare_told(harness, [a, b], lengths, compared, &[]);
}

/// The numbers of a call, besides those that are told.
fn count(
    harness: &mut Harness,
    [a, b]: [&[u8]; 2],
    lengths: Lengths,
    compared: &Result<Compared, u8>,
) {
    harness.count_file(a);
    harness.count_file(b);
    for (name, room) in [
        "room for codes of A",
        "room for transitions of A",
        "room for codes of B",
        "room for transitions of B",
    ]
    .into_iter()
    .zip(lengths.rooms)
    {
        harness.count(name, room);
    }
    match compared {
        Ok(compared) => {
            let needed = needs(compared);
            for (name, number) in TABLES.into_iter().zip(needed.rooms) {
                harness.count(name, number);
            }
            harness.count("P", needed.scratch);
            for (name, file) in [("components of A", a), ("components of B", b)] {
                harness.count(name, read(file).unwrap().0.components().len());
            }
        }
        Err(29) => {
            harness.count("word slice refused", lengths.word);
            harness.count("scratch refused", lengths.scratch);
        }
        Err(_) => {}
    }
}

/// The names by which the four counts of a call are told.
const TABLES: [&str; 4] = [
    "macrostates of A",
    "transitions of A",
    "macrostates of B",
    "transitions of B",
];

/// The same with numbers of the call that its answer does not show.
fn compare_told(
    harness: &mut Harness,
    [a, b]: [&[u8]; 2],
    lengths: Lengths,
    compared: &Result<Compared, u8>,
    told: &[(&'static str, usize)],
) {
    let patterns = lengths.rooms.map(|room| harness.pattern(room * 8));
    let word = harness.pattern(lengths.word);
    let scratch = harness.pattern(lengths.scratch);
    harness.begin();
    count(harness, [a, b], lengths, compared);
    for &(name, number) in told {
        harness.count(name, number);
    }
    let files = [harness.lend("a", a), harness.lend("b", b)];
    let names = [
        "codes of a",
        "transitions of a",
        "codes of b",
        "transitions of b",
    ];
    let mut rooms = Vec::new();
    for (name, pattern) in names.into_iter().zip(&patterns) {
        rooms.push(harness.lend_room(name, pattern));
    }
    let lent_word = harness.lend_out("word", &word);
    let lent_scratch = harness.lend_out("scratch", &scratch);
    let filled = |numbers: &[u64], room: usize| {
        let mut bytes: Vec<u8> = numbers.iter().flat_map(|x| x.to_ne_bytes()).collect();
        bytes.resize(room * 8, 0);
        bytes
    };
    let tables: [&[u64]; 4] = match compared {
        Ok(compared) => {
            let (a, b) = (&compared.a, &compared.b);
            // "the scratch all zero"
            harness.expect(lent_scratch, vec![0; lengths.scratch]);
            [&a.0, &a.1, &b.0, &b.1]
        }
        Err(_) => [&[]; 4],
    };
    // "17 and 18 .. zero all four rooms", 29 "with the rooms zeroed as for 17"
    if matches!(compared, Ok(_) | Err(17 | 18 | 29)) {
        for (i, table) in tables.into_iter().enumerate() {
            harness.expect(rooms[i], filled(table, lengths.rooms[i]));
        }
    }
    let files = files.map(|file| harness.bytes(file));
    let rooms: Vec<_> = rooms.iter().map(|&room| harness.numbers(room)).collect();
    let (at, scratch) = (harness.bytes(lent_word), harness.bytes(lent_scratch));
    let answer = harness.timed(|| unsafe {
        mulgreddi_stricter(
            files[0].0, files[0].1, files[1].0, files[1].1, rooms[0].0, rooms[0].1, rooms[1].0,
            rooms[1].1, rooms[2].0, rooms[2].1, rooms[3].0, rooms[3].1, at.0, at.1, scratch.0,
            scratch.1,
        )
    });
    let wanted = match compared {
        Ok(compared) => Comparison {
            stricter: compared.word.is_none().into(),
            // Which word it is, no definition decides.
            lead: answer.lead,
            cycle: answer.cycle,
            macrostates_a: compared.a.0.len() as u64,
            transitions_a: compared.a.1.len() as u64,
            macrostates_b: compared.b.0.len() as u64,
            transitions_b: compared.b.1.len() as u64,
            ..Comparison::default()
        },
        Err(number) => Comparison {
            refusal: (*number).into(),
            ..Comparison::default()
        },
    };
    let told = format!("{answer:?}");
    harness.must(answer == wanted, || {
        format!("library {told}, second program {wanted:?}")
    });
    let expected = match compared {
        Err(number) => Err(*number),
        Ok(compared) => {
            let (lead, cycle) = (answer.lead as usize, answer.cycle as usize);
            if compared.word.is_none() {
                harness.must(lead + cycle == 0, || format!("{told}: yes with a word"));
            } else {
                let held = harness.held(lent_word);
                judge(harness, a, b, needs(compared).word, [lead, cycle], &held);
                let mut after = word;
                after[..lead + cycle].copy_from_slice(&held[..lead + cycle]);
                harness.expect(lent_word, after);
                harness.count("letters of the word", lead + cycle);
                if lead > 32 || cycle > 32 {
                    harness.saw("word over 32");
                }
                if lead + cycle > 100 {
                    harness.saw("word over 100");
                }
            }
            Ok((answer.stricter, 0))
        }
    };
    harness.settle(expected, &told);
}

/// "what must hold of it is that A accepts it and B rejects it", that it has a
/// cycle and at most 3 × P letters. The word is judged as a game, and component
/// by component beside it.
fn judge(
    harness: &mut Harness,
    a: &[u8],
    b: &[u8],
    most: usize,
    [lead, cycle]: [usize; 2],
    held: &[u8],
) {
    let (a, _) = read(a).unwrap();
    let (b, _) = read(b).unwrap();
    harness.must(cycle > 0 && lead + cycle <= most, || {
        format!("a word of {lead} and {cycle} letters")
    });
    let word = &held[..lead + cycle];
    harness.must(
        word.iter().all(|&letter| (letter as usize) < a.letters),
        || format!("the word {word:?} has a letter that is none"),
    );
    let (lead, cycle) = word.split_at(lead);
    harness.must(game::accepts(&a, lead, cycle), || {
        format!("A rejects {lead:?} {cycle:?}")
    });
    harness.must(!game::accepts(&b, lead, cycle), || {
        format!("B accepts {lead:?} {cycle:?}")
    });
    for (rule, accepts) in [(&a, true), (&b, false)] {
        harness.agree(&accepts, &long::accepts(rule, lead, cycle));
        harness.judged(true, true);
    }
    harness.saw("words judged as games");
}

fn examples(harness: &mut Harness) {
    limits(harness);
    let none = Lengths {
        rooms: [0; 4],
        word: 0,
        scratch: 0,
    };
    let some = Lengths {
        rooms: [9; 4],
        word: 99,
        scratch: 99,
    };
    for (number, file) in refused() {
        for lengths in [none, some] {
            // A's rows come before B's.
            let first = stricter(file, &[], lengths.rooms, lengths.word, lengths.scratch);
            harness.by_01(&first.map(|_| ()), &Err(number));
            compare(harness, file, &[], lengths);
            compare(harness, &F, file, lengths);
        }
    }
    // "28, different s, after both rules"
    for lengths in [none, some] {
        compare(harness, &F, &Z, lengths);
        compare(harness, &Z, &F, lengths);
    }
    // All lengths around those that are needed, of 01's rules.
    for a in [&F[..], &D, &E, &I] {
        for b in [&F[..], &D, &E, &I] {
            let compared = stricter(a, b, CAPS, usize::MAX, usize::MAX);
            around(harness, a, b, &compared);
        }
    }
    let compared = stricter(&Z, &Z, CAPS, usize::MAX, usize::MAX);
    around(harness, &Z, &Z, &compared);
    // "Letter 1 again and again" is stricter than "some time letter 1".
    let said = |a: &[u8], b: &[u8]| {
        let compared = stricter(a, b, CAPS, usize::MAX, usize::MAX);
        compared.unwrap().word.is_none()
    };
    harness.by_01(
        &[said(&I, &F), said(&F, &I), said(&E, &F)],
        &[true, false, false],
    );
    large(harness);
}

/// What is answered in rooms without end, by tables that are built once.
fn by_stored(a: &[u8], b: &[u8]) -> Compared {
    let (a_table, b_table) = (stored(a, true), stored(b, false));
    let rules = [a, b].map(|file| read(file).unwrap().0);
    // A table of more codes than row 15 lets pass is never searched.
    let word = word_of_both([&rules[0], &rules[1]], [&a_table, &b_table]).unwrap_or(None);
    Compared {
        a: (*a_table).clone(),
        b: (*b_table).clone(),
        word,
    }
}

/// A call with tables at their caps or over one, in rooms over the caps.
fn at_the_caps(harness: &mut Harness, a: &[u8], b: &[u8]) {
    let compared = by_stored(a, b);
    let needed = needs(&compared);
    let mut lengths = needed;
    lengths.rooms = CAPS.map(|cap| cap + harness.random.between(1, 99));
    let compared = Ok(compared);
    let answer = within(lengths, &compared);
    let over = (0..4).find(|&i| needed.rooms[i] > CAPS[i]);
    let told = over.map(|i| (TABLES[i], needed.rooms[i]));
    compare_told(harness, [a, b], lengths, &answer, told.as_slice());
}

/// A rule of so many letters whose table of rejected words has `counts` macrostates,
/// or that of the accepted ones.
fn of_size(
    random: &mut Random,
    letters: usize,
    accepted: bool,
    counts: std::ops::RangeInclusive<usize>,
) -> Vec<u8> {
    loop {
        let (shape, states) = (*random.pick(&SHAPES), random.between(1, 5));
        let rule = varied(random, shape, states, letters);
        let table = reachable_begun(&rule, accepted, *counts.end(), usize::MAX);
        if table.is_ok_and(|(codes, _)| counts.contains(&codes.len())) {
            return sample::file(&rule);
        }
    }
}

/// Rooms, tables, pairs and words at their limits.
fn limits(harness: &mut Harness) {
    // Small rules in rooms around the caps.
    for kind in 0..3 {
        let compared = stricter(&D, &F, CAPS, usize::MAX, usize::MAX);
        let mut lengths = needs(compared.as_ref().unwrap());
        lengths.rooms = CAPS.map(|cap| match kind {
            0 => cap - harness.random.between(1, 36),
            1 => cap,
            _ => cap + harness.random.between(1, 400),
        });
        compare_with(harness, &D, &F, lengths, &within(lengths, &compared));
    }
    // Stored rules beside small ones, as A and as B.
    for (file, ..) in [LARGE[0]].into_iter().chain(FULL).chain(OVER) {
        let letters = read(file).unwrap().0.letters;
        let b = of_size(&mut harness.random, letters, false, 1..=9);
        at_the_caps(harness, file, &b);
        let a = of_size(&mut harness.random, letters, true, 1..=9);
        at_the_caps(harness, &a, &turned(file));
    }
    // Rules of seven and eight components.
    for states in [7, 8] {
        let random = &mut harness.random;
        let a = varied(random, Shape::VeryWeak, states, 2);
        let b = altered(random, &a);
        let (a, b) = (sample::file(&a), sample::file(&b));
        let compared = stricter(&a, &b, CAPS, usize::MAX, usize::MAX);
        let lengths = needs(compared.as_ref().unwrap());
        compare_with(harness, &a, &b, lengths, &compared);
    }
    many_pairs(harness);
    for digits in [6, 7, 9] {
        long_word(harness, digits);
    }
}

/// P around 2 to the power 24, served and one short, and P up to 32 bits, refused.
fn many_pairs(harness: &mut Harness) {
    let (most, ..) = FULL[0];
    for (a, counts) in [(most, 46..=255), (most, 256..=256), (MANY, 257..=400)] {
        let b = of_size(&mut harness.random, 1, false, counts);
        let compared = Ok(by_stored(a, &b));
        let needed = needs(compared.as_ref().unwrap());
        compare_with(harness, a, &b, needed, &compared);
        let short = Lengths {
            word: needed.word - 1,
            ..needed
        };
        let scratch = Lengths {
            scratch: needed.scratch - 1,
            ..needed
        };
        let lengths = *harness.random.pick(&[short, scratch]);
        refused_29(harness, [a, &b], lengths, needed.scratch);
    }
    let small = of_size(&mut harness.random, 1, false, 400..=5_000);
    for (a, b) in [(most, turned(most)), (MANY, turned(most)), (most, small)] {
        let compared = by_stored(a, &b);
        let needed = needs(&compared);
        for _ in 0..2 {
            let mut lengths = needed;
            lengths.word = around_limit(&mut harness.random, 1 << 20, 40_000);
            lengths.scratch = around_limit(&mut harness.random, 1 << 20, 40_000);
            refused_29(harness, [a, &b], lengths, needed.scratch);
        }
        for kind in [(1 << 20) - 1, 1 << 20, (1 << 20) + 1] {
            let mut lengths = needed;
            (lengths.word, lengths.scratch) = (kind, kind);
            refused_29(harness, [a, &b], lengths, needed.scratch);
        }
    }
}

/// A call that row 29 refuses, with P.
fn refused_29(harness: &mut Harness, files: [&[u8]; 2], lengths: Lengths, pairs: usize) {
    let told = [("P refused", pairs), ("3 × P refused", 3 * pairs)];
    compare_told(harness, files, lengths, &Err(29), &told);
}

/// After each letter the next one that is not below `i` must be `i`, for each `i` below the
/// letter: a rule asks it of its own numbers `i`. One that begins does so with the
/// highest letter. All numbers together make words of 2 to the power of their count.
fn ruler(own: std::ops::Range<usize>, highest: usize, begins: bool) -> Rule {
    // The state that watches, those that wait for their number, the one that begins.
    let waiting = |below: usize| {
        let numbers = own.clone().enumerate().filter(move |(_, i)| *i < below);
        numbers.fold(1u8, |mask, (place, _)| mask | 2 << place)
    };
    let watch = (0..=highest).map(|letter| vec![waiting(letter)]).collect();
    let mut entries: Vec<Vec<Vec<u8>>> = vec![watch];
    for (place, i) in own.clone().enumerate() {
        let entry = |letter: usize| match letter.cmp(&i) {
            Ordering::Less => vec![2 << place],
            Ordering::Equal => vec![0],
            Ordering::Greater => vec![],
        };
        entries.push((0..=highest).map(entry).collect());
    }
    if begins {
        let mut first = vec![vec![]; highest + 1];
        first[highest] = vec![waiting(highest)];
        entries.push(first);
    }
    Rule {
        states: entries.len(),
        letters: highest + 1,
        initial: if begins { entries.len() - 1 } else { 0 },
        accepting: 1,
        entries,
    }
}

/// Two rules with no short word between them.
fn long_word(harness: &mut Harness, digits: usize) {
    let half = harness.random.between(digits / 2, 5);
    let a = sample::file(&ruler(0..half, digits, true));
    let b = sample::file(&dual(&ruler(half..digits, digits, false)));
    let compared = stricter(&a, &b, CAPS, usize::MAX, usize::MAX);
    let needed = needs(compared.as_ref().unwrap());
    harness.by_01(&compared.as_ref().unwrap().word.is_some(), &true);
    compare_with(harness, &a, &b, needed, &compared);
}

/// Each length one short, exact, one more, and far more.
fn around(harness: &mut Harness, a: &[u8], b: &[u8], compared: &Result<Compared, u8>) {
    let needed = needs(compared.as_ref().unwrap());
    for i in 0..6 {
        for change in [-1isize, 0, 1, 70] {
            let mut lengths = needed;
            let length = match i {
                4 => &mut lengths.word,
                5 => &mut lengths.scratch,
                _ => &mut lengths.rooms[i],
            };
            if *length == 0 && change < 0 {
                continue;
            }
            *length = length.wrapping_add_signed(change);
            compare_with(harness, a, b, lengths, &within(lengths, compared));
        }
    }
}

/// Rules of several components whose tables make many pairs, both ways round.
fn large(harness: &mut Harness) {
    let mut random = Random::new(109);
    let mut left = [2, 1];
    while left != [0, 0] {
        let alphabet = random.between(1, 2);
        let shape = *random.pick(&[Shape::Layers, Shape::Rings, Shape::VeryWeak]);
        let states = random.between(5, 6);
        let a = varied(&mut random, shape, states, alphabet);
        let b = altered(&mut random, &a);
        let (a, b) = (sample::file(&a), sample::file(&b));
        let compared = stricter(
            &a,
            &b,
            [2_500, 40_000, 2_500, 40_000],
            usize::MAX,
            usize::MAX,
        );
        let Ok(served) = &compared else { continue };
        let needed = needs(served);
        let kind = match needed.scratch {
            100_001..=1_000_000 => 0,
            1_000_001..=3_000_000 => 1,
            _ => continue,
        };
        if left[kind] == 0 {
            continue;
        }
        left[kind] -= 1;
        sizes(harness, needed.scratch);
        compare_with(harness, &a, &b, needed, &compared);
    }
}

fn sizes(harness: &mut Harness, pairs: usize) {
    let kinds = [
        (1_000_000, "P over 1,000,000"),
        (100_000, "P over 100,000"),
        (10_000, "P over 10,000"),
        (100, "P over 100"),
    ];
    if let Some((_, kind)) = kinds.into_iter().find(|(over, _)| pairs > *over) {
        harness.saw(kind);
    }
}

/// A rule with the entries of another but for a few, which have a clause less,
/// none, or one that is always met. A component of it is a part of one of the
/// other's, so none is mixed.
pub fn altered(random: &mut Random, rule: &Rule) -> Rule {
    let mut altered = rule.clone();
    for _ in 0..random.between(0, 3) {
        let (q, letter) = (random.below(rule.states), random.below(rule.letters));
        let entry = &mut altered.entries[q][letter];
        match random.below(3) {
            0 => entry.clear(),
            1 => *entry = vec![0],
            _ => drop(entry.pop()),
        }
    }
    if random.once_in(8) {
        altered.initial = random.below(rule.states);
    }
    altered
}

fn random(harness: &mut Harness) {
    let random = &mut harness.random;
    let a = small_rule(random);
    let b = match random.below(3) {
        0 => altered(random, &a),
        1 => {
            let shape = *random.pick(&SHAPES);
            let states = random.between(1, 3);
            varied(random, shape, states, a.letters)
        }
        _ => small_rule(random),
    };
    let (a, b) = if random.once_in(2) { (a, b) } else { (b, a) };
    let (mut a, mut b) = (prefaced(random, &a), prefaced(random, &b));
    match random.below(60) {
        0 => a = any_file(random),
        1 => b = any_file(random),
        _ => {}
    }
    let ample = [300, 6_000, 300, 6_000];
    let compared = stricter(&a, &b, ample, usize::MAX, usize::MAX);
    let Ok(served) = &compared else {
        let lengths = Lengths {
            rooms: ample,
            word: random.below(300),
            scratch: random.below(300),
        };
        return compare_with(harness, &a, &b, lengths, &compared);
    };
    let needed = needs(served);
    sizes(harness, needed.scratch);
    for _ in 0..2 {
        let lengths = near(&mut harness.random, needed);
        let answer = within(lengths, &compared);
        let short = |i: usize| lengths.rooms[i] < needed.rooms[i];
        if matches!(answer, Err(17 | 18)) {
            let kind = if short(0) || short(1) {
                "17 or 18 of A"
            } else {
                "17 or 18 of B"
            };
            harness.saw(kind);
        }
        compare_with(harness, &a, &b, lengths, &answer);
    }
}

/// Lengths near those that are needed, mostly enough.
fn near(random: &mut Random, needed: Lengths) -> Lengths {
    let mut lengths = needed;
    let Lengths {
        rooms,
        word,
        scratch,
    } = &mut lengths;
    for length in rooms.iter_mut().chain([word, scratch]) {
        *length = match random.below(24) {
            0 => length.saturating_sub(1),
            1 => random.below(*length + 1),
            2..=6 => *length + random.below(70),
            _ => *length,
        };
    }
    lengths
}
