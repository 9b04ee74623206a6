//! Random inputs: rules, whole and damaged files, words.

use second::names::MARK;
use second::rule::Rule;
use second::sample::{self, letters, Random, Shape, SHAPES};

/// The rules of 01.
pub const RULES: [&[u8]; 5] = [&sample::F, &sample::D, &sample::E, &sample::I, &sample::Z];

/// Refused files with their numbers.
pub fn refused() -> impl Iterator<Item = (u8, &'static [u8])> {
    sample::REFUSED.into_iter().chain(sample::MISNAMED)
}

/// A file of n states, s letters and `count` clauses per entry, which name the
/// states 0, 1, 2 and on: both sides of the limits of rows 3, 4 and 8. With
/// fewer states than clauses they repeat.
pub fn limit_file(n: usize, s: usize, count: usize) -> Vec<u8> {
    let mut file = Vec::new();
    for _ in 0..n * s {
        file.extend((0..count).map(|clause| 1u32.wrapping_shl((clause % n) as u32) as u8));
    }
    let c = file.len();
    file.extend(vec![count as u8; n * s]);
    file.extend([n as u8, s as u8, 0, 0]);
    file.extend([(c % 256) as u8, (c / 256) as u8, 0x41, 0x57]);
    file
}

pub const LIMITS: [(usize, usize, usize); 12] = [
    (8, 16, 8),
    (8, 16, 0),
    (8, 16, 9),
    (9, 16, 8),
    (8, 17, 8),
    (9, 17, 9),
    (1, 1, 8),
    (1, 1, 9),
    (1, 16, 1),
    (8, 1, 1),
    (0, 1, 1),
    (1, 0, 1),
];

/// A random rule of 1 to 8 states that passes every check.
pub fn rule(random: &mut Random) -> Rule {
    let states = random.between(1, 8);
    let alphabet = match random.below(4) {
        0 => random.between(1, 16),
        _ => random.between(1, 3),
    };
    let shape = *random.pick(&SHAPES);
    varied(random, shape, states, alphabet)
}

/// A random rule, at times with many empty entries or with many that an empty
/// clause always satisfies.
pub fn varied(random: &mut Random, shape: Shape, states: usize, alphabet: usize) -> Rule {
    let mut rule = sample::rule(random, shape, states, alphabet);
    let kind = random.below(12);
    for clauses in rule.entries.iter_mut().flatten() {
        match kind {
            0 if random.once_in(2) => clauses.clear(),
            1 if random.once_in(2) => *clauses = vec![0],
            _ => {}
        }
    }
    rule
}

/// A rule that may have a clause inside another of its entry.
pub fn nested_rule(random: &mut Random) -> Rule {
    let states = random.between(1, 8);
    let alphabet = random.between(1, 3);
    let shape = *random.pick(&SHAPES);
    sample::nested_rule(random, shape, states, alphabet)
}

/// A preface, mostly short.
pub fn preface(random: &mut Random) -> Vec<u8> {
    let length = match random.below(40) {
        0 => random.between(0, 9_000),
        1..=4 => random.between(0, 300),
        5..=12 => random.between(0, 16),
        _ => 0,
    };
    match random.below(4) {
        // A preface that looks like rule files.
        0 => random
            .pick(&RULES)
            .iter()
            .copied()
            .cycle()
            .take(length)
            .collect(),
        1 => vec![0xff; length],
        _ => plain(random, length),
    }
}

/// Random bytes that name no letters: their end is not the mark of names.
pub fn plain(random: &mut Random, length: usize) -> Vec<u8> {
    let mut bytes = random.bytes(length);
    if bytes.ends_with(&MARK) {
        bytes[length - 1] = 0;
    }
    bytes
}

/// A file that passes every check.
pub fn good_file(random: &mut Random) -> Vec<u8> {
    if random.once_in(30) {
        return random.pick(&RULES).to_vec();
    }
    let rule = rule(random);
    prefaced(random, &rule)
}

/// The file of a rule after a preface, at times with names at its end.
pub fn prefaced(random: &mut Random, rule: &Rule) -> Vec<u8> {
    let mut file = preface(random);
    if random.once_in(6) {
        file.extend(sample::names(random, rule.letters));
        file.extend(MARK);
    }
    file.extend(sample::file(rule));
    file
}

/// Names for s letters, at times with a fault of rows 21 to 23.
pub fn names(random: &mut Random, s: usize) -> Vec<u8> {
    let mut names = sample::names(random, s);
    let at = random.below(names.len());
    match random.below(12) {
        0 => drop(names.remove(at)),
        1 => names.truncate(at),
        2 => names.insert(at, 0x20),
        // Bytes at the limits and over them.
        3 => names[at] = *random.pick(&[0x20, 0x7e]),
        4 | 5 => names[at] = *random.pick(&[0x1f, 0x1f, 0x7f, 0x7f, 0, 0x80, 0xff]),
        // Two equal names.
        6 | 7 if s > 1 => {
            let (one, other) = (random.below(s), random.below(s));
            names.copy_within(8 * one..8 * one + 8, 8 * other);
        }
        _ => {}
    }
    names
}

/// A rule's file with names that may be faulty, or with a mark that may be one
/// byte off.
fn named_file(random: &mut Random) -> Vec<u8> {
    let mut file = if random.once_in(2) {
        preface(random)
    } else {
        Vec::new()
    };
    let rule = match random.below(8) {
        0 => nested_rule(random),
        _ => rule(random),
    };
    file.extend(names(random, rule.letters));
    file.extend(match random.below(16) {
        0 => vec![0x4e],
        1 => vec![0x4d, 0x4e],
        2 => vec![0x4e, 0x4d, random.byte()],
        3 => vec![0x4e, 0x4d ^ 1 << random.below(8)],
        4 => vec![0x4e ^ 1 << random.below(8), 0x4d],
        _ => MARK.to_vec(),
    });
    file.extend(sample::file(&rule));
    file
}

/// A file that may have faults of any row.
pub fn any_file(random: &mut Random) -> Vec<u8> {
    match random.below(27) {
        0..=9 => good_file(random),
        10 => {
            let length = random.between(0, 24);
            let mut file = random.bytes(length);
            if random.once_in(2) {
                file.extend([0x41, 0x57]);
            }
            file
        }
        11 if random.once_in(4) => random.pick(&sample::MISNAMED).1.to_vec(),
        11 => random.pick(&sample::REFUSED).1.to_vec(),
        12 => {
            let (n, s, count) = *random.pick(&LIMITS);
            limit_file(n, s, count)
        }
        13 => small_trailer(random),
        14 => mixed_file(random),
        15 => sample::file(&nested_rule(random)),
        16..=17 => named_file(random),
        _ => {
            let mut file = if random.once_in(4) {
                good_file(random)
            } else {
                sample::file(&rule(random))
            };
            for _ in 0..random.between(1, 2) {
                damage(random, &mut file);
            }
            file
        }
    }
}

/// Small random numbers in every field.
fn small_trailer(random: &mut Random) -> Vec<u8> {
    let length = random.between(0, 12);
    let mut file: Vec<u8> = (0..length).map(|_| random.below(5) as u8).collect();
    let trailer = [3, 3, 3, 4, 6, 1].map(|limit| random.below(limit) as u8);
    file.extend(trailer);
    file.extend([0x41, 0x57]);
    file
}

/// A rule with accepting states at random, so that components mix.
fn mixed_file(random: &mut Random) -> Vec<u8> {
    let mut rule = rule(random);
    rule.accepting = random.byte() & rule.all();
    sample::file(&rule)
}

/// One fault: truncation, changed, moved, added or missing bytes, or a field
/// at its limit.
fn damage(random: &mut Random, file: &mut Vec<u8>) {
    let length = file.len();
    if length == 0 {
        return;
    }
    let at = random.below(length);
    // The place of a trailer byte, and the number of bytes before the trailer.
    let trailer = |byte: usize| length.saturating_sub(8 - byte).min(length - 1);
    let n = file[trailer(0)];
    let s = file[trailer(1)];
    match random.below(18) {
        0 => file[at] ^= 1 << random.below(8),
        1 => file[at] = random.byte(),
        2 => {
            let other = random.below(length);
            file.swap(at, other);
        }
        3 => file.truncate(at),
        4 => drop(file.drain(..at)),
        5 => drop(file.remove(at)),
        6 => file.insert(at, random.below(4) as u8),
        7 => drop(file.remove(0)),
        8 => file[trailer(0)] = *random.pick(&[0, 8, 9, n.wrapping_add(1), n.wrapping_sub(1)]),
        9 => file[trailer(1)] = *random.pick(&[0, 16, 17, s.wrapping_add(1), s.wrapping_sub(1)]),
        10 => file[trailer(2)] = *random.pick(&[n, n.wrapping_sub(1), 255, 0]),
        11 => file[trailer(3)] |= 1u32.wrapping_shl(n.into()) as u8,
        12 => {
            let low = file[trailer(4)];
            file[trailer(4)] = *random.pick(&[low.wrapping_add(1), low.wrapping_sub(1), 0, 255]);
        }
        13 => file[trailer(5)] = *random.pick(&[0, 1, 2, 4, 5, 255]),
        14 => {
            let byte = trailer(random.between(6, 7));
            file[byte] ^= 1 << random.below(8);
        }
        15 => {
            // A count.
            let counts = n as usize * s as usize;
            let back = 9 + random.below(counts.clamp(1, length));
            if back <= length {
                let count = &mut file[length - back];
                *count = *random.pick(&[0, 7, 8, 9, 255, count.wrapping_add(1)]);
            }
        }
        16 => {
            // A clause that names the state n.
            let counts = n as usize * s as usize;
            let back = 9 + counts + random.below(8);
            if back <= length {
                file[length - back] |= 1u32.wrapping_shl(n.into()) as u8;
            }
        }
        _ => {
            // Two counts that keep their sum, or not.
            let counts = n as usize * s as usize;
            if counts > 1 && counts + 8 <= length {
                let one = length - 9 - random.below(counts);
                let other = length - 9 - random.below(counts);
                file[one] = file[one].wrapping_add(1);
                file[other] = file[other].wrapping_sub(1);
            }
        }
    }
}

/// A word over `alphabet` letters, at times with faults of rows 12 to 14.
pub fn word(random: &mut Random, alphabet: usize) -> [Vec<u8>; 2] {
    let [mut lead, mut cycle] = good_word(random, alphabet);
    match random.below(40) {
        0 => cycle.clear(),
        1 => lead = letters(random, alphabet, 33),
        2 => cycle = letters(random, alphabet, 33),
        3 => {
            let length = random.between(30, 70);
            lead = letters(random, alphabet, length);
            let length = random.between(30, 70);
            cycle = letters(random, alphabet, length);
        }
        4 => {
            lead = letters(random, alphabet, 33);
            cycle.clear();
        }
        5 => {
            let length = random.between(33, 3_000);
            *random_of(random, &mut lead, &mut cycle) = letters(random, alphabet, length);
        }
        6..=7 => {
            let bad = *random.pick(&[alphabet, alphabet, 16, 17, 255]) as u8;
            let part = random_of(random, &mut lead, &mut cycle);
            if part.is_empty() {
                part.push(bad);
            } else {
                let at = random.below(part.len());
                part[at] = bad;
            }
        }
        _ => {}
    }
    [lead, cycle]
}

/// The same endless letters, mostly laid out in another way, within the limits
/// where the word is.
pub fn respelled(random: &mut Random, mut lead: Vec<u8>, mut cycle: Vec<u8>) -> [Vec<u8>; 2] {
    if cycle.is_empty() {
        return [lead, cycle];
    }
    let most = random.between(1, 32);
    let (times, length) = (random.between(1, 4), cycle.len());
    if times * length <= most {
        cycle = cycle.repeat(times);
    }
    for _ in 0..random.below(12) {
        if lead.len() < most {
            lead.push(cycle[0]);
            cycle.rotate_left(1);
        }
    }
    [lead, cycle]
}

fn random_of<'a, T>(random: &mut Random, one: &'a mut T, other: &'a mut T) -> &'a mut T {
    if random.once_in(2) {
        one
    } else {
        other
    }
}

/// A word of 1 to 64 places that passes every check.
pub fn good_word(random: &mut Random, alphabet: usize) -> [Vec<u8>; 2] {
    let (lead, cycle) = match random.below(8) {
        0 => (random.between(0, 32), random.between(1, 32)),
        1 => (32, 32),
        2 => (0, random.between(1, 32)),
        _ => (random.between(0, 4), random.between(1, 4)),
    };
    [
        letters(random, alphabet, lead),
        letters(random, alphabet, cycle),
    ]
}

/// A length near what is needed: one short, exact, one more, or other.
pub fn near(random: &mut Random, needed: usize) -> usize {
    match random.below(10) {
        0 => needed.saturating_sub(1),
        1..=4 => needed,
        5..=6 => needed + 1,
        7 => needed + random.below(100),
        8 => random.below(needed + 1),
        _ => needed + random.below(600),
    }
}

/// A number below a limit, or above it, by at most so much; one time in three the
/// limit itself.
pub fn around(random: &mut Random, limit: usize, apart: usize) -> usize {
    match random.below(3) {
        0 => limit - random.between(1, apart),
        1 => limit,
        _ => limit + random.between(1, apart),
    }
}

/// A rule of eight states, sixteen letters and eight clauses an entry, none inside
/// another, but for `fewer` clauses in all.
pub fn largest(random: &mut Random, fewer: usize) -> Rule {
    let mut entries = vec![vec![Vec::new(); 16]; 8];
    for clauses in entries.iter_mut().flatten() {
        let size = random.between(2, 6) as u32;
        let mut all: Vec<u8> = (0..=255)
            .filter(|set: &u8| set.count_ones() == size)
            .collect();
        random.shuffle(&mut all);
        *clauses = all[..8].to_vec();
    }
    for _ in 0..fewer {
        let entry = random.below(128);
        entries[entry / 16][entry % 16].pop();
    }
    Rule {
        states: 8,
        letters: 16,
        initial: random.below(8),
        accepting: if random.once_in(2) { 255 } else { 0 },
        entries,
    }
}

/// One rejecting component whose states, over letter 0, have to be left one after
/// the other: on a word that goes on with letter 0 each has a rank of its own.
/// Letter 1 closes the ring.
pub fn ladder(random: &mut Random, states: usize) -> Rule {
    let mut order: Vec<usize> = (0..states).collect();
    random.shuffle(&mut order);
    let mut entries = vec![vec![vec![]; 2]; states];
    for place in 0..states {
        entries[order[place]][0] = match place {
            0 => vec![0],
            _ => vec![1 << order[place - 1]],
        };
    }
    entries[order[0]][1] = vec![1 << order[states - 1]];
    Rule {
        states,
        letters: 2,
        initial: random.below(states),
        accepting: 0,
        entries,
    }
}
