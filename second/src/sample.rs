//! Random numbers, rules and words for checking, repeatable by their seed.

use crate::names::Name;
use crate::rule::{Rule, TAG};

/// The rules of 01 that its cases use.
pub const F: [u8; 12] = [1, 0, 1, 1, 1, 2, 0, 0, 2, 0, 0x41, 0x57];
pub const D: [u8; 15] = [2, 0, 1, 1, 0, 1, 1, 2, 2, 0, 0, 3, 0, 0x41, 0x57];
pub const E: [u8; 11] = [1, 1, 0, 1, 2, 0, 1, 1, 0, 0x41, 0x57];
pub const I: [u8; 16] = [3, 1, 2, 0, 1, 1, 1, 1, 2, 2, 0, 1, 4, 0, 0x41, 0x57];
pub const Z: [u8; 9] = [0, 1, 1, 0, 1, 0, 0, 0x41, 0x57];

/// A clause that holds another of its entry, and one that repeats it. Both
/// entries glue together a mixed component: row 20 comes before 11.
pub const NESTED: [&[u8]; 2] = [
    &[2, 3, 1, 2, 1, 2, 1, 0, 1, 3, 0, 0x41, 0x57],
    &[2, 2, 1, 2, 1, 2, 1, 0, 1, 3, 0, 0x41, 0x57],
];

/// Refused files with their numbers: the examples of 01's table, and two of
/// row 20.
pub const REFUSED: [(u8, &[u8]); 13] = [
    (1, &[0x41, 0x57]),
    (2, &[1, 1, 0, 0, 0, 0, 0x57, 0x41]),
    (3, &[0, 1, 0, 0, 0, 0, 0x41, 0x57]),
    (4, &[1, 0x11, 0, 0, 0, 0, 0x41, 0x57]),
    (5, &[1, 1, 1, 0, 0, 0, 0x41, 0x57]),
    (6, &[1, 1, 0, 2, 0, 0, 0x41, 0x57]),
    (7, &[1, 1, 0, 0, 0, 0, 0x41, 0x57]),
    (8, &[9, 1, 1, 0, 0, 0, 0, 0x41, 0x57]),
    (9, &[1, 1, 1, 0, 0, 0, 0, 0x41, 0x57]),
    (10, &[2, 1, 1, 1, 0, 0, 1, 0, 0x41, 0x57]),
    (11, &[2, 1, 1, 1, 2, 1, 0, 1, 2, 0, 0x41, 0x57]),
    (20, NESTED[0]),
    (20, NESTED[1]),
];

/// Files of F whose names are refused, with their numbers: names that do not fit
/// in the preface, a name byte below 20 and one above 7E though names are equal,
/// two equal names.
pub const MISNAMED: [(u8, &[u8]); 5] = [
    (21, b"NM\x01\x00\x01\x01\x01\x02\x00\x00\x02\x00AW"),
    (
        21,
        b"ETCH   STORE   NM\x01\x00\x01\x01\x01\x02\x00\x00\x02\x00AW",
    ),
    (
        22,
        b"\x1fETCH   \x1fETCH   NM\x01\x00\x01\x01\x01\x02\x00\x00\x02\x00AW",
    ),
    (
        22,
        b"FETCH  \x7fFETCH  \x7fNM\x01\x00\x01\x01\x01\x02\x00\x00\x02\x00AW",
    ),
    (
        23,
        b"FETCH   FETCH   NM\x01\x00\x01\x01\x01\x02\x00\x00\x02\x00AW",
    ),
];

/// A generator of random numbers (splitmix64).
#[derive(Clone, Debug)]
pub struct Random(u64);

impl Random {
    pub fn new(seed: u64) -> Self {
        Random(seed)
    }

    pub fn number(&mut self) -> u64 {
        self.0 = self.0.wrapping_add(0x9e37_79b9_7f4a_7c15);
        let mut z = self.0;
        z = (z ^ z >> 30).wrapping_mul(0xbf58_476d_1ce4_e5b9);
        z = (z ^ z >> 27).wrapping_mul(0x94d0_49bb_1331_11eb);
        z ^ z >> 31
    }

    /// A number below `limit`.
    pub fn below(&mut self, limit: usize) -> usize {
        (self.number() % limit as u64) as usize
    }

    /// A number from `low` to `high`, both included.
    pub fn between(&mut self, low: usize, high: usize) -> usize {
        low + self.below(high - low + 1)
    }

    /// True once in `times`.
    pub fn once_in(&mut self, times: usize) -> bool {
        self.below(times) == 0
    }

    pub fn byte(&mut self) -> u8 {
        self.number() as u8
    }

    pub fn bytes(&mut self, length: usize) -> Vec<u8> {
        (0..length).map(|_| self.byte()).collect()
    }

    pub fn pick<'a, T>(&mut self, from: &'a [T]) -> &'a T {
        &from[self.below(from.len())]
    }

    pub fn shuffle<T>(&mut self, items: &mut [T]) {
        for last in (1..items.len()).rev() {
            items.swap(last, self.between(0, last));
        }
    }
}

/// The shapes of random rules.
#[derive(Clone, Copy, Debug, PartialEq, Eq)]
pub enum Shape {
    /// All states in one layer.
    One,
    /// States in random layers; clauses name states of this layer and lower
    /// ones.
    Layers,
    /// As layers, and each state leads to the next one of its layer.
    Rings,
    /// One state a layer: only self loops and downward steps.
    VeryWeak,
}

pub const SHAPES: [Shape; 4] = [Shape::One, Shape::Layers, Shape::Rings, Shape::VeryWeak];

/// A random rule that passes rows 1 to 11 and 20: no clause of an entry holds
/// another.
pub fn rule(random: &mut Random, shape: Shape, states: usize, letters: usize) -> Rule {
    any_rule(random, shape, states, letters, false)
}

/// A random rule that passes rows 1 to 11; row 20 as it comes.
pub fn nested_rule(random: &mut Random, shape: Shape, states: usize, letters: usize) -> Rule {
    any_rule(random, shape, states, letters, true)
}

/// How often a clause is drawn again that holds another of its entry or lies in
/// one.
const DRAWS: usize = 4;

fn any_rule(
    random: &mut Random,
    shape: Shape,
    states: usize,
    letters: usize,
    nested: bool,
) -> Rule {
    // Layers by place in a random order of the states.
    let mut order: Vec<usize> = (0..states).collect();
    random.shuffle(&mut order);
    let mut layer = vec![0; states];
    for place in 1..states {
        let new = match shape {
            Shape::One => false,
            Shape::Layers | Shape::Rings => random.once_in(3),
            Shape::VeryWeak => true,
        };
        layer[order[place]] = layer[order[place - 1]] + usize::from(new);
    }
    let layers: Vec<bool> = (0..states).map(|_| random.once_in(2)).collect();
    let accepting = (0..states).filter(|&q| layers[layer[q]]);
    let accepting = accepting.fold(0, |mask, q| mask | 1u8 << q);
    let most = *random.pick(&[1, 1, 2, 2, 3, 8]);
    let spare = random.between(1, 4);
    let entries = (0..states).map(|q| {
        let mut allowed: Vec<usize> = (0..states).filter(|&to| layer[to] <= layer[q]).collect();
        let own: Vec<usize> = (0..states).filter(|&to| layer[to] == layer[q]).collect();
        let next = own[(own.iter().position(|&to| to == q).unwrap() + 1) % own.len()];
        random.shuffle(&mut allowed);
        (0..letters)
            .map(|_| {
                let count = match random.below(12) {
                    0 => 0,
                    1 => 8,
                    _ => random.between(1, most),
                };
                let mut clauses: Vec<u8> = Vec::new();
                let draws = if nested { count } else { DRAWS * count };
                for _ in 0..draws {
                    let mut named = allowed.clone();
                    if random.once_in(12) {
                        named.clear();
                    } else if count == 8 && !nested {
                        // Parts of one size: many of them, none in another.
                        random.shuffle(&mut named);
                        named.truncate(allowed.len().div_ceil(2));
                    } else {
                        named.retain(|_| random.once_in(spare));
                        if shape == Shape::Rings && !random.once_in(4) {
                            named.push(next);
                        }
                    }
                    let clause = named.iter().fold(0, |mask, &to| mask | 1u8 << to);
                    let apart = |&other: &u8| clause & !other != 0 && other & !clause != 0;
                    if clauses.len() < count && (nested || clauses.iter().all(apart)) {
                        clauses.push(clause);
                    }
                }
                clauses
            })
            .collect()
    });
    Rule {
        entries: entries.collect(),
        states,
        letters,
        initial: random.below(states),
        accepting,
    }
}

/// The file of a rule, without preface, laid out with no check at all.
pub fn file(rule: &Rule) -> Vec<u8> {
    let entries: Vec<&Vec<u8>> = rule.entries.iter().flatten().collect();
    let mut file: Vec<u8> = entries.iter().copied().flatten().copied().collect();
    let c = file.len();
    file.extend(entries.iter().map(|clauses| clauses.len() as u8));
    file.extend([rule.states as u8, rule.letters as u8]);
    file.extend([rule.initial as u8, rule.accepting]);
    file.extend([(c % 256) as u8, (c / 256) as u8]);
    file.extend(TAG);
    file
}

/// Random names for letters, all different, one after the other.
pub fn names(random: &mut Random, letters: usize) -> Vec<u8> {
    let mut names: Vec<Name> = Vec::new();
    while names.len() < letters {
        // Few bytes, so that names are often alike.
        let bytes = random.pick(&[&b"ab "[..], b"FETCH ", b" ~NM"]).to_vec();
        let name: Name = std::array::from_fn(|_| *random.pick(&bytes));
        if !names.contains(&name) {
            names.push(name);
        }
    }
    names.concat()
}

/// Random letters of a rule.
pub fn letters(random: &mut Random, letters: usize, length: usize) -> Vec<u8> {
    (0..length).map(|_| random.below(letters) as u8).collect()
}
