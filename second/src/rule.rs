//! Rules, their files and their components.

use std::collections::BTreeSet;

use crate::names::{self, Name};

/// "the tag 41 57"
pub const TAG: [u8; 2] = [0x41, 0x57];
/// "a trailer of 8 bytes"
pub const TRAILER: usize = 8;

/// An alternating automaton as a file lays it out.
#[derive(Clone, Debug, PartialEq, Eq)]
pub struct Rule {
    pub states: usize,
    pub letters: usize,
    pub initial: usize,
    /// Mask of accepting states.
    pub accepting: u8,
    /// Clauses of every entry, by state, then letter.
    pub entries: Vec<Vec<Vec<u8>>>,
}

/// A component: its states, and whether they are accepting.
#[derive(Clone, Debug, PartialEq, Eq)]
pub struct Component {
    pub states: BTreeSet<usize>,
    pub accepting: bool,
}

/// "A set of states is a mask: state q has weight 2 to the power q."
pub fn mask_of<'a>(states: impl IntoIterator<Item = &'a usize>) -> u8 {
    states.into_iter().fold(0, |mask, &q| mask | 1 << q)
}

impl Component {
    pub fn mask(&self) -> u8 {
        mask_of(&self.states)
    }
}

impl Rule {
    /// The mask of all states.
    pub fn all(&self) -> u8 {
        mask_of(&(0..self.states).collect::<Vec<_>>())
    }

    /// "A set satisfies an entry if it contains all states of some clause."
    pub fn satisfies(&self, set: u8, state: usize, letter: usize) -> bool {
        let clauses = &self.entries[state][letter];
        clauses.iter().any(|&clause| clause & set == clause)
    }

    /// "State q leads to q' if q' is in some clause of q, at any letter", over
    /// some number of steps, zero included.
    pub fn reaches(&self) -> Vec<BTreeSet<usize>> {
        let step = |q: usize| {
            let clauses = self.entries[q].iter().flatten();
            let mask = clauses.fold(0, |all, clause| all | clause);
            (0..self.states).filter(move |&to| mask >> to & 1 == 1)
        };
        (0..self.states)
            .map(|from| {
                let mut reached = BTreeSet::from([from]);
                let mut waiting = vec![from];
                while let Some(q) = waiting.pop() {
                    waiting.extend(step(q).filter(|&to| reached.insert(to)));
                }
                reached
            })
            .collect()
    }

    /// "Components are the classes of states that lead to each other", "in
    /// rising order of their smallest states". A component counts as accepting
    /// by its smallest state.
    pub fn components(&self) -> Vec<Component> {
        let reaches = self.reaches();
        let mut components: Vec<Component> = Vec::new();
        for q in 0..self.states {
            if components.iter().all(|known| !known.states.contains(&q)) {
                let mutual = |&other: &usize| reaches[other].contains(&q);
                components.push(Component {
                    states: reaches[q].iter().copied().filter(mutual).collect(),
                    accepting: self.accepting >> q & 1 == 1,
                });
            }
        }
        components
    }

    /// Row 20: "an entry with a clause that contains another of its clauses",
    /// the other standing at another place of the entry; equal ones contain
    /// each other.
    pub fn nested(&self) -> bool {
        self.entries.iter().flatten().any(|clauses| {
            (0..clauses.len()).any(|i| {
                (0..clauses.len()).any(|j| i != j && clauses[i] & clauses[j] == clauses[j])
            })
        })
    }

    /// "Every component must be all accepting or all rejecting."
    pub fn mixed(&self) -> bool {
        self.components().iter().any(|component| {
            let accepting = component.mask() & self.accepting;
            accepting != 0 && accepting != component.mask()
        })
    }
}

/// Rows 3 to 6.
fn check_numbers(n: u32, s: u32, initial: u32, accepting: u32) -> Result<(), u8> {
    if !(1..=8).contains(&n) {
        return Err(3);
    }
    if !(1..=16).contains(&s) {
        return Err(4);
    }
    if initial >= n {
        return Err(5);
    }
    if accepting >> n != 0 {
        return Err(6);
    }
    Ok(())
}

/// Rows 8 to 10, on numbers that passed rows 3 to 6 and n × s counts: the rule
/// that is laid out.
fn lay_out(numbers: [u32; 4], counts: &[u8], clauses: &[u8], given: usize) -> Result<Rule, u8> {
    let [n, s, initial, accepting] = numbers;
    if counts.iter().any(|&count| count > 8) {
        return Err(8);
    }
    if counts.iter().map(|&count| count as usize).sum::<usize>() != given {
        return Err(9);
    }
    if clauses.iter().any(|&clause| u32::from(clause) >> n != 0) {
        return Err(10);
    }
    // "Count bytes go by state, then letter"; "Clauses stand in the same
    // order, one mask each."
    let mut rest = clauses.iter().copied();
    let entries = counts.chunks(s as usize).map(|row| {
        let row = row.iter();
        row.map(|&count| rest.by_ref().take(count as usize).collect())
            .collect()
    });
    Ok(Rule {
        entries: entries.collect(),
        states: n as usize,
        letters: s as usize,
        initial: initial as usize,
        accepting: accepting as u8,
    })
}

/// Rows 20 and 11: row 20 comes "after 10 and before 11".
fn check_rule(rule: &Rule) -> Result<(), u8> {
    if rule.nested() {
        return Err(20);
    }
    if rule.mixed() {
        return Err(11);
    }
    Ok(())
}

/// A file taken apart, by rows 1 to 10 alone: the rule and the preface.
pub fn take_apart(file: &[u8]) -> Result<(Rule, &[u8]), u8> {
    if file.len() < TRAILER {
        return Err(1);
    }
    let (body, trailer) = file.split_at(file.len() - TRAILER);
    if trailer[6..] != TAG {
        return Err(2);
    }
    let numbers = [trailer[0], trailer[1], trailer[2], trailer[3]].map(u32::from);
    let [n, s, initial, accepting] = numbers;
    check_numbers(n, s, initial, accepting)?;
    // "c, low byte first"
    let c = trailer[4] as usize + trailer[5] as usize * 256;
    let entries = (n * s) as usize;
    if body.len() < c + entries {
        return Err(7);
    }
    let (preface, rest) = body.split_at(body.len() - c - entries);
    let (clauses, counts) = rest.split_at(c);
    Ok((lay_out(numbers, counts, clauses, c)?, preface))
}

/// What a file lays out: "new readers carry the names in the rule".
#[derive(Clone, Debug, PartialEq, Eq)]
pub struct Named {
    pub rule: Rule,
    /// The length of the preface, names and their mark included.
    pub preface: usize,
    /// A name for each letter, or none at all.
    pub names: Option<Vec<Name>>,
}

/// The rule of a file with its names; rows 1 to 10, 20, 11 and 21 to 23.
pub fn read_named(file: &[u8]) -> Result<Named, u8> {
    let (rule, preface) = take_apart(file)?;
    check_rule(&rule)?;
    Ok(Named {
        names: names::of_preface(preface, rule.letters)?,
        preface: preface.len(),
        rule,
    })
}

/// The rule of a file, and the length of its preface, by the same rows.
pub fn read(file: &[u8]) -> Result<(Rule, usize), u8> {
    read_named(file).map(|read| (read.rule, read.preface))
}

/// What checking a file reports: the length of the preface and how many of its
/// bytes are names.
pub fn check(file: &[u8]) -> Result<(usize, usize), u8> {
    let read = read_named(file)?;
    let names = read.names.unwrap_or_default();
    Ok((read.preface, names.concat().len()))
}

/// The bytes that the writer puts at the start of a slice of `room` bytes when
/// it is given no names; rows 3 to 10, 20, 11 and 16.
pub fn write(numbers: [u32; 4], counts: &[u8], clauses: &[u8], room: usize) -> Result<Vec<u8>, u8> {
    write_named(numbers, counts, clauses, &[], room)
}

/// The writer with names: "The writer writes the names, with 4E 4D, as its whole
/// preface". Rows 3 to 10, 20, 11, 21 to 23 and 16.
pub fn write_named(
    numbers: [u32; 4],
    counts: &[u8],
    clauses: &[u8],
    names: &[u8],
    room: usize,
) -> Result<Vec<u8>, u8> {
    let [n, s, initial, accepting] = numbers;
    check_numbers(n, s, initial, accepting)?;
    if counts.len() != (n * s) as usize {
        return Err(7);
    }
    // "c being the number of clauses given"
    let c = clauses.len();
    check_rule(&lay_out(numbers, counts, clauses, c)?)?;
    let mut file = Vec::new();
    if let Some(names) = names::given(names, s as usize)? {
        file.extend(names.concat());
        file.extend(names::MARK);
    }
    file.extend(clauses);
    file.extend(counts);
    file.extend([n as u8, s as u8, initial as u8, accepting as u8]);
    file.extend([(c % 256) as u8, (c / 256) as u8]);
    file.extend(TAG);
    if room < file.len() {
        return Err(16);
    }
    Ok(file)
}

/// "Two rules are the same if n, s, initial state and accepting mask agree and
/// every entry is satisfied by the same sets", and "only if, besides, both lack
/// names or all names agree". The first file is tried whole, then the second.
pub fn same_rules(first: &[u8], second: &[u8]) -> Result<bool, u8> {
    let first = read_named(first)?;
    let second = read_named(second)?;
    let names = first.names == second.names;
    let (first, second) = (first.rule, second.rule);
    let numbers = |rule: &Rule| (rule.states, rule.letters, rule.initial, rule.accepting);
    Ok(numbers(&first) == numbers(&second)
        && names
        && (0..first.states).all(|q| {
            (0..first.letters).all(|letter| {
                (0..=255)
                    .all(|set| first.satisfies(set, q, letter) == second.satisfies(set, q, letter))
            })
        }))
}
