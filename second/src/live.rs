//! The log followed live, over the table of the macrostates that matter.

use crate::rule::read;
use crate::table::Table;

/// "keep up to 512 letters"
pub const LETTERS: usize = 512;
/// "Sixteen marks, each a number 0 to 15"
pub const MARKS: usize = 16;

/// What every call is lent: the rule, its table, and the length of the slice for
/// the set, "with a byte 0 or 1 for each" macrostate.
#[derive(Clone, Copy, Debug)]
pub struct Lent<'a> {
    pub file: &'a [u8],
    pub codes: &'a [u64],
    pub transitions: &'a [u64],
    pub room: usize,
}

/// The letters held, and those held when each mark was last set.
#[derive(Clone, Debug, Default, PartialEq, Eq)]
pub struct Log {
    letters: Vec<u8>,
    marks: [Option<Vec<u8>>; MARKS],
}

/// "the set of M-104 macrostates reachable from the initial ones over the
/// letters held", worked out afresh: a byte for each macrostate.
pub fn afresh(lent: &Lent, letters: &[u8]) -> Result<Vec<u8>, u8> {
    let (rule, _) = read(lent.file)?;
    let table = Table::new(&rule, lent.codes, lent.transitions)?;
    let macrostates = table.macrostates.iter();
    let mut set: Vec<u8> = macrostates
        .map(|macrostate| macrostate.is_initial(&rule).into())
        .collect();
    for &letter in letters {
        let mut next = vec![0; set.len()];
        for source in (0..set.len()).filter(|&source| set[source] == 1) {
            for &target in table.targets(source, letter as usize) {
                next[target] = 1;
            }
        }
        set = next;
    }
    Ok(set)
}

/// The rule's rows, 14 for a letter that arrives, and 15.
fn check(lent: &Lent, letter: Option<u8>) -> Result<(), u8> {
    let (rule, _) = read(lent.file)?;
    if letter.is_some_and(|letter| letter as usize >= rule.letters) {
        return Err(14);
    }
    Table::new(&rule, lent.codes, lent.transitions)?;
    Ok(())
}

impl Log {
    /// "From a start with none". The rule's rows, 15 and 16. Answers, like every
    /// call, the set.
    pub fn start(lent: &Lent) -> Result<(Log, Vec<u8>), u8> {
        check(lent, None)?;
        let mut log = Log::default();
        let set = log.hold(lent, vec![])?;
        Ok((log, set))
    }

    pub fn letters(&self) -> &[u8] {
        &self.letters
    }

    /// A letter arrives. The rule's rows, 14, 15, "30, arrival at 512 letters",
    /// and 16.
    pub fn arrive(&mut self, lent: &Lent, letter: u8) -> Result<Vec<u8>, u8> {
        check(lent, Some(letter))?;
        if self.letters.len() == LETTERS {
            return Err(30);
        }
        let letters = [&self.letters[..], &[letter]].concat();
        self.hold(lent, letters)
    }

    /// The last letter is withdrawn. The rule's rows, 15, "31, withdrawal from
    /// none", and 16.
    pub fn withdraw(&mut self, lent: &Lent) -> Result<Vec<u8>, u8> {
        check(lent, None)?;
        let Some((_, letters)) = self.letters.split_last() else {
            return Err(31);
        };
        self.hold(lent, letters.to_vec())
    }

    /// A mark is set, or set again. The rule's rows, 15, "32, mark number above
    /// 15", and 16. The letters and the set stay.
    pub fn mark(&mut self, lent: &Lent, number: usize) -> Result<Vec<u8>, u8> {
        check(lent, None)?;
        if number >= MARKS {
            return Err(32);
        }
        let set = self.hold(lent, self.letters.clone())?;
        self.marks[number] = Some(self.letters.clone());
        Ok(set)
    }

    /// "Returning restores the letters and set held when that mark was last set;
    /// marks themselves are not rewound." The rule's rows, 15, 32, "33, return
    /// to a mark not set since the start", and 16.
    pub fn back(&mut self, lent: &Lent, number: usize) -> Result<Vec<u8>, u8> {
        check(lent, None)?;
        if number >= MARKS {
            return Err(32);
        }
        let Some(letters) = self.marks[number].clone() else {
            return Err(33);
        };
        self.hold(lent, letters)
    }

    /// The letters held when a mark was last set.
    pub fn marked(&self, number: usize) -> Option<&[u8]> {
        self.marks.get(number)?.as_deref()
    }

    /// Holds these letters from now on, and answers the set; "A refused call
    /// changes nothing": 16.
    fn hold(&mut self, lent: &Lent, letters: Vec<u8>) -> Result<Vec<u8>, u8> {
        if lent.room < lent.codes.len() {
            return Err(16);
        }
        let set = afresh(lent, &letters)?;
        self.letters = letters;
        Ok(set)
    }
}

#[cfg(test)]
mod tests {
    use super::*;
    use crate::build::Macrostate;
    use crate::game::accepts;
    use crate::graph::path;
    use crate::sample::{self, Random, D, E, F, I, SHAPES, Z};
    use crate::trim::build_trimmed;

    #[test]
    fn examples() {
        // E: letter 0 for ever. After a 1 nothing is left, and a withdrawal
        // brings it back.
        let (codes, transitions) = build_trimmed(&E, 9, 9).unwrap();
        let lent = Lent {
            file: &E,
            codes: &codes,
            transitions: &transitions,
            room: 1,
        };
        let (mut log, set) = Log::start(&lent).unwrap();
        assert_eq!(set, [1]);
        assert_eq!(log.withdraw(&lent), Err(31));
        assert_eq!(log.arrive(&lent, 0), Ok(vec![1]));
        assert_eq!(log.arrive(&lent, 1), Ok(vec![0]));
        assert_eq!(log.arrive(&lent, 0), Ok(vec![0]));
        assert_eq!(log.letters(), [0, 1, 0]);
        assert_eq!(log.withdraw(&lent), Ok(vec![0]));
        assert_eq!(log.withdraw(&lent), Ok(vec![1]));
        assert_eq!(log.withdraw(&lent), Ok(vec![1]));
        assert_eq!(log.withdraw(&lent), Err(31));
        // F: numbers as in the listing.
        let (codes, transitions) = build_trimmed(&F, 9, 9).unwrap();
        let lent = Lent {
            file: &F,
            codes: &codes,
            transitions: &transitions,
            room: 3,
        };
        let (mut log, set) = Log::start(&lent).unwrap();
        assert_eq!(set, [0, 1, 0]);
        assert_eq!(log.arrive(&lent, 0), Ok(vec![0, 0, 1]));
        assert_eq!(log.arrive(&lent, 1), Ok(vec![1, 1, 0]));
        assert_eq!(log.arrive(&lent, 1), Ok(vec![1, 0, 1]));
        // A rule that accepts no word: no macrostate, no room needed.
        let lent = Lent {
            file: &Z,
            codes: &[],
            transitions: &[],
            room: 0,
        };
        let (mut log, set) = Log::start(&lent).unwrap();
        assert_eq!(set, []);
        assert_eq!(log.arrive(&lent, 0), Ok(vec![]));
    }

    #[test]
    fn refused() {
        let (codes, transitions) = build_trimmed(&F, 9, 9).unwrap();
        let lent = Lent {
            file: &F,
            codes: &codes,
            transitions: &transitions,
            room: 3,
        };
        let short = Lent { room: 2, ..lent };
        let bad_table = Lent {
            codes: &[5, 5],
            room: 0,
            ..lent
        };
        let bad_file = Lent {
            file: &[0x41, 0x57],
            ..bad_table
        };
        assert_eq!(Log::start(&short), Err(16));
        assert_eq!(Log::start(&bad_table), Err(15));
        assert_eq!(Log::start(&bad_file), Err(1));
        let (mut log, _) = Log::start(&lent).unwrap();
        assert_eq!(log.withdraw(&short), Err(31));
        assert_eq!(log.withdraw(&bad_table), Err(15));
        assert_eq!(log.withdraw(&bad_file), Err(1));
        for step in 0..512 {
            assert_eq!(log.arrive(&short, 0), Err(16));
            assert_eq!(log.letters().len(), step);
            log.arrive(&lent, (step % 2) as u8).unwrap();
        }
        let full = log.clone();
        assert_eq!(log.arrive(&short, 0), Err(30));
        assert_eq!(log.arrive(&lent, 1), Err(30));
        // "14 is checked before 30", and 15 between them.
        assert_eq!(log.arrive(&bad_table, 0), Err(15));
        assert_eq!(log.arrive(&bad_table, 2), Err(14));
        assert_eq!(log.arrive(&lent, 2), Err(14));
        assert_eq!(log.arrive(&bad_file, 2), Err(1));
        assert_eq!(log.withdraw(&short), Err(16));
        assert_eq!(log, full);
        assert!(log.withdraw(&lent).is_ok());
        assert!(log.arrive(&lent, 1).is_ok());
        assert_eq!(log.arrive(&lent, 1), Err(30));
    }

    #[test]
    fn marks() {
        let (codes, transitions) = build_trimmed(&E, 9, 9).unwrap();
        let lent = Lent {
            file: &E,
            codes: &codes,
            transitions: &transitions,
            room: 1,
        };
        let (mut log, _) = Log::start(&lent).unwrap();
        assert_eq!(log.back(&lent, 0), Err(33));
        assert_eq!(log.mark(&lent, 3), Ok(vec![1]));
        log.arrive(&lent, 0).unwrap();
        assert_eq!(log.mark(&lent, 15), Ok(vec![1]));
        log.arrive(&lent, 1).unwrap();
        // A mark at an empty set.
        assert_eq!(log.mark(&lent, 7), Ok(vec![0]));
        assert_eq!(log.back(&lent, 15), Ok(vec![1]));
        assert_eq!(log.letters(), [0]);
        // Marks are not rewound: 7 was set later, and 15 stays after its return.
        assert_eq!(log.back(&lent, 3), Ok(vec![1]));
        assert_eq!(log.letters(), []);
        assert_eq!(log.back(&lent, 7), Ok(vec![0]));
        assert_eq!(log.letters(), [0, 1]);
        assert_eq!(log.withdraw(&lent), Ok(vec![1]));
        assert_eq!(log.back(&lent, 7), Ok(vec![0]));
        // Set again.
        log.arrive(&lent, 0).unwrap();
        log.mark(&lent, 3).unwrap();
        assert_eq!(log.back(&lent, 15), Ok(vec![1]));
        assert_eq!(log.back(&lent, 3), Ok(vec![0]));
        assert_eq!(log.letters(), [0, 1, 0]);
        assert_eq!(log.marked(3), Some(&[0, 1, 0][..]));
        assert_eq!(log.marked(4), None);
        // Refused, in order, with nothing changed.
        let held = log.clone();
        let short = Lent { room: 0, ..lent };
        let bad = Lent {
            codes: &[5, 5],
            ..short
        };
        assert_eq!(log.mark(&bad, 16), Err(15));
        assert_eq!(log.back(&bad, 16), Err(15));
        assert_eq!(log.mark(&short, 16), Err(32));
        assert_eq!(log.back(&short, 16), Err(32));
        assert_eq!(log.back(&lent, usize::MAX), Err(32));
        assert_eq!(log.back(&short, 4), Err(33));
        assert_eq!(log.back(&short, 3), Err(16));
        assert_eq!(log.mark(&short, 4), Err(16));
        assert_eq!(log, held);
        // A new start knows no mark.
        let (mut log, _) = Log::start(&lent).unwrap();
        assert_eq!(log.back(&lent, 3), Err(33));
    }

    #[test]
    fn full_at_a_mark() {
        let (codes, transitions) = build_trimmed(&F, 9, 9).unwrap();
        let lent = Lent {
            file: &F,
            codes: &codes,
            transitions: &transitions,
            room: 3,
        };
        let (mut log, start) = Log::start(&lent).unwrap();
        log.mark(&lent, 1).unwrap();
        for _ in 0..512 {
            log.arrive(&lent, 1).unwrap();
        }
        log.mark(&lent, 0).unwrap();
        assert_eq!(log.back(&lent, 1), Ok(start));
        assert_eq!(log.withdraw(&lent), Err(31));
        log.back(&lent, 0).unwrap();
        assert_eq!(log.arrive(&lent, 1), Err(30));
        assert_eq!(log.letters(), [1; 512]);
    }

    /// A lead-in and cycle on which an accepting run goes on from the set.
    fn continuation(lent: &Lent, set: &[u8], letters: usize) -> (Vec<u8>, Vec<u8>) {
        let mut graph = vec![Vec::new(); lent.codes.len()];
        let mut over = vec![Vec::new(); lent.codes.len()];
        for transition in lent.transitions {
            let (source, target) = (transition / 16_777_216, transition % 65_536);
            graph[source as usize].push(target as usize);
            over[source as usize].push((transition / 65_536 % 256) as u8);
        }
        let follow = |(mut node, edges): (usize, Vec<usize>)| {
            let mut word = Vec::new();
            for edge in edges {
                word.push(over[node][edge]);
                assert!((over[node][edge] as usize) < letters);
                node = graph[node][edge];
            }
            (word, node)
        };
        let accepting = |node: usize| Macrostate::from_code(lent.codes[node]).is_accepting();
        let round = |node: usize| path(&graph, [node], |_| true, |to| to == node);
        let starts = (0..set.len()).filter(|&number| set[number] == 1);
        let goal = |node: usize| accepting(node) && round(node).is_some();
        let (lead, turn) = follow(path(&graph, starts, |_| true, goal).unwrap());
        (lead, follow(round(turn).unwrap()).0)
    }

    #[test]
    fn empty_sets_and_others() {
        let mut random = Random::new(121);
        let (mut empty, mut others) = (0, 0);
        for _ in 0..600 {
            let shape = *random.pick(&SHAPES);
            let (states, alphabet) = (random.between(1, 4), random.between(1, 3));
            let rule = sample::rule(&mut random, shape, states, alphabet);
            let file = sample::file(&rule);
            let Ok((codes, transitions)) = build_trimmed(&file, 1_000, 8_000) else {
                continue;
            };
            let lent = Lent {
                file: &file,
                codes: &codes,
                transitions: &transitions,
                room: codes.len(),
            };
            let (mut log, mut set) = Log::start(&lent).unwrap();
            for _ in 0..8 {
                let held = log.letters().to_vec();
                assert_eq!(afresh(&lent, &held).as_ref(), Ok(&set));
                if set.contains(&1) {
                    // "a non-empty one means that some is"
                    others += 1;
                    let (lead, cycle) = continuation(&lent, &set, alphabet);
                    assert!(accepts(&rule, &[&held[..], &lead].concat(), &cycle));
                } else {
                    // "no continuation which ends in a cycle is accepted"
                    empty += 1;
                    for _ in 0..30 {
                        let (lead, cycle) = (random.between(0, 4), random.between(1, 4));
                        let lead = sample::letters(&mut random, alphabet, lead);
                        let cycle = sample::letters(&mut random, alphabet, cycle);
                        assert!(!accepts(&rule, &[&held[..], &lead].concat(), &cycle));
                    }
                }
                let mark = random.below(3);
                set = if !held.is_empty() && random.once_in(4) {
                    log.withdraw(&lent).unwrap()
                } else if random.once_in(6) {
                    log.mark(&lent, mark).unwrap()
                } else if random.once_in(4) && log.marked(mark).is_some() {
                    log.back(&lent, mark).unwrap()
                } else {
                    let letter = random.below(alphabet) as u8;
                    log.arrive(&lent, letter).unwrap()
                };
            }
        }
        assert!(empty > 500 && others > 500, "{empty} {others}");
        // D and I have sets of several macrostates.
        for rule in [&D[..], &I] {
            let (codes, transitions) = build_trimmed(rule, 99, 99).unwrap();
            let lent = Lent {
                file: rule,
                codes: &codes,
                transitions: &transitions,
                room: 99,
            };
            let (mut log, first) = Log::start(&lent).unwrap();
            let set = log.arrive(&lent, 0).unwrap();
            assert_eq!(set.len(), codes.len());
            assert!(first.contains(&1));
            assert_eq!(log.withdraw(&lent), Ok(first));
        }
    }
}
