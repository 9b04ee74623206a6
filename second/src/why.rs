//! Why a word is accepted or rejected: docs/FORMAT.md, `judge --why`.

use std::collections::BTreeSet;

use crate::rule::Rule;

/// A rule, the letters of a word on it, where its cycle begins, and the masks.
pub struct Judged<'a> {
    pub rule: &'a Rule,
    pub letters: Vec<u8>,
    pub lead: usize,
    pub masks: &'a [u8],
}

/// A pair of a place and a state.
pub type Pair = (usize, usize);

/// How a way along claims that fail ends.
pub enum End {
    NoClause(Pair),
    /// The place, the states of the loop, and the letters that never come.
    Waits(usize, BTreeSet<usize>, Vec<u8>),
}

/// A way: its pairs, each with the states by which its clauses fail, and its end.
pub struct Way {
    pub steps: Vec<(Pair, Vec<usize>)>,
    pub end: End,
}

impl Judged<'_> {
    fn next(&self, place: usize) -> usize {
        match place + 1 {
            end if end == self.letters.len() => self.lead,
            next => next,
        }
    }

    pub fn entry(&self, (place, state): Pair) -> &[u8] {
        &self.rule.entries[state][self.letters[place] as usize]
    }

    fn fails(&self, (place, state): Pair) -> bool {
        self.masks[place] >> state & 1 == 0
    }

    fn accepting(&self, state: usize) -> bool {
        self.rule.accepting >> state & 1 == 1
    }

    /// The pairs at the next place of the states of a clause that fail there.
    fn failing<'b>(&'b self, place: usize, clause: u8) -> impl Iterator<Item = Pair> + 'b {
        let next = self.next(place);
        let states = (0..self.rule.states).filter(move |q| clause >> q & 1 == 1);
        let pairs = states.map(move |q| (next, q));
        pairs.filter(|&pair| self.fails(pair))
    }

    /// "The distance of a pair that fails is 0 if its state is rejecting or its
    /// entry has no clause. Else it is the least number d such that every clause
    /// of its entry has a state whose pair at the next place fails and has a
    /// distance below d."
    fn distances(&self) -> Vec<Vec<Option<usize>>> {
        let places = self.letters.len();
        let mut distances = vec![vec![None; self.rule.states]; places];
        for d in 0..=places * self.rule.states {
            let before = distances.clone();
            for place in 0..places {
                for state in 0..self.rule.states {
                    let pair = (place, state);
                    if !self.fails(pair) || before[place][state].is_some() {
                        continue;
                    }
                    let known = |(p, q): Pair| before[p][q].is_some();
                    let below = |&clause: &u8| self.failing(place, clause).any(known);
                    let found = match d {
                        0 => !self.accepting(state) || self.entry(pair).is_empty(),
                        _ => self.entry(pair).iter().all(below),
                    };
                    if found {
                        distances[place][state] = Some(d);
                    }
                }
            }
        }
        distances
    }

    /// Along which claims the word fails.
    pub fn way(&self) -> Way {
        let distances = self.distances();
        let mut steps: Vec<(Pair, Vec<usize>)> = Vec::new();
        let mut pair = (0, self.rule.initial);
        loop {
            if let Some(first) = steps.iter().position(|(seen, _)| *seen == pair) {
                let states = steps[first..].iter().map(|((_, state), _)| *state);
                let states: BTreeSet<usize> = states.collect();
                let letters = self.ending(&states);
                let end = End::Waits(pair.0, states, letters);
                return Way { steps, end };
            }
            if self.entry(pair).is_empty() {
                let end = End::NoClause(pair);
                return Way { steps, end };
            }
            let suits = |&(p, q): &Pair| {
                !self.accepting(pair.1) || distances[p][q] < distances[pair.0][pair.1]
            };
            let by = self.entry(pair).iter().map(|&clause| {
                let mut failing = self.failing(pair.0, clause).filter(suits);
                failing.next().unwrap().1
            });
            let by: Vec<usize> = by.collect();
            let next = (self.next(pair.0), by[0]);
            steps.push((pair, by));
            pair = next;
        }
    }

    /// "Let M be the letters for which every state of the loop has a clause
    /// without a state of the loop. If M is not empty and none of M is in the
    /// cycle": all of M, else none.
    fn ending(&self, states: &BTreeSet<usize>) -> Vec<u8> {
        let mask = states.iter().fold(0u8, |mask, q| mask | 1 << q);
        let ends = |&letter: &u8| {
            let free = |q: &usize| {
                let clauses = &self.rule.entries[*q][letter as usize];
                clauses.iter().any(|clause| clause & mask == 0)
            };
            states.iter().all(free)
        };
        let letters = (0..self.rule.letters as u8).filter(ends);
        let letters: Vec<u8> = letters.collect();
        let cycle = &self.letters[self.lead..];
        match letters.iter().any(|letter| cycle.contains(letter)) {
            true => Vec::new(),
            false => letters,
        }
    }

    /// The pairs "that the choices lead to from the initial state at place 0, over
    /// any number of steps".
    pub fn led_to(&self, choices: &[u8]) -> BTreeSet<Pair> {
        let mut reached = BTreeSet::from([(0, self.rule.initial)]);
        let mut waiting = vec![(0, self.rule.initial)];
        while let Some((place, state)) = waiting.pop() {
            let choice = choices[place * self.rule.states + state];
            let clause = self.entry((place, state))[choice as usize];
            let states = (0..self.rule.states).filter(|q| clause >> q & 1 == 1);
            let pairs = states.map(|q| (self.next(place), q));
            waiting.extend(pairs.filter(|&pair| reached.insert(pair)));
        }
        reached
    }
}

#[cfg(test)]
mod tests {
    use super::*;
    use crate::judge::judge;
    use crate::sample::{self, Random, SHAPES};

    /// A way goes on with states that fail, by clauses that hold them, and ends
    /// where an entry has no clause or in a loop of rejecting states.
    #[test]
    fn ways_of_random_rules() {
        let mut random = Random::new(1);
        let mut ways = 0;
        for _ in 0..2_000 {
            let (shape, states) = (*random.pick(&SHAPES), random.between(1, 6));
            let rule = sample::rule(&mut random, shape, states, 2);
            let (lead, cycle) = (random.below(4), random.between(1, 4));
            let [lead, cycle] = [lead, cycle].map(|n| sample::letters(&mut random, 2, n));
            let (yes, masks) = judge(&sample::file(&rule), &lead, &cycle, 64).unwrap();
            let judged = Judged {
                rule: &rule,
                letters: [&lead[..], &cycle].concat(),
                lead: lead.len(),
                masks: &masks,
            };
            if yes {
                continue;
            }
            let way = judged.way();
            for (pair, by) in &way.steps {
                assert!(judged.fails(*pair));
                let entry = judged.entry(*pair);
                assert_eq!(entry.len(), by.len());
                for (clause, &by) in entry.iter().zip(by) {
                    assert!(clause >> by & 1 == 1 && judged.fails((judged.next(pair.0), by)));
                }
            }
            match way.end {
                End::NoClause(pair) => assert!(judged.entry(pair).is_empty()),
                End::Waits(_, states, _) => {
                    assert!(states.iter().all(|&q| !judged.accepting(q)))
                }
            }
            ways += 1;
        }
        assert!(ways > 500);
    }
}
