//! How many accepting runs a table has over a word, and whether any endless
//! sequence of letters has two.

use std::collections::HashMap;
use std::fmt;

use crate::graph::{components, reached, turned, with_cycle};
use crate::table::Table;
use crate::word::Word;

/// How many accepting runs there are.
#[derive(Clone, Copy, Debug, PartialEq, Eq)]
pub enum Runs {
    None,
    One,
    More,
}

impl fmt::Display for Runs {
    fn fmt(&self, out: &mut fmt::Formatter) -> fmt::Result {
        out.write_str(match self {
            Runs::None => "none",
            Runs::One => "one",
            Runs::More => "more than one",
        })
    }
}

/// A table whose runs are counted, with the macrostates where they begin.
pub struct Counted {
    letters: usize,
    accepting: Vec<bool>,
    starts: Vec<usize>,
    /// By letter, then macrostate: the targets, and the sources.
    next: Vec<Vec<Vec<usize>>>,
    before: Vec<Vec<Vec<usize>>>,
}

impl Counted {
    pub fn new(table: &Table, letters: usize, starts: Vec<usize>) -> Self {
        let count = table.macrostates.len();
        let mut counted = Counted {
            letters,
            accepting: table.macrostates.iter().map(|m| m.is_accepting()).collect(),
            starts,
            next: vec![vec![Vec::new(); count]; letters],
            before: vec![vec![Vec::new(); count]; letters],
        };
        for letter in 0..letters {
            for source in 0..count {
                for &target in table.targets(source, letter) {
                    counted.next[letter][source].push(target);
                    counted.before[letter][target].push(source);
                }
            }
        }
        counted
    }

    /// How many accepting runs there are over a word, counted up to two.
    ///
    /// A node is a macrostate at a place. A run is an endless path of nodes from a
    /// start at place 0, and every such path is a run, so runs that differ at a
    /// step are paths that differ at a node. Call a node live if some endless
    /// path from it comes to accepting macrostates again and again. What is left
    /// of an accepting run after any step is such a path, so all its nodes are
    /// live, and accepting runs are paths over live nodes from live starts.
    ///
    /// Without a live start there is none. Two live starts each begin an
    /// accepting run. If a live node that such a path comes to has two live nodes
    /// next, either goes on to an accepting run: what came before does not
    /// matter to acceptance, and the two differ at this step. So there is more
    /// than one. Otherwise there is one live start and, at every node that is
    /// come to, one live node next (a live node has one): these make one endless
    /// path, and no other can be an accepting run. The live start begins one, so
    /// it is this.
    pub fn runs(&self, word: &Word) -> Runs {
        let live = self.live(word);
        let count = self.accepting.len();
        let mut starts = self.starts.iter().filter(|&&start| live[start]);
        let Some(&start) = starts.next() else {
            return Runs::None;
        };
        if starts.next().is_some() {
            return Runs::More;
        }
        let mut come_to = vec![false; live.len()];
        let (mut number, mut place) = (start, 0);
        while !std::mem::replace(&mut come_to[place * count + number], true) {
            let targets = self.next[word.letter(place)][number].iter();
            place = word.following(place);
            let mut targets = targets.filter(|&&target| live[place * count + target]);
            number = *targets.next().expect("a live node has a live node next");
            if targets.next().is_some() {
                return Runs::More;
            }
        }
        Runs::One
    }

    /// Which nodes are live, node place × macrostates + macrostate. Round by
    /// round only those stay that come, by one step or more, to an accepting one
    /// that is still there; where all stay, each can do so again and again.
    fn live(&self, word: &Word) -> Vec<bool> {
        let count = self.accepting.len();
        let mut live = vec![true; word.places() * count];
        loop {
            let mut comes = vec![false; live.len()];
            let accepting = (0..live.len()).filter(|&node| live[node]);
            let mut waiting: Vec<usize> = accepting
                .filter(|node| self.accepting[node % count])
                .collect();
            while let Some(node) = waiting.pop() {
                let place = node / count;
                for earlier in 0..word.places() {
                    if word.following(earlier) != place {
                        continue;
                    }
                    for source in &self.before[word.letter(earlier)][node % count] {
                        let from = earlier * count + source;
                        if !comes[from] {
                            comes[from] = true;
                            waiting.push(from);
                        }
                    }
                }
            }
            if comes == live {
                return live;
            }
            live = comes;
        }
    }

    /// Whether some endless sequence of letters, with a cycle or without, has two
    /// accepting runs that differ at a step.
    ///
    /// At the step where they differ they stand at two macrostates that the
    /// starts reach over the same letters, and what is left of them are two
    /// accepting paths over the same letters. So it is asked whether two
    /// different macrostates are reached from two starts in step from where two
    /// paths in step both accept; that is where they reach, in step, pairs that
    /// reach each other, one of them with its first macrostate accepting and one
    /// with its second. Of two paths in step that both accept, the pairs that
    /// come again and again are such.
    pub fn two_runs(&self) -> bool {
        let mut number = HashMap::new();
        let mut pairs = Vec::new();
        for &one in &self.starts {
            for &other in &self.starts {
                number.insert((one, other), pairs.len());
                pairs.push((one, other));
            }
        }
        let mut graph: Vec<Vec<usize>> = Vec::new();
        while graph.len() < pairs.len() {
            let (one, other) = pairs[graph.len()];
            let mut targets = Vec::new();
            for letter in 0..self.letters {
                for &one in &self.next[letter][one] {
                    for &other in &self.next[letter][other] {
                        let new = pairs.len();
                        let to = *number.entry((one, other)).or_insert(new);
                        if to == new {
                            pairs.push((one, other));
                        }
                        targets.push(to);
                    }
                }
            }
            graph.push(targets);
        }
        let component = components(&graph);
        let cycle = with_cycle(&graph, &component);
        let mut has = vec![(false, false); pairs.len()];
        for (pair, &(one, other)) in pairs.iter().enumerate() {
            has[component[pair]].0 |= self.accepting[one];
            has[component[pair]].1 |= self.accepting[other];
        }
        let both = |pair: &usize| cycle[component[*pair]] && has[component[*pair]] == (true, true);
        let both: Vec<usize> = (0..pairs.len()).filter(both).collect();
        let accepts = reached(&turned(&graph), both);
        (0..pairs.len()).any(|pair| accepts[pair] && pairs[pair].0 != pairs[pair].1)
    }
}

#[cfg(test)]
mod tests {
    use super::*;
    use crate::build::reachable_begun;
    use crate::every::sequences;
    use crate::game;
    use crate::rule::read;
    use crate::sample::{self, Random, F, SHAPES};

    /// A table over the two letters of F with these codes and steps.
    fn table(codes: &[u64], steps: &[(u64, u64, u64)]) -> Counted {
        let (rule, _) = read(&F).unwrap();
        let steps = steps.iter();
        let mut transitions: Vec<u64> = steps.map(|&(m, a, t)| m << 24 | a << 16 | t).collect();
        transitions.sort_unstable();
        let table = Table::new(&rule, codes, &transitions).unwrap();
        let starts = (0..codes.len()).filter(|&m| table.macrostates[m].is_initial(&rule));
        Counted::new(&table, 2, starts.collect())
    }

    const REJECTING: u64 = 1 << 44;

    fn runs(counted: &Counted, lead: &[u8], cycle: &[u8]) -> Runs {
        counted.runs(&Word { lead, cycle })
    }

    #[test]
    fn examples() {
        // Two starts that both stay over 0: two runs, one over 1 then 0.
        let two = table(&[1, 3], &[(0, 0, 0), (1, 0, 1), (0, 1, 0)]);
        assert_eq!(runs(&two, &[], &[0]), Runs::More);
        assert_eq!(runs(&two, &[1], &[0]), Runs::One);
        assert_eq!(runs(&two, &[0], &[1]), Runs::One);
        assert!(two.two_runs());
        // A choice of two ways that meet again.
        let codes = [1, REJECTING, REJECTING + 1];
        let ways = [(0, 0, 1), (0, 0, 2), (1, 1, 0), (2, 1, 0)];
        assert_eq!(runs(&table(&codes, &ways), &[], &[0, 1]), Runs::More);
        assert_eq!(runs(&table(&codes, &ways), &[], &[0]), Runs::None);
        assert!(table(&codes, &ways).two_runs());
        // One of the two ways is no way on.
        let ways = [(0, 0, 1), (0, 0, 2), (1, 1, 0), (2, 1, 2)];
        assert_eq!(runs(&table(&codes, &ways), &[], &[0, 1]), Runs::One);
        assert!(!table(&codes, &ways).two_runs());
        // Accepting, then rejecting for ever: a run, but no accepting one.
        let ends = table(&[1, REJECTING], &[(0, 0, 1), (1, 0, 1)]);
        assert_eq!(runs(&ends, &[], &[0]), Runs::None);
        // Two runs that leave a common one sooner or later: only a word that
        // does not end in 0 for ever has one alone.
        let leave = [(0, 0, 0), (0, 1, 0), (0, 0, 1), (1, 0, 1)];
        let leave = table(&[1, 2], &leave);
        assert_eq!(runs(&leave, &[], &[0]), Runs::More);
        assert_eq!(runs(&leave, &[], &[0, 1]), Runs::One);
        assert!(leave.two_runs());
    }

    /// What the second program builds, and the same with a transition more: both
    /// counts say the same of it.
    #[test]
    fn random_rules() {
        let mut random = Random::new(151);
        let words: Vec<_> = (0..3).map(|letters| sequences(letters, 3, 3)).collect();
        let (mut one, mut none, mut more, mut two) = (0, 0, 0, 0);
        for _ in 0..400 {
            let shape = *random.pick(&SHAPES);
            let (states, letters) = (random.between(1, 4), random.between(1, 2));
            let rule = sample::rule(&mut random, shape, states, letters);
            let holding = random.once_in(2);
            let built = reachable_begun(&rule, holding, 150, 3_000);
            let Ok((codes, mut transitions)) = built else {
                continue;
            };
            let starts: Vec<usize> = {
                let table = Table::new(&rule, &codes, &transitions).unwrap();
                let own = table.macrostates.iter().enumerate();
                let own = own.filter(|(_, m)| m.component == 0 && m.classes == 0);
                let own = own.filter(|(_, m)| (m.core.set >> rule.initial & 1 == 1) == holding);
                own.map(|(number, _)| number).collect()
            };
            let spoilt = random.once_in(2);
            if spoilt && !codes.is_empty() {
                let (source, target) = (random.below(codes.len()), random.below(codes.len()));
                let letter = random.below(letters) as u64;
                transitions.push((source as u64) << 24 | letter << 16 | target as u64);
                transitions.sort_unstable();
                transitions.dedup();
            }
            let table = Table::new(&rule, &codes, &transitions).unwrap();
            let counted = Counted::new(&table, letters, starts);
            let two_runs = counted.two_runs();
            two += usize::from(two_runs);
            assert!(spoilt || !two_runs, "{rule:?}");
            for [lead, cycle] in &words[letters] {
                let runs = counted.runs(&Word { lead, cycle });
                assert!(runs != Runs::More || two_runs, "{rule:?}");
                if !spoilt {
                    let yes = game::accepts(&rule, lead, cycle) == holding;
                    assert_eq!(runs == Runs::One, yes, "{rule:?} {lead:?} {cycle:?}");
                }
                *match runs {
                    Runs::None => &mut none,
                    Runs::One => &mut one,
                    Runs::More => &mut more,
                } += 1;
            }
        }
        assert!(one > 3_000 && none > 3_000 && more > 300 && two > 30);
    }
}
