//! A second judge of words on the rule, by another method than the first: a game
//! between one who picks clauses and one who picks states of them, decided by
//! attractors over all pairs at once. Components play no part in it. It judges
//! words of any length.

use crate::rule::{read, Rule};
use crate::word::Word;

/// The two players: one picks a clause at a pair, the other a state at a clause.
#[derive(Clone, Copy, Debug, PartialEq, Eq)]
enum Player {
    Clause,
    State,
}

/// The nodes that each node leads to: where its list begins, and all lists one
/// after the other, so that long words have room.
struct Edges {
    begins: Vec<usize>,
    nodes: Vec<u32>,
}

impl Edges {
    fn of(&self, node: usize) -> impl Iterator<Item = usize> + '_ {
        let nodes = &self.nodes[self.begins[node]..self.begins[node + 1]];
        nodes.iter().map(|&to| to as usize)
    }

    /// Every edge the other way.
    fn turned(&self) -> Edges {
        let count = self.begins.len() - 1;
        let mut begins = vec![0; count + 1];
        for &to in &self.nodes {
            begins[to as usize + 1] += 1;
        }
        for node in 0..count {
            begins[node + 1] += begins[node];
        }
        let mut place = begins.clone();
        let mut nodes = vec![0; self.nodes.len()];
        for from in 0..count {
            for to in self.of(from) {
                nodes[place[to]] = from as u32;
                place[to] += 1;
            }
        }
        Edges { begins, nodes }
    }
}

/// A game board on which every node leads somewhere. The player of clauses wins
/// if accepting nodes come again and again.
struct Board {
    turn: Vec<Player>,
    accepting: Vec<bool>,
    next: Edges,
    before: Edges,
}

impl Board {
    /// The board of a rule on a word: first the pairs, pair (q, place) being node
    /// place × n + q, then where a pair without a clause leads and where an empty
    /// clause does, then the clauses of every pair in turn.
    fn new(rule: &Rule, word: &Word) -> Self {
        let pairs = word.places() * rule.states;
        let (lost, won) = (pairs, pairs + 1);
        let mut accepting = Vec::with_capacity(pairs + 2);
        let (mut begins, mut nodes) = (vec![0], Vec::new());
        // The number of the clause that comes next.
        let mut clause = pairs + 2;
        for place in 0..word.places() {
            for q in 0..rule.states {
                accepting.push(rule.accepting >> q & 1 == 1);
                let count = rule.entries[q][word.letter(place)].len();
                match count {
                    0 => nodes.push(lost as u32),
                    _ => nodes.extend((clause..clause + count).map(|node| node as u32)),
                }
                clause += count;
                begins.push(nodes.len());
            }
        }
        assert!(u32::try_from(clause).is_ok(), "a board of {clause} nodes");
        for (node, stays) in [(lost, false), (won, true)] {
            accepting.push(stays);
            nodes.push(node as u32);
            begins.push(nodes.len());
        }
        for place in 0..word.places() {
            let following = word.following(place) * rule.states;
            for q in 0..rule.states {
                for &clause in &rule.entries[q][word.letter(place)] {
                    if clause == 0 {
                        nodes.push(won as u32);
                    }
                    let named = (0..rule.states).filter(|to| clause >> to & 1 == 1);
                    nodes.extend(named.map(|to| (following + to) as u32));
                    begins.push(nodes.len());
                }
            }
        }
        accepting.resize(clause, false);
        let mut turn = vec![Player::Clause; pairs + 2];
        turn.resize(clause, Player::State);
        let next = Edges { begins, nodes };
        Board {
            turn,
            accepting,
            before: next.turned(),
            next,
        }
    }

    /// The nodes on the board that is left from where a player can force the
    /// play into a goal, in zero steps or more.
    fn attractor(&self, player: Player, goals: &[bool], left: &[bool]) -> Vec<bool> {
        let mut drawn = goals.to_vec();
        let mut waiting: Vec<usize> = (0..drawn.len()).filter(|&node| drawn[node]).collect();
        // How many ways out of a node are not drawn yet.
        let nodes = 0..drawn.len();
        let mut ways: Vec<u32> = nodes
            .map(|node| self.next.of(node).filter(|&to| left[to]).count() as u32)
            .collect();
        while let Some(node) = waiting.pop() {
            for from in self.before.of(node).filter(|&from| left[from]) {
                ways[from] -= 1;
                if !drawn[from] && (self.turn[from] == player || ways[from] == 0) {
                    drawn[from] = true;
                    waiting.push(from);
                }
            }
        }
        drawn
    }

    /// The nodes from where the player of clauses wins: nodes from where no
    /// accepting one can be forced are lost, and so are those from where the
    /// other forces the play into them; what is left is played again.
    fn won(&self) -> Vec<bool> {
        let mut left = vec![true; self.turn.len()];
        loop {
            let nodes = 0..left.len();
            let goals: Vec<bool> = nodes
                .map(|node| left[node] && self.accepting[node])
                .collect();
            let forced = self.attractor(Player::Clause, &goals, &left);
            let nodes = 0..left.len();
            let lost: Vec<bool> = nodes.map(|node| left[node] && !forced[node]).collect();
            if !lost.contains(&true) {
                return left;
            }
            let gone = self.attractor(Player::State, &lost, &left);
            for (left, gone) in left.iter_mut().zip(gone) {
                *left &= !gone;
            }
        }
    }
}

/// Per place, the mask of the states that the rule accepts from there.
pub fn masks(rule: &Rule, word: &Word) -> Vec<u8> {
    let won = Board::new(rule, word).won();
    let pairs = won[..word.places() * rule.states].chunks(rule.states);
    pairs
        .map(|place| {
            let states = (0..rule.states).filter(|&q| place[q]);
            states.fold(0, |mask, q| mask | 1 << q)
        })
        .collect()
}

/// Whether a rule accepts a word of any length over its letters.
pub fn accepts(rule: &Rule, lead: &[u8], cycle: &[u8]) -> bool {
    masks(rule, &Word { lead, cycle })[0] >> rule.initial & 1 == 1
}

/// The judge by this method, on a file: the rule's rows, 12 to 14, then 16.
pub fn judge(file: &[u8], lead: &[u8], cycle: &[u8], room: usize) -> Result<(bool, Vec<u8>), u8> {
    let (rule, _) = read(file)?;
    let word = Word::of_rule(&rule, lead, cycle)?;
    if room < word.places() {
        return Err(16);
    }
    let masks = masks(&rule, &word);
    Ok((masks[0] >> rule.initial & 1 == 1, masks))
}

#[cfg(test)]
mod tests {
    use super::*;
    use crate::judge::{self, accepting_masks};
    use crate::sample::{self, Random, D, E, F, I, SHAPES, Z};
    use crate::{long, plans};

    #[test]
    fn examples() {
        let words: [(&[u8], &[u8]); 5] = [
            (&[0, 1], &[0]),
            (&[], &[0]),
            (&[1], &[0]),
            (&[], &[0, 1]),
            (&[0], &[1]),
        ];
        for rule in [&F[..], &D, &E, &I] {
            for (lead, cycle) in words {
                let first = judge::judge(rule, lead, cycle, 9);
                assert_eq!(judge(rule, lead, cycle, 9), first);
            }
        }
        assert_eq!(judge(&Z, &[], &[0], 1), Ok((false, vec![0])));
        assert_eq!(judge(&F, &[0, 1], &[0], 3), Ok((true, vec![1, 1, 0])));
        assert_eq!(judge(&F, &[0, 1], &[0], 2), Err(16));
        assert_eq!(judge(&F, &[0, 2], &[0], 2), Err(14));
        assert_eq!(judge(&F, &[0, 2], &[], 2), Err(12));
        assert_eq!(judge(&[0x41, 0x57], &[0, 2], &[], 2), Err(1));
    }

    /// Words of any length, beside the other judge of such words.
    #[test]
    fn long_words() {
        let rule = |file: &[u8]| read(file).unwrap().0;
        let mut lead = vec![0; 100_000];
        assert!(!accepts(&rule(&F), &lead, &[0]));
        lead.push(1);
        assert!(accepts(&rule(&F), &lead, &[0]));
        assert!(!accepts(&rule(&I), &lead, &[0]));
        assert!(accepts(&rule(&I), &[], &lead));
        let mut random = Random::new(133);
        let (mut yes, mut no) = (0, 0);
        for _ in 0..1_000 {
            let shape = *random.pick(&SHAPES);
            let (states, alphabet) = (random.between(1, 8), random.between(1, 3));
            let rule = sample::rule(&mut random, shape, states, alphabet);
            let (lead, cycle) = (random.between(0, 400), random.between(1, 400));
            let lead = sample::letters(&mut random, alphabet, lead);
            let cycle = sample::letters(&mut random, alphabet, cycle);
            let (lead, cycle) = (&lead[..], &cycle[..]);
            let word = Word { lead, cycle };
            assert_eq!(masks(&rule, &word), long::masks(&rule, &word), "{rule:?}");
            let accepted = accepts(&rule, lead, cycle);
            assert_eq!(accepted, long::accepts(&rule, lead, cycle));
            *(if accepted { &mut yes } else { &mut no }) += 1;
        }
        assert!(yes > 200 && no > 200, "{yes} {no}");
    }

    #[test]
    fn both_judges() {
        let mut random = Random::new(131);
        let (mut yes, mut no) = (0, 0);
        for round in 0..40_000 {
            let shape = *random.pick(&SHAPES);
            let (states, alphabet) = (random.between(1, 8), random.between(1, 4));
            let rule = if random.once_in(2) {
                sample::rule(&mut random, shape, states, alphabet)
            } else {
                sample::nested_rule(&mut random, shape, states, alphabet)
            };
            let longest = if round % 100 == 0 { 32 } else { 6 };
            let (lead, cycle) = (random.between(0, longest), random.between(1, longest));
            let lead = sample::letters(&mut random, alphabet, lead);
            let cycle = sample::letters(&mut random, alphabet, cycle);
            let word = Word::of_rule(&rule, &lead, &cycle).unwrap();
            let found = masks(&rule, &word);
            assert_eq!(found, accepting_masks(&rule, &word), "{rule:?} {word:?}");
            let ones: u32 = found.iter().map(|mask| mask.count_ones()).sum();
            yes += ones as usize;
            no += word.places() * states - ones as usize;
        }
        assert!(yes > 200_000 && no > 200_000, "{yes} {no}");
    }

    /// Up to 4 states and 6 pairs: every plan.
    #[test]
    fn game_and_plans() {
        let mut random = Random::new(132);
        for _ in 0..20_000 {
            let shape = *random.pick(&SHAPES);
            let (states, alphabet) = (random.between(1, 4), random.between(1, 2));
            let rule = sample::rule(&mut random, shape, states, alphabet);
            let places = random.between(1, 6 / states.max(2));
            let lead = random.below(places);
            let letters = sample::letters(&mut random, alphabet, places);
            let word = Word::of_rule(&rule, &letters[..lead], &letters[lead..]).unwrap();
            for (place, mask) in masks(&rule, &word).into_iter().enumerate() {
                for q in 0..states {
                    let accepts = plans::accepts(&rule, &word, (q, place));
                    assert_eq!(mask >> q & 1 == 1, accepts, "{rule:?} {word:?}");
                }
            }
        }
    }
}
