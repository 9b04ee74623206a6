//! Whether one rule is stricter than another: "does every word that rule A
//! accepts pass rule B?"

use std::collections::HashMap;

use crate::build::{reachable, reachable_begun, Macrostate, MACROSTATE_CAP, TRANSITION_CAP};
use crate::graph::{components, path, with_cycle};
use crate::rule::{read, Rule};
use crate::table::Table;
use crate::trim::matter;

/// Codes and transitions.
pub type Slices = (Vec<u64>, Vec<u64>);

/// A lead-in and a cycle of any length.
pub type LongWord = (Vec<u8>, Vec<u8>);

/// What a served call answers and leaves in the rooms.
#[derive(Clone, Debug, PartialEq, Eq)]
pub struct Compared {
    pub a: Slices,
    pub b: Slices,
    /// None for yes, or "a word accepted by A and rejected by B".
    pub word: Option<LongWord>,
}

/// The product of two tables, as far as it is reached: a run of it is a run of
/// either over one word.
struct Product {
    nodes: Vec<(usize, usize)>,
    /// The nodes that each node leads to, and the letters on the way.
    graph: Vec<Vec<usize>>,
    letters: Vec<Vec<u8>>,
    starts: Vec<usize>,
}

impl Product {
    fn new(
        letters: usize,
        [a, b]: [&Table; 2],
        [a_starts, b_starts]: [&[usize]; 2],
        [a_matter, b_matter]: [&[bool]; 2],
    ) -> Self {
        let mut product = Product {
            nodes: Vec::new(),
            graph: Vec::new(),
            letters: Vec::new(),
            starts: Vec::new(),
        };
        let mut number = HashMap::new();
        for &first in a_starts {
            for &second in b_starts {
                if a_matter[first] && b_matter[second] {
                    product.starts.push(product.nodes.len());
                    number.insert((first, second), product.nodes.len());
                    product.nodes.push((first, second));
                }
            }
        }
        let mut node = 0;
        while node < product.nodes.len() {
            let (first, second) = product.nodes[node];
            let (mut targets, mut over) = (Vec::new(), Vec::new());
            for letter in 0..letters {
                for &first in a.targets(first, letter) {
                    for &second in b.targets(second, letter) {
                        if !a_matter[first] || !b_matter[second] {
                            continue;
                        }
                        let next = product.nodes.len();
                        let to = *number.entry((first, second)).or_insert(next);
                        if to == next {
                            product.nodes.push((first, second));
                        }
                        targets.push(to);
                        over.push(letter as u8);
                    }
                }
            }
            product.graph.push(targets);
            product.letters.push(over);
            node += 1;
        }
        product
    }

    /// The letters on a path, and its end.
    fn follow(&self, (start, edges): (usize, Vec<usize>)) -> (Vec<u8>, usize) {
        let mut node = start;
        let mut letters = Vec::new();
        for edge in edges {
            letters.push(self.letters[node][edge]);
            node = self.graph[node][edge];
        }
        (letters, node)
    }
}

/// A word on which both tables have an accepting run from their starts: the
/// lead-in to an A-accepting node of a component that also has a B-accepting
/// one, and round to it by way of such a one.
fn common_word(product: &Product, accepting: impl Fn(usize) -> (bool, bool)) -> Option<LongWord> {
    let component = components(&product.graph);
    let cycle = with_cycle(&product.graph, &component);
    let mut has = vec![(false, false); product.nodes.len()];
    for (node, &number) in component.iter().enumerate() {
        let (a, b) = accepting(node);
        has[number].0 |= a;
        has[number].1 |= b;
    }
    let good = |node: usize| cycle[component[node]] && has[component[node]] == (true, true);
    let goal = |node: usize| good(node) && accepting(node).0;
    let starts = product.starts.iter().copied();
    let (lead, turn) = match starts.clone().find(|&start| goal(start)) {
        Some(start) => (vec![], start),
        None => product.follow(path(&product.graph, starts, |_| true, goal)?),
    };
    let inside = |node: usize| component[node] == component[turn];
    let way = |from: usize, goal: &dyn Fn(usize) -> bool| {
        product.follow(path(&product.graph, [from], inside, goal).unwrap())
    };
    if accepting(turn).1 {
        return Some((lead, way(turn, &|node| node == turn).0));
    }
    let (mut cycle, half) = way(turn, &|node| accepting(node).1);
    cycle.extend(way(half, &|node| node == turn).0);
    Some((lead, cycle))
}

/// Compares two rules of the same s; `rooms` are those of A's codes and
/// transitions, then of B's. 17 and 18 "go by A's reachable table, then B's".
pub fn compare(a: &Rule, b: &Rule, rooms: [usize; 4]) -> Result<Compared, u8> {
    let a_slices = reachable(a, rooms[0], rooms[1])?;
    // "the table of B begun, with K and k 0, from all cores whose set lacks B's
    // initial state": a word has an accepting run there if B rejects it.
    let b_slices = reachable_begun(b, false, rooms[2], rooms[3])?;
    Ok(Compared {
        word: word_of_both([a, b], [&a_slices, &b_slices])?,
        a: a_slices,
        b: b_slices,
    })
}

/// A word with an accepting run in the table of the words that A accepts and one in
/// the table of the words that B rejects, if there is one. Row 15.
pub fn word_of_both(
    [a, b]: [&Rule; 2],
    [a_slices, b_slices]: [&Slices; 2],
) -> Result<Option<LongWord>, u8> {
    let a_table = Table::new(a, &a_slices.0, &a_slices.1)?;
    let b_table = Table::new(b, &b_slices.0, &b_slices.1)?;
    let starts = |table: &Table, rule: &Rule, holding: bool| -> Vec<usize> {
        let begins = |macrostate: &Macrostate| {
            let holds = macrostate.core.set >> rule.initial & 1 == 1;
            macrostate.component == 0 && macrostate.classes == 0 && holds == holding
        };
        let numbers = 0..table.macrostates.len();
        let numbers = numbers.filter(|&number| begins(&table.macrostates[number]));
        numbers.collect()
    };
    let product = Product::new(
        a.letters,
        [&a_table, &b_table],
        [&starts(&a_table, a, true), &starts(&b_table, b, false)],
        [
            &matter(&a_slices.0, &a_slices.1),
            &matter(&b_slices.0, &b_slices.1),
        ],
    );
    Ok(common_word(&product, |node| {
        let (first, second) = product.nodes[node];
        let first = a_table.macrostates[first].is_accepting();
        (first, b_table.macrostates[second].is_accepting())
    }))
}

/// The comparison on files, with rooms of these lengths: the rows of A, those of
/// B, 28, 17 and 18 of A, then of B, and 29.
pub fn stricter(
    a: &[u8],
    b: &[u8],
    rooms: [usize; 4],
    word_room: usize,
    scratch_room: usize,
) -> Result<Compared, u8> {
    let (a, _) = read(a)?;
    let (b, _) = read(b)?;
    // "28, different s, after both rules"
    if a.letters != b.letters {
        return Err(28);
    }
    let caps = [
        MACROSTATE_CAP,
        TRANSITION_CAP,
        MACROSTATE_CAP,
        TRANSITION_CAP,
    ];
    let compared = compare(&a, &b, std::array::from_fn(|i| rooms[i].min(caps[i])))?;
    // "with P the macrostates of A × those of B, the word slice under 3 × P
    // letters or the scratch under P bytes, checked after both builds"
    let p = compared.a.0.len() * compared.b.0.len();
    if word_room < 3 * p || scratch_room < p {
        return Err(29);
    }
    Ok(compared)
}

#[cfg(test)]
mod tests {
    use super::*;
    use crate::build::build;
    use crate::every::words;
    use crate::game::accepts;
    use crate::sample::{self, Random, D, E, F, I, SHAPES, Z};

    const ROOMS: [usize; 4] = [65_536, 1_048_576, 65_536, 1_048_576];

    fn word(a: &[u8], b: &[u8]) -> Option<LongWord> {
        let compared = stricter(a, b, ROOMS, usize::MAX, usize::MAX).unwrap();
        assert_eq!(compared.a, build(a, 65_536, 1_048_576).unwrap());
        let p = compared.a.0.len() * compared.b.0.len();
        if let Some((lead, cycle)) = &compared.word {
            let (a, b) = (read(a).unwrap().0, read(b).unwrap().0);
            assert!(accepts(&a, lead, cycle) && !accepts(&b, lead, cycle));
            assert!(!cycle.is_empty() && lead.len() + cycle.len() <= 3 * p);
        }
        compared.word
    }

    #[test]
    fn examples() {
        // Letter 1 again and again implies letter 1 some time.
        assert_eq!(word(&I, &F), None);
        assert!(word(&F, &I).is_some());
        // Letter 0 for ever is the only word that F rejects.
        let zeros = |word: Option<LongWord>| {
            let (lead, cycle) = word.unwrap();
            lead.iter().chain(&cycle).all(|&letter| letter == 0)
        };
        assert!(zeros(word(&E, &F)));
        assert_eq!(word(&E, &E), None);
        assert!(word(&F, &E).is_some());
        assert_eq!(word(&Z, &Z), None);
        // One that accepts all, of one letter: Z accepts none.
        let all = [0, 1, 1, 1, 0, 0, 1, 0, 0x41, 0x57];
        assert_eq!(word(&Z, &all), None);
        assert!(zeros(word(&all, &Z)));
    }

    #[test]
    fn refused() {
        let all = |a: &[u8], b: &[u8], rooms| stricter(a, b, rooms, usize::MAX, usize::MAX);
        assert_eq!(all(&F, &Z, [0; 4]), Err(28));
        assert_eq!(all(&[0x41, 0x57], &Z, [0; 4]), Err(1));
        assert_eq!(all(&F, &[0x41, 0x57], [0; 4]), Err(1));
        let served = all(&F, &D, ROOMS).unwrap();
        let (m, t) = (served.b.0.len(), served.b.1.len());
        assert!(all(&F, &D, [3, 7, m, t]).is_ok());
        // A's 17 and 18 come before B's.
        assert_eq!(all(&F, &D, [2, 7, m, t]), Err(17));
        assert_eq!(all(&F, &D, [3, 6, m - 1, t]), Err(18));
        assert_eq!(all(&F, &D, [3, 7, m - 1, t - 1]), Err(17));
        assert_eq!(all(&F, &D, [3, 7, m, t - 1]), Err(18));
        let p = 3 * m;
        let last = |word, scratch| stricter(&F, &D, [3, 7, m, t], word, scratch);
        assert!(last(3 * p, p).is_ok());
        assert_eq!(last(3 * p - 1, p), Err(29));
        assert_eq!(last(3 * p, p - 1), Err(29));
        assert_eq!(stricter(&F, &D, [2, 7, m, t], 0, 0), Err(17));
    }

    #[test]
    fn random_rules() {
        let mut random = Random::new(112);
        let all: Vec<_> = (0..3).map(|letters| words(letters, 4, 4)).collect();
        let (mut yes, mut no) = (0, 0);
        while yes + no < 1_500 {
            let alphabet = random.between(1, 2);
            let small = |random: &mut Random| {
                let shape = *random.pick(&SHAPES);
                let states = random.between(1, 4);
                sample::rule(random, shape, states, alphabet)
            };
            let a = small(&mut random);
            let mut b = small(&mut random);
            if random.once_in(3) {
                // B like A but for one entry.
                b = a.clone();
                let entry = small(&mut random).entries[0][0].clone();
                if entry.iter().all(|&clause| clause & !1 == 0) {
                    b.entries[0][0] = entry;
                }
            }
            let Ok(compared) = compare(&a, &b, [400, 4_000, 400, 4_000]) else {
                continue;
            };
            match compared.word {
                Some((lead, cycle)) => {
                    no += 1;
                    assert!(accepts(&a, &lead, &cycle), "{a:?} {b:?}");
                    assert!(!accepts(&b, &lead, &cycle), "{a:?} {b:?}");
                    let p = compared.a.0.len() * compared.b.0.len();
                    assert!(lead.len() + cycle.len() <= 3 * p);
                }
                None => {
                    yes += 1;
                    for [lead, cycle] in &all[alphabet] {
                        let passes = !accepts(&a, lead, cycle) || accepts(&b, lead, cycle);
                        assert!(passes, "{a:?} {b:?} {lead:?} {cycle:?}");
                    }
                }
            }
            // Every rule is as strict as itself.
            if let Ok(compared) = compare(&a, &a, [400, 4_000, 400, 4_000]) {
                assert_eq!(compared.word, None, "{a:?}");
            }
        }
        assert!(yes > 300 && no > 300, "{yes} {no}");
    }
}
