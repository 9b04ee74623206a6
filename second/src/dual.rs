//! The dual of a rule, which accepts exactly the words that the rule rejects: an
//! accepting state is rejecting in it and the other way round, and where one who
//! picks clauses had the choice the other has it now.

use crate::rule::Rule;

/// The clauses of the dual entry: the smallest sets that meet every clause.
fn dual_entry(all: u8, clauses: &[u8]) -> Vec<u8> {
    let meets = |set: &u8| clauses.iter().all(|clause| clause & set != 0);
    let sets: Vec<u8> = (0..=all)
        .filter(|set| set & !all == 0)
        .filter(meets)
        .collect();
    let within = |one: u8, other: u8| one != other && one & other == one;
    let smallest = sets
        .iter()
        .filter(|&&set| !sets.iter().any(|&other| within(other, set)));
    smallest.copied().collect()
}

/// The dual rule. An entry of it may have more than 8 clauses, which no file holds.
pub fn dual(rule: &Rule) -> Rule {
    let mut dual = rule.clone();
    dual.accepting = rule.all() & !rule.accepting;
    for clauses in dual.entries.iter_mut().flatten() {
        *clauses = dual_entry(rule.all(), clauses);
    }
    dual
}

#[cfg(test)]
mod tests {
    use super::*;
    use crate::build::reachable_begun;
    use crate::game::accepts;
    use crate::sample::{self, letters, Random, SHAPES};

    #[test]
    fn entries() {
        // Never met, always met, one clause, two.
        assert_eq!(dual_entry(7, &[]), [0]);
        assert_eq!(dual_entry(7, &[0]), []);
        assert_eq!(dual_entry(7, &[6]), [2, 4]);
        assert_eq!(dual_entry(7, &[1, 6]), [3, 5]);
    }

    /// The words that a rule rejects are those that its dual accepts, and the
    /// table of the ones has as many macrostates and transitions as that of the
    /// others: sets turn into what they leave out, open states stay open.
    #[test]
    fn random_rules() {
        let mut random = Random::new(171);
        let mut yes = 0;
        for _ in 0..2_000 {
            let shape = *random.pick(&SHAPES);
            let (states, alphabet) = (random.between(1, 5), random.between(1, 3));
            let rule = sample::rule(&mut random, shape, states, alphabet);
            let dual = dual(&rule);
            for _ in 0..4 {
                let (lead, cycle) = (random.between(0, 6), random.between(1, 6));
                let lead = letters(&mut random, alphabet, lead);
                let cycle = letters(&mut random, alphabet, cycle);
                let accepted = accepts(&rule, &lead, &cycle);
                assert_eq!(accepts(&dual, &lead, &cycle), !accepted, "{rule:?}");
                yes += usize::from(accepted);
            }
            for holding in [true, false] {
                let counts = |rule, holding| {
                    let table = reachable_begun(rule, holding, 2_000, 20_000);
                    table.map(|(codes, transitions)| (codes.len(), transitions.len()))
                };
                assert_eq!(counts(&rule, holding), counts(&dual, !holding), "{rule:?}");
            }
        }
        assert!((2_000..6_000).contains(&yes), "{yes}");
    }
}
