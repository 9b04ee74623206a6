//! The report of the shortest mixed loop, for authors who meet refusal 11.

use crate::rule::{take_apart, Rule};

/// The states that each state leads to in one step, ascending.
pub fn leads_to(rule: &Rule) -> Vec<Vec<usize>> {
    let step = |q: usize| {
        let clauses = rule.entries[q].iter().flatten();
        let mask = clauses.fold(0, |all, clause| all | clause);
        (0..rule.states).filter(|&to| mask >> to & 1 == 1).collect()
    };
    (0..rule.states).map(step).collect()
}

/// Whether a list of states passes an accepting and a rejecting one.
fn passes_both(rule: &Rule, walk: &[usize]) -> bool {
    let accepting = |q: &&usize| rule.accepting >> **q & 1 == 1;
    let accepting = walk.iter().filter(accepting).count();
    accepting != 0 && accepting != walk.len()
}

/// The fewest steps from each state to each other one, or `usize::MAX`.
fn steps(leads: &[Vec<usize>]) -> Vec<Vec<usize>> {
    (0..leads.len())
        .map(|from| {
            let mut steps = vec![usize::MAX; leads.len()];
            steps[from] = 0;
            let mut round = vec![from];
            while !round.is_empty() {
                let mut next = Vec::new();
                for &q in &round {
                    for &to in &leads[q] {
                        if steps[to] == usize::MAX {
                            steps[to] = steps[q] + 1;
                            next.push(to);
                        }
                    }
                }
                round = next;
            }
            steps
        })
        .collect()
}

/// Continues the walk, least states first, to one of `length` steps that closes
/// and passes both kinds; leaves the walk as it was if there is none.
fn close(
    rule: &Rule,
    leads: &[Vec<usize>],
    steps: &[Vec<usize>],
    length: usize,
    walk: &mut Vec<usize>,
) -> bool {
    let last = walk[walk.len() - 1];
    if walk.len() == length {
        return leads[last].contains(&walk[0]) && passes_both(rule, walk);
    }
    for &next in &leads[last] {
        // The way back must fit into the steps that are left.
        if steps[next][walk[0]] <= length - walk.len() {
            walk.push(next);
            if close(rule, leads, steps, length, walk) {
                return true;
            }
            walk.pop();
        }
    }
    false
}

/// "the fewest-step closed walk over leads-to steps that passes an accepting and
/// a rejecting state. Among shortest ones it gives the least list of states,
/// beginning wherever that list is least and compared number by number, its
/// first state not repeated at the end."
///
/// Walks are tried by length, those of one length in the order of their lists.
/// A shortest one passes no state twice, so n steps are enough.
pub fn shortest_mixed_loop(rule: &Rule) -> Option<Vec<usize>> {
    // "A rule without a mixed component answers none."
    if !rule.mixed() {
        return None;
    }
    let leads = leads_to(rule);
    let steps = steps(&leads);
    for length in 2..=rule.states {
        for first in 0..rule.states {
            let mut walk = vec![first];
            if close(rule, &leads, &steps, length, &mut walk) {
                return Some(walk);
            }
        }
    }
    None
}

/// The report on a file: "checks 1 to 10 and 20, not 11; 21 to 23 do not apply
/// to it".
pub fn mixed_loop(file: &[u8]) -> Result<Option<Vec<usize>>, u8> {
    let (rule, _) = take_apart(file)?;
    if rule.nested() {
        return Err(20);
    }
    Ok(shortest_mixed_loop(&rule))
}

#[cfg(test)]
mod tests {
    use super::*;
    use crate::sample::{self, Random, D, E, F, I, Z};
    use crate::tidy::tidy_entry;

    /// A rule over one letter; state q has one clause, the mask `to[q]`.
    fn graph(to: &[u8], accepting: u8) -> Rule {
        Rule {
            states: to.len(),
            letters: 1,
            initial: 0,
            accepting,
            entries: to.iter().map(|&mask| vec![vec![mask]]).collect(),
        }
    }

    #[test]
    fn loops() {
        let find = |to: &[u8], accepting| shortest_mixed_loop(&graph(to, accepting));
        // Row 11's example.
        assert_eq!(find(&[2, 1], 1), Some(vec![0, 1]));
        assert_eq!(find(&[2, 1], 3), None);
        assert_eq!(find(&[2, 1], 0), None);
        // A loop of one state is not mixed, nor is a way without return.
        assert_eq!(find(&[3, 2], 1), None);
        // 0 -> 2 -> 1 -> 0: the list begins at its least place.
        assert_eq!(find(&[4, 1, 2], 2), Some(vec![0, 2, 1]));
        // The least state need not lie on it: 1 <-> 2 beside 0 -> 1.
        assert_eq!(find(&[2, 4, 2], 4), Some(vec![1, 2]));
        // The shorter loop wins over the lesser list: 0 -> 1 -> 2 -> 0 and
        // 2 <-> 3, only 3 accepting; the second is the only mixed one.
        assert_eq!(find(&[2, 4, 9, 4], 8), Some(vec![2, 3]));
        // Both of two steps: 0 <-> 2 and 0 <-> 1 with 0 accepting.
        assert_eq!(find(&[6, 1, 1], 1), Some(vec![0, 1]));
        // A longer loop with the lesser list 0 1 2 loses against 1 3.
        assert_eq!(find(&[2, 12, 1, 2], 2), Some(vec![1, 3]));
        // A walk through states that repeat is never shortest: 0 <-> 1 <-> 2.
        assert_eq!(find(&[2, 5, 2], 4), Some(vec![1, 2]));
        // All eight states.
        let ring: Vec<u8> = (0..8).map(|q| 1 << ((q + 1) % 8)).collect();
        let all = Some(vec![0, 1, 2, 3, 4, 5, 6, 7]);
        assert_eq!(find(&ring, 128), all);
        // Every state leads to every other: many walks, none mixed.
        assert_eq!(find(&[255; 8], 255), None);
    }

    #[test]
    fn files() {
        for rule in [&F[..], &D, &E, &I, &Z] {
            assert_eq!(mixed_loop(rule), Ok(None));
        }
        let mixed = [2, 1, 1, 1, 2, 1, 0, 1, 2, 0, 0x41, 0x57];
        assert_eq!(mixed_loop(&mixed), Ok(Some(vec![0, 1])));
        // Names do not matter here.
        for preface in [&b"NM"[..], b"\x00\x00\x00\x00\x00\x00\x00\x00NM"] {
            let found = mixed_loop(&[preface, &mixed].concat());
            assert_eq!(found, Ok(Some(vec![0, 1])));
            assert_eq!(mixed_loop(&[preface, &F].concat()), Ok(None));
        }
        let nested = [2, 3, 1, 2, 1, 2, 1, 0, 1, 3, 0, 0x41, 0x57];
        assert_eq!(mixed_loop(&nested), Err(20));
        let over = [2, 2, 2, 1, 1, 0, 0, 2, 0, 0x41, 0x57];
        assert_eq!(mixed_loop(&over), Err(10));
        assert_eq!(mixed_loop(&[0x41, 0x57]), Err(1));
    }

    /// The same by writing down every closed walk of up to `most` steps.
    fn by_all_walks(rule: &Rule, most: usize) -> Option<Vec<usize>> {
        let leads = leads_to(rule);
        let mut walks: Vec<Vec<usize>> = (0..rule.states).map(|q| vec![q]).collect();
        for _ in 0..most {
            let closed = |walk: &&Vec<usize>| {
                leads[walk[walk.len() - 1]].contains(&walk[0]) && passes_both(rule, walk)
            };
            if let Some(least) = walks.iter().filter(closed).min() {
                return Some(least.clone());
            }
            let longer = walks.iter().flat_map(|walk| {
                let next = leads[walk[walk.len() - 1]].iter();
                next.map(|&to| [&walk[..], &[to]].concat())
            });
            walks = longer.collect();
        }
        None
    }

    #[test]
    fn random_rules() {
        let mut random = Random::new(31);
        let (mut none, mut lengths) = (0, [0; 9]);
        for _ in 0..20_000 {
            let states = random.between(1, 5);
            let letters = random.between(1, 2);
            let spare = random.between(2, 6);
            let entry = |random: &mut Random| {
                let clause = |random: &mut Random| {
                    let named = (0..states).filter(|_| random.once_in(spare));
                    named.fold(0, |mask, q| mask | 1u8 << q)
                };
                let clauses: Vec<u8> = (0..random.below(3)).map(|_| clause(random)).collect();
                tidy_entry(&clauses)
            };
            let mut entries = vec![vec![Vec::new(); letters]; states];
            for place in entries.iter_mut().flatten() {
                *place = entry(&mut random);
            }
            let rule = Rule {
                states,
                letters,
                initial: 0,
                accepting: random.byte() & ((1 << states) - 1),
                entries,
            };
            let found = mixed_loop(&sample::file(&rule)).unwrap();
            assert_eq!(found, by_all_walks(&rule, 7), "{rule:?}");
            // None exactly without a mixed component.
            assert_eq!(found.is_some(), rule.mixed(), "{rule:?}");
            match found {
                None => none += 1,
                Some(walk) => lengths[walk.len()] += 1,
            }
        }
        assert!(none > 5_000 && lengths[2] > 1_000, "{none} {lengths:?}");
        assert!(lengths[3] > 100 && lengths[4] > 10, "{none} {lengths:?}");
    }
}
