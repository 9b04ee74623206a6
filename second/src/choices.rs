//! Which clause carried the verdict.

use crate::judge::accepting_masks;
use crate::rule::{read, Rule};
use crate::word::Word;

/// What a false pair gets.
pub const FALSE: u8 = 255;

/// The distance of every true pair with a rejecting state, by place, then
/// state; none for the others. `masks` are the judge's.
///
/// "Distance is the least d such that some accepting plan from the pair has left
/// the component on all its paths after d steps; an empty clause leaves it in
/// one step." A pair whose plan takes a clause has left one step after the
/// clause's states of the component have, so round d finds the pairs of
/// distance d.
pub fn distances(rule: &Rule, word: &Word, masks: &[u8]) -> Vec<Vec<Option<usize>>> {
    let component = component_of_each(rule);
    let mut distances = vec![vec![None; rule.states]; word.places()];
    for d in 1.. {
        let before = distances.clone();
        for place in 0..word.places() {
            let following = word.following(place);
            for q in 0..rule.states {
                if !is_true(masks, place, q)
                    || rule.accepting >> q & 1 == 1
                    || before[place][q].is_some()
                {
                    continue;
                }
                let clauses = &rule.entries[q][word.letter(place)];
                let leaves = clauses.iter().any(|&clause| {
                    states(clause).all(|to| {
                        is_true(masks, following, to)
                            && (component[to] != component[q] || before[following][to].is_some())
                    })
                });
                if leaves {
                    distances[place][q] = Some(d);
                }
            }
        }
        if distances == before {
            break;
        }
    }
    distances
}

/// For every place, then state, the number of the clause that the judge names.
pub fn choices(rule: &Rule, word: &Word, masks: &[u8]) -> Vec<u8> {
    let component = component_of_each(rule);
    let distances = distances(rule, word, masks);
    let mut choices = Vec::new();
    for place in 0..word.places() {
        let following = word.following(place);
        for q in 0..rule.states {
            // "False pairs get 255."
            if !is_true(masks, place, q) {
                choices.push(FALSE);
                continue;
            }
            let clauses = &rule.entries[q][word.letter(place)];
            let chosen = clauses.iter().position(|&clause| {
                // "the first clause whose states are all true at the next place"
                states(clause).all(|to| is_true(masks, following, to))
                    // "and, within the component, have a smaller distance"
                    && (rule.accepting >> q & 1 == 1
                        || states(clause)
                            .filter(|&to| component[to] == component[q])
                            .all(|to| distances[following][to] < distances[place][q]))
            });
            choices.push(chosen.expect("a true pair has a clause") as u8);
        }
    }
    choices
}

fn component_of_each(rule: &Rule) -> Vec<usize> {
    let components = rule.components();
    let holds = |q| components.iter().position(|k| k.states.contains(&q));
    (0..rule.states).map(|q| holds(q).unwrap()).collect()
}

fn is_true(masks: &[u8], place: usize, q: usize) -> bool {
    masks[place] >> q & 1 == 1
}

fn states(clause: u8) -> impl Iterator<Item = usize> {
    (0..8).filter(move |q| clause >> q & 1 == 1)
}

/// What the judge with choices answers, and what it writes to its two slices.
#[derive(Clone, Debug, PartialEq, Eq)]
pub struct Judged {
    pub yes: bool,
    pub masks: Vec<u8>,
    pub choices: Vec<u8>,
}

/// The judge that "writes for each true pair a clause number, 0 for the entry's
/// first, at byte place × n + state of a second slice". The rule's rows, 12 to
/// 14, then 16 for either slice.
pub fn judge_choices(
    file: &[u8],
    lead: &[u8],
    cycle: &[u8],
    masks_room: usize,
    choices_room: usize,
) -> Result<Judged, u8> {
    let (rule, _) = read(file)?;
    let word = Word::of_rule(&rule, lead, cycle)?;
    if masks_room < word.places() || choices_room < word.places() * rule.states {
        return Err(16);
    }
    let masks = accepting_masks(&rule, &word);
    Ok(Judged {
        yes: masks[0] >> rule.initial & 1 == 1,
        choices: choices(&rule, &word, &masks),
        masks,
    })
}

#[cfg(test)]
mod tests {
    use std::collections::BTreeMap;

    use super::*;
    use crate::judge::judge;
    use crate::plans::{self, reached_from, rejecting_pair_on_cycle};
    use crate::sample::{self, Random, D, F, I, SHAPES};

    #[test]
    fn examples() {
        let judge = |rule: &[u8], lead: &[u8], cycle: &[u8]| {
            let judged = judge_choices(rule, lead, cycle, 64, 512).unwrap();
            (judged.masks, judged.choices)
        };
        assert_eq!(judge(&F, &[0, 1], &[0]), (vec![1, 1, 0], vec![0, 0, 255]));
        assert_eq!(judge(&I, &[1], &[0]), (vec![2, 0], vec![255, 0, 255, 255]));
        assert_eq!(judge(&I, &[], &[0, 1]), (vec![3, 3], vec![0; 4]));
        assert_eq!(judge(&D, &[], &[0]), (vec![3], vec![0, 0]));
        assert_eq!(judge_choices(&F, &[0], &[0], 1, 9), Err(16));
        assert_eq!(judge_choices(&F, &[0], &[0], 9, 1), Err(16));
        assert!(judge_choices(&F, &[0], &[0], 2, 2).is_ok());
        assert_eq!(judge_choices(&D, &[], &[0], 1, 1), Err(16));
        assert_eq!(judge_choices(&F, &[2], &[0], 0, 0), Err(14));
    }

    /// One letter, cycle 0. State 0 (rejecting) may stay where it is or go on
    /// to state 1, which is done: the first clause is met but never leaves.
    #[test]
    fn a_clause_that_never_leaves() {
        let rule = [1, 2, 0, 2, 1, 2, 1, 0, 0, 3, 0, 0x41, 0x57];
        let judged = judge_choices(&rule, &[], &[0], 1, 2).unwrap();
        assert_eq!(judged.choices, [1, 0]);
        // Accepting, it stays.
        let rule = [1, 2, 0, 2, 1, 2, 1, 0, 3, 3, 0, 0x41, 0x57];
        let judged = judge_choices(&rule, &[], &[0], 1, 2).unwrap();
        assert_eq!(judged.choices, [0, 0]);
    }

    /// Rejecting states 0, 1, 2 in one component, one letter. 0: {1} or {2};
    /// 1: {2} or {0}; 2: {3} or {0, 1}; 3 is done.
    #[test]
    fn distances_of_a_component() {
        let rule = [
            2, 4, 4, 1, 8, 3, 0, 2, 2, 2, 1, 4, 1, 0, 0, 7, 0, 0x41, 0x57,
        ];
        let (read, _) = read(&rule).unwrap();
        let word = Word::of_rule(&read, &[], &[0]).unwrap();
        let masks = accepting_masks(&read, &word);
        let found = distances(&read, &word, &masks);
        assert_eq!(found, [[Some(2), Some(2), Some(1), Some(1)]]);
        // 0 passes over its first clause: 1 is as far away as itself.
        let judged = judge_choices(&rule, &[], &[0], 1, 4).unwrap();
        assert_eq!(judged.choices, [1, 0, 0, 0]);
    }

    #[test]
    fn distances_by_every_plan() {
        let mut random = Random::new(41);
        let (mut far, mut passed_over) = (0, 0);
        for _ in 0..20_000 {
            let shape = *random.pick(&SHAPES);
            let (states, alphabet) = (random.between(1, 3), random.between(1, 2));
            let mut rule = sample::rule(&mut random, shape, states, alphabet);
            if random.once_in(2) {
                rule.accepting = 0;
            }
            let (lead, cycle) = (random.between(0, 1), random.between(1, 2));
            let lead = sample::letters(&mut random, alphabet, lead);
            let cycle = sample::letters(&mut random, alphabet, cycle);
            let word = Word::of_rule(&rule, &lead, &cycle).unwrap();
            let masks = accepting_masks(&rule, &word);
            let expected = plans::distances(&rule, &word);
            far += expected.iter().flatten().filter(|&&d| d > Some(2)).count();
            let found = distances(&rule, &word, &masks);
            assert_eq!(found, expected, "{rule:?} {word:?}");
            let chosen = choices(&rule, &word, &masks);
            assert_eq!(
                chosen,
                plans::choices(&rule, &word, &plans::masks(&rule, &word))
            );
            passed_over += chosen.iter().filter(|&&c| c != 0 && c != FALSE).count();
        }
        assert!(far > 300 && passed_over > 1_000, "{far} {passed_over}");
    }

    /// "The written choices must form an accepting plan from every true pair."
    #[test]
    fn choices_form_accepting_plans() {
        let mut random = Random::new(42);
        let mut pairs = 0;
        for _ in 0..4_000 {
            let shape = *random.pick(&SHAPES);
            let (states, alphabet) = (random.between(1, 8), random.between(1, 4));
            let rule = sample::rule(&mut random, shape, states, alphabet);
            let (lead, cycle) = (random.between(0, 4), random.between(1, 4));
            let lead = sample::letters(&mut random, alphabet, lead);
            let cycle = sample::letters(&mut random, alphabet, cycle);
            let word = Word::of_rule(&rule, &lead, &cycle).unwrap();
            let file = sample::file(&rule);
            let judged = judge_choices(&file, &lead, &cycle, 64, 512).unwrap();
            let alone = judge(&file, &lead, &cycle, 64).unwrap();
            assert_eq!((judged.yes, &judged.masks), (alone.0, &alone.1));
            for (place, mask) in judged.masks.iter().enumerate() {
                for q in 0..states {
                    let named = judged.choices[place * states + q];
                    assert_eq!(named == FALSE, mask >> q & 1 == 0);
                    if named == FALSE {
                        continue;
                    }
                    let mut plan = BTreeMap::new();
                    let mut reached = vec![(q, place)];
                    while let Some(pair) = reached.pop() {
                        if !plan.contains_key(&pair) {
                            let number = judged.choices[pair.1 * states + pair.0];
                            let entry = &rule.entries[pair.0][word.letter(pair.1)];
                            let clause = entry[number as usize];
                            plan.insert(pair, clause);
                            reached.extend(reached_from(&word, pair, clause));
                        }
                    }
                    assert!(!rejecting_pair_on_cycle(&rule, &word, &plan));
                    pairs += 1;
                }
            }
        }
        assert!(pairs > 20_000, "{pairs}");
    }
}
