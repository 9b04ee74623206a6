//! Verdicts, distances and choices by trying every plan, for small rules and
//! words: no component is settled before another and no round is counted.

use std::collections::{BTreeMap, BTreeSet};

use crate::choices::{Judged, FALSE};
use crate::rule::{read, Rule};
use crate::word::Word;

/// A state at a place.
pub type Pair = (usize, usize);

/// "A plan picks one clause for each pair of state and place that it reaches".
pub type Plan = BTreeMap<Pair, u8>;

/// "from the pair it reaches each state of the clause at the following place"
pub fn reached_from(word: &Word, pair: Pair, clause: u8) -> impl Iterator<Item = Pair> {
    let place = word.following(pair.1);
    let states = (0..8).filter(move |&q| clause >> q & 1 == 1);
    states.map(move |q| (q, place))
}

/// Whether a plan has a "pair with a rejecting state that lies on a cycle of
/// reached pairs".
pub fn rejecting_pair_on_cycle(rule: &Rule, word: &Word, plan: &Plan) -> bool {
    let rejecting = |pair: &&Pair| rule.accepting >> pair.0 & 1 == 0;
    plan.keys().filter(rejecting).any(|&pair| {
        let mut seen = BTreeSet::new();
        let mut waiting = vec![pair];
        while let Some(from) = waiting.pop() {
            let next = reached_from(word, from, plan[&from]);
            waiting.extend(next.filter(|&to| seen.insert(to)));
        }
        seen.contains(&pair)
    })
}

/// Calls `found` with every accepting plan begun at a pair: one that "reaches no
/// pair without a clause and no pair with a rejecting state that lies on a cycle
/// of reached pairs". `found` answers whether to go on.
pub fn every_plan(rule: &Rule, word: &Word, start: Pair, found: &mut dyn FnMut(&Plan) -> bool) {
    more_plans(rule, word, &mut Plan::new(), &[start], found);
}

/// Every accepting plan that agrees with the clauses picked so far; `reached` are
/// reached pairs that may still need a clause. False if `found` said to stop.
fn more_plans(
    rule: &Rule,
    word: &Word,
    plan: &mut Plan,
    reached: &[Pair],
    found: &mut dyn FnMut(&Plan) -> bool,
) -> bool {
    let Some((&pair, rest)) = reached.split_last() else {
        return rejecting_pair_on_cycle(rule, word, plan) || found(plan);
    };
    if plan.contains_key(&pair) {
        return more_plans(rule, word, plan, rest, found);
    }
    // An empty entry tries nothing.
    for &clause in &rule.entries[pair.0][word.letter(pair.1)] {
        let mut reached = rest.to_vec();
        reached.extend(reached_from(word, pair, clause));
        plan.insert(pair, clause);
        let go_on = more_plans(rule, word, plan, &reached, found);
        plan.remove(&pair);
        if !go_on {
            return false;
        }
    }
    true
}

/// "The rule accepts from a pair if some plan, begun there, reaches no pair
/// without a clause and no pair with a rejecting state that lies on a cycle of
/// reached pairs."
pub fn accepts(rule: &Rule, word: &Word, start: Pair) -> bool {
    let mut accepts = false;
    every_plan(rule, word, start, &mut |_| {
        accepts = true;
        false
    });
    accepts
}

/// How many steps a plan takes until all its paths from a pair have left the
/// pair's component, `own`.
fn steps_to_leave(word: &Word, plan: &Plan, own: u8, start: Pair) -> usize {
    let mut inside = BTreeSet::from([start]);
    let mut steps = 0;
    while !inside.is_empty() {
        let next = inside
            .iter()
            .flat_map(|&pair| reached_from(word, pair, plan[&pair]));
        inside = next.filter(|pair| own >> pair.0 & 1 == 1).collect();
        steps += 1;
    }
    steps
}

/// "Distance is the least d such that some accepting plan from the pair has left
/// the component on all its paths after d steps": for each place, then state, of
/// a rejecting state; none where no plan accepts, and for the others.
pub fn distances(rule: &Rule, word: &Word) -> Vec<Vec<Option<usize>>> {
    let components = rule.components();
    let of_pair = |place: usize, q: usize| {
        if rule.accepting >> q & 1 == 1 {
            return None;
        }
        let own = components.iter().find(|k| k.states.contains(&q));
        let own = own.unwrap().mask();
        let mut least: Option<usize> = None;
        every_plan(rule, word, (q, place), &mut |plan| {
            let steps = steps_to_leave(word, plan, own, (q, place));
            least = Some(least.map_or(steps, |other| other.min(steps)));
            // No plan leaves in fewer steps than one.
            least != Some(1)
        });
        least
    };
    let places = 0..word.places();
    places
        .map(|place| (0..rule.states).map(|q| of_pair(place, q)).collect())
        .collect()
}

/// Per place, the mask of the states that the rule accepts from there.
pub fn masks(rule: &Rule, word: &Word) -> Vec<u8> {
    let places = 0..word.places();
    places
        .map(|place| {
            let states = (0..rule.states).filter(|&q| accepts(rule, word, (q, place)));
            states.fold(0, |mask, q| mask | 1 << q)
        })
        .collect()
}

/// For each place, then state, the number of the clause that the judge is to
/// name.
pub fn choices(rule: &Rule, word: &Word, masks: &[u8]) -> Vec<u8> {
    let distances = distances(rule, word);
    let components = rule.components();
    let same = |q: usize, other: usize| {
        let holds_both =
            |k: &crate::rule::Component| k.states.contains(&q) && k.states.contains(&other);
        components.iter().any(holds_both)
    };
    let mut choices = Vec::new();
    for place in 0..word.places() {
        let next = word.following(place);
        for q in 0..rule.states {
            let fits = |&clause: &u8| {
                let states = || (0..rule.states).filter(move |to| clause >> to & 1 == 1);
                // "the first clause whose states are all true at the next place"
                states().all(|to| masks[next] >> to & 1 == 1)
                    // "For a rejecting one it is the first whose states are all
                    // true there and, within the component, have a smaller
                    // distance."
                    && (rule.accepting >> q & 1 == 1
                        || states()
                            .filter(|&to| same(q, to))
                            .all(|to| distances[next][to].unwrap() < distances[place][q].unwrap()))
            };
            // "False pairs get 255."
            choices.push(if masks[place] >> q & 1 == 0 {
                FALSE
            } else {
                let mut entry = rule.entries[q][word.letter(place)].iter();
                let first = entry.position(fits);
                first.expect("a true pair has a clause") as u8
            });
        }
    }
    choices
}

/// The judge with choices by this method, on a file: the rule's rows, 12 to 14.
pub fn judge_choices(file: &[u8], lead: &[u8], cycle: &[u8]) -> Result<Judged, u8> {
    let (rule, _) = read(file)?;
    let word = Word::of_rule(&rule, lead, cycle)?;
    let masks = masks(&rule, &word);
    Ok(Judged {
        yes: masks[0] >> rule.initial & 1 == 1,
        choices: choices(&rule, &word, &masks),
        masks,
    })
}

/// About how many plans there are at the most: the product of the numbers of
/// clauses of all pairs.
pub fn plans_at_most(rule: &Rule, word: &Word) -> usize {
    let places = 0..word.places();
    let counts = places.flat_map(|place| {
        let entries = rule.entries.iter();
        entries.map(move |row| row[word.letter(place)].len().max(1))
    });
    counts.fold(1, |all, count| all.saturating_mul(count))
}
