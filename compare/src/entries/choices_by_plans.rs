//! The judge with choices beside all plans: on small words the verdicts, the
//! distances and so the choices are found by trying every plan.

use second::choices::{judge_choices, FALSE};
use second::every;
use second::plans;
use second::rule::Rule;
use second::sample::{self, SHAPES};
use second::word::Word;

use super::judge_choices::compare_with;
use crate::harness::{Entry, Harness};
use crate::input::varied;

pub const ENTRY: Entry = Entry {
    name: "choices by all plans",
    refusals: &[],
    verdict: true,
    kinds: &[
        "every rule of 1 and 2 states",
        "random rules of 2 and 3 states",
        "a distance of 2",
        "a distance over 2",
        "a clause passed over",
    ],
    round: 60_000,
    examples,
    random,
};

fn compare(harness: &mut Harness, rule: &Rule, [lead, cycle]: [&[u8]; 2]) {
    let file = sample::file(rule);
    let word = Word { lead, cycle };
    let judged = plans::judge_choices(&file, lead, cycle).unwrap();
    for far in plans::distances(rule, &word).into_iter().flatten() {
        match far {
            Some(2) => harness.saw("a distance of 2"),
            Some(3..) => harness.saw("a distance over 2"),
            _ => {}
        }
    }
    if judged
        .choices
        .iter()
        .any(|&choice| choice != 0 && choice != FALSE)
    {
        harness.saw("a clause passed over");
    }
    let rooms = [word.places(), word.places() * rule.states];
    let by_rounds = judge_choices(&file, lead, cycle, rooms[0], rooms[1]);
    harness.agree(&by_rounds.as_ref(), &Ok(&judged));
    compare_with(harness, &file, [lead, cycle], rooms, Ok(judged));
}

/// Every rule of one and two states with one and two letters, each on two words
/// out of those with a lead-in up to one letter and a cycle up to two.
fn examples(harness: &mut Harness) {
    for letters in [1, 2] {
        let words = every::words(letters, 1, 2);
        for states in [1, 2] {
            for rule in every::rules(states, letters) {
                for _ in 0..2 {
                    let [lead, cycle] = harness.random.pick(&words).clone();
                    compare(harness, &rule, [&lead, &cycle]);
                    harness.saw("every rule of 1 and 2 states");
                }
            }
        }
    }
}

/// As many plans as are tried.
const PLANS: usize = 3_000;

fn random(harness: &mut Harness) {
    let random = &mut harness.random;
    let (states, letters) = (random.between(2, 3), random.between(1, 2));
    let shape = *random.pick(&SHAPES);
    let mut rule = varied(random, shape, states, letters);
    if random.once_in(2) {
        rule.accepting = 0;
    }
    let (lead, cycle) = (random.between(0, 2), random.between(1, 3));
    let lead = sample::letters(random, letters, lead);
    let cycle = sample::letters(random, letters, cycle);
    let (lead, cycle) = (&lead[..], &cycle[..]);
    if plans::plans_at_most(&rule, &Word { lead, cycle }) <= PLANS {
        compare(harness, &rule, [lead, cycle]);
        harness.saw("random rules of 2 and 3 states");
    }
}
