//! The three builds beside 01's text alone: of every rule of one and two states
//! with one and two letters, and of random ones of three and four.

use compare::library::{mulgreddi_build, mulgreddi_build_rejecting, mulgreddi_build_trimmed};
use second::build::reachable;
use second::every;
use second::rule::Rule;
use second::sample::{self, SHAPES};
use second::text_build::{only_those_that_matter, Text};

use super::build::compare_rooms;
use crate::harness::{Entry, Harness};
use crate::input::varied;

pub const ENTRY: Entry = Entry {
    name: "builds by 01's text",
    refusals: &[],
    verdict: false,
    kinds: &[
        "every rule of 1 state",
        "every rule of 2 states",
        "rules of 3 states",
        "rules of 4 states",
        "with components of several states",
    ],
    round: 50_000,
    examples,
    random,
};

fn compare(harness: &mut Harness, rule: &Rule) {
    let file = sample::file(rule);
    let text = Text::new(rule);
    let [built, rejecting] = [true, false].map(|holding| text.table(holding));
    let trimmed = only_those_that_matter(&built);
    // What is compared elsewhere is built by stepping back from cores.
    let stepped = reachable(rule, usize::MAX, usize::MAX);
    harness.agree(&stepped.as_ref(), &Ok(&built));
    let rooms = [built.0.len(), built.1.len()];
    let ample = [rejecting.0.len() + 1, rejecting.1.len() + 1];
    let (built, trimmed, rejecting) = (Ok(built), Ok(trimmed), Ok(rejecting));
    compare_rooms(harness, mulgreddi_build, &file, rooms, &built, &built);
    compare_rooms(
        harness,
        mulgreddi_build_trimmed,
        &file,
        rooms,
        &built,
        &trimmed,
    );
    compare_rooms(
        harness,
        mulgreddi_build_rejecting,
        &file,
        ample,
        &rejecting,
        &rejecting,
    );
    if rule.components().len() < rule.states {
        harness.saw("with components of several states");
    }
}

fn examples(harness: &mut Harness) {
    for (states, kind) in [(1, ENTRY.kinds[0]), (2, ENTRY.kinds[1])] {
        for letters in [1, 2] {
            for rule in every::rules(states, letters) {
                compare(harness, &rule);
                harness.saw(kind);
            }
        }
    }
}

fn random(harness: &mut Harness) {
    let random = &mut harness.random;
    let states = if random.once_in(4) { 4 } else { 3 };
    let letters = random.between(1, 2);
    let shape = *random.pick(&SHAPES);
    let rule = varied(random, shape, states, letters);
    compare(harness, &rule);
    harness.saw(ENTRY.kinds[states - 1]);
}
