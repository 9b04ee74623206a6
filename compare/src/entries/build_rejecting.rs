//! The build of the words that a rule rejects.

use std::cmp::Ordering;

use compare::library::mulgreddi_build_rejecting;
use compare::stored::{FULL, OVER};
use second::build::{reachable_begun, MACROSTATE_CAP, TRANSITION_CAP};
use second::rule::read;
use second::sample::{self, D, E, F, I, SHAPES, Z};

use super::build::{compare_rooms, limits, rooms_near, small_rule, stored, turned, within, Built};
use crate::harness::{Entry, Harness, RULE};
use crate::input::{any_file, prefaced, refused, varied};

pub const ENTRY: Entry = Entry {
    name: "build_rejecting",
    refusals: &[RULE, &[17, 18]],
    verdict: false,
    kinds: &["larger than the build", "as large", "smaller"],
    round: 12_000,
    examples,
    random,
};

/// "begun, with K and k 0, from all cores whose set lacks .. initial state"
fn rejecting(file: &[u8], [codes, transitions]: [usize; 2]) -> Built {
    let (rule, _) = read(file)?;
    let rooms = (codes.min(MACROSTATE_CAP), transitions.min(TRANSITION_CAP));
    reachable_begun(&rule, false, rooms.0, rooms.1)
}

fn compare(harness: &mut Harness, file: &[u8], rooms: [usize; 2]) {
    let built = rejecting(file, rooms);
    compare_with(harness, file, rooms, &built);
}

/// Compares with what the second program has built already.
fn compare_with(harness: &mut Harness, file: &[u8], rooms: [usize; 2], built: &Built) {
    compare_rooms(
        harness,
        mulgreddi_build_rejecting,
        file,
        rooms,
        built,
        built,
    );
}

fn examples(harness: &mut Harness) {
    limits(harness, turned, |file| stored(file, false), compare_with);
    for (number, file) in refused() {
        for rooms in [[0, 0], [9, 9]] {
            harness.by_01(&rejecting(file, rooms), &Err(number));
            compare(harness, file, rooms);
        }
    }
    for file in [&F[..], &D, &E, &I, &Z] {
        let built = rejecting(file, [999, 999]);
        let (codes, transitions) = built.as_ref().unwrap();
        for macrostate_room in 0..codes.len() + 3 {
            for transition_room in 0..transitions.len() + 3 {
                let rooms = [macrostate_room, transition_room];
                compare_with(harness, file, rooms, &within(rooms, &built));
            }
        }
        let most = [MACROSTATE_CAP + 1, TRANSITION_CAP + 1];
        compare_with(harness, file, most, &built);
    }
    // Letter 0 for ever is the only word that F rejects; E rejects the others.
    harness.by_01(&rejecting(&F, [9, 9]), &Ok((vec![0], vec![0])));
    let counts = rejecting(&E, [9, 9]).map(|(c, t)| (c.len(), t.len()));
    harness.by_01(&counts, &Ok((3, 7)));
    for (file, ..) in FULL.into_iter().chain(OVER) {
        compare(harness, file, [MACROSTATE_CAP, TRANSITION_CAP]);
    }
}

fn random(harness: &mut Harness) {
    let random = &mut harness.random;
    match random.below(80) {
        0 => {
            // Up to eight states in little room.
            let states = random.between(5, 8);
            let alphabet = random.between(1, 4);
            let shape = *random.pick(&SHAPES);
            let file = sample::file(&varied(random, shape, states, alphabet));
            let rooms = [random.below(300), random.below(3_000)];
            return compare(harness, &file, rooms);
        }
        1..=10 => {
            let file = any_file(random);
            let rooms = [random.below(60), random.below(600)];
            return compare(harness, &file, rooms);
        }
        _ => {}
    }
    let rule = small_rule(random);
    let file = prefaced(random, &rule);
    let ample = [20_000, 200_000];
    let built = rejecting(&file, ample);
    let Ok((codes, transitions)) = &built else {
        return compare_with(harness, &file, ample, &built);
    };
    let own = second::build::build(&file, ample[0], ample[1]);
    let own = own.map_or(usize::MAX, |(codes, _)| codes.len());
    harness.saw(match codes.len().cmp(&own) {
        Ordering::Greater => "larger than the build",
        Ordering::Equal => "as large",
        Ordering::Less => "smaller",
    });
    for _ in 0..2 {
        let rooms = rooms_near(&mut harness.random, codes.len(), transitions.len());
        compare_with(harness, &file, rooms, &within(rooms, &built));
    }
}
