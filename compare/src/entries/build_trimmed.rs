//! The build of the macrostates that matter.

use compare::library::mulgreddi_build_trimmed;
use compare::stored::{OVER, TRIMMED};
use second::build::{build, MACROSTATE_CAP, TRANSITION_CAP};
use second::rule::read;
use second::sample::{self, D, E, F, I, SHAPES, Z};
use second::table::Table;
use second::trim::trim;

use super::build::{
    compare_rooms, in_rooms, limits, rooms_near, small_rule, stored, within, Built,
};
use crate::harness::{Entry, Harness, RULE};
use crate::input::{any_file, prefaced, refused, varied};

pub const ENTRY: Entry = Entry {
    name: "build_trimmed",
    refusals: &[RULE, &[17, 18]],
    verdict: false,
    kinds: &["empty", "smaller", "as built"],
    round: 12_000,
    examples,
    random,
};

fn compare(harness: &mut Harness, file: &[u8], rooms: [usize; 2]) {
    let built = build(file, rooms[0], rooms[1]);
    compare_with(harness, file, rooms, &built);
}

/// Compares with what the second program has built already, not trimmed yet.
fn compare_with(harness: &mut Harness, file: &[u8], rooms: [usize; 2], built: &Built) {
    let trimmed = match built {
        Ok((codes, transitions)) => {
            let trimmed = trim(codes, transitions);
            harness.saw(match trimmed.0.len() {
                0 => "empty",
                kept if kept < codes.len() => "smaller",
                _ => "as built",
            });
            Ok(trimmed)
        }
        Err(number) => Err(*number),
    };
    compare_rooms(
        harness,
        mulgreddi_build_trimmed,
        file,
        rooms,
        built,
        &trimmed,
    );
}

/// One rejecting state that stays: it accepts no word, and no macrostate is a
/// dead end.
const STAYS: &[u8] = &[1, 1, 1, 1, 0, 0, 1, 0, 0x41, 0x57];

/// The counts before and after.
type Counts = [(usize, usize); 2];

fn examples(harness: &mut Harness) {
    limits(
        harness,
        <[u8]>::to_vec,
        |file| stored(file, true),
        compare_with,
    );
    for (number, file) in refused() {
        for rooms in [[0, 0], [9, 9]] {
            harness.by_01(&build(file, rooms[0], rooms[1]), &Err(number));
            compare(harness, file, rooms);
        }
    }
    // "Rule D shrinks from 13 and 26 to 6 and 12." "17 and 18 count the reachable
    // table first, as before."
    let cases: [(&[u8], Counts); 6] = [
        (&F, [(3, 7), (3, 7)]),
        (&D, [(13, 26), (6, 12)]),
        (&E, [(1, 1), (1, 1)]),
        (&I, [(5, 9), (3, 6)]),
        (&Z, [(1, 0), (0, 0)]),
        (STAYS, [(2, 2), (0, 0)]),
    ];
    for (file, [(macrostates, transitions), after]) in cases {
        for macrostate_room in 0..macrostates + 3 {
            for transition_room in 0..transitions + 3 {
                let said = if macrostate_room < macrostates {
                    Err(17)
                } else if transition_room < transitions {
                    Err(18)
                } else {
                    Ok(after)
                };
                let built = build(file, macrostate_room, transition_room);
                let trimmed = built.as_ref().map(|(c, t)| trim(c, t));
                let counts = trimmed.map(|(c, t)| (c.len(), t.len()));
                harness.by_01(&counts.map_err(|number| *number), &said);
                compare_with(harness, file, [macrostate_room, transition_room], &built);
            }
        }
        for rooms in [
            [MACROSTATE_CAP, TRANSITION_CAP],
            [MACROSTATE_CAP + 1, TRANSITION_CAP + 1],
        ] {
            compare(harness, file, rooms);
        }
    }
    for ((file, macrostates, transitions), after) in TRIMMED {
        let table = stored(file, true);
        harness.by_01(&(table.0.len(), table.1.len()), &(macrostates, transitions));
        let (codes, listed) = trim(&table.0, &table.1);
        harness.by_01(&(codes.len(), listed.len()), &after);
        let rooms = [macrostates, transitions];
        compare_with(harness, file, rooms, &in_rooms(rooms, &table));
        compare_with(harness, file, [macrostates - 1, transitions], &Err(17));
        compare_with(harness, file, [macrostates, transitions - 1], &Err(18));
    }
    for ((file, macrostates, transitions), number) in OVER.into_iter().zip([17, 18]) {
        compare_with(harness, file, [macrostates, transitions], &Err(number));
    }
}

fn random(harness: &mut Harness) {
    let random = &mut harness.random;
    match random.below(80) {
        0 => {
            // Up to eight states in little room.
            let states = random.between(5, 8);
            let alphabet = random.between(1, 4);
            let shape = *random.pick(&SHAPES);
            let file = sample::file(&varied(random, shape, states, alphabet));
            let rooms = [random.below(300), random.below(3_000)];
            return compare(harness, &file, rooms);
        }
        1..=10 => {
            let file = any_file(random);
            let rooms = [random.below(60), random.below(600)];
            return compare(harness, &file, rooms);
        }
        _ => {}
    }
    let rule = small_rule(random);
    let file = prefaced(random, &rule);
    let built = build(&file, 20_000, 200_000);
    let Ok((codes, transitions)) = &built else {
        return compare_with(harness, &file, [20_000, 200_000], &built);
    };
    // The trimmed table passes row 15 and has no more to trim.
    let trimmed = trim(codes, transitions);
    let (rule, _) = read(&file).unwrap();
    let table = Table::new(&rule, &trimmed.0, &trimmed.1);
    harness.by_01(&table.map(|_| ()), &Ok(()));
    harness.by_01(&trim(&trimmed.0, &trimmed.1), &trimmed);
    for _ in 0..2 {
        let rooms = rooms_near(&mut harness.random, codes.len(), transitions.len());
        compare_with(harness, &file, rooms, &within(rooms, &built));
    }
}
