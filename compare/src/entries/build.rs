//! The build.

use std::collections::HashMap;
use std::sync::{Arc, Mutex};

use compare::library::{mulgreddi_build, Answer};
use compare::stored::{FULL, LARGE, OVER};
use second::build::{build, reachable_begun, Macrostate, MACROSTATE_CAP, TRANSITION_CAP};
use second::dual::dual;
use second::rule::{read, Rule};
use second::sample::{self, Random, Shape, D, E, F, I, SHAPES, Z};
use second::tidy::tidy_rule;

use crate::harness::{Entry, Harness, RULE};
use crate::input::{any_file, ladder, prefaced, refused, varied};

pub const ENTRY: Entry = Entry {
    name: "build",
    refusals: &[RULE, &[17, 18]],
    verdict: false,
    kinds: &[],
    round: 12_000,
    examples,
    random,
};

/// Macrostates and transitions, or a refusal.
pub type Built = Result<(Vec<u64>, Vec<u64>), u8>;

/// An entry that builds.
pub type Build = unsafe extern "C" fn(*const u8, usize, *mut u64, usize, *mut u64, usize) -> Answer;

fn compare(harness: &mut Harness, file: &[u8], macrostate_room: usize, transition_room: usize) {
    let built = build(file, macrostate_room, transition_room);
    compare_with(harness, file, macrostate_room, transition_room, &built);
}

/// Compares with what the second program has built already.
fn compare_with(
    harness: &mut Harness,
    file: &[u8],
    macrostate_room: usize,
    transition_room: usize,
    built: &Built,
) {
    let rooms = [macrostate_room, transition_room];
    compare_rooms(harness, mulgreddi_build, file, rooms, built, built);
}

/// The numbers of a call that builds. 17 and 18 in a room over the cap mean more
/// than the cap.
fn count(harness: &mut Harness, file: &[u8], rooms: [usize; 2], reached: &Built, built: &Built) {
    harness.count_file(file);
    harness.count("room for codes", rooms[0]);
    harness.count("room for transitions", rooms[1]);
    match reached {
        Ok((codes, transitions)) => {
            harness.count("macrostates", codes.len());
            harness.count("transitions", transitions.len());
            let (rule, _) = read(file).unwrap();
            harness.count("components", rule.components().len());
        }
        Err(17) if rooms[0] > MACROSTATE_CAP => harness.count("macrostates", MACROSTATE_CAP + 1),
        Err(18) if rooms[1] > TRANSITION_CAP => harness.count("transitions", TRANSITION_CAP + 1),
        Err(_) => {}
    }
    if let Ok((codes, _)) = built {
        harness.count("macrostates kept", codes.len());
        let rank = |&code: &u64| Macrostate::from_code(code).core.ranks.into_iter().max();
        let rank = codes.iter().filter_map(rank).max();
        harness.count("rank", rank.unwrap_or(0).into());
    }
}

/// A call of an entry that builds, and both rooms after it. What is reached may be
/// more than what is built.
pub fn compare_rooms(
    harness: &mut Harness,
    build: Build,
    file: &[u8],
    [macrostate_room, transition_room]: [usize; 2],
    reached: &Built,
    built: &Built,
) {
    let codes = harness.pattern(macrostate_room * 8);
    let transitions = harness.pattern(transition_room * 8);
    harness.begin();
    let rooms = [macrostate_room, transition_room];
    count(harness, file, rooms, reached, built);
    let file = harness.lend("file", file);
    let lent_codes = harness.lend_room("codes", &codes);
    let lent_transitions = harness.lend_room("transitions", &transitions);
    let filled = |numbers: &[u64], room: usize| {
        let mut bytes: Vec<u8> = numbers.iter().flat_map(|x| x.to_ne_bytes()).collect();
        // "unused elements become 0"
        bytes.resize(room * 8, 0);
        bytes
    };
    let expected = match built {
        Ok((codes, transitions)) => {
            harness.expect(lent_codes, filled(codes, macrostate_room));
            harness.expect(lent_transitions, filled(transitions, transition_room));
            Ok((codes.len() as u64, transitions.len() as u64))
        }
        Err(number) => {
            // "17 and 18 set both room slices to zero throughout"
            if matches!(number, 17 | 18) {
                harness.expect(lent_codes, filled(&[], macrostate_room));
                harness.expect(lent_transitions, filled(&[], transition_room));
            }
            Err(*number)
        }
    };
    let file = harness.bytes(file);
    let (codes, transitions) = (
        harness.numbers(lent_codes),
        harness.numbers(lent_transitions),
    );
    harness.call(expected, || unsafe {
        build(
            file.0,
            file.1,
            codes.0,
            codes.1,
            transitions.0,
            transitions.1,
        )
    });
}

fn examples(harness: &mut Harness) {
    let compare_built = |harness: &mut Harness, file: &[u8], rooms: [usize; 2], built: &Built| {
        compare_with(harness, file, rooms[0], rooms[1], built);
    };
    limits(
        harness,
        <[u8]>::to_vec,
        |file| stored(file, true),
        compare_built,
    );
    for (number, file) in refused() {
        for rooms in [(0, 0), (9, 9)] {
            harness.by_01(&build(file, rooms.0, rooms.1), &Err(number));
            compare(harness, file, rooms.0, rooms.1);
        }
    }
    // Every room around the counts that 01 gives, and what they answer.
    let counts: [(&[u8], usize, usize); 5] =
        [(&F, 3, 7), (&D, 13, 26), (&E, 1, 1), (&I, 5, 9), (&Z, 1, 0)];
    for (file, macrostates, transitions) in counts {
        for macrostate_room in 0..macrostates + 3 {
            for transition_room in 0..transitions + 3 {
                let said = if macrostate_room < macrostates {
                    Err(17)
                } else if transition_room < transitions {
                    Err(18)
                } else {
                    Ok((macrostates, transitions))
                };
                let built = build(file, macrostate_room, transition_room);
                let counts = built.as_ref().map(|(c, t)| (c.len(), t.len()));
                harness.by_01(&counts.map_err(|number| *number), &said);
                compare_with(harness, file, macrostate_room, transition_room, &built);
            }
        }
        // Rooms at and over the caps.
        for (macrostate_room, transition_room) in [
            (MACROSTATE_CAP, TRANSITION_CAP),
            (MACROSTATE_CAP + 1, TRANSITION_CAP + 1),
            (MACROSTATE_CAP * 2, 99),
            (99, TRANSITION_CAP * 2),
        ] {
            compare(harness, file, macrostate_room, transition_room);
        }
    }
    harness.by_01(&build(&E, 9, 9), &Ok((vec![1], vec![0])));
    harness.by_01(&build(&Z, 9, 9), &Ok((vec![1], vec![])));
    one_component(harness);
    large(harness);
    over_the_caps(harness);
}

/// "One rejecting component of seven or eight states holding the initial state
/// therefore always meets 17", in any room; one state fewer is served.
fn one_component(harness: &mut Harness) {
    for states in [6, 7, 8] {
        let mut file: Vec<u8> = (0..states).map(|q| 1 << ((q + 1) % states)).collect();
        file.extend(vec![1; states]);
        file.extend([states as u8, 1, 0, 0, states as u8, 0, 0x41, 0x57]);
        let built = build(&file, usize::MAX, usize::MAX);
        harness.by_01(&built.is_ok(), &(states == 6));
        for room in [MACROSTATE_CAP, 85_219, 85_220, 85_221] {
            compare_with(harness, &file, room, 200_000, &built);
        }
    }
}

/// The table that the second program builds of a rule that is stored, or of the
/// words that it rejects, whatever the room: once in a run, since it takes long.
pub fn stored(file: &[u8], accepted: bool) -> Arc<(Vec<u64>, Vec<u64>)> {
    type Tables = HashMap<(Vec<u8>, bool), Arc<(Vec<u64>, Vec<u64>)>>;
    static TABLES: Mutex<Option<Tables>> = Mutex::new(None);
    let mut tables = TABLES.lock().unwrap();
    let tables = tables.get_or_insert_default();
    let table = tables.entry((file.to_vec(), accepted)).or_insert_with(|| {
        let (rule, _) = read(file).unwrap();
        Arc::new(reachable_begun(&rule, accepted, usize::MAX, usize::MAX).unwrap())
    });
    table.clone()
}

/// A stored rule turned round: what it accepts, the other rejects.
pub fn turned(file: &[u8]) -> Vec<u8> {
    sample::file(&dual(&read(file).unwrap().0))
}

/// What is built in rooms of these lengths, of which no more than the caps counts.
pub fn in_rooms(rooms: [usize; 2], table: &(Vec<u64>, Vec<u64>)) -> Built {
    let counted = [rooms[0].min(MACROSTATE_CAP), rooms[1].min(TRANSITION_CAP)];
    within(counted, &Ok(table.clone()))
}

/// The rules of a build's limits: eight and seven components, ranks of five and six,
/// a small one in rooms around the caps, and the stored ones. `own` gives the file of
/// the rule that is built from such a rule, `table` what the second program builds.
pub fn limits(
    harness: &mut Harness,
    own: fn(&[u8]) -> Vec<u8>,
    table: fn(&[u8]) -> Arc<(Vec<u64>, Vec<u64>)>,
    compare: fn(&mut Harness, &[u8], [usize; 2], &Built),
) {
    let mut files = Vec::new();
    for states in [7, 8, 8] {
        let letters = harness.random.between(1, 3);
        files.push(varied(
            &mut harness.random,
            Shape::VeryWeak,
            states,
            letters,
        ));
    }
    for states in [5, 6] {
        files.push(ladder(&mut harness.random, states));
    }
    for rule in files {
        let file = own(&sample::file(&rule));
        let Ok(_) = read(&file) else { continue };
        let built = table(&file);
        let rooms = [built.0.len(), built.1.len()];
        compare(harness, &file, rooms, &in_rooms(rooms, &built));
        compare(
            harness,
            &file,
            [70_000, 300_000],
            &in_rooms([70_000, 300_000], &built),
        );
    }
    let small = table(&F);
    for (codes, transitions) in [(0, 0), (1, 1), (2, 2)] {
        let random = &mut harness.random;
        let room = |random: &mut Random, cap: usize, kind: usize| match kind {
            0 => cap - random.between(1, 36),
            1 => cap,
            _ => cap + random.between(1, cap),
        };
        let rooms = [
            room(random, MACROSTATE_CAP, codes),
            room(random, TRANSITION_CAP, transitions),
        ];
        compare(harness, &F, rooms, &in_rooms(rooms, &small));
    }
    for (file, macrostates, transitions) in [LARGE[0]].into_iter().chain(FULL).chain(OVER) {
        let file = own(file);
        let built = table(&file);
        harness.by_01(&(built.0.len(), built.1.len()), &(macrostates, transitions));
        let more = [1, 1].map(|_| harness.random.between(1, 99));
        let rooms = [MACROSTATE_CAP + more[0], TRANSITION_CAP + more[1]];
        compare(harness, &file, rooms, &in_rooms(rooms, &built));
    }
}

fn large(harness: &mut Harness) {
    for (file, macrostates, transitions) in LARGE.into_iter().chain(FULL) {
        let built = in_rooms([MACROSTATE_CAP, TRANSITION_CAP], &stored(file, true));
        let counts = built.as_ref().map(|(c, t)| (c.len(), t.len()));
        harness.by_01(&counts, &Ok((macrostates, transitions)));
        compare_with(harness, file, macrostates, transitions, &built);
        compare_with(harness, &file, macrostates - 1, transitions, &Err(17));
        compare_with(harness, file, macrostates, transitions - 1, &Err(18));
    }
}

/// "Room counts at most 65,536 macrostates and 1,048,576 transitions."
fn over_the_caps(harness: &mut Harness) {
    for ((file, macrostates, transitions), number) in OVER.into_iter().zip([17, 18]) {
        let built = in_rooms([macrostates, transitions], &stored(file, true));
        harness.by_01(&built, &Err(number));
        for more in [0, 1, 99] {
            let (codes, listed) = (macrostates + more, transitions + more);
            compare_with(harness, file, codes, listed, &Err(number));
        }
    }
}

/// A rule whose table is mostly small.
pub fn small_rule(random: &mut Random) -> Rule {
    let alphabet = match random.below(8) {
        0 => random.between(1, 16),
        _ => random.between(1, 3),
    };
    if random.once_in(4) {
        let states = random.between(4, 7);
        return varied(random, Shape::VeryWeak, states, alphabet.min(4));
    }
    let states = *random.pick(&[1, 2, 2, 3, 3, 3, 4, 4]);
    let shape = *random.pick(&SHAPES);
    varied(random, shape, states, alphabet)
}

/// A small rule with clauses inside others, tidied.
fn tidied_rule(random: &mut Random) -> Rule {
    let (states, alphabet) = (random.between(1, 4), random.between(1, 3));
    let shape = *random.pick(&SHAPES);
    tidy_rule(&sample::nested_rule(random, shape, states, alphabet))
}

fn random(harness: &mut Harness) {
    let random = &mut harness.random;
    match random.below(800) {
        0 => return big_rule(harness),
        1..=3 => {
            // Rooms far over the counts, at the caps and over them.
            let file = sample::file(&small_rule(random));
            let codes = *random.pick(&[MACROSTATE_CAP, MACROSTATE_CAP + 1, 80_000]);
            let transitions = *random.pick(&[TRANSITION_CAP, TRANSITION_CAP + 1, 100_000]);
            return compare(harness, &file, codes, transitions);
        }
        4..=20 => {
            // Up to eight states in little room.
            let states = random.between(5, 8);
            let alphabet = random.between(1, 4);
            let shape = *random.pick(&SHAPES);
            let file = sample::file(&varied(random, shape, states, alphabet));
            let (codes, transitions) = (random.below(300), random.below(3_000));
            return compare(harness, &file, codes, transitions);
        }
        21..=120 => {
            let file = any_file(random);
            let (codes, transitions) = (random.below(60), random.below(600));
            return compare(harness, &file, codes, transitions);
        }
        _ => {}
    }
    // 02: "the build is compared with the tidied file's definition".
    let rule = if random.once_in(6) {
        tidied_rule(random)
    } else {
        small_rule(random)
    };
    let file = prefaced(random, &rule);
    let built = build(&file, 20_000, 200_000);
    let Ok((codes, transitions)) = &built else {
        return compare_with(harness, &file, 20_000, 200_000, &built);
    };
    let (codes, transitions) = (codes.len(), transitions.len());
    for _ in 0..2 {
        let rooms = rooms_near(&mut harness.random, codes, transitions);
        compare_with(harness, &file, rooms[0], rooms[1], &within(rooms, &built));
    }
}

/// What is built in these rooms, by what is built in ample ones.
pub fn within(rooms: [usize; 2], built: &Built) -> Built {
    let (codes, transitions) = built.clone()?;
    if rooms[0] < codes.len() {
        return Err(17);
    }
    if rooms[1] < transitions.len() {
        return Err(18);
    }
    Ok((codes, transitions))
}

/// Rooms near the counts of macrostates and transitions.
pub fn rooms_near(random: &mut Random, codes: usize, transitions: usize) -> [usize; 2] {
    let mut room = |needed: usize| match random.below(6) {
        0 => needed.saturating_sub(1),
        1 | 2 => needed,
        3 => needed + 1,
        4 => random.below(needed + 1),
        _ => needed + random.below(300),
    };
    let near = [room(codes), room(transitions)];
    match random.below(3) {
        0 => near,
        _ => [codes + random.below(3), near[1]],
    }
}

/// A rule of up to eight states with rooms at the caps.
fn big_rule(harness: &mut Harness) {
    let random = &mut harness.random;
    let states = random.between(5, 8);
    let alphabet = random.between(1, 4);
    let shape = *random.pick(&[Shape::Layers, Shape::Rings, Shape::VeryWeak]);
    let file = sample::file(&varied(random, shape, states, alphabet));
    compare(harness, &file, MACROSTATE_CAP, TRANSITION_CAP);
}
