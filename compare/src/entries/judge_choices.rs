//! The judge that shows which clause carried the verdict.

use compare::library::mulgreddi_judge_choices;
use second::choices::{distances, judge_choices, Judged, FALSE};
use second::game;
use second::rule::{read, Rule};
use second::sample::{self, Shape, D, F, I};
use second::word::Word;

use crate::harness::{Entry, Harness, Seen, RULE};
use crate::input::{any_file, good_file, near, refused, varied, word};

pub const ENTRY: Entry = Entry {
    name: "judge_choices",
    refusals: &[RULE, &[12, 13, 14, 16]],
    verdict: true,
    kinds: &["masks as a game too"],
    round: 100_000,
    examples,
    random,
};

fn compare(harness: &mut Harness, file: &[u8], word: [&[u8]; 2], rooms: [usize; 2]) -> Seen {
    let judged = judge_choices(file, word[0], word[1], rooms[0], rooms[1]);
    compare_with(harness, file, word, rooms, judged)
}

/// Compares with what the second program has answered already.
pub fn compare_with(
    harness: &mut Harness,
    file: &[u8],
    word: [&[u8]; 2],
    rooms: [usize; 2],
    judged: Result<Judged, u8>,
) -> Seen {
    let masks = harness.pattern(rooms[0]);
    let choices = harness.pattern(rooms[1]);
    harness.begin();
    harness.count_file(file);
    harness.count_word(word);
    if let Ok(judged) = &judged {
        harness.count("distance", farthest(file, word, &judged.masks));
    }
    let file = harness.lend("file", file);
    let lead = harness.lend("lead-in", word[0]);
    let cycle = harness.lend("cycle", word[1]);
    let lent_masks = harness.lend_out("masks", &masks);
    let lent_choices = harness.lend_out("choices", &choices);
    let expected = match judged {
        Ok(judged) => {
            for (lent, mut after, written) in [
                (lent_masks, masks, judged.masks),
                (lent_choices, choices, judged.choices),
            ] {
                after[..written.len()].copy_from_slice(&written);
                harness.expect(lent, after);
            }
            Ok((judged.yes.into(), 0))
        }
        Err(number) => Err(number),
    };
    let (file, lead, cycle) = (
        harness.bytes(file),
        harness.bytes(lead),
        harness.bytes(cycle),
    );
    let (masks, choices) = (harness.bytes(lent_masks), harness.bytes(lent_choices));
    harness.call(expected, || unsafe {
        mulgreddi_judge_choices(
            file.0, file.1, lead.0, lead.1, cycle.0, cycle.1, masks.0, masks.1, choices.0,
            choices.1,
        )
    });
    Seen(expected)
}

/// The largest distance of a pair. A short word has none that counts.
fn farthest(file: &[u8], [lead, cycle]: [&[u8]; 2], masks: &[u8]) -> usize {
    let (rule, _) = read(file).unwrap();
    if (lead.len() + cycle.len()) * rule.states < 224 {
        return 0;
    }
    let word = Word { lead, cycle };
    let distances = distances(&rule, &word, masks).into_iter().flatten();
    distances.flatten().max().unwrap_or(0)
}

/// A component of eight states in a ring that goes on by a letter which a turn of
/// the cycle has once: a state is left after as many turns as are before it.
fn limits(harness: &mut Harness) {
    for kind in 0..12 {
        let random = &mut harness.random;
        let mut order: Vec<u8> = (0..8).collect();
        random.shuffle(&mut order);
        let mut entries = vec![vec![vec![]; 3]; 8];
        for (place, &q) in order.iter().enumerate() {
            let entry = &mut entries[q as usize];
            let next = order.get(place + 1).map_or(0, |next| 1 << next);
            *entry = vec![vec![1 << q], vec![next], vec![1 << order[0]]];
            if random.once_in(4) && place < 7 {
                // A choice that goes back.
                entry[1].insert(random.below(2), 1 << order[random.below(place + 1)]);
            }
        }
        let rule = Rule {
            states: 8,
            letters: 3,
            initial: order[0] as usize,
            accepting: 0,
            entries,
        };
        // From the first place eight turns of the cycle, after the lead-in.
        let farthest = match kind {
            0 => 288,
            1 | 2 => 255,
            3..=6 => random.between(225, 254),
            _ => random.between(256, 287),
        };
        let lengths = (1..=32).filter(|cycle| (8 * cycle..=8 * cycle + 32).contains(&farthest));
        let length = *random.pick(&lengths.collect::<Vec<usize>>());
        let lead = farthest - 8 * length;
        let mut cycle = vec![0; length];
        cycle[length - 1] = 1;
        let (file, word) = (sample::file(&rule), [&vec![0; lead][..], &cycle]);
        let places = lead + length;
        compare(harness, &file, word, [places, 8 * places]);
    }
}

/// States 0 and 1 are one rejecting component: state 0 may stay or go on to
/// state 1, state 1 may go back or leave to state 2, which is done. The first
/// clause of each is true for ever, and never leaves.
const STAYS: &[u8] = &[1, 2, 1, 4, 0, 2, 2, 1, 3, 1, 0, 0, 5, 0, 0x41, 0x57];

fn examples(harness: &mut Harness) {
    limits(harness);
    for (number, file) in refused() {
        let expected = compare(harness, file, [&[], &[]], [0, 0]);
        harness.by_01(&expected.0, &Err(number));
    }
    let cases: [(&[u8], [&[u8]; 2], &[u8]); 5] = [
        (&F, [&[0, 1], &[0]], &[0, 0, FALSE]),
        (&F, [&[], &[0]], &[FALSE]),
        (&I, [&[1], &[0]], &[FALSE, 0, FALSE, FALSE]),
        (&D, [&[], &[0]], &[0, 0]),
        (STAYS, [&[], &[0]], &[1, 1, 0]),
    ];
    for (file, word, choices) in cases {
        let judged = judge_choices(file, word[0], word[1], 64, 512);
        harness.by_01(&judged.map(|judged| judged.choices), &Ok(choices.to_vec()));
        for masks in 0..5 {
            for choices in 0..9 {
                compare(harness, file, word, [masks, choices]);
            }
        }
    }
}

fn random(harness: &mut Harness) {
    let random = &mut harness.random;
    let file = match random.below(4) {
        0 => any_file(random),
        1 => good_file(random),
        // Rejecting components of several states, many clauses.
        _ => {
            let (states, alphabet) = (random.between(2, 8), random.between(1, 3));
            let shape = *random.pick(&[Shape::One, Shape::Rings, Shape::Layers]);
            let mut rule = varied(random, shape, states, alphabet);
            if random.once_in(2) {
                rule.accepting = 0;
            }
            sample::file(&rule)
        }
    };
    let (alphabet, states) = read(&file).map_or((2, 2), |(rule, _)| (rule.letters, rule.states));
    for _ in 0..4 {
        let random = &mut harness.random;
        let [lead, cycle] = word(random, alphabet);
        let places = lead.len() + cycle.len();
        let rooms = match random.below(3) {
            0 => [near(random, places), near(random, places * states)],
            1 => [near(random, places), places * states],
            _ => [places, near(random, places * states)],
        };
        let judged = judge_choices(&file, &lead, &cycle, rooms[0], rooms[1]);
        if let Ok(judged) = &judged {
            let (rule, _) = read(&file).unwrap();
            let word = Word::of_rule(&rule, &lead, &cycle).unwrap();
            harness.agree(&judged.masks, &game::masks(&rule, &word));
            harness.judged(true, true);
            harness.saw("masks as a game too");
        }
        compare_with(harness, &file, [&lead, &cycle], rooms, judged);
    }
}
