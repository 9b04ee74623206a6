//! The comparison of two rules by words alone: what it answers is held to words that
//! are judged as games on both rules. "Yes" means that no word is accepted by A and
//! rejected by B, so of every rule all short words are tried, then random ones; on
//! small rules a list of words that decides it, and "no" is decided with it. The
//! second program builds no table here.

use std::sync::OnceLock;

use compare::library::{mulgreddi_stricter, Comparison};
use second::rule::Rule;
use second::sample::{self, letters, Random, SHAPES};
use second::{decide, every, game};

use super::build::small_rule;
use super::stricter::altered;
use crate::harness::{Entry, Harness};
use crate::input::varied;

pub const ENTRY: Entry = Entry {
    name: "stricter by words",
    refusals: &[],
    verdict: true,
    kinds: &[
        "all words that decide it",
        "all short words",
        "random words",
        "rules of 5 states and more",
    ],
    round: 9_000,
    examples: |_| {},
    random,
};

/// The rooms of a call: ample for the rules of this entry. A larger one is passed over.
const ROOMS: [usize; 4] = [600, 9_000, 600, 9_000];

/// What the library answers; none where it has no room.
fn answered(harness: &mut Harness, rules: [&Rule; 2]) -> Option<Comparison> {
    let pairs = ROOMS[0] * ROOMS[2];
    harness.begin();
    let files = rules.map(sample::file);
    let [a, b] = [("a", &files[0]), ("b", &files[1])].map(|(name, file)| {
        let lent = harness.lend(name, file);
        harness.bytes(lent)
    });
    // Lent for the answer alone: what it leaves in them is compared elsewhere.
    let mut rooms = ROOMS.map(|room| vec![0u64; room]);
    let [codes_a, listed_a, codes_b, listed_b] = &mut rooms;
    let (mut word, mut scratch) = (vec![0u8; 3 * pairs], vec![0u8; pairs]);
    let answer = harness.timed(|| unsafe {
        mulgreddi_stricter(
            a.0,
            a.1,
            b.0,
            b.1,
            codes_a.as_mut_ptr(),
            ROOMS[0],
            listed_a.as_mut_ptr(),
            ROOMS[1],
            codes_b.as_mut_ptr(),
            ROOMS[2],
            listed_b.as_mut_ptr(),
            ROOMS[3],
            word.as_mut_ptr(),
            word.len(),
            scratch.as_mut_ptr(),
            scratch.len(),
        )
    });
    harness.must(matches!(answer.refusal, 0 | 17 | 18), || {
        format!("{answer:?}")
    });
    (answer.refusal == 0).then_some(answer)
}

/// Whether A accepts a word and B rejects it, as games.
fn against(harness: &mut Harness, [a, b]: [&Rule; 2], [lead, cycle]: &[Vec<u8>; 2]) -> bool {
    harness.judged(true, false);
    game::accepts(a, lead, cycle) && !game::accepts(b, lead, cycle)
}

/// All words with a lead-in and a cycle up to small lengths.
fn short_words(letters: usize) -> &'static [[Vec<u8>; 2]] {
    static WORDS: [OnceLock<Vec<[Vec<u8>; 2]>>; 17] = [const { OnceLock::new() }; 17];
    WORDS[letters].get_or_init(|| match letters {
        1 | 2 => every::sequences(letters, 3, 4),
        3 => every::sequences(letters, 2, 2),
        _ => every::sequences(letters, 1, 1),
    })
}

fn random(harness: &mut Harness) {
    let random = &mut harness.random;
    let a = match random.below(3) {
        0 => small_rule(random),
        _ => {
            let (shape, states) = (*random.pick(&SHAPES), random.between(1, 4));
            let letters = random.between(1, 3);
            varied(random, shape, states, letters)
        }
    };
    let b = other(random, &a);
    let rules = if random.once_in(2) {
        [&a, &b]
    } else {
        [&b, &a]
    };
    let Some(answer) = answered(harness, rules) else {
        return;
    };
    let yes = answer.stricter == 1;
    let told = format!("{answer:?}");
    if a.states.min(b.states) > 4 {
        harness.saw("rules of 5 states and more");
    }
    if let Some(words) = decide::words_of_rules(rules, 400) {
        let found = words.iter().find(|word| against(harness, rules, word));
        harness.must(found.is_none() == yes, || {
            format!("{told}, but of the words that decide it {found:?} is one")
        });
        harness.saw("all words that decide it");
    }
    if yes {
        let short = short_words(a.letters);
        let found = short.iter().find(|word| against(harness, rules, word));
        harness.must(found.is_none(), || format!("{told}, but {found:?}"));
        harness.saw("all short words");
        for _ in 0..8 {
            let random = &mut harness.random;
            let lengths = [random.between(0, 32), random.between(1, 32)];
            let word = lengths.map(|length| letters(random, a.letters, length));
            let found = against(harness, rules, &word);
            harness.must(!found, || format!("{told}, but {word:?}"));
        }
        harness.saw("random words");
    }
    harness.settle(Ok((answer.stricter, 0)), &told);
}

/// Mostly a rule much like the other.
fn other(random: &mut Random, rule: &Rule) -> Rule {
    if random.once_in(2) {
        return altered(random, rule);
    }
    let (shape, states) = (*random.pick(&SHAPES), random.between(1, 4));
    varied(random, shape, states, rule.letters)
}
