//! Sameness of words.

use compare::library::mulgreddi_same_words;
use second::word::same_words;

use crate::harness::{Entry, Harness, Seen};
use crate::input::{respelled, word};

pub const ENTRY: Entry = Entry {
    name: "same_words",
    refusals: &[&[12, 13]],
    verdict: true,
    kinds: &[],
    round: 120_000,
    examples,
    random,
};

type Letters<'a> = [&'a [u8]; 2];

fn compare(harness: &mut Harness, first: Letters, second: Letters) -> Seen {
    let expected = same_words(first, second).map(|same| (same.into(), 0));
    harness.begin();
    harness.count_word(first);
    harness.count_word(second);
    let first_lead = harness.lend("first lead-in", first[0]);
    let first_cycle = harness.lend("first cycle", first[1]);
    let second_lead = harness.lend("second lead-in", second[0]);
    let second_cycle = harness.lend("second cycle", second[1]);
    let (a, b) = (harness.bytes(first_lead), harness.bytes(first_cycle));
    let (c, d) = (harness.bytes(second_lead), harness.bytes(second_cycle));
    harness.call(expected, || unsafe {
        mulgreddi_same_words(a.0, a.1, b.0, b.1, c.0, c.1, d.0, d.1)
    });
    Seen(expected)
}

fn examples(harness: &mut Harness) {
    let letters = [0; 70];
    // All lengths near the limits, both words.
    for a in [0, 1, 31, 32, 33, 64, 70] {
        for b in [0, 1, 31, 32, 33, 64, 70] {
            for c in [0, 1, 31, 32, 33, 70] {
                for d in [0, 1, 31, 32, 33, 70] {
                    let first = [&letters[..a], &letters[..b]];
                    let second = [&letters[..c], &letters[..d]];
                    let expected = compare(harness, first, second);
                    let row = |lead: usize, cycle: usize| match (lead, cycle) {
                        (_, 0) => Some(12),
                        (33.., _) | (_, 33..) => Some(13),
                        _ => None,
                    };
                    let said = match row(a, b).or(row(c, d)) {
                        Some(number) => Err(number),
                        // Endless zeros, however they are laid out.
                        None => Ok((1, 0)),
                    };
                    harness.by_01(&expected.0, &said);
                }
            }
        }
    }
}

fn random(harness: &mut Harness) {
    let random = &mut harness.random;
    let alphabet = *random.pick(&[1, 2, 2, 16, 255]);
    let first = word(random, alphabet);
    let [lead, cycle] = first.clone();
    let [mut lead, mut cycle] = if random.once_in(2) {
        respelled(random, lead, cycle)
    } else {
        [lead, cycle]
    };
    match random.below(10) {
        0 => [lead, cycle] = word(random, alphabet),
        1 => {
            let at = random.below(lead.len() + cycle.len() + 1);
            if let Some(letter) = lead.iter_mut().chain(&mut cycle).nth(at) {
                *letter ^= 1 << random.below(8);
            }
        }
        // The same endless letters, laid out in another way.
        2 => cycle.extend(cycle.clone()),
        3 => lead.extend(&cycle),
        4 => {
            if let Some(letter) = cycle.first().copied() {
                lead.push(letter);
                cycle.rotate_left(1);
            }
        }
        5 => drop(lead.pop()),
        6 => drop(cycle.pop()),
        7 => std::mem::swap(&mut lead, &mut cycle),
        _ => {}
    }
    let (first, second) = ([&first[0][..], &first[1]], [&lead[..], &cycle]);
    if random.once_in(2) {
        compare(harness, first, second);
    } else {
        compare(harness, second, first);
    }
}
