//! The tidy spelling of words.

use compare::library::mulgreddi_tidy_word;
use second::spelling::tidy_word;
use second::word::same_words;

use crate::harness::{Entry, Harness, Seen};
use crate::input::{near, respelled, word};

pub const ENTRY: Entry = Entry {
    name: "tidy_word",
    refusals: &[&[12, 13, 16]],
    verdict: false,
    kinds: &[],
    round: 100_000,
    examples,
    random,
};

fn compare(harness: &mut Harness, word: [&[u8]; 2], room: usize) -> Seen {
    let tidied = tidy_word(word[0], word[1]).and_then(|(lead, cycle)| {
        if room < lead.len() + cycle.len() {
            return Err(16);
        }
        Ok((lead, cycle))
    });
    let out = harness.pattern(room);
    harness.begin();
    harness.count_word(word);
    if let Ok((lead, cycle)) = &tidied {
        harness.count("letters written", lead.len() + cycle.len());
    }
    let lead = harness.lend("lead-in", word[0]);
    let cycle = harness.lend("cycle", word[1]);
    let lent = harness.lend_out("out", &out);
    let expected = match tidied {
        Ok((lead, cycle)) => {
            let written = [&lead[..], &cycle].concat();
            let mut after = out;
            after[..written.len()].copy_from_slice(&written);
            harness.expect(lent, after);
            Ok((lead.len() as u64, cycle.len() as u64))
        }
        Err(number) => Err(number),
    };
    let (lead, cycle) = (harness.bytes(lead), harness.bytes(cycle));
    let out = harness.bytes(lent);
    harness.call(expected, || unsafe {
        mulgreddi_tidy_word(lead.0, lead.1, cycle.0, cycle.1, out.0, out.1)
    });
    Seen(expected)
}

fn examples(harness: &mut Harness) {
    // 02: "as lead-in 0 with cycle 1 0 and as cycle 0 1".
    for word in [
        [&[0][..], &[1, 0]],
        [&[], &[0, 1]],
        [&[0, 1, 0], &[1, 0, 1, 0]],
    ] {
        harness.by_01(&tidy_word(word[0], word[1]), &Ok((vec![], vec![0, 1])));
        for room in 0..5 {
            compare(harness, word, room);
        }
    }
    // All lengths of one letter and of two.
    for alphabet in [1, 2] {
        for lead in 0..=34 {
            for cycle in 0..=34 {
                let letters = harness.random.bytes(70);
                let letters: Vec<u8> = letters.into_iter().map(|byte| byte % alphabet).collect();
                let word = [&letters[..lead], &letters[34..34 + cycle]];
                compare(harness, word, 64);
            }
        }
    }
}

fn random(harness: &mut Harness) {
    let random = &mut harness.random;
    let alphabet = *random.pick(&[1, 2, 2, 2, 3, 16, 255]);
    let [lead, cycle] = word(random, alphabet);
    let [lead, cycle] = respelled(random, lead, cycle);
    let needed = tidy_word(&lead, &cycle).map_or(9, |(lead, cycle)| lead.len() + cycle.len());
    let room = near(random, needed);
    if compare(harness, [&lead, &cycle], room).0.is_ok() {
        // Tidying twice changes nothing further, and keeps the sequence.
        let tidied = tidy_word(&lead, &cycle).unwrap();
        harness.by_01(&tidy_word(&tidied.0, &tidied.1), &Ok(tidied.clone()));
        let same = same_words([&lead, &cycle], [&tidied.0, &tidied.1]);
        harness.by_01(&same, &Ok(true));
    }
}
