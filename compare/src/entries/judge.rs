//! The judge of words on the rule.

use compare::library::mulgreddi_judge;
use second::game;
use second::judge::judge;
use second::rule::read;
use second::sample::{D, F, I};

use crate::harness::{Entry, Harness, Seen, RULE};
use crate::input::{any_file, good_file, near, refused, word};

pub const ENTRY: Entry = Entry {
    name: "judge",
    refusals: &[RULE, &[12, 13, 14, 16]],
    verdict: true,
    kinds: &["as a game", "component by component too"],
    round: 105_000,
    examples,
    random,
};

fn compare(harness: &mut Harness, file: &[u8], word: [&[u8]; 2], room: usize) -> Seen {
    let judged = judge(file, word[0], word[1], room);
    compare_with(harness, file, word, room, judged)
}

/// The verdict and the masks, or a refusal.
type Judged = Result<(bool, Vec<u8>), u8>;

/// Compares with what the second program has answered already.
fn compare_with(
    harness: &mut Harness,
    file: &[u8],
    word: [&[u8]; 2],
    room: usize,
    judged: Judged,
) -> Seen {
    let masks = harness.pattern(room);
    harness.begin();
    harness.count_file(file);
    harness.count_word(word);
    let file = harness.lend("file", file);
    let lead = harness.lend("lead-in", word[0]);
    let cycle = harness.lend("cycle", word[1]);
    let lent = harness.lend_out("masks", &masks);
    let expected = match judged {
        Ok((yes, written)) => {
            let mut after = masks;
            after[..written.len()].copy_from_slice(&written);
            harness.expect(lent, after);
            Ok((yes.into(), 0))
        }
        Err(number) => Err(number),
    };
    let (file, masks) = (harness.bytes(file), harness.bytes(lent));
    let (lead, cycle) = (harness.bytes(lead), harness.bytes(cycle));
    harness.call(expected, || unsafe {
        mulgreddi_judge(
            file.0, file.1, lead.0, lead.1, cycle.0, cycle.1, masks.0, masks.1,
        )
    });
    Seen(expected)
}

fn examples(harness: &mut Harness) {
    for (number, file) in refused() {
        let expected = compare(harness, file, [&[], &[]], 0);
        harness.by_01(&expected.0, &Err(number));
    }
    for (word, number) in [
        ([&[0][..], &[]], 12),
        ([&[0; 33], &[0]], 13),
        ([&[2], &[0]], 14),
        ([&[0], &[0]], 16),
    ] {
        let expected = compare(harness, &F, word, 1);
        harness.by_01(&expected.0, &Err(number));
    }
    // Cases 5 to 9.
    let cases: [(&[u8], [&[u8]; 2], bool, &[u8]); 5] = [
        (&F, [&[0, 1], &[0]], true, &[1, 1, 0]),
        (&F, [&[], &[0]], false, &[0]),
        (&I, [&[1], &[0]], false, &[2, 0]),
        (&I, [&[], &[0, 1]], true, &[3, 3]),
        (&D, [&[], &[0]], true, &[3]),
    ];
    for (file, word, yes, masks) in cases {
        let judged = judge(file, word[0], word[1], masks.len());
        harness.by_01(&judged, &Ok((yes, masks.to_vec())));
        for room in 0..100 {
            compare(harness, file, word, room);
        }
    }
    // All lengths of lead-in and cycle.
    for lead in 0..=34 {
        for cycle in 0..=34 {
            let letters = harness.random.bytes(70).into_iter().map(|byte| byte % 2);
            let letters: Vec<u8> = letters.collect();
            let word = [&letters[..lead], &letters[34..34 + cycle]];
            for room in [lead + cycle, (lead + cycle).saturating_sub(1)] {
                compare(harness, &I, word, room);
            }
        }
    }
}

fn random(harness: &mut Harness) {
    let random = &mut harness.random;
    let file = if random.once_in(4) {
        any_file(random)
    } else {
        good_file(random)
    };
    let alphabet = read(&file).map_or(2, |(rule, _)| rule.letters);
    for _ in 0..4 {
        let random = &mut harness.random;
        let [lead, cycle] = word(random, alphabet);
        let room = near(random, lead.len() + cycle.len());
        let both = random.once_in(2);
        let judged = game::judge(&file, &lead, &cycle, room);
        if both {
            harness.agree(&judged, &judge(&file, &lead, &cycle, room));
        }
        if judged.is_ok() {
            harness.judged(true, both);
            harness.saw("as a game");
            if both {
                harness.saw("component by component too");
            }
        }
        compare_with(harness, &file, [&lead, &cycle], room, judged);
    }
}
