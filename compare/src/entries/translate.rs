//! Logs translated by an event table.

use compare::library::mulgreddi_translate;
use second::events::translate;
use second::rule::read;
use second::sample::{Random, F};

use crate::harness::{Entry, Harness, Seen, RULE};
use crate::input::{any_file, good_file, near, refused};

pub const ENTRY: Entry = Entry {
    name: "translate",
    refusals: &[RULE, &[25, 26, 27, 16]],
    verdict: false,
    kinds: &[],
    round: 100_000,
    examples,
    random,
};

fn compare(harness: &mut Harness, file: &[u8], events: &[u8], log: &[u8], room: usize) -> Seen {
    let translated = translate(file, events, log, room);
    let letters = harness.pattern(room);
    harness.begin();
    harness.count_file(file);
    harness.count("lines", events.len().div_ceil(5));
    harness.count("events", log.len() / 2);
    let file = harness.lend("file", file);
    let events = harness.lend("events", events);
    let log = harness.lend("log", log);
    let lent = harness.lend_out("letters", &letters);
    let expected = match translated {
        Ok(written) => {
            let mut after = letters;
            after[..written.len()].copy_from_slice(&written);
            harness.expect(lent, after);
            Ok((written.len() as u64, 0))
        }
        Err(number) => Err(number),
    };
    let (file, events) = (harness.bytes(file), harness.bytes(events));
    let (log, letters) = (harness.bytes(log), harness.bytes(lent));
    harness.call(expected, || unsafe {
        mulgreddi_translate(
            file.0, file.1, events.0, events.1, log.0, log.1, letters.0, letters.1,
        )
    });
    Seen(expected)
}

const ALL: [u8; 5] = [0, 255, 0, 255, 1];

/// Long logs: served, in a slice one short, and with an event in no line at last.
fn limits(harness: &mut Harness) {
    // Every kind but 255 has lines, one of two for each drive.
    let table: Vec<u8> = (0..63u8)
        .flat_map(|line| match line {
            62 => [0, 254, 0, 255, 1],
            _ => [4 * line, 4 * line + 3, line, 128 + line, line % 2],
        })
        .collect();
    for (limit, apart) in [(65_536, 400), (1_000_000, 9_000)] {
        let random = &mut harness.random;
        let lengths = [
            limit - random.between(1, apart),
            limit,
            limit + random.between(1, apart),
        ];
        for events in lengths {
            let random = &mut harness.random;
            let mut log = random.bytes(2 * events + random.clone().below(2));
            log.iter_mut().step_by(2).for_each(|kind| *kind %= 255);
            let expected = compare(harness, &F, &table, &log, events);
            harness.by_01(&expected.0, &Ok((events as u64, 0)));
            if limit < 100_000 {
                compare(harness, &F, &table, &log, events - 1);
                log[2 * events - 2] = 255;
                let expected = compare(harness, &F, &table, &log, events);
                harness.by_01(&expected.0, &Err(27));
            }
        }
    }
}

fn examples(harness: &mut Harness) {
    limits(harness);
    for (number, file) in refused() {
        let expected = compare(harness, file, &[9], &[0, 0], 0);
        harness.by_01(&expected.0, &Err(number));
    }
    let two = [&[3, 5, 0, 7, 0][..], &ALL].concat();
    let turned = [&ALL[..], &[3, 5, 0, 7, 0]].concat();
    // Lines that two and three earlier ones cover together.
    let by_two = [[0, 9, 0, 9, 0], [10, 19, 0, 9, 1], [5, 15, 2, 8, 0]].concat();
    let by_three = [
        [0, 9, 0, 9, 0],
        [10, 19, 0, 5, 1],
        [10, 19, 6, 9, 1],
        [5, 15, 2, 8, 0],
    ]
    .concat();
    let nearly = [
        [0, 9, 0, 9, 0],
        [10, 19, 0, 5, 1],
        [10, 19, 7, 9, 1],
        [5, 15, 2, 8, 0],
    ]
    .concat();
    let single: Vec<u8> = (0..64)
        .flat_map(|kind| [kind, kind, 0, 255, kind % 2])
        .collect();
    let one_more = [&single[..], &[64, 64, 0, 255, 0]].concat();
    let cases: [(&[u8], &[u8], Result<(u64, u64), u8>); 14] = [
        (&[], &[], Ok((0, 0))),
        (&[], &[7], Ok((0, 0))),
        (&[], &[7, 7], Err(27)),
        (&ALL, &[0, 0, 255, 255, 9], Ok((2, 0))),
        (&two, &[3, 0, 5, 7, 2, 0, 4, 8], Ok((4, 0))),
        (&turned, &[3, 0], Err(26)),
        (&by_two, &[], Err(26)),
        (&by_three, &[], Err(26)),
        (&nearly, &[99, 99], Err(27)),
        (&single, &[63, 9, 0, 0], Ok((2, 0))),
        (&one_more, &[], Err(25)),
        (&single[..319], &[], Err(25)),
        (&[5, 4, 0, 0, 0], &[], Err(25)),
        (&[0, 0, 0, 0, 2], &[], Err(25)),
    ];
    for (events, log, said) in cases {
        let expected = compare(harness, &F, events, log, 9);
        harness.by_01(&expected.0, &said);
        for room in 0..6 {
            compare(harness, &F, events, log, room);
        }
    }
}

/// A line, mostly of a narrow range; at times with a fault of row 25.
fn line(random: &mut Random, letters: usize, wide: usize) -> [u8; 5] {
    let mut range = || {
        let low = random.below(256 - wide.min(255));
        let high = low + random.below(wide.min(256 - low).max(1));
        [low as u8, high as u8]
    };
    let ([a, b], [c, d]) = (range(), range());
    let letter = random.below(letters) as u8;
    match random.below(300) {
        0 => [b.max(1), b.max(1) - 1, c, d, letter],
        1 => [a, b, d.max(1), d.max(1) - 1, letter],
        2 => [a, b, c, d, letters as u8],
        _ => [a, b, c, d, letter],
    }
}

fn random(harness: &mut Harness) {
    let random = &mut harness.random;
    let file = match random.below(8) {
        0 => any_file(random),
        1 => good_file(random),
        _ => F.to_vec(),
    };
    let letters = read(&file).map_or(2, |(rule, _)| rule.letters);
    let lines = match random.below(10) {
        0 => random.between(0, 66),
        1 => 64,
        2..=4 => random.between(0, 12),
        _ => random.between(0, 4),
    };
    let wide = *random.pick(&[4, 16, 64, 256]);
    let mut events: Vec<u8> = (0..lines)
        .flat_map(|_| line(random, letters, wide))
        .collect();
    match random.below(12) {
        0 => drop(events.pop()),
        1..=6 if lines < 60 => events.extend([0, 255, 0, 255, 0]),
        _ => {}
    }
    let length = random.below(24);
    let log: Vec<u8> = (0..length)
        .map(|_| (random.below(wide.min(255) + 1)) as u8)
        .collect();
    let room = near(random, length / 2);
    compare(harness, &file, &events, &log, room);
}
