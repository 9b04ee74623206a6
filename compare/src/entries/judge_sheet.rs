//! Sheets of words, judged on one rule.

use std::collections::BTreeSet;

use compare::library::mulgreddi_judge_sheet;
use second::game;
use second::rule::read;
use second::sample::{letters, Random, F, I};
use second::sheet::{entries, judge_sheet, Entry as SheetEntry, MASKS, WORDS};
use second::spelling::tidy_word;

use crate::harness::{Entry, Harness, Seen, RULE};
use crate::input::{any_file, good_file, near, refused, respelled};

pub const ENTRY: Entry = Entry {
    name: "judge_sheet",
    refusals: &[RULE, &[24, 16]],
    verdict: false,
    kinds: &[
        "no word",
        "64 words",
        "a shared cycle",
        "word 0",
        "word 1",
        "word 12",
        "word 13",
        "word 14",
        "word as a game too",
    ],
    round: 100_000,
    examples,
    random,
};

fn compare(harness: &mut Harness, file: &[u8], sheet: &[u8], rooms: [usize; 2]) -> Seen {
    let judged = judge_sheet(file, sheet, rooms[0], rooms[1]);
    let answers = harness.pattern(rooms[0]);
    let masks = harness.pattern(rooms[1]);
    harness.begin();
    harness.count_file(file);
    harness.count("bytes of the sheet", sheet.len());
    let entries = entries(sheet);
    harness.count("words", entries.len());
    for entry in &entries[..entries.len().min(WORDS)] {
        if let SheetEntry::Whole(lead, cycle) = entry {
            harness.count_word([lead, cycle]);
        }
    }
    if let Ok(judged) = &judged {
        harness.count("cycles", judged.cycles);
    }
    let file = harness.lend("file", file);
    let sheet = harness.lend("sheet", sheet);
    let lent_answers = harness.lend_out("answers", &answers);
    let lent_masks = harness.lend_out("masks", &masks);
    let expected = match judged {
        Ok(judged) => {
            let words = judged.answers.len();
            match words {
                0 => harness.saw("no word"),
                WORDS => harness.saw("64 words"),
                _ => {}
            }
            for answer in &judged.answers {
                harness.saw(match answer {
                    0 => "word 0",
                    1 => "word 1",
                    12 => "word 12",
                    13 => "word 13",
                    _ => "word 14",
                });
            }
            if judged.cycles < judged.answers.iter().filter(|&&answer| answer < 2).count() {
                harness.saw("a shared cycle");
            }
            for (lent, mut after, written) in [
                (lent_answers, answers, judged.answers),
                (lent_masks, masks, judged.masks),
            ] {
                after[..written.len()].copy_from_slice(&written);
                harness.expect(lent, after);
            }
            Ok((words as u64, judged.cycles as u64))
        }
        Err(number) => Err(number),
    };
    let (file, sheet) = (harness.bytes(file), harness.bytes(sheet));
    let (answers, masks) = (harness.bytes(lent_answers), harness.bytes(lent_masks));
    harness.call(expected, || unsafe {
        mulgreddi_judge_sheet(
            file.0, file.1, sheet.0, sheet.1, answers.0, answers.1, masks.0, masks.1,
        )
    });
    Seen(expected)
}

/// A sheet with its answer bytes and the number of its cycles.
type Case<'a> = (&'a [u8], &'a [u8], u64);

/// Sheets of many different cycles, and long ones of faulty words.
fn limits(harness: &mut Harness) {
    for kind in 0..12 {
        let random = &mut harness.random;
        let file = good_file(random);
        let letters_of = read(&file).unwrap().0.letters;
        let file = if letters_of < 2 { I.to_vec() } else { file };
        let cycles = if kind < 2 { 64 } else { random.between(45, 64) };
        let words = random.between(cycles, 64);
        let (mut sheet, mut known) = (Vec::new(), BTreeSet::new());
        for number in 0..words {
            let (mut lead, mut cycle);
            loop {
                let lengths = [random.between(0, 32), random.between(1, 32)];
                lead = letters(random, letters_of.max(2), lengths[0]);
                cycle = letters(random, letters_of.max(2), lengths[1]);
                // The last words have no cycle.
                if number >= cycles {
                    cycle.clear();
                    break;
                }
                if known.insert(tidy_word(&lead, &cycle).unwrap().1) {
                    break;
                }
            }
            sheet.extend([lead.len() as u8, cycle.len() as u8]);
            sheet.extend(lead.iter().chain(&cycle));
        }
        let rooms = [words, MASKS * words];
        let seen = compare(harness, &file, &sheet, rooms);
        harness.by_01(&seen.0, &Ok((words as u64, cycles as u64)));
        alone(harness, &file, &sheet, rooms);
    }
    // 64 words with all the letters that two bytes can say.
    let mut sheet = Vec::new();
    for _ in 0..70 {
        sheet.extend([255, 255]);
        sheet.extend(letters(&mut harness.random, 2, 510));
    }
    for length in [32_767, 32_768, 32_769, 33_280] {
        compare(harness, &F, &sheet[..length], [64, 4_096]);
    }
    let length = harness.random.between(32_000, 33_500);
    compare(harness, &F, &sheet[..length], [64, 4_096]);
}

/// Each word of a sheet that is served alone, as a game.
fn alone(harness: &mut Harness, file: &[u8], sheet: &[u8], rooms: [usize; 2]) {
    let (rule, _) = read(file).unwrap();
    let judged = judge_sheet(file, sheet, rooms[0], rooms[1]).unwrap();
    for (number, entry) in entries(sheet).iter().enumerate() {
        let word = entry.word(&rule);
        if word.is_ok() {
            harness.judged(true, true);
            harness.saw("word as a game too");
        }
        let mut alone = word.map_or(vec![], |word| game::masks(&rule, &word));
        alone.resize(MASKS, 0);
        harness.agree(&&judged.masks[MASKS * number..][..MASKS], &&alone[..]);
    }
}

fn examples(harness: &mut Harness) {
    limits(harness);
    let over = [0, 1, 1].repeat(65);
    for (number, file) in refused() {
        let expected = compare(harness, file, &over, [0, 0]);
        harness.by_01(&expected.0, &Err(number));
    }
    let long = [&[33, 1][..], &[9; 34], &[0, 1, 1]].concat();
    let cases: [Case; 14] = [
        (&[], &[], 0),
        // Cases 5 and 6 share the cycle 0.
        (&[2, 1, 0, 1, 0, 0, 1, 0], &[1, 0], 1),
        // A faulty word adds no cycle, and the next begins after its letters.
        (&[2, 0, 9, 9, 0, 1, 0], &[12, 0], 1),
        (&[0, 0, 0, 1, 1], &[12, 1], 1),
        (&long, &[13, 1], 1),
        (&[1, 1, 2, 0, 0, 1, 2, 0, 1, 1], &[14, 14, 1], 1),
        // A lone length byte, and words that the sheet's end cuts off.
        (&[0], &[13], 0),
        (&[0, 1, 1, 7], &[1, 13], 1),
        (&[0, 1], &[13], 0),
        (&[1, 2, 9, 9], &[13], 0),
        (&[2, 0, 9], &[12], 0),
        (&[255, 255, 1, 1, 1], &[13], 0),
        // Lead-in 0 with cycle 1 0, cycle 0 1, and cycle 1 0.
        (&[1, 2, 0, 1, 0, 0, 2, 0, 1], &[1, 1], 1),
        (&[0, 2, 0, 1, 0, 2, 1, 0], &[1, 1], 2),
    ];
    for (sheet, answers, cycles) in cases {
        let words = answers.len();
        let judged = judge_sheet(&F, sheet, words, MASKS * words);
        let judged = judged.map(|judged| (judged.answers, judged.cycles as u64));
        harness.by_01(&judged, &Ok((answers.to_vec(), cycles)));
        for (answers, masks) in [(0, 0), (0, 1), (1, 0), (1, 1)] {
            for more in [0, 9] {
                let rooms = [
                    (words + more).saturating_sub(answers),
                    (MASKS * words + more).saturating_sub(masks),
                ];
                compare(harness, &F, sheet, rooms);
                compare(harness, &I, sheet, rooms);
            }
        }
    }
    // 64 words and one more, whole, cut off and faulty.
    let most = [0, 1, 1].repeat(64);
    for more in [&[][..], &[0], &[0, 1], &[9, 0, 1], &[0, 1, 1], &[0, 0]] {
        let sheet = [&most[..], more].concat();
        for rooms in [[0, 0], [63, 4_096], [64, 4_095], [64, 4_096], [65, 4_160]] {
            let expected = compare(harness, &F, &sheet, rooms);
            let said = match rooms {
                _ if !more.is_empty() => Err(24),
                [64, 4_096] | [65, 4_160] => Ok((64, 1)),
                _ => Err(16),
            };
            harness.by_01(&expected.0, &said);
        }
    }
    // Every cut of a sheet.
    let sheet: Vec<u8> = (0..12)
        .flat_map(|n| [n % 4, n % 3, 0, 1, 1, 0, 1])
        .collect();
    for cut in 0..=sheet.len() {
        compare(harness, &F, &sheet[..cut], [64, 4_096]);
    }
    // Long sheets of any bytes.
    for length in [1_000, 4_096, 33_152, 100_000] {
        let sheet = harness.random.bytes(length);
        compare(harness, &F, &sheet, [64, 4_096]);
    }
}

/// A word on a sheet: mostly short, at times faulty in each way.
fn word(random: &mut Random, alphabet: usize, known: &mut Vec<[Vec<u8>; 2]>) -> Vec<u8> {
    let [lead, cycle] = match random.below(8) {
        // A word that is on the sheet already, or one that shares its cycle.
        0..=3 if !known.is_empty() => {
            let [mut lead, cycle] = random.pick(known).clone();
            if random.once_in(2) {
                let length = random.below(5);
                lead = letters(random, alphabet, length);
            }
            respelled(random, lead, cycle)
        }
        4 if random.once_in(4) => {
            let (lead, cycle) = (random.between(0, 34), random.between(0, 34));
            [
                letters(random, alphabet, lead),
                letters(random, alphabet, cycle),
            ]
        }
        _ => {
            let (lead, cycle) = (random.below(4), random.between(1, 4));
            [
                letters(random, alphabet, lead),
                letters(random, alphabet, cycle),
            ]
        }
    };
    let mut entry = vec![lead.len() as u8, cycle.len() as u8];
    entry.extend(lead.iter().chain(&cycle));
    match random.below(30) {
        // An empty cycle, a length over 32, a letter not below s.
        0 => {
            entry[0] += entry[1];
            entry[1] = 0;
        }
        1 => {
            let (lead, cycle) = (random.between(0, 255), random.between(0, 255));
            entry = vec![lead as u8, cycle as u8];
            entry.extend(letters(random, alphabet, lead + cycle));
        }
        2 => {
            if let Some(letter) = entry[2..].last_mut() {
                *letter = alphabet as u8;
            }
        }
        _ => known.push([lead, cycle]),
    }
    entry
}

fn random(harness: &mut Harness) {
    let random = &mut harness.random;
    let file = if random.once_in(6) {
        any_file(random)
    } else {
        good_file(random)
    };
    let alphabet = read(&file).map_or(2, |(rule, _)| rule.letters);
    let words = match random.below(24) {
        0 => random.between(60, 66),
        1 => 64,
        2..=4 => random.between(0, 20),
        _ => random.between(0, 6),
    };
    let mut known = Vec::new();
    let mut sheet = Vec::new();
    for _ in 0..words {
        sheet.extend(word(random, alphabet, &mut known));
    }
    // Cut off, with bytes of another word, or with a changed one.
    match random.below(12) {
        0 => {
            let cut = random.below(sheet.len() + 1);
            sheet.truncate(cut);
        }
        1 => drop(sheet.pop()),
        2 => sheet.push(random.byte()),
        3 if !sheet.is_empty() => {
            let at = random.below(sheet.len());
            sheet[at] = random.byte();
        }
        _ => {}
    }
    let words = entries(&sheet).len();
    let (answers, masks) = (words.min(70), MASKS * words.min(70));
    let rooms = match random.below(6) {
        0 => [near(random, answers), near(random, masks)],
        1 => [answers, near(random, masks)],
        2 => [near(random, answers), masks],
        _ => [answers, masks],
    };
    let seen = compare(harness, &file, &sheet, rooms);
    if seen.0.is_ok() {
        alone(harness, &file, &sheet, rooms);
    }
}
