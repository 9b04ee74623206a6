//! A sheet of words, judged on one rule.

use std::collections::BTreeSet;

use crate::judge::accepting_masks;
use crate::rule::{read, Rule};
use crate::spelling::tidy;
use crate::word::{Word, LONGEST};

/// "judges up to 64 words on one rule"
pub const WORDS: usize = 64;
/// "Each word has 64 mask bytes"
pub const MASKS: usize = 64;

/// A word as it stands on a sheet.
#[derive(Clone, Copy, Debug, PartialEq, Eq)]
pub enum Entry<'a> {
    /// "a lone length byte"
    Lone,
    /// A word that the sheet's end cuts off, with its two length bytes.
    Cut(u8, u8),
    /// A word with all its letters.
    Whole(&'a [u8], &'a [u8]),
}

/// The words of a sheet: "for each word two length bytes, lead-in and cycle,
/// then its letters". "The next word begins after as many letters as the two
/// bytes say, faulty or not."
pub fn entries(sheet: &[u8]) -> Vec<Entry<'_>> {
    let mut entries = Vec::new();
    let mut rest = sheet;
    while !rest.is_empty() {
        let [lead, cycle, letters @ ..] = rest else {
            entries.push(Entry::Lone);
            break;
        };
        let length = *lead as usize + *cycle as usize;
        if letters.len() < length {
            entries.push(Entry::Cut(*lead, *cycle));
            break;
        }
        let (word, later) = letters.split_at(length);
        let (lead, cycle) = word.split_at(*lead as usize);
        entries.push(Entry::Whole(lead, cycle));
        rest = later;
    }
    entries
}

impl<'a> Entry<'a> {
    /// The word, or "a faulty word's own number": the first of 12, 13 and 14.
    /// "a word that the sheet's end cuts off falls under 13, as does a lone
    /// length byte"
    pub fn word(&self, rule: &Rule) -> Result<Word<'a>, u8> {
        match *self {
            Entry::Lone => Err(13),
            Entry::Cut(_, 0) => Err(12),
            Entry::Cut(_, _) => Err(13),
            Entry::Whole(lead, cycle) => Word::of_rule(rule, lead, cycle),
        }
    }
}

/// What a sheet is answered with.
#[derive(Clone, Debug, PartialEq, Eq)]
pub struct Answered {
    /// "0 no, 1 yes, or a faulty word's own number", in sheet order.
    pub answers: Vec<u8>,
    /// 64 bytes a word, "those past its places zero, a faulty word's all zero".
    pub masks: Vec<u8>,
    /// "the number of distinct tidy cycles on the sheet"; "A faulty word adds no
    /// cycle to the count".
    pub cycles: usize,
}

/// The sheet answered "as if each word were judged alone": the rule's rows, 24,
/// then 16 for either slice.
pub fn judge_sheet(
    file: &[u8],
    sheet: &[u8],
    answers_room: usize,
    masks_room: usize,
) -> Result<Answered, u8> {
    let (rule, _) = read(file)?;
    let entries = entries(sheet);
    // "24, sheet of more than 64 words, right after the rule's checks"
    if entries.len() > WORDS {
        return Err(24);
    }
    if answers_room < entries.len() || masks_room < MASKS * entries.len() {
        return Err(16);
    }
    let mut answers = Vec::new();
    let mut masks = Vec::new();
    let mut cycles = BTreeSet::new();
    for entry in entries {
        let mut own = Vec::new();
        match entry.word(&rule) {
            Err(number) => answers.push(number),
            Ok(word) => {
                own = accepting_masks(&rule, &word);
                answers.push(own[0] >> rule.initial & 1);
                cycles.insert(tidy(&word).1);
            }
        }
        own.resize(MASKS, 0);
        masks.extend(own);
    }
    Ok(Answered {
        answers,
        masks,
        cycles: cycles.len(),
    })
}

// The masks of the longest word fit.
const _: () = assert!(2 * LONGEST == MASKS);

#[cfg(test)]
mod tests {
    use super::*;
    use crate::judge::judge;
    use crate::sample::{self, Random, F, I, SHAPES};

    fn judged(file: &[u8], sheet: &[u8]) -> Answered {
        judge_sheet(file, sheet, 64, 4_096).unwrap()
    }

    #[test]
    fn examples() {
        // No word at all.
        let none = judged(&F, &[]);
        assert_eq!(
            (none.answers.len(), none.masks.len(), none.cycles),
            (0, 0, 0)
        );
        // Cases 5 and 6: both have the cycle 0.
        let sheet = [2, 1, 0, 1, 0, 0, 1, 0];
        let two = judged(&F, &sheet);
        assert_eq!((two.answers, two.cycles), (vec![1, 0], 1));
        assert_eq!(two.masks[..4], [1, 1, 0, 0]);
        assert_eq!(two.masks[4..], [0; 124]);
        // The word of 02, spelled twice: one tidy cycle; turned, another.
        let sheet = [1, 2, 0, 1, 0, 0, 2, 0, 1];
        assert_eq!(judged(&I, &sheet).cycles, 1);
        let sheet = [1, 2, 0, 1, 0, 0, 2, 0, 1, 0, 2, 1, 0];
        assert_eq!(judged(&I, &sheet).cycles, 2);
        // 1 0 1 0 after a 0 is the cycle 0 1 again.
        let sheet = [1, 4, 0, 1, 0, 1, 0, 0, 2, 0, 1];
        let one = judged(&I, &sheet);
        assert_eq!((one.answers, one.cycles), (vec![1, 1], 1));
        assert_eq!(one.masks[..6], [3, 3, 3, 3, 3, 0]);
        assert_eq!(one.masks[64..68], [3, 3, 0, 0]);
    }

    #[test]
    fn faulty_words() {
        let answers = |sheet: &[u8]| judged(&F, sheet).answers;
        // 12, and the next word after its letters.
        assert_eq!(answers(&[2, 0, 9, 9, 0, 1, 0]), [12, 0]);
        assert_eq!(answers(&[0, 0, 0, 1, 1]), [12, 1]);
        // 13 for 33 letters, whatever they are; the next word after them.
        let mut sheet = vec![33, 1];
        sheet.extend([9; 34]);
        sheet.extend([0, 1, 1]);
        assert_eq!(answers(&sheet), [13, 1]);
        // An empty cycle after 33 letters is 12.
        let mut sheet = vec![33, 0];
        sheet.extend([0; 33]);
        assert_eq!(answers(&sheet), [12]);
        // 14 in the lead-in and in the cycle.
        assert_eq!(answers(&[1, 1, 2, 0, 0, 1, 2, 0, 1, 1]), [14, 14, 1]);
        // A lone length byte, 0 or not.
        assert_eq!(answers(&[0]), [13]);
        assert_eq!(answers(&[0, 1, 1, 7]), [1, 13]);
        // Cut off: 13 even with a bad letter, 12 with an empty cycle.
        assert_eq!(answers(&[0, 1]), [13]);
        assert_eq!(answers(&[1, 1, 0]), [13]);
        assert_eq!(answers(&[1, 2, 9, 9]), [13]);
        assert_eq!(answers(&[2, 0, 9]), [12]);
        assert_eq!(answers(&[255, 255, 1, 1, 1]), [13]);
        // Faulty words fill nothing and count no cycle.
        let some = judged(&F, &[0, 1, 2, 0, 0, 0, 1, 1, 0, 2, 1]);
        assert_eq!((some.answers, some.cycles), (vec![14, 12, 1, 13], 1));
        let mut masks = vec![0; 256];
        masks[128] = 1;
        assert_eq!(some.masks, masks);
    }

    #[test]
    fn refused() {
        let most = [0, 1, 1].repeat(64);
        assert_eq!(judged(&F, &most).answers, [1; 64]);
        let over = [0, 1, 1].repeat(65);
        assert_eq!(judge_sheet(&F, &over, 0, 0), Err(24));
        // A lone byte or a cut-off word is one more.
        for more in [&[0][..], &[0, 1], &[9, 0, 1]] {
            let over = [&most, more].concat();
            assert_eq!(judge_sheet(&F, &over, 64, 4_096), Err(24));
        }
        let faulty = [0, 0].repeat(64);
        assert_eq!(judged(&F, &faulty).answers, [12; 64]);
        assert_eq!(judge_sheet(&F, &[0, 0].repeat(65), 0, 0), Err(24));
        assert_eq!(judge_sheet(&F, &most, 63, 4_096), Err(16));
        assert_eq!(judge_sheet(&F, &most, 64, 4_095), Err(16));
        assert_eq!(judge_sheet(&[0x41, 0x57], &over, 0, 0), Err(1));
        assert!(judge_sheet(&F, &[], 0, 0).is_ok());
    }

    #[test]
    fn as_judged_alone() {
        let mut random = Random::new(71);
        for _ in 0..500 {
            let shape = *random.pick(&SHAPES);
            let (states, letters) = (random.between(1, 8), random.between(1, 3));
            let rule = sample::rule(&mut random, shape, states, letters);
            let file = sample::file(&rule);
            let mut sheet = Vec::new();
            let mut words = Vec::new();
            for _ in 0..random.below(20) {
                let (lead, cycle) = (random.between(0, 33), random.between(0, 5));
                // Now and then a letter that is too high.
                let over = letters + usize::from(random.once_in(8));
                let lead = sample::letters(&mut random, over, lead);
                let cycle = sample::letters(&mut random, over, cycle);
                sheet.extend([lead.len() as u8, cycle.len() as u8]);
                sheet.extend(lead.iter().chain(&cycle));
                words.push((lead, cycle));
            }
            let answered = judged(&file, &sheet);
            assert_eq!(answered.answers.len(), words.len());
            for (number, (lead, cycle)) in words.iter().enumerate() {
                let (answer, mut masks) = match judge(&file, lead, cycle, 64) {
                    Ok((yes, masks)) => (yes.into(), masks),
                    Err(row) => (row, vec![]),
                };
                masks.resize(64, 0);
                assert_eq!(answered.answers[number], answer);
                assert_eq!(answered.masks[number * 64..][..64], masks);
            }
        }
    }
}
