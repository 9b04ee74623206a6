//! One endless sequence, many spellings.

use crate::word::Word;

/// A lead-in and a cycle.
pub type Spelling = (Vec<u8>, Vec<u8>);

/// "the shortest cycle, then the shortest lead-in": all spellings of the word
/// that are no longer in either part are tried in this order. A spelling's
/// letters are those of the word's first steps.
pub fn tidy(word: &Word) -> Spelling {
    for cycle in 1..=word.cycle.len() {
        // Beyond the word's lead-in, more lead-in makes no cycle shorter.
        for lead in 0..=word.lead.len() {
            let letters: Vec<u8> = (0..lead + cycle).map(|step| word.at(step)).collect();
            let (lead, cycle) = letters.split_at(lead);
            if word.agrees(&Word { lead, cycle }) {
                return (lead.to_vec(), cycle.to_vec());
            }
        }
    }
    unreachable!("a word is a spelling of itself")
}

/// The tidy spelling of a word; rows 12 and 13.
pub fn tidy_word(lead: &[u8], cycle: &[u8]) -> Result<Spelling, u8> {
    Ok(tidy(&Word::new(lead, cycle)?))
}

#[cfg(test)]
mod tests {
    use super::*;
    use crate::sample::{self, Random};
    use crate::word::same_words;

    fn tidied(lead: &[u8], cycle: &[u8]) -> Spelling {
        tidy_word(lead, cycle).unwrap()
    }

    fn spelling(lead: &[u8], cycle: &[u8]) -> Spelling {
        (lead.to_vec(), cycle.to_vec())
    }

    #[test]
    fn examples() {
        // The two spellings that 02 names.
        assert_eq!(same_words([&[0], &[1, 0]], [&[], &[0, 1]]), Ok(true));
        assert_eq!(tidied(&[0], &[1, 0]), spelling(&[], &[0, 1]));
        assert_eq!(tidied(&[], &[0, 1]), spelling(&[], &[0, 1]));
        assert_eq!(tidied(&[5, 5], &[5, 5, 5]), spelling(&[], &[5]));
        assert_eq!(tidied(&[1, 0], &[0, 0]), spelling(&[1], &[0]));
        // The cycle turns as letters leave the lead-in.
        let turned = spelling(&[7], &[2, 3, 1]);
        assert_eq!(tidied(&[7, 2, 3], &[1, 2, 3, 1, 2, 3]), turned);
        // The shortest cycle counts, not the shortest word.
        assert_eq!(tidied(&[0, 1], &[2]), spelling(&[0, 1], &[2]));
        // A cycle of two starts is none of both.
        assert_eq!(same_words([&[], &[0, 1]], [&[], &[1, 0]]), Ok(false));
        assert_eq!(tidied(&[0; 32], &[0; 32]), spelling(&[], &[0]));
        assert_eq!(tidy_word(&[0; 33], &[]), Err(12));
        assert_eq!(tidy_word(&[0; 33], &[0]), Err(13));
        assert_eq!(tidy_word(&[], &[0; 33]), Err(13));
        // Letters of any value: no rule is at hand.
        assert_eq!(tidied(&[255], &[9, 255]), spelling(&[], &[255, 9]));
    }

    #[test]
    fn late_differences() {
        let (mut one, mut other) = ([0; 32], [0; 31]);
        assert_eq!(same_words([&[], &one], [&[], &other]), Ok(true));
        one[31] = 1;
        other[30] = 1;
        assert_eq!(same_words([&[], &one], [&[], &other]), Ok(false));
        // Equal for 31 steps and more, then not.
        let lead = [&other[..], &[0]].concat();
        assert_eq!(same_words([&lead, &other], [&lead, &one]), Ok(false));
        assert_eq!(same_words([&other, &other], [&[], &other]), Ok(true));
    }

    /// Many words of few letters: "Words are the same exactly when their tidy
    /// spellings are equal, and tidying twice changes nothing further."
    #[test]
    fn tidy_spellings_tell_words_apart() {
        let mut words = vec![];
        for lead in 0..4 {
            for cycle in 1..5 {
                for number in 0..1u32 << (lead + cycle) {
                    let letters: Vec<u8> = (0..lead + cycle)
                        .map(|place| (number >> place & 1) as u8)
                        .collect();
                    words.push((letters[..lead].to_vec(), letters[lead..].to_vec()));
                }
            }
        }
        for first in &words {
            let (lead, cycle) = tidied(&first.0, &first.1);
            assert_eq!(tidied(&lead, &cycle), (lead.clone(), cycle.clone()));
            for second in &words {
                let same = same_words([&first.0, &first.1], [&second.0, &second.1]);
                let equal = tidied(&second.0, &second.1) == (lead.clone(), cycle.clone());
                assert_eq!(same, Ok(equal), "{first:?} {second:?}");
            }
        }
    }

    /// The other way round: from a tidy spelling, unrolled and repeated, the
    /// same spelling comes back.
    #[test]
    fn unrolled_words() {
        let mut random = Random::new(61);
        for _ in 0..5_000 {
            let (lead, cycle) = (random.between(0, 8), random.between(1, 8));
            let lead = sample::letters(&mut random, 2, lead);
            let cycle = sample::letters(&mut random, 2, cycle);
            let short = tidied(&lead, &cycle);
            let repeated = short.1.repeat(random.between(1, 32 / short.1.len()));
            let unroll = random.between(0, 24);
            let turned = unroll % repeated.len();
            let mut long = short.0.clone();
            long.extend(repeated.iter().cycle().take(unroll));
            let cycle = [&repeated[turned..], &repeated[..turned]].concat();
            assert_eq!(tidied(&long, &cycle), short);
            let same = same_words([&long, &cycle], [&short.0, &short.1]);
            assert_eq!(same, Ok(true));
        }
    }
}
