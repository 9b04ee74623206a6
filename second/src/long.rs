//! The judge of words on the rule without a limit of length.

use crate::rule::{read, Rule};
use crate::word::Word;

/// Per place, the mask of the states that the rule accepts from there, for a
/// word of any length.
///
/// Components are settled one by one, those led to first. In each round a
/// component's states are worked out from the last place back to the first, so
/// that what a place says comes all the way to the word's start in one round.
pub fn masks(rule: &Rule, word: &Word) -> Vec<u8> {
    let mut masks = vec![0u8; word.places()];
    let reaches = rule.reaches();
    let mut components = rule.components();
    // What a component leads to, itself included, is a proper part of what any
    // component before it leads to.
    components.sort_by_key(|component| {
        let first = component.states.first().unwrap();
        reaches[*first].len()
    });
    for component in components {
        if component.accepting {
            masks.iter_mut().for_each(|mask| *mask |= component.mask());
        }
        let mut changed = true;
        while changed {
            changed = false;
            for place in (0..word.places()).rev() {
                let next = masks[word.following(place)];
                let mut mask = masks[place] & !component.mask();
                for &q in &component.states {
                    if rule.satisfies(next, q, word.letter(place)) {
                        mask |= 1 << q;
                    }
                }
                changed |= mask != masks[place];
                masks[place] = mask;
            }
        }
    }
    masks
}

/// Whether a rule accepts a word of any length over its letters.
pub fn accepts(rule: &Rule, lead: &[u8], cycle: &[u8]) -> bool {
    masks(rule, &Word { lead, cycle })[0] >> rule.initial & 1 == 1
}

/// The same on a file: the rule's rows, 12 and 14, but not 13.
pub fn judge_any_length(file: &[u8], lead: &[u8], cycle: &[u8]) -> Result<bool, u8> {
    let (rule, _) = read(file)?;
    if cycle.is_empty() {
        return Err(12);
    }
    let mut letters = lead.iter().chain(cycle);
    if letters.any(|&letter| letter as usize >= rule.letters) {
        return Err(14);
    }
    Ok(accepts(&rule, lead, cycle))
}

#[cfg(test)]
mod tests {
    use super::*;
    use crate::judge::accepting_masks;
    use crate::sample::{self, Random, F, I, SHAPES};

    #[test]
    fn examples() {
        let mut lead = vec![0; 100_000];
        assert_eq!(judge_any_length(&F, &lead, &[0]), Ok(false));
        lead.push(1);
        assert_eq!(judge_any_length(&F, &lead, &[0]), Ok(true));
        assert_eq!(judge_any_length(&I, &lead, &[0]), Ok(false));
        assert_eq!(judge_any_length(&I, &[], &lead), Ok(true));
        assert_eq!(judge_any_length(&I, &lead, &[]), Err(12));
        assert_eq!(judge_any_length(&I, &lead, &[2]), Err(14));
    }

    #[test]
    fn random_rules() {
        let mut random = Random::new(111);
        for _ in 0..10_000 {
            let shape = *random.pick(&SHAPES);
            let (states, alphabet) = (random.between(1, 8), random.between(1, 3));
            let rule = sample::rule(&mut random, shape, states, alphabet);
            let (lead, cycle) = (random.between(0, 8), random.between(1, 8));
            let lead = sample::letters(&mut random, alphabet, lead);
            let cycle = sample::letters(&mut random, alphabet, cycle);
            let word = Word::of_rule(&rule, &lead, &cycle).unwrap();
            assert_eq!(masks(&rule, &word), accepting_masks(&rule, &word));
        }
    }
}
