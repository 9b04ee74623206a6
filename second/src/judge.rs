//! The judge of words on the rule.

use crate::rule::{read, Rule};
use crate::word::Word;

/// Per place, the mask of the states that the rule accepts from there.
///
/// A cycle of reached pairs stays in one component, so components are settled
/// one by one, those led to first: a rejecting one by its least fixed point (no
/// pair of it may come round again), an accepting one by its greatest.
pub fn accepting_masks(rule: &Rule, word: &Word) -> Vec<u8> {
    let mut masks = vec![0u8; word.places()];
    let reaches = rule.reaches();
    let mut waiting = rule.components();
    while !waiting.is_empty() {
        let bottom = waiting.iter().position(|component| {
            let other = |&q: &usize| !component.states.contains(&q);
            let led = component.states.iter().flat_map(|&q| &reaches[q]).copied();
            led.filter(other)
                .all(|q| waiting.iter().all(|later| !later.states.contains(&q)))
        });
        let component = waiting.remove(bottom.expect("components form an order"));
        let own = component.mask();
        if component.accepting {
            masks.iter_mut().for_each(|mask| *mask |= own);
        }
        // One round after another until nothing changes.
        loop {
            let before = masks.clone();
            for place in 0..word.places() {
                let next = before[word.following(place)];
                for &q in &component.states {
                    if rule.satisfies(next, q, word.letter(place)) {
                        masks[place] |= 1 << q;
                    } else {
                        masks[place] &= !(1 << q);
                    }
                }
            }
            if masks == before {
                break;
            }
        }
    }
    masks
}

/// "The judge answers yes or no for the initial state at place 0 and writes,
/// per place, the mask of accepting pairs' states". Rows 1 to 14, then 16.
pub fn judge(file: &[u8], lead: &[u8], cycle: &[u8], room: usize) -> Result<(bool, Vec<u8>), u8> {
    let (rule, _) = read(file)?;
    let word = Word::of_rule(&rule, lead, cycle)?;
    if room < word.places() {
        return Err(16);
    }
    let masks = accepting_masks(&rule, &word);
    Ok((masks[0] >> rule.initial & 1 == 1, masks))
}
