//! The build that keeps only the macrostates that matter.

use std::collections::HashMap;

use crate::build::{build, Macrostate};
use crate::graph::{components, reached, turned, with_cycle};

/// The targets of each macrostate, over any letter.
fn targets(codes: &[u64], transitions: &[u64]) -> Vec<Vec<usize>> {
    let mut targets = vec![Vec::new(); codes.len()];
    for transition in transitions {
        let (source, target) = (transition / 16_777_216, transition % 65_536);
        targets[source as usize].push(target as usize);
    }
    targets
}

/// Which macrostates of a table have an accepting run from them "on some lead-in
/// and cycle of any length": those that reach one that is accepting and lies on
/// a cycle.
pub fn matter(codes: &[u64], transitions: &[u64]) -> Vec<bool> {
    let graph = targets(codes, transitions);
    let component = components(&graph);
    let cycle = with_cycle(&graph, &component);
    let goals = (0..codes.len()).filter(|&number| {
        Macrostate::from_code(codes[number]).is_accepting() && cycle[component[number]]
    });
    reached(&turned(&graph), goals)
}

/// The table with those kept, "renumbered ascending, and the transitions between
/// them".
pub fn trim(codes: &[u64], transitions: &[u64]) -> (Vec<u64>, Vec<u64>) {
    let matter = matter(codes, transitions);
    let kept: Vec<usize> = (0..codes.len()).filter(|&number| matter[number]).collect();
    let new: HashMap<u64, u64> = kept.iter().map(|&old| old as u64).zip(0..).collect();
    let mut between = Vec::new();
    for transition in transitions {
        let (source, target) = (transition / 16_777_216, transition % 65_536);
        let letter = transition / 65_536 % 256;
        if let (Some(source), Some(target)) = (new.get(&source), new.get(&target)) {
            between.push(source * 16_777_216 + letter * 65_536 + target);
        }
    }
    (kept.into_iter().map(|old| codes[old]).collect(), between)
}

/// The trimmed build on a file and two slices of these lengths: "17 and 18 count
/// the reachable table first, as before".
pub fn build_trimmed(
    file: &[u8],
    macrostate_slice: usize,
    transition_slice: usize,
) -> Result<(Vec<u64>, Vec<u64>), u8> {
    let (codes, transitions) = build(file, macrostate_slice, transition_slice)?;
    Ok(trim(&codes, &transitions))
}

#[cfg(test)]
mod tests {
    use super::*;
    use crate::judge::accepting_masks;
    use crate::sample::{self, Random, D, E, F, I, SHAPES, Z};
    use crate::table::{lowest_start, Table};
    use crate::word::Word;

    #[test]
    fn examples() {
        let (codes, transitions) = build_trimmed(&D, 13, 26).unwrap();
        assert_eq!((codes.len(), transitions.len()), (6, 12));
        assert!(codes.contains(&4_611));
        // F keeps all, and so does E.
        assert_eq!(build_trimmed(&F, 3, 7), build(&F, 3, 7));
        assert_eq!(build_trimmed(&E, 1, 1), Ok((vec![1], vec![0])));
        // "A rule that accepts no word gives an empty table."
        assert_eq!(build_trimmed(&Z, 9, 9), Ok((vec![], vec![])));
        let stays = [1, 1, 1, 1, 0, 0, 1, 0, 0x41, 0x57];
        assert_eq!(build_trimmed(&stays, 99, 99).unwrap().0, []);
        // The rooms are those of the whole table.
        assert_eq!(build_trimmed(&D, 12, 26), Err(17));
        assert_eq!(build_trimmed(&D, 13, 25), Err(18));
        assert_eq!(build_trimmed(&Z, 0, 0), Err(17));
        assert_eq!(build_trimmed(&[0x41, 0x57], 9, 9), Err(1));
        assert!(build_trimmed(&I, 9, 9).is_ok());
    }

    /// The same by rounds: what cannot come again and again to an accepting
    /// macrostate that is still there goes, until nothing goes.
    fn matter_by_rounds(codes: &[u64], transitions: &[u64]) -> Vec<bool> {
        let graph = targets(codes, transitions);
        let back = turned(&graph);
        let mut kept = vec![true; codes.len()];
        loop {
            let accepting = (0..codes.len()).filter(|&number| {
                kept[number] && Macrostate::from_code(codes[number]).is_accepting()
            });
            // One step or more before an accepting one.
            let steps = accepting.flat_map(|number| back[number].iter().copied());
            let next = reached(&back, steps.collect::<Vec<_>>());
            if next == kept {
                return kept;
            }
            kept = next;
        }
    }

    #[test]
    fn random_rules() {
        let mut random = Random::new(92);
        let (mut smaller, mut empty, mut yes) = (0, 0, 0);
        for _ in 0..1_500 {
            let shape = *random.pick(&SHAPES);
            let (states, alphabet) = (random.between(1, 5), random.between(1, 3));
            let rule = sample::rule(&mut random, shape, states, alphabet);
            let file = sample::file(&rule);
            let Ok((codes, transitions)) = build(&file, 3_000, 20_000) else {
                continue;
            };
            let kept = matter(&codes, &transitions);
            assert_eq!(kept, matter_by_rounds(&codes, &transitions), "{rule:?}");
            let trimmed = trim(&codes, &transitions);
            smaller += usize::from(trimmed.0.len() < codes.len());
            empty += usize::from(trimmed.0.is_empty());
            // Trimming again changes nothing.
            assert_eq!(trim(&trimmed.0, &trimmed.1), trimmed);
            // "The one accepting run of each word must survive in the smaller
            // table": the same macrostate begins it.
            let whole = Table::new(&rule, &codes, &transitions).unwrap();
            let small = Table::new(&rule, &trimmed.0, &trimmed.1).unwrap();
            for _ in 0..4 {
                let (lead, cycle) = (random.between(0, 4), random.between(1, 4));
                let lead = sample::letters(&mut random, alphabet, lead);
                let cycle = sample::letters(&mut random, alphabet, cycle);
                let word = Word::of_rule(&rule, &lead, &cycle).unwrap();
                let accepted = accepting_masks(&rule, &word)[0] >> rule.initial & 1 == 1;
                let start = lowest_start(&rule, &small, &word);
                let before = lowest_start(&rule, &whole, &word);
                assert_eq!(start.is_some(), accepted, "{rule:?} {word:?}");
                let code = start.map(|number| trimmed.0[number]);
                assert_eq!(code, before.map(|number| codes[number]));
                yes += usize::from(accepted);
            }
        }
        assert!(smaller > 300 && empty > 100 && yes > 1_000);
    }
}
