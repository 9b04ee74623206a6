//! The tidy tool for rule files in which a clause contains another.

use crate::names;
use crate::rule::{take_apart, write_named, Rule};

/// The clauses of an entry that stay: the tool "drops every clause containing
/// an earlier kept one or properly containing any".
pub fn tidy_entry(clauses: &[u8]) -> Vec<u8> {
    let contains = |clause: u8, other: u8| clause & other == other;
    let mut kept: Vec<u8> = Vec::new();
    for &clause in clauses {
        let earlier = kept.iter().any(|&other| contains(clause, other));
        let properly = clauses
            .iter()
            .any(|&other| contains(clause, other) && clause != other);
        if !earlier && !properly {
            kept.push(clause);
        }
    }
    kept
}

/// The rule with every entry tidied.
pub fn tidy_rule(rule: &Rule) -> Rule {
    let mut tidied = rule.clone();
    for clauses in tidied.entries.iter_mut().flatten() {
        *clauses = tidy_entry(clauses);
    }
    tidied
}

/// The tidied file, "laid out as the writer does it": of the preface the names
/// stay. "the tidy tool skips this check alone": rows 1 to 10, then 11 on the
/// rule as it stands, then 21 to 23.
pub fn tidy(file: &[u8]) -> Result<Vec<u8>, u8> {
    let (rule, preface) = take_apart(file)?;
    if rule.mixed() {
        return Err(11);
    }
    let names = names::of_preface(preface, rule.letters)?;
    let names = names.unwrap_or_default().concat();
    let tidied = tidy_rule(&rule);
    let entries = tidied.entries.iter().flatten();
    let counts: Vec<u8> = entries.clone().map(|clauses| clauses.len() as u8).collect();
    let clauses: Vec<u8> = entries.flatten().copied().collect();
    let [n, s, initial] = [tidied.states, tidied.letters, tidied.initial].map(|x| x as u32);
    let numbers = [n, s, initial, tidied.accepting.into()];
    let written = write_named(numbers, &counts, &clauses, &names, usize::MAX);
    Ok(written.expect("a tidied rule passes every row"))
}

#[cfg(test)]
mod tests {
    use super::*;
    use crate::judge::accepting_masks;
    use crate::rule::{read, same_rules};
    use crate::sample::{self, Random, D, E, F, I, SHAPES, Z};
    use crate::word::Word;

    #[test]
    fn entries() {
        assert_eq!(tidy_entry(&[]), []);
        assert_eq!(tidy_entry(&[5]), [5]);
        // A repeated clause stays once, where it stands first.
        assert_eq!(tidy_entry(&[1, 2, 1, 2]), [1, 2]);
        // A clause goes before and after the one that it contains.
        assert_eq!(tidy_entry(&[3, 2, 6]), [2]);
        assert_eq!(tidy_entry(&[7, 3, 4, 3]), [3, 4]);
        assert_eq!(tidy_entry(&[1, 2, 0, 4, 0]), [0]);
        // No clause inside another: all stay, in their order.
        assert_eq!(tidy_entry(&[6, 3, 5]), [6, 3, 5]);
    }

    #[test]
    fn files() {
        for rule in [&F[..], &D, &E, &I, &Z] {
            assert_eq!(tidy(rule), Ok(rule.to_vec()));
            assert_eq!(tidy(&[&[9, 9], rule].concat()), Ok(rule.to_vec()));
        }
        let nested = [1, 0, 2, 1, 1, 0, 0, 2, 0, 0x41, 0x57];
        assert_eq!(read(&nested), Err(20));
        let tidied = vec![0, 1, 1, 1, 0, 0, 1, 0, 0x41, 0x57];
        assert_eq!(tidy(&nested), Ok(tidied));
        // State 0 leads to 1 only by a clause that goes, which glues the
        // states together: 11, "the rule as it stands".
        let glued = [1, 3, 1, 2, 1, 2, 1, 0, 1, 3, 0, 0x41, 0x57];
        assert_eq!(read(&glued), Err(20));
        assert_eq!(tidy(&glued), Err(11));
        // The same without the mix: the components come apart.
        let glued = [1, 3, 1, 2, 1, 2, 1, 0, 0, 3, 0, 0x41, 0x57];
        let parts = vec![1, 1, 1, 1, 2, 1, 0, 0, 2, 0, 0x41, 0x57];
        assert_eq!(tidy(&glued), Ok(parts));
        // Row 10 over the whole input comes first.
        let over = [2, 1, 2, 1, 1, 0, 0, 2, 0, 0x41, 0x57];
        assert_eq!(tidy(&over), Err(10));
        assert_eq!(tidy(&[0x41, 0x57]), Err(1));
    }

    #[test]
    fn random_rules() {
        let mut random = Random::new(11);
        let mut dropped = 0;
        for _ in 0..3_000 {
            let shape = *random.pick(&SHAPES);
            let (states, letters) = (random.between(1, 8), random.between(1, 4));
            let rule = sample::nested_rule(&mut random, shape, states, letters);
            let file = sample::file(&rule);
            let tidied = tidy(&file).unwrap();
            let (tidy_rule, preface) = read(&tidied).unwrap();
            assert_eq!(preface, 0);
            assert_eq!(read(&file).is_ok(), file == tidied);
            dropped += usize::from(file != tidied);
            // Tidying twice changes nothing, and every entry is met by the same
            // sets as before.
            assert_eq!(tidy(&tidied).as_ref(), Ok(&tidied));
            assert_eq!(same_rules(&tidied, &tidied), Ok(true));
            for (q, letter) in (0..states).flat_map(|q| (0..letters).map(move |x| (q, x))) {
                for set in 0..=255 {
                    let met = rule.satisfies(set, q, letter);
                    assert_eq!(met, tidy_rule.satisfies(set, q, letter));
                }
            }
            // "equal truth masks on all words"
            for _ in 0..3 {
                let (lead, cycle) = (random.between(0, 4), random.between(1, 4));
                let lead = sample::letters(&mut random, letters, lead);
                let cycle = sample::letters(&mut random, letters, cycle);
                let word = Word::of_rule(&rule, &lead, &cycle).unwrap();
                let masks = accepting_masks(&rule, &word);
                assert_eq!(masks, accepting_masks(&tidy_rule, &word));
            }
        }
        assert!(dropped > 1_000);
    }

    #[test]
    fn samples_pass_row_20() {
        let mut random = Random::new(12);
        let (mut several, mut eight) = (0, 0);
        for _ in 0..3_000 {
            let shape = *random.pick(&SHAPES);
            let rule = sample::rule(&mut random, shape, 8, 4);
            assert!(read(&sample::file(&rule)).is_ok());
            let counts = rule.entries.iter().flatten().map(Vec::len);
            several += counts.clone().filter(|&count| count > 1).count();
            eight += counts.filter(|&count| count == 8).count();
        }
        assert!(several > 10_000 && eight > 1_000, "{several} {eight}");
    }
}
