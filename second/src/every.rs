//! Every rule of a few states and letters, and every word of a few letters.

use crate::rule::Rule;
use crate::spelling::tidy;
use crate::word::Word;

/// Every entry over so many states that row 20 lets pass, as a list of clauses:
/// no clause contains another of its entry. (With three states or fewer such a
/// list never has more than 3 clauses.)
pub fn entries(states: usize) -> Vec<Vec<u8>> {
    let mut entries: Vec<Vec<u8>> = vec![vec![]];
    let mut next = 0;
    while next < entries.len() {
        let entry = entries[next].clone();
        for clause in 0..1u8 << states {
            let apart = |&other: &u8| clause & !other != 0 && other & !clause != 0;
            if entry.iter().all(apart) {
                entries.push([&entry[..], &[clause]].concat());
            }
        }
        next += 1;
    }
    entries
}

/// Every rule of so many states and letters that passes rows 3 to 11 and 20, the
/// order of an entry's clauses counted.
pub fn rules(states: usize, letters: usize) -> Vec<Rule> {
    let all = entries(states);
    let count = all.len();
    let mut rules = Vec::new();
    for number in 0..count.pow((states * letters) as u32) {
        let entry = |q: usize, letter: usize| {
            let place = (q * letters + letter) as u32;
            all[number / count.pow(place) % count].clone()
        };
        let row = |q: usize| (0..letters).map(|letter| entry(q, letter)).collect();
        let entries: Vec<Vec<Vec<u8>>> = (0..states).map(row).collect();
        for initial in 0..states {
            for accepting in 0..1u8 << states {
                let rule = Rule {
                    states,
                    letters,
                    initial,
                    accepting,
                    entries: entries.clone(),
                };
                if !rule.mixed() {
                    rules.push(rule);
                }
            }
        }
    }
    rules
}

/// All lists of so many letters.
fn lists(letters: usize, length: usize) -> Vec<Vec<u8>> {
    let mut lists = vec![vec![]];
    for _ in 0..length {
        let longer = lists.iter().flat_map(|list: &Vec<u8>| {
            (0..letters).map(move |letter| [&list[..], &[letter as u8]].concat())
        });
        lists = longer.collect();
    }
    lists
}

/// Every word with a lead-in and a cycle up to these lengths.
pub fn words(letters: usize, lead: usize, cycle: usize) -> Vec<[Vec<u8>; 2]> {
    let leads: Vec<_> = (0..=lead).flat_map(|own| lists(letters, own)).collect();
    let cycles: Vec<_> = (1..=cycle).flat_map(|own| lists(letters, own)).collect();
    let words = leads.iter().flat_map(|lead| {
        cycles
            .iter()
            .map(move |cycle| [lead.clone(), cycle.clone()])
    });
    words.collect()
}

/// Of every word with a lead-in and a cycle up to these lengths its tidy
/// spelling: each endless sequence once.
pub fn sequences(letters: usize, lead: usize, cycle: usize) -> Vec<[Vec<u8>; 2]> {
    let mut words = words(letters, lead, cycle);
    words.retain(|[lead, cycle]| {
        let (own_lead, own_cycle) = tidy(&Word { lead, cycle });
        (&own_lead, &own_cycle) == (lead, cycle)
    });
    words
}

#[cfg(test)]
mod tests {
    use super::*;
    use crate::rule::read;
    use crate::sample::file;

    #[test]
    fn counts() {
        // None, the empty clause, {0}; and {1}, {0, 1} and two orders of {0}, {1}.
        assert_eq!(entries(1), [vec![], vec![0], vec![1]]);
        assert_eq!(entries(2).len(), 7);
        assert_eq!(rules(1, 1).len(), 6);
        assert_eq!(rules(1, 2).len(), 18);
        for (states, letters) in [(1, 1), (1, 2), (2, 1), (2, 2)] {
            for rule in rules(states, letters) {
                assert_eq!(read(&file(&rule)), Ok((rule, 0)));
            }
        }
    }

    /// Every file of two states and one letter, found by its bytes: three clauses
    /// an entry at the most, since four different ones hold one inside another.
    #[test]
    fn no_other_file() {
        let mut found = 0;
        for counts in 0..16u32 {
            let (first, second) = (counts % 4, counts / 4);
            let c = first + second;
            for clauses in 0..4u32.pow(c) {
                let mut bytes: Vec<u8> = (0..c).map(|at| (clauses >> (2 * at) & 3) as u8).collect();
                bytes.extend([first as u8, second as u8]);
                for numbers in 0..8u8 {
                    let trailer = [2, 1, numbers % 2, numbers / 2, c as u8, 0, 0x41, 0x57];
                    found += usize::from(read(&[&bytes[..], &trailer].concat()).is_ok());
                }
            }
        }
        assert_eq!(found, rules(2, 1).len());
    }

    #[test]
    fn all_words() {
        assert_eq!(words(2, 1, 2).len(), 3 * 6);
        assert_eq!(words(3, 2, 2).len(), 13 * 12);
        let sequences = sequences(2, 2, 2);
        assert!(sequences.len() < words(2, 2, 2).len());
        for [lead, cycle] in words(2, 2, 2) {
            let word = Word {
                lead: &lead,
                cycle: &cycle,
            };
            let same = |[lead, cycle]: &&[Vec<u8>; 2]| word.agrees(&Word { lead, cycle });
            assert_eq!(sequences.iter().filter(same).count(), 1);
        }
    }
}
