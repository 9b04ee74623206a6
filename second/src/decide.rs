//! Words that decide: a list of them such that every word, whatever the lengths of
//! its lead-in and cycle, is answered as one of the list is. For small rules and
//! small tables such lists are found here, without a build and without a
//! macrostate being compared with a rule.
//!
//! What a finite part of a word does is a function. Parts that do the same can
//! stand for each other, in a lead-in and in a cycle, so the functions are found
//! by making parts longer letter by letter until nothing new comes.

use std::collections::{HashMap, HashSet};
use std::hash::Hash;

use crate::rule::{Component, Rule};
use crate::table::Table;

/// A lead-in and a cycle.
pub type Lasso = [Vec<u8>; 2];

/// All functions of finite parts, each with a shortest part that has it; the empty
/// part comes first. None where there are more than `most`.
fn parts<F: Clone + Eq + Hash>(
    letters: usize,
    empty: F,
    longer: impl Fn(&F, usize) -> F,
    most: usize,
) -> Option<Vec<(F, Vec<u8>)>> {
    let mut known = HashSet::from([empty.clone()]);
    let mut parts = vec![(empty, vec![])];
    // What one letter or more does may be what the empty part does.
    let mut next = 0;
    while next < parts.len() {
        for letter in 0..letters {
            let (function, word) = &parts[next];
            let function = longer(function, letter);
            if known.insert(function.clone()) {
                let word = [&word[..], &[letter as u8]].concat();
                parts.push((function, word));
            }
        }
        if parts.len() > most {
            return None;
        }
        next += 1;
    }
    Some(parts)
}

/// The words of all parts as lead-ins and as cycles, one for each verdict: `turn`
/// says what is true of a part repeated for ever, `before` what is true before a
/// part if that is true behind it.
fn lassos<F: Clone + Eq + Hash, T: Copy + Eq + Hash>(
    parts: &[(F, Vec<u8>)],
    returning: Option<&(F, Vec<u8>)>,
    turn: impl Fn(&F) -> T,
    before: impl Fn(&F, T) -> T,
) -> Vec<Lasso> {
    let mut ends: HashMap<T, &Vec<u8>> = HashMap::new();
    for (function, part) in parts.iter().skip(1).chain(returning) {
        ends.entry(turn(function)).or_insert(part);
    }
    let mut verdicts = HashSet::new();
    let mut words = Vec::new();
    for (function, lead) in parts {
        for (&end, cycle) in &ends {
            if verdicts.insert(before(function, end)) {
                words.push([lead.clone(), cycle.to_vec()]);
            }
        }
    }
    words.sort();
    words
}

/// A shortest part that does what the empty part does, if there is one: it makes a
/// cycle, which the empty part does not.
fn returning<F: Clone + Eq + Hash>(
    parts: &[(F, Vec<u8>)],
    letters: usize,
    longer: impl Fn(&F, usize) -> F,
) -> Option<(F, Vec<u8>)> {
    let empty = &parts[0].0;
    let mut found = parts.iter().flat_map(|(function, part)| {
        let more = (0..letters).map(move |letter| (function, part, letter));
        more.filter(|(function, _, letter)| longer(function, *letter) == *empty)
    });
    let (_, part, letter) = found.next()?;
    Some((empty.clone(), [&part[..], &[letter as u8]].concat()))
}

/// What a part does to rules: for each of them and each set of states that are true
/// behind the part, the set of those true before it.
type Sets = Vec<Vec<u8>>;

/// The states from which a part, repeated for ever, is accepted. A path stays in one
/// component from some time on, at the part's ends as well as between them, so the
/// components are settled by what the part does as a whole.
fn endless(components: &[Component], function: &[u8]) -> u8 {
    let mut set = 0;
    for component in components {
        let own = component.mask();
        if component.accepting {
            set |= own;
        }
        loop {
            let next = set & !own | function[set as usize] & own;
            if next == set {
                break;
            }
            set = next;
        }
    }
    set
}

/// Words that decide what rules of the same letters accept: on every word the rules
/// are true from the same states as on one of these. None where more than `most`
/// functions of finite parts are found.
pub fn words_of_rules(rules: [&Rule; 2], most: usize) -> Option<Vec<Lasso>> {
    let letters = rules[0].letters;
    let of_letter = |rule: &Rule, letter: usize| -> Vec<u8> {
        let before = |set: u8| {
            let states = (0..rule.states).filter(|&q| rule.satisfies(set, q, letter));
            states.fold(0, |mask, q| mask | 1 << q)
        };
        (0..=rule.all()).map(before).collect()
    };
    let single: Vec<Sets> = (0..letters)
        .map(|letter| rules.map(|rule| of_letter(rule, letter)).to_vec())
        .collect();
    let longer = |function: &Sets, letter: usize| -> Sets {
        let both = function.iter().zip(&single[letter]);
        let through = |(first, then): (&Vec<u8>, &Vec<u8>)| {
            then.iter().map(|&set| first[set as usize]).collect()
        };
        both.map(through).collect()
    };
    let empty: Sets = rules.map(|rule| (0..=rule.all()).collect()).to_vec();
    let parts = parts(letters, empty, longer, most)?;
    let components = rules.map(|rule| {
        // Those led to first.
        let reaches = rule.reaches();
        let mut components = rule.components();
        components.sort_by_key(|component| reaches[*component.states.first().unwrap()].len());
        components
    });
    let turn = |function: &Sets| [0, 1].map(|i| endless(&components[i], &function[i]));
    let before = |function: &Sets, sets: [u8; 2]| [0, 1].map(|i| function[i][sets[i] as usize]);
    let returning = returning(&parts, letters, longer);
    Some(lassos(&parts, returning.as_ref(), turn, before))
}

/// What a part does to a table: for each macrostate those that it leads to, and
/// those that it leads to by way of an accepting one.
type Ways = Vec<(u64, u64)>;

fn any(set: u64, of: impl Fn(usize) -> u64) -> u64 {
    let members = (0..64).filter(|m| set >> m & 1 == 1);
    members.fold(0, |all, member| all | of(member))
}

/// Where a part, repeated for ever, has a path that accepts again and again. Round
/// by round those stay that lead, in one turn or more, by way of an accepting one
/// to one that is still there.
fn live(function: &Ways) -> u64 {
    let mut live = u64::MAX >> (64 - function.len().max(1));
    loop {
        // One turn by way of an accepting one, then any turns before it.
        let leads = |of: u64, by: &dyn Fn(usize) -> u64| {
            let members = (0..function.len()).filter(|&m| by(m) & of != 0);
            members.fold(0u64, |all, member| all | 1 << member)
        };
        let mut comes = leads(live, &|m| function[m].1);
        loop {
            let more = comes | leads(comes, &|m| function[m].0);
            if more == comes {
                break;
            }
            comes = more;
        }
        if comes & live == live {
            return live;
        }
        live &= comes;
    }
}

/// Words that decide on which macrostates of two tables, of 64 at most together,
/// accepting runs begin: on every word they are the same as on one of these. None
/// where the tables are larger, or more than `most` functions are found.
pub fn words_of_tables(tables: [&Table; 2], letters: usize, most: usize) -> Option<Vec<Lasso>> {
    let first = tables[0].macrostates.len();
    let count = first + tables[1].macrostates.len();
    if count > 64 {
        return None;
    }
    let accepting = tables.iter().flat_map(|table| &table.macrostates);
    let accepting = accepting.enumerate().filter(|(_, m)| m.is_accepting());
    let accepting = accepting.fold(0u64, |all, (number, _)| all | 1 << number);
    let targets = |number: usize, letter: usize| -> u64 {
        let (table, from) = match number.checked_sub(first) {
            None => (tables[0], 0),
            Some(_) => (tables[1], first),
        };
        let targets = table.targets(number - from, letter).iter();
        targets.fold(0, |all, target| all | 1 << (target + from))
    };
    let single: Vec<Vec<u64>> = (0..letters)
        .map(|letter| (0..count).map(|number| targets(number, letter)).collect())
        .collect();
    let longer = |function: &Ways, letter: usize| -> Ways {
        let step = |&(all, by): &(u64, u64)| {
            let reached = any(all, |number| single[letter][number]);
            let through = any(by, |number| single[letter][number]);
            (reached, through | reached & accepting)
        };
        function.iter().map(step).collect()
    };
    let empty: Ways = (0..count).map(|number| (1 << number, 0)).collect();
    let parts = parts(letters, empty, longer, most)?;
    let before = |function: &Ways, set: u64| {
        let members = (0..count).filter(|&m| function[m].0 & set != 0);
        members.fold(0u64, |all, member| all | 1 << member)
    };
    let returning = returning(&parts, letters, longer);
    Some(lassos(&parts, returning.as_ref(), live, before))
}

#[cfg(test)]
mod tests {
    use super::*;
    use crate::build::reachable_begun;
    use crate::game;
    use crate::rule::read;
    use crate::runs::{Counted, Runs};
    use crate::sample::{self, letters, Random, E, F, I, SHAPES};
    use crate::word::Word;

    #[test]
    fn examples() {
        let rule = |file: &[u8]| read(file).unwrap().0;
        // Some time letter 1 beside letter 1 again and again: never, at times, for
        // ever.
        let words = words_of_rules([&rule(&F), &rule(&I)], 99).unwrap();
        let verdict = |file: &[u8], [lead, cycle]: &Lasso| game::accepts(&rule(file), lead, cycle);
        let both = |word: &Lasso| (verdict(&F, word), verdict(&I, word));
        let seen: HashSet<(bool, bool)> = words.iter().map(both).collect();
        assert_eq!(
            seen,
            HashSet::from([(false, false), (true, false), (true, true)])
        );
        assert!(words_of_rules([&rule(&F), &rule(&E)], 1).is_none());
    }

    /// Random words are answered as one of the list is, by games and by runs.
    #[test]
    fn random_words() {
        let mut random = Random::new(161);
        let (mut rules, mut tables) = (0, 0);
        for _ in 0..600 {
            let alphabet = random.between(1, 3);
            let small = |random: &mut Random| {
                let (shape, states) = (*random.pick(&SHAPES), random.between(1, 3));
                sample::rule(random, shape, states, alphabet)
            };
            let (a, b) = (small(&mut random), small(&mut random));
            let words: Vec<Lasso> = (0..20)
                .map(|_| {
                    let (lead, cycle) = (random.between(0, 9), random.between(1, 9));
                    [lead, cycle].map(|length| letters(&mut random, alphabet, length))
                })
                .collect();
            if let Some(list) = words_of_rules([&a, &b], 500) {
                let masks = |[lead, cycle]: &Lasso| {
                    [&a, &b].map(|rule| game::masks(rule, &Word { lead, cycle })[0])
                };
                let known: Vec<[u8; 2]> = list.iter().map(masks).collect();
                rules += 1;
                for word in &words {
                    assert!(known.contains(&masks(word)), "{a:?} {b:?} {word:?}");
                }
            }
            let slices = [true, false].map(|holding| reachable_begun(&a, holding, 40, 900));
            let [Ok(accepted), Ok(rejected)] = slices else {
                continue;
            };
            let own = [&accepted, &rejected].map(|(codes, t)| Table::new(&a, codes, t).unwrap());
            let Some(list) = words_of_tables([&own[0], &own[1]], alphabet, 500) else {
                continue;
            };
            tables += 1;
            // From each macrostate of either table.
            let runs = |[lead, cycle]: &Lasso| -> Vec<bool> {
                let begins = own.iter().flat_map(|table| {
                    (0..table.macrostates.len()).map(|start| {
                        let counted = Counted::new(table, alphabet, vec![start]);
                        counted.runs(&Word { lead, cycle }) != Runs::None
                    })
                });
                begins.collect()
            };
            let known: HashSet<Vec<bool>> = list.iter().map(runs).collect();
            for word in words.iter().take(5) {
                assert!(known.contains(&runs(word)), "{a:?} {word:?}");
            }
        }
        assert!(rules > 300 && tables > 50, "{rules} {tables}");
    }
}
