//! Rules made of rules: docs/FORMAT.md, "Rules made of rules".

use crate::names::Name;
use crate::rule::{write_named, Rule};

/// Clauses over the states of two rules and a new one.
type Entry = Vec<u32>;

/// A rule that is made, its states not yet counted.
pub struct Made {
    initial: usize,
    accepting: Vec<bool>,
    /// By state, then letter.
    entries: Vec<Vec<Entry>>,
    states: Vec<Vec<u8>>,
    /// Whether state 0 is new.
    new: bool,
}

/// "To tidy an entry is to keep of its clauses the first copy of every minimal
/// one, in order."
fn tidied(entry: &[u32]) -> Entry {
    let minimal = |&i: &usize| {
        let smaller = |j: usize| entry[j] & entry[i] == entry[j] && entry[j] != entry[i];
        !(0..entry.len()).any(smaller) && !entry[..i].contains(&entry[i])
    };
    let kept = (0..entry.len()).filter(minimal);
    kept.map(|i| entry[i]).collect()
}

/// All d ∪ e, by d in order, for each d by e in order; then tidied.
fn joined(one: &[u32], other: &[u32]) -> Entry {
    let all = one.iter().flat_map(|d| other.iter().map(move |e| d | e));
    tidied(&all.collect::<Vec<_>>())
}

/// The entries of a rule, its states moved up by so many.
fn moved(rule: &Rule, by: usize) -> Vec<Vec<Entry>> {
    let clauses = |own: &Vec<u8>| own.iter().map(|&mask| u32::from(mask) << by).collect();
    let rows = rule.entries.iter();
    rows.map(|row| row.iter().map(clauses).collect()).collect()
}

fn accepting(rule: &Rule) -> Vec<bool> {
    let states = 0..rule.states;
    states.map(|q| rule.accepting >> q & 1 == 1).collect()
}

/// "States are a new one, rejecting and initial, then those of A, then those of
/// B"; what the new one has for a letter is told by `of`.
fn combined(
    rules: [&Rule; 2],
    states: [&[Vec<u8>]; 2],
    name: &str,
    of: fn(&[u32], &[u32]) -> Entry,
) -> Made {
    let [a, b] = rules;
    let (above, below) = (moved(a, 1), moved(b, 1 + a.states));
    let letters = 0..a.letters;
    let new = letters.map(|letter| of(&above[a.initial][letter], &below[b.initial][letter]));
    Made {
        initial: 0,
        accepting: [vec![false], accepting(a), accepting(b)].concat(),
        entries: [vec![new.collect()], above.clone(), below.clone()].concat(),
        states: [&[name.as_bytes().to_vec()], states[0], states[1]].concat(),
        new: true,
    }
}

pub fn and(rules: [&Rule; 2], states: [&[Vec<u8>]; 2]) -> Made {
    combined(rules, states, "both", joined)
}

pub fn or(rules: [&Rule; 2], states: [&[Vec<u8>]; 2]) -> Made {
    combined(rules, states, "either", |one, other| {
        tidied(&[one, other].concat())
    })
}

pub fn not(rule: &Rule, states: &[Vec<u8>]) -> Made {
    let single = |clause: u32| (0..8).map(|q| 1 << q).filter(move |q| clause & q != 0);
    // "A new entry begins with the one empty clause. For each clause x of the old
    // entry, in order, it becomes all d ∪ {q}".
    let dual = |entry: &Entry| {
        let begun: Entry = vec![0];
        let clauses = entry.iter();
        clauses.fold(begun, |made, &x| {
            joined(&made, &single(x).collect::<Vec<_>>())
        })
    };
    let rows = moved(rule, 0);
    Made {
        initial: rule.initial,
        accepting: accepting(rule).iter().map(|yes| !yes).collect(),
        entries: rows
            .iter()
            .map(|row| row.iter().map(dual).collect())
            .collect(),
        states: states.to_vec(),
        new: false,
    }
}

impl Made {
    /// "States to which the initial one does not lead, over any number of steps,
    /// zero included, are left out, and the others numbered in their order."
    fn leave_out(self) -> Made {
        let mut kept = 1u32 << self.initial;
        for _ in 0..self.states.len() {
            for (q, row) in self.entries.iter().enumerate() {
                if kept >> q & 1 == 1 {
                    kept = row.iter().flatten().fold(kept, |all, clause| all | clause);
                }
            }
        }
        let stays: Vec<usize> = (0..self.states.len())
            .filter(|q| kept >> q & 1 == 1)
            .collect();
        let clause = |&old: &u32| {
            let states = stays.iter().enumerate();
            let states = states.filter(|(_, &q)| old >> q & 1 == 1);
            states.fold(0, |all, (to, _)| all | 1 << to)
        };
        let entry = |entry: &Entry| entry.iter().map(clause).collect::<Entry>();
        let row = |q: &usize| self.entries[*q].iter().map(entry).collect::<Vec<Entry>>();
        Made {
            initial: stays.iter().position(|&q| q == self.initial).unwrap(),
            accepting: stays.iter().map(|&q| self.accepting[q]).collect(),
            entries: stays.iter().map(row).collect(),
            states: stays.iter().map(|&q| self.states[q].clone()).collect(),
            new: self.new,
        }
    }

    /// "a state whose name an earlier state of A or B in this order has (for the
    /// new state: any other has) gets `_2` behind it, or `_3` and so on: the first
    /// name that no other state has at that time"
    fn tell_apart(&mut self) {
        let count = self.states.len();
        let old = usize::from(self.new)..count;
        let order = old.clone().chain(0..usize::from(self.new));
        for q in order {
            let before = if q < old.start {
                old.clone()
            } else {
                old.start..q
            };
            if !self.states[before].contains(&self.states[q]) {
                continue;
            }
            let taken = |name: &Vec<u8>| (0..count).any(|p| p != q && self.states[p] == *name);
            let mut names =
                (2..).map(|n| [&self.states[q][..], format!("_{n}").as_bytes()].concat());
            let name = names.find(|name| !taken(name)).unwrap();
            self.states[q] = name;
        }
    }

    /// The file of the rule, and the names of its states; or what refuses it.
    pub fn file(self, names: &Option<Vec<Name>>) -> Result<(Vec<u8>, Vec<Vec<u8>>), u8> {
        let mut made = self.leave_out();
        made.tell_apart();
        if made.states.len() > 8 {
            return Err(3);
        }
        let entries: Vec<&Entry> = made.entries.iter().flatten().collect();
        let counts: Vec<u8> = entries.iter().map(|own| own.len().min(255) as u8).collect();
        let clauses: Vec<u8> = entries
            .iter()
            .copied()
            .flatten()
            .map(|&clause| clause as u8)
            .collect();
        let accepting = made.accepting.iter().enumerate();
        let accepting = accepting.fold(0, |mask, (q, &yes)| mask | u32::from(yes) << q);
        let letters = made.entries[0].len() as u32;
        let numbers = [
            made.states.len() as u32,
            letters,
            made.initial as u32,
            accepting,
        ];
        let names = names.clone().unwrap_or_default().concat();
        let file = write_named(numbers, &counts, &clauses, &names, usize::MAX)?;
        Ok((file, made.states))
    }
}

#[cfg(test)]
mod tests {
    use super::*;
    use crate::judge::judge;
    use crate::rule::read;
    use crate::rule_text::{numbered, show_named, write};
    use crate::sample::{self, Random, F, SHAPES};

    fn text(made: Made) -> Result<String, u8> {
        let (file, states) = made.file(&None)?;
        let (text, refusal) = show_named(&file, &states)?;
        assert_eq!(refusal, None);
        Ok(String::from_utf8(text).unwrap())
    }

    #[test]
    fn names_are_told_apart() {
        let (rule, _) = read(&F).unwrap();
        let states = &numbered()[..1];
        let made = "letters 2
state both rejecting
    0: s0 & s0_2
    1: true
state s0 rejecting
    0: s0
    1: true
state s0_2 rejecting
    0: s0_2
    1: true
initial both
";
        assert_eq!(text(and([&rule, &rule], [states, states])), Ok(made.into()));
    }

    #[test]
    fn multiplied_out() {
        let lines = |lines: &[&str]| lines.join("\n") + "\n";
        let three = lines(&[
            "letters 1",
            "state a accepting",
            "0: a & b | b & c | a & c",
            "state b accepting",
            "0: true",
            "state c accepting",
            "0: false",
            "initial a",
        ]);
        let (rule, _) = read(&write(three.as_bytes()).unwrap()).unwrap();
        let names = [b"a".to_vec(), b"b".to_vec(), b"c".to_vec()];
        let dual = lines(&[
            "letters 1",
            "state a rejecting",
            "    0: a & c | a & b | b & c",
            "state b rejecting",
            "    0: false",
            "state c rejecting",
            "    0: true",
            "initial a",
        ]);
        assert_eq!(text(not(&rule, &names)), Ok(dual));
    }

    #[test]
    fn words_of_random_rules() {
        let mut random = Random::new(1);
        let mut made = 0;
        for _ in 0..300 {
            let [a, b] = [0, 1].map(|_| {
                let (shape, states) = (*random.pick(&SHAPES), random.between(1, 4));
                sample::rule(&mut random, shape, states, 2)
            });
            let names = numbered();
            let states = [&names[..a.states], &names[..b.states]];
            let (lead, cycle) = (random.below(4), random.between(1, 4));
            let [lead, cycle] = [lead, cycle].map(|n| sample::letters(&mut random, 2, n));
            let yes = |file: &[u8]| judge(file, &lead, &cycle, 64).unwrap().0;
            let (x, y) = (yes(&sample::file(&a)), yes(&sample::file(&b)));
            for (rule, holds) in [
                (and([&a, &b], states), x && y),
                (or([&a, &b], states), x || y),
                (not(&a, states[0]), !x),
            ] {
                if let Ok((file, _)) = rule.file(&None) {
                    assert_eq!(yes(&file), holds);
                    made += 1;
                }
            }
        }
        assert!(made > 300);
    }
}
