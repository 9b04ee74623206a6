//! The build by 01's text alone, for small rules: all macrostates that 01
//! defines, and each two of them with each letter put to the test whether the
//! one goes to the other. Nothing is stepped back from and no core is worked
//! out: both cores of a test are given.

use crate::rule::{Component, Rule};

/// "A core is a set S (states claimed true) and ranks." The set is a mask.
#[derive(Clone, Debug, PartialEq, Eq)]
struct Core {
    set: u8,
    ranks: Vec<usize>,
}

/// "A macrostate is a core, a component number K, and k, the number of lowest
/// rank classes of K still to discharge." The core is given by its place among
/// all cores.
#[derive(Clone, Copy, Debug, PartialEq, Eq)]
struct Macrostate {
    core: usize,
    component: usize,
    classes: usize,
}

/// All that 01 defines of a rule.
pub struct Text<'a> {
    rule: &'a Rule,
    components: Vec<Component>,
    cores: Vec<Core>,
    macrostates: Vec<Macrostate>,
    /// For each letter, each core and each T: the levels of the core's open
    /// states where T's earlier core is this one.
    before: Vec<Option<Vec<usize>>>,
}

/// Codes and transitions as the build's slices hold them.
pub type Slices = (Vec<u64>, Vec<u64>);

impl<'a> Text<'a> {
    pub fn new(rule: &'a Rule) -> Self {
        let mut text = Text {
            rule,
            components: rule.components(),
            cores: Vec::new(),
            macrostates: Vec::new(),
            before: Vec::new(),
        };
        text.cores = text.all_cores();
        for (core, own) in text.cores.iter().enumerate() {
            for component in 0..text.components.len() {
                for classes in 0..=text.classes(component, own) {
                    text.macrostates.push(Macrostate {
                        core,
                        component,
                        classes,
                    });
                }
            }
        }
        for letter in 0..rule.letters {
            for core in &text.cores {
                for later in &text.cores {
                    let levels = text.levels(core, letter, later);
                    let before = text.is_before(core, letter, later, &levels);
                    text.before.push(before.then_some(levels));
                }
            }
        }
        text
    }

    /// How many macrostates 01 defines.
    pub fn macrostates(&self) -> usize {
        self.macrostates.len()
    }

    fn all_cores(&self) -> Vec<Core> {
        let n = self.rule.states;
        let mut cores = Vec::new();
        for set in 0..=self.rule.all() {
            // Each way to give every state a rank of 0 to n.
            for number in 0..(n + 1).pow(n as u32) {
                let rank = |q: usize| number / (n + 1).pow(q as u32) % (n + 1);
                let ranks = (0..n).map(rank).collect();
                let core = Core { set, ranks };
                if self.is_core(&core) {
                    cores.push(core);
                }
            }
        }
        cores
    }

    /// "Open states have ranks 1 to m with no gap, ties allowed, for each
    /// component separately; other states have rank 0."
    fn is_core(&self, core: &Core) -> bool {
        (0..self.components.len()).all(|component| {
            let own = &self.components[component].states;
            let ranked = |&q: &usize| self.is_open(component, core, q) == (core.ranks[q] > 0);
            let occurs = |rank: usize| own.iter().any(|&q| core.ranks[q] == rank);
            let m = self.classes(component, core);
            own.iter().all(ranked) && (1..=m).all(occurs)
        })
    }

    /// "The open states of a component are its states in S if it is rejecting,
    /// its states outside S if it is accepting."
    fn is_open(&self, component: usize, core: &Core, q: usize) -> bool {
        let component = &self.components[component];
        let claimed = core.set >> q & 1 == 1;
        component.states.contains(&q) && claimed != component.accepting
    }

    /// How many rank classes a component has in a core.
    fn classes(&self, component: usize, core: &Core) -> usize {
        let own = self.components[component].states.iter();
        own.map(|&q| core.ranks[q]).max().unwrap_or(0)
    }

    /// What a level is the least j of, for q of component K.
    fn holds(&self, component: usize, q: usize, letter: usize, later: &Core, j: usize) -> bool {
        let own = |state: &usize| self.components[component].states.contains(state);
        let in_t = |state: &usize| later.set >> state & 1 == 1;
        let low =
            |state: &usize| self.is_open(component, later, *state) && later.ranks[*state] <= j;
        let mask = |holds: &dyn Fn(&usize) -> bool| {
            let states = (0..self.rule.states).filter(holds);
            states.fold(0, |mask, q| mask | 1u8 << q)
        };
        if self.components[component].accepting {
            // "take the states outside both K and T's set, with those open states
            // of rank at most j; the states left over do not satisfy q's entry"
            let taken = |state: &usize| (!own(state) && !in_t(state)) || low(state);
            let left = mask(&|state| !taken(state));
            !self.rule.satisfies(left, q, letter)
        } else {
            // "T's states outside K, with the open states of K in T of rank at
            // most j, satisfy q's entry"
            let taken = mask(&|state| (in_t(state) && !own(state)) || low(state));
            self.rule.satisfies(taken, q, letter)
        }
    }

    /// "For an open q of component K, its level is the least j, from 0, such that
    /// the following holds." A state that is not open, or for which no j up to n
    /// does, gets n + 1, which is no level.
    fn levels(&self, core: &Core, letter: usize, later: &Core) -> Vec<usize> {
        let n = self.rule.states;
        let mut levels = vec![n + 1; n];
        if !self.exact(core, letter, later) {
            return levels;
        }
        for component in 0..self.components.len() {
            for q in (0..n).filter(|&q| self.is_open(component, core, q)) {
                let least = (0..=n).find(|&j| self.holds(component, q, letter, later, j));
                levels[q] = least.unwrap_or(n + 1);
            }
        }
        levels
    }

    /// "S holds q exactly if T's set satisfies q's entry."
    fn exact(&self, core: &Core, letter: usize, later: &Core) -> bool {
        (0..self.rule.states)
            .all(|q| (core.set >> q & 1 == 1) == self.rule.satisfies(later.set, q, letter))
    }

    /// Whether T's earlier core over the letter is this one: S is exact, and
    /// "ranks of the earlier core order open states of one component by level".
    /// Closed up they are, as the ranks of every core.
    fn is_before(&self, core: &Core, letter: usize, later: &Core, levels: &[usize]) -> bool {
        self.exact(core, letter, later)
            && (0..self.components.len()).all(|component| {
                let open = |&q: &usize| self.is_open(component, core, q);
                let states = || (0..self.rule.states).filter(open);
                states().all(|q| {
                    levels[q] <= self.rule.states
                        && states().all(|other| {
                            core.ranks[q].cmp(&core.ranks[other]) == levels[q].cmp(&levels[other])
                        })
                })
            })
    }

    /// "It goes over a letter to each core T whose earlier core is its own: if k
    /// is 0, K becomes the next component (after the last, component 0) and k
    /// all its classes in T; else K stays and k becomes the largest level among
    /// its own core's open states of K, no other component's, with rank at most
    /// the old k."
    fn goes(&self, from: &Macrostate, letter: usize, to: &Macrostate) -> bool {
        let cores = self.cores.len();
        let before = &self.before[(letter * cores + from.core) * cores + to.core];
        let Some(levels) = before else {
            return false;
        };
        if from.classes == 0 {
            let next = if from.component + 1 == self.components.len() {
                0
            } else {
                from.component + 1
            };
            to.component == next && to.classes == self.classes(next, &self.cores[to.core])
        } else {
            let core = &self.cores[from.core];
            let counted = (0..self.rule.states).filter(|&q| {
                self.is_open(from.component, core, q) && core.ranks[q] <= from.classes
            });
            let largest = counted.map(|q| levels[q]).max();
            to.component == from.component && Some(to.classes) == largest
        }
    }

    /// "bits 0 to 7 S, four bits from 8 + 4 × q for the rank of q, 40 to 43 K, 44
    /// to 47 k, the rest zero"
    fn code(&self, macrostate: &Macrostate) -> u64 {
        let core = &self.cores[macrostate.core];
        let mut code = u64::from(core.set);
        for (q, &rank) in core.ranks.iter().enumerate() {
            code |= (rank as u64) << (8 + 4 * q);
        }
        code | (macrostate.component as u64) << 40 | (macrostate.classes as u64) << 44
    }

    /// "It is initial if S holds the initial state, K is 0 and k is 0"; with
    /// `holding` false, if S lacks it.
    fn is_initial(&self, macrostate: &Macrostate, holding: bool) -> bool {
        let set = self.cores[macrostate.core].set;
        let holds = set >> self.rule.initial & 1 == 1;
        holds == holding && macrostate.component == 0 && macrostate.classes == 0
    }

    /// The reachable macrostates and their transitions, found by a search
    /// forwards from the initial ones: at each, every macrostate is tried with
    /// every letter.
    pub fn table(&self, holding: bool) -> Slices {
        let all = self.macrostates.len();
        let mut reached = vec![false; all];
        let mut waiting = Vec::new();
        for (number, macrostate) in self.macrostates.iter().enumerate() {
            if self.is_initial(macrostate, holding) {
                reached[number] = true;
                waiting.push(number);
            }
        }
        let mut steps = Vec::new();
        while let Some(from) = waiting.pop() {
            for letter in 0..self.rule.letters {
                for (to, target) in self.macrostates.iter().enumerate() {
                    if self.goes(&self.macrostates[from], letter, target) {
                        steps.push((from, letter, to));
                        if !reached[to] {
                            reached[to] = true;
                            waiting.push(to);
                        }
                    }
                }
            }
        }
        let reached = (0..all).filter(|&number| reached[number]);
        self.slices(reached.collect(), &steps)
    }

    /// "reachable codes ascending .. numbered from 0, and transitions ascending
    /// .., as source × 16777216 + letter × 65536 + target"
    fn slices(&self, mut numbers: Vec<usize>, steps: &[(usize, usize, usize)]) -> Slices {
        numbers.sort_by_key(|&number| self.code(&self.macrostates[number]));
        let mut place = vec![0; self.macrostates.len()];
        for (new, &number) in numbers.iter().enumerate() {
            place[number] = new as u64;
        }
        let codes = numbers.iter();
        let codes = codes.map(|&number| self.code(&self.macrostates[number]));
        let transitions = steps.iter().map(|&(from, letter, to)| {
            place[from] * 16_777_216 + letter as u64 * 65_536 + place[to]
        });
        let mut transitions: Vec<u64> = transitions.collect();
        transitions.sort_unstable();
        (codes.collect(), transitions)
    }
}

/// A table with only the macrostates "from which an accepting run on some lead-in
/// and cycle of any length exists, renumbered ascending, and the transitions
/// between them": those from where one is reached that is accepting and reaches
/// itself by one step or more.
pub fn only_those_that_matter((codes, transitions): &Slices) -> Slices {
    let steps = |from: usize| {
        let own = transitions.iter().filter(move |&t| t >> 24 == from as u64);
        own.map(|t| (t & 65_535) as usize)
    };
    // What each reaches by one step or more.
    let reaches: Vec<Vec<bool>> = (0..codes.len())
        .map(|from| {
            let mut reached = vec![false; codes.len()];
            let mut waiting = vec![from];
            while let Some(number) = waiting.pop() {
                for to in steps(number) {
                    if !reached[to] {
                        reached[to] = true;
                        waiting.push(to);
                    }
                }
            }
            reached
        })
        .collect();
    let comes_again = |number: usize| codes[number] >> 44 == 0 && reaches[number][number];
    let matters = |from: usize| {
        comes_again(from) || (0..codes.len()).any(|to| reaches[from][to] && comes_again(to))
    };
    let kept: Vec<usize> = (0..codes.len()).filter(|&number| matters(number)).collect();
    let new = |old: u64| kept.iter().position(|&kept| kept as u64 == old);
    let between = transitions.iter().filter_map(|t| {
        let (source, target) = (new(t >> 24)? as u64, new(t & 65_535)? as u64);
        Some(source << 24 | (t & 0xff_0000) | target)
    });
    let between = between.collect();
    (
        kept.into_iter().map(|number| codes[number]).collect(),
        between,
    )
}

#[cfg(test)]
mod tests {
    use super::*;
    use crate::build::{build, reachable, reachable_begun};
    use crate::every;
    use crate::rule::read;
    use crate::sample::{self, Random, D, E, F, I, SHAPES, Z};
    use crate::trim::trim;

    #[test]
    fn examples() {
        for (file, counts) in [
            (&F[..], (3, 7)),
            (&D, (13, 26)),
            (&E, (1, 1)),
            (&I, (5, 9)),
            (&Z, (1, 0)),
        ] {
            let (rule, _) = read(file).unwrap();
            let table = Text::new(&rule).table(true);
            assert_eq!((table.0.len(), table.1.len()), counts);
            assert_eq!(Ok(table), build(file, 99, 99));
        }
        // "Rule D shrinks from 13 and 26 to 6 and 12."
        let (rule, _) = read(&D).unwrap();
        let trimmed = only_those_that_matter(&Text::new(&rule).table(true));
        assert_eq!((trimmed.0.len(), trimmed.1.len()), (6, 12));
        // One rejecting component of two states: sets of 0, 1, 1 and 2 open
        // states with 1, 1, 1 and 3 orders; 13 macrostates.
        assert_eq!(
            (Text::new(&rule).cores.len(), Text::new(&rule).macrostates()),
            (6, 13)
        );
    }

    fn both(rule: &Rule) {
        let text = Text::new(rule);
        for holding in [true, false] {
            let table = text.table(holding);
            let stepped = reachable_begun(rule, holding, usize::MAX, usize::MAX);
            assert_eq!(Ok(&table), stepped.as_ref(), "{rule:?}");
            let trimmed = trim(&table.0, &table.1);
            assert_eq!(only_those_that_matter(&table), trimmed, "{rule:?}");
        }
        assert_eq!(
            Ok(text.table(true)),
            reachable(rule, usize::MAX, usize::MAX)
        );
    }

    #[test]
    fn every_rule_of_one_letter() {
        for states in [1, 2] {
            every::rules(states, 1).iter().for_each(both);
        }
    }

    #[test]
    fn random_rules() {
        let mut random = Random::new(141);
        for _ in 0..300 {
            let shape = *random.pick(&SHAPES);
            let (states, letters) = (random.between(1, 4), random.between(1, 2));
            both(&sample::rule(&mut random, shape, states, letters));
        }
    }
}
