//! Cores, macrostates and the build.

use std::collections::{HashMap, HashSet};

use crate::rule::{read, Component, Rule};

/// "Room counts at most 65,536 macrostates and 1,048,576 transitions."
pub const MACROSTATE_CAP: usize = 65_536;
pub const TRANSITION_CAP: usize = 1_048_576;

/// "A core is a set S (states claimed true) and ranks."
#[derive(Clone, Copy, Debug, PartialEq, Eq)]
pub struct Core {
    pub set: u8,
    pub ranks: [u8; 8],
}

/// "A macrostate is a core, a component number K, and k, the number of lowest
/// rank classes of K still to discharge."
#[derive(Clone, Copy, Debug, PartialEq, Eq)]
pub struct Macrostate {
    pub core: Core,
    pub component: u8,
    pub classes: u8,
}

impl Core {
    /// "bits 0 to 7 S, four bits from 8 + 4 × q for the rank of q"
    pub fn code(&self) -> u64 {
        let ranks = self.ranks.iter().enumerate();
        let ranks = ranks.map(|(q, &rank)| u64::from(rank) << (8 + 4 * q));
        u64::from(self.set) + ranks.sum::<u64>()
    }
}

impl Macrostate {
    /// The code of the core, "40 to 43 K, 44 to 47 k, the rest zero".
    pub fn code(&self) -> u64 {
        self.core.code() + (u64::from(self.component) << 40) + (u64::from(self.classes) << 44)
    }

    /// The macrostate of a code with no bit above 47.
    pub fn from_code(code: u64) -> Self {
        let four = |bit: usize| (code >> bit & 15) as u8;
        Macrostate {
            core: Core {
                set: (code & 255) as u8,
                ranks: std::array::from_fn(|q| four(8 + 4 * q)),
            },
            component: four(40),
            classes: four(44),
        }
    }

    /// "It is initial if S holds the initial state, K is 0 and k is 0."
    pub fn is_initial(&self, rule: &Rule) -> bool {
        self.core.set >> rule.initial & 1 == 1 && self.component == 0 && self.classes == 0
    }

    /// "It is accepting if k is 0."
    pub fn is_accepting(&self) -> bool {
        self.classes == 0
    }
}

/// A rule with its components at hand.
pub struct Automaton<'a> {
    pub rule: &'a Rule,
    pub components: Vec<Component>,
    /// The component number of every state.
    component_of: Vec<usize>,
    /// The mask of every component.
    masks: Vec<u8>,
}

impl<'a> Automaton<'a> {
    pub fn new(rule: &'a Rule) -> Self {
        let components = rule.components();
        let holds = |q| components.iter().position(|k| k.states.contains(&q));
        Automaton {
            rule,
            component_of: (0..rule.states).map(|q| holds(q).unwrap()).collect(),
            masks: components.iter().map(Component::mask).collect(),
            components,
        }
    }

    /// "The open states of a component are its states in S if it is rejecting,
    /// its states outside S if it is accepting."
    pub fn open(&self, component: usize, set: u8) -> u8 {
        let claimed = if self.components[component].accepting {
            !set
        } else {
            set
        };
        self.masks[component] & claimed
    }

    /// The number of rank classes of a component in a core.
    pub fn classes(&self, component: usize, core: &Core) -> u8 {
        let states = self.components[component].states.iter();
        states.map(|&q| core.ranks[q]).max().unwrap_or(0)
    }

    /// All cores whose set is `set`: "Open states have ranks 1 to m with no
    /// gap, ties allowed, for each component separately; other states have rank
    /// 0."
    fn cores_of(&self, set: u8) -> Vec<Core> {
        let mut cores = vec![Core { set, ranks: [0; 8] }];
        for component in 0..self.components.len() {
            let open = self.open(component, set);
            let mut ranked = Vec::new();
            for core in &cores {
                rank_all(*core, open, 1, &mut ranked);
            }
            cores = ranked;
        }
        cores
    }

    pub fn cores(&self) -> Vec<Core> {
        let sets = 0..=self.rule.all();
        sets.flat_map(|set| self.cores_of(set)).collect()
    }

    /// The number of initial macrostates, counted until it is over `enough`.
    pub fn initial_macrostates(&self, enough: usize) -> usize {
        self.cores_begun(enough, true)
    }

    /// The number of cores whose set holds the initial state, or lacks it,
    /// counted until it is over `enough`.
    fn cores_begun(&self, enough: usize, holding: bool) -> usize {
        let sets = 0..=self.rule.all();
        let mut count = 0;
        for set in sets.filter(|set| (set >> self.rule.initial & 1 == 1) == holding) {
            count += self.cores_of(set).len();
            if count > enough {
                break;
            }
        }
        count
    }

    /// The level of an open state q of the core before `later`.
    fn level(&self, later: &Core, letter: usize, q: usize) -> u8 {
        let number = self.component_of[q];
        let own = self.masks[number];
        let open = self.open(number, later.set);
        // "its level is the least j, from 0, such that the following holds"
        let mut low = 0u8;
        for j in 0.. {
            // The open states of K in T of rank at most j.
            for state in 0..self.rule.states {
                if open >> state & 1 == 1 && later.ranks[state] == j {
                    low |= 1 << state;
                }
            }
            let holds = if self.components[number].accepting {
                // "take the states outside both K and T's set, with those open
                // states of rank at most j; the states left over do not satisfy
                // q's entry"
                let taken = (!own & !later.set) | low;
                let left = self.rule.all() & !taken;
                !self.rule.satisfies(left, q, letter)
            } else {
                // "T's states outside K, with the open states of K in T of rank
                // at most j, satisfy q's entry"
                let taken = (later.set & !own) | low;
                self.rule.satisfies(taken, q, letter)
            };
            if holds {
                return j;
            }
            assert!(j < 8, "an open state has a level");
        }
        unreachable!()
    }

    /// "A core T and a letter fix one core before it." Gives that core and the
    /// level of each of its open states (0 for the others).
    pub fn earlier(&self, later: &Core, letter: usize) -> (Core, [u8; 8]) {
        let mut set = 0;
        // "S holds q exactly if T's set satisfies q's entry."
        for q in 0..self.rule.states {
            if self.rule.satisfies(later.set, q, letter) {
                set |= 1 << q;
            }
        }
        let mut levels = [0; 8];
        let mut ranks = [0; 8];
        for component in 0..self.components.len() {
            let open = self.open(component, set);
            // The levels that occur, as a set of numbers 0 to 8.
            let mut occurring = 0u16;
            for q in (0..self.rule.states).filter(|q| open >> q & 1 == 1) {
                levels[q] = self.level(later, letter, q);
                occurring |= 1 << levels[q];
            }
            // "Ranks of the earlier core order open states of one component by
            // level, closed up to 1, 2, and so on."
            for q in (0..self.rule.states).filter(|q| open >> q & 1 == 1) {
                let up_to = occurring & ((2 << levels[q]) - 1);
                ranks[q] = up_to.count_ones() as u8;
            }
        }
        (Core { set, ranks }, levels)
    }

    /// Where a macrostate goes, the core afterwards and the levels of its own
    /// core's open states being given.
    pub fn target(&self, source: &Macrostate, later: Core, levels: &[u8; 8]) -> Macrostate {
        if source.classes == 0 {
            // "if k is 0, K becomes the next component (after the last,
            // component 0) and k all its classes in T"
            let next = (source.component as usize + 1) % self.components.len();
            Macrostate {
                core: later,
                component: next as u8,
                classes: self.classes(next, &later),
            }
        } else {
            // "else K stays and k becomes the largest level among its own
            // core's open states of K, no other component's, with rank at most
            // the old k"
            let number = source.component as usize;
            let open = self.open(number, source.core.set);
            let counted = (0..self.rule.states)
                .filter(|&q| open >> q & 1 == 1 && source.core.ranks[q] <= source.classes);
            Macrostate {
                core: later,
                component: source.component,
                classes: counted.map(|q| levels[q]).max().unwrap_or(0),
            }
        }
    }
}

/// Gives the states of `open` all rankings from `rank` up.
fn rank_all(core: Core, open: u8, rank: u8, ranked: &mut Vec<Core>) {
    if open == 0 {
        ranked.push(core);
        return;
    }
    // Every non-empty part of the open states may share the next rank.
    for class in (1..=open).filter(|class| class & !open == 0) {
        let mut core = core;
        for q in (0..8).filter(|q| class >> q & 1 == 1) {
            core.ranks[q] = rank;
        }
        rank_all(core, open & !class, rank + 1, ranked);
    }
}

/// A core that follows, with the levels of the core it follows.
type Later = (Core, [u8; 8]);

/// The macrostates and transitions of a rule that are reachable, in the form
/// of the build's slices. Rows 17 and 18, by the rooms as they are given.
pub fn reachable(
    rule: &Rule,
    macrostate_room: usize,
    transition_room: usize,
) -> Result<(Vec<u64>, Vec<u64>), u8> {
    reachable_begun(rule, true, macrostate_room, transition_room)
}

/// The same, begun with K and k 0 from all cores whose set holds the rule's
/// initial state, or from all those whose set lacks it.
pub fn reachable_begun(
    rule: &Rule,
    holding: bool,
    macrostate_room: usize,
    transition_room: usize,
) -> Result<(Vec<u64>, Vec<u64>), u8> {
    let automaton = Automaton::new(rule);
    // Every macrostate at the beginning is reachable.
    if automaton.cores_begun(macrostate_room, holding) > macrostate_room {
        return Err(17);
    }
    let cores = automaton.cores();
    let number: HashMap<u64, usize> = cores.iter().map(Core::code).zip(0..).collect();
    // For every core and letter, each core T whose earlier core it is.
    let mut follows: Vec<Vec<Later>> = vec![Vec::new(); cores.len() * rule.letters];
    for later in &cores {
        for letter in 0..rule.letters {
            let (core, levels) = automaton.earlier(later, letter);
            follows[number[&core.code()] * rule.letters + letter].push((*later, levels));
        }
    }
    let targets = |source: &Macrostate| {
        let first = number[&source.core.code()] * rule.letters;
        let source = *source;
        let automaton = &automaton;
        let follows = follows[first..first + rule.letters].iter().enumerate();
        follows.flat_map(move |(letter, follows)| {
            let target = move |later: &Later| automaton.target(&source, later.0, &later.1);
            follows.iter().map(move |later| (letter, target(later)))
        })
    };
    let mut found = HashSet::new();
    let mut waiting = Vec::new();
    for &core in &cores {
        let start = Macrostate {
            core,
            component: 0,
            classes: 0,
        };
        if start.is_initial(rule) == holding {
            found.insert(start.code());
            waiting.push(start);
        }
    }
    while let Some(source) = waiting.pop() {
        for (_, target) in targets(&source) {
            if found.insert(target.code()) {
                waiting.push(target);
            }
        }
        // What is found is reachable, so more of it than room is row 17.
        if found.len() > macrostate_room {
            return Err(17);
        }
    }
    // "reachable codes ascending", "numbered from 0"
    let mut codes = Vec::from_iter(found);
    codes.sort_unstable();
    let place: HashMap<u64, u64> = codes.iter().copied().zip(0..).collect();
    // "transitions ascending", "as source × 16777216 + letter × 65536 + target"
    let mut transitions = Vec::new();
    for (source, &code) in (0..).zip(&codes) {
        for (letter, target) in targets(&Macrostate::from_code(code)) {
            let target = place[&target.code()];
            transitions.push(source * 16_777_216 + letter as u64 * 65_536 + target);
        }
        if transitions.len() > transition_room {
            return Err(18);
        }
    }
    transitions.sort_unstable();
    Ok((codes, transitions))
}

/// The build on a file and two slices of these lengths: rows 1 to 11, then 17,
/// then 18. Room is the length of the slice, up to its cap.
pub fn build(
    file: &[u8],
    macrostate_slice: usize,
    transition_slice: usize,
) -> Result<(Vec<u64>, Vec<u64>), u8> {
    let (rule, _) = read(file)?;
    reachable(
        &rule,
        macrostate_slice.min(MACROSTATE_CAP),
        transition_slice.min(TRANSITION_CAP),
    )
}
