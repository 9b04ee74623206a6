//! The judge of words on a built table.

use crate::build::{Macrostate, MACROSTATE_CAP};
use crate::rule::{read, Rule};
use crate::word::Word;

/// A table's macrostates and, by source and letter, its targets.
pub struct Table {
    pub macrostates: Vec<Macrostate>,
    letters: usize,
    targets: Vec<Vec<usize>>,
}

/// "each code and transition as 8 bytes, low byte first; a length that 8 does
/// not divide is 15"
fn numbers(bytes: &[u8]) -> Result<Vec<u64>, u8> {
    if bytes.len() % 8 != 0 {
        return Err(15);
    }
    let eight = bytes.chunks(8);
    Ok(eight
        .map(|b| u64::from_le_bytes(b.try_into().unwrap()))
        .collect())
}

fn strictly_ascending(numbers: &[u64]) -> bool {
    numbers.windows(2).all(|pair| pair[0] < pair[1])
}

impl Table {
    /// A table by row 15.
    pub fn new(rule: &Rule, codes: &[u64], transitions: &[u64]) -> Result<Self, u8> {
        // "over 65,536 codes, codes or transitions not strictly ascending, a
        // code with a bit above 47"
        if codes.len() > MACROSTATE_CAP
            || !strictly_ascending(codes)
            || !strictly_ascending(transitions)
            || codes.iter().any(|code| code >> 48 != 0)
        {
            return Err(15);
        }
        let mut targets = vec![Vec::new(); codes.len() * rule.letters];
        for transition in transitions {
            let source = transition / 16_777_216;
            let letter = transition / 65_536 % 256;
            let target = transition % 65_536;
            // "a transition's source, letter or target out of range"
            if source >= codes.len() as u64
                || letter >= rule.letters as u64
                || target >= codes.len() as u64
            {
                return Err(15);
            }
            targets[source as usize * rule.letters + letter as usize].push(target as usize);
        }
        Ok(Table {
            macrostates: codes
                .iter()
                .map(|&code| Macrostate::from_code(code))
                .collect(),
            letters: rule.letters,
            targets,
        })
    }

    /// The targets of a macrostate over a letter.
    pub fn targets(&self, source: usize, letter: usize) -> &[usize] {
        &self.targets[source * self.letters + letter]
    }

    /// The nodes of the product of table and word where an accepting run begins:
    /// those that reach a strongly connected component with a cycle and an
    /// accepting macrostate.
    pub fn product(&self, word: &Word) -> Product {
        let places = word.places();
        let mut product = Product {
            places,
            begins: vec![false; self.macrostates.len() * places],
        };
        let mut search = Search {
            table: self,
            word,
            order: vec![0; product.begins.len()],
            low: vec![0; product.begins.len()],
            settled: vec![false; product.begins.len()],
            visited: 0,
            stack: Vec::new(),
        };
        for macrostate in 0..self.macrostates.len() {
            search.visit(macrostate * places, &mut product.begins);
        }
        product
    }
}

/// Which nodes (macrostate, place) begin an accepting run; filled for those
/// reached from place 0.
pub struct Product {
    places: usize,
    begins: Vec<bool>,
}

impl Product {
    pub fn begins(&self, macrostate: usize, place: usize) -> bool {
        self.begins[macrostate * self.places + place]
    }
}

/// Tarjan's search for strongly connected components. A node's number is
/// macrostate × places + place.
struct Search<'a> {
    table: &'a Table,
    word: &'a Word<'a>,
    /// The turn of a node's first visit, from 1; 0 for none.
    order: Vec<u32>,
    low: Vec<u32>,
    settled: Vec<bool>,
    visited: u32,
    stack: Vec<usize>,
}

impl Search<'_> {
    fn targets(&self, node: usize) -> (&[usize], usize) {
        let places = self.word.places();
        let place = node % places;
        let letter = self.word.letter(place);
        (
            self.table.targets(node / places, letter),
            self.word.following(place),
        )
    }

    fn enter(&mut self, node: usize) {
        self.visited += 1;
        self.order[node] = self.visited;
        self.low[node] = self.visited;
        self.stack.push(node);
    }

    fn visit(&mut self, root: usize, begins: &mut [bool]) {
        if self.order[root] != 0 {
            return;
        }
        let places = self.word.places();
        self.enter(root);
        // The path from the root, with the number of targets already seen.
        let mut path = vec![(root, 0)];
        while let Some((node, seen)) = path.last_mut() {
            let node = *node;
            let (targets, place) = self.targets(node);
            if let Some(target) = targets.get(*seen) {
                *seen += 1;
                let next = target * places + place;
                if self.order[next] == 0 {
                    self.enter(next);
                    path.push((next, 0));
                } else if !self.settled[next] {
                    self.low[node] = self.low[node].min(self.order[next]);
                }
                continue;
            }
            path.pop();
            if let Some((parent, _)) = path.last() {
                self.low[*parent] = self.low[*parent].min(self.low[node]);
            }
            if self.low[node] == self.order[node] {
                self.settle(node, begins);
            }
        }
    }

    /// Takes the component whose first visited node is `first` off the stack.
    fn settle(&mut self, first: usize, begins: &mut [bool]) {
        let places = self.word.places();
        let start = self.stack.iter().rposition(|&node| node == first).unwrap();
        let members = self.stack.split_off(start);
        let successors = |node: usize| {
            let (targets, place) = self.targets(node);
            targets.iter().map(move |target| target * places + place)
        };
        let accepting = |&node: &usize| self.table.macrostates[node / places].is_accepting();
        let cycle = members.len() > 1 || successors(first).any(|next| next == first);
        let good = (cycle && members.iter().any(accepting))
            || members
                .iter()
                .any(|&node| successors(node).any(|next| self.settled[next] && begins[next]));
        for node in members {
            self.settled[node] = true;
            begins[node] = good;
        }
    }
}

/// "it answers no, or yes with the lowest number of an initial macrostate where
/// an accepting run begins"
pub fn lowest_start(rule: &Rule, table: &Table, word: &Word) -> Option<usize> {
    let product = table.product(word);
    (0..table.macrostates.len())
        .find(|&number| table.macrostates[number].is_initial(rule) && product.begins(number, 0))
}

/// The judge on a built table, all byte slices: rows 1 to 11, 12 to 14, 15, 16.
pub fn judge_table(
    file: &[u8],
    [lead, cycle]: [&[u8]; 2],
    [codes, transitions]: [&[u8]; 2],
    scratch: usize,
) -> Result<Option<usize>, u8> {
    let (rule, _) = read(file)?;
    let word = Word::of_rule(&rule, lead, cycle)?;
    let codes = numbers(codes)?;
    let transitions = numbers(transitions)?;
    let table = Table::new(&rule, &codes, &transitions)?;
    // "a scratch slice of at least macrostates × places bytes"
    if scratch < codes.len() * word.places() {
        return Err(16);
    }
    Ok(lowest_start(&rule, &table, &word))
}
