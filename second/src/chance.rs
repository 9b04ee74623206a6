//! The chance of a rule as an exact fraction, when letters come independently
//! of each other. By the general method for unambiguous automata: equations
//! over all macrostates, and cuts (Baier, Kiefer, Klein, Klüppelholz, Müller and
//! Worrell, CAV 2016). Nothing of what 01 says of cores is used.

use std::collections::{BTreeSet, HashMap};

use crate::build::Macrostate;
use crate::exact::{solve, Whole};
use crate::graph::components;
use crate::rule::Rule;
use crate::trim::trim;

/// More would take long.
const MOST_UNKNOWNS: usize = 24;
const MOST_SETS: usize = 3_000;

/// A table without the transitions over letters that do not come.
struct Chain {
    codes: Vec<u64>,
    /// For each macrostate its letters and targets.
    targets: Vec<Vec<(usize, usize)>>,
    weights: Vec<u64>,
}

impl Chain {
    /// A set that one macrostate of a component leads to inside it, and from
    /// which no word leads to the empty set. Err where there are too many sets.
    fn cut(&self, component: &[usize], from: usize) -> Result<Option<BTreeSet<usize>>, ()> {
        let mut sets = vec![BTreeSet::from([from])];
        let mut number = HashMap::from([(sets[0].clone(), 0)]);
        let mut after: Vec<Vec<usize>> = Vec::new();
        let letters = (0..self.weights.len()).filter(|&a| self.weights[a] > 0);
        let letters = Vec::from_iter(letters);
        while after.len() < sets.len() {
            let set = sets[after.len()].clone();
            let mut row = Vec::new();
            for &letter in &letters {
                let over = set.iter().flat_map(|&q| &self.targets[q]);
                let inside = over.filter(|&&(a, r)| a == letter && component[r] == component[from]);
                let next: BTreeSet<usize> = inside.map(|&(_, r)| r).collect();
                row.push(*number.entry(next.clone()).or_insert_with(|| {
                    sets.push(next);
                    sets.len() - 1
                }));
            }
            after.push(row);
            if sets.len() > MOST_SETS {
                return Err(());
            }
        }
        let mut dies: Vec<bool> = sets.iter().map(BTreeSet::is_empty).collect();
        loop {
            let new = (0..sets.len()).find(|&i| !dies[i] && after[i].iter().any(|&j| dies[j]));
            match new {
                Some(i) => dies[i] = true,
                None => break,
            }
        }
        Ok((0..sets.len()).find(|&i| !dies[i]).map(|i| sets[i].clone()))
    }
}

/// The chance, as numerator and denominator, the weights being whole numbers,
/// not all 0. None where the table of the rule is too large for it.
pub fn chance(rule: &Rule, table: (Vec<u64>, Vec<u64>), weights: &[u64]) -> Option<(Whole, Whole)> {
    let (codes, transitions) = trim(&table.0, &table.1);
    let mut targets = vec![Vec::new(); codes.len()];
    for e in transitions {
        let (source, letter, target) = (e >> 24, (e >> 16 & 255) as usize, e & 65_535);
        if weights[letter] > 0 {
            targets[source as usize].push((letter, target as usize));
        }
    }
    let all = Whole::from(weights.iter().sum::<u64>());
    let chain = Chain {
        codes,
        targets,
        weights: weights.to_vec(),
    };
    let graph = chain.targets.iter();
    let graph: Vec<Vec<usize>> = graph
        .map(|to| to.iter().map(|&(_, r)| r).collect())
        .collect();
    let component = components(&graph);
    // all chances have the denominator `by`
    let mut x = vec![Whole::zero(); chain.codes.len()];
    let mut by = Whole::from(1);
    // components are numbered from the first on, so the last leads to no other
    for number in (0..component.iter().max().map_or(0, |last| last + 1)).rev() {
        let members = (0..component.len()).filter(|&q| component[q] == number);
        let members = Vec::from_iter(members);
        let cut = chain.cut(&component, members[0]).ok()?;
        let accepting = |&q: &usize| Macrostate::from_code(chain.codes[q]).is_accepting();
        let behind = |q: usize| {
            let left = chain.targets[q]
                .iter()
                .filter(|&&(_, r)| component[r] != number);
            left.fold(Whole::zero(), |sum, &(a, r)| {
                &sum + &(&Whole::from(weights[a]) * &x[r])
            })
        };
        let mut rows = Vec::new();
        for &q in &members {
            let mut row = vec![Whole::zero(); members.len() + 1];
            row[rows.len()] = all.clone();
            for &(a, r) in &chain.targets[q] {
                if let Some(place) = members.iter().position(|&member| member == r) {
                    row[place] = &row[place] - &Whole::from(weights[a]);
                }
            }
            row[members.len()] = behind(q);
            rows.push(row);
        }
        let none_behind = rows.iter().all(|row| row[members.len()].is_zero());
        match cut {
            Some(_) if !members.iter().any(accepting) => continue,
            None if none_behind => continue,
            Some(set) => {
                assert!(none_behind, "a component with a cut is left");
                let row = members.iter().map(|q| u64::from(set.contains(q)));
                rows[0] = row.map(Whole::from).chain([by.clone()]).collect();
            }
            None => {}
        }
        if rows.len() > MOST_UNKNOWNS {
            return None;
        }
        let (found, times) = solve(rows).expect("one solution");
        for known in &mut x {
            *known = &*known * &times;
        }
        for (&q, value) in members.iter().zip(found) {
            x[q] = value;
        }
        by = &by * &times;
    }
    let starts = (0..x.len()).filter(|&q| Macrostate::from_code(chain.codes[q]).is_initial(rule));
    let sum = starts.fold(Whole::zero(), |sum, q| &sum + &x[q]);
    Some(if by.is_negative() {
        (-&sum, -&by)
    } else {
        (sum, by)
    })
}

#[cfg(test)]
mod tests {
    use super::*;
    use crate::build::reachable;
    use crate::rule::read;
    use crate::sample::{D, F, I};

    fn is(file: &[u8], weights: &[u64], numerator: u64, denominator: u64) {
        let rule = read(file).unwrap().0;
        let table = reachable(&rule, 99, 999).unwrap();
        let (x, by) = chance(&rule, table, weights).unwrap();
        assert_eq!(
            &x * &Whole::from(denominator),
            &by * &Whole::from(numerator)
        );
    }

    #[test]
    fn examples() {
        is(&F, &[1, 1], 1, 1);
        is(&F, &[1, 0], 0, 1);
        is(&I, &[3, 1], 1, 1);
        is(&I, &[1, 0], 0, 1);
        is(&D, &[1, 1], 1, 3);
        is(&D, &[3, 1], 9, 13);
    }
}
