//! Strongly connected components of a graph, given by the nodes that each node
//! leads to.

use std::collections::VecDeque;

/// The graph with every edge turned round.
pub fn turned(graph: &[Vec<usize>]) -> Vec<Vec<usize>> {
    let mut turned = vec![Vec::new(); graph.len()];
    for (from, targets) in graph.iter().enumerate() {
        for &to in targets {
            turned[to].push(from);
        }
    }
    turned
}

/// Which nodes some start reaches, in zero steps or more.
pub fn reached(graph: &[Vec<usize>], starts: impl IntoIterator<Item = usize>) -> Vec<bool> {
    let mut reached = vec![false; graph.len()];
    let mut waiting = Vec::from_iter(starts);
    for &start in &waiting {
        reached[start] = true;
    }
    while let Some(node) = waiting.pop() {
        for &to in &graph[node] {
            if !reached[to] {
                reached[to] = true;
                waiting.push(to);
            }
        }
    }
    reached
}

/// A number for each node: two nodes that reach each other have the same, others
/// do not. (Nodes in the order in which a search leaves them for good; then,
/// last first, what each reaches against the edges and has no number yet.)
pub fn components(graph: &[Vec<usize>]) -> Vec<usize> {
    let mut seen = vec![false; graph.len()];
    let mut left = Vec::new();
    for root in 0..graph.len() {
        if seen[root] {
            continue;
        }
        seen[root] = true;
        let mut path = vec![(root, 0)];
        while let Some((node, next)) = path.pop() {
            match graph[node].get(next) {
                Some(&to) => {
                    path.push((node, next + 1));
                    if !seen[to] {
                        seen[to] = true;
                        path.push((to, 0));
                    }
                }
                None => left.push(node),
            }
        }
    }
    let turned = turned(graph);
    let mut number = vec![usize::MAX; graph.len()];
    let mut numbers = 0;
    for &root in left.iter().rev() {
        if number[root] != usize::MAX {
            continue;
        }
        number[root] = numbers;
        let mut waiting = vec![root];
        while let Some(node) = waiting.pop() {
            for &from in &turned[node] {
                if number[from] == usize::MAX {
                    number[from] = numbers;
                    waiting.push(from);
                }
            }
        }
        numbers += 1;
    }
    number
}

/// Which components, by number, have an edge inside: their nodes lie on cycles.
pub fn with_cycle(graph: &[Vec<usize>], component: &[usize]) -> Vec<bool> {
    let mut cycle = vec![false; graph.len()];
    for (from, targets) in graph.iter().enumerate() {
        if targets.iter().any(|&to| component[to] == component[from]) {
            cycle[component[from]] = true;
        }
    }
    cycle
}

/// A shortest path of one edge or more from a start to a goal over nodes that
/// are allowed, as places in the lists of targets: the start, and the places of
/// the edges to take.
pub fn path(
    graph: &[Vec<usize>],
    starts: impl IntoIterator<Item = usize>,
    allowed: impl Fn(usize) -> bool,
    goal: impl Fn(usize) -> bool,
) -> Option<(usize, Vec<usize>)> {
    // For each node found, the node before it and the edge taken.
    let mut before = vec![None; graph.len()];
    let mut is_start = vec![false; graph.len()];
    let mut waiting = VecDeque::new();
    for start in starts {
        if !is_start[start] && allowed(start) {
            is_start[start] = true;
            waiting.push_back(start);
        }
    }
    while let Some(node) = waiting.pop_front() {
        for (edge, &to) in graph[node].iter().enumerate() {
            if !allowed(to) {
                continue;
            }
            if goal(to) {
                let mut edges = vec![edge];
                let mut node = node;
                while !is_start[node] {
                    let (earlier, edge) = before[node].unwrap();
                    edges.push(edge);
                    node = earlier;
                }
                edges.reverse();
                return Some((node, edges));
            }
            if !is_start[to] && before[to].is_none() {
                before[to] = Some((node, edge));
                waiting.push_back(to);
            }
        }
    }
    None
}

#[cfg(test)]
mod tests {
    use super::*;
    use crate::sample::Random;

    #[test]
    fn random_graphs() {
        let mut random = Random::new(91);
        for _ in 0..3_000 {
            let nodes = random.between(1, 8);
            let spare = random.between(2, 8);
            let mut graph = vec![Vec::new(); nodes];
            for targets in &mut graph {
                targets.extend((0..nodes).filter(|_| random.once_in(spare)));
            }
            let reaches: Vec<Vec<bool>> = (0..nodes).map(|from| reached(&graph, [from])).collect();
            let component = components(&graph);
            let cycle = with_cycle(&graph, &component);
            for from in 0..nodes {
                for to in 0..nodes {
                    let mutual = reaches[from][to] && reaches[to][from];
                    assert_eq!(component[from] == component[to], mutual);
                }
                let comes_back = graph[from].iter().any(|&to| reaches[to][from]);
                assert_eq!(cycle[component[from]], comes_back);
                // A path from the node to itself, if any, is one.
                let found = path(&graph, [from], |_| true, |to| to == from);
                assert_eq!(found.is_some(), comes_back);
                if let Some((start, edges)) = found {
                    let end = edges.iter().fold(start, |node, &edge| graph[node][edge]);
                    assert!(start == from && end == from && edges.len() <= nodes);
                }
            }
        }
    }
}
