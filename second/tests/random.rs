//! Random rules and words: one definition against another.

use second::build::reachable;
use second::judge::accepting_masks;
use second::plans;
use second::rule::{read, same_rules, write, Rule};
use second::sample::{file, letters, rule, Random, SHAPES};
use second::table::{lowest_start, Table};
use second::word::Word;

fn small_rule(random: &mut Random, states: usize, alphabet: usize) -> Rule {
    let shape = *random.pick(&SHAPES);
    let states = random.between(1, states);
    let alphabet = random.between(1, alphabet);
    rule(random, shape, states, alphabet)
}

/// A random word of the rule; `places` bounds the lead-in and the cycle.
fn small_word(random: &mut Random, rule: &Rule, places: usize) -> (Vec<u8>, Vec<u8>) {
    let lead = random.between(0, places);
    let cycle = random.between(1, places);
    (
        letters(random, rule.letters, lead),
        letters(random, rule.letters, cycle),
    )
}

#[test]
fn files_read_back() {
    let mut random = Random::new(1);
    for _ in 0..5_000 {
        let rule = small_rule(&mut random, 8, 16);
        let file = file(&rule);
        assert_eq!(read(&file), Ok((rule.clone(), 0)));
        let entries = rule.entries.iter().flatten();
        let counts: Vec<u8> = entries.clone().map(|clauses| clauses.len() as u8).collect();
        let clauses: Vec<u8> = entries.flatten().copied().collect();
        let numbers = [rule.states, rule.letters, rule.initial].map(|x| x as u32);
        let numbers = [numbers[0], numbers[1], numbers[2], rule.accepting.into()];
        let written = write(numbers, &counts, &clauses, file.len());
        assert_eq!(written.as_ref(), Ok(&file));
        assert_eq!(same_rules(&file, &file), Ok(true));
    }
}

#[test]
fn fixed_point_and_plans() {
    let mut random = Random::new(2);
    let (mut yes, mut no) = (0, 0);
    while yes + no < 40_000 {
        let mut rule = small_rule(&mut random, 3, 2);
        let entries = rule.entries.iter_mut().flatten();
        entries.for_each(|clauses| clauses.truncate(3));
        let (lead, cycle) = small_word(&mut random, &rule, 2);
        let word = Word::of_rule(&rule, &lead, &cycle).unwrap();
        let masks = accepting_masks(&rule, &word);
        for (place, mask) in masks.into_iter().enumerate() {
            for q in 0..rule.states {
                let accepts = plans::accepts(&rule, &word, (q, place));
                assert_eq!(mask >> q & 1 == 1, accepts, "{rule:?} {word:?}");
                *(if accepts { &mut yes } else { &mut no }) += 1;
            }
        }
    }
    assert!(yes > 5_000 && no > 5_000);
}

#[test]
fn table_and_rule() {
    let mut random = Random::new(3);
    let (mut yes, mut no) = (0, 0);
    for _ in 0..4_000 {
        let rule = small_rule(&mut random, 5, 3);
        let Ok((codes, transitions)) = reachable(&rule, 3_000, 20_000) else {
            continue;
        };
        let table = Table::new(&rule, &codes, &transitions).unwrap();
        for _ in 0..6 {
            let (lead, cycle) = small_word(&mut random, &rule, 4);
            let word = Word::of_rule(&rule, &lead, &cycle).unwrap();
            let accepted = accepting_masks(&rule, &word)[0] >> rule.initial & 1 == 1;
            let lowest = lowest_start(&rule, &table, &word);
            assert_eq!(lowest.is_some(), accepted, "{rule:?} {word:?}");
            one_accepting_run(&rule, &table, &word, lowest);
            *(if accepted { &mut yes } else { &mut no }) += 1;
        }
    }
    assert!(yes > 5_000 && no > 5_000);
}

/// No two accepting runs: the start number is the only one, and from each step
/// on one macrostate alone continues to an accepting run.
fn one_accepting_run(rule: &Rule, table: &Table, word: &Word, lowest: Option<usize>) {
    let product = table.product(word);
    let starts: Vec<usize> = (0..table.macrostates.len())
        .filter(|&number| table.macrostates[number].is_initial(rule))
        .filter(|&number| product.begins(number, 0))
        .collect();
    assert_eq!(starts, Vec::from_iter(lowest), "{rule:?} {word:?}");
    let (Some(mut number), mut place) = (lowest, 0) else {
        return;
    };
    let mut seen = vec![false; table.macrostates.len() * word.places()];
    while !std::mem::replace(&mut seen[number * word.places() + place], true) {
        let targets = table.targets(number, word.letter(place));
        place = word.following(place);
        let next: Vec<usize> = targets
            .iter()
            .copied()
            .filter(|&target| product.begins(target, place))
            .collect();
        assert_eq!(next.len(), 1, "{rule:?} {word:?}");
        number = next[0];
    }
}
