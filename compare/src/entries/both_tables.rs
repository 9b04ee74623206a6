//! The table of the words that a rule accepts beside that of the words that it
//! rejects, both as the library builds them: they share no word and miss none. Runs
//! are counted over random words up to 32 letters of lead-in and cycle; on small
//! tables the product of both has no accepting run, and a list of words that decides
//! where runs begin has each word in one of them.

use compare::library::{mulgreddi_build, mulgreddi_build_rejecting};
use second::build::Macrostate;
use second::decide;
use second::rule::Rule;
use second::runs::{Counted, Runs};
use second::sample::{letters, Random, Shape, SHAPES};
use second::stricter::{word_of_both, Slices};
use second::table::Table;
use second::word::Word;

use super::runs::built;
use crate::harness::{Entry, Harness};
use crate::input::varied;

pub const ENTRY: Entry = Entry {
    name: "accepted beside rejected",
    refusals: &[],
    verdict: false,
    kinds: &[
        "words of the accepted table",
        "words of the rejected table",
        "words of 32 and 32 letters",
        "no word in the product",
        "all words that decide it",
    ],
    round: 4_000,
    examples: |_| {},
    random,
};

/// The most pairs of macrostates of a product that is searched.
const PAIRS: usize = 10_000;

fn rule(random: &mut Random) -> Rule {
    let letters = random.between(1, 3);
    if random.once_in(3) {
        let states = random.between(2, 6);
        return varied(random, Shape::VeryWeak, states, letters);
    }
    let (shape, states) = (*random.pick(&SHAPES), random.between(1, 4));
    varied(random, shape, states, letters)
}

/// Where the runs of a table begin.
fn starts(rule: &Rule, table: &Table, accepted: bool) -> Vec<usize> {
    let begins = |m: &Macrostate| {
        let holds = m.core.set >> rule.initial & 1 == 1;
        holds == accepted && m.component == 0 && m.classes == 0
    };
    let numbers = 0..table.macrostates.len();
    numbers
        .filter(|&number| begins(&table.macrostates[number]))
        .collect()
}

fn random(harness: &mut Harness) {
    let rule = rule(&mut harness.random);
    let file = second::sample::file(&rule);
    let Some(accepted) = built(harness, mulgreddi_build, &file) else {
        return;
    };
    let Some(rejected) = built(harness, mulgreddi_build_rejecting, &file) else {
        return;
    };
    let table = |slices: &Slices| Table::new(&rule, &slices.0, &slices.1);
    let (Ok(one), Ok(other)) = (table(&accepted), table(&rejected)) else {
        return harness.must(false, || "a table is refused".to_string());
    };
    let counted = [(&one, true), (&other, false)]
        .map(|(table, accepted)| Counted::new(table, rule.letters, starts(&rule, table, accepted)));
    let in_one = |harness: &mut Harness, lead: &[u8], cycle: &[u8]| {
        let runs = counted
            .each_ref()
            .map(|table| table.runs(&Word { lead, cycle }));
        harness.must(
            matches!(runs, [Runs::One, Runs::None] | [Runs::None, Runs::One]),
            || {
                format!(
                    "runs over {lead:?} {cycle:?}: accepted {}, rejected {}",
                    runs[0], runs[1]
                )
            },
        );
        harness.saw(match runs[0] {
            Runs::One => "words of the accepted table",
            _ => "words of the rejected table",
        });
    };
    for number in 0..4 {
        let random = &mut harness.random;
        let lengths = match number {
            0 => [32, 32],
            1 => [random.between(0, 32), random.between(1, 32)],
            _ => [random.between(0, 5), random.between(1, 5)],
        };
        if number == 0 {
            harness.saw("words of 32 and 32 letters");
        }
        let [lead, cycle] =
            lengths.map(|length| letters(&mut harness.random, rule.letters, length));
        in_one(harness, &lead, &cycle);
    }
    if accepted.0.len() * rejected.0.len() <= PAIRS {
        let word = word_of_both([&rule, &rule], [&accepted, &rejected]);
        harness.must(word == Ok(None), || format!("both tables have {word:?}"));
        harness.saw("no word in the product");
    }
    if let Some(words) = decide::words_of_tables([&one, &other], rule.letters, 300) {
        for [lead, cycle] in &words {
            in_one(harness, lead, cycle);
        }
        harness.saw("all words that decide it");
    }
}
