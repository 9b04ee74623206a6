//! Demand 3 on what the library builds: over all words with a lead-in and a cycle
//! up to a small length the accepting runs of its tables are counted. There is
//! one exactly where the rule, judged as a game, accepts (in the table of the
//! words that it rejects: where it does not), and never more; and no endless
//! sequence of letters whatever has two. The second program builds nothing here.

use std::sync::OnceLock;

use compare::library::{mulgreddi_build, mulgreddi_build_rejecting, mulgreddi_build_trimmed};
use second::build::Macrostate;
use second::every;
use second::game;
use second::rule::Rule;
use second::runs::{Counted, Runs};
use second::sample::{self, Random, Shape, SHAPES};
use second::table::Table;
use second::word::Word;

use super::build::Build;
use crate::harness::{Entry, Harness};
use crate::input::varied;

pub const ENTRY: Entry = Entry {
    name: "runs of the library's tables",
    refusals: &[],
    verdict: false,
    kinds: &[
        "built",
        "trimmed",
        "rejecting",
        "every rule of 1 and 2 states",
        "random rules",
        "words with one run",
        "words with none",
        "no sequence with two runs",
    ],
    round: 43_000,
    examples,
    random,
};

/// The builds: an entry, and whether its runs are those of accepted words.
const BUILDS: [(&str, Build, bool); 3] = [
    ("built", mulgreddi_build, true),
    ("trimmed", mulgreddi_build_trimmed, true),
    ("rejecting", mulgreddi_build_rejecting, false),
];

/// Room for what is counted. A larger table is passed over.
const ROOMS: [usize; 2] = [250, 5_000];
/// The most macrostates of a table of which two are followed in step.
const IN_STEP: usize = 60;

/// The table that an entry leaves in its rooms; none where it has no room.
pub fn built(harness: &mut Harness, build: Build, file: &[u8]) -> Option<(Vec<u64>, Vec<u64>)> {
    let patterns = ROOMS.map(|room| harness.pattern(room * 8));
    harness.begin();
    let file = harness.lend("file", file);
    let codes = harness.lend_room("codes", &patterns[0]);
    let transitions = harness.lend_room("transitions", &patterns[1]);
    let (file, rooms) = (harness.bytes(file), [codes, transitions]);
    let [at, to] = rooms.map(|room| harness.numbers(room));
    let answer = harness.timed(|| unsafe { build(file.0, file.1, at.0, at.1, to.0, to.1) });
    let told = format!("{answer:?}");
    let counts = [answer.first as usize, answer.second as usize];
    let fits = counts[0] <= ROOMS[0] && counts[1] <= ROOMS[1];
    harness.must(matches!(answer.refusal, 0 | 17 | 18) && fits, || {
        told.clone()
    });
    // "unused elements become 0"
    let mut held = Vec::new();
    for (room, count) in rooms.into_iter().zip(counts) {
        let bytes = harness.held(room);
        let used = bytes[..count * 8].to_vec();
        let numbers = used
            .chunks(8)
            .map(|b| u64::from_ne_bytes(b.try_into().unwrap()));
        held.push(numbers.collect::<Vec<u64>>());
        let mut after = used;
        after.resize(bytes.len(), 0);
        harness.expect(room, after);
    }
    let (transitions, codes) = (held.pop()?, held.pop()?);
    harness.settle(Ok((answer.first, answer.second)), &told);
    (answer.refusal == 0).then_some((codes, transitions))
}

/// Counts the runs of all three tables of a rule over these words.
fn count(harness: &mut Harness, rule: &Rule, words: &[[Vec<u8>; 2]]) {
    let file = sample::file(rule);
    let mut verdicts: Option<Vec<bool>> = None;
    for (kind, build, accepted) in BUILDS {
        let Some((codes, transitions)) = built(harness, build, &file) else {
            continue;
        };
        harness.saw(kind);
        let verdicts = verdicts.get_or_insert_with(|| {
            let words = words.iter();
            words
                .map(|[lead, cycle]| game::accepts(rule, lead, cycle))
                .collect()
        });
        let table = match Table::new(rule, &codes, &transitions) {
            Ok(table) => table,
            Err(number) => {
                return harness.must(false, || format!("the table of {kind} is refused {number}"))
            }
        };
        // "It is initial if S holds the initial state, K is 0 and k is 0", or
        // lacks it in the table of the words that the rule rejects.
        let begins = |code: u64| {
            let macrostate = Macrostate::from_code(code);
            let holds = macrostate.core.set >> rule.initial & 1 == 1;
            holds == accepted && macrostate.component == 0 && macrostate.classes == 0
        };
        let starts = (0..codes.len()).filter(|&number| begins(codes[number]));
        let counted = Counted::new(&table, rule.letters, starts.collect());
        for ([lead, cycle], verdict) in words.iter().zip(verdicts) {
            let runs = counted.runs(&Word { lead, cycle });
            let expected = match *verdict == accepted {
                true => Runs::One,
                false => Runs::None,
            };
            harness.must(runs == expected, || {
                format!(
                    "{kind}: accepting runs over {lead:?} {cycle:?}: {runs}, expected {expected}"
                )
            });
            harness.saw(match runs {
                Runs::One => "words with one run",
                _ => "words with none",
            });
        }
        if codes.len() <= IN_STEP {
            harness.must(!counted.two_runs(), || {
                format!("{kind}: a sequence has two runs")
            });
            harness.saw("no sequence with two runs");
        }
    }
}

fn examples(harness: &mut Harness) {
    for letters in [1, 2] {
        let words = every::sequences(letters, 2, 2);
        for states in [1, 2] {
            for rule in every::rules(states, letters) {
                count(harness, &rule, &words);
                harness.saw("every rule of 1 and 2 states");
            }
        }
    }
}

fn rule(random: &mut Random) -> Rule {
    let letters = random.between(2, 3);
    if random.once_in(3) {
        let states = random.between(4, 6);
        return varied(random, Shape::VeryWeak, states, letters);
    }
    let (shape, states) = (*random.pick(&SHAPES), random.between(2, 4));
    varied(random, shape, states, letters)
}

fn random(harness: &mut Harness) {
    let rule = rule(&mut harness.random);
    static WORDS: OnceLock<[Vec<[Vec<u8>; 2]>; 2]> = OnceLock::new();
    let words = WORDS.get_or_init(|| [every::sequences(2, 3, 4), every::sequences(3, 2, 2)]);
    count(harness, &rule, &words[rule.letters - 2]);
    harness.saw("random rules");
}
