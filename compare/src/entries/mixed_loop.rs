//! The report of the shortest mixed loop.

use compare::library::mulgreddi_mixed_loop;
use second::mixed::mixed_loop;
use second::sample::Shape;

use crate::harness::{Entry, Harness, Seen};
use crate::input::{any_file, near, prefaced, refused, varied, RULES};

pub const ENTRY: Entry = Entry {
    name: "mixed_loop",
    refusals: &[&[1, 2, 3, 4, 5, 6, 7, 8, 9, 10, 16, 20]],
    verdict: true,
    kinds: &LENGTHS,
    round: 100_000,
    examples,
    random,
};

/// Loops of every length.
const LENGTHS: [&str; 7] = [
    "2 states", "3 states", "4 states", "5 states", "6 states", "7 states", "8 states",
];

fn compare(harness: &mut Harness, file: &[u8], room: usize) -> Seen {
    let found = mixed_loop(file).and_then(|found| {
        let states = found.unwrap_or_default();
        if room < states.len() {
            return Err(16);
        }
        Ok(states)
    });
    let out = harness.pattern(room);
    harness.begin();
    harness.count_file(file);
    if let Ok(states) = &found {
        harness.count("states of the loop", states.len());
    }
    let file = harness.lend("file", file);
    let lent = harness.lend_out("out", &out);
    let expected = match found {
        Ok(states) => {
            let mut after = out;
            for (place, state) in states.iter().enumerate() {
                after[place] = *state as u8;
            }
            harness.expect(lent, after);
            if !states.is_empty() {
                harness.saw(LENGTHS[states.len() - 2]);
            }
            Ok((states.len() as u64, 0))
        }
        Err(number) => Err(number),
    };
    let (file, out) = (harness.bytes(file), harness.bytes(lent));
    harness.call(expected, || unsafe {
        mulgreddi_mixed_loop(file.0, file.1, out.0, out.1)
    });
    Seen(expected)
}

/// One letter; each state leads to the next of the order, the last to the first.
fn ring(order: &[usize], accepting: u8) -> Vec<u8> {
    let states = order.len();
    let mut clauses = vec![0; states];
    for (place, &state) in order.iter().enumerate() {
        clauses[state] = 1u8 << order[(place + 1) % states];
    }
    clauses.extend(vec![1; states]);
    clauses.extend([states as u8, 1, 0, accepting, states as u8, 0, 0x41, 0x57]);
    clauses
}

fn examples(harness: &mut Harness) {
    for (number, file) in refused() {
        let expected = compare(harness, file, 9);
        match number {
            11 => harness.by_01(&expected.0, &Ok((2, 0))),
            // "21 to 23 do not apply to it"
            21..=23 => harness.by_01(&expected.0, &Ok((0, 0))),
            _ => harness.by_01(&expected.0, &Err(number)),
        }
    }
    for rule in RULES {
        let expected = compare(harness, rule, 0);
        harness.by_01(&expected.0, &Ok((0, 0)));
    }
    // Rings of two to eight states in many orders, a loop of all states.
    for states in 2..=8 {
        let mut order: Vec<usize> = (0..states).collect();
        for accepting in 1..(1u32 << states) - 1 {
            harness.random.shuffle(&mut order);
            let file = ring(&order, accepting as u8);
            for room in [states - 1, states, states + 1] {
                let expected = compare(harness, &file, room);
                let said = if room < states {
                    Err(16)
                } else {
                    Ok((states as u64, 0))
                };
                harness.by_01(&expected.0, &said);
            }
        }
    }
}

fn random(harness: &mut Harness) {
    let random = &mut harness.random;
    let file = if random.once_in(6) {
        any_file(random)
    } else {
        // Several states in few components, some accepting and some rejecting.
        let (states, alphabet) = (random.between(2, 8), random.between(1, 3));
        let shape = *random.pick(&[Shape::One, Shape::Rings, Shape::Rings, Shape::Layers]);
        let mut rule = varied(random, shape, states, alphabet);
        if !random.once_in(8) {
            rule.accepting = random.byte() & rule.all();
        }
        prefaced(random, &rule)
    };
    let needed = match mixed_loop(&file) {
        Ok(Some(states)) => states.len(),
        _ => 3,
    };
    let room = near(random, needed);
    compare(harness, &file, room);
}
