//! Hanoi texts read back.

use compare::library::mulgreddi_read_hoa;
use compare::stored::LARGE;
use second::build::{build, Macrostate};
use second::hanoi;
use second::hoa::{carried, propositions, read_hoa, text_of};
use second::rule::{read, Rule};
use second::sample::{Random, D, F, I};

use super::build::stored;
use super::judge_table::large_tables;
use super::write_hoa::TEXT_OF_F;
use crate::harness::{Entry, Expected, Harness, Seen};
use crate::input::{limit_file, near};

pub const ENTRY: Entry = Entry {
    name: "read_hoa",
    refusals: &[&[19, 16]],
    verdict: false,
    kinds: &REASONS,
    round: 130_000,
    examples,
    random,
};

/// Why no table has a text, and texts that one has.
const REASONS: [&str; 19] = [
    "a text",
    "States: 0",
    "accepting after another",
    "initial, not accepting",
    "65537 states",
    "more than 4 AP",
    "other names of AP",
    "a label of other length",
    "[t] with AP",
    "edges out of order",
    "an edge twice",
    "a target out of range",
    "a leading zero",
    "starts out of order",
    "a start out of range",
    "states out of order",
    "a line twice",
    "a line missing",
    "spaces",
];

fn compare(harness: &mut Harness, text: &[u8], rooms: [usize; 2]) -> Seen {
    let read = read_hoa(text, rooms[0], rooms[1]);
    let flags = harness.pattern(rooms[0]);
    let transitions = harness.pattern(8 * rooms[1]);
    harness.begin();
    if let Some(states) = states_of(text) {
        harness.count("states", states);
    }
    if let Ok(carried) = &read {
        harness.count("transitions", carried.transitions.len());
    }
    let text = harness.lend("text", text);
    let lent_flags = harness.lend_out("flags", &flags);
    let lent_transitions = harness.lend_room("transitions", &transitions);
    let expected: Expected = match &read {
        Ok(carried) => {
            let packed = carried.transitions.iter().flat_map(|x| x.to_ne_bytes());
            for (lent, mut after, written) in [
                (lent_flags, flags, carried.flags.clone()),
                (lent_transitions, transitions, packed.collect()),
            ] {
                after[..written.len()].copy_from_slice(&written);
                harness.expect(lent, after);
            }
            Ok((carried.flags.len() as u64, carried.transitions.len() as u64))
        }
        Err(number) => Err(*number),
    };
    let (text, flags) = (harness.bytes(text), harness.bytes(lent_flags));
    let transitions = harness.numbers(lent_transitions);
    harness.call(expected, || unsafe {
        mulgreddi_read_hoa(
            text.0,
            text.1,
            flags.0,
            flags.1,
            transitions.0,
            transitions.1,
        )
    });
    Seen(expected)
}

/// The number on the line of the states.
fn states_of(text: &[u8]) -> Option<usize> {
    let text = text.strip_prefix(b"HOA: v1\nStates: ")?;
    let digits = text.iter().take_while(|byte| byte.is_ascii_digit());
    let digits: Vec<u8> = digits.take(9).copied().collect();
    String::from_utf8(digits).ok()?.parse().ok()
}

/// A rule of one state and s letters.
fn rule(s: usize) -> Rule {
    read(&limit_file(1, s, 1)).unwrap().0
}

/// The text of F's table, of an empty one, and of one with sixteen letters.
fn texts() -> [Vec<u8>; 3] {
    let sixteen = [0, 13, 15, 256 + 3, 512 + 12].map(|edge| edge % 256 << 16 | edge / 256 << 24);
    [
        TEXT_OF_F.as_bytes().to_vec(),
        text_of(&rule(1), &[], &[]).into_bytes(),
        text_of(&rule(16), &[0, 1, 3, 1 << 44], &sixteen).into_bytes(),
    ]
}

/// The texts of tables around the most codes and around the most transitions of a
/// build; no table has 65,537 codes, but what would be its text is lent too.
fn limits(harness: &mut Harness) {
    for (codes, transitions, s) in large_tables(&mut harness.random) {
        let text = text_of(&rule(s), &codes, &transitions).into_bytes();
        compare(harness, &text, [codes.len(), transitions.len()]);
    }
}

fn examples(harness: &mut Harness) {
    limits(harness);
    let used = b"0123456789 \n[]!&t{}StateHOA:-\t\r\x00\xff";
    for text in texts() {
        for rooms in [[9, 9], [0, 0]] {
            compare(harness, &text, rooms);
        }
        for place in 0..=text.len() {
            // Cut here, and with a byte added, dropped or changed.
            if place < text.len() {
                let expected = compare(harness, &text[..place], [9, 9]);
                harness.by_01(&expected.0, &Err(19));
                let dropped = [&text[..place], &text[place + 1..]].concat();
                compare(harness, &dropped, [9, 9]);
                let any = harness.random.byte();
                for byte in used.iter().copied().chain([any]) {
                    let mut changed = text.clone();
                    changed[place] = byte;
                    compare(harness, &changed, [9, 9]);
                }
            }
            for _ in 0..8 {
                let byte = *harness.random.pick(used);
                let added = [&text[..place], &[byte], &text[place..]].concat();
                compare(harness, &added, [9, 9]);
            }
        }
        let more = [&text[..], &text].concat();
        let expected = compare(harness, &more, [9, 9]);
        harness.by_01(&expected.0, &Err(19));
    }
    // Every room around the counts; 19 comes before 16.
    for file in [&F[..], &D, &I] {
        let (codes, transitions) = build(file, 99, 99).unwrap();
        let (rule, _) = read(file).unwrap();
        let text = text_of(&rule, &codes, &transitions).into_bytes();
        let flags = carried(&rule, &codes, &transitions).flags;
        let seen = read_hoa(&text, 99, 99).unwrap();
        harness.by_01(
            &(seen.flags, seen.transitions),
            &(flags, transitions.clone()),
        );
        for flags in 0..codes.len() + 3 {
            for edges in 0..transitions.len() + 3 {
                let expected = compare(harness, &text, [flags, edges]);
                let fits = flags >= codes.len() && edges >= transitions.len();
                harness.by_01(&expected.0.is_ok(), &fits);
                let expected = compare(harness, &text[1..], [flags, edges]);
                harness.by_01(&expected.0, &Err(19));
            }
        }
    }
    many_states(harness);
    // A table that nearly fills both rooms.
    let (file, macrostates, count) = LARGE[0];
    let table = stored(file, true);
    let text = text_of(&read(file).unwrap().0, &table.0, &table.1).into_bytes();
    for rooms in [[macrostates, count], [macrostates, count - 1]] {
        compare(harness, &text, rooms);
    }
}

/// 65,536 macrostates and one more, and numbers beyond every bound.
fn many_states(harness: &mut Harness) {
    for (states, edge) in [(65_536, 65_535), (65_536, 65_536), (65_537, 0)] {
        let mut text = format!("HOA: v1\nStates: {states}\n");
        text += "AP: 0\nacc-name: Buchi\nAcceptance: 1 Inf(0)\n";
        text += "properties: trans-labels explicit-labels state-acc\n--BODY--\n";
        for state in 0..states {
            text += &format!("State: {state}\n");
        }
        text += &format!("[t] {edge}\n--END--\n");
        let expected = compare(harness, text.as_bytes(), [70_000, 9]);
        let said = if states == 65_536 && edge < states {
            Ok((65_536, 1))
        } else {
            Err(19)
        };
        harness.by_01(&expected.0, &said);
        if states > 65_536 {
            harness.saw("65537 states");
        }
    }
    for number in [
        "65539",
        "4294967299",
        "18446744073709551619",
        "340282366920938463463374607431768211459",
        "-3",
        "+3",
        "",
    ] {
        for (old, new) in [
            ("States: 3", "States: "),
            ("[!0] 2", "[!0] "),
            ("Start: 1", "Start: "),
        ] {
            let text = TEXT_OF_F.replacen(old, &format!("{new}{number}"), 1);
            let expected = compare(harness, text.as_bytes(), [9, 9]);
            harness.by_01(&expected.0, &Err(19));
        }
    }
}

/// A table that some codes have, its codes and transitions, and its rule.
fn table(random: &mut Random) -> (Rule, Vec<u64>, Vec<u64>) {
    let s = match random.below(2) {
        0 => random.between(1, 16),
        _ => random.between(1, 3),
    };
    let states = match random.below(20) {
        0 => 0,
        1 => random.between(0, 120),
        _ => random.between(1, 6),
    };
    let accepting = random.between(0, states);
    let often = random.between(1, 3);
    let codes: Vec<u64> = (0..states as u64)
        .map(|number| {
            if number >= accepting as u64 {
                1 << 44 | number
            } else if random.once_in(often) {
                2 * number + 1
            } else {
                2 * number
            }
        })
        .collect();
    let mut transitions = Vec::new();
    for _ in 0..random.below(3 * states + 1) {
        let numbers = [random.below(states), random.below(s), random.below(states)];
        let [source, letter, target] = numbers.map(|number| number as u64);
        transitions.push(source << 24 | letter << 16 | target);
    }
    transitions.sort_unstable();
    transitions.dedup();
    (rule(s), codes, transitions)
}

/// The lines of a text changed for one of the reasons; none where the table has
/// nothing to change so.
fn spoil(random: &mut Random, reason: &str, lines: &mut Vec<String>, b: usize) -> Option<()> {
    let states = lines[1].strip_prefix("States: ")?.parse::<usize>().ok()?;
    let kind = *random.pick(&["[", "State: ", "Start: ", "States: ", "AP: "]);
    // A random line that begins so.
    let mut some = |lines: &[String], start: &str| -> Option<usize> {
        let found: Vec<usize> = (0..lines.len())
            .filter(|&line| lines[line].starts_with(start))
            .collect();
        (!found.is_empty()).then(|| *random.pick(&found))
    };
    match reason {
        "accepting after another" => {
            let last = some(lines, &format!("State: {}", states.checked_sub(1)?))?;
            lines[last] = format!("State: {} {{0}}", states - 1);
            let first = some(lines, "State: 0")?;
            lines[first] = "State: 0".to_string();
        }
        "initial, not accepting" => {
            let start = some(lines, "Start: ")?;
            let state = lines[start].replace("Start: ", "State: ");
            let line = lines
                .iter()
                .position(|line| *line == format!("{state} {{0}}"))?;
            lines[line] = state;
        }
        "more than 4 AP" => {
            let line = some(lines, "AP: ")?;
            lines[line] = "AP: 5 \"e0\" \"e1\" \"e2\" \"e3\" \"e4\"".to_string();
        }
        "other names of AP" => {
            let line = some(lines, "AP: ")?;
            lines[line] = match b {
                0 => "AP: 0 \"e0\"".to_string(),
                _ => lines[line].replace("e0", "e1"),
            };
        }
        "a label of other length" => {
            let line = some(lines, "[")?;
            lines[line] = match b {
                0 => lines[line].replace('t', "0"),
                4 => lines[line].replace(']', "&4]"),
                _ => lines[line].replace(']', &format!("&!{b}]")),
            };
        }
        "[t] with AP" => {
            let line = some(lines, "[")?;
            let target = lines[line].split("] ").nth(1)?.to_string();
            lines[line] = format!("[t] {target}");
            if b == 0 {
                return None;
            }
        }
        "edges out of order" => {
            let line = some(lines, "[")?;
            if !lines[line + 1].starts_with('[') {
                return None;
            }
            lines.swap(line, line + 1);
        }
        "an edge twice" => {
            let line = some(lines, "[")?;
            lines.insert(line, lines[line].clone());
        }
        "a target out of range" => {
            let line = some(lines, "[")?;
            let label = lines[line].split("] ").next()?.to_string();
            lines[line] = format!("{label}] {states}");
        }
        "a leading zero" => {
            let line = some(lines, kind)?;
            let at = match lines[line].find("] ") {
                Some(at) => at + 2,
                None => lines[line].find(' ')? + 1,
            };
            lines[line].insert(at, '0');
        }
        "starts out of order" => {
            let line = some(lines, "Start: ")?;
            if !lines[line + 1].starts_with("Start: ") {
                return None;
            }
            lines.swap(line, line + 1);
        }
        "a start out of range" => {
            let line = some(lines, "AP: ")?;
            lines.insert(line, format!("Start: {states}"));
        }
        "states out of order" => {
            let (one, other) = (some(lines, "State: ")?, some(lines, "State: ")?);
            if one == other {
                return None;
            }
            lines.swap(one, other);
        }
        "a line twice" => {
            let line = some(lines, "")?;
            lines.insert(line, lines[line].clone());
        }
        "a line missing" => {
            let line = some(lines, "")?;
            if lines[line].starts_with('[') || lines[line].starts_with("Start") {
                return None;
            }
            lines.remove(line);
        }
        "spaces" => {
            let line = some(lines, "")?;
            let at = random.below(lines[line].len() + 1);
            lines[line].insert(at, *random.pick(&[' ', '\t', '\r', '\n']));
        }
        _ => return None,
    }
    Some(())
}

fn random(harness: &mut Harness) {
    let random = &mut harness.random;
    let (rule, codes, transitions) = table(random);
    let text = text_of(&rule, &codes, &transitions);
    for _ in 0..3 {
        let random = &mut harness.random;
        let reason = *random.pick(&REASONS);
        let mut lines: Vec<String> = text.lines().map(str::to_string).collect();
        let spoiled = spoil(random, reason, &mut lines, propositions(rule.letters));
        let mut changed = lines.join("\n").into_bytes();
        changed.push(b'\n');
        let damaged = spoiled.is_none() && random.once_in(3);
        if damaged {
            damage(random, &mut changed);
        }
        let rooms = [near(random, codes.len()), near(random, transitions.len())];
        let rooms = match random.below(3) {
            0 => rooms,
            _ => [codes.len() + 1, transitions.len() + 1],
        };
        let expected = compare(harness, &changed, rooms).0;
        if spoiled.is_some() && expected == Err(19) {
            harness.saw(reason);
        }
        if !damaged && spoiled.is_none() && expected.is_ok() {
            let initial = codes.iter().map(|&code| Macrostate::from_code(code));
            let initial = initial.filter(|macrostate| macrostate.is_initial(&rule));
            harness.agree(
                &hanoi::read(&changed).map(|seen| (seen.states, seen.starts.len())),
                &Ok((codes.len(), initial.count())),
            );
            harness.saw(if codes.is_empty() {
                "States: 0"
            } else {
                "a text"
            });
        }
    }
}

/// One or two bytes changed, added, dropped or exchanged, or the text cut.
fn damage(random: &mut Random, text: &mut Vec<u8>) {
    let used = b"0123456789 \n[]!&t{}StateHOA:-\xff";
    for _ in 0..random.between(1, 2) {
        if text.is_empty() {
            return;
        }
        let at = random.below(text.len());
        match random.below(6) {
            0 => drop(text.remove(at)),
            1 => text.insert(at, *random.pick(used)),
            2 => text[at] = random.byte(),
            3 if random.once_in(8) => text.truncate(at),
            4 => {
                let other = random.below(text.len());
                text.swap(at, other);
            }
            _ => text[at] = *random.pick(used),
        }
    }
}
