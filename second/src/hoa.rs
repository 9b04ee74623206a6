//! A built table as a text in the Hanoi Omega-Automata format, version 1, and
//! back: one text for each table, and a reader of exactly these texts.
//!
//! ```text
//! HOA: v1
//! States: N
//! Start: i                  a line for each initial macrostate, ascending
//! AP: b "e0" "e1" ..        b the fewest propositions that tell s letters apart
//! acc-name: Buchi
//! Acceptance: 1 Inf(0)
//! properties: trans-labels explicit-labels state-acc
//! --BODY--
//! State: i {0}              each macrostate, ascending; {0} where it is accepting
//! [!0&1] 5                  each transition from it, ascending
//! --END--
//! ```

use crate::build::{Macrostate, MACROSTATE_CAP};
use crate::rule::{read, Rule};
use crate::table::Table;

/// "flags (a byte each, 1 initial plus 2 accepting)"
pub const INITIAL: u8 = 1;
pub const ACCEPTING: u8 = 2;

/// What a text carries: "codes and s are not carried".
#[derive(Clone, Debug, PartialEq, Eq)]
pub struct Carried {
    /// A byte for each macrostate.
    pub flags: Vec<u8>,
    /// "packed as built"
    pub transitions: Vec<u64>,
}

/// "the fewest propositions that can tell s letters apart"
pub fn propositions(s: usize) -> usize {
    (0..).find(|&b| 1 << b >= s).unwrap()
}

/// The label of a letter over b propositions: "e0 being the lowest bit; a single
/// letter has the label t".
fn label(letter: u64, b: usize) -> String {
    if b == 0 {
        return "t".to_string();
    }
    let bits = (0..b).map(|bit| match letter >> bit & 1 {
        1 => format!("{bit}"),
        _ => format!("!{bit}"),
    });
    bits.collect::<Vec<_>>().join("&")
}

/// The text of what it carries, over b propositions.
fn text(carried: &Carried, b: usize) -> String {
    let mut lines = vec!["HOA: v1".to_string()];
    lines.push(format!("States: {}", carried.flags.len()));
    for (number, flags) in carried.flags.iter().enumerate() {
        if flags & INITIAL != 0 {
            lines.push(format!("Start: {number}"));
        }
    }
    let names: String = (0..b).map(|bit| format!(" \"e{bit}\"")).collect();
    lines.push(format!("AP: {b}{names}"));
    lines.push("acc-name: Buchi".to_string());
    lines.push("Acceptance: 1 Inf(0)".to_string());
    lines.push("properties: trans-labels explicit-labels state-acc".to_string());
    lines.push("--BODY--".to_string());
    let mut rest = carried.transitions.iter().peekable();
    for (number, flags) in carried.flags.iter().enumerate() {
        let set = if flags & ACCEPTING != 0 { " {0}" } else { "" };
        lines.push(format!("State: {number}{set}"));
        let own = |transition: &&u64| **transition / 16_777_216 == number as u64;
        while let Some(transition) = rest.next_if(own) {
            let label = label(transition / 65_536 % 256, b);
            lines.push(format!("[{label}] {}", transition % 65_536));
        }
    }
    lines.push("--END--".to_string());
    lines.iter().map(|line| format!("{line}\n")).collect()
}

/// What the text of a table carries.
pub fn carried(rule: &Rule, codes: &[u64], transitions: &[u64]) -> Carried {
    let flags = codes.iter().map(|&code| {
        let macrostate = Macrostate::from_code(code);
        let initial = if macrostate.is_initial(rule) {
            INITIAL
        } else {
            0
        };
        let accepting = if macrostate.is_accepting() {
            ACCEPTING
        } else {
            0
        };
        initial + accepting
    });
    Carried {
        flags: flags.collect(),
        transitions: transitions.to_vec(),
    }
}

/// The text of a table that passes row 15.
pub fn text_of(rule: &Rule, codes: &[u64], transitions: &[u64]) -> String {
    let carried = carried(rule, codes, transitions);
    text(&carried, propositions(rule.letters))
}

/// The writer: the rule's rows, 15, then 16.
pub fn write_hoa(
    file: &[u8],
    codes: &[u64],
    transitions: &[u64],
    room: usize,
) -> Result<Vec<u8>, u8> {
    let (rule, _) = read(file)?;
    Table::new(&rule, codes, transitions)?;
    let text = text_of(&rule, codes, transitions);
    if room < text.len() {
        return Err(16);
    }
    Ok(text.into_bytes())
}

/// A number as the texts have it, at most 65,536.
fn number(digits: &str) -> Option<usize> {
    let number: usize = digits.parse().ok()?;
    (number <= MACROSTATE_CAP).then_some(number)
}

/// What a text seems to say, and its b; no more than what is needed to write the
/// text again.
fn glance(text: &str) -> Option<(Carried, usize)> {
    let mut lines = text.lines().skip(1);
    let states = number(lines.next()?.strip_prefix("States: ")?)?;
    let mut flags = vec![0; states];
    let mut line = lines.next()?;
    while let Some(start) = line.strip_prefix("Start: ") {
        *flags.get_mut(number(start)?)? |= INITIAL;
        line = lines.next()?;
    }
    let b = number(line.strip_prefix("AP: ")?.split(' ').next()?)?;
    let mut lines = lines.skip_while(|&line| line != "--BODY--").skip(1);
    let mut transitions = Vec::new();
    let mut state = None;
    loop {
        let line = lines.next()?;
        if line == "--END--" {
            return Some((Carried { flags, transitions }, b));
        }
        if let Some(named) = line.strip_prefix("State: ") {
            let digits = named.strip_suffix(" {0}");
            let own = number(digits.unwrap_or(named))?;
            *flags.get_mut(own)? |= if digits.is_some() { ACCEPTING } else { 0 };
            state = Some(own);
            continue;
        }
        let (label, target) = line.strip_prefix('[')?.split_once("] ")?;
        let set = label
            .split('&')
            .filter(|bit| !bit.starts_with('!') && *bit != "t");
        let mut letter = 0;
        for bit in set {
            let bit = number(bit).filter(|&bit| bit < 4)?;
            letter |= 1 << bit;
        }
        let target = number(target)? as u64;
        transitions.push(state? as u64 * 16_777_216 + letter * 65_536 + target);
    }
}

/// What a text carries, by row 19: "no table that passes 15, under any rule, has
/// this text". The table is the one that the text seems to be of: some codes
/// have its flags, its transitions pass row 15, and its text is this very one.
pub fn carried_by(text_bytes: &[u8]) -> Result<Carried, u8> {
    let glanced = std::str::from_utf8(text_bytes).ok().and_then(glance);
    let (carried, b) = glanced.ok_or(19)?;
    // 1 to 16 letters need 0 to 4 propositions.
    if b > 4 {
        return Err(19);
    }
    // Codes ascend and k is their highest field, so those with k 0 come first;
    // an initial one has k 0. K, ranks and the set of the others are free.
    let accepting = carried.flags.iter().map(|flags| flags & ACCEPTING != 0);
    if !accepting.is_sorted_by(|first, second| first >= second) || carried.flags.contains(&INITIAL)
    {
        return Err(19);
    }
    let states = carried.flags.len() as u64;
    let transitions = &carried.transitions;
    if !transitions.windows(2).all(|pair| pair[0] < pair[1])
        || transitions
            .iter()
            .any(|transition| transition % 65_536 >= states || transition / 16_777_216 >= states)
    {
        return Err(19);
    }
    if text(&carried, b).as_bytes() != text_bytes {
        return Err(19);
    }
    Ok(carried)
}

/// The reader: 19, "checked on reading before slice lengths", then 16 for either
/// slice.
pub fn read_hoa(text: &[u8], flags_room: usize, transitions_room: usize) -> Result<Carried, u8> {
    let carried = carried_by(text)?;
    if flags_room < carried.flags.len() || transitions_room < carried.transitions.len() {
        return Err(16);
    }
    Ok(carried)
}

#[cfg(test)]
mod tests {
    use super::*;
    use crate::build::build;
    use crate::hanoi;
    use crate::sample::{self, Random, D, E, F, I, SHAPES, Z};
    use crate::trim::trim;

    const TEXT_OF_F: &str = "\
HOA: v1
States: 3
Start: 1
AP: 1 \"e0\"
acc-name: Buchi
Acceptance: 1 Inf(0)
properties: trans-labels explicit-labels state-acc
--BODY--
State: 0 {0}
[!0] 0
State: 1 {0}
[!0] 2
[0] 0
[0] 2
State: 2
[!0] 2
[0] 0
[0] 1
--END--
";

    const EMPTY: &str = "\
HOA: v1
States: 0
AP: 0
acc-name: Buchi
Acceptance: 1 Inf(0)
properties: trans-labels explicit-labels state-acc
--BODY--
--END--
";

    #[test]
    fn labels() {
        let all: Vec<usize> = (1..=16).map(propositions).collect();
        assert_eq!(all, [0, 1, 2, 2, 3, 3, 3, 3, 4, 4, 4, 4, 4, 4, 4, 4]);
        assert_eq!(label(0, 0), "t");
        assert_eq!(label(2, 2), "!0&1");
        assert_eq!(label(13, 4), "0&!1&2&3");
    }

    #[test]
    fn examples() {
        let (codes, transitions) = build(&F, 3, 7).unwrap();
        let text = write_hoa(&F, &codes, &transitions, 999).unwrap();
        assert_eq!(String::from_utf8(text).unwrap(), TEXT_OF_F);
        let length = TEXT_OF_F.len();
        assert!(write_hoa(&F, &codes, &transitions, length).is_ok());
        assert_eq!(write_hoa(&F, &codes, &transitions, length - 1), Err(16));
        assert_eq!(write_hoa(&F, &[5, 5], &[], 0), Err(15));
        assert_eq!(write_hoa(&[0x41, 0x57], &[5, 5], &[], 0), Err(1));
        let text = write_hoa(&Z, &[], &[], 999).unwrap();
        assert_eq!(String::from_utf8(text).unwrap(), EMPTY);
        let (codes, transitions) = build(&E, 9, 9).unwrap();
        let text = String::from_utf8(write_hoa(&E, &codes, &transitions, 999).unwrap()).unwrap();
        assert!(text.contains("\nState: 0 {0}\n[!0] 0\n--END--\n"));
        let read = read_hoa(TEXT_OF_F.as_bytes(), 3, 7).unwrap();
        assert_eq!(read.flags, [2, 3, 0]);
        assert_eq!(read.transitions, build(&F, 3, 7).unwrap().1);
        assert_eq!(read_hoa(TEXT_OF_F.as_bytes(), 2, 7), Err(16));
        assert_eq!(read_hoa(TEXT_OF_F.as_bytes(), 3, 6), Err(16));
        assert_eq!(read_hoa(b"", 0, 0), Err(19));
        let none = read_hoa(EMPTY.as_bytes(), 0, 0).unwrap();
        assert_eq!((none.flags.len(), none.transitions.len()), (0, 0));
    }

    /// A text with these states, starts, b and body lines.
    fn made(states: usize, starts: &[usize], b: usize, body: &str) -> Result<Carried, u8> {
        let starts: String = starts.iter().map(|i| format!("Start: {i}\n")).collect();
        let names: String = (0..b).map(|bit| format!(" \"e{bit}\"")).collect();
        let text = format!(
            "HOA: v1\nStates: {states}\n{starts}AP: {b}{names}\nacc-name: Buchi\n\
             Acceptance: 1 Inf(0)\nproperties: trans-labels explicit-labels state-acc\n\
             --BODY--\n{body}--END--\n"
        );
        read_hoa(text.as_bytes(), usize::MAX, usize::MAX)
    }

    #[test]
    fn texts_of_no_table() {
        assert!(made(0, &[], 4, "").is_ok());
        assert_eq!(made(0, &[], 5, ""), Err(19));
        assert_eq!(made(0, &[0], 0, ""), Err(19));
        assert_eq!(made(1, &[0], 0, "State: 0 {0}\n").unwrap().flags, [3]);
        assert_eq!(made(1, &[], 0, "State: 0 {0}\n").unwrap().flags, [2]);
        assert_eq!(made(1, &[], 0, "State: 0\n").unwrap().flags, [0]);
        // An initial macrostate is accepting.
        assert_eq!(made(1, &[0], 0, "State: 0\n"), Err(19));
        // Accepting ones come first.
        let body = "State: 0 {0}\nState: 1\n";
        assert_eq!(made(2, &[0], 0, body).unwrap().flags, [3, 0]);
        assert_eq!(made(2, &[], 0, "State: 0\nState: 1 {0}\n"), Err(19));
        let body = "State: 0 {0}\nState: 1 {0}\n";
        assert_eq!(made(2, &[1], 0, body).unwrap().flags, [2, 3]);
        assert_eq!(made(2, &[0, 1], 0, body).unwrap().flags, [3, 3]);
        assert_eq!(made(2, &[1, 0], 0, body), Err(19));
        assert_eq!(made(2, &[1, 1], 0, body), Err(19));
        assert_eq!(made(2, &[2], 0, body), Err(19));
        // Every macrostate once, in order.
        assert_eq!(made(3, &[], 0, body), Err(19));
        assert_eq!(made(1, &[], 0, body), Err(19));
        assert_eq!(made(2, &[], 0, "State: 1\nState: 0\n"), Err(19));
        assert_eq!(made(2, &[], 0, "State: 0\nState: 0\n"), Err(19));
        // Edges: target, letter, order, the label's form.
        let one = |b, edges: &str| made(1, &[], b, &format!("State: 0\n{edges}"));
        assert_eq!(one(0, "[t] 0\n").unwrap().transitions, [0]);
        assert_eq!(one(1, "[!0] 0\n[0] 0\n").unwrap().transitions, [0, 65_536]);
        assert_eq!(one(2, "[!0&1] 0\n").unwrap().transitions, [2 << 16]);
        for edges in [
            "[t] 1\n",
            "[0] 0\n",
            "[] 0\n",
            "[t] 0\n[t] 0\n",
            "[t] 00\n",
            "[t]  0\n",
            "[t]0\n",
            " [t] 0\n",
            "[t] 0 \n",
            "[t] +0\n",
            "[t] 0\r\n",
            "\n",
            "[t] 0\n\n",
            "[!t] 0\n",
            "[t] 65536\n",
            "[t&t] 0\n",
            "[f] 0\n",
            "[t] 99999999999999999999999999\n",
        ] {
            assert_eq!(one(0, edges), Err(19), "{edges:?}");
        }
        for edges in [
            "[0&1] 0\n[!0&1] 0\n",
            "[1&0] 0\n",
            "[0] 0\n",
            "[t] 0\n",
            "[0&1&2] 0\n",
            "[0 & 1] 0\n",
            "[0&1&1] 0\n",
            "[00&1] 0\n",
            "[!!0&1] 0\n",
            "[(0&1)] 0\n",
            "[0|1] 0\n",
        ] {
            assert_eq!(one(2, edges), Err(19), "{edges:?}");
        }
        let two = |edges: &str| made(2, &[], 1, &format!("State: 0\n{edges}State: 1\n"));
        assert!(two("[!0] 0\n[!0] 1\n[0] 0\n[0] 1\n").is_ok());
        assert_eq!(two("[!0] 1\n[!0] 0\n"), Err(19));
        assert_eq!(two("[0] 0\n[!0] 0\n"), Err(19));
        assert_eq!(made(1, &[], 0, "[t] 0\nState: 0\n"), Err(19));
    }

    #[test]
    fn many_states() {
        let body =
            |states: usize| -> String { (0..states).map(|i| format!("State: {i}\n")).collect() };
        assert_eq!(
            made(65_536, &[], 0, &body(65_536)).unwrap().flags.len(),
            65_536
        );
        assert_eq!(made(65_537, &[], 0, &body(65_537)), Err(19));
        let text = "HOA: v1\nStates: 18446744073709551615\n";
        assert_eq!(carried_by(text.as_bytes()), Err(19));
    }

    /// Any one byte of a text changed, dropped or added: the reader serves the
    /// text exactly if it writes it so.
    #[test]
    fn edited_texts() {
        let mut random = Random::new(101);
        let (mut served, mut refused) = (0, 0);
        let bytes = b"0123456789 \n[]!&t{}StateHOA:-\xff\t";
        for base in [TEXT_OF_F, EMPTY] {
            for place in 0..base.len() {
                for edit in 0..12 {
                    let mut text = base.as_bytes().to_vec();
                    match edit {
                        0 => drop(text.remove(place)),
                        1..=4 => text.insert(place, *random.pick(bytes)),
                        _ => text[place] = *random.pick(bytes),
                    }
                    match carried_by(&text) {
                        Ok(read) => {
                            served += 1;
                            let b = if base == EMPTY { 0 } else { 1 };
                            assert_eq!(super::text(&read, b).as_bytes(), text);
                            hanoi::read(&text).unwrap();
                        }
                        Err(row) => {
                            refused += 1;
                            assert_eq!(row, 19);
                        }
                    }
                }
            }
            // Cut anywhere, and with more after it.
            for length in 0..base.len() {
                assert_eq!(carried_by(&base.as_bytes()[..length]), Err(19));
            }
            let more = [base, "\n"].concat();
            assert_eq!(carried_by(more.as_bytes()), Err(19));
        }
        assert!(served > 20 && refused > 3_000, "{served} {refused}");
    }

    #[test]
    fn random_tables() {
        let mut random = Random::new(102);
        for round in 0..800 {
            let shape = *random.pick(&SHAPES);
            let (states, alphabet) = (random.between(1, 4), random.between(1, 16));
            let rule = sample::rule(&mut random, shape, states, alphabet);
            let file = sample::file(&rule);
            let Ok((mut codes, mut transitions)) = build(&file, 1_000, 4_000) else {
                continue;
            };
            if round % 2 == 0 {
                (codes, transitions) = trim(&codes, &transitions);
            }
            let text = write_hoa(&file, &codes, &transitions, usize::MAX).unwrap();
            let read = read_hoa(&text, codes.len(), transitions.len()).unwrap();
            assert_eq!(read, carried(&rule, &codes, &transitions));
            assert_eq!(read.transitions, transitions);
            // A reader of the format at large sees the same automaton.
            let seen = hanoi::read(&text).unwrap();
            assert_eq!(seen.states, codes.len());
            let flags = (0..codes.len()).map(|number| {
                u8::from(seen.starts.contains(&number)) + 2 * u8::from(seen.accepting[number])
            });
            assert_eq!(flags.collect::<Vec<_>>(), read.flags);
            let edges = seen.edges.iter().map(|&(source, valuation, target)| {
                source as u64 * 16_777_216 + valuation as u64 * 65_536 + target as u64
            });
            assert_eq!(edges.collect::<Vec<_>>(), transitions);
            let names = (0..propositions(alphabet)).map(|bit| format!("e{bit}"));
            assert_eq!(seen.propositions, names.collect::<Vec<_>>());
        }
        for rule in [&D[..], &I] {
            let (codes, transitions) = build(rule, 99, 99).unwrap();
            let text = write_hoa(rule, &codes, &transitions, 9_999).unwrap();
            assert!(read_hoa(&text, 99, 99).is_ok());
        }
    }
}
