//! Following a log live: histories of the five calls, and calls on any bytes.

use compare::library::{
    mulgreddi_live_arrive, mulgreddi_live_mark, mulgreddi_live_return, mulgreddi_live_start,
    mulgreddi_live_withdraw,
};
use compare::stored::TRIMMED;
use second::build::Macrostate;
use second::live::{Lent, Log};
use second::rule::read;
use second::sample::{self, Random, D, E, F, I, SHAPES, Z};
use second::table::Table;
use second::trim::{build_trimmed, trim};

use super::build::stored;
use super::judge_table::{bytes, damage, fault, large_tables, made_up};
use crate::harness::{Entry, Expected, Harness, RULE};
use crate::input::{any_file, limit_file, near, refused, varied};

pub const ENTRY: Entry = Entry {
    name: "live",
    refusals: &[RULE, &[14, 15, 30, 31, 32, 33, 16]],
    verdict: false,
    kinds: &[
        "start",
        "arrive",
        "withdraw",
        "mark",
        "return",
        "the set comes to be empty",
        "the set is no longer empty",
        "512 letters",
        "a mark set again",
        "a return to more letters than are held",
        "a mark of an earlier start",
        "any bytes",
        "a short state",
    ],
    round: 112_000,
    examples,
    random,
};

/// The bytes of state: number of letters, flags of the marks, numbers of their
/// letters, letters, the marks' letters, the set.
const STATE: usize = 74_290;
const FLAGS: usize = 2;
const NUMBERS: usize = 18;
const LETTERS: usize = 50;
const MARKED: usize = 562;
const SET: usize = 8_754;

#[derive(Clone, Copy, Debug)]
enum Call {
    Start,
    Arrive(u32),
    Withdraw,
    Mark(u32),
    Return(u32),
}

/// What a call is lent besides state and set.
#[derive(Clone, Copy)]
struct Input<'a> {
    file: &'a [u8],
    codes: &'a [u8],
    transitions: &'a [u8],
}

/// A number of letters: bytes that are not there are 0, over 512 is 512.
fn number(state: &[u8], at: usize) -> usize {
    let byte = |at: usize| state.get(at).map_or(0, |&byte| byte as usize);
    512.min(byte(at) + 256 * byte(at + 1))
}

fn put_number(state: &mut [u8], at: usize, number: usize) {
    state[at] = (number % 256) as u8;
    state[at + 1] = (number / 256) as u8;
}

fn numbers(bytes: &[u8]) -> Vec<u64> {
    let chunks = bytes.chunks_exact(8);
    chunks
        .map(|chunk| u64::from_le_bytes(chunk.try_into().unwrap()))
        .collect()
}

/// The bytes of the set after one letter: one that is not 0 was in it.
fn step(transitions: &[u64], letter: u8, set: &mut [u8]) {
    let before = set.to_vec();
    set.fill(0);
    for transition in transitions {
        let source = (transition / 16_777_216) as usize;
        if transition / 65_536 % 256 == letter.into() && before[source] != 0 {
            set[(transition % 65_536) as usize] = 1;
        }
    }
}

/// What a call is to leave of any state: its row, or the state and both counts.
fn expected(
    input: Input,
    call: Call,
    state: &[u8],
    room: usize,
) -> Result<(Vec<u8>, (u64, u64)), u8> {
    let (rule, _) = read(input.file)?;
    if let Call::Arrive(letter) = call {
        if letter as usize >= rule.letters {
            return Err(14);
        }
    }
    if input.codes.len() % 8 != 0 || input.transitions.len() % 8 != 0 {
        return Err(15);
    }
    let (codes, transitions) = (numbers(input.codes), numbers(input.transitions));
    Table::new(&rule, &codes, &transitions)?;
    let held = number(state, 0);
    match call {
        Call::Arrive(_) if held == 512 => return Err(30),
        Call::Withdraw if held == 0 => return Err(31),
        Call::Mark(mark) | Call::Return(mark) if mark > 15 => return Err(32),
        Call::Return(mark) if state.get(FLAGS + mark as usize).is_none_or(|&f| f == 0) => {
            return Err(33)
        }
        _ => {}
    }
    if state.len() < STATE || room < codes.len() {
        return Err(16);
    }
    let mut left = state.to_vec();
    let set = SET..SET + codes.len();
    let afresh = |left: &mut [u8]| {
        let letters = left[LETTERS..LETTERS + number(left, 0)].to_vec();
        for (byte, &code) in left[set.clone()].iter_mut().zip(&codes) {
            *byte = Macrostate::from_code(code).is_initial(&rule).into();
        }
        for letter in letters {
            step(&transitions, letter, &mut left[set.clone()]);
        }
    };
    match call {
        Call::Start => {
            left[..STATE].fill(0);
            afresh(&mut left);
        }
        Call::Arrive(letter) => {
            put_number(&mut left, 0, held + 1);
            left[LETTERS + held] = letter as u8;
            step(&transitions, letter as u8, &mut left[set.clone()]);
        }
        Call::Withdraw => {
            put_number(&mut left, 0, held - 1);
            left[LETTERS + held - 1] = 0;
            afresh(&mut left);
        }
        Call::Mark(mark) => {
            let mark = mark as usize;
            left[FLAGS + mark] = 1;
            put_number(&mut left, NUMBERS + 2 * mark, held);
            left.copy_within(LETTERS..LETTERS + 512, MARKED + 512 * mark);
        }
        Call::Return(mark) => {
            let place = MARKED + 512 * mark as usize;
            let back = number(state, NUMBERS + 2 * mark as usize);
            put_number(&mut left, 0, back);
            left.copy_within(place..place + 512, LETTERS);
            afresh(&mut left);
        }
    }
    let members = left[set].iter().filter(|&&byte| byte != 0).count() as u64;
    let letters = number(&left, 0) as u64;
    Ok((left, (letters, members)))
}

/// Makes the call and compares; what is left of state where it is served.
fn compare(
    harness: &mut Harness,
    input: Input,
    call: Call,
    state: &[u8],
    room: usize,
) -> Result<Vec<u8>, u8> {
    let answer = expected(input, call, state, room);
    harness.saw(match call {
        Call::Start => "start",
        Call::Arrive(_) => "arrive",
        Call::Withdraw => "withdraw",
        Call::Mark(_) => "mark",
        Call::Return(_) => "return",
    });
    // Whatever the set's slice held, "written alone".
    let pattern = harness.pattern(room);
    harness.begin();
    harness.count_file(input.file);
    harness.count("codes", input.codes.len() / 8);
    harness.count("transitions", input.transitions.len() / 8);
    match (call, &answer) {
        (Call::Mark(mark) | Call::Return(mark), _) => harness.count("mark", mark as usize),
        (Call::Arrive(_), Err(30)) => harness.count("letters held", 513),
        (_, Ok((_, (letters, _)))) => harness.count("letters held", *letters as usize),
        _ => {}
    }
    let file = harness.lend("file", input.file);
    let codes = harness.lend("codes", input.codes);
    let transitions = harness.lend("transitions", input.transitions);
    let lent_state = harness.lend_out("state", state);
    let lent_set = harness.lend_out("set", &pattern);
    let counts: Expected = match &answer {
        Ok((left, counts)) => {
            let macrostates = input.codes.len() / 8;
            let mut set = pattern;
            for (shown, &byte) in set[..macrostates].iter_mut().zip(&left[SET..]) {
                *shown = (byte != 0).into();
            }
            harness.expect(lent_state, left.clone());
            harness.expect(lent_set, set);
            Ok(*counts)
        }
        Err(row) => Err(*row),
    };
    let (f, c, t) = (
        harness.bytes(file),
        harness.bytes(codes),
        harness.bytes(transitions),
    );
    let (b, s) = (harness.bytes(lent_state), harness.bytes(lent_set));
    harness.call(counts, || unsafe {
        match call {
            Call::Start => mulgreddi_live_start(f.0, f.1, c.0, c.1, t.0, t.1, b.0, b.1, s.0, s.1),
            Call::Arrive(letter) => {
                mulgreddi_live_arrive(f.0, f.1, letter, c.0, c.1, t.0, t.1, b.0, b.1, s.0, s.1)
            }
            Call::Withdraw => {
                mulgreddi_live_withdraw(f.0, f.1, c.0, c.1, t.0, t.1, b.0, b.1, s.0, s.1)
            }
            Call::Mark(mark) => {
                mulgreddi_live_mark(f.0, f.1, mark, c.0, c.1, t.0, t.1, b.0, b.1, s.0, s.1)
            }
            Call::Return(mark) => {
                mulgreddi_live_return(f.0, f.1, mark, c.0, c.1, t.0, t.1, b.0, b.1, s.0, s.1)
            }
        }
    });
    answer.map(|(left, _)| left)
}

/// A history: the second program's log, and the state left last.
struct History<'a> {
    input: Input<'a>,
    codes: Vec<u64>,
    transitions: Vec<u64>,
    log: Log,
    /// Marks that were set before the last start.
    earlier: [bool; 16],
    state: Vec<u8>,
    empty: bool,
}

impl<'a> History<'a> {
    /// A start on bytes of any kind, some more than are needed; none if the
    /// table is refused.
    fn start(harness: &mut Harness, input: Input<'a>) -> Option<Self> {
        let more = harness.random.below(9);
        let before = harness.random.bytes(STATE + more);
        let mut history = History {
            input,
            codes: numbers(input.codes),
            transitions: numbers(input.transitions),
            log: Log::default(),
            earlier: [false; 16],
            state: before,
            empty: false,
        };
        let room = history.codes.len();
        if let Err(row) = history.asked(Call::Start, room) {
            let left = compare(harness, input, Call::Start, &history.state, room);
            harness.agree(&left.map(|_| ()), &Err(row));
            return None;
        }
        history.call_with(harness, Call::Start, room);
        Some(history)
    }

    fn lent(&self, room: usize) -> Lent<'_> {
        Lent {
            file: self.input.file,
            codes: &self.codes,
            transitions: &self.transitions,
            room,
        }
    }

    /// What the second program answers and holds then.
    fn asked(&self, call: Call, room: usize) -> Result<(Log, Vec<u8>), u8> {
        let lent = self.lent(room);
        let mut log = self.log.clone();
        let set = match call {
            Call::Start => return Log::start(&lent),
            // No rule has 255 letters.
            Call::Arrive(letter) => log.arrive(&lent, letter.min(255) as u8),
            Call::Withdraw => log.withdraw(&lent),
            Call::Mark(mark) => log.mark(&lent, mark as usize),
            Call::Return(mark) => log.back(&lent, mark as usize),
        }?;
        Ok((log, set))
    }

    fn call(&mut self, harness: &mut Harness, call: Call) {
        let room = if harness.random.once_in(40) {
            near(&mut harness.random, self.codes.len())
        } else {
            self.codes.len() + harness.random.below(5)
        };
        self.call_with(harness, call, room);
    }

    /// Compares a call, and holds what it leaves to the second program's log.
    fn call_with(&mut self, harness: &mut Harness, call: Call, room: usize) {
        self.notice(harness, call);
        let said = self.asked(call, room);
        let left = compare(harness, self.input, call, &self.state, room);
        let rest = &self.state[STATE..];
        let laid = said.as_ref().map(|(log, set)| laid(log, set, rest));
        match (&left, &laid) {
            (Ok(left), Ok(laid)) => {
                let apart = (0..laid.len()).find(|&at| left[at] != laid[at]);
                harness.agree(&apart, &None);
            }
            _ => harness.agree(&left.as_ref().err(), &laid.err()),
        }
        let Ok((log, set)) = said else {
            return;
        };
        let empty = !set.contains(&1);
        if empty != self.empty {
            harness.saw(if empty {
                "the set comes to be empty"
            } else {
                "the set is no longer empty"
            });
        }
        if log.letters().len() == 512 {
            harness.saw("512 letters");
        }
        if let Call::Start = call {
            for mark in 0..16 {
                self.earlier[mark] |= self.log.marked(mark).is_some();
            }
        }
        (self.log, self.state, self.empty) = (log, left.unwrap(), empty);
    }

    /// Counts what is worth seeing of a call before it is made.
    fn notice(&self, harness: &mut Harness, call: Call) {
        match call {
            Call::Mark(mark) if self.log.marked(mark as usize).is_some() => {
                harness.saw("a mark set again");
            }
            Call::Return(mark) if mark < 16 => match self.log.marked(mark as usize) {
                Some(letters) if letters.len() > self.log.letters().len() => {
                    harness.saw("a return to more letters than are held");
                }
                None if self.earlier[mark as usize] => harness.saw("a mark of an earlier start"),
                _ => {}
            },
            _ => {}
        }
    }
}

/// The bytes of state that a log leaves, with its set, and the rest as lent.
fn laid(log: &Log, set: &[u8], rest: &[u8]) -> Vec<u8> {
    let mut state = vec![0; STATE];
    let letters = log.letters();
    put_number(&mut state, 0, letters.len());
    state[LETTERS..LETTERS + letters.len()].copy_from_slice(letters);
    for mark in 0..16 {
        if let Some(letters) = log.marked(mark) {
            let place = MARKED + 512 * mark;
            state[FLAGS + mark] = 1;
            put_number(&mut state, NUMBERS + 2 * mark, letters.len());
            state[place..place + letters.len()].copy_from_slice(letters);
        }
    }
    state[SET..SET + set.len()].copy_from_slice(set);
    state.extend(rest);
    state
}

/// Letters and marks at and around the limits, and beyond a byte.
fn wild(random: &mut Random, limit: u32) -> u32 {
    let any = random.number() as u32;
    *random.pick(&[
        limit,
        limit,
        limit + 1,
        255,
        256,
        256 + limit,
        1 << 16,
        u32::MAX,
        any,
    ])
}

fn any_call(random: &mut Random, alphabet: usize) -> Call {
    let mark = |random: &mut Random| match random.below(40) {
        0 => wild(random, 16),
        1..=6 => random.below(16) as u32,
        _ => random.below(3) as u32,
    };
    match random.below(60) {
        0 => Call::Start,
        1..=12 => Call::Withdraw,
        13..=20 => Call::Mark(mark(random)),
        21..=28 => Call::Return(mark(random)),
        29 => Call::Arrive(wild(random, alphabet as u32)),
        _ => Call::Arrive(random.below(alphabet) as u32),
    }
}

/// Every call of a refused file, on a table and a state that would be refused
/// too.
fn refused_files(harness: &mut Harness) {
    for (row, file) in refused() {
        let input = Input {
            file,
            codes: &[5],
            transitions: &[],
        };
        for call in [
            Call::Start,
            Call::Arrive(99),
            Call::Withdraw,
            Call::Mark(16),
            Call::Return(16),
        ] {
            let left = compare(harness, input, call, &[], 0);
            harness.by_01(&left, &Err(row));
        }
    }
}

/// A state that ends early: what it lacks is read as 0, and 30 to 33 come
/// before 16.
fn short_states(harness: &mut Harness, input: Input, state: &[u8]) {
    for length in [0, 1, 2, 3, 4, 17, 18, 50, 562, SET, STATE - 1] {
        for call in [
            Call::Start,
            Call::Arrive(0),
            Call::Withdraw,
            Call::Mark(15),
            Call::Mark(16),
            Call::Return(0),
            Call::Return(1),
            Call::Return(15),
            Call::Return(16),
        ] {
            harness.saw("a short state");
            let short = &state[..length];
            let left = compare(harness, input, call, short, input.codes.len() / 8);
            harness.by_01(&left.is_err(), &true);
        }
    }
}

/// Up to 512 letters and beyond, and down to none.
fn full(harness: &mut Harness, input: Input) {
    let mut history = History::start(harness, input).unwrap();
    let room = history.codes.len();
    history.call_with(harness, Call::Withdraw, 0);
    history.call_with(harness, Call::Mark(0), room);
    for number in 0..513 {
        let letter = harness.random.below(2) as u32;
        history.call_with(harness, Call::Arrive(letter), room);
        harness.by_01(&history.log.letters().len(), &512.min(number + 1));
    }
    // "14 is checked before 30", and both before 16.
    let none = Input {
        codes: &[0; 7],
        ..input
    };
    let faulty = (none, 15);
    for ((input, row), call, room) in [
        ((input, 14), Call::Arrive(2), 0),
        ((input, 30), Call::Arrive(1), 0),
        (faulty, Call::Arrive(1), 0),
        ((none, 14), Call::Arrive(u32::MAX), 0),
        (faulty, Call::Return(16), 0),
        ((input, 32), Call::Return(16), 0),
        ((input, 33), Call::Return(1), 0),
        ((input, 16), Call::Return(0), 0),
        ((input, 32), Call::Mark(16), 0),
        ((input, 16), Call::Mark(1), 0),
        ((input, 16), Call::Withdraw, 0),
    ] {
        let left = compare(harness, input, call, &history.state, room);
        harness.by_01(&left, &Err(row));
    }
    short_states(harness, input, &history.state);
    history.call_with(harness, Call::Mark(1), room);
    history.call_with(harness, Call::Return(0), room);
    harness.by_01(&history.log.letters().len(), &0);
    history.call_with(harness, Call::Withdraw, room);
    history.call_with(harness, Call::Return(1), room);
    harness.by_01(&history.log.letters().len(), &512);
    history.call_with(harness, Call::Arrive(1), room);
    for _ in 0..513 {
        history.call_with(harness, Call::Withdraw, room);
    }
    harness.by_01(&history.log.letters().len(), &0);
    // A start knows no mark.
    history.call_with(harness, Call::Start, room);
    history.call_with(harness, Call::Return(1), room);
    short_states(harness, input, &history.state);
}

/// Tables around the most codes and around the most transitions of a build.
fn limits(harness: &mut Harness) {
    for (codes, transitions, s) in large_tables(&mut harness.random) {
        let file = limit_file(1, s, 1);
        let (codes, transitions) = (bytes(&codes), bytes(&transitions));
        let input = Input {
            file: &file,
            codes: &codes,
            transitions: &transitions,
        };
        let Some(mut history) = History::start(harness, input) else {
            continue;
        };
        for _ in 0..3 {
            let call = Call::Arrive(harness.random.below(s) as u32);
            history.call(harness, call);
        }
        history.call(harness, Call::Withdraw);
    }
}

/// As many macrostates as row 15 lets pass, all initial for F, and one more.
fn most_codes(harness: &mut Harness) {
    let codes: Vec<u64> = (0..65_537).map(|m| 2 * m + 1).collect();
    // From each number over letter 0 to the one before, from the last to itself too.
    let mut transitions: Vec<u64> = (1..65_536).map(|m| m * 16_777_216 + m - 1).collect();
    transitions.push(65_535 * 16_777_216 + 65_535);
    let (codes, transitions) = (bytes(&codes), bytes(&transitions));
    let input = Input {
        file: &F,
        codes: &codes[..8 * 65_536],
        transitions: &transitions,
    };
    let mut history = History::start(harness, input).unwrap();
    for call in [
        Call::Mark(15),
        Call::Arrive(0),
        Call::Arrive(1),
        Call::Withdraw,
        Call::Return(15),
        Call::Arrive(0),
    ] {
        history.call_with(harness, call, 65_536);
    }
    harness.by_01(&history.state[STATE - 1], &1);
    let over = Input {
        codes: &codes,
        ..input
    };
    let left = compare(harness, over, Call::Arrive(0), &history.state, 65_537);
    harness.by_01(&left, &Err(15));
}

fn examples(harness: &mut Harness) {
    limits(harness);
    refused_files(harness);
    for file in [&F[..], &D, &E, &I, &Z] {
        let (codes, transitions) = build_trimmed(file, 99, 99).unwrap();
        let (codes, transitions) = (bytes(&codes), bytes(&transitions));
        let input = Input {
            file,
            codes: &codes,
            transitions: &transitions,
        };
        let mut history = History::start(harness, input).unwrap();
        for _ in 0..200 {
            let call = any_call(&mut harness.random, 2);
            history.call(harness, call);
        }
        if file == &F[..] {
            full(harness, input);
        }
    }
    most_codes(harness);
    // A table of tens of thousands of macrostates.
    let (file, ..) = TRIMMED[1].0;
    let table = stored(file, true);
    let (codes, transitions) = trim(&table.0, &table.1);
    let (codes, transitions) = (bytes(&codes), bytes(&transitions));
    let input = Input {
        file,
        codes: &codes,
        transitions: &transitions,
    };
    let mut history = History::start(harness, input).unwrap();
    for _ in 0..20 {
        let call = any_call(&mut harness.random, 16);
        history.call(harness, call);
    }
}

fn random(harness: &mut Harness) {
    let random = &mut harness.random;
    let states = *random.pick(&[1, 2, 2, 3, 3, 4]);
    let alphabet = *random.pick(&[1, 2, 2, 2, 3, 16]);
    let shape = *random.pick(&SHAPES);
    let rule = varied(random, shape, states, alphabet);
    let file = sample::file(&rule);
    let (mut codes, mut transitions) = match build_trimmed(&file, 400, 3_000) {
        Ok(built) if !random.once_in(6) => built,
        _ => made_up(random, &rule),
    };
    if random.once_in(6) {
        damage(random, &rule, &mut codes, &mut transitions);
    }
    let table = (bytes(&codes), bytes(&transitions));
    let input = Input {
        file: &file,
        codes: &table.0,
        transitions: &table.1,
    };
    if random.once_in(3) {
        return any_bytes(harness, input, &rule, codes, transitions);
    }
    let Some(mut history) = History::start(harness, input) else {
        return;
    };
    let random = &mut harness.random;
    // Mostly some calls; at times up to 512 letters first.
    let full = random.once_in(25) && transitions.len() < 200;
    let calls = if full { 640 } else { random.between(5, 60) };
    for number in 0..calls {
        let random = &mut harness.random;
        let call = if number < 540 && full {
            match random.below(60) {
                0 => any_call(random, alphabet),
                _ => Call::Arrive(random.below(alphabet) as u32),
            }
        } else {
            any_call(random, alphabet)
        };
        history.call(harness, call);
    }
}

/// Calls on bytes that no history left, on faulty tables and files: they end,
/// stay inside their memory, and do what is told of any bytes.
fn any_bytes(
    harness: &mut Harness,
    input: Input,
    rule: &second::rule::Rule,
    codes: Vec<u64>,
    transitions: Vec<u64>,
) {
    let random = &mut harness.random;
    let length = match random.below(8) {
        0 => random.below(60),
        1 => near(random, STATE),
        _ => STATE + random.below(9),
    };
    let mut state = match random.below(4) {
        0 => vec![0; length],
        1 => vec![0xff; length],
        _ => random.bytes(length),
    };
    for _ in 0..random.between(2, 12) {
        harness.saw("any bytes");
        let random = &mut harness.random;
        if state.len() > 1 && random.once_in(2) {
            // Numbers at their limits.
            let number = *random.pick(&[0usize, 1, 255, 256, 511, 512, 513, 65_535]);
            put_number(&mut state, 0, number);
        }
        let mut table = (codes.clone(), transitions.clone());
        if random.once_in(6) {
            fault(random, rule, &mut table.0, &mut table.1);
        }
        let (mut code_bytes, mut transition_bytes) = (bytes(&table.0), bytes(&table.1));
        match random.below(60) {
            0 => code_bytes.push(0),
            1 => transition_bytes.push(0),
            2 => drop(code_bytes.pop()),
            3 => drop(transition_bytes.pop()),
            _ => {}
        }
        let other = any_file(random);
        let input = Input {
            file: if random.once_in(8) {
                &other
            } else {
                input.file
            },
            codes: &code_bytes,
            transitions: &transition_bytes,
        };
        let call = any_call(random, rule.letters);
        let room = near(random, codes.len());
        if let Ok(left) = compare(harness, input, call, &state, room) {
            state = left;
        }
    }
}
