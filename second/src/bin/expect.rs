//! Writes the calls that the program `cases` is run on, and what it must print,
//! into the folder that is named: `stdin` and `stdout`.

use std::{env, fs, io, path::Path};

use second::build::build;
use second::judge::judge;
use second::rule::{read, same_rules, write, write_named};
use second::sample::{self, Random, NESTED, REFUSED};
use second::table::judge_table;
use second::word::same_words;

const F: &[u8] = &sample::F;
const D: &[u8] = &sample::D;
const E: &[u8] = &sample::E;
const I: &[u8] = &sample::I;
const Z: &[u8] = &sample::Z;

/// Three files of two states and one letter. The first two are one rule: their
/// clauses stand in another order and are met by the same sets. The third is
/// another.
const EITHER: &[u8] = &[1, 2, 0, 2, 1, 2, 1, 0, 0, 3, 0, 0x41, 0x57];
const OTHER_ORDER: &[u8] = &[2, 1, 0, 2, 1, 2, 1, 0, 0, 3, 0, 0x41, 0x57];
const BOTH: &[u8] = &[3, 0, 1, 1, 2, 1, 0, 0, 2, 0, 0x41, 0x57];

/// What a lent slice holds before a call.
const LENT: u8 = 238;

/// The length of a call.
const CALL: usize = 256;

type Answer = Result<(usize, usize), u8>;

#[derive(Default)]
struct Calls {
    stdin: Vec<u8>,
    stdout: Vec<u8>,
}

impl Calls {
    /// A call, and the line that it prints: its name, what the lent slices hold
    /// afterwards or the preface, and the answer.
    fn add(
        &mut self,
        name: &str,
        (entry, numbers): (u8, &[u8]),
        parts: &[&[u8]],
        holds: &[u8],
        answer: Answer,
    ) {
        let name = format!("{name}:");
        let mut call = vec![entry];
        call.extend(numbers);
        call.resize(6, 0);
        let mut texts = vec![name.as_bytes()];
        texts.extend(parts);
        texts.resize(6, &[]);
        // The seven places take the bytes 6 to 12.
        let mut place = 13;
        for text in &texts {
            call.push(u8::try_from(place).unwrap());
            place += text.len();
        }
        call.push(u8::try_from(place).unwrap());
        call.extend(texts.concat());
        call.resize(CALL, 0);
        self.stdin.extend(call);
        let numbers = match answer {
            Ok((first, second)) => format!(", 0 {first} {second}\n"),
            Err(row) => format!(", {row} 0 0\n"),
        };
        self.stdout.extend(name.bytes());
        self.stdout.extend(holds);
        self.stdout.extend(numbers.bytes());
    }

    fn read(&mut self, name: &str, file: &[u8]) {
        let (holds, answer) = match read(file) {
            Ok((rule, preface)) => {
                let clauses = rule.entries.iter().flatten().map(Vec::len).sum();
                (&file[..preface], Ok((preface, clauses)))
            }
            Err(row) => (&file[..0], Err(row)),
        };
        self.add(name, (0, &[]), &[file], holds, answer);
    }

    fn write(&mut self, name: &str, numbers: [u8; 4], counts: &[u8], clauses: &[u8], room: u8) {
        let written = write(numbers.map(u32::from), counts, clauses, room.into());
        let (holds, answer) = file_slice(written, room);
        let numbers = [&[room], &numbers[..]].concat();
        self.add(name, (1, &numbers), &[counts, clauses], &holds, answer);
    }

    /// The writer on counts, clauses and names.
    fn write_named(&mut self, name: &str, numbers: [u8; 4], parts: [&[u8]; 3], room: u8) {
        let [counts, clauses, names] = parts;
        let written = write_named(numbers.map(u32::from), counts, clauses, names, room.into());
        let (holds, answer) = file_slice(written, room);
        let numbers = [&[room], &numbers[..]].concat();
        self.add(name, (8, &numbers), &parts, &holds, answer);
    }

    fn same_rules(&mut self, name: &str, first: &[u8], second: &[u8]) {
        let answer = same_rules(first, second).map(|same| (same.into(), 0));
        self.add(name, (2, &[]), &[first, second], &[], answer);
    }

    fn same_words(&mut self, name: &str, first: [&[u8]; 2], second: [&[u8]; 2]) {
        let answer = same_words(first, second).map(|same| (same.into(), 0));
        self.add(name, (3, &[]), &[first, second].concat(), &[], answer);
    }

    fn judge(&mut self, name: &str, file: &[u8], lead: &[u8], cycle: &[u8], room: u8) {
        let (masks, answer) = match judge(file, lead, cycle, room.into()) {
            Ok((yes, masks)) => (masks, Ok((yes.into(), 0))),
            Err(row) => (vec![], Err(row)),
        };
        let holds = kept(&masks, room);
        self.add(name, (4, &[room]), &[file, lead, cycle], &holds, answer);
    }

    fn judge_table(
        &mut self,
        name: &str,
        file: &[u8],
        word: [&[u8]; 2],
        table: [&[u8]; 2],
        room: u8,
    ) {
        let (holds, answer) = start(file, word, table, room);
        let parts = [&[file], &word[..], &table[..]].concat();
        self.add(name, (6, &[room]), &parts, &holds, answer);
    }

    fn build(&mut self, name: &str, file: &[u8], rooms: [u8; 2]) {
        let (lists, answer) = slices(file, rooms);
        let holds = lists.map(|list| numbers(&list)).concat();
        self.add(name, (5, &rooms), &[file], &holds, answer);
    }

    /// The build, then the judge on the numbers that its two slices hold.
    fn judge_built(&mut self, name: &str, file: &[u8], word: [&[u8]; 2], rooms: [u8; 3]) {
        let [n, m, room] = rooms;
        let (lists, _) = slices(file, [n, m]);
        let table = lists.map(|list| bytes(&list));
        let (holds, answer) = start(file, word, [&table[0], &table[1]], room);
        let parts = [&[file], &word[..]].concat();
        self.add(name, (7, &rooms), &parts, &holds, answer);
    }
}

/// What a slice of `room` bytes holds after the writer, and its answer.
fn file_slice(written: Result<Vec<u8>, u8>, room: u8) -> (Vec<u8>, Answer) {
    match written {
        Ok(file) => (kept(&file, room), Ok((file.len(), 0))),
        Err(row) => (kept(&[], room), Err(row)),
    }
}

/// What scratch of `room` bytes holds after the judge on a table, and its answer.
fn start(file: &[u8], word: [&[u8]; 2], table: [&[u8]; 2], room: u8) -> (Vec<u8>, Answer) {
    // "Scratch ends all zero."
    let (scratch, answer) = match judge_table(file, word, table, room.into()) {
        Ok(start) => (
            vec![0; room.into()],
            Ok(start.map_or((0, 0), |number| (1, number))),
        ),
        Err(row) => (vec![], Err(row)),
    };
    (kept(&scratch, room), answer)
}

/// What both slices hold after a build, and its answer.
fn slices(file: &[u8], rooms: [u8; 2]) -> ([Vec<u64>; 2], Answer) {
    let built = build(file, rooms[0].into(), rooms[1].into());
    // "unused elements become 0"; "1 to 16 change no lent slice, 17 and 18 set
    // both room slices to zero throughout"; "refusals from 19 on change no lent
    // slice"
    let (mut lists, rest, answer) = match built {
        Ok((codes, transitions)) => {
            let counts = (codes.len(), transitions.len());
            ([codes, transitions], 0, Ok(counts))
        }
        Err(row @ (17 | 18)) => ([vec![], vec![]], 0, Err(row)),
        Err(row) => ([vec![], vec![]], LENT.into(), Err(row)),
    };
    for (list, room) in lists.iter_mut().zip(rooms) {
        list.resize(room.into(), rest);
    }
    (lists, answer)
}

fn numbers(list: &[u64]) -> Vec<u8> {
    let texts = list.iter().map(|number| format!(" {number}"));
    texts.collect::<String>().into_bytes()
}

/// "each code and transition as 8 bytes, low byte first"
fn bytes(list: &[u64]) -> Vec<u8> {
    list.iter()
        .flat_map(|number| number.to_le_bytes())
        .collect()
}

/// What a lent slice of `room` bytes holds once `written` stands at its start,
/// "the rest untouched".
fn kept(written: &[u8], room: u8) -> Vec<u8> {
    let mut slice: Vec<u64> = written.iter().map(|&byte| byte.into()).collect();
    slice.resize(room.into(), LENT.into());
    numbers(&slice)
}

/// The refusal table.
fn refusals(calls: &mut Calls) {
    for (row, file) in &REFUSED[..11] {
        calls.read(&format!("row {row}, read"), file);
        calls.judge(&format!("row {row}, judge"), file, &[], &[], 0);
        calls.build(&format!("row {row}, build"), file, [1, 1]);
        calls.same_rules(&format!("row {row}, first rule"), file, &[]);
        calls.same_rules(&format!("row {row}, second rule"), F, file);
    }
    calls.judge("row 12, judge", F, &[0], &[], 2);
    calls.same_words("row 12, first word", [&[0], &[]], [&[], &[0; 33]]);
    calls.same_words("row 12, second word", [&[], &[0]], [&[0], &[]]);
    calls.judge("row 13, judge", F, &[0; 33], &[0], 34);
    calls.judge("row 13, cycle of 33", F, &[], &[0; 33], 33);
    calls.judge("32 and 32", F, &[0; 32], &[0; 32], 64);
    calls.same_words("row 13, first word", [&[0; 33], &[0]], [&[0], &[]]);
    calls.same_words("row 13, second word", [&[], &[0]], [&[], &[0; 33]]);
    calls.judge("row 14, cycle", F, &[], &[2], 2);
    calls.judge("row 14, lead-in", F, &[2], &[0], 2);
    let (fives, six) = (bytes(&[5, 5]), bytes(&[5, 6]));
    let word: [&[u8]; 2] = [&[], &[0]];
    calls.judge_table("row 15", F, word, [&fives, &[]], 1);
    calls.judge_table("row 15, 9 bytes", F, word, [&[0; 9], &[]], 1);
    calls.judge_table("row 15, source", F, word, [&six, &bytes(&[2 << 24])], 1);
    calls.judge_table("row 15, letter", F, word, [&six, &bytes(&[2 << 16])], 1);
    calls.judge_table("row 15, target", F, word, [&six, &bytes(&[2])], 1);
    calls.judge_table("row 15, bit 48", F, word, [&bytes(&[1 << 48]), &[]], 1);
    calls.judge_table("row 14, table", F, [&[], &[2]], [&fives, &[]], 1);
    calls.judge_table("row 16, table", F, word, [&six, &[]], 1);
    calls.judge_table("2 bytes for 2 codes", F, word, [&six, &[]], 2);
    calls.judge("row 16, judge", F, &[0], &[0], 1);
    calls.judge("2 bytes for 2 places", F, &[0], &[0], 2);
    calls.write("row 16, write", [1, 2, 0, 0], &[1, 1], &[1, 0], 11);
    calls.build("row 17", F, [2, 7]);
    calls.build("row 18", F, [3, 6]);
    calls.build("row 17 before 18", F, [2, 6]);
    calls.build("room 3 and 7", F, [3, 7]);
    calls.build("no room for transitions", Z, [1, 0]);
}

/// The cases 1 to 9, with more room than they need, and the build of I; the
/// words of 5 to 8 on the built tables too.
fn cases(calls: &mut Calls) {
    calls.build("case 1", F, [4, 9]);
    calls.build("case 2", D, [15, 28]);
    calls.build("case 3", E, [2, 2]);
    calls.build("case 4", Z, [2, 2]);
    calls.judge("case 5", F, &[0, 1], &[0], 4);
    calls.judge("case 6", F, &[], &[0], 2);
    calls.judge("case 7", I, &[1], &[0], 3);
    calls.judge("case 8", I, &[], &[0, 1], 3);
    calls.judge("case 9", D, &[], &[0], 2);
    calls.build("I", I, [6, 10]);
    for (number, file, word) in [
        (5, F, [&[0, 1][..], &[0]]),
        (6, F, [&[], &[0]]),
        (7, I, [&[1], &[0]]),
        (8, I, [&[], &[0, 1]]),
    ] {
        let (codes, transitions) = build(file, 255, 255).unwrap();
        let table = [&bytes(&codes)[..], &bytes(&transitions)];
        calls.judge_table(&format!("case {number}, table"), file, word, table, 16);
        let counts = [codes.len() as u8, transitions.len() as u8];
        let name = format!("case {number}, built");
        calls.judge_built(&name, file, word, [counts[0], counts[1], 16]);
    }
    let word: [&[u8]; 2] = [&[0, 1], &[0]];
    calls.judge_built("case 5, scratch short", F, word, [3, 7, 8]);
    calls.judge_built("case 5, zeros after the codes", F, word, [4, 7, 16]);
    calls.judge_built("case 5, no room", F, word, [2, 7, 16]);
    calls.judge_built("case 9, built", D, [&[], &[0]], [13, 26, 13]);
    calls.judge_built("Z, built", Z, [&[], &[0]], [1, 0, 1]);
    calls.judge_built("Z, row 14", Z, [&[], &[1]], [1, 0, 1]);
    calls.judge_built("row 11, built", REFUSED[10].1, [&[], &[]], [1, 1, 1]);
}

/// A preface that can be read in the output.
fn preface(random: &mut Random, length: usize) -> Vec<u8> {
    let text = (0..length).map(|_| random.between(0x20, 0x7e) as u8);
    text.collect()
}

fn prefaces(calls: &mut Calls) {
    let mut random = Random::new(1);
    let rules = [("F", F), ("D", D), ("E", E), ("I", I), ("Z", Z)];
    for ((name, rule), length) in rules.into_iter().zip([1, 8, 40, 100, 180]) {
        calls.read(name, rule);
        let file = [&preface(&mut random, length)[..], rule].concat();
        calls.read(&format!("{name} after a preface"), &file);
        calls.read("without its last byte", &file[..file.len() - 1]);
    }
    let file = [&preface(&mut random, 40)[..], REFUSED[10].1].concat();
    calls.read("row 11 after a preface", &file);
    calls.judge(
        "case 5 after a preface",
        &[&[9], F].concat(),
        &[0, 1],
        &[0],
        4,
    );
}

fn writer(calls: &mut Calls) {
    calls.write("F", [1, 2, 0, 0], &[1, 1], &[1, 0], 14);
    calls.write("D", [2, 2, 0, 0], &[1, 0, 1, 1], &[2, 0, 1], 15);
    calls.write("E", [1, 2, 0, 1], &[1, 0], &[1], 12);
    calls.write("I", [2, 2, 0, 1], &[1, 1, 1, 1], &[3, 1, 2, 0], 16);
    calls.write("Z", [1, 1, 0, 1], &[0], &[], 10);
    calls.write("row 3, write", [0, 17, 9, 9], &[], &[], 1);
    calls.write("9 states", [9, 17, 9, 9], &[], &[], 1);
    calls.write("row 4, write", [8, 17, 8, 9], &[], &[], 1);
    calls.write("row 5, write", [7, 16, 7, 128], &[], &[], 1);
    calls.write("row 6, write", [7, 16, 6, 128], &[], &[], 1);
    calls.write("row 7, write", [1, 1, 0, 0], &[9, 9], &[], 1);
    calls.write("row 8, write", [1, 1, 0, 0], &[9], &[], 1);
    calls.write("row 9, write", [1, 1, 0, 0], &[0], &[2], 1);
    calls.write("row 10, write", [1, 1, 0, 0], &[1], &[2], 1);
    calls.write("row 11, write", [2, 1, 0, 1], &[1, 1], &[2, 1], 1);
}

fn sameness(calls: &mut Calls) {
    calls.same_rules("F and F", F, F);
    calls.same_rules("F after a preface", &[&[7, 8], F].concat(), F);
    calls.same_rules("F and D", F, D);
    calls.same_rules("F and E", F, E);
    calls.same_rules("the same sets", EITHER, OTHER_ORDER);
    calls.same_rules("other sets", EITHER, BOTH);
    calls.same_words("one word", [&[200], &[1]], [&[200], &[1]]);
    calls.same_words("other cycles", [&[1], &[1]], [&[1], &[1, 2]]);
    calls.same_words("other lead-ins", [&[2], &[1]], [&[], &[1]]);
}

/// "20, an entry with a clause that contains another of its clauses, after 10
/// and before 11"
fn nested(calls: &mut Calls) {
    for (name, file) in ["row 20", "row 20, twice"].into_iter().zip(NESTED) {
        calls.read(&format!("{name}, read"), file);
        calls.judge(&format!("{name}, judge"), file, &[], &[], 0);
        calls.judge_table(&format!("{name}, table"), file, [&[]; 2], [&[]; 2], 1);
        calls.build(&format!("{name}, build"), file, [1, 1]);
        calls.same_rules(&format!("{name}, first rule"), file, &[]);
        calls.same_rules(&format!("{name}, second rule"), F, file);
        let (counts, clauses) = (&file[3..5], &file[..3]);
        calls.write(&format!("{name}, write"), [2, 1, 0, 1], counts, clauses, 1);
    }
    let (counts, clauses) = (&[2, 1], &[3, 1, 4]);
    calls.write("row 10 before 20", [2, 1, 0, 1], counts, clauses, 1);
}

/// F with names before it; rows 21 to 23.
fn names(calls: &mut Calls) {
    let named = |preface: &[u8]| [preface, F].concat();
    let two = named(b"FETCH   STORE   NM");
    let three = named(b"a prefaceFETCH   STORE   NM");
    let other = named(b"FETCH   STORE  aNM");
    calls.read("names", &two);
    calls.read("names after a preface", &three);
    calls.build("names, build", &two, [3, 7]);
    calls.judge("names, case 5", &two, &[0, 1], &[0], 4);
    calls.same_rules("names and names", &two, &three);
    calls.same_rules("other names", &two, &other);
    calls.same_rules("names and none", &two, F);
    calls.same_rules("none and names", F, &two);
    let rows: [(u8, &[u8]); 4] = [
        (21, b"NM"),
        (21, b"ETCH   STORE   NM"),
        (22, b"FETCH   FETCH  \x7fNM"),
        (23, b"FETCH   FETCH   NM"),
    ];
    for (row, preface) in rows {
        let file = named(preface);
        calls.read(&format!("row {row}, read"), &file);
        calls.judge(&format!("row {row}, judge"), &file, &[], &[], 0);
        calls.judge_table(&format!("row {row}, table"), &file, [&[]; 2], [&[]; 2], 1);
        calls.build(&format!("row {row}, build"), &file, [1, 1]);
        calls.same_rules(&format!("row {row}, first rule"), &file, &[]);
        calls.same_rules(&format!("row {row}, second rule"), F, &file);
    }
    let file = [&b"NM"[..], REFUSED[10].1].concat();
    calls.read("row 11 before 21", &file);
    let f = |names| [&[1, 1][..], &[1, 0], names];
    let two = b"FETCH   STORE   ";
    calls.write_named("F and names", [1, 2, 0, 0], f(two), 31);
    calls.write_named("row 16, names", [1, 2, 0, 0], f(two), 29);
    calls.write_named("no names", [1, 2, 0, 0], f(b""), 13);
    calls.write_named("row 21, write", [1, 2, 0, 0], f(&two[1..]), 1);
    calls.write_named("row 22, write", [1, 2, 0, 0], f(b"FETCH   FETCH  \x7f"), 1);
    calls.write_named("row 23, write", [1, 2, 0, 0], f(b"FETCH   FETCH   "), 1);
    let mixed: [&[u8]; 3] = [&[1, 1], &[2, 1], b"x"];
    calls.write_named("row 11 before 21, write", [2, 1, 0, 1], mixed, 1);
}

/// Words that "agree at every step", and some that do so for long.
fn spellings(calls: &mut Calls) {
    calls.same_words("one duty", [&[0], &[1, 0]], [&[], &[0, 1]]);
    calls.same_words("the cycle twice", [&[1], &[2]], [&[1], &[2, 2]]);
    calls.same_words("a lead-in of the cycle", [&[1], &[1]], [&[], &[1]]);
    calls.same_words("a turned cycle", [&[], &[0, 1]], [&[], &[1, 0]]);
    let (mut one, mut other) = ([0; 32], [0; 31]);
    calls.same_words("31 and 32 zeros", [&[], &one], [&[], &other]);
    (one[31], other[30]) = (1, 1);
    calls.same_words("unlike at step 30", [&[], &one], [&[], &other]);
    let lead = [&other[..], &[0]].concat();
    calls.same_words("unlike at step 62", [&lead, &other], [&lead, &one]);
}

fn main() -> io::Result<()> {
    let folder = env::args().nth(1).expect("expect FOLDER");
    let mut calls = Calls::default();
    refusals(&mut calls);
    cases(&mut calls);
    prefaces(&mut calls);
    writer(&mut calls);
    sameness(&mut calls);
    nested(&mut calls);
    names(&mut calls);
    spellings(&mut calls);
    let folder = Path::new(&folder);
    fs::create_dir_all(folder)?;
    fs::write(folder.join("stdin"), calls.stdin)?;
    fs::write(folder.join("stdout"), calls.stdout)
}
