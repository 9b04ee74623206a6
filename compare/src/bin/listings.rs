//! Compares the listing program with the second program's listings.
//!
//! `listings PROGRAM FOLDER..`: on the rule files in these folders, at both
//! sides of every limit, and on random files.

#[allow(dead_code)]
#[path = "../input.rs"]
mod input;

use std::collections::BTreeMap;
use std::io::Write;
use std::process::{Command, ExitCode, Stdio};
use std::time::Instant;

use input::{any_file, refused, varied, RULES};
use second::listing::{listing, INPUT};
use second::names::MARK;
use second::sample::{self, Random, SHAPES};

/// Rules at both sides of the rooms, with what line one says of them.
const ROOMS: [(&[u8], &str); 4] = [
    (
        include_bytes!("../../data/room_m512.rule"),
        "built 512 1558",
    ),
    (include_bytes!("../../data/room_m513.rule"), "refused 17"),
    (
        include_bytes!("../../data/room_t4096.rule"),
        "built 511 4096",
    ),
    (include_bytes!("../../data/room_t4097.rule"), "refused 18"),
];

/// Random files, and random rules whose tables mostly fit the rooms.
const FILES: usize = 500;
const TABLES: usize = 500;

/// What line one can be, each of which must be seen.
const KINDS: [&str; 20] = [
    "names",
    "built",
    "long",
    "refused 1",
    "refused 2",
    "refused 3",
    "refused 4",
    "refused 5",
    "refused 6",
    "refused 7",
    "refused 8",
    "refused 9",
    "refused 10",
    "refused 11",
    "refused 20",
    "refused 21",
    "refused 22",
    "refused 23",
    "refused 17",
    "refused 18",
];

struct Comparison {
    program: String,
    seen: BTreeMap<String, usize>,
}

impl Comparison {
    /// What the program writes, its input handed to it in pieces.
    fn run(&self, pieces: &[&[u8]]) -> Vec<u8> {
        let mut child = Command::new(&self.program)
            .stdin(Stdio::piped())
            .stdout(Stdio::piped())
            .spawn()
            .unwrap_or_else(|error| panic!("{}: {error}", self.program));
        let mut stdin = child.stdin.take().unwrap();
        for piece in pieces {
            // The program may end before it has read a long input.
            if stdin.write_all(piece).and_then(|()| stdin.flush()).is_err() {
                break;
            }
            if pieces.len() > 1 {
                std::thread::sleep(std::time::Duration::from_millis(2));
            }
        }
        drop(stdin);
        let output = child.wait_with_output().unwrap();
        assert!(output.status.success(), "{}", output.status);
        output.stdout
    }

    fn compare_pieces(&mut self, pieces: &[&[u8]]) -> String {
        let file = pieces.concat();
        let expected = listing(&file);
        let printed = self.run(pieces);
        if printed != expected.as_bytes() {
            println!("DIFFERENCE on a file of {} bytes", file.len());
            for line in file.chunks(32) {
                let hex: Vec<String> = line.iter().map(|byte| format!("{byte:02x}")).collect();
                println!("    {}", hex.join(" "));
            }
            println!("program:\n{}", String::from_utf8_lossy(&printed));
            println!("second program:\n{expected}");
            std::process::exit(1);
        }
        let first = expected.lines().next().unwrap().to_string();
        let kind = match first.split_once(' ') {
            Some(("built", _)) => "built".to_string(),
            _ => first.clone(),
        };
        if expected.contains("\nn ") {
            *self.seen.entry("names".to_string()).or_default() += 1;
        }
        *self.seen.entry(kind).or_default() += 1;
        first
    }

    fn compare(&mut self, file: &[u8]) -> String {
        self.compare_pieces(&[file])
    }

    /// Line one must be what 01 says.
    fn compare_as(&mut self, file: &[u8], said: &str) {
        let first = self.compare(file);
        if first != said {
            println!("both print {first}, 01 says {said}");
            std::process::exit(1);
        }
    }
}

/// A rule after a preface that makes the file this long.
fn prefaced(rule: &[u8], length: usize) -> Vec<u8> {
    [vec![0x2e; length - rule.len()].as_slice(), rule].concat()
}

fn limits(comparison: &mut Comparison) {
    for (number, file) in refused() {
        comparison.compare_as(file, &format!("refused {number}"));
    }
    comparison.compare_as(&[], "refused 1");
    for rule in RULES {
        let first = comparison.compare(rule);
        comparison.compare_as(&prefaced(rule, INPUT), &first);
        for more in [1, 2, 1_000, 100_000] {
            comparison.compare_as(&prefaced(rule, INPUT + more), "long");
        }
        let (head, tail) = rule.split_at(5);
        comparison.compare_pieces(&[head, tail]);
    }
    let long = prefaced(RULES[0], INPUT + 1);
    comparison.compare_pieces(&[&long[..INPUT], &long[INPUT..]]);
    for (file, said) in ROOMS {
        comparison.compare_as(file, said);
    }
}

fn main() -> ExitCode {
    let mut arguments = std::env::args().skip(1);
    let program = arguments.next().expect("listings PROGRAM FOLDER..");
    let start = Instant::now();
    let mut comparison = Comparison {
        program,
        seen: BTreeMap::new(),
    };
    for folder in arguments {
        let files = std::fs::read_dir(&folder).unwrap_or_else(|error| panic!("{folder}: {error}"));
        let paths = files.map(|file| file.unwrap().path());
        for path in paths.filter(|path| path.extension().is_some_and(|e| e == "rule")) {
            comparison.compare(&std::fs::read(path).unwrap());
        }
    }
    limits(&mut comparison);
    let random = &mut Random::new(1);
    for _ in 0..FILES {
        comparison.compare(&any_file(random));
    }
    for _ in 0..TABLES {
        let states = random.between(1, 5);
        let alphabet = *random.pick(&[1, 2, 2, 3, 3, 16]);
        let shape = *random.pick(&SHAPES);
        let rule = varied(random, shape, states, alphabet);
        let mut file = Vec::new();
        if random.once_in(2) {
            file.extend(sample::names(random, rule.letters));
            file.extend(MARK);
        }
        file.extend(sample::file(&rule));
        comparison.compare(&file);
    }
    let seen = |kind: &str| comparison.seen.get(kind).copied().unwrap_or(0);
    println!(
        "listings: {} compared in {:.1} s; served {}, {} of them with names, long {}",
        comparison.seen.values().sum::<usize>() - seen("names"),
        start.elapsed().as_secs_f64(),
        seen("built"),
        seen("names"),
        seen("long")
    );
    let refusals = KINDS.iter().filter_map(|kind| {
        let number = kind.strip_prefix("refused ")?;
        Some(format!("{number}: {}", seen(kind)))
    });
    println!("    refusals {}", refusals.collect::<Vec<_>>().join(", "));
    let missing: Vec<_> = KINDS.iter().filter(|kind| seen(kind) == 0).collect();
    if missing.is_empty() {
        ExitCode::SUCCESS
    } else {
        println!("    NEVER SEEN: {missing:?}");
        ExitCode::FAILURE
    }
}
