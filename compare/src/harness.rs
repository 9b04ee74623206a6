//! The harness: lends slices, compares answers, keeps the tallies and reports a
//! difference.

use std::collections::BTreeMap;
use std::ffi::{c_int, c_long, c_void};
use std::sync::atomic::{AtomicPtr, Ordering};
use std::time::Instant;

use compare::library::Answer;
use second::sample::Random;

use crate::lend::{Kind, Lender, Ticket};
use crate::limits::{self, Class, Limit, CLASSES};

/// What an entry is to answer: two values, or a refusal.
pub type Expected = Result<(u64, u64), u8>;

/// What a comparison saw both programs answer.
pub struct Seen(pub Expected);

/// The rows of an entry that reads a rule.
pub const RULE: &[u64] = &[1, 2, 3, 4, 5, 6, 7, 8, 9, 10, 20, 11, 21, 22, 23];

/// An entry of the library and its comparisons.
pub struct Entry {
    pub name: &'static str,
    /// The refusals it can give, each of which must be seen.
    pub refusals: &'static [&'static [u64]],
    /// What it answers when served, for the report: with or without a verdict.
    pub verdict: bool,
    /// The kinds of input and answer that must be seen besides.
    pub kinds: &'static [&'static str],
    /// The number of comparisons of one round.
    pub round: u64,
    /// The worked examples and limits.
    pub examples: fn(&mut Harness),
    /// One random input and its comparisons.
    pub random: fn(&mut Harness),
}

/// What was seen of one entry.
#[derive(Default)]
pub struct Tally {
    pub comparisons: u64,
    pub refusals: BTreeMap<u64, u64>,
    pub yes: u64,
    pub no: u64,
    pub kinds: BTreeMap<&'static str, u64>,
    /// Calls by line and class of the table of limits.
    classes: BTreeMap<(usize, usize), u64>,
    pub seconds: f64,
    /// CPU seconds of the longest call.
    pub longest: f64,
}

/// How many random words were judged on a rule.
#[derive(Default)]
struct Judged {
    all: u64,
    /// As a game, by attractors over all pairs at once.
    game: u64,
    /// Component by component.
    components: u64,
}

pub struct Harness {
    pub random: Random,
    judged: Judged,
    lender: Lender,
    /// The numbers of the call by which its classes are recognised.
    counts: Vec<(&'static str, u64)>,
    tallies: BTreeMap<&'static str, Tally>,
    entry: &'static str,
    /// The lines of the table of limits that the entry has.
    lines: Vec<(usize, &'static Limit)>,
    verdict: bool,
    seed: u64,
    /// CPU seconds of the last call.
    last: f64,
}

/// The harness, for a signal that ends a call.
static HARNESS: AtomicPtr<Harness> = AtomicPtr::new(std::ptr::null_mut());

extern "C" {
    fn signal(number: c_int, handler: extern "C" fn(c_int)) -> usize;
    fn clock() -> c_long;
    fn setitimer(which: c_int, new: *const [c_long; 4], old: *mut c_void) -> c_int;
}

/// A call that takes more CPU time than this many seconds counts as endless.
const ENDLESS: c_long = 300;
const ITIMER_VIRTUAL: c_int = 1;
const SIGVTALRM: c_int = 26;
/// SIGILL, SIGABRT, SIGBUS, SIGFPE, SIGSEGV, SIGVTALRM.
const SIGNALS: [c_int; 6] = [4, 6, 7, 8, 11, SIGVTALRM];

/// Has a signal come after so many seconds of CPU time; after 0, never.
fn alarm(seconds: c_long) {
    // No repetition; seconds and microseconds.
    let timer = [0, 0, seconds, 0];
    let set = unsafe { setitimer(ITIMER_VIRTUAL, &timer, std::ptr::null_mut()) };
    assert!(set == 0, "setitimer failed");
}

extern "C" fn interrupted(number: c_int) {
    let harness = HARNESS.load(Ordering::Relaxed);
    if let Some(harness) = unsafe { harness.as_ref() } {
        let what = if number == SIGVTALRM {
            format!("the call did not end within {ENDLESS} seconds of CPU time")
        } else {
            format!("the call ended by signal {number}")
        };
        harness.fail(&what);
    }
    std::process::exit(1);
}

impl Harness {
    pub fn new() -> Self {
        Harness {
            random: Random::new(0),
            judged: Judged::default(),
            lender: Lender::default(),
            counts: Vec::new(),
            tallies: BTreeMap::new(),
            entry: "",
            lines: Vec::new(),
            verdict: false,
            seed: 0,
            last: 0.0,
        }
    }

    /// Starts a round of an entry with a seed; stops it at `until`.
    pub fn round(&mut self, entry: &Entry, number: u64, seed: u64, until: Option<Instant>) {
        for number in SIGNALS {
            unsafe { signal(number, interrupted) };
        }
        self.random = Random::new(seed.wrapping_mul(1_000_003).wrapping_add(number));
        self.entry = entry.name;
        self.lines = limits::of(entry.name).collect();
        self.verdict = entry.verdict;
        self.seed = seed;
        let start = Instant::now();
        let goal = self.tally().comparisons + entry.round;
        (entry.examples)(self);
        while self.tally().comparisons < goal && until.is_none_or(|until| Instant::now() < until) {
            (entry.random)(self);
        }
        self.tally().seconds += start.elapsed().as_secs_f64();
    }

    pub fn tally(&mut self) -> &mut Tally {
        self.tallies.entry(self.entry).or_default()
    }

    /// Counts a kind of input or answer that was seen.
    pub fn saw(&mut self, kind: &'static str) {
        *self.tally().kinds.entry(kind).or_default() += 1;
    }

    /// Counts a random word that was judged on a rule: as a game, component by
    /// component, or by both judges, which agreed.
    pub fn judged(&mut self, game: bool, components: bool) {
        self.judged.all += 1;
        self.judged.game += u64::from(game);
        self.judged.components += u64::from(components);
    }

    /// A pattern for a slice that is written to.
    pub fn pattern(&mut self, length: usize) -> Vec<u8> {
        let first = self.random.byte();
        (0..length)
            .map(|place| first.wrapping_add((place as u8).wrapping_mul(37)) | 1)
            .collect()
    }

    /// Ends the loans of the call before; to be called before the first loan.
    pub fn begin(&mut self) {
        self.lender.begin();
        self.counts.clear();
    }

    /// Tells a number of the call that is compared, by a name of the table of
    /// limits; after `begin`.
    pub fn count(&mut self, counted: &'static str, number: usize) {
        self.counts.push((counted, number as u64));
    }

    /// The numbers of a rule file: those of its trailer, and the largest count.
    pub fn count_file(&mut self, file: &[u8]) {
        let Some((body, trailer)) = file.split_last_chunk::<8>() else {
            return;
        };
        let [states, letters] = [trailer[0], trailer[1]].map(usize::from);
        self.count("states", states);
        self.count("letters", letters);
        let counts = body.iter().rev().take(states * letters);
        self.count(
            "clauses of an entry",
            counts.max().map_or(0, |&most| most.into()),
        );
    }

    /// The letters of a word.
    pub fn count_word(&mut self, [lead, cycle]: [&[u8]; 2]) {
        self.count("letters of the lead-in", lead.len());
        self.count("letters of the cycle", cycle.len());
    }

    /// Lends an input.
    pub fn lend(&mut self, name: &'static str, content: &[u8]) -> Ticket {
        self.lender
            .lend(&mut self.random, name, content, Kind::Input)
    }

    /// Lends bytes that may be written to.
    pub fn lend_out(&mut self, name: &'static str, pattern: &[u8]) -> Ticket {
        self.lender
            .lend(&mut self.random, name, pattern, Kind::Output)
    }

    /// Lends room for numbers of 64 bits, given as bytes.
    pub fn lend_room(&mut self, name: &'static str, pattern: &[u8]) -> Ticket {
        self.lender
            .lend(&mut self.random, name, pattern, Kind::Room)
    }

    /// The lent slice, its length in bytes.
    pub fn bytes(&self, ticket: Ticket) -> (*mut u8, usize) {
        self.lender.bytes(ticket)
    }

    /// The lent slice, its length in numbers of 64 bits.
    pub fn numbers(&self, ticket: Ticket) -> (*mut u64, usize) {
        let (pointer, length) = self.lender.bytes(ticket);
        (pointer.cast(), length / 8)
    }

    /// The slice must hold `after` once the call has ended.
    pub fn expect(&mut self, ticket: Ticket, after: Vec<u8>) {
        self.lender.expect(ticket, after);
    }

    /// The second program must answer what 01 says.
    pub fn by_01<T: PartialEq + std::fmt::Debug>(&self, second: &T, said: &T) {
        if second != said {
            self.fail(&format!("second program {second:?}, 01 says {said:?}"));
        }
    }

    /// Two methods of the second program must agree.
    pub fn agree<T: PartialEq + std::fmt::Debug>(&self, one: &T, other: &T) {
        if one != other {
            self.fail(&format!(
                "second program {one:?}, by another method {other:?}"
            ));
        }
    }

    /// Makes the call and compares its answer and every lent slice.
    pub fn call(&mut self, expected: Expected, call: impl FnOnce() -> Answer) {
        let answer = self.timed(call);
        let wanted = match expected {
            Ok((first, second)) => Answer {
                refusal: 0,
                first,
                second,
            },
            Err(number) => Answer {
                refusal: number.into(),
                first: 0,
                second: 0,
            },
        };
        if answer != wanted {
            self.fail(&format!("library {answer:?}, second program {wanted:?}"));
        }
        self.settle(expected, &format!("{answer:?}"));
    }

    /// Makes a call, with a limit of CPU time.
    pub fn timed<T>(&mut self, call: impl FnOnce() -> T) -> T {
        HARNESS.store(self, Ordering::Relaxed);
        alarm(ENDLESS);
        let start = unsafe { clock() };
        let answer = call();
        self.last = unsafe { clock() - start } as f64 / 1e6;
        alarm(0);
        answer
    }

    /// What must hold of an answer that no definition decides.
    pub fn must(&self, holds: bool, what: impl FnOnce() -> String) {
        if !holds {
            self.fail(&what());
        }
    }

    /// What a lent slice holds now.
    pub fn held(&self, ticket: Ticket) -> Vec<u8> {
        self.lender.held(ticket)
    }

    /// Compares every lent slice after a call that both answer alike, and counts it.
    pub fn settle(&mut self, expected: Expected, answer: &str) {
        if let Some(fault) = self.lender.fault() {
            self.fail(&format!("{fault}; both answer {answer}"));
        }
        let mut seen = Vec::new();
        for &(counted, number) in &self.counts {
            for (line, limit) in self
                .lines
                .iter()
                .filter(|(_, limit)| limit.counted == counted)
            {
                let holds =
                    |class: &Class| matches!(class, Class::Numbers(own) if own.contains(&number));
                let class = limit.classes.iter().position(holds);
                seen.extend(class.map(|class| (*line, class)));
            }
        }
        let (verdict, last) = (self.verdict, self.last);
        let tally = self.tally();
        for class in seen {
            *tally.classes.entry(class).or_default() += 1;
        }
        tally.longest = tally.longest.max(last);
        tally.comparisons += 1;
        match expected {
            Err(number) => *tally.refusals.entry(number.into()).or_default() += 1,
            Ok((0, _)) if verdict => tally.no += 1,
            Ok(_) => tally.yes += 1,
        }
    }

    /// Prints the difference with all that was lent, and ends the run.
    fn fail(&self, what: &str) -> ! {
        let made = self.tallies.get(self.entry).map_or(0, |t| t.comparisons);
        println!("DIFFERENCE in {} (seed {})", self.entry, self.seed);
        println!("after {made} comparisons of this entry without one: {what}");
        for lent in &self.lender.lent {
            let length = lent.content.len();
            println!("{}: {length} bytes", lent.name);
            if lent.kind != Kind::Input {
                continue;
            }
            // Rule files are read from their end, so the end is what counts.
            let hidden = length.saturating_sub(4096);
            if hidden > 0 {
                println!("    ({hidden} bytes not shown)");
            }
            for line in lent.content[hidden..].chunks(32) {
                let hex: Vec<String> = line.iter().map(|byte| format!("{byte:02x}")).collect();
                println!("    {}", hex.join(" "));
            }
        }
        std::process::exit(1);
    }

    /// Prints what was seen; false if something that must be seen was not.
    pub fn report(&self, entries: &[Entry]) -> bool {
        let Judged {
            all,
            game,
            components,
        } = self.judged;
        println!(
            "random words judged on a rule: {all}, as games {game}, component by component \
             {components}"
        );
        let mut whole = true;
        if 2 * game < all {
            println!("    FEWER THAN HALF as games");
            whole = false;
        }
        for entry in entries {
            let Some(tally) = self.tallies.get(entry.name) else {
                continue;
            };
            let served = if entry.verdict {
                format!("yes {}, no {}", tally.yes, tally.no)
            } else {
                format!("served {}", tally.yes)
            };
            println!(
                "{}: {} comparisons in {:.1} s, the longest call {:.2} s; {served}",
                entry.name, tally.comparisons, tally.seconds, tally.longest
            );
            if !tally.refusals.is_empty() {
                let seen = tally.refusals.iter();
                let seen: Vec<String> = seen.map(|(row, n)| format!("{row}: {n}")).collect();
                println!("    refusals {}", seen.join(", "));
            }
            if !entry.kinds.is_empty() {
                let seen = tally.kinds.iter();
                let seen: Vec<String> = seen.map(|(kind, n)| format!("{kind}: {n}")).collect();
                println!("    {}", seen.join(", "));
            }
            let missing: Vec<_> = entry
                .refusals
                .concat()
                .into_iter()
                .filter(|row| !tally.refusals.contains_key(row))
                .collect();
            if !missing.is_empty() {
                println!("    NEVER SEEN: {missing:?}");
                whole = false;
            }
            let missing: Vec<_> = entry
                .kinds
                .iter()
                .filter(|kind| !tally.kinds.contains_key(*kind))
                .collect();
            if !missing.is_empty() {
                println!("    NEVER SEEN: {missing:?}");
                whole = false;
            }
            let (mut told, mut missing) = (Vec::new(), Vec::new());
            for (line, limit) in limits::of(entry.name) {
                let name = format!("{} {}", limit.counted, limit.number());
                let mut own = format!("{name}:");
                for (class, told) in CLASSES.into_iter().enumerate() {
                    if let Class::None(_) = limit.classes[class] {
                        continue;
                    }
                    let seen = tally.classes.get(&(line, class)).copied().unwrap_or(0);
                    own += &format!(" {told} {seen}");
                    if seen == 0 {
                        missing.push(format!("{told} {name}"));
                    }
                }
                told.push(own);
            }
            if !told.is_empty() {
                println!("    limits {}", told.join("; "));
            }
            if !missing.is_empty() {
                println!("    NEVER SEEN: {missing:?}");
                whole = false;
            }
            if entry.verdict && (tally.yes == 0 || tally.no == 0) {
                println!("    NEVER SEEN: one of the two verdicts");
                whole = false;
            }
        }
        whole
    }
}
