//! Times of the library beside those of the second program, on the same
//! inputs in one run. `speed FILE..` builds these rule files too. `STEP_BACK` names
//! the program that does nothing but step back from all cores of a rule.

use std::ffi::c_long;
use std::hint::black_box;
use std::io::Write;
use std::process::{Command, Stdio};
use std::time::{Duration, Instant};

use compare::chains::{self, Order};
use compare::library::{
    mulgreddi_build, mulgreddi_build_rejecting, mulgreddi_build_trimmed, mulgreddi_judge,
    mulgreddi_judge_choices, mulgreddi_judge_sheet, mulgreddi_judge_table, mulgreddi_live_arrive,
    mulgreddi_live_start, mulgreddi_live_withdraw, mulgreddi_stricter, mulgreddi_tidy_word,
    mulgreddi_translate, Answer, Comparison,
};
use compare::stored::{LARGE, OVER};
use second::build::build;
use second::choices::judge_choices;
use second::events::translate;
use second::judge::judge;
use second::rule::Rule;
use second::sample::{self, Random, Shape};
use second::spelling::tidy_word;

/// Pairs of rules to compare: each with itself, with one that has a clause
/// less, and rules of all kinds with up to 1,590 million pairs of macrostates.
const STRICT: [(&str, &[u8], &[u8]); 10] = {
    let one: &[u8] = include_bytes!("../../../bench/strict_1.rule");
    let less: &[u8] = include_bytes!("../../../bench/strict_1_less.rule");
    let eight: &[u8] = include_bytes!("../../../bench/strict_8.rule");
    let fewer: &[u8] = include_bytes!("../../../bench/strict_8_less.rule");
    let slow: &[u8] = include_bytes!("../../../bench/slow_1_0.rule");
    let trans: &[u8] = include_bytes!("../../../bench/trans_1_1.rule");
    let cap: &[u8] = include_bytes!("../../../bench/cap_62_s16.rule");
    [
        ("strict_1 strict_1", one, one),
        ("strict_1 strict_1_less", one, less),
        ("strict_8 strict_8", eight, eight),
        ("strict_8 strict_8_less", eight, fewer),
        ("strict_8 slow_1_0", eight, slow),
        ("slow_1_0 strict_8", slow, eight),
        ("trans_1_1 strict_8", trans, eight),
        ("strict_8 trans_1_1", eight, trans),
        ("cap_62_s16 strict_8", cap, eight),
        ("slow_1_0 slow_1_0", slow, slow),
    ]
};

/// The shortest of some runs.
fn shortest(runs: usize, mut call: impl FnMut()) -> Duration {
    let run = |call: &mut dyn FnMut()| {
        let start = Instant::now();
        call();
        start.elapsed()
    };
    (0..runs).map(|_| run(&mut call)).min().unwrap()
}

/// The shortest of three runs.
fn time(call: impl FnMut()) -> Duration {
    shortest(3, call)
}

extern "C" {
    fn clock() -> c_long;
}

/// The least CPU time of some runs, in milliseconds: for calls that are long.
fn cpu(runs: usize, mut call: impl FnMut()) -> f64 {
    let run = |call: &mut dyn FnMut()| {
        let start = unsafe { clock() };
        call();
        unsafe { clock() - start }
    };
    let least = (0..runs).map(|_| run(&mut call)).min().unwrap();
    least as f64 / 1e3
}

/// Mean and longest, in microseconds.
fn figures(times: &[Duration]) -> String {
    let mean = times.iter().sum::<Duration>().as_secs_f64() / times.len() as f64;
    let longest = times.iter().max().unwrap().as_secs_f64();
    format!("{:8.1} {:8.1}", mean * 1e6, longest * 1e6)
}

/// The shortest of five runs of each of two calls, in turns: neither finds the rule warmer than the other.
fn in_turns(mut one: impl FnMut(), mut other: impl FnMut()) -> (Duration, Duration) {
    let turns: Vec<_> = (0..5)
        .map(|_| (shortest(1, &mut one), shortest(1, &mut other)))
        .collect();
    let least = |times: Vec<Duration>| times.into_iter().min().unwrap();
    let (ones, others) = turns.into_iter().unzip();
    (least(ones), least(others))
}

/// The judge on words of 64 places, and the judge that shows the choices.
fn judge_times(shape: Shape, name: &str, states: usize, letters: usize) {
    let mut random = Random::new(7);
    let (mut ours, mut theirs) = (Vec::new(), Vec::new());
    let (mut our_choices, mut their_choices) = (Vec::new(), Vec::new());
    for _ in 0..500 {
        let file = sample::file(&sample::rule(&mut random, shape, states, letters));
        let lead = sample::letters(&mut random, letters, 32);
        let cycle = sample::letters(&mut random, letters, 32);
        let (mut masks, mut same_masks, mut choices) = ([0u8; 64], [0u8; 64], [0u8; 512]);
        let (plain, shown) = in_turns(
            || {
                let answer = unsafe {
                    mulgreddi_judge(
                        file.as_ptr(),
                        file.len(),
                        lead.as_ptr(),
                        lead.len(),
                        cycle.as_ptr(),
                        cycle.len(),
                        masks.as_mut_ptr(),
                        masks.len(),
                    )
                };
                black_box((answer.refusal, answer.first, answer.second));
            },
            || {
                let answer = unsafe {
                    mulgreddi_judge_choices(
                        file.as_ptr(),
                        file.len(),
                        lead.as_ptr(),
                        lead.len(),
                        cycle.as_ptr(),
                        cycle.len(),
                        same_masks.as_mut_ptr(),
                        same_masks.len(),
                        choices.as_mut_ptr(),
                        choices.len(),
                    )
                };
                black_box((answer.refusal, answer.first, answer.second));
            },
        );
        ours.push(plain);
        our_choices.push(shown);
        theirs.push(time(|| {
            black_box(judge(&file, &lead, &cycle, 64).is_ok());
        }));
        their_choices.push(time(|| {
            black_box(judge_choices(&file, &lead, &cycle, 64, 512).is_ok());
        }));
    }
    let sum = |times: &[Duration]| times.iter().sum::<Duration>().as_secs_f64();
    let ratio = sum(&our_choices) / sum(&ours);
    for (call, ours, theirs, note) in [
        ("judge", ours, theirs, String::new()),
        (
            "judge_choices",
            our_choices,
            their_choices,
            format!("  {ratio:.2} times the judge"),
        ),
    ] {
        println!(
            "{call:13} {name:12} {states} states {letters:2} letters {} {}{note}",
            figures(&ours),
            figures(&theirs)
        );
    }
}

/// The tidy spelling of words of 64 places that repeat a part.
fn spelling_times(part: usize) {
    let mut random = Random::new(9);
    let (mut ours, mut theirs) = (Vec::new(), Vec::new());
    for _ in 0..500 {
        let letters = sample::letters(&mut random, 2, part).repeat(64);
        let (lead, cycle) = (&letters[..32], &letters[32..64]);
        let mut out = [0u8; 64];
        ours.push(time(|| {
            let answer = unsafe {
                mulgreddi_tidy_word(
                    lead.as_ptr(),
                    lead.len(),
                    cycle.as_ptr(),
                    cycle.len(),
                    out.as_mut_ptr(),
                    out.len(),
                )
            };
            black_box((answer.refusal, answer.first, answer.second));
        }));
        theirs.push(time(|| {
            black_box(tidy_word(lead, cycle).is_ok());
        }));
    }
    println!(
        "tidy_word     a part of {part:2} letters      {} {}",
        figures(&ours),
        figures(&theirs)
    );
}

/// The judge on a table that is made to be slow.
fn slow_time(name: &str, [codes, transitions]: [Vec<u64>; 2], cycle: &[u8]) {
    let mut scratch = vec![0u8; codes.len() * cycle.len()];
    let milliseconds = cpu(1, || {
        let answer = unsafe {
            mulgreddi_judge_table(
                sample::F.as_ptr(),
                sample::F.len(),
                [].as_ptr(),
                0,
                cycle.as_ptr(),
                cycle.len(),
                codes.as_ptr().cast(),
                8 * codes.len(),
                transitions.as_ptr().cast(),
                8 * transitions.len(),
                scratch.as_mut_ptr(),
                scratch.len(),
            )
        };
        black_box((answer.refusal, answer.first, answer.second));
    });
    println!(
        "{name:56} {milliseconds:9.1}  {} {} {}",
        cycle.len(),
        codes.len(),
        transitions.len()
    );
}

/// Chains in both orders and to and fro, over one letter and over a cycle that makes them slow; ladders; dead ends.
fn slow_times() {
    use Order::{Ascending, Descending, Zigzag};
    println!("CPU milliseconds on a table made to be slow; letters of the cycle, macrostates, transitions");
    for accepting in [Ascending, Descending] {
        for rejecting in [Ascending, Descending] {
            let name = format!("chains, accepting {accepting:?}, rejecting {rejecting:?}");
            slow_time(
                &name,
                chains::table(4_096, accepting, rejecting, false),
                &[0],
            );
        }
    }
    for length in [512, 1_024, 2_048] {
        slow_time(
            "chains, rejecting to and fro",
            chains::table(length, Ascending, Zigzag, false),
            &[0],
        );
        slow_time(
            "ladder, rejecting to and fro",
            chains::ladder(length / 2, Zigzag, false),
            &[0],
        );
        slow_time("dead ends", chains::dead_end(2 * length, Ascending), &[0]);
    }
    for length in [128, 256, 512] {
        let chain = chains::table(length, Ascending, Ascending, false);
        slow_time(
            "chains, a step a turn",
            chains::slowed(chain),
            &chains::SLOW,
        );
        let ladder = chains::ladder(length / 2, Ascending, false);
        slow_time(
            "ladder, a step a turn",
            chains::slowed(ladder),
            &chains::SLOW,
        );
    }
}

/// A sheet of 64 words on one cycle beside as many calls of the judge.
fn sheet_times(shape: Shape, name: &str) {
    let mut random = Random::new(11);
    let (mut sheets, mut alone) = (Vec::new(), Vec::new());
    for _ in 0..100 {
        let file = sample::file(&sample::rule(&mut random, shape, 8, 16));
        let cycle = sample::letters(&mut random, 16, 32);
        let leads: Vec<Vec<u8>> = (0..64)
            .map(|_| sample::letters(&mut random, 16, 32))
            .collect();
        let mut sheet = Vec::new();
        for lead in &leads {
            sheet.extend([32, 32]);
            sheet.extend(lead.iter().chain(&cycle));
        }
        let (mut answers, mut masks) = ([0u8; 64], [0u8; 4_096]);
        sheets.push(time(|| {
            let answer = unsafe {
                mulgreddi_judge_sheet(
                    file.as_ptr(),
                    file.len(),
                    sheet.as_ptr(),
                    sheet.len(),
                    answers.as_mut_ptr(),
                    answers.len(),
                    masks.as_mut_ptr(),
                    masks.len(),
                )
            };
            black_box((answer.refusal, answer.first, answer.second));
        }));
        alone.push(time(|| {
            for lead in &leads {
                let answer = unsafe {
                    mulgreddi_judge(
                        file.as_ptr(),
                        file.len(),
                        lead.as_ptr(),
                        lead.len(),
                        cycle.as_ptr(),
                        cycle.len(),
                        masks.as_mut_ptr(),
                        masks.len(),
                    )
                };
                black_box((answer.refusal, answer.first, answer.second));
            }
        }));
    }
    println!("sheet {name:12} {} {}", figures(&sheets), figures(&alone));
}

/// Ten million events by a table of 64 lines, as bench/reference_events.cpp makes them.
fn translate_times() {
    const EVENTS: usize = 10_000_000;
    let file = sample::file(&Rule {
        states: 1,
        letters: 16,
        initial: 0,
        accepting: 0,
        entries: vec![vec![vec![0]; 16]],
    });
    let lines = (0..63usize).flat_map(|line| {
        let kinds = [4 * line, (4 * line + 7).min(255)];
        [kinds[0], kinds[1], 0, 127 + line, line % 16]
    });
    let mut table: Vec<u8> = lines.map(|byte| byte as u8).collect();
    table.extend([0, 255, 0, 255, 15]);
    let mut x = 1u64;
    let mut byte = || {
        x = x
            .wrapping_mul(6_364_136_223_846_793_005)
            .wrapping_add(1_442_695_040_888_963_407);
        (x >> 56) as u8
    };
    let log: Vec<u8> = (0..2 * EVENTS).map(|_| byte()).collect();
    let mut letters = vec![0u8; EVENTS];
    let mut answer = Answer {
        refusal: 0,
        first: 0,
        second: 0,
    };
    let ours = cpu(5, || {
        answer = unsafe {
            mulgreddi_translate(
                file.as_ptr(),
                file.len(),
                table.as_ptr(),
                table.len(),
                log.as_ptr(),
                log.len(),
                letters.as_mut_ptr(),
                letters.len(),
            )
        };
    });
    let theirs = cpu(1, || {
        black_box(translate(&file, &table, &log, EVENTS).is_ok());
    });
    let sum: u64 = letters.iter().map(|&letter| u64::from(letter)).sum();
    println!(
        "translate {ours:9.1} {theirs:9.1}  {} {} letters, sum {sum}",
        answer.refusal, answer.first
    );
}

/// An entry that builds.
type Build = unsafe extern "C" fn(*const u8, usize, *mut u64, usize, *mut u64, usize) -> Answer;

/// A build at full room and the build of what matters, in turns, seven runs
/// of each; the difference of the least CPU times is the trimming.
fn trim_times(name: &str, file: &[u8]) -> f64 {
    let mut codes = vec![0u64; 65_536];
    let mut transitions = vec![0u64; 1_048_576];
    let calls: [Build; 2] = [mulgreddi_build, mulgreddi_build_trimmed];
    let mut least = [f64::MAX; 2];
    let mut counts = [(0, 0); 2];
    for _ in 0..7 {
        for (number, call) in calls.into_iter().enumerate() {
            let milliseconds = cpu(1, || {
                let answer = unsafe {
                    call(
                        file.as_ptr(),
                        file.len(),
                        codes.as_mut_ptr(),
                        codes.len(),
                        transitions.as_mut_ptr(),
                        transitions.len(),
                    )
                };
                counts[number] = (answer.first, answer.second);
            });
            least[number] = least[number].min(milliseconds);
        }
    }
    let [whole, trimmed] = least;
    let [built, kept] = counts;
    println!(
        "trim {name:52} {whole:9.1} {trimmed:9.1} {:9.1}  {} {} to {} {}",
        trimmed - whole,
        built.0,
        built.1,
        kept.0,
        kept.1
    );
    trimmed - whole
}

/// The comparison of two rules beside both builds alone.
fn stricter_times(name: &str, a: &[u8], b: &[u8]) {
    let mut codes = [vec![0u64; 65_536], vec![0u64; 65_536]];
    let mut transitions = [vec![0u64; 1_048_576], vec![0u64; 1_048_576]];
    let mut pairs = 1;
    let builds = cpu(3, || {
        pairs = 1;
        for (i, call, file) in [
            (0, mulgreddi_build as Build, a),
            (1, mulgreddi_build_rejecting, b),
        ] {
            let (codes, transitions) = (&mut codes[i], &mut transitions[i]);
            let answer = unsafe {
                call(
                    file.as_ptr(),
                    file.len(),
                    codes.as_mut_ptr(),
                    codes.len(),
                    transitions.as_mut_ptr(),
                    transitions.len(),
                )
            };
            pairs *= answer.first as usize;
        }
    });
    let (mut word, mut scratch) = (vec![0u8; 3 * pairs], vec![0u8; pairs]);
    let mut answer = Comparison::default();
    let whole = cpu(3, || {
        let ([ca, cb], [ta, tb]) = (&mut codes, &mut transitions);
        answer = unsafe {
            mulgreddi_stricter(
                a.as_ptr(),
                a.len(),
                b.as_ptr(),
                b.len(),
                ca.as_mut_ptr(),
                ca.len(),
                ta.as_mut_ptr(),
                ta.len(),
                cb.as_mut_ptr(),
                cb.len(),
                tb.as_mut_ptr(),
                tb.len(),
                word.as_mut_ptr(),
                word.len(),
                scratch.as_mut_ptr(),
                scratch.len(),
            )
        };
    });
    println!(
        "stricter {name:24} {builds:9.1} {whole:9.1} {:9.1}  P {pairs}, {} {} {}",
        whole - builds,
        answer.stricter,
        answer.lead,
        answer.cycle
    );
}

/// A log followed live: the calls on one rule, its trimmed table and a state.
struct Live {
    file: Vec<u8>,
    codes: Vec<u64>,
    transitions: Vec<u64>,
    state: Vec<u8>,
    set: Vec<u8>,
}

impl Live {
    fn new(file: Vec<u8>) -> Option<Self> {
        let mut codes = vec![0u64; 65_536];
        let mut transitions = vec![0u64; 1_048_576];
        let kept = unsafe {
            mulgreddi_build_trimmed(
                file.as_ptr(),
                file.len(),
                codes.as_mut_ptr(),
                codes.len(),
                transitions.as_mut_ptr(),
                transitions.len(),
            )
        };
        codes.truncate(kept.first as usize);
        transitions.truncate(kept.second as usize);
        (kept.refusal == 0).then_some(Live {
            file,
            codes,
            transitions,
            state: vec![0; 74_290],
            set: vec![0; 65_536],
        })
    }

    /// A start, an arrival, or the withdrawal of the last letter.
    fn call(&mut self, call: Option<Option<u32>>) -> Answer {
        let (f, c, t) = (&self.file, &self.codes, &self.transitions);
        let (b, s) = (&mut self.state, &mut self.set);
        let (codes, moves) = (c.as_ptr().cast(), t.as_ptr().cast());
        let (cn, tn, bn, sn) = (8 * c.len(), 8 * t.len(), b.len(), s.len());
        let (b, s) = (b.as_mut_ptr(), s.as_mut_ptr());
        unsafe {
            match call {
                None => {
                    mulgreddi_live_start(f.as_ptr(), f.len(), codes, cn, moves, tn, b, bn, s, sn)
                }
                Some(Some(letter)) => {
                    let (file, length) = (f.as_ptr(), f.len());
                    mulgreddi_live_arrive(file, length, letter, codes, cn, moves, tn, b, bn, s, sn)
                }
                Some(None) => {
                    let (file, length) = (f.as_ptr(), f.len());
                    mulgreddi_live_withdraw(file, length, codes, cn, moves, tn, b, bn, s, sn)
                }
            }
        }
    }
}

/// 512 arrivals that keep the set non-empty, as reference02 draws them, and
/// then a withdrawal.
fn live_times(name: &str, file: Vec<u8>) {
    let s = u64::from(file[file.len() - 7]);
    let Some(mut live) = Live::new(file) else {
        return;
    };
    if live.call(None).second == 0 {
        return;
    }
    let (mut seed, mut letters, mut most) = (1u64, Vec::new(), 0);
    while letters.len() < 512 {
        let letter = (0..64).find_map(|_| {
            seed = seed.wrapping_mul(6_364_136_223_846_793_005);
            seed = seed.wrapping_add(1_442_695_040_888_963_407);
            let letter = ((seed >> 33) % s) as u32;
            let members = live.call(Some(Some(letter))).second;
            most = most.max(members);
            if members == 0 {
                live.call(Some(None));
            }
            (members != 0).then_some(letter)
        });
        let Some(letter) = letter else {
            break;
        };
        letters.push(letter);
    }
    let arrivals = cpu(3, || {
        live.call(None);
        for &letter in &letters {
            black_box(live.call(Some(Some(letter))).second);
        }
    });
    let held = live.state.clone();
    let withdrawal = cpu(3, || {
        live.state.copy_from_slice(&held);
        black_box(live.call(Some(None)).second);
    });
    println!(
        "live {name:52} {arrivals:9.1} {withdrawal:9.1}  {} {}, {} letters, {most}",
        live.codes.len(),
        live.transitions.len(),
        letters.len()
    );
}

/// A rule with one component for each size, the first holding the initial
/// state; a component leads to itself, in a ring, and to later ones.
fn composed(random: &mut Random, sizes: &[(usize, bool)], letters: usize, most: usize) -> Rule {
    let (mut entries, mut accepting, mut first) = (Vec::new(), 0u8, 0);
    let states: usize = sizes.iter().map(|size| size.0).sum();
    for &(size, accepts) in sizes {
        for q in first..first + size {
            accepting |= u8::from(accepts) << q;
            let next = first + (q + 1 - first) % size;
            let clause = |random: &mut Random| {
                (first..states).fold(1u8 << next, |mask, to| {
                    mask | u8::from(random.once_in(4)) << to
                })
            };
            let entry = |random: &mut Random| -> Vec<u8> {
                let count = random.between(1, most);
                let mut clauses: Vec<u8> = Vec::new();
                // No clause inside another.
                for _ in 0..4 * count {
                    let clause = clause(random);
                    let apart = |&other: &u8| clause & !other != 0 && other & !clause != 0;
                    if clauses.len() < count && clauses.iter().all(apart) {
                        clauses.push(clause);
                    }
                }
                clauses
            };
            entries.push((0..letters).map(|_| entry(random)).collect());
        }
        first += size;
    }
    Rule {
        states,
        letters,
        initial: 0,
        accepting,
        entries,
    }
}

/// A build of such a rule.
fn build_times(name: &str, sizes: &[(usize, bool)], letters: usize, most: usize) {
    let file = sample::file(&composed(&mut Random::new(3), sizes, letters, most));
    build_time(
        &format!("{name:24} {letters:2} letters, up to {most} clauses"),
        &file,
    );
}

/// One build at full room.
fn build_time(name: &str, file: &[u8]) {
    let mut codes = vec![0u64; 65_536];
    let mut transitions = vec![0u64; 1_048_576];
    let mut answer = Answer {
        refusal: 0,
        first: 0,
        second: 0,
    };
    let ours = time(|| {
        answer = unsafe {
            mulgreddi_build(
                file.as_ptr(),
                file.len(),
                codes.as_mut_ptr(),
                codes.len(),
                transitions.as_mut_ptr(),
                transitions.len(),
            )
        };
    });
    let theirs = if ours < Duration::from_millis(300) {
        let start = Instant::now();
        black_box(build(file, 65_536, 1_048_576).is_ok());
        format!("{:9.1}", start.elapsed().as_secs_f64() * 1e3)
    } else {
        "        -".into()
    };
    let served = match answer.refusal {
        0 => format!("{} {}", answer.first, answer.second),
        row => format!("refused {row}"),
    };
    println!(
        "build {name:52} {:9.1} {theirs}  {served}",
        ours.as_secs_f64() * 1e3
    );
}

/// Words of 64 places, judged on the table of a rule at full room: the
/// lead-in and cycle of random letters, but for the first two cycles.
fn table_times(name: &str, file: &[u8]) {
    let mut codes = vec![0u64; 65_536];
    let mut transitions = vec![0u64; 1_048_576];
    let built = unsafe {
        mulgreddi_build(
            file.as_ptr(),
            file.len(),
            codes.as_mut_ptr(),
            codes.len(),
            transitions.as_mut_ptr(),
            transitions.len(),
        )
    };
    if built.refusal != 0 {
        println!("table {name:52} refused {}", built.refusal);
        return;
    }
    let mut scratch = vec![0u8; 65_536 * 64];
    let letters = file[file.len() - 7] as usize;
    let mut random = Random::new(5);
    let mut times = Vec::new();
    for number in 0..8 {
        let lead: Vec<u8> = (0..32).map(|_| random.below(letters) as u8).collect();
        let cycle: Vec<u8> = match number {
            0 => vec![0; 32],
            1 => vec![letters as u8 - 1; 32],
            _ => (0..32).map(|_| random.below(letters) as u8).collect(),
        };
        times.push(time(|| {
            let answer = unsafe {
                mulgreddi_judge_table(
                    file.as_ptr(),
                    file.len(),
                    lead.as_ptr(),
                    lead.len(),
                    cycle.as_ptr(),
                    cycle.len(),
                    codes.as_ptr().cast(),
                    8 * built.first as usize,
                    transitions.as_ptr().cast(),
                    8 * built.second as usize,
                    scratch.as_mut_ptr(),
                    scratch.len(),
                )
            };
            black_box((answer.refusal, answer.first, answer.second));
        }));
    }
    let mean = times.iter().sum::<Duration>().as_secs_f64() / times.len() as f64;
    println!(
        "table {name:52} {:9.1} {:9.1}  {} {}",
        mean * 1e3,
        times.iter().max().unwrap().as_secs_f64() * 1e3,
        built.first,
        built.second
    );
}

/// What the program `bench_step_back` prints of a rule file.
fn step_back(program: &str, file: &[u8]) -> String {
    let mut child = Command::new(program)
        .stdin(Stdio::piped())
        .stdout(Stdio::piped())
        .spawn()
        .unwrap_or_else(|error| panic!("{program}: {error}"));
    child.stdin.take().unwrap().write_all(file).unwrap();
    String::from_utf8(child.wait_with_output().unwrap().stdout).unwrap()
}

/// The step back from each core over each letter, with the walk over all
/// cores; the start of the program is taken off.
fn step_times(program: &str, name: &str, sizes: &[(usize, bool)], letters: usize, most: usize) {
    let file = sample::file(&composed(&mut Random::new(3), sizes, letters, most));
    let start = shortest(20, || {
        black_box(step_back(program, &[]));
    });
    let mut said = String::new();
    let whole = shortest(20, || said = step_back(program, &file));
    let number = |name: &str| -> u64 {
        let line = said.lines().find_map(|line| line.strip_prefix(name));
        line.and_then(|number| number.trim().parse().ok())
            .unwrap_or_else(|| panic!("{program} printed {said:?}"))
    };
    let nanoseconds = whole.saturating_sub(start).as_secs_f64() * 1e9;
    println!(
        "step {name:14} {letters:2} letters, up to {most} clauses {:8.1}  {} cores, {} steps",
        nanoseconds / number("steps") as f64,
        number("cores"),
        number("steps")
    );
}

fn main() {
    let (no, yes) = (false, true);
    let eight: Vec<_> = (0..8).map(|q| (1, q % 2 == 1)).collect();
    if let Ok(program) = std::env::var("STEP_BACK") {
        println!("nanoseconds a core and letter: the step back, with the walk over all cores");
        for most in [1, 8] {
            step_times(&program, "7 + 1", &[(7, yes), (1, no)], 16, most);
            step_times(&program, "4 + 4", &[(4, no), (4, yes)], 16, most);
            step_times(&program, "eight of 1", &eight, 16, most);
        }
    }
    println!("milliseconds a build: library, second program; macrostates transitions");
    for (letters, most) in [(1, 1), (2, 2), (16, 1), (16, 8)] {
        build_times("5 rejecting", &[(5, no)], letters, most);
        build_times("6 rejecting", &[(6, no)], letters, most);
        build_times("7 accepting", &[(7, yes)], letters, most);
        build_times("7 rejecting", &[(7, no)], letters, most);
        build_times("8 rejecting", &[(8, no)], letters, most);
        build_times("4 + 4", &[(4, no), (4, yes)], letters, most);
        let single = (1, yes);
        let several = [(5, no), single, (1, no), single];
        build_times("5 + 1 + 1 + 1", &several, letters, most);
        build_times("6 + 1 + 1", &[(6, no), single, (1, no)], letters, most);
        build_times("7 + 1", &[(7, yes), (1, no)], letters, most);
        build_times("eight of 1", &eight, letters, most);
    }
    for (number, (file, ..)) in (1..).zip(LARGE) {
        build_time(&format!("close to both caps, {number}"), file);
    }
    let caps = ["macrostates", "transitions"];
    for (what, (file, ..)) in caps.into_iter().zip(OVER) {
        build_time(&format!("more {what} than any room"), file);
    }
    for path in std::env::args().skip(1) {
        let file = std::fs::read(&path).unwrap_or_else(|error| panic!("{path}: {error}"));
        build_time(&path, &file);
    }
    println!(
        "milliseconds a word of 64 places on a built table: mean, longest; macrostates transitions"
    );
    for path in std::env::args().skip(1) {
        let file = std::fs::read(&path).unwrap_or_else(|error| panic!("{path}: {error}"));
        table_times(&path, &file);
    }
    slow_times();
    println!("CPU milliseconds: build, build of what matters, the difference; macrostates transitions before and after");
    let mut sum = 0.0;
    for path in std::env::args().skip(1) {
        let file = std::fs::read(&path).unwrap_or_else(|error| panic!("{path}: {error}"));
        sum += trim_times(&path, &file);
    }
    println!("trimming, all of them {sum:9.1}");
    println!(
        "CPU milliseconds: both builds, the comparison, its difference; P, the answer, letters"
    );
    for (name, a, b) in STRICT {
        stricter_times(name, a, b);
    }
    println!("CPU milliseconds: 512 arrivals, a withdrawal; macrostates transitions, letters, the largest set");
    for path in std::env::args().skip(1) {
        let file = std::fs::read(&path).unwrap_or_else(|error| panic!("{path}: {error}"));
        live_times(&path, file);
    }
    println!("CPU milliseconds for ten million events: library, second program");
    translate_times();
    println!("microseconds a call                           library: mean, longest; second program: mean, longest");
    for part in [1, 5, 31] {
        spelling_times(part);
    }
    for states in [2, 5, 8] {
        for letters in [2, 16] {
            judge_times(Shape::One, "one", states, letters);
            judge_times(Shape::Layers, "layers", states, letters);
            judge_times(Shape::Rings, "rings", states, letters);
            judge_times(Shape::VeryWeak, "very weak", states, letters);
        }
    }
    println!("microseconds for 64 words on one cycle        on a sheet: mean, longest; each alone: mean, longest");
    sheet_times(Shape::One, "one");
    sheet_times(Shape::Layers, "layers");
    sheet_times(Shape::Rings, "rings");
    sheet_times(Shape::VeryWeak, "very weak");
}
