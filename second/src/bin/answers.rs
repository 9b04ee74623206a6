//! The second program's answers to the command line: what `mulgreddi` must
//! print on standard output, and its exit status. Told on standard error is the
//! number of a refusal alone.

use std::collections::HashMap;
use std::io::{self, Read, Write};
use std::process::exit;
use std::{env, fs};

use second::build::{build, Macrostate};
use second::choices::{judge_choices, FALSE};
use second::combine;
use second::event_text;
use second::events::{translate, LINE};
use second::follow::follow as follow_on;
use second::hoa::{read_hoa, write_hoa, ACCEPTING, INITIAL};
use second::lines::{is_whole, lines, quoted};
use second::live::{Lent, Log, LETTERS};
use second::mixed::mixed_loop;
use second::names::Name;
use second::rule::{read_named, same_rules, take_apart, Named, Rule};
use second::rule_text::{self, Fault, Given};
use second::sheet::{entries, judge_sheet, Entry};
use second::spelling::tidy_word;
use second::stricter::stricter;
use second::table::judge_table;
use second::tidy::tidy;
use second::trim::build_trimmed;
use second::why::{self, End};
use second::word::same_words;

const YES: i32 = 0;
const NO: i32 = 1;
const REFUSED: i32 = 2;
const FAULT: i32 = 3;

const MACROSTATES: usize = 65_536;
const TRANSITIONS: usize = 1_048_576;

/// What was printed, as far as a refusal lets it come.
struct Printed {
    out: Vec<u8>,
}

impl Printed {
    fn line(&mut self, line: &str) {
        self.out.extend(line.bytes());
        self.out.push(b'\n');
    }

    fn end(&self, status: i32) -> ! {
        io::stdout().write_all(&self.out).unwrap();
        exit(status)
    }

    fn served<T>(&self, answer: Result<T, u8>) -> T {
        answer.unwrap_or_else(|number| {
            eprintln!("refused {number}");
            self.end(REFUSED)
        })
    }
}

/// A file that is read, or standard input for `-`.
fn contents(path: &str) -> io::Result<Vec<u8>> {
    if path != "-" {
        return fs::read(path);
    }
    let mut bytes = Vec::new();
    io::stdin().read_to_end(&mut bytes)?;
    Ok(bytes)
}

fn load(path: &str) -> Vec<u8> {
    contents(path).unwrap_or_else(|_| exit(FAULT))
}

/// A rule, by its file or its text.
fn load_rule(printed: &Printed, path: &str) -> Given {
    let given = rule_text::given(load(path));
    given.unwrap_or_else(|fault| printed.end(text_fault(path, fault)))
}

/// An event table, by its bytes or its text: "A file that the library serves as a
/// table is a table. Any other is a text if it has a `:` and no byte below 20 but
/// 09, 0A and 0D".
fn load_events(rule: &[u8], path: &str) -> Result<Vec<u8>, i32> {
    let bytes = load(path);
    let shaped = |&byte: &u8| byte >= 0x20 || [9, 10, 13].contains(&byte);
    let is_text = bytes.contains(&b':') && bytes.iter().all(shaped);
    if translate(rule, &bytes, &[], 0).is_ok() || !is_text {
        return Ok(bytes);
    }
    event_text::write(rule, &bytes).map_err(|fault| match fault {
        Ok(number) => refused(number),
        Err(fault) => text_fault(path, fault),
    })
}

/// States as they are told: by number, or by their names in a text.
struct States(Option<Vec<Vec<u8>>>);

impl States {
    fn state(&self, q: usize) -> String {
        match &self.0 {
            None => q.to_string(),
            Some(names) => String::from_utf8_lossy(&names[q]).to_string(),
        }
    }

    fn set(&self, mask: u8) -> String {
        let states = (0..8).filter(|q| mask >> q & 1 == 1);
        let states: Vec<_> = states.map(|q| self.state(q)).collect();
        format!("{{{}}}", states.join(","))
    }

    fn clause(&self, mask: u8) -> String {
        match &self.0 {
            None => self.set(mask),
            Some(names) => {
                String::from_utf8_lossy(&rule_text::clause_told(mask, names)).to_string()
            }
        }
    }
}

/// Writes a file, or to standard output for `-`.
fn store(printed: &mut Printed, path: &str, bytes: &[u8]) {
    if path == "-" {
        printed.out.extend(bytes);
    } else if fs::write(path, bytes).is_err() {
        exit(FAULT)
    }
}

/// Characters that are not seen, end a line or turn what follows.
fn is_unseen(c: char) -> bool {
    c.is_control()
        || matches!(c, '\u{61c}' | '\u{200b}'..='\u{200f}' | '\u{2028}'..='\u{202e}')
        || matches!(c, '\u{2060}'..='\u{206f}' | '\u{feff}' | '\u{fff9}'..='\u{fffb}')
        || matches!(c, '\u{e0000}'..='\u{e007f}')
}

/// A path as it is printed, the bytes of characters that are not seen escaped.
fn shown(path: &str) -> String {
    if path == "-" {
        return "standard input".to_string();
    }
    let escaped = |c: char| match is_unseen(c) {
        true => c
            .to_string()
            .bytes()
            .map(|b| format!("\\x{b:02x}"))
            .collect(),
        false => c.to_string(),
    };
    path.chars().map(escaped).collect()
}

/// A text without the blanks and tabs around it.
fn unblanked(text: &str) -> &str {
    text.trim_matches([' ', '\t'])
}

/// The lines of a text that are not blank; none for one that cannot be read.
fn text_lines(text: &[u8]) -> Vec<Option<String>> {
    let lines = lines(text).into_iter().map(|(_, line)| {
        is_whole(line).then(|| unblanked(&String::from_utf8_lossy(line)).to_string())
    });
    lines.filter(|line| line.as_deref() != Some("")).collect()
}

fn trimmed(name: &Name) -> String {
    String::from_utf8_lossy(name).trim_end().to_string()
}

/// "A name that has a blank, a comma or a colon in it, begins with - or is a
/// number is not used there." Nor is one that is empty.
fn in_words(name: &str) -> bool {
    !name.is_empty()
        && !name.starts_with('-')
        && !name.contains([' ', ',', ':'])
        && !name.bytes().all(|byte| byte.is_ascii_digit())
}

/// A letter as it is printed: by its name, or by its number where there is no
/// name or it cannot stand in a word.
fn letter(names: &Option<Vec<Name>>, letter: u8) -> String {
    let name = names.as_ref().and_then(|names| names.get(letter as usize));
    let name = name.map(trimmed).filter(|name| in_words(name));
    name.unwrap_or(letter.to_string())
}

fn letters(names: &Option<Vec<Name>>, own: &[u8]) -> String {
    let own: Vec<_> = own.iter().map(|&l| letter(names, l)).collect();
    own.join(",")
}

fn word(names: &Option<Vec<Name>>, lead: &[u8], cycle: &[u8]) -> String {
    format!("{}:{}", letters(names, lead), letters(names, cycle))
}

/// A number of decimal digits alone, the largest of the type if it is too large.
fn number(text: &str) -> Option<usize> {
    let digits = !text.is_empty() && text.bytes().all(|byte| byte.is_ascii_digit());
    digits.then(|| text.parse().unwrap_or(usize::MAX))
}

/// The letter with a name.
fn named(names: &Option<Vec<Name>>, text: &str) -> Option<u8> {
    let mut own = names.iter().flatten();
    let letter = own.position(|name| trimmed(name) == text)?;
    u8::try_from(letter).ok()
}

/// A letter as it is written in a word, by number or by name. It is a byte: a
/// number over 255 is none.
fn read_letter(names: &Option<Vec<Name>>, text: &str) -> Option<u8> {
    match number(text) {
        Some(number) => u8::try_from(number).ok(),
        None => named(names, text).filter(|_| in_words(text)),
    }
}

/// A letter as a line of a log: "by its number, by its name as it stands, or by
/// its name in quotes".
fn line_letter(names: &Option<Vec<Name>>, line: &str) -> Option<u8> {
    if let Some(rest) = line.strip_prefix('"') {
        let (name, rest) = quoted(rest.as_bytes())?;
        let name = (rest.is_empty() && name.len() <= 8).then_some(name)?;
        let name = String::from_utf8(name).ok()?;
        return named(names, name.trim_end_matches(' '));
    }
    match number(line) {
        Some(number) => u8::try_from(number).ok(),
        None => named(names, line),
    }
}

/// A word as it is written, LEAD:CYCLE; none for what is no word.
fn read_word(names: &Option<Vec<Name>>, text: &str) -> Option<(Vec<u8>, Vec<u8>)> {
    let part = |text: &str| -> Option<Vec<u8>> {
        if unblanked(text).is_empty() {
            return Some(Vec::new());
        }
        let letters = text.split(',');
        letters
            .map(|text| read_letter(names, unblanked(text)))
            .collect()
    };
    let (lead, cycle) = text.split_once(':')?;
    Some((part(lead)?, part(cycle)?))
}

fn word_or_fault(names: &Option<Vec<Name>>, text: &str) -> (Vec<u8>, Vec<u8>) {
    read_word(names, text).unwrap_or_else(|| exit(FAULT))
}

fn masks(masks: &[u8], lead: usize) -> String {
    let hex = |part: &[u8]| -> String {
        let part: Vec<_> = part.iter().map(|mask| format!("{mask:02x}")).collect();
        part.join(",")
    };
    format!("{}:{}", hex(&masks[..lead]), hex(&masks[lead..]))
}

type Tables = (Vec<u64>, Vec<u64>);

fn table(file: &[u8], trim: bool) -> Result<Tables, u8> {
    match trim {
        true => build_trimmed(file, MACROSTATES, TRANSITIONS),
        false => build(file, MACROSTATES, TRANSITIONS),
    }
}

fn bytes(numbers: &[u64]) -> Vec<u8> {
    numbers.iter().flat_map(|n| n.to_le_bytes()).collect()
}

fn check(printed: &mut Printed, paths: &[String], quiet: bool) -> i32 {
    let mut status = YES;
    for path in paths {
        let given = match contents(path).map(rule_text::given) {
            Ok(Ok(given)) => given,
            Ok(Err(fault)) => {
                status = status.max(text_fault(path, fault));
                continue;
            }
            Err(_) => {
                status = FAULT;
                continue;
            }
        };
        let Named {
            rule,
            preface,
            names,
        } = match read_named(&given.file) {
            Ok(named) => named,
            Err(number) => {
                status = status.max(refused(number));
                continue;
            }
        };
        if quiet {
            continue;
        }
        let states = States(given.states);
        let clauses = rule.entries.iter().flatten().flatten().count();
        let mut line = format!(
            "{}: states {}, letters {}, initial {}, accepting {}, clauses {clauses}, preface {preface}, ",
            shown(path),
            rule.states,
            rule.letters,
            states.state(rule.initial),
            states.set(rule.accepting)
        );
        line += if names.is_some() { "names" } else { "no names" };
        for (letter, name) in names.iter().flatten().enumerate() {
            line += &format!(" {letter}={}", trimmed(name));
        }
        printed.line(&line);
    }
    status
}

/// What `--decoded` prints behind the last word of an `m` line.
fn decoded(rule: &Rule, states: &States, macrostate: &Macrostate) -> String {
    let core = &macrostate.core;
    let open = (0..rule.states).filter(|&q| core.ranks[q] > 0);
    let ranks = open.map(|q| format!("{}={}", states.state(q), core.ranks[q]));
    let or_none = |parts: Vec<String>, between| match parts.is_empty() {
        true => "none".to_string(),
        false => parts.join(between),
    };
    let ranks = or_none(ranks.collect(), ",");
    let number = macrostate.component as usize;
    let component = rule.components()[number].mask();
    let left = (1..=macrostate.classes).map(|rank| {
        let class = (0..rule.states).filter(|&q| core.ranks[q] == rank);
        let class = class.fold(0u8, |mask, q| mask | 1 << q);
        states.set(class & component)
    });
    let left = or_none(left.collect(), "<");
    let (set, component) = (states.set(core.set), states.set(component));
    format!(" set {set} ranks {ranks} component {number} {component} left {left}")
}

fn list(printed: &mut Printed, path: &str, options: &HashMap<String, String>) -> i32 {
    let Given { file, states } = load_rule(printed, path);
    let states = States(states);
    let (codes, transitions) = match table(&file, options.contains_key("trimmed")) {
        Ok(table) => table,
        Err(number) => {
            printed.line(&format!("refused {number}"));
            return REFUSED;
        }
    };
    let named = read_named(&file).unwrap();
    printed.line(&format!("built {} {}", codes.len(), transitions.len()));
    for (letter, name) in named.names.iter().flatten().enumerate() {
        printed.line(&format!("n {letter} {}", String::from_utf8_lossy(name)));
    }
    for q in 0..named.rule.states {
        if states.0.is_some() {
            printed.line(&format!("s {q} {}", states.state(q)));
        }
    }
    for (number, &code) in codes.iter().enumerate() {
        let macrostate = Macrostate::from_code(code);
        let mark = |yes, mark| if yes { mark } else { "-" };
        let initial = mark(macrostate.is_initial(&named.rule), "i");
        let accepting = mark(macrostate.is_accepting(), "a");
        let held = match options.contains_key("decoded") {
            true => decoded(&named.rule, &states, &macrostate),
            false => String::new(),
        };
        printed.line(&format!("m {number} {code} {initial} {accepting}{held}"));
    }
    for t in transitions {
        let (source, letter, target) = (t / 16_777_216, t / 65_536 % 256, t % 65_536);
        printed.line(&format!("t {source} {letter} {target}"));
    }
    YES
}

fn build_command(printed: &mut Printed, path: &str, options: &HashMap<String, String>) -> i32 {
    let file = load_rule(printed, path).file;
    let (codes, transitions) = printed.served(table(&file, options.contains_key("trimmed")));
    let rule = read_named(&file).unwrap().rule;
    let macrostates: Vec<_> = codes.iter().map(|&c| Macrostate::from_code(c)).collect();
    let initial = macrostates.iter().filter(|m| m.is_initial(&rule)).count();
    let accepting = macrostates.iter().filter(|m| m.is_accepting()).count();
    if let Some(path) = options.get("codes") {
        store(printed, path, &bytes(&codes));
    }
    if let Some(path) = options.get("transitions") {
        store(printed, path, &bytes(&transitions));
    }
    printed.line(&format!(
        "macrostates {}, initial {initial}, accepting {accepting}, transitions {}",
        codes.len(),
        transitions.len()
    ));
    YES
}

fn hoa(printed: &mut Printed, path: &str, options: &HashMap<String, String>) -> i32 {
    let file = load_rule(printed, path).file;
    let (codes, transitions) = printed.served(table(&file, options.contains_key("trimmed")));
    let text = printed.served(write_hoa(&file, &codes, &transitions, usize::MAX));
    let out = options.get("out").map_or("-", |path| path);
    store(printed, out, &text);
    YES
}

fn read_hoa_command(printed: &mut Printed, path: &str) -> i32 {
    let carried = printed.served(read_hoa(&load(path), usize::MAX, usize::MAX));
    let (flags, transitions) = (carried.flags, carried.transitions);
    printed.line(&format!("read {} {}", flags.len(), transitions.len()));
    for (number, flags) in flags.iter().enumerate() {
        let initial = if flags & INITIAL != 0 { "i" } else { "-" };
        let accepting = if flags & ACCEPTING != 0 { "a" } else { "-" };
        printed.line(&format!("m {number} {initial} {accepting}"));
    }
    for t in transitions {
        let (source, letter, target) = (t / 16_777_216, t / 65_536 % 256, t % 65_536);
        printed.line(&format!("t {source} {letter} {target}"));
    }
    YES
}

fn judge_one(
    printed: &mut Printed,
    file: &[u8],
    states: &States,
    named: &Named,
    text: &str,
    options: &HashMap<String, String>,
) -> i32 {
    let quiet = options.contains_key("quiet");
    let Some((lead, cycle)) = read_word(&named.names, text) else {
        return FAULT;
    };
    let (rule, names) = (&named.rule, &named.names);
    let spelled = word(names, &lead, &cycle);
    if let (Some(codes), Some(transitions)) = (options.get("codes"), options.get("transitions")) {
        let (codes, transitions) = (load(codes), load(transitions));
        let answer = judge_table(file, [&lead, &cycle], [&codes, &transitions], usize::MAX);
        return match answer {
            Ok(found) if quiet => found.map_or(NO, |_| YES),
            Ok(Some(number)) => {
                printed.line(&format!("{spelled} yes from {number}"));
                YES
            }
            Ok(None) => {
                printed.line(&format!("{spelled} no"));
                NO
            }
            Err(number) => refused(number),
        };
    }
    let judged = match judge_choices(file, &lead, &cycle, 64, 512) {
        Ok(judged) => judged,
        Err(number) => return refused(number),
    };
    if quiet {
        return if judged.yes { YES } else { NO };
    }
    let verdict = if judged.yes { "yes" } else { "no" };
    let all = masks(&judged.masks, lead.len());
    printed.line(&format!("{spelled} {verdict} masks {all}"));
    if options.contains_key("choices") {
        for (place, &own) in lead.iter().chain(&cycle).enumerate() {
            let chosen = (0..rule.states).filter_map(|q| {
                let choice = judged.choices[place * rule.states + q];
                let clause = rule.entries[q][own as usize].get(choice as usize);
                let clause = clause.filter(|_| choice != FALSE)?;
                Some(chosen_told(states, q, choice, *clause))
            });
            let chosen: Vec<_> = chosen.collect();
            let chosen = match chosen.is_empty() {
                true => "none".to_string(),
                false => chosen.join(", "),
            };
            let own = letter(names, own);
            printed.line(&format!("  place {place}, letter {own}: {chosen}"));
        }
    }
    if options.contains_key("why") {
        let own = why::Judged {
            rule,
            letters: [&lead[..], &cycle].concat(),
            lead: lead.len(),
            masks: &judged.masks,
        };
        match judged.yes {
            true => why_accepted(printed, states, names, &own, &judged.choices),
            false => why_rejected(printed, states, names, &own),
        }
    }
    if judged.yes {
        YES
    } else {
        NO
    }
}

fn chosen_told(states: &States, q: usize, choice: u8, clause: u8) -> String {
    let (state, clause) = (states.state(q), states.clause(clause));
    format!("state {state} by clause {choice} {clause}")
}

/// "The lines of `--choices`, with those states alone that the choices lead to".
fn why_accepted(
    printed: &mut Printed,
    states: &States,
    names: &Option<Vec<Name>>,
    judged: &why::Judged,
    choices: &[u8],
) {
    let reached = judged.led_to(choices);
    for place in 0..judged.letters.len() {
        let own = reached.iter().filter(|pair| pair.0 == place);
        let chosen = own.map(|&(_, q)| {
            let choice = choices[place * judged.rule.states + q];
            chosen_told(states, q, choice, judged.entry((place, q))[choice as usize])
        });
        let chosen: Vec<_> = chosen.collect();
        if !chosen.is_empty() {
            let own = letter(names, judged.letters[place]);
            printed.line(&format!(
                "  place {place}, letter {own}: {}",
                chosen.join(", ")
            ));
        }
    }
}

fn why_rejected(
    printed: &mut Printed,
    states: &States,
    names: &Option<Vec<Name>>,
    judged: &why::Judged,
) {
    let at = |(place, q): why::Pair| {
        let own = letter(names, judged.letters[place]);
        format!("  place {place}, letter {own}: state {}", states.state(q))
    };
    let way = judged.way();
    for (pair, by) in &way.steps {
        let clauses = judged.entry(*pair).iter().zip(by).enumerate();
        let clauses = clauses.map(|(n, (&clause, &by))| {
            let (clause, by) = (states.clause(clause), states.state(by));
            format!(" clause {n} {clause} fails by state {by}")
        });
        let clauses: Vec<_> = clauses.collect();
        printed.line(&format!("{}:{}", at(*pair), clauses.join(",")));
    }
    match way.end {
        End::NoClause(pair) => printed.line(&format!("{} has no clause", at(pair))),
        End::Waits(place, own, letters) => {
            let own: Vec<_> = own.into_iter().map(|q| states.state(q)).collect();
            let mut line = match &own[..] {
                [one] => format!("  place {place} again: state {one} waits for ever"),
                all => format!(
                    "  place {place} again: states {} wait for ever",
                    all.join(", ")
                ),
            };
            let letters: Vec<_> = letters.into_iter().map(|l| letter(names, l)).collect();
            line += &match &letters[..] {
                [] => String::new(),
                [one] => format!(": {one} never comes in the cycle"),
                all => format!(": {} never come in the cycle", all.join(", ")),
            };
            printed.line(&line);
        }
    }
}

fn judge(printed: &mut Printed, operands: &[String], options: &HashMap<String, String>) -> i32 {
    let Given { file, states } = load_rule(printed, &operands[0]);
    let states = States(states);
    let named = printed.served(read_named(&file));
    let mut status = YES;
    for text in &operands[1..] {
        let texts = match text.as_str() {
            "-" => text_lines(&load("-")),
            text => vec![Some(text.to_string())],
        };
        // No word is no question.
        if texts.is_empty() {
            return FAULT;
        }
        for text in texts {
            let one = text.map(|text| judge_one(printed, &file, &states, &named, &text, options));
            status = status.max(one.unwrap_or(FAULT));
        }
    }
    status
}

fn sheet(printed: &mut Printed, operands: &[String], lines: bool) -> i32 {
    let file = load_rule(printed, &operands[0]).file;
    let names = printed.served(read_named(&file)).names;
    let mut sheet = load(&operands[1]);
    let mut status = YES;
    if lines {
        let texts = text_lines(&sheet);
        if texts.is_empty() {
            return FAULT;
        }
        sheet.clear();
        // A line that is no word is told, and the rest goes on.
        for text in texts {
            match text.and_then(|text| read_word(&names, &text)) {
                None => status = FAULT,
                Some((lead, cycle)) => {
                    sheet.extend([lead.len() as u8, cycle.len() as u8]);
                    sheet.extend([lead, cycle].concat());
                }
            }
        }
    }
    let answered = match judge_sheet(&file, &sheet, 64, 4_096) {
        Ok(answered) => answered,
        Err(number) => return status.max(refused(number)),
    };
    for (i, entry) in entries(&sheet).iter().enumerate() {
        let (spelled, lead, places) = match *entry {
            Entry::Whole(lead, cycle) => (
                word(&names, lead, cycle),
                lead.len(),
                lead.len() + cycle.len(),
            ),
            _ => ("cut off".to_string(), 0, 0),
        };
        let own = match answered.answers[i] {
            0 | 1 => masks(&answered.masks[64 * i..64 * i + places], lead),
            _ => String::new(),
        };
        let (line, one) = match answered.answers[i] {
            0 => (format!("no masks {own}"), NO),
            1 => (format!("yes masks {own}"), YES),
            number => (format!("refused {number}"), REFUSED),
        };
        printed.line(&format!("{spelled} {line}"));
        status = status.max(one);
    }
    let (words, cycles) = (answered.answers.len(), answered.cycles);
    printed.line(&format!("words {words}, cycles {cycles}"));
    status
}

fn loop_command(printed: &mut Printed, path: &str) -> i32 {
    let Given { file, states } = load_rule(printed, path);
    let names = States(states);
    let Some(states) = printed.served(mixed_loop(&file)) else {
        printed.line("none");
        return YES;
    };
    let accepting = take_apart(&file).unwrap().0.accepting;
    let told = states.iter().map(|&q| match accepting >> q & 1 {
        1 => format!("{} (accepting)", names.state(q)),
        _ => format!("{} (rejecting)", names.state(q)),
    });
    printed.line(&told.collect::<Vec<_>>().join(", "));
    NO
}

fn tidy_command(printed: &mut Printed, path: &str, out: Option<&String>) -> i32 {
    let file = load_rule(printed, path).file;
    let tidied = printed.served(tidy(&file));
    let clauses = |file: &[u8]| take_apart(file).unwrap().0.entries.concat().concat().len();
    let told = format!(
        "{}: {} of {} clauses kept, {} bytes",
        shown(path),
        clauses(&tidied),
        clauses(&file),
        tidied.len()
    );
    give(printed, out, &tidied, &told)
}

/// A text that was printed, and a refusal that is told after it.
fn show(printed: &mut Printed, shown: Result<(Vec<u8>, Option<u8>), u8>) -> i32 {
    let (text, refusal) = printed.served(shown);
    printed.out = text;
    refusal.map_or(YES, refused)
}

fn text_fault(path: &str, Fault { line, refusal }: Fault) -> i32 {
    let at = format!("{}:{line}:", shown(path));
    match refusal {
        Some(number) => {
            eprintln!("{at} refused {number}");
            REFUSED
        }
        None => {
            eprintln!("{at} a fault of the text");
            FAULT
        }
    }
}

/// Bytes to standard output, or to a file with a line that tells of them.
fn give(printed: &mut Printed, out: Option<&String>, bytes: &[u8], told: &str) -> i32 {
    let out = out.map_or("-", |path| path);
    store(printed, out, bytes);
    if out != "-" {
        printed.line(told);
    }
    YES
}

fn write_command(printed: &mut Printed, path: &str, out: Option<&String>) -> i32 {
    let file = match rule_text::write(&load(path)) {
        Ok(file) => file,
        Err(fault) => return text_fault(path, fault),
    };
    let rule = take_apart(&file).unwrap().0;
    let told = format!(
        "{}: states {}, letters {}, clauses {}, {} bytes",
        shown(path),
        rule.states,
        rule.letters,
        rule.entries.concat().concat().len(),
        file.len()
    );
    give(printed, out, &file, &told)
}

fn write_events(printed: &mut Printed, operands: &[String], out: Option<&String>) -> i32 {
    let path = &operands[1];
    let file = load_rule(printed, &operands[0]).file;
    let table = match event_text::write(&file, &load(path)) {
        Ok(table) => table,
        Err(Ok(number)) => return refused(number),
        Err(Err(fault)) => return text_fault(path, fault),
    };
    let (lines, bytes) = (table.len() / LINE, table.len());
    let told = format!("{}: lines {lines}, {bytes} bytes", shown(path));
    give(printed, out, &table, &told)
}

fn same(printed: &mut Printed, same: bool) -> i32 {
    printed.line(if same { "same" } else { "different" });
    if same {
        YES
    } else {
        NO
    }
}

/// The word is the second program's own: the same as the library's only where
/// there is one alone.
fn compared(printed: &Printed, a: &[u8], b: &[u8]) -> Option<String> {
    let rooms = [MACROSTATES, TRANSITIONS, MACROSTATES, TRANSITIONS];
    let compared = printed.served(stricter(a, b, rooms, usize::MAX, usize::MAX));
    let (lead, cycle) = compared.word?;
    let names = printed.served(read_named(a)).names;
    let (lead, cycle) = tidy_word(&lead, &cycle).unwrap_or((lead, cycle));
    Some(word(&names, &lead, &cycle))
}

/// The line that tells how two rules compare, unless with `--quiet`.
fn told(printed: &mut Printed, quiet: bool, line: &str, status: i32) -> i32 {
    if !quiet {
        printed.line(line);
    }
    status
}

fn stricter_command(printed: &mut Printed, operands: &[String], quiet: bool) -> i32 {
    let [a, b] = [0, 1].map(|i| load_rule(printed, &operands[i]).file);
    match compared(printed, &a, &b) {
        None => told(printed, quiet, "stricter", YES),
        Some(word) => told(printed, quiet, &format!("not stricter: {word}"), NO),
    }
}

/// "two comparisons as `stricter` makes them: A with B, and if that says yes, B
/// with A"
fn equal(printed: &mut Printed, operands: &[String], quiet: bool) -> i32 {
    let files = [0, 1].map(|i| load_rule(printed, &operands[i]).file);
    for (x, y) in [(0, 1), (1, 0)] {
        if let Some(word) = compared(printed, &files[x], &files[y]) {
            let [x, y] = [x, y].map(|i| shown(&operands[i]));
            let line = format!("not equal: {word} accepted by {x}, rejected by {y}");
            return told(printed, quiet, &line, NO);
        }
    }
    told(printed, quiet, "equal", YES)
}

/// `and`, `or` and `not`.
fn made(printed: &mut Printed, command: &str, operands: &[String], out: Option<&String>) -> i32 {
    let count = if command == "not" { 1 } else { 2 };
    let mut rules = Vec::new();
    for path in &operands[..count] {
        let given = load_rule(printed, path);
        let named = printed.served(read_named(&given.file));
        rules.push((named, given.states.unwrap_or(rule_text::numbered())));
    }
    let first = &rules[0];
    let second = rules.get(1).unwrap_or(first);
    if first.0.rule.letters != second.0.rule.letters {
        return refused(28);
    }
    if let (Some(a), Some(b)) = (&first.0.names, &second.0.names) {
        if a != b {
            return REFUSED;
        }
    }
    let own = [&first.0.rule, &second.0.rule];
    let states = [&first.1[..own[0].states], &second.1[..own[1].states]];
    let made = match command {
        "and" => combine::and(own, states),
        "or" => combine::or(own, states),
        _ => combine::not(own[0], states[0]),
    };
    let names = first.0.names.clone().or(second.0.names.clone());
    let (file, states) = printed.served(made.file(&names));
    let rule = take_apart(&file).unwrap().0;
    match out {
        None => {
            let (text, _) = rule_text::show_named(&file, &states).unwrap();
            printed.out = text;
            YES
        }
        Some(path) => {
            let told = format!(
                "{path}: states {}, letters {}, clauses {}, {} bytes",
                rule.states,
                rule.letters,
                rule.entries.concat().concat().len(),
                file.len()
            );
            give(printed, out, &file, &told)
        }
    }
}

fn translate_command(
    printed: &mut Printed,
    operands: &[String],
    options: &HashMap<String, String>,
) -> i32 {
    let file = load_rule(printed, &operands[0]).file;
    let names = printed.served(read_named(&file)).names;
    let events = match load_events(&file, &operands[1]) {
        Ok(events) => events,
        Err(status) => return status,
    };
    let log = load(&operands[2]);
    let own = printed.served(translate(&file, &events, &log, usize::MAX));
    match options.get("cycle") {
        None => printed.line(&letters(&names, &own)),
        // "a cycle of 1 to 32", of the letters that there are
        Some(cycle) => {
            let cycle = cycle.parse().ok().filter(|&cycle: &usize| cycle > 0);
            match cycle.and_then(|cycle| own.len().checked_sub(cycle)) {
                Some(lead) => printed.line(&word(&names, &own[..lead], &own[lead..])),
                None => return FAULT,
            }
        }
    }
    YES
}

/// A log followed: the letters that are held, or, from the 513th letter on, the
/// set alone.
struct Followed<'a> {
    lent: Lent<'a>,
    log: Log,
    set: Vec<u8>,
    letters: usize,
}

impl Followed<'_> {
    /// "The next letter goes on from the set as it stands".
    fn arrive(&mut self, letter: u8) -> Result<(), u8> {
        self.set = if self.letters < LETTERS {
            self.log.arrive(&self.lent, letter)?
        } else {
            follow_on(&self.lent, &[letter], &self.set)?.set
        };
        self.letters += 1;
        Ok(())
    }

    /// A call that is no event; none if the line is not one.
    fn call(&mut self, line: &str) -> Option<Result<(), i32>> {
        let mark = |word| line.strip_prefix(word).and_then(number);
        let (marked, back) = (mark("mark "), mark("return "));
        if line == "start" {
            let started = Log::start(&self.lent);
            return Some(started.map_err(refused).map(|(log, set)| {
                (self.log, self.set, self.letters) = (log, set, 0);
            }));
        }
        if line != "withdraw" && marked.is_none() && back.is_none() {
            return None;
        }
        // "until the next `start` .. counts as refused"
        if self.letters > LETTERS {
            return Some(Err(REFUSED));
        }
        let answer = match (marked, back) {
            (Some(number), _) => self.log.mark(&self.lent, number),
            (_, Some(number)) => self.log.back(&self.lent, number),
            _ => self.log.withdraw(&self.lent),
        };
        Some(answer.map_err(refused).map(|set| {
            self.set = set;
            self.letters = self.log.letters().len();
        }))
    }
}

fn refused(number: u8) -> i32 {
    eprintln!("refused {number}");
    REFUSED
}

fn follow(printed: &mut Printed, operands: &[String], options: &HashMap<String, String>) -> i32 {
    let file = load_rule(printed, &operands[0]).file;
    let names = printed.served(read_named(&file)).names;
    let (codes, transitions) = printed.served(table(&file, true));
    let lent = Lent {
        file: &file,
        codes: &codes,
        transitions: &transitions,
        room: codes.len(),
    };
    let (log, set) = printed.served(Log::start(&lent));
    let mut followed = Followed {
        lent,
        log,
        set,
        letters: 0,
    };
    let quiet = options.contains_key("quiet");
    let (mut status, mut left, mut broken) = (YES, 0, false);
    let none = |left| match left {
        0 => ", no continuation is accepted",
        _ => "",
    };
    let mut tell = |what: &str, followed: &Followed, answer: Result<(), i32>| match answer {
        Err(fault) => status = status.max(fault),
        Ok(()) => {
            left = followed.set.iter().filter(|&&byte| byte == 1).count();
            if !quiet {
                let (letters, none) = (followed.letters, none(left));
                printed.line(&format!(
                    "{what}: letters {letters}, macrostates {left}{none}"
                ));
            }
            if left == 0 && !broken {
                printed.line(&format!("{what}: the rule is broken, whatever comes"));
            }
            broken = left == 0;
        }
    };
    tell("start", &followed, Ok(()));
    let events = match options.get("events").map(|path| load_events(&file, path)) {
        Some(Err(status)) => return status,
        Some(Ok(events)) => Some(events),
        None => None,
    };
    let source = load(operands.get(1).map_or("-", |path| path));
    let mut number = 0;
    if let Some(events) = events {
        if let Err(number) = translate(&file, &events, &[], 0) {
            return refused(number);
        }
        for event in source.chunks_exact(2) {
            number += 1;
            let what = format!("event {number}, {:02x} {:02x}", event[0], event[1]);
            let letter = translate(&file, &events, event, 1);
            let answer = letter.and_then(|letter| followed.arrive(letter[0]));
            tell(&what, &followed, answer.map_err(refused));
        }
    } else {
        // "If the first line of a log has a fault of a line, or a byte below 20
        // other than 09, or 7F in it, the log is no text"
        let control = |&byte: &u8| byte < 0x20 && byte != 9 || byte == 0x7f;
        let first = lines(&source).into_iter().next();
        if first.is_some_and(|(_, line)| !is_whole(line) || line.iter().any(control)) {
            return FAULT;
        }
        for line in text_lines(&source) {
            let Some(line) = line else {
                tell("", &followed, Err(FAULT));
                continue;
            };
            if let Some(answer) = followed.call(&line) {
                tell(&line, &followed, answer);
                continue;
            }
            let Some(letter) = line_letter(&names, &line) else {
                tell(&line, &followed, Err(FAULT));
                continue;
            };
            number += 1;
            let answer = followed.arrive(letter).map_err(refused);
            tell(&format!("event {number}, {line}"), &followed, answer);
        }
    }
    if quiet {
        let (letters, none) = (followed.letters, none(left));
        printed.line(&format!(
            "end: events {number}, letters {letters}, macrostates {left}{none}"
        ));
    }
    match (status, left) {
        (YES, 0) => NO,
        (status, _) => status,
    }
}

fn main() {
    let mut arguments = env::args().skip(1);
    let command = arguments.next().unwrap_or_else(|| exit(FAULT));
    let mut operands = Vec::new();
    let mut options = HashMap::new();
    for argument in arguments {
        match argument.strip_prefix("--") {
            None => operands.push(argument),
            Some(option) => {
                let (name, value) = option.split_once('=').unwrap_or((option, ""));
                options.insert(name.to_string(), value.to_string());
            }
        }
    }
    let least = match command.as_str() {
        "translate" => 3,
        "and" | "or" | "equal" => 2,
        "judge" | "sheet" | "same" | "stricter" | "same-word" | "show-events" | "write-events" => 2,
        _ => 1,
    };
    if operands.len() < least {
        exit(FAULT);
    }
    let printed = &mut Printed { out: Vec::new() };
    let quiet = options.contains_key("quiet");
    let named = |printed: &Printed| {
        let file = options
            .get("rule")
            .map(|path| load_rule(printed, path).file);
        file.and_then(|file| printed.served(read_named(&file)).names)
    };
    let status = match command.as_str() {
        "check" => check(printed, &operands, quiet),
        "list" => list(printed, &operands[0], &options),
        "hoa" => hoa(printed, &operands[0], &options),
        "read-hoa" => read_hoa_command(printed, &operands[0]),
        "judge" => judge(printed, &operands, &options),
        "build" => build_command(printed, &operands[0], &options),
        "sheet" => sheet(printed, &operands, options.contains_key("lines")),
        "tidy" => tidy_command(printed, &operands[0], options.get("out")),
        "loop" => loop_command(printed, &operands[0]),
        "same" => {
            let [a, b] = [0, 1].map(|i| load_rule(printed, &operands[i]).file);
            let answer = printed.served(same_rules(&a, &b));
            same(printed, answer)
        }
        "and" | "or" | "not" => made(printed, &command, &operands, options.get("out")),
        "equal" => equal(printed, &operands, quiet),
        "stricter" => stricter_command(printed, &operands, quiet),
        "same-word" => {
            let names = named(printed);
            let [a, b] = [0, 1].map(|i| word_or_fault(&names, &operands[i]));
            let answer = printed.served(same_words([&a.0, &a.1], [&b.0, &b.1]));
            same(printed, answer)
        }
        "tidy-word" => {
            let names = named(printed);
            let (lead, cycle) = word_or_fault(&names, &operands[0]);
            let (lead, cycle) = printed.served(tidy_word(&lead, &cycle));
            printed.line(&word(&names, &lead, &cycle));
            YES
        }
        "show" => {
            let given = load_rule(printed, &operands[0]);
            let states = given.states.unwrap_or(rule_text::numbered());
            show(printed, rule_text::show_named(&given.file, &states))
        }
        "write" => write_command(printed, &operands[0], options.get("out")),
        "show-events" => {
            let file = load_rule(printed, &operands[0]).file;
            match load_events(&file, &operands[1]) {
                Ok(table) => show(printed, event_text::show(&file, &table)),
                Err(status) => status,
            }
        }
        "write-events" => write_events(printed, &operands, options.get("out")),
        "translate" => translate_command(printed, &operands, &options),
        "follow" => follow(printed, &operands, &options),
        _ => FAULT,
    };
    printed.end(status)
}
