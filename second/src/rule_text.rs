//! Rules as text, both ways: docs/FORMAT.md, "A rule as text".

use crate::lines::{last, lines, spelled, words, Word};
use crate::mixed::shortest_mixed_loop;
use crate::names::{Name, LENGTH, MARK};
use crate::rule::{read, take_apart, write_named, Rule, TAG};

/// Why a text makes no file: at which line, and whether the text is at fault or
/// the library refuses, with its number.
#[derive(Clone, Copy, Debug, PartialEq, Eq)]
pub struct Fault {
    pub line: usize,
    pub refusal: Option<u8>,
}

/// A fault of the text at a line.
pub fn fault<T>(line: usize) -> Result<T, Fault> {
    let refusal = None;
    Err(Fault { line, refusal })
}

/// A refusal of the library, told with a line.
fn refused<T>(line: usize, number: u8) -> Result<T, Fault> {
    let refusal = Some(number);
    Err(Fault { line, refusal })
}

/// A letter as a text gives it.
pub enum Letter<'a> {
    Number(u32),
    Name(&'a [u8]),
}

/// "a letter's name is .. at most 8 bytes, blanks added at its end up to 8"
fn padded(name: &[u8]) -> Option<Name> {
    let mut padded = [b' '; LENGTH];
    padded.get_mut(..name.len())?.copy_from_slice(name);
    Some(padded)
}

/// A letter of a rule with these names: its number, though it may be none of the
/// rule's; none for a name that no letter has.
pub fn letter_of(names: Option<&[Name]>, letter: &Letter) -> Option<u32> {
    match letter {
        Letter::Number(number) => Some(*number),
        Letter::Name(name) => {
            let name = padded(name)?;
            let place = names?.iter().position(|own| *own == name)?;
            Some(place as u32)
        }
    }
}

/// A word that gives a letter.
pub fn letter(word: &Word) -> Option<Letter<'_>> {
    match word.number() {
        Some(number) => Some(Letter::Number(number)),
        None => word.name().map(Letter::Name),
    }
}

/// A clause: names of states.
type Clause = Vec<Vec<u8>>;

/// A line of entries under a state.
struct Entries {
    line: usize,
    /// None for `*`.
    letters: Option<Vec<usize>>,
    clauses: Vec<Clause>,
}

/// A state with what stands under it.
struct State {
    line: usize,
    name: Vec<u8>,
    accepting: bool,
    entries: Vec<Entries>,
}

/// What has been read of a text.
#[derive(Default)]
struct Text {
    /// The number of letters and their names.
    letters: Option<(usize, Option<Vec<Name>>)>,
    states: Vec<State>,
    initial: Option<(usize, Vec<u8>)>,
    /// Whether an entry's line would stand under the last state: no `initial`
    /// line came after it.
    under: bool,
}

impl Text {
    fn line(&mut self, number: usize, words: &[Word]) -> Result<(), Fault> {
        let Some(first) = words.first() else {
            return Ok(());
        };
        // "`letters` is the first line with words and stands once"
        if first.is_keyword("letters") == self.letters.is_some() {
            return fault(number);
        }
        if first.is_keyword("letters") {
            self.letters_line(number, &words[1..])
        } else if first.is_keyword("state") {
            self.state_line(number, &words[1..])
        } else if first.is_keyword("initial") {
            self.initial_line(number, &words[1..])
        } else {
            self.entries_line(number, words)
        }
    }

    fn letters_line(&mut self, line: usize, words: &[Word]) -> Result<(), Fault> {
        let (count, names) = match words {
            [one] if one.number().is_some() => (one.number().unwrap(), None),
            _ => {
                let names: Option<Vec<&[u8]>> = words.iter().map(Word::name).collect();
                let Some(names) = names else {
                    return fault(line);
                };
                let names: Option<Vec<Name>> = names.into_iter().map(padded).collect();
                let Some(names) = names else {
                    return fault(line);
                };
                (names.len() as u32, Some(names))
            }
        };
        // "Then the library is asked about a rule of these letters and names,
        // with one state and no clause"
        let counts = vec![0; count.min(256) as usize];
        let bytes = names.clone().unwrap_or_default().concat();
        match write_named([1, count, 0, 0], &counts, &[], &bytes, usize::MAX) {
            Ok(_) => self.letters = Some((count as usize, names)),
            Err(number) => return refused(line, number),
        }
        Ok(())
    }

    fn state_line(&mut self, line: usize, words: &[Word]) -> Result<(), Fault> {
        let [name, kind] = words else {
            return fault(line);
        };
        let accepting = kind.is_keyword("accepting");
        let Some(name) = name
            .plain()
            .filter(|_| accepting || kind.is_keyword("rejecting"))
        else {
            return fault(line);
        };
        if self.states.iter().any(|state| state.name == name) {
            return fault(line);
        }
        self.states.push(State {
            line,
            name: name.to_vec(),
            accepting,
            entries: Vec::new(),
        });
        self.under = true;
        // "the library is asked about a rule of so many states, with one letter
        // and no clause"
        let count = self.states.len();
        match write_named(
            [count as u32, 1, 0, 0],
            &vec![0; count],
            &[],
            &[],
            usize::MAX,
        ) {
            Ok(_) => Ok(()),
            Err(number) => refused(line, number),
        }
    }

    fn initial_line(&mut self, line: usize, words: &[Word]) -> Result<(), Fault> {
        let name = match words {
            [name] => name.plain(),
            _ => None,
        };
        let (Some(name), None) = (name, &self.initial) else {
            return fault(line);
        };
        self.initial = Some((line, name.to_vec()));
        self.under = false;
        Ok(())
    }

    fn entries_line(&mut self, line: usize, words: &[Word]) -> Result<(), Fault> {
        let colon = words.iter().position(|word| word.is_sign(b':'));
        let (Some(colon), true) = (colon, self.under) else {
            return fault(line);
        };
        let (own, clauses) = (&words[..colon], &words[colon + 1..]);
        let shaped = |word: &Word| word.is_sign(b'*') || letter(word).is_some();
        if own.is_empty() || !own.iter().all(shaped) {
            return fault(line);
        }
        let Some(clauses) = clauses_of(clauses) else {
            return fault(line);
        };
        let Some(letters) = self.letters_of(own) else {
            return fault(line);
        };
        // "in its clauses a state twice in a clause"
        for clause in &clauses {
            if (1..clause.len()).any(|place| clause[..place].contains(&clause[place])) {
                return fault(line);
            }
        }
        let state = self.states.last_mut().unwrap();
        state.entries.push(Entries {
            line,
            letters,
            clauses,
        });
        Ok(())
    }

    /// The letters before a `:` under the last state, or `*`; none for a letter
    /// "that the rule does not have, or that has a line already; `*` beside other
    /// letters or a second time".
    fn letters_of(&self, own: &[Word]) -> Option<Option<Vec<usize>>> {
        let (count, names) = self.letters.as_ref()?;
        let lines = &self.states.last()?.entries;
        if own.iter().any(|word| word.is_sign(b'*')) {
            let alone = own.len() == 1 && lines.iter().all(|line| line.letters.is_some());
            return alone.then_some(None);
        }
        let taken = |number: &usize| {
            let mut letters = lines.iter().flat_map(|line| line.letters.iter().flatten());
            letters.any(|taken| taken == number)
        };
        let mut letters = Vec::new();
        for word in own {
            let number = letter_of(names.as_deref(), &letter(word)?)? as usize;
            if number >= *count || taken(&number) || letters.contains(&number) {
                return None;
            }
            letters.push(number);
        }
        Some(Some(letters))
    }

    /// The rule, once all lines are read, and for each entry, by state, then
    /// letter, its line.
    fn rule(&self, end: usize) -> Result<(Rule, Vec<usize>), Fault> {
        let Some((letters, _)) = &self.letters else {
            return fault(end);
        };
        if self.states.is_empty() {
            return refused(end, 3);
        }
        let number = |name: &Vec<u8>| self.states.iter().position(|state| state.name == *name);
        // "the names of states in clauses and in `initial` that no line gives, at
        // the first line with one"
        let mut used: Vec<(usize, &Vec<u8>)> = Vec::new();
        for entries in self.states.iter().flat_map(|state| &state.entries) {
            used.extend(
                entries
                    .clauses
                    .iter()
                    .flatten()
                    .map(|name| (entries.line, name)),
            );
        }
        used.extend(self.initial.iter().map(|(line, name)| (*line, name)));
        let unknown = used.iter().filter(|(_, name)| number(name).is_none());
        if let Some(line) = unknown.map(|(line, _)| *line).min() {
            return fault(line);
        }
        let Some((_, initial)) = &self.initial else {
            return fault(end);
        };
        let mut rule = Rule {
            states: self.states.len(),
            letters: *letters,
            initial: number(initial).unwrap(),
            accepting: 0,
            entries: Vec::new(),
        };
        let mut of_entries = Vec::new();
        for (q, state) in self.states.iter().enumerate() {
            rule.accepting |= u8::from(state.accepting) << q;
            let rest = state
                .entries
                .iter()
                .find(|entries| entries.letters.is_none());
            let mut rest_used = false;
            let mut row = Vec::new();
            for letter in 0..*letters {
                let own = |entries: &&Entries| {
                    entries
                        .letters
                        .as_ref()
                        .is_some_and(|own| own.contains(&letter))
                };
                let own = state.entries.iter().find(own);
                rest_used |= own.is_none();
                let Some(entries) = own.or(rest) else {
                    return fault(state.line);
                };
                let mask = |clause: &Clause| {
                    let states = clause.iter().map(|name| number(name).unwrap());
                    states.fold(0, |mask, q| mask | 1u8 << q)
                };
                row.push(entries.clauses.iter().map(mask).collect());
                of_entries.push(entries.line);
            }
            if let (Some(rest), false) = (rest, rest_used) {
                return fault(rest.line);
            }
            rule.entries.push(row);
        }
        Ok((rule, of_entries))
    }
}

/// "CLAUSES is `false` (no clause), or clauses with `|` between them; a clause is
/// `true` (no state in it), or names of states with `&` between them".
fn clauses_of(words: &[Word]) -> Option<Vec<Clause>> {
    if let [one] = words {
        if one.is_keyword("false") {
            return Some(Vec::new());
        }
    }
    let clause = |words: &[Word]| -> Option<Clause> {
        if let [one] = words {
            if one.is_keyword("true") {
                return Some(Vec::new());
            }
        }
        let states = words.split(|word| word.is_sign(b'&'));
        states
            .map(|state| match state {
                [one] => one.plain().map(<[u8]>::to_vec),
                _ => None,
            })
            .collect()
    };
    words.split(|word| word.is_sign(b'|')).map(clause).collect()
}

/// A text that was read to its end.
struct Whole {
    text: Text,
    rule: Rule,
    /// For each entry, by state, then letter, its line.
    of_entries: Vec<usize>,
    last: usize,
}

fn whole(bytes: &[u8]) -> Result<Whole, Fault> {
    let mut text = Text::default();
    for (number, line) in lines(bytes) {
        let Some(words) = words(line) else {
            return fault(number);
        };
        text.line(number, &words)?;
    }
    let last = last(bytes);
    let (rule, of_entries) = text.rule(last)?;
    Ok(Whole {
        text,
        rule,
        of_entries,
        last,
    })
}

impl Whole {
    fn counts(&self) -> Vec<u8> {
        let entries = self.rule.entries.iter().flatten();
        entries.map(|own| own.len().min(255) as u8).collect()
    }

    fn clauses(&self) -> Vec<u8> {
        self.rule
            .entries
            .iter()
            .flatten()
            .flatten()
            .copied()
            .collect()
    }

    fn names(&self) -> Vec<u8> {
        let names = self
            .text
            .letters
            .as_ref()
            .and_then(|(_, names)| names.clone());
        names.unwrap_or_default().concat()
    }

    fn written(&self) -> Result<Vec<u8>, u8> {
        let rule = &self.rule;
        let numbers = [
            rule.states,
            rule.letters,
            rule.initial,
            rule.accepting.into(),
        ];
        let numbers = numbers.map(|number| number as u32);
        write_named(
            numbers,
            &self.counts(),
            &self.clauses(),
            &self.names(),
            usize::MAX,
        )
    }

    /// "8 and 20 are told at the line of the first entry that has it, 11 at the
    /// line of the first state of the shortest mixed loop"
    fn refused(&self, number: u8) -> Fault {
        let has = |clauses: &Vec<u8>| match number {
            8 => clauses.len() > 8,
            _ => Rule {
                entries: vec![vec![clauses.to_vec()]],
                ..self.rule.clone()
            }
            .nested(),
        };
        let line = match number {
            11 => shortest_mixed_loop(&self.rule).map(|walk| self.text.states[walk[0]].line),
            _ => {
                let entry = self.rule.entries.iter().flatten().position(has);
                entry.map(|entry| self.of_entries[entry])
            }
        };
        Fault {
            line: line.unwrap_or(self.last),
            refusal: Some(number),
        }
    }
}

/// The file of a text, as the writer makes it.
pub fn write(text: &[u8]) -> Result<Vec<u8>, Fault> {
    let whole = whole(text)?;
    whole.written().map_err(|number| whole.refused(number))
}

/// A rule as it was given: its file, and the names of its states where it was a
/// text.
pub struct Given {
    pub file: Vec<u8>,
    pub states: Option<Vec<Vec<u8>>>,
}

/// "What is read is a text if it does not end with the tag 41 57 and its first
/// word is `letters`".
fn is_text(bytes: &[u8]) -> bool {
    if bytes.ends_with(&TAG) {
        return false;
    }
    let mut rest = bytes.strip_prefix(b"\xef\xbb\xbf").unwrap_or(bytes);
    while let [first, after @ ..] = rest {
        match first {
            b' ' | b'\t' | b'\r' | b'\n' => rest = after,
            b'#' => {
                let end = rest.iter().position(|&byte| byte == b'\n');
                rest = &rest[end.unwrap_or(rest.len())..];
            }
            _ => break,
        }
    }
    let ends = |byte: &u8| b"\r\n\0 \t\"#,:&|*".contains(byte);
    let behind = rest.strip_prefix(b"letters");
    behind.is_some_and(|behind| behind.first().is_none_or(ends))
}

/// "Then all is as if the command had the rule's file, laid out as the writer
/// does it, also of a rule that 20 or 11 refuses".
pub fn given(bytes: Vec<u8>) -> Result<Given, Fault> {
    if !is_text(&bytes) {
        let (file, states) = (bytes, None);
        return Ok(Given { file, states });
    }
    let whole = whole(&bytes)?;
    let file = match whole.written() {
        Ok(file) => file,
        Err(8) => return Err(whole.refused(8)),
        Err(_) => {
            let (rule, names, clauses) = (&whole.rule, whole.names(), whole.clauses());
            let mark = if names.is_empty() { &[][..] } else { &MARK };
            let [low, high, ..] = clauses.len().to_le_bytes();
            let numbers = [rule.states, rule.letters, rule.initial].map(|number| number as u8);
            let trailer = [&numbers[..], &[rule.accepting, low, high], &TAG].concat();
            [&names, mark, &clauses, &whole.counts(), &trailer].concat()
        }
    };
    let states = whole.text.states.iter().map(|state| state.name.clone());
    Ok(Given {
        file,
        states: Some(states.collect()),
    })
}

/// The text of a file, with a refusal of the file that is told after it; or a
/// refusal alone. "A file that is refused by 20, 11, 21, 22 or 23 has its layout
/// right .., so it is printed as well".
pub fn show(file: &[u8]) -> Result<(Vec<u8>, Option<u8>), u8> {
    show_named(file, &numbered())
}

/// The names of states that have none: s0, s1, ..
pub fn numbered() -> Vec<Vec<u8>> {
    (0..8).map(|q| format!("s{q}").into_bytes()).collect()
}

/// As `show`, with these names of states.
pub fn show_named(file: &[u8], states: &[Vec<u8>]) -> Result<(Vec<u8>, Option<u8>), u8> {
    let (rule, preface) = take_apart(file)?;
    let refusal = read(file).err();
    // "Names are printed if 4E 4D stands right before the clauses and 8 × s bytes
    // fit before it."
    let length = LENGTH * rule.letters;
    let before = preface.strip_suffix(&MARK);
    let before = before.filter(|before| before.len() >= length);
    let (left, names) = match before {
        Some(before) => before.split_at(before.len() - length),
        None => (preface, &[][..]),
    };
    let names: Vec<Vec<u8>> = names.chunks(LENGTH).map(spelled).collect();
    let mut text: Vec<Vec<u8>> = Vec::new();
    if !left.is_empty() {
        let count = left.len();
        text.push(format!("# preface bytes that are not names, left out here: {count}").into());
    }
    let letter = |letter: usize| match names.get(letter) {
        Some(name) => name.clone(),
        None => letter.to_string().into_bytes(),
    };
    let own = match names.is_empty() {
        true => vec![rule.letters.to_string().into_bytes()],
        false => names.clone(),
    };
    text.push([b"letters ".to_vec(), own.join(&b' ')].concat());
    for (q, row) in rule.entries.iter().enumerate() {
        let kind = match rule.accepting >> q & 1 {
            1 => "accepting",
            _ => "rejecting",
        };
        text.push([b"state ", &states[q][..], b" ", kind.as_bytes()].concat());
        for (first, clauses) in row.iter().enumerate() {
            if row[..first].contains(clauses) {
                continue;
            }
            let same: Vec<usize> = (0..row.len())
                .filter(|&other| row[other] == *clauses)
                .collect();
            let own = match same.len() {
                all if all == row.len() && all > 1 => b"*".to_vec(),
                _ => same.into_iter().map(letter).collect::<Vec<_>>().join(&b' '),
            };
            text.push(
                [
                    b"    ".to_vec(),
                    own,
                    b": ".to_vec(),
                    clauses_told(clauses, states),
                ]
                .concat(),
            );
        }
    }
    text.push([b"initial ", &states[rule.initial][..]].concat());
    text.push(Vec::new());
    Ok((text.join(&b'\n'), refusal))
}

/// "Clauses are printed in the order of the file, the states of a clause by rising
/// number, `true` for an empty clause, `false` for no clause."
fn clauses_told(clauses: &[u8], states: &[Vec<u8>]) -> Vec<u8> {
    let told: Vec<Vec<u8>> = clauses
        .iter()
        .map(|&one| clause_told(one, states))
        .collect();
    match told.is_empty() {
        true => b"false".to_vec(),
        false => told.join(&b" | "[..]),
    }
}

/// A clause by the names of its states.
pub fn clause_told(clause: u8, states: &[Vec<u8>]) -> Vec<u8> {
    let own = (0..8).filter(|q| clause >> q & 1 == 1);
    let own: Vec<Vec<u8>> = own.map(|q| states[q].clone()).collect();
    match own.is_empty() {
        true => b"true".to_vec(),
        false => own.join(&b" & "[..]),
    }
}

#[cfg(test)]
mod tests {
    use super::*;
    use crate::sample::{self, Random, F, I, MISNAMED, NESTED, REFUSED, SHAPES};

    const TEXT: &str = "# some time GO
letters WAIT GO
state seek rejecting
    WAIT: seek
    GO: true
initial seek
";

    fn named(name: &[u8], file: &[u8]) -> Vec<u8> {
        [name, b"NM", file].concat()
    }

    #[test]
    fn examples() {
        assert_eq!(write(TEXT.as_bytes()), Ok(named(b"WAIT    GO      ", &F)));
        let told = |file: &[u8]| {
            let (text, refusal) = show(file).unwrap();
            (String::from_utf8(text).unwrap(), refusal)
        };
        let text = "letters 2\nstate s0 rejecting\n    0: s0\n    1: true\ninitial s0\n";
        assert_eq!(told(&F), (text.to_string(), None));
        assert_eq!(write(text.as_bytes()), Ok(F.to_vec()));
        let text = "letters 2\nstate s0 accepting\n    0: s0 & s1\n    1: s0\n\
                    state s1 rejecting\n    0: s1\n    1: true\ninitial s0\n";
        assert_eq!(told(&I), (text.to_string(), None));
        assert_eq!(write(text.as_bytes()), Ok(I.to_vec()));
        let (text, _) = told(&[b"\x00\x01", &named(b"WAIT    a b     ", &F)[..]].concat());
        let first = "# preface bytes that are not names, left out here: 2\nletters WAIT \"a b\"\n";
        assert!(text.starts_with(first), "{text}");
        // Refused files whose layout is right are printed, the others not.
        for (number, file) in REFUSED.into_iter().chain(MISNAMED) {
            match number {
                1..=10 => assert_eq!(show(file), Err(number)),
                _ => assert_eq!(told(file).1, Some(number)),
            }
        }
        let nested = "letters 1\nstate s0 accepting\n    0: s1 | s0 & s1\nstate s1 rejecting\n    0: s0\ninitial s0\n";
        assert_eq!(told(NESTED[0]), (nested.to_string(), Some(20)));
        let one = "letters 2\nstate s0 rejecting\n    *: false\ninitial s0\n";
        let written = write(one.as_bytes()).unwrap();
        assert_eq!(told(&written).0, one);
    }

    /// A text has its fault at this line; a refusal, or 0 for none.
    fn faulty(text: &str, line: usize, number: u8) {
        let refusal = (number > 0).then_some(number);
        let fault = Fault { line, refusal };
        assert_eq!(write(text.as_bytes()), Err(fault), "{text}");
    }

    #[test]
    fn faults_of_lines() {
        for (text, line, number) in [
            ("", 1, 0),
            ("\n# nothing\n\n", 3, 0),
            ("letters A B", 1, 3),
            ("letters A B\n\n", 2, 3),
            ("letters A B\ninitial s\n", 2, 3),
            ("letters", 1, 4),
            ("letters 0", 1, 4),
            ("letters 17", 1, 4),
            ("letters 99999999999999999999", 1, 4),
            ("letters a b c d e f g h i j k l m n o p \"\\x01\"", 1, 4),
            ("letters \"\\x01\" \"\\x01\"", 1, 22),
            ("letters A \"A \"", 1, 23),
            ("letters A 2", 1, 0),
            ("letters 2 2", 1, 0),
            ("letters A : B", 1, 0),
            ("letters A state", 1, 0),
            ("letters ABCDEFGHI", 1, 0),
            ("letters A\nletters A\n", 2, 0),
            ("state s rejecting\nletters A\n", 1, 0),
            ("letters A\nstate s\n", 2, 0),
            ("letters A\nstate \"s\" rejecting\n", 2, 0),
            ("letters A\nstate 5 rejecting\n", 2, 0),
            ("letters A\nstate s rejecting x\n", 2, 0),
            ("letters A\nstate true rejecting\n", 2, 0),
            ("letters A\nA: s\nstate s rejecting\n", 2, 0),
            ("letters A\ninitial s\nA: s\nstate s rejecting\n", 3, 0),
            ("letters A\nstate s rejecting\ninitial s\nA: s\n", 4, 0),
            (
                "letters A\nstate s rejecting\nA: s\ninitial s\ninitial s\n",
                5,
                0,
            ),
            ("letters A\nstate s rejecting\nA: s\ninitial \"s\"\n", 4, 0),
            (
                "letters A\nstate s rejecting\nA: s\nstate s rejecting\n",
                4,
                0,
            ),
        ] {
            faulty(text, line, number);
        }
    }

    #[test]
    fn faults_of_entries() {
        let head = "letters A B\nstate s rejecting\n";
        assert!(write(format!("{head}*: s\ninitial s\n").as_bytes()).is_ok());
        for (text, line, number) in [
            ("A: s | s\nB: s\ninitial s\n", 3, 20),
            ("A: true\nB: s | true\ninitial s\n", 4, 20),
            ("A: true\nB: s\n", 4, 0),
            ("A: true\nB: t\ninitial u\n", 4, 0),
            ("A: true\nB: s\ninitial u\n", 5, 0),
            ("A: true\ninitial s\n", 2, 0),
            ("A B: true\n*: s\ninitial s\n", 4, 0),
            ("A: true\nA: s\n", 4, 0),
            ("A A: true\n", 3, 0),
            ("*: true\n*: s\n", 4, 0),
            ("A *: true\n", 3, 0),
            ("C: true\n", 3, 0),
            ("2: true\n", 3, 0),
            ("A: s & s\n", 3, 0),
            ("A true\n", 3, 0),
            (": true\n", 3, 0),
            ("A: \n", 3, 0),
            ("A: true & s\n", 3, 0),
            ("A: false | s\n", 3, 0),
            ("A: s |\n", 3, 0),
            ("A: \"s\"\n", 3, 0),
            ("A: s,s\n", 3, 0),
        ] {
            faulty(&format!("{head}{text}"), line, number);
        }
    }

    #[test]
    fn refusals_of_the_rule() {
        // The ninth state; eight clauses and nine; a mixed loop.
        let states: String = (0..9)
            .map(|q| format!("state s{q} rejecting\n*: s{q}\n"))
            .collect();
        let text = format!("letters 1\n{states}initial s0\n");
        faulty(&text, 18, 3);
        let states: String = (0..8)
            .map(|q| format!("state s{q} rejecting\n*: CLAUSES\n"))
            .collect();
        let eight: Vec<String> = (0..8).map(|q| format!("s{q}")).collect();
        let text =
            format!("letters 1\n{states}initial s0\n").replace("CLAUSES", &eight.join(" | "));
        assert!(write(text.as_bytes()).is_ok());
        let text = text.replacen("s7\n", "s7 | s0 & s1\n", 2);
        faulty(&text, 3, 8);
        let text = "letters 1\nstate a accepting\n*: b\nstate b rejecting\n*: c\n\
                    state c accepting\n*: b\ninitial a\n";
        faulty(text, 4, 11);
    }

    /// "What `show` prints of an accepted file, `write` turns into the file that
    /// the writer makes of the same rule, names included".
    #[test]
    fn shown_and_written() {
        let mut random = Random::new(161);
        for _ in 0..5_000 {
            let shape = *random.pick(&SHAPES);
            let (states, letters) = (random.between(1, 8), random.between(1, 16));
            let rule = sample::rule(&mut random, shape, states, letters);
            let mut file = Vec::new();
            if random.once_in(2) {
                file.extend(sample::names(&mut random, letters));
                file.extend(MARK);
            }
            file.extend(sample::file(&rule));
            // A preface that names no letters, but may change what is read.
            let preface = random.below(4);
            let prefaced = [random.bytes(preface), file.clone()].concat();
            if let Ok((text, None)) = show(&prefaced) {
                assert_eq!(write(&text), Ok(file), "{}", text.escape_ascii());
            }
        }
    }
}
