//! A reader of the Hanoi Omega-Automata format, version 1, at large: Büchi
//! automata with acceptance on states and no branching into several states.
//! Headers stand in any order after the first; spaces, comments and label
//! expressions are free. It tells what a tool of another maker would see.

use std::collections::{BTreeMap, BTreeSet};

/// What a text says.
#[derive(Clone, Debug, PartialEq, Eq)]
pub struct Automaton {
    pub states: usize,
    pub starts: BTreeSet<usize>,
    pub propositions: Vec<String>,
    pub accepting: Vec<bool>,
    /// Source, valuation (proposition i has weight 2 to the power i), target.
    pub edges: BTreeSet<(usize, usize, usize)>,
}

#[derive(Clone, Debug, PartialEq, Eq)]
enum Token {
    /// A name with a colon right after it.
    Header(String),
    Identifier(String),
    Alias(String),
    Text(String),
    Number(usize),
    Sign(char),
    Body,
    End,
}

type Fault = String;

fn tokens(text: &str) -> Result<Vec<Token>, Fault> {
    let text: Vec<char> = text.chars().collect();
    let is_name = |c: char| c.is_ascii_alphanumeric() || c == '_' || c == '-';
    let starts_with = |at: usize, what: &str| {
        what.chars()
            .enumerate()
            .all(|(i, c)| text.get(at + i) == Some(&c))
    };
    let mut tokens = Vec::new();
    let mut at = 0;
    while at < text.len() {
        let c = text[at];
        if " \t\r\n".contains(c) {
            at += 1;
        } else if starts_with(at, "/*") {
            // Comments may stand in comments.
            let mut depth = 0;
            loop {
                if starts_with(at, "/*") {
                    depth += 1;
                    at += 2;
                } else if starts_with(at, "*/") {
                    depth -= 1;
                    at += 2;
                } else if at < text.len() {
                    at += 1;
                } else {
                    return Err("a comment without end".to_string());
                }
                if depth == 0 {
                    break;
                }
            }
        } else if starts_with(at, "--BODY--") {
            tokens.push(Token::Body);
            at += 8;
        } else if starts_with(at, "--END--") {
            tokens.push(Token::End);
            at += 7;
        } else if c == '"' {
            let mut string = String::new();
            at += 1;
            loop {
                match text.get(at) {
                    None => return Err("a string without end".to_string()),
                    Some('"') => break,
                    Some('\\') => {
                        at += 1;
                        string.extend(text.get(at));
                    }
                    Some(&other) => string.push(other),
                }
                at += 1;
            }
            at += 1;
            tokens.push(Token::Text(string));
        } else if c.is_ascii_digit() {
            let from = at;
            while at < text.len() && text[at].is_ascii_digit() {
                at += 1;
            }
            let digits: String = text[from..at].iter().collect();
            if digits.len() > 1 && c == '0' {
                return Err(format!("the number {digits}"));
            }
            let number = digits.parse().map_err(|_| format!("the number {digits}"))?;
            tokens.push(Token::Number(number));
        } else if c.is_ascii_alphabetic() || c == '_' || c == '@' {
            let from = at;
            at += 1;
            while at < text.len() && is_name(text[at]) {
                at += 1;
            }
            let name: String = text[from..at].iter().collect();
            if c == '@' {
                tokens.push(Token::Alias(name));
            } else if text.get(at) == Some(&':') {
                at += 1;
                tokens.push(Token::Header(name));
            } else {
                tokens.push(Token::Identifier(name));
            }
        } else if "[]{}()!&|".contains(c) {
            tokens.push(Token::Sign(c));
            at += 1;
        } else {
            return Err(format!("the character {c:?}"));
        }
    }
    Ok(tokens)
}

/// A label expression.
#[derive(Clone, Debug)]
enum Label {
    Constant(bool),
    Proposition(usize),
    Not(Box<Label>),
    And(Box<Label>, Box<Label>),
    Or(Box<Label>, Box<Label>),
}

impl Label {
    fn holds(&self, valuation: usize) -> bool {
        match self {
            Label::Constant(value) => *value,
            Label::Proposition(number) => valuation >> number & 1 == 1,
            Label::Not(inner) => !inner.holds(valuation),
            Label::And(one, other) => one.holds(valuation) && other.holds(valuation),
            Label::Or(one, other) => one.holds(valuation) || other.holds(valuation),
        }
    }
}

struct Reader {
    tokens: Vec<Token>,
    at: usize,
    aliases: BTreeMap<String, Label>,
    /// How many propositions there are, once known.
    propositions: Option<usize>,
}

impl Reader {
    fn peek(&self) -> Option<&Token> {
        self.tokens.get(self.at)
    }

    fn next(&mut self) -> Option<Token> {
        let token = self.peek().cloned();
        self.at += 1;
        token
    }

    /// Takes the next token if it is this one.
    fn take(&mut self, token: &Token) -> bool {
        let same = self.peek() == Some(token);
        self.at += usize::from(same);
        same
    }

    fn sign(&mut self, sign: char) -> Result<(), Fault> {
        match self.take(&Token::Sign(sign)) {
            true => Ok(()),
            false => Err(format!("{sign} missing before {:?}", self.peek())),
        }
    }

    fn number(&mut self) -> Result<usize, Fault> {
        match self.next() {
            Some(Token::Number(number)) => Ok(number),
            other => Err(format!("{other:?} for a number")),
        }
    }

    fn string(&mut self) -> Option<String> {
        let Some(Token::Text(string)) = self.peek().cloned() else {
            return None;
        };
        self.at += 1;
        Some(string)
    }

    /// "!" binds strongest, then "&", then "|".
    fn label(&mut self) -> Result<Label, Fault> {
        let mut label = self.conjunction()?;
        while self.take(&Token::Sign('|')) {
            label = Label::Or(Box::new(label), Box::new(self.conjunction()?));
        }
        Ok(label)
    }

    fn conjunction(&mut self) -> Result<Label, Fault> {
        let mut label = self.literal()?;
        while self.take(&Token::Sign('&')) {
            label = Label::And(Box::new(label), Box::new(self.literal()?));
        }
        Ok(label)
    }

    fn literal(&mut self) -> Result<Label, Fault> {
        match self.next() {
            Some(Token::Sign('!')) => Ok(Label::Not(Box::new(self.literal()?))),
            Some(Token::Sign('(')) => {
                let label = self.label()?;
                self.sign(')')?;
                Ok(label)
            }
            Some(Token::Identifier(name)) if name == "t" => Ok(Label::Constant(true)),
            Some(Token::Identifier(name)) if name == "f" => Ok(Label::Constant(false)),
            Some(Token::Number(number)) => match self.propositions {
                Some(count) if number >= count => Err(format!("proposition {number}")),
                _ => Ok(Label::Proposition(number)),
            },
            Some(Token::Alias(name)) => {
                let known = self.aliases.get(&name).cloned();
                known.ok_or(format!("alias {name}"))
            }
            other => Err(format!("{other:?} in a label")),
        }
    }

    /// A label in brackets, if one stands here.
    fn bracketed(&mut self) -> Result<Option<Label>, Fault> {
        if !self.take(&Token::Sign('[')) {
            return Ok(None);
        }
        let label = self.label()?;
        self.sign(']')?;
        Ok(Some(label))
    }
}

/// A state's edges as they stand: label, if any, and target.
type Edges = Vec<(Option<Label>, usize)>;

/// Reads a text, or says what is wrong with it.
pub fn read(text: &[u8]) -> Result<Automaton, Fault> {
    let text = std::str::from_utf8(text).map_err(|fault| fault.to_string())?;
    let mut reader = Reader {
        tokens: tokens(text)?,
        at: 0,
        aliases: BTreeMap::new(),
        propositions: None,
    };
    // "HOA:" comes first.
    if !reader.take(&Token::Header("HOA".to_string()))
        || !reader.take(&Token::Identifier("v1".to_string()))
    {
        return Err("no HOA: v1".to_string());
    }
    let mut states = None;
    let mut starts = BTreeSet::new();
    let mut propositions: Option<Vec<String>> = None;
    let mut acceptance = false;
    loop {
        let header = match reader.next() {
            Some(Token::Header(header)) => header,
            Some(Token::Body) => break,
            other => return Err(format!("{other:?} for a header")),
        };
        match header.as_str() {
            "HOA" => return Err("HOA: again".to_string()),
            "States" => {
                if states.replace(reader.number()?).is_some() {
                    return Err("States: again".to_string());
                }
            }
            "Start" => {
                starts.insert(reader.number()?);
                if reader.peek() == Some(&Token::Sign('&')) {
                    return Err("a start in several states".to_string());
                }
            }
            "AP" => {
                let count = reader.number()?;
                let names: Vec<String> = std::iter::from_fn(|| reader.string()).collect();
                let distinct: BTreeSet<&String> = names.iter().collect();
                if names.len() != count || distinct.len() != count || count > 16 {
                    return Err(format!("{count} propositions {names:?}"));
                }
                if propositions.replace(names).is_some() {
                    return Err("AP: again".to_string());
                }
                reader.propositions = Some(count);
            }
            "Alias" => {
                let Some(Token::Alias(name)) = reader.next() else {
                    return Err("an alias without name".to_string());
                };
                let label = reader.label()?;
                if reader.aliases.insert(name.clone(), label).is_some() {
                    return Err(format!("alias {name} again"));
                }
            }
            "Acceptance" => {
                let buchi = [
                    Token::Number(1),
                    Token::Identifier("Inf".to_string()),
                    Token::Sign('('),
                    Token::Number(0),
                    Token::Sign(')'),
                ];
                if acceptance || !buchi.iter().all(|token| reader.take(token)) {
                    return Err("acceptance other than one of Büchi".to_string());
                }
                acceptance = true;
            }
            "acc-name" => {
                if !reader.take(&Token::Identifier("Buchi".to_string())) {
                    return Err("acc-name other than Buchi".to_string());
                }
            }
            other => {
                // A capital letter means that the header matters.
                let known = ["tool", "name", "properties"].contains(&other);
                if !known && other.starts_with(|c: char| c.is_ascii_uppercase()) {
                    return Err(format!("header {other}"));
                }
                while let Some(Token::Identifier(_) | Token::Text(_) | Token::Number(_)) =
                    reader.peek()
                {
                    reader.at += 1;
                }
            }
        }
    }
    if !acceptance {
        return Err("no acceptance".to_string());
    }
    let propositions = propositions.unwrap_or_default();
    let count = propositions.len();
    reader.propositions = Some(count);
    let mut bodies: BTreeMap<usize, (bool, Option<Label>, Edges)> = BTreeMap::new();
    while !reader.take(&Token::End) {
        if !reader.take(&Token::Header("State".to_string())) {
            return Err(format!("{:?} for a state", reader.peek()));
        }
        let label = reader.bracketed()?;
        let state = reader.number()?;
        reader.string();
        let mut accepting = false;
        if reader.take(&Token::Sign('{')) {
            while reader.take(&Token::Number(0)) {
                accepting = true;
            }
            reader.sign('}')?;
        }
        let mut edges = Vec::new();
        while let Some(Token::Sign('[') | Token::Number(_)) = reader.peek() {
            let label = reader.bracketed()?;
            edges.push((label, reader.number()?));
            if let Some(Token::Sign('&' | '{')) = reader.peek() {
                return Err("an edge into several states, or one in a set".to_string());
            }
        }
        if bodies.insert(state, (accepting, label, edges)).is_some() {
            return Err(format!("state {state} again"));
        }
    }
    if reader.at != reader.tokens.len() {
        return Err("more after the end".to_string());
    }
    // Every state is below the number of states; without it, they tell it.
    let targets = bodies.values().flat_map(|body| &body.2);
    let named = bodies.keys().chain(&starts).copied();
    let named = named.chain(targets.map(|edge| edge.1));
    let needed = named.map(|state| state + 1).max().unwrap_or(0);
    let states = states.unwrap_or(needed);
    if needed > states {
        return Err(format!("{needed} states in {states}"));
    }
    let mut automaton = Automaton {
        states,
        starts,
        propositions,
        accepting: vec![false; states],
        edges: BTreeSet::new(),
    };
    for (state, (accepting, label, edges)) in bodies {
        automaton.accepting[state] = accepting;
        let implicit = label.is_none() && edges.iter().all(|edge| edge.0.is_none());
        if implicit && !edges.is_empty() && edges.len() != 1 << count {
            return Err(format!("{} edges without labels", edges.len()));
        }
        for (place, (own, target)) in edges.into_iter().enumerate() {
            let valuations: Vec<usize> = match (&label, own) {
                (Some(_), Some(_)) => return Err("two labels".to_string()),
                (Some(label), None) => valuations(label, count),
                (None, Some(label)) => valuations(&label, count),
                (None, None) if implicit => vec![place],
                (None, None) => return Err("an edge without label".to_string()),
            };
            let edges = valuations.into_iter();
            let edges = edges.map(|valuation| (state, valuation, target));
            automaton.edges.extend(edges);
        }
    }
    Ok(automaton)
}

fn valuations(label: &Label, propositions: usize) -> Vec<usize> {
    (0..1 << propositions)
        .filter(|&valuation| label.holds(valuation))
        .collect()
}

#[cfg(test)]
mod tests {
    use super::*;

    /// The first example of the format's description, in essence: "G F a".
    const INFINITELY_OFTEN: &str = r#"HOA: v1
name: "GFa"
States: 2
Start: 0
acc-name: Buchi
Acceptance: 1 Inf(0)
AP: 1 "a"
--BODY--
State: 0
 [!0] 0
 [0] 1
State: 1 {0}
 [!0] 0
 [0] 1
--END--"#;

    #[test]
    fn spaces_and_comments() {
        let plain = read(INFINITELY_OFTEN.as_bytes()).unwrap();
        assert_eq!(
            (plain.states, plain.accepting.clone()),
            (2, vec![false, true])
        );
        let edges = BTreeSet::from([(0, 0, 0), (0, 1, 1), (1, 0, 0), (1, 1, 1)]);
        assert_eq!(plain.edges, edges);
        let free = "/* one /* two */ */ HOA:v1 Acceptance:1 Inf ( 0 )AP:1\"a\" States:2\tStart:0
            --BODY--State:1\"named\"{0}[!0]0[(0|f)&t]1State:0[0&!!0]1[!(0)]0--END--";
        assert_eq!(read(free.as_bytes()).unwrap(), plain);
        // Implicit labels, state labels, aliases.
        let other =
            "HOA: v1 tool: \"x\" \"1\" AP: 1 \"a\" Alias: @x !0 Start: 0 Acceptance: 1 Inf(0)
            properties: state-acc implicit-labels
            --BODY-- State: 0 0 1 State: 1 {0} [@x] 0 [!@x] 1 --END--";
        assert_eq!(read(other.as_bytes()).unwrap(), plain);
        let labelled = "HOA: v1 AP: 2 \"a\" \"b\" Acceptance: 1 Inf(0)
            --BODY-- State: [0 | 1 & !0] 0 0 --END--";
        let edges = BTreeSet::from([(0, 1, 0), (0, 2, 0), (0, 3, 0)]);
        assert_eq!(read(labelled.as_bytes()).unwrap().edges, edges);
    }

    #[test]
    fn faults() {
        let changed = |from: &str, to: &str| {
            let text = INFINITELY_OFTEN.replacen(from, to, 1);
            assert_ne!(text, INFINITELY_OFTEN);
            read(text.as_bytes())
        };
        for (from, to) in [
            ("HOA: v1", "HOA: v2"),
            ("HOA: v1", ""),
            ("States: 2", "States: 1"),
            ("Inf(0)", "Fin(0)"),
            ("Buchi", "co-Buchi"),
            ("AP: 1", "AP: 2"),
            ("[0] 1", "[1] 1"),
            ("{0}", "{1}"),
            ("{0}", "{0"),
            ("--END--", ""),
            ("--END--", "--END-- x"),
            ("State: 1", "State: 0"),
            ("Start: 0", "Start: 0&1"),
            ("Start: 0", "Start: 2"),
            ("[0] 1", "[0] 2"),
            ("[0] 1", "1"),
            ("[0] 1", "[0] 01"),
            ("[0] 1", "[0] 1 {0}"),
            ("Start: 0", "Begin: 0"),
            ("--BODY--", ""),
            ("Acceptance: 1 Inf(0)", ""),
        ] {
            assert!(changed(from, to).is_err(), "{from} {to}");
        }
        assert!(changed("Start: 0", "start: 0").is_ok());
        assert!(changed("States: 2", "").is_ok());
    }
}
