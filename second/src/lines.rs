//! Lines and words of the text forms of rules and event tables.

/// "A line is cut into words from left to right."
#[derive(Clone, Debug, PartialEq, Eq)]
pub enum Word {
    /// "a sign: `:`, `&`, `|` or `*`"
    Sign(u8),
    /// "a quoted name": its bytes.
    Quoted(Vec<u8>),
    /// "a run"
    Run(Vec<u8>),
}

const SIGNS: &[u8] = b":&|*";
const KEYWORDS: [&str; 7] = [
    "letters",
    "state",
    "initial",
    "accepting",
    "rejecting",
    "true",
    "false",
];

impl Word {
    pub fn is_sign(&self, sign: u8) -> bool {
        *self == Word::Sign(sign)
    }

    pub fn is_keyword(&self, keyword: &str) -> bool {
        *self == Word::Run(keyword.into())
    }

    /// "A run of decimal digits alone is a number"; one that is too large for the
    /// type is its largest.
    pub fn number(&self) -> Option<u32> {
        let Word::Run(run) = self else {
            return None;
        };
        let digits = run.iter().all(u8::is_ascii_digit);
        let add = |number: u32, digit: &u8| {
            let tens = number.saturating_mul(10);
            tens.saturating_add(u32::from(digit - b'0'))
        };
        digits.then(|| run.iter().fold(0, add))
    }

    /// "Every other run is a plain name."
    pub fn plain(&self) -> Option<&[u8]> {
        let Word::Run(run) = self else {
            return None;
        };
        let keyword = KEYWORDS.iter().any(|keyword| keyword.as_bytes() == run);
        (!keyword && self.number().is_none()).then_some(run)
    }

    /// "a plain or quoted name"
    pub fn name(&self) -> Option<&[u8]> {
        match self {
            Word::Quoted(name) => Some(name),
            other => other.plain(),
        }
    }
}

/// The lines of a text, each with its number, from 1: "A line ends with a
/// newline, or a carriage return and a newline; the last one may lack it."
pub fn lines(text: &[u8]) -> Vec<(usize, &[u8])> {
    let mut lines = Vec::new();
    let mut rest = text;
    while !rest.is_empty() {
        let line = match rest.iter().position(|&byte| byte == b'\n') {
            None => std::mem::take(&mut rest),
            Some(end) => {
                let line = &rest[..end];
                rest = &rest[end + 1..];
                line.strip_suffix(b"\r").unwrap_or(line)
            }
        };
        lines.push((lines.len() + 1, line));
    }
    lines
}

/// The number of a text's last line, "1 if it has none".
pub fn last(text: &[u8]) -> usize {
    lines(text).len().max(1)
}

/// The most bytes of a line, without its end.
const LONGEST: usize = 65_536;

/// Whether a line can be read at all: it has not "more than 65,536 bytes without
/// the line's end, a byte 00 or a lone carriage return", which are "a fault of its
/// line wherever it stands".
pub fn is_whole(line: &[u8]) -> bool {
    line.len() <= LONGEST && !line.contains(&0) && !line.contains(&b'\r')
}

/// The words of a line; none if it has a fault of its own: it cannot be read, or
/// has "a comma, a quoted name that does not end, a `\` in it that is none of the
/// three".
pub fn words(line: &[u8]) -> Option<Vec<Word>> {
    if !is_whole(line) {
        return None;
    }
    let mut words = Vec::new();
    let mut rest = line;
    while let [first, after @ ..] = rest {
        match first {
            b' ' | b'\t' => rest = after,
            b'#' => break,
            b',' => return None,
            b'"' => {
                let (name, after) = quoted(after)?;
                words.push(Word::Quoted(name));
                rest = after;
            }
            sign if SIGNS.contains(sign) => {
                words.push(Word::Sign(*sign));
                rest = after;
            }
            _ => {
                let ends = |byte: &u8| b" \t\"#,".contains(byte) || SIGNS.contains(byte);
                let end = rest.iter().position(ends).unwrap_or(rest.len());
                words.push(Word::Run(rest[..end].to_vec()));
                rest = &rest[end..];
            }
        }
    }
    Some(words)
}

/// The bytes of a quoted name, and what follows its end. "In it `\"` is the byte
/// `"`, `\\` the byte `\`, and `\x` with two hexadecimal digits, small or
/// capital, any byte. No other `\` may stand there."
pub fn quoted(mut rest: &[u8]) -> Option<(Vec<u8>, &[u8])> {
    let mut name = Vec::new();
    loop {
        rest = match rest {
            [] => return None,
            [b'"', after @ ..] => return Some((name, after)),
            [b'\\', byte @ (b'"' | b'\\'), after @ ..] => {
                name.push(*byte);
                after
            }
            [b'\\', b'x', high, low, after @ ..] => {
                name.push(16 * digit(*high)? + digit(*low)?);
                after
            }
            [b'\\', ..] => return None,
            [byte, after @ ..] => {
                name.push(*byte);
                after
            }
        }
    }
}

/// A hexadecimal digit, small or capital.
pub fn digit(byte: u8) -> Option<u8> {
    let digit = char::from(byte).to_digit(16)?;
    Some(digit as u8)
}

/// A letter's name as it is printed: "without the blanks at its end: as it is, if
/// it then is a plain name (so not empty) of bytes 21 to 7E, else in quotes".
pub fn spelled(name: &[u8]) -> Vec<u8> {
    let end = name.iter().rposition(|&byte| byte != b' ');
    let name = &name[..end.map_or(0, |end| end + 1)];
    let one = words(name).unwrap_or_default();
    let printable = name.iter().all(|byte| (0x21..=0x7e).contains(byte));
    if printable && one.len() == 1 && one[0].plain() == Some(name) {
        return name.to_vec();
    }
    let mut quoted = vec![b'"'];
    for &byte in name {
        match byte {
            b'"' | b'\\' => quoted.extend([b'\\', byte]),
            0x20..=0x7e => quoted.push(byte),
            _ => quoted.extend(format!("\\x{byte:02x}").bytes()),
        }
    }
    quoted.push(b'"');
    quoted
}

#[cfg(test)]
mod tests {
    use super::*;

    fn run(text: &str) -> Word {
        Word::Run(text.into())
    }

    #[test]
    fn cut_into_lines() {
        let numbered = |text: &'static str| -> Vec<String> {
            let lines = lines(text.as_bytes()).into_iter();
            let told = lines.map(|(n, line)| format!("{n} {}", line.escape_ascii()));
            told.collect()
        };
        assert_eq!(numbered(""), Vec::<String>::new());
        assert_eq!(numbered("\n"), ["1 "]);
        assert_eq!(numbered("a\r\nb"), ["1 a", "2 b"]);
        assert_eq!(numbered("a\r\r\n\nb\r"), ["1 a\\r", "2 ", "3 b\\r"]);
        assert_eq!(
            [last(b""), last(b"a"), last(b"a\n"), last(b"a\n\n")],
            [1, 1, 1, 2]
        );
    }

    #[test]
    fn cut_into_words() {
        let sign = |sign| Word::Sign(sign);
        let quoted = |text: &[u8]| Word::Quoted(text.to_vec());
        let cut = |line: &[u8]| words(line).unwrap();
        assert_eq!(cut(b" \t# a, \"b"), []);
        assert_eq!(
            cut(b"a:b&c|*d"),
            [
                run("a"),
                sign(b':'),
                run("b"),
                sign(b'&'),
                run("c"),
                sign(b'|'),
                sign(b'*'),
                run("d"),
            ]
        );
        assert_eq!(
            cut(b"a\"b c#\"d\\e#f"),
            [run("a"), quoted(b"b c#"), run("d\\e")]
        );
        assert_eq!(cut(b"\"\\\"\\\\\\x4a\\xfF,\""), [quoted(b"\"\\J\xff,")]);
        for fault in [
            &b"a\0"[..],
            b"# \0",
            b"a\rb",
            b"a,b",
            b"\"a",
            b"\"\\",
            b"\"\\n\"",
            b"\"\\x1\"",
            b"\"\\xg1\"",
        ] {
            assert_eq!(words(fault), None, "{}", fault.escape_ascii());
        }
    }

    #[test]
    fn long_lines() {
        assert_eq!(words(&[b' '; LONGEST]), Some(vec![]));
        assert_eq!(words(&[b' '; LONGEST + 1]), None);
    }

    #[test]
    fn kinds_of_runs() {
        assert_eq!(run("007").number(), Some(7));
        assert_eq!(run("99999999999").number(), Some(u32::MAX));
        assert_eq!(run("7a").number(), None);
        assert_eq!(run("7a").plain(), Some(&b"7a"[..]));
        assert_eq!(run("7").plain(), None);
        assert_eq!(run("true").plain(), None);
        assert_eq!(run("True").plain(), Some(&b"True"[..]));
        assert_eq!(Word::Quoted(b"true".to_vec()).name(), Some(&b"true"[..]));
        assert_eq!(Word::Quoted(b"7".to_vec()).number(), None);
    }

    #[test]
    fn names_as_printed() {
        let told = |name: &[u8]| String::from_utf8(spelled(name)).unwrap();
        assert_eq!(told(b"GO      "), "GO");
        assert_eq!(told(b"        "), "\"\"");
        assert_eq!(told(b" GO     "), "\" GO\"");
        assert_eq!(told(b"a b     "), "\"a b\"");
        assert_eq!(told(b"12      "), "\"12\"");
        assert_eq!(told(b"state   "), "\"state\"");
        assert_eq!(told(b"a#b     "), "\"a#b\"");
        assert_eq!(told(b"a\\b\"    "), "\"a\\\\b\\\"\"");
        assert_eq!(told(b"a\\b     "), "a\\b");
        assert_eq!(told(b"\x01\x7f\xff     "), "\"\\x01\\x7f\\xff\"");
    }
}
