//! Event tables as text, both ways: docs/FORMAT.md, "An event table as text".

use crate::events::{translate, LINE};
use crate::lines::{digit, lines, spelled, words, Word};
use crate::rule::read_named;
use crate::rule_text::{fault, letter, letter_of, Fault};

/// "KINDS and DRIVES are each `*` (00 to FF), a byte, or the lowest and the
/// highest byte with `-` between them and no blank".
fn range(word: &Word) -> Option<[u8; 2]> {
    let run = match word {
        Word::Sign(b'*') => return Some([0, 255]),
        Word::Run(run) => run,
        _ => return None,
    };
    let bytes: Option<Vec<u8>> = run.split(|&byte| byte == b'-').map(byte).collect();
    match bytes?[..] {
        [one] => Some([one, one]),
        [low, high] => Some([low, high]),
        _ => None,
    }
}

/// "a byte is one or two hexadecimal digits, small or capital"
fn byte(text: &[u8]) -> Option<u8> {
    match text {
        [low] => digit(*low),
        [high, low] => Some(16 * digit(*high)? + digit(*low)?),
        _ => None,
    }
}

/// Why a text makes no table: a refusal of the rule, or a fault with a line.
pub type NoTable = Result<u8, Fault>;

/// The table of a text, for a rule.
pub fn write(rule: &[u8], text: &[u8]) -> Result<Vec<u8>, NoTable> {
    let named = read_named(rule).map_err(Ok)?;
    let mut table = Vec::new();
    let mut of_lines = Vec::new();
    for (number, line) in lines(text) {
        let fault = || Err(fault::<()>(number).unwrap_err());
        let Some(words) = words(line) else {
            return Err(fault());
        };
        if words.is_empty() {
            continue;
        }
        let [kinds, drives, colon, own] = &words[..] else {
            return Err(fault());
        };
        let (Some(kinds), Some(drives), true) = (range(kinds), range(drives), colon.is_sign(b':'))
        else {
            return Err(fault());
        };
        // "a name that no letter has, a number over 255"
        let own = letter(own).and_then(|own| letter_of(named.names.as_deref(), &own));
        let Some(own) = own.and_then(|own| u8::try_from(own).ok()) else {
            return Err(fault());
        };
        table.extend(kinds.into_iter().chain(drives).chain([own]));
        of_lines.push(number);
    }
    // "25 and 26 have the line that brings them": the first table of lines from
    // the start that is refused so ends with it.
    if let Err(refusal) = translate(rule, &table, &[], 0) {
        let brings =
            |&lines: &usize| translate(rule, &table[..LINE * lines], &[], 0) == Err(refusal);
        let lines = (1..=of_lines.len()).find(brings).unwrap_or(1);
        return Err(Err(Fault {
            line: of_lines[lines - 1],
            refusal: Some(refusal),
        }));
    }
    Ok(table)
}

/// The text of a table, with a refusal of the table that is told after it; or a
/// refusal of the rule alone.
pub fn show(rule: &[u8], table: &[u8]) -> Result<(Vec<u8>, Option<u8>), u8> {
    let named = read_named(rule)?;
    let refusal = translate(rule, table, &[], 0).err();
    let mut text: Vec<Vec<u8>> = vec![b"# kinds drives: letter".to_vec()];
    let range = |low: u8, high: u8| match (low, high) {
        (0, 255) => "*".to_string(),
        (low, high) if low == high => format!("{low:02x}"),
        (low, high) => format!("{low:02x}-{high:02x}"),
    };
    let whole = table.chunks_exact(LINE);
    let left = whole.remainder().len();
    for line in whole {
        let (kinds, drives) = (range(line[0], line[1]), range(line[2], line[3]));
        let name = named
            .names
            .as_ref()
            .and_then(|names| names.get(line[4] as usize));
        let letter = match name {
            Some(name) => spelled(name),
            None => line[4].to_string().into_bytes(),
        };
        text.push([format!("{kinds} {drives}: ").into_bytes(), letter].concat());
    }
    if left > 0 {
        text.push(format!("# bytes of an unfinished line, left out here: {left}").into());
    }
    text.push(Vec::new());
    Ok((text.join(&b'\n'), refusal))
}

#[cfg(test)]
mod tests {
    use super::*;
    use crate::sample::{Random, F};

    fn named() -> Vec<u8> {
        [b"WAIT    GO      NM", &F[..]].concat()
    }

    const TEXT: &str = "# kinds drives: letter
10-1f 00-03: GO
10-1f *: WAIT
2f 09: WAIT
";
    const TABLE: [u8; 15] = [
        0x10, 0x1f, 0, 3, 1, 0x10, 0x1f, 0, 255, 0, 0x2f, 0x2f, 9, 9, 0,
    ];

    #[test]
    fn examples() {
        assert_eq!(write(&named(), TEXT.as_bytes()), Ok(TABLE.to_vec()));
        assert_eq!(show(&named(), &TABLE), Ok((TEXT.into(), None)));
        assert_eq!(
            write(&F, b"1F-2 a:1 # one\r\n"),
            Err(Err(Fault {
                line: 1,
                refusal: Some(25)
            }))
        );
        assert_eq!(
            write(&F, b"2-1F a:1 # one\r\n"),
            Ok(vec![2, 0x1f, 10, 10, 1])
        );
        assert_eq!(write(&F, b""), Ok(vec![]));
        assert_eq!(write(b"AW", b""), Err(Ok(1)));
        assert_eq!(show(b"AW", b""), Err(1));
        let (text, refusal) = show(&F, &[5, 4, 0, 0, 9, 1, 2]).unwrap();
        assert_eq!(refusal, Some(25));
        let told = "# kinds drives: letter\n05-04 00: 9\n# bytes of an unfinished line, left out here: 2\n";
        assert_eq!(String::from_utf8(text).unwrap(), told);
    }

    #[test]
    fn faults() {
        for (text, line, number) in [
            ("* *: GO\n\n1 1: GO\n", 3, 26),
            ("* 2-1: GO\n1 1: NO\n", 2, 0),
            ("* 2-1: GO\n1 1: GO\n", 1, 25),
            ("* *: 2\n", 1, 25),
            ("* *: 255\n", 1, 25),
            ("* *: 256\n", 1, 0),
            ("* *: state\n", 1, 0),
            ("* *: \"GO\" x\n", 1, 0),
            ("* * GO\n", 1, 0),
            ("100 *: GO\n", 1, 0),
            ("1-2-3 *: GO\n", 1, 0),
            ("-2 *: GO\n", 1, 0),
            ("1 - 2 *: GO\n", 1, 0),
            ("g *: GO\n", 1, 0),
            ("\"1\" *: GO\n", 1, 0),
            ("* *: GO,\n", 1, 0),
            ("& *: GO\n", 1, 0),
        ] {
            let refusal = (number > 0).then_some(number);
            let expected = Err(Err(Fault { line, refusal }));
            assert_eq!(write(&named(), text.as_bytes()), expected, "{text}");
        }
        // The 65th line.
        let mut text = String::new();
        for kind in 0..65 {
            text += &format!("{kind:x} *: 0\n\n");
        }
        let over = Fault {
            line: 129,
            refusal: Some(25),
        };
        assert_eq!(write(&F, text.as_bytes()), Err(Err(over)));
    }

    #[test]
    fn shown_and_written() {
        let mut random = Random::new(162);
        let mut accepted = 0;
        for _ in 0..5_000 {
            let mut table = Vec::new();
            for _ in 0..random.below(6) {
                let [a, b, c, d] = [0; 4].map(|_: u8| *random.pick(&[0, 1, 2, 127, 128, 254, 255]));
                table.extend([
                    a.min(b),
                    a.max(b),
                    c.min(d),
                    c.max(d),
                    random.below(2) as u8,
                ]);
            }
            for rule in [&named()[..], &F] {
                if let (text, None) = show(rule, &table).unwrap() {
                    assert_eq!(write(rule, &text), Ok(table.clone()));
                    accepted += 1;
                }
            }
        }
        assert!(accepted > 2_000, "{accepted}");
    }
}
