//! The listing of a rule file's build.

use std::fmt::Write;

use crate::build::{reachable, Macrostate};
use crate::rule::read_named;

/// "over 4,096 bytes of input prints `long`"
pub const INPUT: usize = 4_096;
/// "Its rooms are 512 and 4,096"
const ROOMS: (usize, usize) = (512, 4_096);

/// What the listing program prints, every line ending in a newline.
pub fn listing(input: &[u8]) -> String {
    if input.len() > INPUT {
        return "long\n".to_string();
    }
    let built = read_named(input).and_then(|read| {
        let (codes, transitions) = reachable(&read.rule, ROOMS.0, ROOMS.1)?;
        Ok((read.rule, read.names, codes, transitions))
    });
    let (rule, names, codes, transitions) = match built {
        Ok(built) => built,
        Err(number) => return format!("refused {number}\n"),
    };
    let mut lines = format!("built {} {}\n", codes.len(), transitions.len());
    // "in the listing as a line `n`, letter, name for each letter, right after
    // line one"
    for (letter, name) in names.unwrap_or_default().iter().enumerate() {
        let name = String::from_utf8_lossy(name);
        writeln!(lines, "n {letter} {name}").unwrap();
    }
    for (number, &code) in codes.iter().enumerate() {
        let macrostate = Macrostate::from_code(code);
        let initial = if macrostate.is_initial(&rule) {
            "i"
        } else {
            "-"
        };
        let accepting = if macrostate.is_accepting() { "a" } else { "-" };
        writeln!(lines, "m {number} {code} {initial} {accepting}").unwrap();
    }
    for transition in transitions {
        let source = transition / 16_777_216;
        let letter = transition / 65_536 % 256;
        let target = transition % 65_536;
        writeln!(lines, "t {source} {letter} {target}").unwrap();
    }
    lines
}
