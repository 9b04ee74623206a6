//! Names for letters: "A preface may end with s names of 8 bytes, then 4E 4D,
//! right before the clauses."

/// What follows the names.
pub const MARK: [u8; 2] = [0x4e, 0x4d];
/// The length of a name.
pub const LENGTH: usize = 8;

pub type Name = [u8; LENGTH];

/// The names that a preface carries for s letters; rows 21 to 23. A preface
/// without the mark at its end carries none.
pub fn of_preface(preface: &[u8], s: usize) -> Result<Option<Vec<Name>>, u8> {
    let Some(before) = preface.strip_suffix(&MARK) else {
        return Ok(None);
    };
    // "21, names that do not fit in the preface"
    if before.len() < LENGTH * s {
        return Err(21);
    }
    let bytes = &before[before.len() - LENGTH * s..];
    check(bytes).map(Some)
}

/// The names given to the writer for s letters; rows 21 to 23.
pub fn given(bytes: &[u8], s: usize) -> Result<Option<Vec<Name>>, u8> {
    if bytes.is_empty() {
        return Ok(None);
    }
    // "name bytes given to it that are neither none nor 8 × s are 21"
    if bytes.len() != LENGTH * s {
        return Err(21);
    }
    check(bytes).map(Some)
}

/// Rows 22 and 23 on names that stand one after the other.
fn check(bytes: &[u8]) -> Result<Vec<Name>, u8> {
    // "22, a name byte outside 20 to 7E", tried over all names before 23
    if bytes.iter().any(|byte| !(0x20..=0x7e).contains(byte)) {
        return Err(22);
    }
    let names: Vec<Name> = bytes
        .chunks(LENGTH)
        .map(|name| name.try_into().unwrap())
        .collect();
    // "23, two equal names"
    for later in 0..names.len() {
        if names[..later].contains(&names[later]) {
            return Err(23);
        }
    }
    Ok(names)
}

#[cfg(test)]
mod tests {
    use super::*;
    use crate::build::build;
    use crate::judge::judge;
    use crate::listing::listing;
    use crate::rule::{check, read, read_named, same_rules, write_named};
    use crate::sample::{self, Random, E, F, SHAPES};
    use crate::table::judge_table;
    use crate::tidy::tidy;

    /// The file of F after a preface.
    fn after(preface: &[u8]) -> Vec<u8> {
        [preface, &F].concat()
    }

    fn refused(preface: &[u8], row: u8) {
        let file = after(preface);
        assert_eq!(read(&file), Err(row));
        assert_eq!(check(&file), Err(row));
        assert_eq!(same_rules(&file, &[]), Err(row));
        assert_eq!(same_rules(&F, &file), Err(row));
        // The rule's rows come before those of word, table and slices.
        assert_eq!(judge(&file, &[], &[], 0), Err(row));
        assert_eq!(build(&file, 0, 0), Err(row));
        let word: [&[u8]; 2] = [&[], &[]];
        assert_eq!(judge_table(&file, word, [&[1], &[]], 0), Err(row));
        assert_eq!(listing(&file), format!("refused {row}\n"));
        assert_eq!(tidy(&file), Err(row));
    }

    #[test]
    fn prefaces() {
        let named = after(b"FETCH   STORE   NM");
        let read = read_named(&named).unwrap();
        assert_eq!(read.preface, 18);
        assert_eq!(read.names, Some(vec![*b"FETCH   ", *b"STORE   "]));
        assert_eq!(check(&named), Ok((18, 16)));
        let more = after(b"\xff\x00NMFETCH   STORE   NM");
        assert_eq!(read_named(&more).unwrap().names, read.names);
        assert_eq!(check(&more), Ok((22, 16)));
        // No mark at the end: no names, whatever stands there.
        for preface in [&b""[..], b"N", b"M", b"NM ", b"MN", b"FETCH   FETCH   N"] {
            assert_eq!(check(&after(preface)), Ok((preface.len(), 0)));
        }
        refused(b"NM", 21);
        refused(b"ETCH   STORE   NM", 21);
        refused(b"\xffTCH   \xff\xffORE   NM", 21);
        refused(b"FETCH   STORE  \x7fNM", 22);
        refused(b"\x1fETCH   \x1fETCH   NM", 22);
        refused(b"FETCH   FETCH   NM", 23);
        // Names of other case or with other blanks differ.
        assert_eq!(check(&after(b"FETCH   fETCH   NM")), Ok((18, 16)));
        assert_eq!(check(&after(b"FETCH    FETCH  NM")), Ok((18, 16)));
        assert_eq!(check(&after(b"~~~~~~~~        NM")), Ok((18, 16)));
    }

    #[test]
    fn after_the_rule() {
        // Row 11, and row 20 before it, come before the names.
        let mixed = [2, 1, 1, 1, 2, 1, 0, 1, 2, 0, 0x41, 0x57];
        assert_eq!(read(&[&b"NM"[..], &mixed].concat()), Err(11));
        let nested = [1, 0, 2, 1, 1, 0, 0, 2, 0, 0x41, 0x57];
        assert_eq!(read(&[&b"NM"[..], &nested].concat()), Err(20));
        assert_eq!(tidy(&[&b"NM"[..], &nested].concat()), Err(21));
        // A mark that a clause completes is none: n 7, one letter, state 0 with
        // the clause 4D.
        let mut file = vec![0x4e, 0x4d];
        file.extend([1, 0, 0, 0, 0, 0, 0]);
        file.extend([7, 1, 0, 0, 1, 0, 0x41, 0x57]);
        assert_eq!(check(&file), Ok((1, 0)));
    }

    #[test]
    fn sameness() {
        let one = after(b"FETCH   STORE   NM");
        let longer = after(b"  FETCH   STORE   NM");
        let other = after(b"FETCH   STOREd  NM");
        let turned = after(b"STORE   FETCH   NM");
        assert_eq!(same_rules(&one, &one), Ok(true));
        assert_eq!(same_rules(&one, &longer), Ok(true));
        assert_eq!(same_rules(&one, &other), Ok(false));
        assert_eq!(same_rules(&one, &turned), Ok(false));
        assert_eq!(same_rules(&one, &F), Ok(false));
        assert_eq!(same_rules(&F, &one), Ok(false));
        assert_eq!(same_rules(&F, &after(b"FETCH   STORE   ")), Ok(true));
        let e = [b"FETCH   STORE   NM", &E[..]].concat();
        assert_eq!(same_rules(&one, &e), Ok(false));
    }

    #[test]
    fn listed_and_tidied() {
        let printed = listing(&after(b"--FETCH   a b c d NM"));
        let plain = listing(&F);
        let (first, rest) = plain.split_once('\n').unwrap();
        let lines = format!("{first}\nn 0 FETCH   \nn 1 a b c d \n{rest}");
        assert_eq!(printed, lines);
        let tidied = tidy(&after(b"--FETCH   a b c d NM"));
        assert_eq!(tidied, Ok(after(b"FETCH   a b c d NM")));
        assert_eq!(tidy(&after(b"some preface")), Ok(F.to_vec()));
    }

    #[test]
    fn writer() {
        let write = |names: &[u8], room| write_named([1, 2, 0, 0], &[1, 1], &[1, 0], names, room);
        assert_eq!(write(b"", 12), Ok(F.to_vec()));
        let named = after(b"FETCH   STORE   NM");
        assert_eq!(write(b"FETCH   STORE   ", 30), Ok(named));
        assert_eq!(write(b"FETCH   STORE   ", 29), Err(16));
        assert_eq!(write(b"FETCH   STORE  ", 29), Err(21));
        assert_eq!(write(b"FETCH   STORE    ", 29), Err(21));
        assert_eq!(write(b"FETCH   STORE   NM", 29), Err(21));
        assert_eq!(write(b"FETCH   FETCH  \x1f", 29), Err(22));
        assert_eq!(write(b"FETCH   FETCH   ", 29), Err(23));
        let mixed = write_named([2, 1, 0, 1], &[1, 1], &[2, 1], b"?", 0);
        assert_eq!(mixed, Err(11));
    }

    #[test]
    fn written_names_read_back() {
        let mut random = Random::new(21);
        for _ in 0..2_000 {
            let shape = *random.pick(&SHAPES);
            let (states, letters) = (random.between(1, 8), random.between(1, 16));
            let rule = sample::rule(&mut random, shape, states, letters);
            let names = sample::names(&mut random, letters);
            let entries = rule.entries.iter().flatten();
            let counts: Vec<u8> = entries.clone().map(|clauses| clauses.len() as u8).collect();
            let clauses: Vec<u8> = entries.flatten().copied().collect();
            let numbers = [rule.states, rule.letters, rule.initial, 0].map(|x| x as u32);
            let numbers = [numbers[0], numbers[1], numbers[2], rule.accepting.into()];
            let file = write_named(numbers, &counts, &clauses, &names, 9_999).unwrap();
            let read = read_named(&file).unwrap();
            assert_eq!(read.names.unwrap().concat(), names);
            assert_eq!((read.rule, read.preface), (rule, LENGTH * letters + 2));
            assert_eq!(tidy(&file), Ok(file));
        }
    }
}
