//! A log without end, over any table that passes 15: the set alone is kept.

use crate::live::Lent;
use crate::rule::read;
use crate::table::Table;

/// What a call leaves: the set, "written as bytes 1 and 0", and both counts.
#[derive(Clone, Debug, PartialEq, Eq)]
pub struct Left {
    pub set: Vec<u8>,
    /// "how many macrostates are in the set then"
    pub first: usize,
    /// "the least number of letters after which none was left"
    pub second: usize,
}

/// The rule's rows, 14 "over all letters", 15, "then 16 if set has fewer bytes
/// than the table has macrostates".
fn check(lent: &Lent, letters: &[u8]) -> Result<Table, u8> {
    let (rule, _) = read(lent.file)?;
    if letters
        .iter()
        .any(|&letter| letter as usize >= rule.letters)
    {
        return Err(14);
    }
    let table = Table::new(&rule, lent.codes, lent.transitions)?;
    if lent.room < lent.codes.len() {
        return Err(16);
    }
    Ok(table)
}

fn members(set: &[u8]) -> usize {
    set.iter().filter(|&&byte| byte == 1).count()
}

/// "A start writes 1 for an initial macrostate and 0 for any other".
pub fn start(lent: &Lent) -> Result<Left, u8> {
    let table = check(lent, &[])?;
    let (rule, _) = read(lent.file)?;
    let macrostates = table.macrostates.iter();
    let set: Vec<u8> = macrostates
        .map(|macrostate| macrostate.is_initial(&rule).into())
        .collect();
    let first = members(&set);
    Ok(Left {
        set,
        first,
        second: 0,
    })
}

/// "A call takes each byte that is not 0 as in the set. .. Over the letters of
/// the call .. it goes letter by letter".
pub fn follow(lent: &Lent, letters: &[u8], set: &[u8]) -> Result<Left, u8> {
    let table = check(lent, letters)?;
    let bytes = set[..lent.codes.len()].iter();
    let mut set: Vec<u8> = bytes.map(|&byte| (byte != 0).into()).collect();
    // The numbers of letters after which none was left.
    let mut none = (members(&set) == 0).then_some(0);
    for (place, &letter) in letters.iter().enumerate() {
        let mut next = vec![0; set.len()];
        for source in (0..set.len()).filter(|&source| set[source] == 1) {
            for &target in table.targets(source, letter as usize) {
                next[target] = 1;
            }
        }
        set = next;
        if none.is_none() && !set.contains(&1) {
            none = Some(place + 1);
        }
    }
    let first = members(&set);
    Ok(Left {
        set,
        first,
        second: none.unwrap_or(letters.len()),
    })
}

#[cfg(test)]
mod tests {
    use super::*;
    use crate::live::afresh;
    use crate::sample::{D, E, F, I};
    use crate::trim::build_trimmed;

    #[test]
    fn examples() {
        // E: letter 0 for ever. After the first 1 nothing is left.
        let (codes, transitions) = build_trimmed(&E, 9, 9).unwrap();
        let lent = Lent {
            file: &E,
            codes: &codes,
            transitions: &transitions,
            room: 1,
        };
        let begun = start(&lent).unwrap();
        assert_eq!(
            (begun.set.as_slice(), begun.first, begun.second),
            (&[1][..], 1, 0)
        );
        let left = |letters: &[u8], set: &[u8]| {
            follow(&lent, letters, set).map(|left| (left.set, left.first, left.second))
        };
        assert_eq!(left(&[0, 0], &[1]), Ok((vec![1], 1, 2)));
        assert_eq!(left(&[0, 0, 1, 0], &[7]), Ok((vec![0], 0, 3)));
        assert_eq!(left(&[0, 1], &[1]), Ok((vec![0], 0, 2)));
        assert_eq!(left(&[0, 0], &[0]), Ok((vec![0], 0, 0)));
        assert_eq!(left(&[], &[255]), Ok((vec![1], 1, 0)));
        assert_eq!(left(&[0, 2], &[1]), Err(14));
        let short = Lent { room: 0, ..lent };
        assert_eq!(start(&short), Err(16));
        assert_eq!(follow(&short, &[0], &[]), Err(16));
    }

    /// Wherever the calls are cut, the set is the one worked out afresh.
    #[test]
    fn cut_anywhere() {
        for file in [&D[..], &E, &F, &I] {
            let (codes, transitions) = build_trimmed(file, 99, 999).unwrap();
            let lent = Lent {
                file,
                codes: &codes,
                transitions: &transitions,
                room: codes.len(),
            };
            let letters: Vec<u8> = (0..40).map(|place| (place * place / 3 % 2) as u8).collect();
            let begun = start(&lent).unwrap().set;
            for cut in 0..=letters.len() {
                let (front, back) = letters.split_at(cut);
                let first = follow(&lent, front, &begun).unwrap();
                let both = follow(&lent, back, &first.set).unwrap();
                assert_eq!(both.set, afresh(&lent, &letters).unwrap());
                let whole = follow(&lent, &letters, &begun).unwrap();
                assert_eq!((both.set, both.first), (whole.set, whole.first));
                match first.first {
                    0 => assert_eq!(first.second, whole.second),
                    _ => assert_eq!(cut + both.second, whole.second),
                }
            }
        }
    }
}
