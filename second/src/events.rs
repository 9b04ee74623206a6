//! The event table that an archive edits at the site.

use crate::rule::read;

/// "a table of up to 64 lines, five bytes each"
pub const LINES: usize = 64;
pub const LINE: usize = 5;

/// "lowest and highest kind, lowest and highest drive, letter"
#[derive(Clone, Copy, Debug, PartialEq, Eq)]
pub struct Line {
    pub kinds: (u8, u8),
    pub drives: (u8, u8),
    pub letter: u8,
}

impl Line {
    pub fn holds(&self, kind: u8, drive: u8) -> bool {
        (self.kinds.0..=self.kinds.1).contains(&kind)
            && (self.drives.0..=self.drives.1).contains(&drive)
    }
}

/// The lines of a table for s letters, by row 25: "a line with lowest above
/// highest, a letter not below s, an unfinished last line, or more than 64
/// lines".
pub fn lines(table: &[u8], s: usize) -> Result<Vec<Line>, u8> {
    if table.len() % LINE != 0 || table.len() / LINE > LINES {
        return Err(25);
    }
    let mut lines = Vec::new();
    for line in table.chunks(LINE) {
        let line = Line {
            kinds: (line[0], line[1]),
            drives: (line[2], line[3]),
            letter: line[4],
        };
        if line.kinds.0 > line.kinds.1 || line.drives.0 > line.drives.1 || line.letter as usize >= s
        {
            return Err(25);
        }
        lines.push(line);
    }
    Ok(lines)
}

/// Row 26: "a line all of whose pairs fall in earlier lines". The pairs that
/// earlier lines hold are kept as, for each kind, a set of the 256 drives.
pub fn has_idle_line(lines: &[Line]) -> bool {
    let mut held = vec![[0u128; 2]; 256];
    for line in lines {
        // The line's drives as such a set.
        let mut drives = [0u128; 2];
        for drive in line.drives.0..=line.drives.1 {
            drives[drive as usize / 128] |= 1 << (drive % 128);
        }
        let mut idle = true;
        for kind in line.kinds.0..=line.kinds.1 {
            for (held, drives) in held[kind as usize].iter_mut().zip(drives) {
                idle &= drives & !*held == 0;
                *held |= drives;
            }
        }
        if idle {
            return true;
        }
    }
    false
}

/// The same, pair by pair: slow, for checking the other.
pub fn has_idle_line_by_pairs(lines: &[Line]) -> bool {
    (0..lines.len()).any(|number| {
        (0..=255).all(|kind| {
            (0..=255).all(|drive| {
                !lines[number].holds(kind, drive)
                    || lines[..number].iter().any(|line| line.holds(kind, drive))
            })
        })
    })
}

/// "Translate a log into letters, one per event, in order; an odd last byte is no
/// event yet and is left unread." The rule's rows, 25, 26, 27, then 16.
pub fn translate(file: &[u8], table: &[u8], log: &[u8], room: usize) -> Result<Vec<u8>, u8> {
    let (rule, _) = read(file)?;
    let lines = lines(table, rule.letters)?;
    if has_idle_line(&lines) {
        return Err(26);
    }
    let mut letters = Vec::new();
    for event in log.chunks_exact(2) {
        // "The first line that holds an event's two bytes gives its letter."
        let line = lines.iter().find(|line| line.holds(event[0], event[1]));
        // "27, an event in no line"
        letters.push(line.ok_or(27)?.letter);
    }
    if room < letters.len() {
        return Err(16);
    }
    Ok(letters)
}

#[cfg(test)]
mod tests {
    use super::*;
    use crate::sample::{Random, F};

    /// F has two letters.
    fn translated(table: &[u8], log: &[u8]) -> Result<Vec<u8>, u8> {
        translate(&F, table, log, log.len() / 2)
    }

    #[test]
    fn examples() {
        let all = [0, 255, 0, 255, 1];
        assert_eq!(translated(&[], &[]), Ok(vec![]));
        assert_eq!(translated(&[], &[7]), Ok(vec![]));
        assert_eq!(translated(&[], &[7, 7]), Err(27));
        assert_eq!(translated(&all, &[0, 0, 255, 255, 9]), Ok(vec![1, 1]));
        // The first line that holds the event counts.
        let two = [&[3, 5, 0, 7, 0], &all[..]].concat();
        let log = [3, 0, 5, 7, 2, 0, 6, 0, 4, 8, 4, 4];
        assert_eq!(translated(&two, &log), Ok(vec![0, 0, 1, 1, 1, 0]));
        let turned = [&all[..], &[3, 5, 0, 7, 0]].concat();
        assert_eq!(translated(&turned, &log), Err(26));
    }

    #[test]
    fn refused() {
        assert_eq!(translated(&[1, 0, 0, 0, 0], &[]), Err(25));
        assert_eq!(translated(&[0, 0, 1, 0, 0], &[]), Err(25));
        assert_eq!(translated(&[0, 0, 0, 0, 2], &[]), Err(25));
        for length in [1, 2, 3, 4, 6, 9] {
            assert_eq!(translated(&vec![0; length], &[]), Err(25));
        }
        // 25 in the last line comes before 26 in an earlier one.
        let table = [&[0; 10][..], &[0, 0, 0, 0, 2]].concat();
        assert_eq!(translated(&table, &[9, 9]), Err(25));
        assert_eq!(translated(&[0; 10], &[9, 9]), Err(26));
        assert_eq!(translated(&[0; 5], &[0, 0, 0, 1]), Err(27));
        assert_eq!(translate(&F, &[0; 5], &[0, 0, 0, 1], 0), Err(27));
        assert_eq!(translate(&F, &[0; 5], &[0, 0, 0, 0, 0], 1), Err(16));
        assert_eq!(translate(&F, &[0; 5], &[0; 5], 2), Ok(vec![0, 0]));
        assert_eq!(translate(&[0x41, 0x57], &[1], &[], 0), Err(1));
        // 64 lines and 65.
        let most: Vec<u8> = (0..64).flat_map(|kind| [kind, kind, 0, 255, 1]).collect();
        assert_eq!(translated(&most, &[63, 9]), Ok(vec![1]));
        let over = [&most[..], &[64, 64, 0, 0, 0]].concat();
        assert_eq!(translated(&over, &[]), Err(25));
    }

    #[test]
    fn idle_lines() {
        // Two lines that only together hold the third; without its corner they
        // do not.
        let table = [0, 9, 0, 4, 0, 0, 9, 5, 9, 0, 2, 8, 3, 7, 1];
        assert_eq!(translated(&table, &[]), Err(26));
        let table = [0, 9, 0, 4, 0, 0, 8, 5, 9, 0, 2, 9, 3, 7, 1];
        assert_eq!(translated(&table, &[9, 7]), Ok(vec![1]));
        // The highest bytes.
        let table = [0, 255, 0, 254, 0, 0, 254, 0, 255, 0, 255, 255, 255, 255, 1];
        assert_eq!(translated(&table, &[255, 255]), Ok(vec![1]));
        assert_eq!(translated(&[&table[..], &[0; 5]].concat(), &[]), Err(26));
    }

    #[test]
    fn idle_lines_by_pairs() {
        let mut random = Random::new(81);
        let mut idle = 0;
        for _ in 0..600 {
            let range = |random: &mut Random| {
                let high = *random.pick(&[3, 3, 255]);
                let (one, other) = (random.between(0, high), random.between(0, high));
                (one.min(other) as u8, one.max(other) as u8)
            };
            let lines: Vec<Line> = (0..random.below(8))
                .map(|_| Line {
                    kinds: range(&mut random),
                    drives: range(&mut random),
                    letter: 0,
                })
                .collect();
            let found = has_idle_line(&lines);
            assert_eq!(found, has_idle_line_by_pairs(&lines), "{lines:?}");
            idle += usize::from(found);
        }
        assert!(idle > 50 && idle < 550, "{idle}");
    }
}
