//! Words: a lead-in and a cycle that repeats for ever.

use crate::rule::Rule;

/// The longest lead-in, and the longest cycle, of a call.
pub const LONGEST: usize = 32;

/// "A word has a lead-in of 0 to 32 letters and a cycle of 1 to 32, one letter
/// a byte."
#[derive(Clone, Copy, Debug, PartialEq, Eq)]
pub struct Word<'a> {
    pub lead: &'a [u8],
    pub cycle: &'a [u8],
}

impl<'a> Word<'a> {
    /// A word by rows 12 and 13, which need no rule.
    pub fn new(lead: &'a [u8], cycle: &'a [u8]) -> Result<Self, u8> {
        if cycle.is_empty() {
            return Err(12);
        }
        if lead.len() > LONGEST || cycle.len() > LONGEST {
            return Err(13);
        }
        Ok(Word { lead, cycle })
    }

    /// A word over the letters of a rule, by rows 12 to 14.
    pub fn of_rule(rule: &Rule, lead: &'a [u8], cycle: &'a [u8]) -> Result<Self, u8> {
        let word = Word::new(lead, cycle)?;
        let mut letters = lead.iter().chain(cycle);
        if letters.any(|&letter| letter as usize >= rule.letters) {
            return Err(14);
        }
        Ok(word)
    }

    pub fn places(&self) -> usize {
        self.lead.len() + self.cycle.len()
    }

    /// "Places run through lead-in, then cycle".
    pub fn letter(&self, place: usize) -> usize {
        match place.checked_sub(self.lead.len()) {
            None => self.lead[place] as usize,
            Some(place) => self.cycle[place] as usize,
        }
    }

    /// The letter of a step: "Step 0 of a word stands at place 0, each later
    /// step, without end, at the place that follows".
    pub fn at(&self, step: usize) -> u8 {
        match step.checked_sub(self.lead.len()) {
            None => self.lead[step],
            Some(step) => self.cycle[step % self.cycle.len()],
        }
    }

    /// Whether two words "agree at every step". Past both lead-ins, both repeat
    /// after as many steps as the product of their cycles' lengths.
    pub fn agrees(&self, other: &Word) -> bool {
        let lead = self.lead.len().max(other.lead.len());
        let steps = lead + self.cycle.len() * other.cycle.len();
        (0..steps).all(|step| self.at(step) == other.at(step))
    }

    /// "the last place is followed by the cycle's first"
    pub fn following(&self, place: usize) -> usize {
        if place + 1 == self.places() {
            self.lead.len()
        } else {
            place + 1
        }
    }
}

/// "Two words are from now on the same if they agree at every step"; the test
/// "has no rule and tries rows 12 and 13, first word first".
pub fn same_words(first: [&[u8]; 2], second: [&[u8]; 2]) -> Result<bool, u8> {
    let first = Word::new(first[0], first[1])?;
    let second = Word::new(second[0], second[1])?;
    Ok(first.agrees(&second))
}
