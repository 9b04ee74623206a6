//! Slices lent to the library, each in memory that ends at a guard page or
//! begins right after one.

use std::ffi::{c_int, c_void};
use std::ptr;

use second::sample::Random;

extern "C" {
    fn mmap(
        address: *mut c_void,
        length: usize,
        protection: c_int,
        flags: c_int,
        file: c_int,
        offset: i64,
    ) -> *mut c_void;
    fn mprotect(address: *mut c_void, length: usize, protection: c_int) -> c_int;
    fn munmap(address: *mut c_void, length: usize) -> c_int;
}

const PROT_NONE: c_int = 0;
const PROT_READ_WRITE: c_int = 1 | 2;
const MAP_PRIVATE_ANONYMOUS: c_int = 0x02 | 0x20;

const PAGE: usize = 4096;
/// The size of the mappings that serve most calls.
const SMALL: usize = 4 * PAGE;
/// Bytes next to a slice, on the side without a guard page, that must keep
/// their value.
const MARGIN: usize = 64;
const MARGIN_BYTE: u8 = 0xa7;

/// Memory between two guard pages.
struct Mapping {
    base: *mut u8,
    size: usize,
}

impl Mapping {
    fn new(size: usize) -> Self {
        let size = size.next_multiple_of(PAGE);
        unsafe {
            let whole = mmap(
                ptr::null_mut(),
                size + 2 * PAGE,
                PROT_NONE,
                MAP_PRIVATE_ANONYMOUS,
                -1,
                0,
            );
            assert!(whole as isize != -1, "mmap of {size} bytes failed");
            let base = whole.cast::<u8>().add(PAGE);
            let opened = mprotect(base.cast(), size, PROT_READ_WRITE);
            assert!(opened == 0, "mprotect of {size} bytes failed");
            Mapping { base, size }
        }
    }
}

impl Drop for Mapping {
    fn drop(&mut self) {
        unsafe {
            munmap(self.base.sub(PAGE).cast(), self.size + 2 * PAGE);
        }
    }
}

/// The mappings of one argument.
struct Slot {
    small: Mapping,
    large: Option<Mapping>,
}

/// What a slice is lent for.
#[derive(Clone, Copy, PartialEq, Eq)]
pub enum Kind {
    /// Bytes to be read.
    Input,
    /// Bytes to be written to.
    Output,
    /// Numbers of 64 bits to be written to, which need their alignment.
    Room,
}

/// A lent slice: where it lies, and what it must hold after the call.
pub struct Lent {
    pub name: &'static str,
    pub kind: Kind,
    pointer: *mut u8,
    /// The content when lent.
    pub content: Vec<u8>,
    /// The content afterwards, if it is to change.
    after: Option<Vec<u8>>,
    /// Margins that lie before and after the slice.
    margins: (bool, bool),
}

/// The number of a slice among those lent to the call.
#[derive(Clone, Copy)]
pub struct Ticket(usize);

#[derive(Default)]
pub struct Lender {
    slots: Vec<Slot>,
    pub lent: Vec<Lent>,
}

impl Lender {
    /// Ends the loans of the call before.
    pub fn begin(&mut self) {
        self.lent.clear();
    }

    /// Lends a copy of `content`. Bytes sometimes start off the alignment of
    /// the page, with margins on both sides.
    pub fn lend(
        &mut self,
        random: &mut Random,
        name: &'static str,
        content: &[u8],
        kind: Kind,
    ) -> Ticket {
        let number = self.lent.len();
        if number == self.slots.len() {
            self.slots.push(Slot {
                small: Mapping::new(SMALL),
                large: None,
            });
        }
        let length = content.len();
        let needed = length + 2 * MARGIN + 8;
        let slot = &mut self.slots[number];
        let mapping = if needed <= SMALL {
            &slot.small
        } else {
            if slot.large.as_ref().is_none_or(|large| large.size < needed) {
                slot.large = Some(Mapping::new(needed.next_power_of_two()));
            }
            slot.large.as_ref().unwrap()
        };
        let (offset, margins) = match random.below(16) {
            0 if kind != Kind::Room => (MARGIN + random.between(1, 7), (true, true)),
            draw if draw % 2 == 0 => (mapping.size - length, (true, false)),
            _ => (0, (false, true)),
        };
        let pointer = unsafe {
            let pointer = mapping.base.add(offset);
            ptr::copy_nonoverlapping(content.as_ptr(), pointer, length);
            if margins.0 {
                ptr::write_bytes(pointer.sub(MARGIN), MARGIN_BYTE, MARGIN);
            }
            if margins.1 {
                ptr::write_bytes(pointer.add(length), MARGIN_BYTE, MARGIN);
            }
            pointer
        };
        self.lent.push(Lent {
            name,
            kind,
            pointer,
            content: content.to_vec(),
            after: None,
            margins,
        });
        Ticket(number)
    }

    pub fn bytes(&self, ticket: Ticket) -> (*mut u8, usize) {
        let lent = &self.lent[ticket.0];
        (lent.pointer, lent.content.len())
    }

    /// What the slice holds now.
    pub fn held(&self, ticket: Ticket) -> Vec<u8> {
        let (pointer, length) = self.bytes(ticket);
        unsafe { std::slice::from_raw_parts(pointer, length) }.to_vec()
    }

    /// The slice must hold `after` once the call has ended.
    pub fn expect(&mut self, ticket: Ticket, after: Vec<u8>) {
        let lent = &mut self.lent[ticket.0];
        assert_eq!(after.len(), lent.content.len());
        lent.after = Some(after);
    }

    /// The first lent slice that does not hold what it must, and how.
    pub fn fault(&self) -> Option<String> {
        self.lent.iter().find_map(Lent::fault)
    }
}

impl Lent {
    fn fault(&self) -> Option<String> {
        let expected = self.after.as_ref().unwrap_or(&self.content);
        let length = expected.len();
        let held = unsafe { std::slice::from_raw_parts(self.pointer, length) };
        if held != expected {
            let at = held.iter().zip(expected).position(|(a, b)| a != b).unwrap();
            return Some(format!(
                "slice {} holds {:02x} at byte {at} of {length}, {:02x} expected",
                self.name, held[at], expected[at]
            ));
        }
        let margin = |present: bool, start: *const u8| {
            present && unsafe { std::slice::from_raw_parts(start, MARGIN) } != [MARGIN_BYTE; MARGIN]
        };
        if margin(self.margins.0, self.pointer.wrapping_sub(MARGIN)) {
            return Some(format!("memory before slice {} was changed", self.name));
        }
        if margin(self.margins.1, self.pointer.wrapping_add(length)) {
            return Some(format!("memory after slice {} was changed", self.name));
        }
        None
    }
}
