//! What a line prints: one line, or the lines of a listing.

use std::fmt;

use crate::document::listing::Listing;
use crate::document::refusal::Refusal;

#[derive(Clone, Debug, PartialEq, Eq)]
pub enum Answer {
    Nothing,
    Order(Vec<u32>),
    Slot {
        slot: u32,
        entry: usize,
        name: Vec<u8>,
        start: u64,
        length: u32,
        flags: u32,
    },
    Listing(Listing),
    /// The refusal of a listing, of which the number alone is printed.
    ListingRefused(Refusal),
    Job(usize),
    Ran(usize),
    Refused(Refusal),
    Cut,
    Bytes(Vec<u8>),
    Sum(u32),
    Dump(usize, u32),
}

impl fmt::Display for Answer {
    fn fmt(&self, out: &mut fmt::Formatter<'_>) -> fmt::Result {
        match self {
            Answer::Nothing => Ok(()),
            Answer::Order(slots) => {
                write!(out, "order")?;
                slots.iter().try_for_each(|slot| write!(out, " {slot}"))
            }
            Answer::Slot { slot, entry, name, start, length, flags } => {
                write!(out, "slot {slot} {entry} {} {start} {length} {flags}", hex(name))
            }
            Answer::Listing(listing) => write!(out, "{listing}"),
            Answer::ListingRefused(refusal) => write!(out, "refused {}", refusal.number()),
            Answer::Job(steps) => write!(out, "job {steps}"),
            Answer::Ran(steps) => write!(out, "ran {steps}"),
            Answer::Refused(refusal) => {
                write!(out, "refused {}", refusal.number())?;
                let faults = refusal.faults().into_iter().flatten();
                faults
                    .into_iter()
                    .try_for_each(|fault| write!(out, " {} {}", fault.rule as usize, fault.entry))
            }
            Answer::Cut => write!(out, "cut"),
            Answer::Bytes(bytes) if bytes.is_empty() => write!(out, "bytes"),
            Answer::Bytes(bytes) => write!(out, "bytes {}", hex(bytes)),
            Answer::Sum(sum) => write!(out, "sum {sum}"),
            Answer::Dump(length, sum) => write!(out, "dump {length} {sum}"),
        }
    }
}

/// The 32-bit FNV-1a of some bytes.
pub fn fnv1a(bytes: &[u8]) -> u32 {
    bytes.iter().fold(2_166_136_261, |sum, &byte| (sum ^ u32::from(byte)).wrapping_mul(16_777_619))
}

/// Bytes in lower-case pairs.
pub fn hex(bytes: &[u8]) -> String {
    const DIGITS: &[u8; 16] = b"0123456789abcdef";
    let digits = bytes.iter().flat_map(|byte| [byte >> 4, byte & 15]);
    digits.map(|digit| char::from(DIGITS[usize::from(digit)])).collect()
}
