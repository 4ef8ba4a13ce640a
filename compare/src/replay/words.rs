//! The words of a line: numbers, ranges, bytes and commands.

use super::IMAGE_BYTES_MAX;
use crate::document::commands::Command;

/// A line that is not of the language, or that asks for what is not there.
#[derive(Clone, Copy, Debug, PartialEq, Eq)]
pub struct NotALine;

pub fn command_of(words: &[&[u8]]) -> Result<Command, NotALine> {
    Ok(match *words {
        [b"enable", slot] => Command::Enable(u32_of(slot)?),
        [b"disable", slot] => Command::Disable(u32_of(slot)?),
        [b"rename", slot] => Command::Rename(u32_of(slot)?, Vec::new()),
        [b"rename", slot, name] => Command::Rename(u32_of(slot)?, bytes_of(name)?),
        [b"create", length] => Command::Create(u32_of(length)?, Vec::new()),
        [b"create", length, name] => Command::Create(u32_of(length)?, bytes_of(name)?),
        [b"delete", slot] => Command::Delete(u32_of(slot)?),
        [b"repair"] => Command::Repair,
        _ => return Err(NotALine),
    })
}

pub fn number_of(word: &[u8]) -> Result<u64, NotALine> {
    if word.is_empty() {
        return Err(NotALine);
    }
    word.iter().try_fold(0u64, |number, &digit| {
        if !digit.is_ascii_digit() {
            return Err(NotALine);
        }
        let shifted = number.checked_mul(10).ok_or(NotALine)?;
        shifted.checked_add(u64::from(digit - b'0')).ok_or(NotALine)
    })
}

pub fn u32_of(word: &[u8]) -> Result<u32, NotALine> {
    u32::try_from(number_of(word)?).map_err(|_| NotALine)
}

pub fn byte_of(word: &[u8]) -> Result<u8, NotALine> {
    u8::try_from(number_of(word)?).map_err(|_| NotALine)
}

pub fn length_of(word: &[u8]) -> Result<usize, NotALine> {
    let length = number_of(word)?;
    if length > IMAGE_BYTES_MAX {
        return Err(NotALine);
    }
    Ok(length as usize)
}

/// Pairs of numbers, at least one: where a range begins, and its length.
pub fn ranges_of(words: &[&[u8]]) -> Result<Vec<(u64, u64)>, NotALine> {
    if words.is_empty() || !words.len().is_multiple_of(2) {
        return Err(NotALine);
    }
    let pairs = words.chunks_exact(2);
    pairs.map(|pair| Ok((number_of(pair[0])?, number_of(pair[1])?))).collect()
}

pub fn bytes_of(word: &[u8]) -> Result<Vec<u8>, NotALine> {
    if word.is_empty() || !word.len().is_multiple_of(2) {
        return Err(NotALine);
    }
    let pairs = word.chunks_exact(2);
    pairs.map(|pair| Ok(nibble(pair[0])? << 4 | nibble(pair[1])?)).collect()
}

fn nibble(digit: u8) -> Result<u8, NotALine> {
    match digit {
        b'0'..=b'9' => Ok(digit - b'0'),
        b'a'..=b'f' => Ok(digit - b'a' + 10),
        _ => Err(NotALine),
    }
}
