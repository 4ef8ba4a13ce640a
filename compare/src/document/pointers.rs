//! The configuration pointer block: when a copy stands, its places and what each is judged to be,
//! the boot order, two dumps.

use crate::document::image::{u32_at, u64_at, BLOCK_BYTES};
use crate::document::shortcut::Shortcut;

pub const MAGIC: u32 = 0x5778_9609;
pub const HEADER_SIZE: u32 = 0x18;
/// Where the fields of a block are that say where its places are and how many there are.
pub const OFFSET_FIELD: usize = 0x10;
pub const COUNT_FIELD: usize = 0x14;
pub const PLACE_BYTES: usize = 8;
/// The places begin here at the lowest, and here at the highest.
pub const OFFSET_LEAST: usize = 0x20;
pub const OFFSET_MOST: usize = BLOCK_BYTES - PLACE_BYTES;
/// The most places that a block can have, which are those of the old edition.
pub const PLACES_MAX: usize = room(OFFSET_LEAST);
/// The value of an erased place.
pub const ERASED_PLACE: u64 = u64::MAX;

/// How many places there is room for from an offset to the block's end.
pub const fn room(offset: usize) -> usize {
    (BLOCK_BYTES - offset) / PLACE_BYTES
}

/// Where the places of a block begin, and how many there are.
#[derive(Clone, Copy, Debug, PartialEq, Eq)]
pub struct Shape {
    pub offset: usize,
    pub count: usize,
}

impl Shape {
    /// The shape of every block in document 01.
    pub const OLD_EDITION: Shape = Shape { offset: OFFSET_LEAST, count: PLACES_MAX };

    /// The shape of these bytes, if they are a pointer block that stands; with a shortcut planted,
    /// of more than stand.
    pub fn of(block: &[u8], shortcut: Option<Shortcut>) -> Option<Shape> {
        let stands = block.len() == BLOCK_BYTES
            && u32_at(block, 0x00) == MAGIC
            && u32_at(block, 0x04) == HEADER_SIZE
            && u32_at(block, 0x08) == BLOCK_BYTES as u32;
        if !stands {
            return None;
        }
        let offset = u32_at(block, OFFSET_FIELD) as usize;
        let count = u32_at(block, COUNT_FIELD) as usize;
        let plants = |planted: Shortcut| shortcut == Some(planted);
        let lowest = if plants(Shortcut::OffsetInHeader) { 0x18 } else { OFFSET_LEAST };
        let unit = if plants(Shortcut::OffsetOfFours) { 4 } else { PLACE_BYTES };
        if !(lowest..=OFFSET_MOST).contains(&offset) || !offset.is_multiple_of(unit) {
            return None;
        }
        let least = usize::from(!plants(Shortcut::NoPlaces));
        let most = room(offset) + usize::from(plants(Shortcut::OnePlaceTooMany));
        // The planted place too many is admitted, and not read.
        let read = count.min(room(offset));
        (least..=most).contains(&count).then_some(Shape { offset, count: read })
    }

    /// The offset of a place in its block.
    pub fn place_offset(self, place: usize) -> usize {
        self.offset + PLACE_BYTES * place
    }

    /// Where the last place ends.
    pub fn end(self) -> usize {
        self.place_offset(self.count)
    }

    pub fn last_place(self) -> usize {
        self.count - 1
    }
}

/// Whether these bytes are a pointer block that stands.
pub fn stands(block: &[u8]) -> bool {
    Shape::of(block, None).is_some()
}

/// The dump that stands, the first if both do; an empty part of the first if neither does.
pub fn standing_dump<'a>(first: &'a [u8], second: &'a [u8]) -> &'a [u8] {
    if stands(first) {
        first
    } else if stands(second) {
        second
    } else {
        &first[..0]
    }
}

/// A pointer block that stands.
#[derive(Clone, Copy, Debug)]
pub struct PointerBlock<'a> {
    pub bytes: &'a [u8],
    pub shape: Shape,
}

impl<'a> PointerBlock<'a> {
    /// The values of all places, from place 0 up.
    pub fn places(&self) -> impl DoubleEndedIterator<Item = u64> + ExactSizeIterator + 'a {
        let places = &self.bytes[self.shape.offset..self.shape.end()];
        places.chunks_exact(PLACE_BYTES).map(|bytes| u64_at(bytes, 0))
    }

    /// The slots in boot order, for slots with these starts.
    pub fn boot_order(&self, starts: &[u64]) -> Vec<u32> {
        let mut order = Vec::with_capacity(starts.len());
        let mut met = vec![false; starts.len()];
        for value in self.places().rev() {
            if let Judgement::Live(slot) = judge(value, starts) {
                if !met[slot as usize] {
                    met[slot as usize] = true;
                    order.push(slot);
                }
            }
        }
        order
    }

    /// The lowest place such that it and all above are erased.
    pub fn free_place(&self) -> Option<usize> {
        let used = self.places().rposition(|value| value != ERASED_PLACE);
        let free = used.map_or(0, |place| place + 1);
        (free < self.shape.count).then_some(free)
    }

    /// The places that hold this value, lowest first.
    pub fn places_holding(&self, value: u64) -> Vec<usize> {
        let holding = self.places().enumerate().filter(|&(_, held)| held == value);
        holding.map(|(place, _)| place).collect()
    }
}

/// What a place is judged to be. Document 01's dead places are the spent, part-written and stray.
#[derive(Clone, Copy, Debug, PartialEq, Eq)]
pub enum Judgement {
    Erased,
    /// It holds 0.
    Spent,
    /// It holds the start of this slot.
    Live(u32),
    /// Its top byte is 0xFF, and it is not erased.
    PartWritten(u64),
    Stray(u64),
}

impl Judgement {
    pub fn is_dead(self) -> bool {
        !matches!(self, Judgement::Erased | Judgement::Live(_))
    }
}

/// The judgement of a place with this value, for slots with these starts.
pub fn judge(value: u64, starts: &[u64]) -> Judgement {
    if value == ERASED_PLACE {
        return Judgement::Erased;
    }
    if value == 0 {
        return Judgement::Spent;
    }
    match starts.iter().position(|&start| start == value) {
        Some(slot) => Judgement::Live(slot as u32),
        None if value >> 56 == 0xFF => Judgement::PartWritten(value),
        None => Judgement::Stray(value),
    }
}
