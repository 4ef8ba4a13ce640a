//! Room for a new slot: the starts that a create may use.

use std::ops::Range;

use crate::document::image::BLOCK_BYTES;
use crate::document::pointers::PointerBlock;
use crate::document::reading::View;
use crate::document::shortcut::Shortcut;

const BLOCK: u64 = BLOCK_BYTES as u64;

/// The lowest start, a multiple of 4,096, whose range fits the image and overlaps no partition, and
/// which no place of the pointer block read holds; with a shortcut planted, another one.
pub fn free_start(view: &View, length: u32, shortcut: Option<Shortcut>) -> Option<u64> {
    let length = u64::from(length);
    let mut gaps = gaps(view);
    let free_in = |gap: Range<u64>| lowest_in_gap(gap, length, &view.pointers);
    match shortcut {
        Some(Shortcut::HighestStart) => {
            let highest = gaps.filter(|gap| gap.end - gap.start >= length).last()?;
            Some(highest.end - length)
        }
        Some(Shortcut::OverlapsByOneBlock) => {
            gaps.find_map(|gap| free_in(gap.start.saturating_sub(BLOCK)..gap.end))
        }
        Some(Shortcut::HeldStartTaken) => lowest_room(view, length),
        Some(Shortcut::ImageEndLeftOut) => {
            let image_end = view.image.len() as u64;
            gaps.find_map(|gap| free_in(gap.start..gap.end.min(image_end - 1)))
        }
        _ => gaps.find_map(free_in),
    }
}

/// The same with no regard to the places.
pub fn lowest_room(view: &View, length: u64) -> Option<u64> {
    gaps(view).find(|gap| gap.end - gap.start >= length).map(|gap| gap.start)
}

/// What lies between the partitions, upward; some of it empty.
pub fn gaps(view: &View) -> impl Iterator<Item = Range<u64>> {
    let image_end = view.image.len() as u64;
    let partitions = view.table.entries.iter().map(|entry| (entry.start, entry.end()));
    let mut taken: Vec<(u64, u64)> = partitions.chain([(image_end, image_end)]).collect();
    taken.sort_unstable();
    let mut from = 0;
    taken.into_iter().map(move |(start, end)| {
        let gap = from..start;
        from = end;
        gap
    })
}

/// The lowest start in a gap whose range ends there and that no place holds.
fn lowest_in_gap(gap: Range<u64>, length: u64, pointers: &PointerBlock) -> Option<u64> {
    let last = gap.end.checked_sub(length).filter(|&last| last >= gap.start)?;
    let mut held: Vec<u64> =
        pointers.places().filter(|value| (gap.start..=last).contains(value)).collect();
    held.sort_unstable();
    let mut start = gap.start;
    for value in held {
        if value == start {
            start += BLOCK;
        }
    }
    (start <= last).then_some(start)
}
