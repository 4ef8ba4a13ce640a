//! Random flash images whose pairs agree and whose table and pointer block stand.

use std::collections::HashSet;

use crate::cases::flash::{Flash, Partition};
use crate::cases::random::Random;
use crate::document::image::{BLOCK_BYTES, ERASED, GRANULES};
use crate::document::pointers::{
    judge, room, Shape, ERASED_PLACE, OFFSET_LEAST, OFFSET_MOST, PLACE_BYTES,
};
use crate::document::table::{ENTRIES_MAX, ENTRIES_OFFSET, ENTRY_BYTES, FIXED_NAMES, NAME_BYTES};
use crate::replay::IMAGE_BYTES_MAX;

const PAGE: u64 = BLOCK_BYTES as u64;
const PAGES_MAX: u64 = IMAGE_BYTES_MAX / PAGE;
/// Slots that begin at a multiple of this can be what a half-cleared start names.
const HALF_CLEARED_PAGES: u64 = 0x1_0000 / PAGE;

/// A random image.
pub fn random_flash(random: &mut Random) -> Flash {
    let entry_count = entry_count(random);
    random_flash_of(random, entry_count)
}

/// A random image with so many entries.
pub fn random_flash_of(random: &mut Random, entry_count: usize) -> Flash {
    let granule = random.weighted(&[(70, GRANULES[0]), (15, GRANULES[1]), (15, GRANULES[2])]);
    let (mut partitions, pages) = random_partitions(random, granule, entry_count);
    if random.percent(70) {
        random.shuffle(&mut partitions);
    }
    let starts = slot_starts(&partitions);
    let shape = random_shape(random);
    let mut places = random_places(random, &starts, shape.count);
    hold_free_starts(random, &mut places, &free_starts(&partitions, pages));
    let image_length = (pages * PAGE) as usize;
    let mut flash = Flash::new(image_length, granule, partitions, &[]).shaped(shape, &places);
    flash.fill = if random.percent(50) { ERASED } else { random.byte() };
    fill_unjudged(random, &mut flash);
    fill_slots(random, &mut flash);
    flash
}

/// The starts of the application slots, in table order.
pub fn slot_starts(partitions: &[Partition]) -> Vec<u64> {
    let slots = partitions.iter().filter(|partition| is_slot(partition));
    slots.map(|partition| partition.start).collect()
}

/// The multiples of 4,096 that lie in no partition.
fn free_starts(partitions: &[Partition], pages: u64) -> Vec<u64> {
    let free = |start: &u64| {
        let covers = |partition: &Partition| {
            (partition.start..partition.start + u64::from(partition.length)).contains(start)
        };
        !partitions.iter().any(covers)
    };
    (0..pages).map(|page| page * PAGE).filter(free).collect()
}

/// Puts low free starts into a few of the spent places.
fn hold_free_starts(random: &mut Random, places: &mut [u64], free: &[u64]) {
    if free.is_empty() || places.is_empty() || random.percent(40) {
        return;
    }
    for _ in 0..4 {
        let place = random.index(places.len());
        if places[place] == 0 {
            places[place] = free[random.index(free.len().min(3))];
        }
    }
}

fn is_slot(partition: &Partition) -> bool {
    partition.flags & 3 == 0 && !FIXED_NAMES.contains(&&partition.name[..])
}

fn entry_count(random: &mut Random) -> usize {
    let (lowest, highest) = random.weighted(&[
        (40, (6, 12)),
        (25, (13, 30)),
        (20, (31, 60)),
        (8, (61, 125)),
        (4, (ENTRIES_MAX as u64 - 1, ENTRIES_MAX as u64 - 1)),
        (8, (ENTRIES_MAX as u64, ENTRIES_MAX as u64)),
    ]);
    random.between(lowest, highest) as usize
}

/// Partitions in the order of their starts, and the image's length in blocks of 4,096 bytes.
fn random_partitions(
    random: &mut Random,
    granule: u64,
    entry_count: usize,
) -> (Vec<Partition>, u64) {
    let granule_pages = granule / PAGE;
    let mut names: Vec<Vec<u8>> = FIXED_NAMES[1..].iter().map(|name| name.to_vec()).collect();
    names.extend(slot_names(random, entry_count - FIXED_NAMES.len()));
    random.shuffle(&mut names);
    names.insert(0, FIXED_NAMES[0].to_vec());
    // Each of the four blocks may lose almost a granule to its alignment.
    let needed = entry_count as u64 + 4 * 2 * granule_pages;
    let mut slack = PAGES_MAX.saturating_sub(needed);
    let mut page = 0;
    let mut partitions = Vec::new();
    for name in names {
        let block = FIXED_NAMES[2..].contains(&&name[..]);
        let boot_info = name == FIXED_NAMES[0];
        let fixed = block || boot_info || name == FIXED_NAMES[1];
        let gap = if boot_info { 0 } else { random_gap(random, page, fixed).min(slack) };
        slack -= gap;
        page += gap;
        if block {
            page = page.next_multiple_of(granule_pages);
        }
        let longer = if block { 50 } else { 20 };
        let more = if !random.percent(longer) { 0 } else { random.between(1, 3).min(slack) };
        slack -= more;
        let pages = more + if block { granule_pages } else { 1 };
        let flags = random_flags(random, fixed);
        partitions.push(Partition {
            name,
            start: page * PAGE,
            length: (pages * PAGE) as u32,
            flags,
        });
        page += pages;
    }
    let after = random.weighted(&[(25, 0), (25, 1), (20, 3), (30, 8)]).min(PAGES_MAX - page);
    (partitions, page + after)
}

fn random_gap(random: &mut Random, page: u64, fixed: bool) -> u64 {
    if !fixed && random.percent(12) {
        return page.next_multiple_of(HALF_CLEARED_PAGES) - page;
    }
    random.weighted(&[(80, 0), (13, 1), (7, 2)])
}

fn random_flags(random: &mut Random, fixed: bool) -> u32 {
    let higher = if random.percent(85) { 0 } else { random.number() as u32 & !3 };
    let judged = if fixed {
        random.weighted(&[(50, 1), (35, 3), (15, 0)])
    } else {
        random.weighted(&[(85, 0), (5, 1), (5, 2), (5, 3)])
    };
    higher | judged
}

/// Names that differ from each other and from the six, some of them only just.
fn slot_names(random: &mut Random, count: usize) -> Vec<Vec<u8>> {
    const NEARLY_FIXED: [&[u8]; 8] =
        [b"SPT", b"SPT2", b"SPT00", b"spt0", b"CPB", b"BOOT_INF", b"BOOT_INFO_", b"FACTORY_IMAGE2"];
    let mut met: HashSet<Vec<u8>> = FIXED_NAMES.iter().map(|name| name.to_vec()).collect();
    let mut names = Vec::new();
    while names.len() < count {
        let name = match random.below(100) {
            0..=59 => format!("P{}", names.len() + 1).into_bytes(),
            60..=79 => random_name(random),
            80..=89 => format!("SLOT.{}", random.below(1000)).into_bytes(),
            _ => random.pick(&NEARLY_FIXED).to_vec(),
        };
        if met.insert(name.clone()) {
            names.push(name);
        }
    }
    names
}

/// A name of 1 to 15 bytes, none of them zero.
pub fn random_name(random: &mut Random) -> Vec<u8> {
    let length = random.pick(&[1, 2, 3, 5, 8, 12, 14, 15, 15]);
    (0..length).map(|_| random.between(1, 255) as u8).collect()
}

/// The shape of a pointer block: the old edition's, or any other, often of few places.
fn random_shape(random: &mut Random) -> Shape {
    if random.percent(45) {
        return Shape::OLD_EDITION;
    }
    let any = OFFSET_LEAST + PLACE_BYTES * random.index(room(OFFSET_LEAST));
    let [next, last_but_one] = [OFFSET_LEAST + PLACE_BYTES, OFFSET_MOST - PLACE_BYTES];
    let offset = random.weighted(&[
        (12, OFFSET_LEAST),
        (15, next),
        (58, any),
        (7, last_but_one),
        (8, OFFSET_MOST),
    ]);
    let most = room(offset) as u64;
    let count = match random.below(100) {
        0..=17 => most,
        18..=29 => most - u64::from(most > 1),
        30..=79 => random.between(1, most.min(12)),
        _ => random.between(1, most),
    };
    Shape { offset, count: count as usize }
}

/// The values of the places up to the highest one used, of so many that there are.
fn random_places(random: &mut Random, starts: &[u64], count: usize) -> Vec<u64> {
    if count <= starts.len() && random.percent(30) {
        return different_starts(random, starts, count);
    }
    let count = count as u64;
    let ranges = [
        (10, (0, 0)),
        (45, (1, 12)),
        (20, (13, 120)),
        (5, (121, count)),
        (20, (count.saturating_sub(2), count - 1)),
        (8, (count, count)),
    ];
    let (lowest, highest) = random.weighted(&ranges);
    let [lowest, highest] = [lowest, highest.max(lowest)].map(|used: u64| used.min(count));
    let used = random.between(lowest, highest);
    // Long scripts are dull: most of a long row is spent places.
    let spent_percent = if used > 120 && random.percent(80) { 92 } else { 20 };
    let mut places: Vec<u64> = (0..used)
        .map(|_| if random.percent(spent_percent) { 0 } else { random_value(random, starts) })
        .collect();
    if let Some(highest) = places.last_mut() {
        if *highest == ERASED_PLACE {
            *highest = 0;
        }
    }
    places
}

/// Every place live, and no two of the same slot: an enable of another slot is refused 15.
fn different_starts(random: &mut Random, starts: &[u64], count: usize) -> Vec<u64> {
    let mut starts = starts.to_vec();
    random.shuffle(&mut starts);
    starts.truncate(count);
    starts
}

/// A live, part-written, half-cleared, stray or erased value of a place.
pub fn random_value(random: &mut Random, starts: &[u64]) -> u64 {
    let start = if starts.is_empty() { 0x9000 } else { random.pick(starts) };
    let bits = 8 * random.between(1, 7);
    match random.below(100) {
        0..=64 => start,
        65..=71 => start | u64::MAX << bits,
        72..=79 => start >> bits << bits,
        80..=83 => random.number(),
        84..=87 => PAGE * random.below(PAGES_MAX),
        88..=89 => start ^ 1 << random.below(64),
        _ => ERASED_PLACE,
    }
}

/// A spent, part-written or stray value of a place, each as often.
pub fn dead_value(random: &mut Random, partitions: &[Partition]) -> u64 {
    let starts = slot_starts(partitions);
    let start = partitions[random.index(partitions.len())].start;
    let number = random.number();
    loop {
        let value = match random.below(3) {
            0 => 0,
            1 => {
                random.pick(&[start | u64::MAX << 56, start | u64::MAX << 24, number | 0xFF << 56])
            }
            _ => random.pick(&[start, start + 1, number, number >> 8, 1, u64::MAX >> 8, 1 << 63]),
        };
        if judge(value, &starts).is_dead() {
            return value;
        }
    }
}

/// Puts random bytes into what document 01 does not judge.
fn fill_unjudged(random: &mut Random, flash: &mut Flash) {
    if random.percent(30) {
        flash.table[12..ENTRIES_OFFSET].copy_from_slice(&random.bytes(ENTRIES_OFFSET - 12));
    }
    if random.percent(30) {
        flash.pointers[0x0C..0x10].copy_from_slice(&random.bytes(4));
        flash.pointers[0x18..0x20].copy_from_slice(&random.bytes(8));
    }
    let starts = slot_starts(&flash.partitions);
    let Shape { offset, .. } = flash.shape;
    fill_around_places(random, &mut flash.pointers[OFFSET_LEAST..offset], &starts);
    fill_around_places(random, &mut flash.pointers[flash.shape.end()..], &starts);
    let uncounted = ENTRIES_OFFSET + ENTRY_BYTES * flash.partitions.len();
    match random.below(100) {
        0..=29 => flash.table[uncounted..].fill(ERASED),
        30..=44 => {
            let rest = &mut flash.table[uncounted..];
            let length = rest.len().min(3 * ENTRY_BYTES);
            rest[..length].copy_from_slice(&random.bytes(length));
        }
        _ => {}
    }
    if random.percent(20) {
        for (number, partition) in flash.partitions.iter().enumerate() {
            let at = ENTRIES_OFFSET + ENTRY_BYTES * number;
            let zero = at + partition.name.len();
            let after = zero + 1..at + NAME_BYTES;
            flash.table[after.clone()].copy_from_slice(&random.bytes(after.len()));
        }
    }
}

/// Puts something into the bytes before or behind the places: other bytes, sometimes what would be
/// pointers to slots if a place was there, sometimes nothing.
fn fill_around_places(random: &mut Random, bytes: &mut [u8], starts: &[u64]) {
    if bytes.is_empty() || random.percent(20) {
        return;
    }
    bytes.fill(random.weighted(&[(40, 0), (20, ERASED), (40, 0xA5)]));
    // Long rows of random bytes would make long scripts.
    let length = bytes.len().min(2 * PLACE_BYTES);
    let [first, last] = if starts.is_empty() || random.percent(50) {
        [random.bytes(length), random.bytes(length)]
    } else {
        [0, 1].map(|_| {
            let pointers = [random.pick(starts), random.pick(starts)].map(u64::to_le_bytes);
            pointers.concat()[..length].to_vec()
        })
    };
    bytes[..length].copy_from_slice(&first);
    let at = bytes.len() - length;
    bytes[at..].copy_from_slice(&last);
}

/// Puts something into most slots. An empty slot's first 4,096 bytes are 0xFF; others have a byte of
/// another value there, often the first one, sometimes only the last.
fn fill_slots(random: &mut Random, flash: &mut Flash) {
    let block = BLOCK_BYTES as u64;
    for partition in flash.partitions.iter().filter(|partition| is_slot(partition)) {
        let empty = random.percent(15);
        if flash.fill != ERASED {
            let erased = match random.below(100) {
                _ if empty => BLOCK_BYTES,
                0..=2 => BLOCK_BYTES - 1,
                _ => continue,
            };
            flash.contents.push((partition.start, vec![ERASED; erased]));
            continue;
        }
        let offset = match random.below(100) {
            // What follows is not looked at.
            0..=29 if empty && u64::from(partition.length) > block => block,
            _ if empty => continue,
            0..=59 => 0,
            60..=74 => block - 1,
            _ => random.below(block),
        };
        let byte = random.weighted(&[(70, 0), (15, 0xFE), (15, 0x7F)]);
        flash.contents.push((partition.start + offset, vec![byte]));
    }
}
