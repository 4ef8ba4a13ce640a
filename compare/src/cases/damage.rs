//! Damage to a table or a pointer block: every judged field, some that are not judged, and such as
//! breaks a rule of the table.

use crate::cases::flash::Flash;
use crate::cases::layout::{random_value, slot_starts};
use crate::cases::random::Random;
use crate::document::image::BLOCK_BYTES;
use crate::document::pointers::{room, Shape, COUNT_FIELD, OFFSET_FIELD, OFFSET_MOST};
use crate::document::table::{
    ENTRIES_MAX, ENTRIES_OFFSET, ENTRY_BYTES, FIXED_NAMES, NAME_BYTES, RULES,
};

/// Bytes to store, each with its offset in the block.
pub type Damage = Vec<(usize, Vec<u8>)>;

const START: usize = 0x10;
const LENGTH: usize = 0x18;
const FLAGS: usize = 0x1C;

fn entry_offset(number: usize) -> usize {
    ENTRIES_OFFSET + ENTRY_BYTES * number
}

/// Damage to one judged or unjudged field of a table.
pub fn table_damage(random: &mut Random, flash: &Flash) -> Damage {
    let number = random.index(flash.partitions.len());
    // Only a full table shows whether one more than 127 entries is refused.
    if flash.partitions.len() == ENTRIES_MAX && random.percent(40) {
        return vec![(8, random_count(random, flash).to_le_bytes().to_vec())];
    }
    // Only a granule above 4,096 tells the rules on granules from those on blocks.
    if flash.granule > BLOCK_BYTES as u64 && random.percent(25) {
        return block_damage(random, flash);
    }
    match random.below(20) {
        0 => vec![(random.index(4), random.bytes(1))],
        1 => vec![(4 + random.index(4), vec![random.between(1, 255) as u8])],
        2 | 3 => vec![(8, random_count(random, flash).to_le_bytes().to_vec())],
        4 => vec![(entry_offset(number), vec![0])],
        5 => vec![(entry_offset(number), vec![b'n'; NAME_BYTES])],
        6 => same_name(random, flash, number),
        7..=10 => range_damage(random, flash, number),
        11 => fixed_name_damage(random, flash),
        12..=15 => swapped_names(random, flash),
        16 => block_damage(random, flash),
        17 => vec![(entry_offset(number) + FLAGS, vec![random.byte()])],
        18 => vec![(12 + random.index(20), random.bytes(1))],
        _ => vec![(entry_offset(random.index(127)) + random.index(ENTRY_BYTES), random.bytes(1))],
    }
}

/// Damage that mostly breaks this rule of the table first; often in several entries, sometimes a
/// later rule as well.
pub fn rule_damage(random: &mut Random, flash: &Flash, rule: usize) -> Damage {
    let times = random.weighted(&[(50, 1), (30, 2), (20, 3)]);
    let mut damage = Damage::new();
    for _ in 0..times {
        damage.extend(breaking(random, flash, rule));
    }
    if rule < RULES && random.percent(30) {
        let later = random.between(rule as u64 + 1, RULES as u64) as usize;
        damage.extend(breaking(random, flash, later));
    }
    damage
}

fn breaking(random: &mut Random, flash: &Flash, rule: usize) -> Damage {
    let number = random.index(flash.partitions.len());
    let at = entry_offset(number);
    match rule {
        1 if random.percent(60) => {
            let byte = random.index(4);
            vec![(byte, vec![flash.table[byte] ^ 1 << random.below(8)])]
        }
        1 => vec![(4 + random.index(4), vec![random.between(1, 255) as u8])],
        2 => {
            let count: u32 = random.pick(&[0, 128, 129, u32::MAX, 0x0100_0000]);
            vec![(8, count.to_le_bytes().to_vec())]
        }
        3 if random.percent(50) => vec![(at, vec![0])],
        3 => vec![(at, vec![b'n'; NAME_BYTES])],
        4 => same_name(random, flash, number),
        5 => match random.below(3) {
            0 => vec![(at + START, vec![random.between(1, 255) as u8])],
            1 => vec![(at + LENGTH, vec![random.between(1, 255) as u8])],
            _ => vec![(at + LENGTH, vec![0; 4])],
        },
        6 if random.percent(50) => {
            let past_end = flash.image_length as u64 - flash.partitions[number].start + 4096;
            vec![(at + LENGTH, (past_end as u32).to_le_bytes().to_vec())]
        }
        6 => {
            let end = flash.image_length as u64;
            let start = random.pick(&[end, 1 << 32, 1 << 63, u64::MAX - 4095]);
            vec![(at + START, start.to_le_bytes().to_vec())]
        }
        7 => {
            let other = &flash.partitions[random.index(flash.partitions.len())];
            let mut damage = vec![(at + START, other.start.to_le_bytes().to_vec())];
            if random.percent(50) {
                damage.push((at + LENGTH, other.length.to_le_bytes().to_vec()));
            }
            damage
        }
        8 => fixed_name_damage(random, flash),
        9 => swapped_with(random, flash, FIXED_NAMES[0]),
        10 => {
            let name = random.pick(&FIXED_NAMES[2..4]);
            swapped_with(random, flash, name)
        }
        _ if random.percent(70) => block_damage(random, flash),
        _ => {
            let name = random.pick(&FIXED_NAMES[4..]);
            swapped_with(random, flash, name)
        }
    }
}

/// Damage to one judged or unjudged field of a pointer block.
pub fn pointer_damage(random: &mut Random, flash: &Flash) -> Damage {
    let starts = slot_starts(&flash.partitions);
    match random.below(12) {
        judged @ 0..=4 => {
            let field = [0x00, 0x04, 0x08, OFFSET_FIELD, COUNT_FIELD][judged as usize];
            let at = field + random.index(4);
            vec![(at, vec![flash.pointers[at] ^ 1 << random.below(8)])]
        }
        5 => vec![(random.pick(&[0x0C, 0x0F, 0x18, 0x1F]), random.bytes(1))],
        6..=8 => shape_damage(random, flash.shape),
        _ => {
            let places = random.pick(&[4, 40, flash.shape.count]).min(flash.shape.count);
            let at = flash.shape.place_offset(random.index(places));
            vec![(at, random_value(random, &starts).to_le_bytes().to_vec())]
        }
    }
}

/// Another offset, another count or both; many of them just outside the rule.
pub fn shape_damage(random: &mut Random, shape: Shape) -> Damage {
    let any = random.number() as u32;
    let offset = shape.offset as u32;
    let most = OFFSET_MOST as u32;
    let offsets = [
        0,
        0x18,
        0x18,
        0x18,
        0x1C,
        0x20,
        0x28,
        most,
        most + 4,
        most + 8,
        offset + 4,
        offset + 4,
        offset + 8,
        offset - 4,
        offset - 4,
        offset - 4,
        offset | 1 << 16,
        u32::MAX - 7,
        u32::MAX,
        any,
    ];
    let room = room(shape.offset) as u32;
    let counts = [0, 0, 1, room - 1, room, room + 1, room + 1, 508, 509, 1 << 29, u32::MAX, any];
    let new_offset = (OFFSET_FIELD, random.pick(&offsets).to_le_bytes().to_vec());
    let new_count = (COUNT_FIELD, random.pick(&counts).to_le_bytes().to_vec());
    match random.below(10) {
        0..=3 => vec![new_offset],
        4..=7 => vec![new_count],
        _ => vec![new_offset, new_count],
    }
}

fn random_count(random: &mut Random, flash: &Flash) -> u32 {
    let count = flash.partitions.len() as u32;
    let other = random.number() as u32;
    random.pick(&[0, 128, 129, u32::MAX, other, count - 1, count + 1, 127, count | 1 << 16])
}

/// The name of another entry, the same only up to its zero.
fn same_name(random: &mut Random, flash: &Flash, number: usize) -> Damage {
    let other = random.index(flash.partitions.len());
    let mut field = flash.partitions[other].name.clone();
    field.push(0);
    if random.percent(50) {
        field.extend(random.bytes(NAME_BYTES - field.len()));
    }
    vec![(entry_offset(number), field)]
}

fn range_damage(random: &mut Random, flash: &Flash, number: usize) -> Damage {
    let at = entry_offset(number);
    let partition = &flash.partitions[number];
    let other = &flash.partitions[random.index(flash.partitions.len())];
    let (start, length) = (partition.start, partition.length);
    let to_end = (flash.image_length as u64 - start) as u32;
    let new_start = |value: u64| vec![(at + START, value.to_le_bytes().to_vec())];
    let new_length = |value: u32| vec![(at + LENGTH, value.to_le_bytes().to_vec())];
    match random.below(12) {
        // Where there is room, the range stays inside its old one, so that nothing else is wrong.
        0 => {
            let mut damage = new_start(start + random.between(1, 4095));
            if length > 4096 {
                damage.extend(new_length(length - 4096));
            }
            damage
        }
        1 => new_length(length - random.between(1, 4095) as u32),
        2 => new_length(0),
        3 => new_length(to_end),
        4 => new_length(to_end + 4096),
        5 => new_length(0xFFFF_F000),
        6 => new_start(random.pick(&[u64::MAX - 4095, 1 << 63, 1 << 32 | start])),
        7 => new_start(flash.image_length as u64 - u64::from(length)),
        8 => new_start(flash.image_length as u64),
        9 => new_start(other.start),
        10 => new_start(other.start + u64::from(other.length)),
        _ => new_length(length + 4096),
    }
}

/// One of the six names spelled otherwise.
fn fixed_name_damage(random: &mut Random, flash: &Flash) -> Damage {
    let name = random.pick(&FIXED_NAMES);
    let at = entry_offset(number_of(flash, name));
    let letter = random.index(name.len());
    match random.below(3) {
        0 => vec![(at + letter, vec![name[letter] ^ 0x20])],
        1 => vec![(at + name.len(), b"x\0".to_vec())],
        _ => vec![(at + name.len() - 1, vec![0])],
    }
}

/// Two entries with each other's name, one of them a fixed one: all else stays right.
fn swapped_names(random: &mut Random, flash: &Flash) -> Damage {
    let name = random.pick(&FIXED_NAMES);
    swapped_with(random, flash, name)
}

/// The entry of this name and another one with each other's name.
fn swapped_with(random: &mut Random, flash: &Flash, name: &[u8]) -> Damage {
    let first = number_of(flash, name);
    let second = if random.percent(40) {
        number_of(flash, random.pick(&FIXED_NAMES))
    } else {
        random.index(flash.partitions.len())
    };
    let field = |number: usize| {
        let at = entry_offset(number);
        flash.table[at..at + NAME_BYTES].to_vec()
    };
    vec![(entry_offset(first), field(second)), (entry_offset(second), field(first))]
}

/// One of the four blocks' partitions shorter than a granule, or off a granule's border.
fn block_damage(random: &mut Random, flash: &Flash) -> Damage {
    let number = number_of(flash, random.pick(&FIXED_NAMES[2..]));
    let at = entry_offset(number);
    let partition = &flash.partitions[number];
    let granule = flash.granule as u32;
    let shorter = |length: u32| (at + LENGTH, length.to_le_bytes().to_vec());
    if partition.length > granule && random.percent(70) {
        let start = partition.start + BLOCK_BYTES as u64;
        return vec![(at + START, start.to_le_bytes().to_vec()), shorter(granule)];
    }
    vec![shorter(granule - BLOCK_BYTES as u32)]
}

fn number_of(flash: &Flash, name: &[u8]) -> usize {
    let named = flash.partitions.iter().position(|partition| partition.name == name);
    named.expect("all six are named")
}
