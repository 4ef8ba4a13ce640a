//! The sub-partition table: its entries, when a copy stands, and the application slots.

use crate::document::image::{ends_by, u32_at, u64_at, Geometry, BLOCK_BYTES};
use crate::document::shortcut::Shortcut;

pub const MAGIC: u32 = 0x5771_3427;
pub const VERSION: u32 = 0;
/// Where the number of entries is.
pub const COUNT_FIELD: usize = 8;
pub const ENTRIES_MAX: usize = 127;
pub const ENTRIES_OFFSET: usize = 0x20;
pub const ENTRY_BYTES: usize = 32;
pub const NAME_BYTES: usize = 16;
/// Flag bits 0 (system) and 1 (read only): set in what is not an application slot.
const FLAGS_NOT_A_SLOT: u32 = 0b11;

/// The six names that every table has, in the order of `Fixed`.
pub const FIXED_NAMES: [&[u8]; 6] =
    [b"BOOT_INFO", b"FACTORY_IMAGE", b"SPT0", b"SPT1", b"CPB0", b"CPB1"];
const BOOT_INFO: usize = 0;
const SPT: [usize; 2] = [2, 3];
const CPB: [usize; 2] = [4, 5];

/// What a table copy must be to stand: document 01's sentence, cut at its semicolons.
#[derive(Clone, Copy, Debug, PartialEq, Eq)]
pub enum Rule {
    MagicAndVersion = 1,
    EntryCount = 2,
    NameWithEnd = 3,
    NamesDiffer = 4,
    WholeBlocks = 5,
    InsideImage = 6,
    NoOverlap = 7,
    SixNames = 8,
    BootInfoAtZero = 9,
    TablesWhereSaid = 10,
    OnGranules = 11,
}

/// The number of rules.
pub const RULES: usize = 11;

/// Why a table copy does not stand: the first rule that it breaks, and the entry that does.
#[derive(Clone, Copy, Debug, PartialEq, Eq)]
pub struct Fault {
    pub rule: Rule,
    pub entry: usize,
}

impl Fault {
    /// A fault of the table as a whole.
    fn of_table(rule: Rule) -> Fault {
        Fault { rule, entry: ENTRIES_MAX }
    }
}

/// The offset of an entry in its table.
pub fn row_offset(entry: usize) -> usize {
    ENTRIES_OFFSET + ENTRY_BYTES * entry
}

/// A name as its field holds it, zeros after the name's end: equal exactly when the names are.
pub type Name = [u8; NAME_BYTES];

/// The field of a name of at most 15 bytes.
pub fn name_field(name: &[u8]) -> Name {
    let mut field = [0; NAME_BYTES];
    field[..name.len()].copy_from_slice(name);
    field
}

#[derive(Clone, Copy, Debug, PartialEq, Eq)]
pub struct Entry {
    pub name: Name,
    pub start: u64,
    pub length: u32,
    pub flags: u32,
}

impl Entry {
    /// The entry in these 32 bytes; none if its name has no byte, or no zero within the 16.
    fn read(bytes: &[u8]) -> Option<Entry> {
        let end = bytes[..NAME_BYTES].iter().position(|&byte| byte == 0)?;
        if end == 0 {
            return None;
        }
        Some(Entry {
            name: name_field(&bytes[..end]),
            start: u64_at(bytes, 0x10),
            length: u32_at(bytes, 0x18),
            flags: u32_at(bytes, 0x1C),
        })
    }

    /// The 32 bytes of this entry, with zeros after the name.
    pub fn row(&self) -> [u8; ENTRY_BYTES] {
        let mut row = [0; ENTRY_BYTES];
        row[..NAME_BYTES].copy_from_slice(&self.name);
        row[0x10..0x18].copy_from_slice(&self.start.to_le_bytes());
        row[0x18..0x1C].copy_from_slice(&self.length.to_le_bytes());
        row[0x1C..].copy_from_slice(&self.flags.to_le_bytes());
        row
    }

    /// The name up to its zero.
    pub fn name_bytes(&self) -> &[u8] {
        let end = self.name.iter().position(|&byte| byte == 0);
        &self.name[..end.unwrap_or(NAME_BYTES)]
    }

    fn whole_blocks(&self) -> bool {
        let block = BLOCK_BYTES as u64;
        self.start.is_multiple_of(block)
            && u64::from(self.length).is_multiple_of(block)
            && self.length != 0
    }

    fn inside(&self, image_length: u64) -> bool {
        ends_by(self.start, u64::from(self.length), image_length)
    }

    pub fn end(&self) -> u64 {
        self.start + u64::from(self.length)
    }

    /// For two entries that lie inside the image.
    fn overlaps(&self, other: &Entry) -> bool {
        self.end() > other.start && other.end() > self.start
    }

    fn apart(&self, other: &Entry) -> bool {
        self.name != other.name && !self.overlaps(other)
    }

    fn on_granules(&self, granule: u64) -> bool {
        self.start.is_multiple_of(granule) && u64::from(self.length) >= granule
    }
}

/// A table copy that stands.
#[derive(Clone, Debug)]
pub struct Table {
    pub entries: Vec<Entry>,
    /// Entry number of each application slot.
    pub slots: Vec<usize>,
    /// Start of each application slot.
    pub starts: Vec<u64>,
    /// Addresses of CPB0 and CPB1.
    pub pointer_addresses: [usize; 2],
}

impl Table {
    /// The table in this block, if it stands in an image of this length.
    pub fn standing(block: &[u8], image_length: u64, geometry: &Geometry) -> Option<Table> {
        if !has_magic(block) || u32_at(block, 4) != VERSION {
            return None;
        }
        let count = u32_at(block, 8) as usize;
        if count == 0 || count > ENTRIES_MAX {
            return None;
        }
        let rows = block[ENTRIES_OFFSET..].chunks_exact(ENTRY_BYTES).take(count);
        let entries = rows.map(Entry::read).collect::<Option<Vec<Entry>>>()?;
        let inside = entries.iter().all(|entry| entry.whole_blocks() && entry.inside(image_length));
        if !inside || !all_apart(&entries) {
            return None;
        }
        let fixed = fixed_entries(&entries)?;
        if !fixed_right(&entries, &fixed, geometry) {
            return None;
        }
        Some(Table::with_slots(entries, fixed))
    }

    fn with_slots(entries: Vec<Entry>, fixed: [usize; 6]) -> Table {
        let slots: Vec<usize> = (0..entries.len())
            .filter(|number| entries[*number].flags & FLAGS_NOT_A_SLOT == 0)
            .filter(|number| !fixed.contains(number))
            .collect();
        Table {
            starts: slots.iter().map(|&number| entries[number].start).collect(),
            slots,
            pointer_addresses: CPB.map(|place| entries[fixed[place]].start as usize),
            entries,
        }
    }
}

/// Whether a block begins with a table's magic.
pub fn has_magic(block: &[u8]) -> bool {
    u32_at(block, 0) == MAGIC
}

/// No two entries share a name or overlap.
fn all_apart(entries: &[Entry]) -> bool {
    entries
        .iter()
        .enumerate()
        .all(|(number, entry)| entries[number + 1..].iter().all(|other| entry.apart(other)))
}

/// The entry numbers of the six names, if all are there.
fn fixed_entries(entries: &[Entry]) -> Option<[usize; 6]> {
    let mut numbers = [0; 6];
    for (number, name) in numbers.iter_mut().zip(FIXED_NAMES) {
        let field = name_field(name);
        *number = entries.iter().position(|entry| entry.name == field)?;
    }
    Some(numbers)
}

/// The first rule that the table in this block breaks, one after the other; none if it stands.
pub fn fault(
    block: &[u8],
    image_length: u64,
    geometry: &Geometry,
    shortcut: Option<Shortcut>,
) -> Option<Fault> {
    if !has_magic(block) || u32_at(block, 4) != VERSION {
        return Some(Fault::of_table(Rule::MagicAndVersion));
    }
    let count = u32_at(block, 8) as usize;
    if count == 0 || count > ENTRIES_MAX {
        return Some(Fault::of_table(Rule::EntryCount));
    }
    let mut entries = Vec::with_capacity(count);
    for (entry, row) in block[ENTRIES_OFFSET..].chunks_exact(ENTRY_BYTES).take(count).enumerate() {
        match Entry::read(row) {
            Some(read) => entries.push(read),
            None => return Some(Fault { rule: Rule::NameWithEnd, entry }),
        }
    }
    entry_fault(&entries, image_length, shortcut).or_else(|| match fixed_entries(&entries) {
        Some(fixed) => fixed_fault(&entries, &fixed, geometry),
        None => Some(Fault::of_table(Rule::SixNames)),
    })
}

/// The first of rules 4 to 7 that an entry breaks, and the lowest entry that does. One of two that
/// clash is the later one.
fn entry_fault(entries: &[Entry], image_length: u64, shortcut: Option<Shortcut>) -> Option<Fault> {
    let lowest = |rule: Rule, broken: &dyn Fn(usize, &Entry) -> bool| {
        let entry = (0..entries.len()).find(|&number| broken(number, &entries[number]))?;
        Some(Fault { rule, entry })
    };
    let clashing_with = |number: usize| {
        let (earlier, from_here) = entries.split_at(number);
        if shortcut == Some(Shortcut::EarlierOfTwoThatClash) {
            &from_here[1..]
        } else {
            earlier
        }
    };
    lowest(Rule::NamesDiffer, &|number, entry| {
        clashing_with(number).iter().any(|other| other.name == entry.name)
    })
    .or_else(|| lowest(Rule::WholeBlocks, &|_, entry| !entry.whole_blocks()))
    .or_else(|| lowest(Rule::InsideImage, &|_, entry| !entry.inside(image_length)))
    .or_else(|| {
        lowest(Rule::NoOverlap, &|number, entry| {
            clashing_with(number).iter().any(|other| other.overlaps(entry))
        })
    })
}

/// BOOT_INFO is at 0, SPT0 and SPT1 where the caller said, and the four blocks fit the granule.
fn fixed_right(entries: &[Entry], fixed: &[usize; 6], geometry: &Geometry) -> bool {
    let entry = |place: usize| &entries[fixed[place]];
    entry(BOOT_INFO).start == 0
        && SPT.map(|place| entry(place).start) == geometry.table_addresses
        && SPT.iter().chain(&CPB).all(|&place| entry(place).on_granules(geometry.granule))
}

/// The first of rules 9 to 11 that is broken, and the lowest entry that breaks it.
fn fixed_fault(entries: &[Entry], fixed: &[usize; 6], geometry: &Geometry) -> Option<Fault> {
    let lowest = |rule: Rule, places: &[usize], broken: &dyn Fn(usize, &Entry) -> bool| {
        let broken = places.iter().filter(|&&place| broken(place, &entries[fixed[place]]));
        let entry = broken.map(|&place| fixed[place]).min()?;
        Some(Fault { rule, entry })
    };
    let blocks = [SPT[0], SPT[1], CPB[0], CPB[1]];
    lowest(Rule::BootInfoAtZero, &[BOOT_INFO], &|_, entry| entry.start != 0)
        .or_else(|| {
            lowest(Rule::TablesWhereSaid, &SPT, &|place, entry| {
                entry.start != geometry.table_addresses[place - SPT[0]]
            })
        })
        .or_else(|| {
            lowest(Rule::OnGranules, &blocks, &|_, entry| !entry.on_granules(geometry.granule))
        })
}
