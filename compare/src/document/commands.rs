//! The six commands: what each refuses, and the job that it starts.

use crate::document::image::{block_at, Geometry, BLOCK_BYTES, ERASED};
use crate::document::pointers::{self, room, PointerBlock, Shape, PLACE_BYTES};
use crate::document::reading::View;
use crate::document::refusal::Refusal;
use crate::document::rooms;
use crate::document::shortcut::Shortcut;
use crate::document::steps::{Job, Manner, Stage};
use crate::document::table::{
    name_field, row_offset, Entry, Name, COUNT_FIELD, ENTRIES_MAX, ENTRY_BYTES, FIXED_NAMES,
    NAME_BYTES,
};

#[derive(Clone, Debug, PartialEq, Eq)]
pub enum Command {
    Enable(u32),
    Disable(u32),
    Rename(u32, Vec<u8>),
    /// A slot of this length and name.
    Create(u32, Vec<u8>),
    Delete(u32),
    Repair,
}

/// Starts a command; with a shortcut planted, wrongly.
pub fn start(
    image: &[u8],
    geometry: &Geometry,
    command: &Command,
    shortcut: Option<Shortcut>,
) -> Result<Job, Refusal> {
    let view = View::planted(image, geometry, shortcut)?;
    let starter = Starter { view, shortcut };
    let stages = match command {
        Command::Enable(slot) => starter.enable(*slot)?,
        Command::Disable(slot) => starter.disable(*slot)?,
        Command::Rename(slot, name) => starter.rename(*slot, name)?,
        Command::Create(length, name) => starter.create(*length, name)?,
        Command::Delete(slot) => starter.delete(*slot)?,
        Command::Repair => starter.repair(),
    };
    Ok(Job::new(image.len(), geometry.granule, stages))
}

struct Starter<'a> {
    view: View<'a>,
    shortcut: Option<Shortcut>,
}

impl Starter<'_> {
    fn enable(&self, slot: u32) -> Result<Vec<Stage>, Refusal> {
        self.pairs_agree()?;
        let start = self.slot_start(slot)?;
        let order = self.view.order();
        let first_already = order.first() == Some(&slot);
        let excused = first_already && self.plants(Shortcut::FirstMayBeEmpty);
        if self.slot_empty(start) && !excused {
            return Err(Refusal::SlotEmpty);
        }
        if first_already {
            return Ok(Vec::new());
        }
        if let Some(place) = self.place_to_use() {
            return Ok(self.in_both(|block| self.pointer_bytes_at(block, place, start)));
        }
        let others = order.iter().copied().filter(|&other| other != slot);
        let new_order: Vec<u32> = std::iter::once(slot).chain(others).collect();
        let spare = usize::from(self.plants(Shortcut::FullTooEarly));
        if new_order.len() + spare > self.view.pointers.shape.count {
            return Err(Refusal::OrderTooLong);
        }
        Ok(self.rewrite_order(new_order))
    }

    fn disable(&self, slot: u32) -> Result<Vec<Stage>, Refusal> {
        self.pairs_agree()?;
        let start = self.slot_start(slot)?;
        let order = self.view.order();
        if !order.contains(&slot) {
            return Err(Refusal::NotInBootOrder);
        }
        if self.half_cleared_names_another(slot, start) && !self.plants(Shortcut::ClearsBlindly) {
            let others = order.into_iter().filter(|&other| other != slot);
            return Ok(self.rewrite_order(others.collect()));
        }
        let mut places = self.view.pointers.places_holding(start);
        if self.plants(Shortcut::HighestDuplicateFirst) {
            places.reverse();
        }
        Ok(self.in_both(|block| {
            let zeros = places.iter().flat_map(|&place| self.place_bytes(block, place, 0));
            zeros.collect()
        }))
    }

    fn rename(&self, slot: u32, name: &[u8]) -> Result<Vec<Stage>, Refusal> {
        self.pairs_agree()?;
        self.slot_start(slot)?;
        let field = allowed_name(name)?;
        let entries = &self.view.table.entries;
        let renamed = self.view.table.slots[slot as usize];
        match entries.iter().position(|entry| entry.name == field) {
            Some(number) if number == renamed => return Ok(Vec::new()),
            Some(_) => return Err(Refusal::NameTaken),
            None => {}
        }
        let mut block = whole_block(self.view.table_bytes());
        let at = row_offset(renamed);
        block[at..at + NAME_BYTES].copy_from_slice(&field);
        Ok(self.rewrite_both(self.view.table_addresses, &block))
    }

    fn create(&self, length: u32, name: &[u8]) -> Result<Vec<Stage>, Refusal> {
        self.pairs_agree()?;
        let name = allowed_name(name)?;
        let entries = &self.view.table.entries;
        if entries.iter().any(|entry| entry.name == name) {
            return Err(Refusal::NameTaken);
        }
        if length == 0 || !length.is_multiple_of(BLOCK_BYTES as u32) {
            return Err(Refusal::LengthNotAllowed);
        }
        let count = entries.len();
        if count == ENTRIES_MAX {
            return Err(Refusal::TableFull);
        }
        let start = rooms::free_start(&self.view, length, self.shortcut);
        let start = start.ok_or(Refusal::NoRoom)?;
        let row = Entry { name, start, length, flags: 0 }.row();
        let mut block = whole_block(self.view.table_bytes());
        let mut at = row_offset(count);
        if self.plants(Shortcut::NewEntryFirst) {
            block.copy_within(row_offset(0)..at, row_offset(1));
            at = row_offset(0);
        }
        block[at..at + ENTRY_BYTES].copy_from_slice(&row);
        if !self.plants(Shortcut::CountNotRaised) {
            put_count(&mut block, count + 1);
        }
        Ok(self.rewrite_both(self.view.table_addresses, &block))
    }

    fn delete(&self, slot: u32) -> Result<Vec<Stage>, Refusal> {
        self.pairs_agree()?;
        self.slot_start(slot)?;
        let order = self.view.order();
        let mut in_order = order.contains(&slot);
        if self.plants(Shortcut::RankTakenForSlot) {
            in_order = (slot as usize) < order.len();
        }
        if in_order {
            return Err(Refusal::SlotInBootOrder);
        }
        let deleted = self.view.table.slots[slot as usize];
        let last = self.view.table.entries.len() - 1;
        let mut block = whole_block(self.view.table_bytes());
        let lost = usize::from(self.plants(Shortcut::RowLost) && deleted < last);
        block
            .copy_within(row_offset(deleted + 1 + lost)..row_offset(last + 1), row_offset(deleted));
        if !self.plants(Shortcut::UncountedRowsKept) {
            block[row_offset(last)..].fill(0);
        }
        put_count(&mut block, last);
        Ok(self.rewrite_both(self.view.table_addresses, &block))
    }

    fn repair(&self) -> Vec<Stage> {
        let mut stages = Vec::new();
        if !self.view.tables_agree() {
            let address = self.view.table_addresses[1 - self.view.table_copy];
            stages.push(self.rewrite(address, &whole_block(self.view.table_bytes())));
        }
        if !self.view.pointers_agree() {
            let address = self.view.table.pointer_addresses[1 - self.view.pointer_copy];
            stages.push(self.rewrite(address, &whole_block(self.view.pointers.bytes)));
        }
        stages
    }

    fn pairs_agree(&self) -> Result<(), Refusal> {
        let agree = self.view.tables_agree() && self.view.pointers_agree();
        agree.then_some(()).ok_or(Refusal::PairDisagrees)
    }

    fn slot_start(&self, slot: u32) -> Result<u64, Refusal> {
        let start = self.view.table.starts.get(slot as usize);
        start.copied().ok_or(Refusal::NoSuchSlot)
    }

    /// Whether the first 4,096 bytes of the slot that starts here are all 0xFF.
    fn slot_empty(&self, start: u64) -> bool {
        let first_bytes = block_at(self.view.image, start as usize);
        if self.plants(Shortcut::FirstByteAlone) {
            return first_bytes[0] == ERASED;
        }
        first_bytes == [ERASED; BLOCK_BYTES]
    }

    fn plants(&self, shortcut: Shortcut) -> bool {
        self.shortcut == Some(shortcut)
    }

    fn place_to_use(&self) -> Option<usize> {
        let mut block = self.view.pointers;
        if self.plants(Shortcut::FirstErasedPlace) {
            return block.places().position(|value| value == pointers::ERASED_PLACE);
        }
        if self.plants(Shortcut::FreePlaceBehindLast) {
            block.shape.count = room(block.shape.offset);
        }
        block.free_place()
    }

    /// Whether the start with its lowest 1, 2 or 3 bytes 0 is another slot's.
    fn half_cleared_names_another(&self, slot: u32, start: u64) -> bool {
        let starts = &self.view.table.starts;
        [8, 16, 24].into_iter().any(|bits| {
            let half_cleared = start >> bits << bits;
            let named = starts.iter().position(|&other| other == half_cleared);
            named.is_some_and(|named| named != slot as usize)
        })
    }

    fn pointer_bytes_at(&self, block: usize, place: usize, value: u64) -> Vec<(usize, u8)> {
        let mut bytes: Vec<(usize, u8)> = self.place_bytes(block, place, value).collect();
        if self.plants(Shortcut::TopByteFirst) {
            bytes.reverse();
        }
        bytes
    }

    /// The eight bytes of a place with the addresses they go to, lowest first.
    fn place_bytes(
        &self,
        block: usize,
        place: usize,
        value: u64,
    ) -> impl Iterator<Item = (usize, u8)> {
        let address = block + self.view.pointers.shape.place_offset(place);
        (address..).zip(value.to_le_bytes())
    }

    /// The same bytes programmed in CPB1, then in CPB0.
    fn in_both(&self, bytes: impl Fn(usize) -> Vec<(usize, u8)>) -> Vec<Stage> {
        let [first, second] = self.view.table.pointer_addresses;
        vec![Stage::Program(bytes(second)), Stage::Program(bytes(first))]
    }

    /// Both pointer blocks rewritten with this boot order, which fits; what is not a place is kept.
    fn rewrite_order(&self, order: Vec<u32>) -> Vec<Stage> {
        let PointerBlock { bytes, shape } = self.view.pointers;
        let mut block = whole_block(bytes);
        let places = &mut block[shape.offset..shape.end()];
        places.fill(ERASED);
        for (place, slot) in places.chunks_exact_mut(PLACE_BYTES).zip(order.into_iter().rev()) {
            place.copy_from_slice(&self.view.table.starts[slot as usize].to_le_bytes());
        }
        match self.shortcut {
            Some(Shortcut::BytesBehindErased) => block[shape.end()..].fill(ERASED),
            Some(Shortcut::BytesBeforeErased) => {
                let header = Shape::OLD_EDITION.offset;
                block[header..shape.offset.max(header)].fill(ERASED);
            }
            _ => {}
        }
        self.rewrite_both(self.view.table.pointer_addresses, &block)
    }

    /// Copy 1 rewritten, then copy 0.
    fn rewrite_both(&self, addresses: [usize; 2], block: &[u8; BLOCK_BYTES]) -> Vec<Stage> {
        let [first, second] = addresses;
        vec![self.rewrite(second, block), self.rewrite(first, block)]
    }

    fn rewrite(&self, address: usize, block: &[u8; BLOCK_BYTES]) -> Stage {
        let mut manner = Manner::RIGHT;
        match self.shortcut {
            Some(Shortcut::MagicFirst) => manner.first = 0,
            Some(Shortcut::NoZeros) => manner.zeros = &[],
            Some(Shortcut::NoZerosOverNoMagic) if self.magic_differs(address, block) => {
                manner.zeros = &[];
            }
            Some(Shortcut::ZerosDownward) => manner.zeros = &[3, 2, 1, 0],
            _ => {}
        }
        Stage::rewrite(address, block, manner)
    }

    fn magic_differs(&self, address: usize, block: &[u8; BLOCK_BYTES]) -> bool {
        self.view.image[address..address + 4] != block[..4]
    }
}

/// The field of a name that a slot may get.
fn allowed_name(name: &[u8]) -> Result<Name, Refusal> {
    let length_right = (1..NAME_BYTES).contains(&name.len());
    if !length_right || name.contains(&0) || FIXED_NAMES.contains(&name) {
        return Err(Refusal::NameNotAllowed);
    }
    Ok(name_field(name))
}

fn put_count(table: &mut [u8; BLOCK_BYTES], count: usize) {
    table[COUNT_FIELD..COUNT_FIELD + 4].copy_from_slice(&(count as u32).to_le_bytes());
}

fn whole_block(bytes: &[u8]) -> [u8; BLOCK_BYTES] {
    bytes.try_into().expect("a block")
}
