//! Which copies are read, whether the pairs agree, and what a reader is told of them.

use crate::document::image::{block_at, Geometry};
use crate::document::pointers::{PointerBlock, Shape};
use crate::document::refusal::Refusal;
use crate::document::shortcut::Shortcut;
use crate::document::table::{self, Entry, Rule, Table};

/// A flash that can be read: the copies read and where all four blocks are.
pub struct View<'a> {
    pub image: &'a [u8],
    pub table: Table,
    pub table_addresses: [usize; 2],
    /// Number of the table copy read.
    pub table_copy: usize,
    /// Number of the pointer block copy read.
    pub pointer_copy: usize,
    pub pointers: PointerBlock<'a>,
}

/// The table copy read and the boot order, which is what the book of demand 3 is about.
#[derive(Clone, Debug, PartialEq, Eq)]
pub struct Reading {
    pub table: Vec<u8>,
    pub order: Vec<u32>,
}

impl<'a> View<'a> {
    /// Refusals 1 to 3, 50, 51 and 5.
    pub fn of(image: &'a [u8], geometry: &Geometry) -> Result<View<'a>, Refusal> {
        View::planted(image, geometry, None)
    }

    /// The same, with a shortcut planted.
    pub fn planted(
        image: &'a [u8],
        geometry: &Geometry,
        shortcut: Option<Shortcut>,
    ) -> Result<View<'a>, Refusal> {
        let image_length = image.len() as u64;
        geometry.check(image_length)?;
        let table_addresses = geometry.table_addresses.map(|address| address as usize);
        let standing = |copy: usize| {
            let block = block_at(image, table_addresses[copy]);
            Some((copy, Table::standing(block, image_length, geometry)?))
        };
        let (table_copy, table) = standing(0)
            .or_else(|| standing(1))
            .ok_or_else(|| no_table(image, geometry, shortcut))?;
        let standing = |copy: usize| {
            let bytes = block_at(image, table.pointer_addresses[copy]);
            Some((copy, PointerBlock { bytes, shape: Shape::of(bytes, shortcut)? }))
        };
        let (pointer_copy, pointers) =
            standing(0).or_else(|| standing(1)).ok_or(Refusal::NoPointerBlockStands)?;
        Ok(View { image, table, table_addresses, table_copy, pointer_copy, pointers })
    }

    pub fn table_bytes(&self) -> &'a [u8] {
        block_at(self.image, self.table_addresses[self.table_copy])
    }

    pub fn order(&self) -> Vec<u32> {
        self.pointers.boot_order(&self.table.starts)
    }

    /// Writes the boot order into the front of the row and returns its length.
    pub fn order_into(&self, row: &mut [u32]) -> Result<usize, Refusal> {
        let order = self.order();
        let front = row.get_mut(..order.len()).ok_or(Refusal::RowTooShort)?;
        front.copy_from_slice(&order);
        Ok(order.len())
    }

    /// Entry number and entry of a slot.
    pub fn slot_facts(&self, slot: u32) -> Result<(usize, Entry), Refusal> {
        let number = *self.table.slots.get(slot as usize).ok_or(Refusal::NoSuchSlot)?;
        Ok((number, self.table.entries[number]))
    }

    pub fn reading(&self) -> Reading {
        Reading { table: self.table_bytes().to_vec(), order: self.order() }
    }

    /// Whether the table copies agree. Standing depends on the bytes alone, and the copy read
    /// stands, so that equal bytes are enough.
    pub fn tables_agree(&self) -> bool {
        self.equal(self.table_addresses)
    }

    /// Whether the pointer block copies agree.
    pub fn pointers_agree(&self) -> bool {
        self.equal(self.table.pointer_addresses)
    }

    fn equal(&self, addresses: [usize; 2]) -> bool {
        let [first, second] = addresses.map(|address| block_at(self.image, address));
        first == second
    }
}

/// The refusal where neither table copy stands.
fn no_table(image: &[u8], geometry: &Geometry, shortcut: Option<Shortcut>) -> Refusal {
    let blocks = geometry.table_addresses.map(|address| block_at(image, address as usize));
    let image_length = image.len() as u64;
    let mut faults = blocks.map(|block| {
        table::fault(block, image_length, geometry, shortcut).expect("a rule that is broken")
    });
    let mut magics_wrong = blocks.iter().all(|block| !table::has_magic(block));
    match shortcut {
        Some(Shortcut::FaultOfTheOtherCopy) => faults.reverse(),
        Some(Shortcut::VersionTakenForMagic) => {
            magics_wrong = faults.iter().all(|fault| fault.rule == Rule::MagicAndVersion);
        }
        _ => {}
    }
    if magics_wrong {
        Refusal::NoTableMagic(faults)
    } else {
        Refusal::NoTableStands(faults)
    }
}

/// The order list: writes the slot numbers into the front of the row and returns their count.
pub fn order_list(image: &[u8], geometry: &Geometry, row: &mut [u32]) -> Result<usize, Refusal> {
    View::of(image, geometry)?.order_into(row)
}
