//! The numbers of document 01: image length, granule, table addresses and little-endian fields.

use crate::document::refusal::Refusal;

/// Length of a table and of a pointer block, and the unit of image lengths and ranges.
pub const BLOCK_BYTES: usize = 4096;
pub const IMAGE_BYTES_MAX: u64 = 268_435_456;
pub const GRANULES: [u64; 3] = [4096, 32_768, 65_536];
/// What an erased byte reads as.
pub const ERASED: u8 = 0xFF;

/// What the caller gives beside the image: the erase granule and the addresses of SPT0 and SPT1.
#[derive(Clone, Copy, Debug, Default, PartialEq, Eq)]
pub struct Geometry {
    pub granule: u64,
    pub table_addresses: [u64; 2],
}

impl Geometry {
    /// Refusals 1, 2 and 3, in this order.
    pub fn check(&self, image_length: u64) -> Result<(), Refusal> {
        let whole_blocks = image_length.is_multiple_of(BLOCK_BYTES as u64);
        if image_length == 0 || image_length > IMAGE_BYTES_MAX || !whole_blocks {
            return Err(Refusal::ImageLength);
        }
        if !GRANULES.contains(&self.granule) {
            return Err(Refusal::Granule);
        }
        let [first, second] = self.table_addresses;
        if first == second
            || !self.granule_inside(first, image_length)
            || !self.granule_inside(second, image_length)
        {
            return Err(Refusal::TableAddresses);
        }
        Ok(())
    }

    fn granule_inside(&self, address: u64, image_length: u64) -> bool {
        address.is_multiple_of(self.granule) && ends_by(address, self.granule, image_length)
    }
}

/// Whether `start + length` is at most `bound`, exactly.
pub fn ends_by(start: u64, length: u64, bound: u64) -> bool {
    start.checked_add(length).is_some_and(|end| end <= bound)
}

pub fn u32_at(bytes: &[u8], at: usize) -> u32 {
    u32::from_le_bytes(bytes[at..at + 4].try_into().expect("four bytes"))
}

pub fn u64_at(bytes: &[u8], at: usize) -> u64 {
    u64::from_le_bytes(bytes[at..at + 8].try_into().expect("eight bytes"))
}

/// The block of 4,096 bytes at an address that is known to lie inside.
pub fn block_at(image: &[u8], address: usize) -> &[u8] {
    &image[address..address + BLOCK_BYTES]
}
