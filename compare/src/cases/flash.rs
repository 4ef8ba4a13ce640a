//! Flash images made to order, as bytes and as the script lines that build them.

use crate::cases::layout::slot_starts;
use crate::document::image::{Geometry, BLOCK_BYTES, ERASED};
use crate::document::pointers::{self, Shape, PLACE_BYTES};
use crate::document::table::{self, ENTRIES_OFFSET, ENTRY_BYTES, NAME_BYTES};
use crate::replay::hex;

#[derive(Clone, Debug)]
pub struct Partition {
    pub name: Vec<u8>,
    pub start: u64,
    pub length: u32,
    pub flags: u32,
}

/// An image whose two pairs agree.
#[derive(Clone)]
pub struct Flash {
    pub image_length: usize,
    pub granule: u64,
    /// The byte outside the four blocks, but for the contents.
    pub fill: u8,
    /// Bytes inside slots, each with their address.
    pub contents: Vec<(u64, Vec<u8>)>,
    pub partitions: Vec<Partition>,
    /// The shape of the pointer block.
    pub shape: Shape,
    pub table: [u8; BLOCK_BYTES],
    pub pointers: [u8; BLOCK_BYTES],
}

impl Flash {
    /// An image with these partitions and these values in the first places; what document 01
    /// does not judge is 0 in tables and headers and 0xFF elsewhere.
    pub fn new(
        image_length: usize,
        granule: u64,
        partitions: Vec<Partition>,
        places: &[u64],
    ) -> Flash {
        let shape = Shape::OLD_EDITION;
        let table = table_block(&partitions);
        let pointers = pointer_block(shape, places);
        let contents = Vec::new();
        Flash { image_length, granule, fill: ERASED, contents, partitions, shape, table, pointers }
    }

    /// With a pointer block of another shape and these values in its first places; 0xFF is in all
    /// its bytes before and behind the places.
    pub fn shaped(mut self, shape: Shape, places: &[u64]) -> Flash {
        self.shape = shape;
        self.pointers = pointer_block(shape, places);
        self
    }

    /// With a first byte of 0 in every slot.
    pub fn with_first_bytes(mut self) -> Flash {
        let starts = slot_starts(&self.partitions);
        self.contents.extend(starts.into_iter().map(|start| (start, vec![0])));
        self
    }

    /// The quarry image of document 01.
    pub fn quarry() -> Flash {
        Flash::quarry_with(65_536, 0x8000, 0x9000, &[0x8000, 0x9000])
    }

    /// The quarry image of another length, with other starts of P1 and P2 and other places.
    pub fn quarry_with(image_length: usize, p1: u64, p2: u64, places: &[u64]) -> Flash {
        let system = |name: &str, start, length| partition(name, start, length, 1);
        let slot = |name: &str, start| partition(name, start, 0x1000, 0);
        let partitions = vec![
            system("BOOT_INFO", 0x0000, 0x2000),
            system("FACTORY_IMAGE", 0x2000, 0x2000),
            system("SPT0", 0x4000, 0x1000),
            system("SPT1", 0x5000, 0x1000),
            system("CPB0", 0x6000, 0x1000),
            system("CPB1", 0x7000, 0x1000),
            slot("P1", p1),
            slot("P2", p2),
            slot("P3", 0xA000),
        ];
        Flash::new(image_length, 4096, partitions, places)
    }

    /// The quarry image with every start, length and place this many times as large, and the
    /// granule too.
    pub fn quarry_wide(times: u32) -> Flash {
        let wide = |partition: &Partition| Partition {
            start: partition.start * u64::from(times),
            length: partition.length * times,
            ..partition.clone()
        };
        let quarry = Flash::quarry();
        let places = [0x8000, 0x9000].map(|start| start * u64::from(times));
        Flash::new(
            quarry.image_length * times as usize,
            quarry.granule * u64::from(times),
            quarry.partitions.iter().map(wide).collect(),
            &places,
        )
    }

    /// The image of the vendor's `rsu list` (document 000, 5.2.3), with the slots' starts and
    /// lengths divided by 64 and the system partitions rounded up to 4,096 bytes.
    pub fn vendor() -> Flash {
        let partitions = vec![
            partition("BOOT_INFO", 0x0_0000, 0x5000, 3),
            partition("FACTORY_IMAGE", 0x0_5000, 0x2_0000, 3),
            partition("P1", 0x4_0000, 0x4_0000, 0),
            partition("SPT0", 0x2_5000, 0x1000, 1),
            partition("SPT1", 0x2_6000, 0x1000, 1),
            partition("CPB0", 0x2_7000, 0x1000, 1),
            partition("CPB1", 0x2_8000, 0x1000, 1),
            partition("P2", 0x8_0000, 0x4_0000, 0),
            partition("P3", 0xC_0000, 0x4_0000, 0),
        ];
        Flash::new(0x10_0000, 4096, partitions, &[0x4_0000])
    }

    /// Start of the partition of this name.
    pub fn start_of(&self, name: &str) -> u64 {
        let named = self.partitions.iter().find(|partition| partition.name == name.as_bytes());
        named.expect("a partition of this name").start
    }

    pub fn table_addresses(&self) -> [u64; 2] {
        ["SPT0", "SPT1"].map(|name| self.start_of(name))
    }

    pub fn pointer_addresses(&self) -> [u64; 2] {
        ["CPB0", "CPB1"].map(|name| self.start_of(name))
    }

    pub fn geometry(&self) -> Geometry {
        Geometry { granule: self.granule, table_addresses: self.table_addresses() }
    }

    pub fn image(&self) -> Vec<u8> {
        let mut image = vec![self.fill; self.image_length];
        let tables = self.table_addresses().map(|address| (address, &self.table));
        let pointers = self.pointer_addresses().map(|address| (address, &self.pointers));
        for (address, block) in tables.into_iter().chain(pointers) {
            image[address as usize..][..BLOCK_BYTES].copy_from_slice(block);
        }
        for (address, bytes) in &self.contents {
            image[*address as usize..][..bytes.len()].copy_from_slice(bytes);
        }
        image
    }

    /// The script lines that build this image and say where its tables are.
    pub fn lines(&self) -> Vec<String> {
        let Geometry { granule, table_addresses: [spt0, spt1] } = self.geometry();
        let [cpb0, cpb1] = self.pointer_addresses();
        let mut lines = vec![
            format!("image {} {}", self.image_length, self.fill),
            format!("box {granule} {spt0} {spt1}"),
        ];
        lines.extend(put_lines(spt0, &self.table, self.fill));
        lines.push(format!("copy {spt0} {spt1} {BLOCK_BYTES}"));
        lines.extend(put_lines(cpb0, &self.pointers, self.fill));
        lines.push(format!("copy {cpb0} {cpb1} {BLOCK_BYTES}"));
        for (address, bytes) in &self.contents {
            lines.extend(put_lines(*address, bytes, self.fill));
        }
        lines
    }
}

pub fn partition(name: &str, start: u64, length: u32, flags: u32) -> Partition {
    Partition { name: name.as_bytes().to_vec(), start, length, flags }
}

fn table_block(partitions: &[Partition]) -> [u8; BLOCK_BYTES] {
    let mut block = [0; BLOCK_BYTES];
    block[0..4].copy_from_slice(&table::MAGIC.to_le_bytes());
    block[4..8].copy_from_slice(&table::VERSION.to_le_bytes());
    block[8..12].copy_from_slice(&(partitions.len() as u32).to_le_bytes());
    let rows = block[ENTRIES_OFFSET..].chunks_exact_mut(ENTRY_BYTES);
    for (row, partition) in rows.zip(partitions) {
        row[..partition.name.len().min(NAME_BYTES)].copy_from_slice(&partition.name);
        row[0x10..0x18].copy_from_slice(&partition.start.to_le_bytes());
        row[0x18..0x1C].copy_from_slice(&partition.length.to_le_bytes());
        row[0x1C..0x20].copy_from_slice(&partition.flags.to_le_bytes());
    }
    block
}

fn pointer_block(shape: Shape, places: &[u64]) -> [u8; BLOCK_BYTES] {
    let mut block = [ERASED; BLOCK_BYTES];
    block[..pointers::OFFSET_LEAST].fill(0);
    let mut field = |at: usize, value: u32| block[at..at + 4].copy_from_slice(&value.to_le_bytes());
    field(0x00, pointers::MAGIC);
    field(0x04, pointers::HEADER_SIZE);
    field(0x08, BLOCK_BYTES as u32);
    field(pointers::OFFSET_FIELD, shape.offset as u32);
    field(pointers::COUNT_FIELD, shape.count as u32);
    let rows = block[shape.offset..shape.end()].chunks_exact_mut(PLACE_BYTES);
    for (row, value) in rows.zip(places) {
        row.copy_from_slice(&value.to_le_bytes());
    }
    block
}

/// Runs of one byte from this length on are copied, not spelled out.
const LONG_RUN: usize = 128;
/// Bytes of a long run that are spelled out.
const RUN_SEED: usize = 16;
/// Bytes that one `put` line spells out at most.
const PUT_BYTES: usize = 4096;

/// The lines that store bytes where every byte is `fill` so far.
pub fn put_lines(address: u64, bytes: &[u8], fill: u8) -> Vec<String> {
    let mut lines = Vec::new();
    let mut at = address;
    for run in long_runs(bytes) {
        if run.len() < LONG_RUN || run.iter().any(|&byte| byte != run[0]) {
            for part in run.chunks(PUT_BYTES) {
                lines.push(format!("put {at} {}", hex(part)));
                at += part.len() as u64;
            }
            continue;
        }
        if run[0] != fill {
            lines.push(format!("put {at} {}", hex(&run[..RUN_SEED])));
            let mut stored = RUN_SEED;
            while stored < run.len() {
                let length = stored.min(run.len() - stored);
                lines.push(format!("copy {at} {} {length}", at + stored as u64));
                stored += length;
            }
        }
        at += run.len() as u64;
    }
    lines
}

/// Cuts bytes into long runs of one byte and the parts between them.
fn long_runs(bytes: &[u8]) -> Vec<&[u8]> {
    let mut parts = Vec::new();
    let (mut part, mut at) = (0, 0);
    while at < bytes.len() {
        let same = bytes[at..].iter().take_while(|&&byte| byte == bytes[at]).count();
        if same >= LONG_RUN {
            parts.push(&bytes[part..at]);
            parts.push(&bytes[at..at + same]);
            part = at + same;
        }
        at += same;
    }
    parts.push(&bytes[part..]);
    parts.retain(|part| !part.is_empty());
    parts
}
