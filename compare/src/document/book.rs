//! The book of demand 3: one reading, changed by commands as the documents say and by nothing else.
//! It is written without a look at how the commands do it.

use crate::document::commands::Command;
use crate::document::image::{u32_at, BLOCK_BYTES};
use crate::document::reading::{Reading, View};
use crate::document::table::{ENTRIES_MAX, ENTRIES_OFFSET, ENTRY_BYTES, FIXED_NAMES, NAME_BYTES};

/// What the book is told of an item: the command with its arguments and, for a create, the start
/// that the rule gives for the flash that it got.
pub struct Item {
    command: Command,
    start: Option<u64>,
}

impl Item {
    /// An item whose command gets this flash.
    pub fn of(command: &Command, got: &View) -> Item {
        let start = match command {
            Command::Create(length, _) => lowest_start(got, u64::from(*length)),
            _ => None,
        };
        Item { command: command.clone(), start }
    }
}

/// What became of an item.
#[derive(Clone, Copy, Debug, PartialEq, Eq)]
pub enum Outcome {
    Refused,
    Finished,
    Cut,
}

/// Which of the book's choices a reading agrees with.
#[derive(Clone, Copy, Debug, PartialEq, Eq)]
pub enum Choice {
    Unchanged,
    Changed,
}

pub struct Book {
    reading: Reading,
}

impl Book {
    pub fn begin(reading: Reading) -> Book {
        Book { reading }
    }

    pub fn reading(&self) -> &Reading {
        &self.reading
    }

    /// Enters an item with the choice that fits the reading found after it; none if none fits.
    pub fn enter(&mut self, item: &Item, outcome: Outcome, found: &Reading) -> Option<Choice> {
        let changed = changed(&self.reading, item);
        let choices: &[Choice] = match outcome {
            Outcome::Refused => &[Choice::Unchanged],
            Outcome::Finished => &[Choice::Changed],
            Outcome::Cut => &[Choice::Unchanged, Choice::Changed],
        };
        let fits = |choice: &&Choice| match choice {
            Choice::Unchanged => *found == self.reading,
            Choice::Changed => *found == changed,
        };
        let choice = *choices.iter().find(fits)?;
        if choice == Choice::Changed {
            self.reading = changed;
        }
        Some(choice)
    }
}

/// The reading with a command's change.
fn changed(reading: &Reading, item: &Item) -> Reading {
    let mut after = reading.clone();
    match &item.command {
        Command::Repair => {}
        Command::Enable(slot) => {
            after.order.retain(|other| other != slot);
            after.order.insert(0, *slot);
        }
        Command::Disable(slot) => after.order.retain(|other| other != slot),
        Command::Rename(slot, name) => rename(&mut after.table, *slot, name),
        Command::Create(length, name) => {
            if let Some(start) = item.start {
                create(&mut after.table, name, start, *length);
            }
        }
        Command::Delete(slot) => {
            delete(&mut after.table, *slot);
            for other in after.order.iter_mut().filter(|other| **other > *slot) {
                *other -= 1;
            }
        }
    }
    after
}

/// Puts the name and zeros into the entry of a slot, unless the name is the same.
fn rename(table: &mut [u8], slot: u32, name: &[u8]) {
    let Some(at) = slot_entries(table).nth(slot as usize) else {
        return;
    };
    let field = &mut table[at..at + NAME_BYTES];
    if up_to_zero(field) != name && name.len() < NAME_BYTES {
        field.fill(0);
        field[..name.len()].copy_from_slice(name);
    }
}

/// Adds an entry behind the last one.
fn create(table: &mut [u8], name: &[u8], start: u64, length: u32) {
    let count = u32_at(table, 8);
    if count as usize >= ENTRIES_MAX || name.len() >= NAME_BYTES {
        return;
    }
    let at = ENTRIES_OFFSET + ENTRY_BYTES * count as usize;
    let mut entry = name.to_vec();
    entry.resize(NAME_BYTES, 0);
    entry.extend(start.to_le_bytes());
    entry.extend(length.to_le_bytes());
    entry.extend([0; 4]);
    table[at..at + ENTRY_BYTES].copy_from_slice(&entry);
    table[8..12].copy_from_slice(&(count + 1).to_le_bytes());
}

/// Takes the entry of a slot out; what is not counted then is zero.
fn delete(table: &mut [u8], slot: u32) {
    let Some(at) = slot_entries(table).nth(slot as usize) else {
        return;
    };
    let count = u32_at(table, 8) as usize;
    let counted = ENTRIES_OFFSET + ENTRY_BYTES * count;
    let mut rows = table[ENTRIES_OFFSET..counted].to_vec();
    rows.drain(at - ENTRIES_OFFSET..at - ENTRIES_OFFSET + ENTRY_BYTES);
    rows.resize(BLOCK_BYTES - ENTRIES_OFFSET, 0);
    table[ENTRIES_OFFSET..].copy_from_slice(&rows);
    table[8..12].copy_from_slice(&(count as u32 - 1).to_le_bytes());
}

/// The start of a new slot by the words of the rule, one multiple of 4,096 after the other.
pub fn lowest_start(got: &View, length: u64) -> Option<u64> {
    let image_length = got.image.len() as u64;
    (0..image_length).step_by(BLOCK_BYTES).find(|&start| {
        let fits = start + length <= image_length;
        let free = got.table.entries.iter().all(|entry| {
            let entry_end = entry.start + u64::from(entry.length);
            start + length <= entry.start || entry_end <= start
        });
        fits && free && got.pointers.places().all(|value| value != start)
    })
}

/// The offsets of the application slots' entries in a table.
fn slot_entries(table: &[u8]) -> impl Iterator<Item = usize> + '_ {
    let count = u32_at(table, 8) as usize;
    let offsets = (0..count).map(|number| ENTRIES_OFFSET + ENTRY_BYTES * number);
    offsets.filter(|&at| {
        let name = up_to_zero(&table[at..at + NAME_BYTES]);
        table[at + 0x1C] & 3 == 0 && !FIXED_NAMES.contains(&name)
    })
}

fn up_to_zero(field: &[u8]) -> &[u8] {
    let end = field.iter().position(|&byte| byte == 0);
    &field[..end.unwrap_or(field.len())]
}
