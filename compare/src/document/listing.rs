//! The listing: the boot order, then every place that holds something else than a slot.

use std::fmt;

use crate::document::pointers::{judge, Judgement};
use crate::document::reading::View;
use crate::document::shortcut::Shortcut;
use crate::document::table::Entry;

#[derive(Clone, Debug, PartialEq, Eq)]
pub struct Listing {
    /// The slots in boot order.
    pub slots: Vec<(u32, Entry)>,
    /// The dead places, upward.
    pub dead: Vec<(usize, Judgement)>,
}

impl Listing {
    /// The listing of a flash; with a shortcut planted, wrongly.
    pub fn of(view: &View, shortcut: Option<Shortcut>) -> Listing {
        let slot = |slot: u32| (slot, view.table.entries[view.table.slots[slot as usize]]);
        let slots = view.order().into_iter().map(slot).collect();
        let judged =
            view.pointers.places().map(|value| judge(value, &view.table.starts)).enumerate();
        let mut dead: Vec<(usize, Judgement)> = judged
            .map(|(place, judgement)| (place, planted(judgement, shortcut)))
            .filter(|(_, judgement)| judgement.is_dead())
            .collect();
        if shortcut == Some(Shortcut::PlacesDownward) {
            dead.reverse();
        }
        Listing { slots, dead }
    }
}

fn planted(judgement: Judgement, shortcut: Option<Shortcut>) -> Judgement {
    match (judgement, shortcut) {
        (Judgement::PartWritten(value), Some(Shortcut::PartWrittenIsStray)) => {
            Judgement::Stray(value)
        }
        (Judgement::Spent, Some(Shortcut::SpentIsStray)) => Judgement::Stray(0),
        _ => judgement,
    }
}

/// The lines, without the LF of the last.
impl fmt::Display for Listing {
    fn fmt(&self, out: &mut fmt::Formatter<'_>) -> fmt::Result {
        write!(out, "order slot name start length")?;
        for (rank, (slot, entry)) in (1..).zip(&self.slots) {
            let name: String = entry.name_bytes().iter().map(|&byte| shown(byte)).collect();
            write!(out, "\n{rank} {slot} {name} {} {}", entry.start, entry.length)?;
        }
        if !self.dead.is_empty() {
            write!(out, "\n\nplace kind value")?;
        }
        for (place, judgement) in &self.dead {
            match judgement {
                Judgement::Spent => write!(out, "\n{place} spent 0")?,
                Judgement::PartWritten(value) => write!(out, "\n{place} part-written {value}")?,
                Judgement::Stray(value) => write!(out, "\n{place} stray {value}")?,
                Judgement::Erased | Judgement::Live(_) => {}
            }
        }
        Ok(())
    }
}

/// A byte of a name as it is printed.
fn shown(byte: u8) -> char {
    if (0x21..=0x7E).contains(&byte) {
        char::from(byte)
    } else {
        '?'
    }
}
