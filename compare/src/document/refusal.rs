//! The refusal numbers of the documents, in the order in which they are checked.

use crate::document::table::Fault;

#[derive(Clone, Copy, Debug, PartialEq, Eq)]
pub enum Refusal {
    ImageLength,
    Granule,
    TableAddresses,
    /// No table copy stands, and neither has its magic. With what is wrong in SPT0 and in SPT1.
    NoTableMagic([Fault; 2]),
    /// No table copy stands, though one has its magic.
    NoTableStands([Fault; 2]),
    NoPointerBlockStands,
    PairDisagrees,
    NoSuchSlot,
    SlotEmpty,
    /// The boot order with the enabled slot is longer than the pointer block's count.
    OrderTooLong,
    NotInBootOrder,
    NameNotAllowed,
    NameTaken,
    LengthNotAllowed,
    TableFull,
    /// A create finds no start.
    NoRoom,
    SlotInBootOrder,
    JobFinished,
    ImageChanged,
    RowTooShort,
}

/// Every refusal number.
pub const NUMBERS: [usize; 20] =
    [1, 2, 3, 50, 51, 5, 6, 7, 14, 15, 8, 9, 10, 40, 41, 42, 43, 11, 12, 13];

impl Refusal {
    pub fn number(self) -> usize {
        match self {
            Refusal::ImageLength => 1,
            Refusal::Granule => 2,
            Refusal::TableAddresses => 3,
            Refusal::NoTableMagic(_) => 50,
            Refusal::NoTableStands(_) => 51,
            Refusal::NoPointerBlockStands => 5,
            Refusal::PairDisagrees => 6,
            Refusal::NoSuchSlot => 7,
            Refusal::SlotEmpty => 14,
            Refusal::OrderTooLong => 15,
            Refusal::NotInBootOrder => 8,
            Refusal::NameNotAllowed => 9,
            Refusal::NameTaken => 10,
            Refusal::LengthNotAllowed => 40,
            Refusal::TableFull => 41,
            Refusal::NoRoom => 42,
            Refusal::SlotInBootOrder => 43,
            Refusal::JobFinished => 11,
            Refusal::ImageChanged => 12,
            Refusal::RowTooShort => 13,
        }
    }

    /// What is wrong in SPT0 and in SPT1, if that is why.
    pub fn faults(self) -> Option<[Fault; 2]> {
        match self {
            Refusal::NoTableMagic(faults) | Refusal::NoTableStands(faults) => Some(faults),
            _ => None,
        }
    }
}
