//! Wrong programs to be planted on purpose: a comparison that does not notice one of them is worth
//! nothing. The first five are the shortcuts that document 01 warns of; the others are what a
//! request of document 02 would have if it was read carelessly.

#[derive(Clone, Copy, Debug, PartialEq, Eq)]
pub enum Shortcut {
    /// A pointer's top byte is written first.
    TopByteFirst = 1,
    /// A pointer is cleared in place without a look at what the half-cleared value names.
    ClearsBlindly = 2,
    /// The highest duplicate is cleared first.
    HighestDuplicateFirst = 3,
    /// The magic is written with the rest of the header, before the pointers.
    MagicFirst = 4,
    /// The first erased place is used even with live places above it.
    FirstErasedPlace = 5,
    /// No. 8: of two entries that clash, the earlier one is told.
    EarlierOfTwoThatClash = 6,
    /// No. 8: rule 1 broken in both copies is taken for two wrong magics.
    VersionTakenForMagic = 7,
    /// No. 8: what is wrong in SPT1 is told for SPT0.
    FaultOfTheOtherCopy = 8,
    /// No. 2: a slot that is first already may be empty.
    FirstMayBeEmpty = 9,
    /// No. 2: a slot is empty if its first byte is 0xFF.
    FirstByteAlone = 10,
    /// No. 3: a rewriting begins with its erase.
    NoZeros = 11,
    /// No. 3: so does one of a copy without its magic, which does not stand as it is.
    NoZerosOverNoMagic = 12,
    /// No. 3: bytes 3 to 0 are programmed to zero, in this order.
    ZerosDownward = 13,
    /// No. 7: a part-written place is told as stray.
    PartWrittenIsStray = 14,
    /// No. 7: so is a spent one.
    SpentIsStray = 15,
    /// No. 7: the places are listed downward.
    PlacesDownward = 16,
    /// No. 9: a block of no places stands.
    NoPlaces = 17,
    /// No. 9: so does one whose last place ends eight bytes behind the block's end.
    OnePlaceTooMany = 18,
    /// No. 9: the places may begin where the header ends.
    OffsetInHeader = 19,
    /// No. 9: they may begin at any multiple of 4.
    OffsetOfFours = 20,
    /// No. 9: an order that just fits is refused 15.
    FullTooEarly = 21,
    /// No. 9: a rewriting erases the bytes behind the last place.
    BytesBehindErased = 22,
    /// No. 9: a rewriting keeps bytes 0 to 31 alone, and erases the others before the offset.
    BytesBeforeErased = 23,
    /// No. 9: the free place is looked for up to the block's end.
    FreePlaceBehindLast = 24,
    /// No. 5: a create uses the highest start that is free.
    HighestStart = 25,
    /// No. 5: a created slot may begin in the last block of the partition before it.
    OverlapsByOneBlock = 26,
    /// No. 5: it may begin where a dead place points.
    HeldStartTaken = 27,
    /// No. 5: the new entry comes first.
    NewEntryFirst = 28,
    /// No. 5: a create leaves the number of entries as it was.
    CountNotRaised = 29,
    /// No. 5: a delete closes the rows up by one too many.
    RowLost = 30,
    /// No. 5: a delete leaves the uncounted rows as they were.
    UncountedRowsKept = 31,
    /// No. 5: 43 is given for the slots whose number is below the order's length.
    RankTakenForSlot = 32,
    /// No. 5: a created slot must end before the image's end.
    ImageEndLeftOut = 33,
}

impl Shortcut {
    pub const ALL: [Shortcut; 33] = [
        Shortcut::TopByteFirst,
        Shortcut::ClearsBlindly,
        Shortcut::HighestDuplicateFirst,
        Shortcut::MagicFirst,
        Shortcut::FirstErasedPlace,
        Shortcut::EarlierOfTwoThatClash,
        Shortcut::VersionTakenForMagic,
        Shortcut::FaultOfTheOtherCopy,
        Shortcut::FirstMayBeEmpty,
        Shortcut::FirstByteAlone,
        Shortcut::NoZeros,
        Shortcut::NoZerosOverNoMagic,
        Shortcut::ZerosDownward,
        Shortcut::PartWrittenIsStray,
        Shortcut::SpentIsStray,
        Shortcut::PlacesDownward,
        Shortcut::NoPlaces,
        Shortcut::OnePlaceTooMany,
        Shortcut::OffsetInHeader,
        Shortcut::OffsetOfFours,
        Shortcut::FullTooEarly,
        Shortcut::BytesBehindErased,
        Shortcut::BytesBeforeErased,
        Shortcut::FreePlaceBehindLast,
        Shortcut::HighestStart,
        Shortcut::OverlapsByOneBlock,
        Shortcut::HeldStartTaken,
        Shortcut::NewEntryFirst,
        Shortcut::CountNotRaised,
        Shortcut::RowLost,
        Shortcut::UncountedRowsKept,
        Shortcut::RankTakenForSlot,
        Shortcut::ImageEndLeftOut,
    ];

    /// The shortcut of this number, from 1.
    pub fn numbered(number: usize) -> Option<Shortcut> {
        Shortcut::ALL.get(number.checked_sub(1)?).copied()
    }
}
