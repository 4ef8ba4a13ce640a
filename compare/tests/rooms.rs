//! Document 02, No. 5: slots created and deleted.

use compare::cases::flash::{partition, Flash};
use compare::cases::layout::random_flash;
use compare::cases::random::Random;
use compare::document::book::{lowest_start, Book, Choice, Item, Outcome};
use compare::document::commands::{start, Command};
use compare::document::image::{u32_at, Geometry};
use compare::document::reading::View;
use compare::document::refusal::Refusal;
use compare::document::rooms::free_start;
use compare::document::shortcut::Shortcut;
use compare::document::steps::Job;

const SPT0: usize = 0x4000;
const SPT1: usize = 0x5000;
const CPB0: usize = 0x6000;
const CPB1: usize = 0x7000;

struct Bench {
    image: Vec<u8>,
    geometry: Geometry,
}

impl Bench {
    fn of(flash: &Flash) -> Bench {
        Bench { image: flash.image(), geometry: flash.geometry() }
    }

    fn quarry() -> Bench {
        Bench::of(&Flash::quarry())
    }

    /// The quarry image with these partitions more and of this length.
    fn with(image_length: usize, more: &[(&str, u64, u32)], places: &[u64]) -> Bench {
        let mut partitions = Flash::quarry().partitions;
        let more = more.iter().map(|&(name, start, length)| partition(name, start, length, 0));
        partitions.extend(more);
        Bench::of(&Flash::new(image_length, 4096, partitions, places))
    }

    fn view(&self) -> View<'_> {
        View::of(&self.image, &self.geometry).expect("a flash to read")
    }

    fn start(&self, command: &Command) -> Result<Job, Refusal> {
        start(&self.image, &self.geometry, command, None)
    }

    fn refused(&self, command: &Command) -> Option<Refusal> {
        self.start(command).err()
    }

    fn finish(&mut self, command: &Command) -> usize {
        let mut job = self.start(command).expect("a job");
        let steps = job.remaining();
        assert_eq!(job.run(&mut self.image, u64::MAX).unwrap_or(0), steps);
        steps
    }

    /// Both tables, which are the same.
    fn table(&self) -> &[u8] {
        assert_eq!(self.image[SPT0..SPT1], self.image[SPT1..SPT1 + 4096]);
        &self.image[SPT0..SPT1]
    }

    /// Stores bytes in both tables or pointer blocks.
    fn put(&mut self, blocks: [usize; 2], at: usize, bytes: &[u8]) {
        for block in blocks {
            self.image[block + at..block + at + bytes.len()].copy_from_slice(bytes);
        }
    }

    /// Where a slot of this length and the name P4 comes to begin.
    fn created_at(&mut self, length: u32) -> Option<u64> {
        let before = self.image.clone();
        if self.refused(&create("P4", length)) == Some(Refusal::NoRoom) {
            return None;
        }
        self.finish(&create("P4", length));
        let entry = *self.view().table.entries.last().expect("the new entry");
        assert_eq!((entry.name_bytes(), entry.length), (&b"P4"[..], length));
        self.image = before;
        Some(entry.start)
    }
}

fn create(name: &str, length: u32) -> Command {
    Command::Create(length, name.as_bytes().to_vec())
}

/// The first worked example: P3 deleted, P4 in its room.
#[test]
fn deleted_room_is_found_again() {
    let mut bench = Bench::quarry();
    assert_eq!(bench.finish(&Command::Delete(2)), 8202);
    assert_eq!(bench.view().order(), [1, 0]);
    assert_eq!(u32_at(bench.table(), 8), 8);
    assert_eq!(bench.view().table.starts, [0x8000, 0x9000]);
    assert_eq!(bench.finish(&create("P4", 0x1000)), 8202);
    assert_eq!(u32_at(bench.table(), 8), 9);
    assert_eq!(bench.view().table.starts, [0x8000, 0x9000, 0xA000]);
    assert_eq!(bench.view().order(), [1, 0]);
}

/// The second one: 0xA000 is in place 2, and P3 is not there.
#[test]
fn a_held_start_is_not_used() {
    let mut partitions = Flash::quarry().partitions;
    partitions.pop();
    let places = [0x8000, 0x9000, 0xA000];
    let mut bench = Bench::of(&Flash::new(65_536, 4096, partitions, &places));
    assert_eq!(bench.finish(&create("P4", 0x1000)), 8202);
    assert_eq!(bench.view().table.starts, [0x8000, 0x9000, 0xB000]);
    assert_eq!(bench.view().order(), [1, 0]);
}

#[test]
fn the_bytes_of_a_created_entry() {
    let mut bench = Bench::quarry();
    // Rows 9 and 10 are not counted; what is there is junk.
    bench.put([SPT0, SPT1], 0x20 + 32 * 9, &[0xEE; 64]);
    bench.put([SPT0, SPT1], 12, &[0x77; 20]);
    let mut expected = bench.table().to_vec();
    expected[8] = 10;
    let row = &mut expected[0x20 + 32 * 9..][..32];
    row.fill(0);
    row[..15].copy_from_slice(b"FIFTEEN-LETTERS");
    row[17] = 0xB0;
    row[25] = 0x20;
    assert_eq!(bench.finish(&create("FIFTEEN-LETTERS", 0x2000)), 8202);
    assert_eq!(bench.table(), expected);
}

#[test]
fn the_bytes_after_a_delete() {
    let mut bench = Bench::with(0x20_000, &[("Q", 0x1_0000, 0x1000)], &[0xA000, 0x1_0000]);
    // Each moved row keeps all its bytes, those behind the name's zero included.
    bench.put([SPT0, SPT1], 0x20 + 32 * 8 + 5, &[1, 2, 3]);
    bench.put([SPT0, SPT1], 0x20 + 32 * 9 + 0x1C, &[0xF0, 5, 6, 7]);
    bench.put([SPT0, SPT1], 0x20 + 32 * 10, &[0xEE; 64]);
    bench.put([SPT0, SPT1], 4095, &[1]);
    bench.put([SPT0, SPT1], 12, &[0x77; 20]);
    assert_eq!(bench.view().order(), [3, 2]);
    let mut expected = bench.table().to_vec();
    expected[8] = 9;
    expected.drain(0x20 + 32 * 6..0x20 + 32 * 7);
    expected.truncate(0x20 + 32 * 9);
    expected.resize(4096, 0);
    assert_eq!(bench.finish(&Command::Delete(0)), 8202);
    assert_eq!(bench.table(), expected);
    assert_eq!(bench.view().order(), [2, 1]);
}

#[test]
fn refusals_of_create_in_their_order() {
    let mut bench = Bench::quarry();
    for name in ["", "SIXTEEN--LETTERS", "A\0B", "SPT0", "BOOT_INFO"] {
        assert_eq!(bench.refused(&create(name, 0)), Some(Refusal::NameNotAllowed), "{name}");
    }
    assert_eq!(bench.refused(&create("P2", 0)), Some(Refusal::NameTaken));
    for length in [0, 1, 4095, 4097, 0x1800, u32::MAX] {
        assert_eq!(bench.refused(&create("P4", length)), Some(Refusal::LengthNotAllowed));
    }
    // Free are 0xB000 to 0xFFFF.
    assert_eq!(bench.refused(&create("P4", 0x6000)), Some(Refusal::NoRoom));
    assert_eq!(bench.refused(&create("P4", 0xFFFF_F000)), Some(Refusal::NoRoom));
    assert_eq!(bench.created_at(0x5000), Some(0xB000));
    bench.image[CPB1 + 12] = 1;
    assert_eq!(bench.refused(&create("", 0)), Some(Refusal::PairDisagrees));
}

#[test]
fn a_name_of_an_entry_that_is_not_a_slot() {
    let mut bench = Bench::quarry();
    // P3 becomes a system entry.
    bench.put([SPT0, SPT1], 0x20 + 32 * 8 + 0x1C, &[1]);
    assert_eq!(bench.refused(&create("P3", 0x1000)), Some(Refusal::NameTaken));
    assert_eq!(bench.refused(&Command::Delete(2)), Some(Refusal::NoSuchSlot));
}

#[test]
fn refusals_of_delete_in_their_order() {
    let mut bench = Bench::quarry();
    for slot in [0, 1] {
        assert_eq!(bench.refused(&Command::Delete(slot)), Some(Refusal::SlotInBootOrder));
    }
    for slot in [3, 127, u32::MAX] {
        assert_eq!(bench.refused(&Command::Delete(slot)), Some(Refusal::NoSuchSlot));
    }
    bench.image[SPT1 + 12] = 1;
    assert_eq!(bench.refused(&Command::Delete(3)), Some(Refusal::PairDisagrees));
}

#[test]
fn tables_of_126_and_127_entries() {
    let names: Vec<String> = (0..117).map(|number| format!("S{number}")).collect();
    let more: Vec<(&str, u64, u32)> =
        (16..).zip(&names).map(|(page, name)| (name.as_str(), page * 0x1000, 0x1000)).collect();
    let mut bench = Bench::with(0x10_0000, &more, &[]);
    assert_eq!(u32_at(bench.table(), 8), 126);
    bench.finish(&create("LAST", 0x1000));
    assert_eq!(u32_at(bench.table(), 8), 127);
    assert_eq!(bench.refused(&create("P4", 0)), Some(Refusal::LengthNotAllowed));
    assert_eq!(bench.refused(&create("P4", 0x1000)), Some(Refusal::TableFull));
    assert_eq!(bench.refused(&create("P4", 0xFFFF_F000)), Some(Refusal::TableFull));
    // The last row goes, then the first slot's.
    let last = bench.view().table.slots.len() as u32 - 1;
    bench.finish(&Command::Delete(last));
    assert_eq!(bench.table()[4064..], [0; 32]);
    bench.finish(&create("AGAIN", 0x1000));
    bench.finish(&Command::Delete(0));
    assert_eq!(bench.view().table.entries[125].name_bytes(), b"AGAIN");
    assert_eq!(u32_at(bench.table(), 8), 126);
}

#[test]
fn where_a_slot_comes_to_begin() {
    // Free are 0xB000 to 0xFFFF, then 0x1_2000 to the end.
    let more = [("Q", 0x1_0000, 0x2000)];
    let bench = |places: &[u64]| Bench::with(0x1_8000, &more, places);
    assert_eq!(bench(&[]).created_at(0x5000), Some(0xB000));
    assert_eq!(bench(&[]).created_at(0x6000), Some(0x1_2000));
    assert_eq!(bench(&[]).created_at(0x7000), None);
    // A held start is passed over, not the room behind it.
    assert_eq!(bench(&[0xB000]).created_at(0x1000), Some(0xC000));
    assert_eq!(bench(&[0xB000]).created_at(0x4000), Some(0xC000));
    assert_eq!(bench(&[0xB000]).created_at(0x5000), Some(0x1_2000));
    assert_eq!(bench(&[0xC000]).created_at(0x5000), Some(0xB000));
    assert_eq!(bench(&[0xB001, 0xB000 | 0xFF << 56]).created_at(0x1000), Some(0xB000));
    assert_eq!(bench(&[0x1_2000, 0xB000, 0xC000]).created_at(0x6000), None);
    // In any order, more than once, among others.
    let places = [0xD000, 0xB000, 0xB001, 0, 0xC000, 0xB000, u64::MAX, 0xD000];
    assert_eq!(bench(&places).created_at(0x1000), Some(0xE000));
    assert_eq!(bench(&places).created_at(0x2000), Some(0xE000));
    assert_eq!(bench(&places).created_at(0x3000), Some(0x1_2000));
}

/// A place behind the count holds nothing, and the copy that is read counts.
#[test]
fn places_within_the_count() {
    let mut bench = Bench::with(0x1_8000, &[], &[0x8000, 0xB000]);
    assert_eq!(bench.created_at(0x1000), Some(0xC000));
    bench.put([CPB0, CPB1], 0x14, &[1, 0]);
    assert_eq!(bench.created_at(0x1000), Some(0xB000));
}

#[test]
fn a_start_in_a_large_image() {
    let far = 0xFFF_F000;
    let more = [("Q", 0x1_0000, far - 0x1_0000)];
    assert_eq!(Bench::with(0x1000_0000, &more, &[]).created_at(0x1000), Some(0xB000));
    assert_eq!(Bench::with(0x1000_0000, &[], &[]).created_at(0xFFF_5000), Some(0xB000));
    assert_eq!(Bench::with(0x1000_0000, &[], &[]).created_at(0xFFF_6000), None);
}

/// The search against the rule's words, on any flash.
#[test]
fn the_start_is_the_lowest_of_the_rule() {
    let mut random = Random::new(5);
    let (mut found, mut none) = (0, 0);
    for _ in 0..500 {
        let bench = Bench::of(&random_flash(&mut random));
        let view = bench.view();
        for blocks in [1, 1, 2, 3, 4, 8, 9] {
            let start = free_start(&view, blocks * 0x1000, None);
            assert_eq!(start, lowest_start(&view, u64::from(blocks) * 0x1000));
            found += usize::from(start.is_some());
            none += usize::from(start.is_none());
        }
    }
    assert!(found > 1000 && none > 500, "{found} {none}");
}

#[test]
fn the_book_of_a_create_and_a_delete() {
    let mut bench = Bench::with(0x20_000, &[("Q", 0x1_0000, 0x1000)], &[0x1_0000, 0x8000]);
    let mut book = Book::begin(bench.view().reading());
    assert_eq!(book.reading().order, [0, 3]);
    let mut enter = |command: &Command| {
        let item = Item::of(command, &bench.view());
        let before = bench.view().reading();
        bench.finish(command);
        let found = bench.view().reading();
        assert_ne!(before, found);
        // As a cut item either reading has a choice; finished, the new one alone.
        for (reading, choice) in [(&before, Choice::Unchanged), (&found, Choice::Changed)] {
            let mut cut = Book::begin(before.clone());
            assert_eq!(cut.enter(&item, Outcome::Cut, reading), Some(choice));
        }
        assert_eq!(Book::begin(before.clone()).enter(&item, Outcome::Finished, &before), None);
        assert_eq!(book.enter(&item, Outcome::Finished, &found), Some(Choice::Changed));
        found.order
    };
    assert_eq!(enter(&Command::Delete(1)), [0, 2]);
    assert_eq!(enter(&create("P4", 0x1000)), [0, 2]);
    assert_eq!(enter(&Command::Delete(3)), [0, 2]);
    assert_eq!(enter(&Command::Delete(1)), [0, 1]);
}

#[test]
fn shortcuts_show() {
    let more = [("Q", 0x1_0000, 0x1000)];
    let mut bench = Bench::with(0x1_5000, &more, &[0x8000, 0x1_0000, 0xB000]);
    bench.put([SPT0, SPT1], 0x20 + 32 * 10, &[0xEE; 32]);
    let planted = |command: &Command, shortcut| {
        let mut image = bench.image.clone();
        let job = start(&image, &bench.geometry, command, shortcut);
        job.map(|mut job| {
            job.run(&mut image, u64::MAX).expect("all steps");
            image
        })
    };
    let shows = |command: Command, shortcut| {
        assert!(planted(&command, None) != planted(&command, Some(shortcut)), "{shortcut:?}");
    };
    shows(create("P4", 0x1000), Shortcut::HighestStart);
    shows(create("P4", 0x1000), Shortcut::OverlapsByOneBlock);
    shows(create("P4", 0x1000), Shortcut::HeldStartTaken);
    shows(create("P4", 0x1000), Shortcut::NewEntryFirst);
    shows(create("P4", 0x1000), Shortcut::CountNotRaised);
    shows(create("P4", 0x1000), Shortcut::HighestStart);
    shows(Command::Delete(1), Shortcut::RowLost);
    shows(Command::Delete(1), Shortcut::UncountedRowsKept);
    shows(Command::Delete(1), Shortcut::RankTakenForSlot);
    let whole = create("P4", 0x5000);
    assert_eq!(planted(&whole, Some(Shortcut::ImageEndLeftOut)), Err(Refusal::NoRoom));
    let mut held = Bench::with(0x1_5000, &more, &[0x8000, 0x1_0000, 0xB000]);
    let mut book = Book::begin(held.view().reading());
    let item = Item::of(&create("P4", 0x1000), &held.view());
    // The dead place comes alive, and the order changes.
    held.image = planted(&create("P4", 0x1000), Some(Shortcut::HeldStartTaken)).expect("a job");
    assert_eq!(held.view().order(), [4, 3, 0]);
    assert_eq!(book.enter(&item, Outcome::Finished, &held.view().reading()), None);
}
