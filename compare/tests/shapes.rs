//! Document 02, No. 9: pointer blocks of any offset and count.

use compare::cases::flash::Flash;
use compare::cases::layout::random_flash;
use compare::cases::random::Random;
use compare::document::commands::{start, Command};
use compare::document::image::{Geometry, ERASED};
use compare::document::listing::Listing;
use compare::document::pointers::{
    judge, standing_dump, stands, Judgement, Shape, COUNT_FIELD, OFFSET_FIELD,
};
use compare::document::reading::View;
use compare::document::refusal::Refusal;
use compare::document::shortcut::Shortcut;
use compare::document::steps::Job;

const CPB0: usize = 0x6000;
const CPB1: usize = 0x7000;

struct Bench {
    image: Vec<u8>,
    geometry: Geometry,
}

impl Bench {
    fn of(flash: &Flash) -> Bench {
        Bench { image: flash.image(), geometry: flash.geometry() }
    }

    /// The quarry image with no slot empty and a pointer block of this shape.
    fn quarry(offset: usize, count: usize, places: &[u64]) -> Bench {
        let flash = Flash::quarry().with_first_bytes();
        Bench::of(&flash.shaped(Shape { offset, count }, places))
    }

    fn view(&self) -> View<'_> {
        View::of(&self.image, &self.geometry).expect("a flash to read")
    }

    fn start(&self, command: Command) -> Result<Job, Refusal> {
        start(&self.image, &self.geometry, &command, None)
    }

    fn enabled(&self, slot: u32) -> Result<usize, Refusal> {
        self.start(Command::Enable(slot)).map(|job| job.remaining())
    }

    fn finish(&mut self, command: Command) -> usize {
        let mut job = self.start(command).expect("a job");
        let steps = job.remaining();
        assert_eq!(job.run(&mut self.image, u64::MAX).unwrap_or(0), steps);
        steps
    }

    /// Stores bytes in both pointer blocks.
    fn put(&mut self, at: usize, bytes: &[u8]) {
        for block in [CPB0, CPB1] {
            self.image[block + at..block + at + bytes.len()].copy_from_slice(bytes);
        }
    }

    /// Both pointer blocks, which are the same.
    fn block(&self) -> &[u8] {
        assert_eq!(self.image[CPB0..CPB1], self.image[CPB1..CPB1 + 4096]);
        &self.image[CPB0..CPB1]
    }
}

/// The quarry's pointer block with this offset and count in its header.
fn with_fields(offset: u32, count: u32) -> [u8; 4096] {
    let mut block = Flash::quarry().pointers;
    block[OFFSET_FIELD..OFFSET_FIELD + 4].copy_from_slice(&offset.to_le_bytes());
    block[COUNT_FIELD..COUNT_FIELD + 4].copy_from_slice(&count.to_le_bytes());
    block
}

#[test]
fn every_offset_with_the_counts_at_the_border() {
    for offset in 0..=4200 {
        let room = (4096 - offset.min(4096)) / 8;
        let right = (0x20..=4088).contains(&offset) && offset % 8 == 0;
        for (count, fits) in [(0, false), (1, true), (room, true), (room + 1, false)] {
            assert_eq!(stands(&with_fields(offset, count)), right && fits, "{offset} {count}");
        }
    }
}

#[test]
fn great_numbers_do_not_wrap() {
    let greatest = u32::MAX;
    for (offset, count) in [
        (greatest - 7, greatest),
        (greatest - 7, 1),
        (greatest - 4063, 508),
        (0x20, greatest),
        (0x20, 1 << 29),
        (0x20, (1 << 29) + 508),
        (0x20, 509),
        (0x28, 508),
        (4088, 2),
        (4096, 0),
        (4096, 1),
        (1 << 31, 1),
        (0x20 | 1 << 16, 508),
        (0x20, 508 | 1 << 16),
    ] {
        assert!(!stands(&with_fields(offset, count)), "{offset} {count}");
    }
    assert!(stands(&with_fields(0x20, 508)));
}

#[test]
fn the_other_fields_are_judged_as_before() {
    let block = with_fields(0x28, 3);
    for at in (0..OFFSET_FIELD).chain(0x18..0x28) {
        let mut changed = block;
        changed[at] ^= 1;
        assert_eq!(stands(&changed), at >= 0x0C, "{at}");
    }
}

#[test]
fn offset_0x28_with_507_places() {
    let mut bench = Bench::quarry(0x28, 507, &[0x8000, 0x9000]);
    assert_eq!(bench.view().order(), [1, 0]);
    assert_eq!(bench.finish(Command::Enable(2)), 16);
    assert_eq!(bench.block()[0x38..0x42], [0x00, 0xA0, 0, 0, 0, 0, 0, 0, ERASED, ERASED]);
    assert_eq!(bench.view().order(), [2, 1, 0]);
    // The last place is 506.
    let mut places = vec![0; 506];
    places[..2].copy_from_slice(&[0x8000, 0x9000]);
    let mut bench = Bench::quarry(0x28, 507, &places);
    assert_eq!(bench.finish(Command::Enable(2)), 16);
    assert_eq!(bench.block()[4088..4090], [0x00, 0xA0]);
    assert_eq!(bench.finish(Command::Enable(0)), 8202);
    assert_eq!(bench.view().order(), [0, 2, 1]);
}

#[test]
fn offset_4088_with_one_place() {
    let bench = Bench::quarry(4088, 1, &[0x8000]);
    assert_eq!(bench.view().order(), [0]);
    assert_eq!(bench.enabled(0), Ok(0));
    assert_eq!(bench.enabled(1), Err(Refusal::OrderTooLong));
    assert_eq!(bench.enabled(3), Err(Refusal::NoSuchSlot));
    // A place that is spent makes room.
    let mut bench = Bench::quarry(4088, 1, &[0]);
    assert_eq!(bench.finish(Command::Enable(1)), 8202);
    assert_eq!(bench.view().order(), [1]);
    assert_eq!(bench.finish(Command::Disable(1)), 16);
    assert_eq!(bench.view().order(), []);
}

#[test]
fn fifteen_is_the_last_check() {
    let mut bench = Bench::quarry(4088, 1, &[0x8000]);
    bench.image[0xA000] = ERASED;
    assert_eq!(bench.enabled(2), Err(Refusal::SlotEmpty));
    bench.image[CPB1 + 0x20] = 0;
    assert_eq!(bench.enabled(2), Err(Refusal::PairDisagrees));
}

/// Four places from 0x20 on, then other bytes; and four from 0x40 on, between other bytes.
#[test]
fn a_rewriting_keeps_what_is_not_a_place() {
    for offset in [0x20, 0x40] {
        let places = [0x8000, 0x8000, 0x8000, 0x9000];
        let mut bench = Bench::quarry(offset, 4, &places);
        let mut before = [0x5A; 4096];
        before[..0x0C].copy_from_slice(&bench.block()[..0x0C]);
        before[0x10..0x18].copy_from_slice(&bench.block()[0x10..0x18]);
        before[offset..offset + 32].copy_from_slice(&bench.block()[offset..offset + 32]);
        // What would be a pointer to slot 2 if a place was there.
        before[offset + 32..offset + 40].copy_from_slice(&0xA000u64.to_le_bytes());
        bench.put(0, &before);
        assert_eq!(bench.view().order(), [1, 0]);
        assert_eq!(bench.finish(Command::Enable(2)), 8202);
        assert_eq!(bench.view().order(), [2, 1, 0]);
        let mut after = before;
        let places = [0x8000, 0x9000, 0xA000, u64::MAX].map(u64::to_le_bytes);
        after[offset..offset + 32].copy_from_slice(&places.concat());
        assert_eq!(bench.block(), after);
    }
}

#[test]
fn a_disable_that_rewrites_keeps_it_too() {
    let flash = Flash::quarry_with(73_728, 0x11000, 0x10000, &[]);
    let places = [0x11000, 0x10000];
    let mut bench = Bench::of(&flash.shaped(Shape { offset: 0x30, count: 3 }, &places));
    bench.put(0x20, &[7; 16]);
    bench.put(0x48, b"behind");
    bench.put(4095, &[9]);
    let mut after = bench.block().to_vec();
    assert_eq!(bench.finish(Command::Disable(0)), 8202);
    after[0x30..0x40].copy_from_slice(&[0x10000, u64::MAX].map(u64::to_le_bytes).concat());
    assert_eq!(bench.block(), after);
}

#[test]
fn copies_of_different_shape_disagree() {
    let mut bench = Bench::quarry(0x20, 508, &[0x8000, 0x9000]);
    bench.image[CPB1 + COUNT_FIELD] -= 1;
    assert_eq!(bench.view().order(), [1, 0]);
    let commands = [Command::Enable(1), Command::Disable(1), Command::Rename(1, b"P2".to_vec())];
    for command in commands {
        assert_eq!(bench.start(command).err(), Some(Refusal::PairDisagrees));
    }
    assert_eq!(bench.finish(Command::Repair), 4101);
    assert_eq!(bench.block()[COUNT_FIELD], 0xFC);
    // The shape of the copy read counts.
    bench.image[CPB0 + OFFSET_FIELD] = 0x28;
    bench.image[CPB0 + COUNT_FIELD] -= 1;
    assert_eq!(bench.view().order(), [1]);
    assert_eq!(bench.finish(Command::Repair), 4101);
    assert_eq!(bench.block()[OFFSET_FIELD], 0x28);
}

#[test]
fn dumps_and_listing() {
    let [shaped, wrong] = [with_fields(0x28, 507), with_fields(0x28, 508)];
    let old = with_fields(0x20, 508);
    assert_eq!(standing_dump(&wrong, &shaped), shaped);
    assert_eq!(standing_dump(&shaped, &old), shaped);
    assert_eq!(standing_dump(&wrong, &wrong[1..]), []);
    let mut bench = Bench::quarry(0x40, 3, &[0x8000, 0x9000, 0]);
    bench.put(0x38, &[1; 8]);
    bench.put(0x58, &[1; 8]);
    let listed = Listing::of(&bench.view(), None).to_string();
    let second = "\n2 0 P1 32768 4096\n\nplace kind value\n2 spent 0";
    assert!(listed.ends_with(second), "{listed}");
}

/// What an enable answers, in other words: if no other refusal is due, 15 exactly where every place
/// is live, no two name the same slot, and the slot is not among them.
#[test]
fn fifteen_explained() {
    let mut random = Random::new(9);
    let mut refused = 0;
    for _ in 0..600 {
        let bench = Bench::of(&random_flash(&mut random));
        let view = bench.view();
        let starts = &view.table.starts;
        for slot in 0..starts.len() as u32 {
            let enabled = bench.enabled(slot);
            if enabled == Err(Refusal::SlotEmpty) {
                continue;
            }
            let judged = view.pointers.places().map(|value| judge(value, starts));
            let mut live: Vec<u32> = judged
                .filter_map(|judgement| match judgement {
                    Judgement::Live(slot) => Some(slot),
                    _ => None,
                })
                .collect();
            let all_live = live.len() == view.pointers.shape.count;
            live.sort_unstable();
            live.dedup();
            let different = live.len() == view.pointers.shape.count;
            let too_long = all_live && different && !live.contains(&slot);
            assert_eq!(enabled == Err(Refusal::OrderTooLong), too_long);
            refused += usize::from(too_long);
        }
    }
    assert!(refused > 200, "only {refused}");
}

#[test]
fn shortcuts_show() {
    let bench = Bench::quarry(0x40, 2, &[0x8000, 0]);
    let planted = |bench: &Bench, shortcut| {
        let mut image = bench.image.clone();
        let job = start(&image, &bench.geometry, &Command::Enable(2), shortcut);
        job.map(|mut job| {
            job.run(&mut image, u64::MAX).expect("all steps");
            image
        })
    };
    let mut kept = Bench::quarry(0x40, 2, &[0x8000, 0]);
    kept.put(0x20, &[1; 32]);
    kept.put(0x50, &[2; 32]);
    use Shortcut::{BytesBeforeErased, BytesBehindErased, FreePlaceBehindLast, FullTooEarly};
    assert_eq!(planted(&bench, Some(FullTooEarly)), Err(Refusal::OrderTooLong));
    assert!(planted(&bench, None) != planted(&bench, Some(FreePlaceBehindLast)));
    for shortcut in [BytesBeforeErased, BytesBehindErased] {
        assert!(planted(&bench, None) == planted(&bench, Some(shortcut)));
        assert!(planted(&kept, None) != planted(&kept, Some(shortcut)), "{shortcut:?}");
    }
    let admitted = |offset, count, shortcut| {
        let block = with_fields(offset, count);
        !stands(&block) && Shape::of(&block, Some(shortcut)).is_some()
    };
    assert!(admitted(0x20, 0, Shortcut::NoPlaces));
    assert!(admitted(0x20, 509, Shortcut::OnePlaceTooMany));
    assert!(admitted(0x18, 508, Shortcut::OffsetInHeader));
    assert!(admitted(0x24, 507, Shortcut::OffsetOfFours));
}
