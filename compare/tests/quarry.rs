//! Cases 1 to 10 of the documents on the quarry image, and the shortcuts.

use compare::cases::flash::{partition, Flash};
use compare::document::commands::{start, Command};
use compare::document::image::{u64_at, Geometry};
use compare::document::pointers::{Shape, PLACES_MAX};
use compare::document::reading::{order_list, View};
use compare::document::refusal::Refusal;
use compare::document::shortcut::Shortcut;
use compare::document::steps::{Job, Step};
use compare::document::table::{Fault, Rule, ENTRIES_MAX};

const CPB0: usize = 0x6000;
const CPB1: usize = 0x7000;

struct Bench {
    image: Vec<u8>,
    geometry: Geometry,
}

impl Bench {
    fn of(flash: &Flash) -> Bench {
        Bench { image: flash.image(), geometry: flash.geometry() }
    }

    fn quarry() -> Bench {
        Bench::of(&Flash::quarry())
    }

    /// The quarry image with a first byte of 0 in each slot.
    fn sent() -> Bench {
        Bench::of(&Flash::quarry().with_first_bytes())
    }

    fn order(&self) -> Vec<u32> {
        View::of(&self.image, &self.geometry).expect("a flash to read").order()
    }

    fn start(&self, command: Command) -> Result<Job, Refusal> {
        start(&self.image, &self.geometry, &command, None)
    }

    fn steps(&self, command: Command) -> usize {
        self.start(command).expect("a job").remaining()
    }

    fn finish(&mut self, command: Command) -> usize {
        let mut job = self.start(command).expect("a job");
        let steps = job.remaining();
        assert_eq!(job.run(&mut self.image, u64::MAX).unwrap_or(0), steps);
        steps
    }

    fn cut(&mut self, command: Command, steps: usize, inside: u64) {
        let job = self.start(command).expect("a job");
        job.cut(&mut self.image, steps, inside);
    }

    fn place(&self, block: usize, place: usize) -> u64 {
        u64_at(&self.image, block + Shape::OLD_EDITION.place_offset(place))
    }
}

/// The quarry image with its two pointers and the places up to this one cleared.
fn quarry_used_up_to(highest: usize) -> Bench {
    let mut places = vec![0; highest + 1];
    places[..2].copy_from_slice(&[0x8000, 0x9000]);
    Bench::of(&Flash::quarry_with(65_536, 0x8000, 0x9000, &places).with_first_bytes())
}

#[test]
fn case_1_boot_order() {
    let bench = Bench::quarry();
    assert_eq!(bench.order(), [1, 0]);
    let mut row = [7; 4];
    assert_eq!(order_list(&bench.image, &bench.geometry, &mut row), Ok(2));
    assert_eq!(row, [1, 0, 7, 7]);
    let short = &mut row[..1];
    assert_eq!(order_list(&bench.image, &bench.geometry, short), Err(Refusal::RowTooShort));
    assert_eq!(row[0], 1);
}

#[test]
fn case_2_enable_2() {
    let mut bench = Bench::sent();
    assert_eq!(bench.finish(Command::Enable(2)), 16);
    assert_eq!([CPB0, CPB1].map(|block| bench.place(block, 2)), [0xA000; 2]);
    assert_eq!(bench.order(), [2, 1, 0]);
}

#[test]
fn case_3_enable_the_first() {
    let bench = Bench::sent();
    let mut job = bench.start(Command::Enable(1)).expect("a job");
    assert_eq!(job.remaining(), 0);
    let mut image = bench.image.clone();
    assert_eq!(job.run(&mut image, 0), Err(Refusal::JobFinished));
    assert_eq!(image, bench.image);
}

#[test]
fn case_4_enable_0_then_disable_it() {
    let mut bench = Bench::sent();
    assert_eq!(bench.finish(Command::Enable(0)), 16);
    assert_eq!(bench.place(CPB0, 2), 0x8000);
    assert_eq!(bench.order(), [0, 1]);
    assert_eq!(bench.finish(Command::Disable(0)), 32);
    assert_eq!(bench.order(), [1]);
}

#[test]
fn case_5_refusals() {
    let bench = Bench::quarry();
    assert_eq!(bench.start(Command::Disable(2)).err(), Some(Refusal::NotInBootOrder));
    for command in [Command::Enable(3), Command::Disable(3), Command::Rename(3, Vec::new())] {
        assert_eq!(bench.start(command).err(), Some(Refusal::NoSuchSlot));
    }
}

#[test]
fn case_6_enable_cut_after_15_steps() {
    let mut bench = Bench::sent();
    bench.cut(Command::Enable(2), 15, 0);
    assert_eq!(bench.place(CPB0, 2), 0xFF00_0000_0000_A000);
    assert_eq!(bench.order(), [1, 0]);
    assert_eq!(bench.start(Command::Enable(2)).err(), Some(Refusal::PairDisagrees));
    assert_eq!(bench.finish(Command::Repair), 4101);
    assert_eq!(bench.finish(Command::Enable(2)), 16);
    assert_eq!(bench.place(CPB0, 3), 0xA000);
}

#[test]
fn case_7_highest_place_506_and_507() {
    let mut bench = quarry_used_up_to(506);
    assert_eq!(bench.finish(Command::Enable(2)), 16);
    assert_eq!(bench.place(CPB0, 507), 0xA000);
    let mut bench = quarry_used_up_to(507);
    assert_eq!(bench.finish(Command::Enable(2)), 8202);
    assert_eq!(bench.order(), [2, 1, 0]);
    assert_eq!(
        [0, 1, 2, 3].map(|place| bench.place(CPB1, place)),
        [0x8000, 0x9000, 0xA000, u64::MAX]
    );
}

#[test]
fn case_8_rewrite_cut() {
    let mut bench = quarry_used_up_to(507);
    bench.cut(Command::Enable(2), 4101, 0);
    assert_eq!(bench.order(), [1, 0]);
    let mut bench = quarry_used_up_to(507);
    bench.cut(Command::Enable(2), 4102, 0);
    assert_eq!(bench.image[CPB0], 0);
    assert_eq!(bench.order(), [2, 1, 0]);
}

fn case_9() -> Bench {
    Bench::of(&Flash::quarry_with(73_728, 0x11000, 0x10000, &[0x11000, 0x10000]))
}

#[test]
fn case_9_half_cleared_start_of_another_slot() {
    assert_eq!(case_9().steps(Command::Disable(0)), 8202);
    assert_eq!(case_9().steps(Command::Disable(1)), 16);
    let mut bench = case_9();
    bench.finish(Command::Disable(0));
    assert_eq!(bench.order(), [1]);
}

#[test]
fn three_bytes_cleared_name_another_slot() {
    let places = [0x123_4000, 0x100_0000];
    let bench = Bench::of(&Flash::quarry_with(0x130_0000, 0x123_4000, 0x100_0000, &places));
    assert_eq!(bench.steps(Command::Disable(0)), 8202);
    assert_eq!(bench.steps(Command::Disable(1)), 16);
}

#[test]
fn case_10_names() {
    let mut bench = Bench::quarry();
    assert_eq!(bench.finish(Command::Rename(0, b"FIFTEEN-LETTERS".to_vec())), 8202);
    let view = View::of(&bench.image, &bench.geometry).expect("a flash to read");
    let (number, entry) = view.slot_facts(0).expect("a slot");
    assert_eq!((number, entry.name_bytes()), (6, &b"FIFTEEN-LETTERS"[..]));
    let sixteen = Command::Rename(0, b"SIXTEEN--LETTERS".to_vec());
    assert_eq!(bench.start(sixteen).err(), Some(Refusal::NameNotAllowed));
    for name in [&b""[..], b"P\0", b"CPB1"] {
        let command = Command::Rename(1, name.to_vec());
        assert_eq!(bench.start(command).err(), Some(Refusal::NameNotAllowed));
    }
    let taken = Command::Rename(1, b"P3".to_vec());
    assert_eq!(bench.start(taken).err(), Some(Refusal::NameTaken));
    assert_eq!(bench.steps(Command::Rename(1, b"P2".to_vec())), 0);
}

/// An enable with the first 4,096 bytes of each slot as the quarry image has them, all 0xFF.
#[test]
fn empty_slots_are_not_enabled() {
    let mut bench = Bench::quarry();
    let refused = |bench: &Bench, slot| bench.start(Command::Enable(slot)).err();
    // Slot 1 is first already. Slot 3 is not there, which is told first.
    assert_eq!([0, 1, 2].map(|slot| refused(&bench, slot)), [Some(Refusal::SlotEmpty); 3]);
    assert_eq!(refused(&bench, 3), Some(Refusal::NoSuchSlot));
    // Bytes beside the slot do not matter, nor does a place of the pointer block.
    bench.image[0x9FFF] = 0;
    bench.image[0xB000] = 0;
    assert_eq!(refused(&bench, 2), Some(Refusal::SlotEmpty));
    // One bit of the last byte that is looked at.
    bench.image[0xAFFF] = 0xFE;
    assert_eq!(bench.steps(Command::Enable(2)), 16);
    bench.image[0x9000] = 0;
    assert_eq!(bench.steps(Command::Enable(1)), 0);
    // Disable and rename do not look.
    assert_eq!(bench.steps(Command::Disable(0)), 16);
    assert_eq!(bench.steps(Command::Rename(0, b"P1".to_vec())), 0);
    // A pair that disagrees comes before, in whichever copy the difference is.
    bench.image[CPB1 + 12] = 1;
    assert_eq!(refused(&bench, 0), Some(Refusal::PairDisagrees));
}

/// The first 4,096 bytes alone count, also of a longer slot.
#[test]
fn the_second_block_of_a_slot_is_not_looked_at() {
    let mut flash = Flash::quarry();
    flash.partitions[8].length = 0x3000;
    flash.contents = vec![(0xB000, vec![0])];
    let flash = Flash { table: Flash::new(0, 0, flash.partitions.clone(), &[]).table, ..flash };
    let mut bench = Bench::of(&flash);
    assert_eq!(bench.start(Command::Enable(2)).err(), Some(Refusal::SlotEmpty));
    bench.image[0xA800] = 0x7F;
    assert_eq!(bench.steps(Command::Enable(2)), 16);
}

/// The quarry image made longer, with one-block slots up to this number of entries.
fn quarry_with_entries(count: usize) -> Bench {
    let mut flash = Flash::quarry();
    for number in flash.partitions.len()..count {
        let start = 0x1000 * (number as u64 + 16);
        flash.partitions.push(partition(&format!("S{number}"), start, 0x1000, 0));
    }
    Bench::of(&Flash::new(0x90_000, 4096, flash.partitions, &[0x8000, 0x9000]))
}

#[test]
fn case_10_entries_and_empty_image() {
    assert_eq!(quarry_with_entries(ENTRIES_MAX).order(), [1, 0]);
    let bench = quarry_with_entries(ENTRIES_MAX + 1);
    let refused = View::of(&bench.image, &bench.geometry).err();
    let fault = Fault { rule: Rule::EntryCount, entry: 127 };
    assert_eq!(refused, Some(Refusal::NoTableStands([fault; 2])));
    let refused = order_list(&[], &bench.geometry, &mut []).err();
    assert_eq!(refused, Some(Refusal::ImageLength));
}

/// The steps of a rename in document 02's words.
#[test]
fn a_rewriting_step_by_step() {
    let bench = Bench::quarry();
    let job = bench.start(Command::Rename(0, b"X".to_vec())).expect("a job");
    let mut table = bench.image[0x4000..0x5000].to_vec();
    table[0xE0..0xF0].copy_from_slice(b"X\0\0\0\0\0\0\0\0\0\0\0\0\0\0\0");
    let mut expected = Vec::new();
    for block in [0x5000, 0x4000] {
        let program = |offset: usize, given: u8| Step::Program { address: block + offset, given };
        expected.extend((0..4).map(|offset| program(offset, 0)));
        expected.push(Step::Erase { address: block });
        expected.extend((4..4096).map(|offset| program(offset, table[offset])));
        expected.extend((0..4).map(|offset| program(offset, table[offset])));
    }
    assert_eq!(expected.len(), 8202);
    let listed: Vec<Step> = (0..).map_while(|steps| job.step_after(steps)).collect();
    assert!(listed == expected);
}

#[test]
fn budgets_do_the_listed_steps_one_by_one() {
    let mut whole = quarry_used_up_to(PLACES_MAX - 1);
    let mut bench = quarry_used_up_to(PLACES_MAX - 1);
    let mut job = bench.start(Command::Enable(2)).expect("a job");
    let mut next = job.next_step();
    while let Some(step) = next {
        let mut expected = bench.image.clone();
        apply(&mut expected, step, job.granule());
        assert_eq!(job.run(&mut bench.image, 1), Ok(1));
        assert_eq!(bench.image, expected);
        next = job.next_step();
    }
    whole.finish(Command::Enable(2));
    assert_eq!(bench.image, whole.image);
}

fn apply(image: &mut [u8], step: Step, granule: usize) {
    match step {
        Step::Program { address, given } => image[address] &= given,
        Step::Erase { address } => image[address..address + granule].fill(0xFF),
    }
}

#[test]
fn shortcuts_differ_from_the_document() {
    let quarry = Bench::sent();
    let next = |bench: &Bench, command, shortcut| {
        let job = start(&bench.image, &bench.geometry, &command, shortcut).expect("a job");
        (job.remaining(), job.next_step())
    };
    let differs = |bench: &Bench, command: Command, shortcut| {
        next(bench, command.clone(), None) != next(bench, command, Some(shortcut))
    };
    assert!(differs(&quarry, Command::Enable(2), Shortcut::TopByteFirst));
    assert!(differs(&case_9(), Command::Disable(0), Shortcut::ClearsBlindly));
    let places = [0x8000, 0x9000, 0x8000];
    let twice = Bench::of(&Flash::quarry_with(65_536, 0x8000, 0x9000, &places).with_first_bytes());
    assert!(differs(&twice, Command::Disable(0), Shortcut::HighestDuplicateFirst));
    let places = [0x8000, u64::MAX, 0x9000];
    let gap = Bench::of(&Flash::quarry_with(65_536, 0x8000, 0x9000, &places).with_first_bytes());
    assert!(differs(&gap, Command::Enable(2), Shortcut::FirstErasedPlace));
    let empty = Bench::quarry();
    let steps = |bench: &Bench, slot, shortcut| {
        let command = Command::Enable(slot);
        let job = start(&bench.image, &bench.geometry, &command, shortcut);
        job.map(|job| job.remaining())
    };
    assert_eq!(steps(&empty, 1, Some(Shortcut::FirstMayBeEmpty)), Ok(0));
    let mut last_byte = Bench::quarry();
    last_byte.image[0xAFFF] = 0;
    let refused = steps(&last_byte, 2, Some(Shortcut::FirstByteAlone));
    assert_eq!(refused, Err(Refusal::SlotEmpty));
    let mut bench = Bench::quarry();
    let renamed = Command::Rename(0, b"X".to_vec());
    let mut job =
        start(&bench.image, &bench.geometry, &renamed, Some(Shortcut::MagicFirst)).expect("a job");
    job.run(&mut bench.image, 9).expect("nine steps");
    assert_eq!(bench.image[0x5000..0x5004], compare::document::table::MAGIC.to_le_bytes());
    let renamed = Command::Rename(0, b"X".to_vec());
    for shortcut in [Shortcut::NoZeros, Shortcut::ZerosDownward] {
        assert!(differs(&quarry, renamed.clone(), shortcut));
    }
    assert!(!differs(&quarry, renamed, Shortcut::NoZerosOverNoMagic));
    let mut broken = Bench::quarry();
    broken.image[CPB1] = 0;
    assert!(differs(&broken, Command::Repair, Shortcut::NoZerosOverNoMagic));
}
