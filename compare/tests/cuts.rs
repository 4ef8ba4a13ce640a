//! Every command cut after every step and inside every erase, which then has wiped any bytes of its
//! granule: the book of demand 3, tried whole.

use compare::cases::flash::Flash;
use compare::cases::random::Random;
use compare::document::book::{Book, Item, Outcome};
use compare::document::commands::{start, Command};
use compare::document::image::Geometry;
use compare::document::pointers::Shape;
use compare::document::reading::View;
use compare::document::shortcut::Shortcut;
use compare::document::steps::{Job, Step};

fn quarry(places: &[u64]) -> Flash {
    Flash::quarry_with(65_536, 0x8000, 0x9000, places).with_first_bytes()
}

fn full() -> Flash {
    let mut places = vec![0; 508];
    places[..3].copy_from_slice(&[0x8000, 0x9000, 0x8000]);
    quarry(&places)
}

fn half_cleared() -> Flash {
    let places = [0x1_0000, 0xA000, 0x1_1000];
    Flash::quarry_with(73_728, 0x1_1000, 0x1_0000, &places).with_first_bytes()
}

/// Pointer blocks of four places, between other bytes: one in use, one full.
fn shaped(places: &[u64]) -> Flash {
    let shape = Shape { offset: 0x38, count: 4 };
    let mut flash = half_cleared().shaped(shape, places);
    flash.pointers[0x20..0x38].fill(0);
    let behind = flash.pointers[shape.end()..].chunks_exact_mut(8);
    behind.for_each(|bytes| bytes.copy_from_slice(&0x1_0000u64.to_le_bytes()));
    flash
}

/// Flash of all three granules, and with pointer blocks of another shape.
fn flashes() -> Vec<Flash> {
    let wide = |times| Flash::quarry_wide(times).with_first_bytes();
    vec![
        quarry(&[0x8000, 0x9000, 0x8000]),
        full(),
        half_cleared(),
        wide(8),
        wide(16),
        shaped(&[0x1_0000, 0xA000, 0x1_1000]),
        shaped(&[0x1_1000, 0xA000, 0xA000, 0x1_1000]),
    ]
}

fn commands() -> Vec<Command> {
    let slots = || 0..3;
    let mut commands: Vec<Command> = slots().map(Command::Enable).collect();
    commands.extend(slots().map(Command::Disable));
    commands.push(Command::Rename(1, b"ANOTHER".to_vec()));
    commands.push(Command::Create(0x1000, b"NEW".to_vec()));
    commands.extend(slots().map(Command::Delete));
    commands
}

/// Ranges of a granule: where each begins, and its length.
type Ranges = Vec<(u64, u64)>;

/// What an erase may have wiped: nothing, all, one byte of the first 32 or all but this one, the
/// lowest or the highest bytes, every other byte, and each byte or not at random.
fn choices(granule: u64) -> Vec<Ranges> {
    let mut choices = vec![vec![], vec![(0, granule)]];
    choices.extend((0..32).map(|byte| vec![(byte, 1)]));
    choices.extend((0..32).map(|byte| vec![(0, byte), (byte + 1, granule)]));
    for bytes in (1..5).chain((64..granule).step_by(64)) {
        choices.push(vec![(0, bytes)]);
        choices.push(vec![(granule - bytes, bytes)]);
    }
    for odd in [0, 1] {
        choices.push((0..granule / 2).map(|pair| (2 * pair + odd, 1)).collect());
    }
    let mut random = Random::new(granule);
    for _ in 0..64 {
        choices.push((0..granule).map(|byte| (byte, random.below(2))).collect());
    }
    choices
}

/// How many cuts the book has a choice for, and how many not.
#[derive(Default)]
struct Found {
    fitting: usize,
    broken: usize,
}

impl Found {
    fn count(&mut self, fits: bool) {
        if fits {
            self.fitting += 1;
        } else {
            self.broken += 1;
        }
    }

    fn add(&mut self, other: Found) {
        self.fitting += other.fitting;
        self.broken += other.broken;
    }
}

/// Cuts a job everywhere and has each flash that this leaves judged.
fn cut_everywhere(image: &[u8], job: &Job, judge: impl Fn(&[u8]) -> bool) -> Found {
    let mut found = Found::default();
    let choices = choices(job.granule() as u64);
    let mut cut = image.to_vec();
    let mut cut_once = |steps: usize, ranges: &Ranges| {
        cut.copy_from_slice(image);
        job.clone().torn(&mut cut, steps, ranges);
        found.count(judge(&cut));
    };
    for steps in 0..job.remaining() {
        if let Some(Step::Erase { .. }) = job.step_after(steps) {
            choices.iter().for_each(|ranges| cut_once(steps, ranges));
            continue;
        }
        // A long row of bytes is tried at every 61st place and near its ends.
        let near_end = steps % 4101 < 40 || steps % 4101 > 4080;
        if near_end || steps % 61 == 0 {
            cut_once(steps, &Vec::new());
        }
    }
    found
}

/// Whether the book has a choice for the cut, and a repair then makes the pairs agree.
fn fits(before: &[u8], cut: &[u8], geometry: &Geometry, command: &Command) -> bool {
    let got = View::of(before, geometry).expect("a flash that stands");
    let mut book = Book::begin(got.reading());
    let Ok(view) = View::of(cut, geometry) else {
        return false;
    };
    if book.enter(&Item::of(command, &got), Outcome::Cut, &view.reading()).is_none() {
        return false;
    }
    let repair_item = Item::of(&Command::Repair, &view);
    let mut repaired = cut.to_vec();
    let mut repair: Job = start(cut, geometry, &Command::Repair, None).expect("a repair");
    if repair.remaining() > 0 {
        repair.run(&mut repaired, u64::MAX).expect("all steps");
    }
    let view = View::of(&repaired, geometry).expect("a flash that stands");
    let choice = book.enter(&repair_item, Outcome::Finished, &view.reading());
    choice.is_some() && view.tables_agree() && view.pointers_agree()
}

/// Every command on one flash, cut everywhere.
fn all_commands(flash: &Flash, shortcut: Option<Shortcut>) -> Found {
    let (image, geometry) = (flash.image(), flash.geometry());
    let mut total = Found::default();
    for command in commands() {
        if let Ok(job) = start(&image, &geometry, &command, shortcut) {
            let judge = |cut: &[u8]| fits(&image, cut, &geometry, &command);
            total.add(cut_everywhere(&image, &job, judge));
        }
    }
    total
}

#[test]
fn the_book_has_a_choice_for_every_cut() {
    for flash in flashes() {
        let found = all_commands(&flash, None);
        assert_eq!(found.broken, 0);
        assert!(found.fitting > 800, "only {} cuts", found.fitting);
    }
}

#[test]
fn four_shortcuts_break_the_book() {
    use Shortcut::{ClearsBlindly, HighestDuplicateFirst, MagicFirst, NoZeros};
    for shortcut in [ClearsBlindly, HighestDuplicateFirst, MagicFirst, NoZeros] {
        let broken = |flash: &Flash| all_commands(flash, Some(shortcut)).broken;
        assert!(flashes()[..3].iter().map(broken).sum::<usize>() > 0, "{shortcut:?}");
    }
}

/// A repair after a cut rename or rewriting enable, itself cut everywhere: what is read stays.
#[test]
fn a_cut_repair_changes_nothing_that_is_read() {
    for flash in [full(), Flash::quarry_wide(8).with_first_bytes()] {
        let geometry = flash.geometry();
        let renamed = Command::Rename(1, b"ANOTHER".to_vec());
        for (command, steps) in [(renamed.clone(), 5000), (renamed, 9), (Command::Enable(2), 4103)]
        {
            let mut image = flash.image();
            let job = start(&image, &geometry, &command, None).expect("a job");
            let steps = steps.min(job.remaining() - 1);
            job.cut(&mut image, steps, 0);
            let repair = start(&image, &geometry, &Command::Repair, None).expect("a repair");
            assert!(repair.remaining() > 0);
            let judge = |cut: &[u8]| fits(&image, cut, &geometry, &Command::Repair);
            assert_eq!(cut_everywhere(&image, &repair, judge).broken, 0);
        }
    }
}

/// A delete of the last slot or another, and then the create of a slot in its room, cut everywhere.
#[test]
fn a_create_in_deleted_room() {
    let spent = [0x8000, 0, 0x9000, 0x8000];
    let free_start_held = [0xA000, 0xB000, 0x9000];
    for (places, deleted) in [(&spent[..], 2), (&free_start_held[..], 0)] {
        let flash = quarry(places);
        let (mut image, geometry) = (flash.image(), flash.geometry());
        let start_of = |image: &[u8], slot: usize| {
            View::of(image, &geometry).expect("a flash that stands").table.starts[slot]
        };
        let freed = start_of(&image, deleted as usize);
        let delete = Command::Delete(deleted);
        let mut job = start(&image, &geometry, &delete, None).expect("a job");
        let judge = |cut: &[u8]| fits(&image, cut, &geometry, &delete);
        assert_eq!(cut_everywhere(&image, &job, judge).broken, 0);
        job.run(&mut image, u64::MAX).expect("all steps");
        let create = Command::Create(0x1000, b"NEW".to_vec());
        let mut job = start(&image, &geometry, &create, None).expect("a job");
        let judge = |cut: &[u8]| fits(&image, cut, &geometry, &create);
        assert_eq!(cut_everywhere(&image, &job, judge).broken, 0);
        job.run(&mut image, u64::MAX).expect("all steps");
        assert_eq!(start_of(&image, 2), freed);
    }
}
