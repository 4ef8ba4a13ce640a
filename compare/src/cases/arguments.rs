//! Random commands with any arguments, most of them to the point, and random budgets.

use crate::cases::layout::random_name;
use crate::cases::random::Random;
use crate::document::commands::Command;
use crate::document::image::BLOCK_BYTES;
use crate::document::reading::View;
use crate::document::rooms::gaps;
use crate::document::steps::{Job, Step, REWRITE_STEPS, REWRITE_STEPS_FROM_ERASE};
use crate::document::table::{FIXED_NAMES, NAME_BYTES};
use crate::replay::Session;

/// A random command for the flash of this script.
pub fn random_command(random: &mut Random, session: &Session) -> Command {
    let Ok(view) = View::of(&session.image, &session.geometry) else {
        return any_command(random);
    };
    let agree = view.tables_agree() && view.pointers_agree();
    if !agree && random.percent(60) {
        return Command::Repair;
    }
    match random.below(100) {
        0..=32 => Command::Enable(enabled_slot(random, &view)),
        33..=58 => Command::Disable(ordered_slot(random, &view)),
        59..=74 => {
            let slot = random_slot(random, view.table.slots.len());
            Command::Rename(slot, new_name(random, &view, slot))
        }
        75..=84 => random_create(random, &view),
        85..=93 => random_delete(random, &view),
        _ => Command::Repair,
    }
}

/// A create, mostly of a slot that there may be room for.
pub fn random_create(random: &mut Random, view: &View) -> Command {
    let name = match random.below(100) {
        0..=9 => new_name(random, view, u32::MAX),
        10..=54 => format!("N{}", random.below(10_000)).into_bytes(),
        _ => random_name(random),
    };
    Command::Create(new_length(random, view), name)
}

/// A delete, mostly of a slot outside the boot order.
pub fn random_delete(random: &mut Random, view: &View) -> Command {
    let order = view.order();
    let slots = view.table.slots.len();
    let others: Vec<u32> = (0..slots as u32).filter(|slot| !order.contains(slot)).collect();
    if others.is_empty() || random.percent(20) {
        return Command::Delete(random_slot(random, slots));
    }
    Command::Delete(random.pick(&others))
}

/// A command with no look at the flash.
pub fn any_command(random: &mut Random) -> Command {
    let slot = random_slot(random, 3);
    match random.below(6) {
        0 => Command::Enable(slot),
        1 => Command::Disable(slot),
        2 => Command::Rename(slot, random_name(random)),
        3 => Command::Create(random.pick(&[4096, 4096, 0, 1]), random_name(random)),
        4 => Command::Delete(slot),
        _ => Command::Repair,
    }
}

/// Mostly one of the slots there are.
pub fn random_slot(random: &mut Random, slots: usize) -> u32 {
    if slots > 0 && random.percent(95) {
        return random.index(slots) as u32;
    }
    let other = random.number() as u32;
    random.pick(&[slots as u32, slots as u32 + 1, 127, 508, u32::MAX, other])
}

/// Any slot, now and then the first of the order.
fn enabled_slot(random: &mut Random, view: &View) -> u32 {
    match view.order().first() {
        Some(&first) if random.percent(8) => first,
        _ => random_slot(random, view.table.slots.len()),
    }
}

fn ordered_slot(random: &mut Random, view: &View) -> u32 {
    let order = view.order();
    if order.is_empty() || random.percent(15) {
        return random_slot(random, view.table.slots.len());
    }
    random.pick(&order)
}

fn new_name(random: &mut Random, view: &View, slot: u32) -> Vec<u8> {
    let entries = &view.table.entries;
    let own = view.table.slots.get(slot as usize).map(|&number| &entries[number]);
    match random.below(100) {
        0..=59 => random_name(random),
        60..=71 => own.map_or(Vec::new(), |entry| entry.name_bytes().to_vec()),
        72..=81 => random.pick(entries).name_bytes().to_vec(),
        82..=86 => random.pick(&FIXED_NAMES).to_vec(),
        87..=89 => Vec::new(),
        90..=94 => {
            let length = random.pick(&[NAME_BYTES, NAME_BYTES + 1, 32, 300]);
            vec![b'n'; length]
        }
        _ => {
            let mut name = random_name(random);
            let zero = random.index(name.len());
            name[zero] = 0;
            name
        }
    }
}

/// A length for a new slot: a few blocks, as much as a gap has or a block more, too much, or none that
/// is allowed.
fn new_length(random: &mut Random, view: &View) -> u32 {
    const BLOCK: u32 = BLOCK_BYTES as u32;
    let gap = random_gap(random, view);
    let image_length = view.image.len() as u32;
    let any = random.number() as u32;
    match random.below(100) {
        0..=44 => BLOCK,
        45..=56 => BLOCK * random.between(2, 4) as u32,
        57..=77 => gap,
        78..=83 => gap + BLOCK,
        84..=87 => random.pick(&[image_length, image_length - BLOCK, 0x8000_0000, 0xFFFF_F000]),
        88..=91 => 0,
        _ => random.pick(&[1, BLOCK - 1, BLOCK + 1, gap + 2048, u32::MAX, any]),
    }
}

/// The length of a gap between partitions, often of the longest or of the one behind the last
/// partition; a block if there is none.
pub fn random_gap(random: &mut Random, view: &View) -> u32 {
    let gaps = gaps(view).map(|gap| (gap.end - gap.start) as u32);
    let gaps: Vec<u32> = gaps.filter(|&length| length > 0).collect();
    let [Some(&longest), Some(&last)] = [gaps.iter().max(), gaps.last()] else {
        return BLOCK_BYTES as u32;
    };
    let any = random.pick(&gaps);
    random.weighted(&[(40, longest), (20, last), (40, any)])
}

/// A budget: none, few steps, the borders of a rewriting, more than there are.
pub fn random_budget(random: &mut Random, remaining: usize) -> u64 {
    let remaining = remaining as u64;
    let rewrite = REWRITE_STEPS as u64;
    let borders =
        [0, 1, 2, 3, 4, 5, 7, 8, 9, 15, 16, rewrite - 1, rewrite, rewrite + 1, 2 * rewrite];
    match random.below(100) {
        0..=24 => random.pick(&borders),
        25..=54 => random.below(remaining.max(1)),
        55..=64 => remaining,
        65..=69 => remaining.saturating_sub(1),
        70..=74 => remaining + 1,
        _ => random.pick(&[1 << 32, 1 << 63, u64::MAX]),
    }
}

/// Where the power fails: after how many steps, and what an erase that comes next has wiped.
pub struct Cut {
    pub steps: usize,
    pub inside: Inside,
}

pub enum Inside {
    Nothing,
    /// The granule's lowest bytes.
    Lowest(u64),
    /// Ranges of the granule: where each begins, and its length.
    Ranges(Vec<(u64, u64)>),
}

/// Where to cut a job that has steps left.
pub fn random_cut(random: &mut Random, job: &Job) -> Cut {
    let steps = random_cut_steps(random, job.remaining());
    let granule = job.granule() as u64;
    let inside = match random.below(20) {
        0 => Inside::Nothing,
        1..=3 => Inside::Lowest(random_depth(random, granule)),
        _ if random.percent(10) || matches!(job.step_after(steps), Some(Step::Erase { .. })) => {
            Inside::Ranges(random_ranges(random, granule))
        }
        _ => Inside::Nothing,
    };
    Cut { steps, inside }
}

fn random_depth(random: &mut Random, granule: u64) -> u64 {
    let anywhere = random.between(0, granule);
    let depths = [0, 1, 2, 3, 4, 5, 32, 4095, 4096, 4097, granule - 1, granule, granule + 1];
    match random.below(10) {
        0..=6 => random.pick(&depths),
        _ => random.pick(&[anywhere, anywhere, u64::MAX]),
    }
}

/// What of a granule is wiped: a few bytes of the header, all but one of them, the lowest or the
/// highest, every other one, any ranges.
fn random_ranges(random: &mut Random, granule: u64) -> Vec<(u64, u64)> {
    let in_header = random.below(32);
    let depth = random_depth(random, granule);
    match random.below(100) {
        0..=14 => vec![(in_header, 1)],
        15..=29 => vec![(0, in_header), (in_header + 1, u64::MAX)],
        30..=44 => (0..4).map(|byte| (byte, random.below(2))).collect(),
        45..=54 => vec![(depth, granule)],
        55..=59 => vec![(0, depth)],
        60..=64 => {
            let odd = random.below(2);
            (0..40).map(|byte| (2 * byte + odd, 1)).collect()
        }
        65..=68 => (0..200).map(|byte| (byte, random.below(2))).collect(),
        // A line of almost the length that is allowed.
        69 => (0..2000).map(|byte| (byte, random.below(2))).collect(),
        70..=74 => {
            let lengths = [0, 1, granule, u64::MAX];
            vec![(random.pick(&[granule - 1, granule, u64::MAX]), random.pick(&lengths))]
        }
        _ => {
            let bound = random.pick(&[8, 600, granule]);
            let ranges = 0..random.between(1, 8);
            ranges.map(|_| (random.below(granule), random.below(bound))).collect()
        }
    }
}

/// Fewer steps than remain: often just before an erase, often near the end or among the zeros.
fn random_cut_steps(random: &mut Random, remaining: usize) -> usize {
    let erases: Vec<usize> = [REWRITE_STEPS_FROM_ERASE, REWRITE_STEPS + REWRITE_STEPS_FROM_ERASE]
        .iter()
        .filter_map(|&steps| remaining.checked_sub(steps))
        .collect();
    if !erases.is_empty() && random.percent(75) {
        let zeros_left = random.weighted(&[(90, 0), (5, 1), (3, 2), (2, 3)]);
        return random.pick(&erases).saturating_sub(zeros_left);
    }
    if random.percent(50) {
        return random.index(remaining);
    }
    let before_end = [1, 2, 4, 5, 6, REWRITE_STEPS_FROM_ERASE - 1, REWRITE_STEPS + 1, remaining];
    let before_end = random.pick(&before_end) + random.pick(&[0, 0, REWRITE_STEPS]);
    remaining.saturating_sub(before_end).min(remaining - 1)
}
