//! The measured inputs and the table of times.

use std::hint::black_box;
use std::time::Instant;

use super::independent::Independent;
use super::Updater;
use crate::cases::flash::{partition, Flash};
use crate::document::commands::Command;
use crate::document::image::{Geometry, BLOCK_BYTES};
use crate::document::pointers::{Shape, PLACES_MAX};
use crate::document::table::{ENTRIES_OFFSET, ENTRY_BYTES, NAME_BYTES};

const MOST_SLOTS: u64 = 121;
const SLOTS: [u64; 3] = [3, 40, MOST_SLOTS];
/// The old edition's pointer block, and one with its places in the second half.
const SHAPES: [Shape; 2] = [Shape::OLD_EDITION, Shape { offset: 2048, count: 256 }];
/// Used places, as far as there are so many.
const USED_PLACES: [u64; 3] = [2, 100, PLACES_MAX as u64];
const IMAGE_LENGTHS: [(&str, usize); 3] =
    [("64 KiB", 65_536), ("1 MiB", 1_048_576), ("256 MiB", 268_435_456)];
/// BOOT_INFO, FACTORY_IMAGE and the four blocks, of 4,096 bytes each.
const FIXED_NAMES: [&str; 6] = ["BOOT_INFO", "FACTORY_IMAGE", "SPT0", "SPT1", "CPB0", "CPB1"];
/// Everything is measured so many times over, and the least time of a row counts: a machine that is
/// slow for some seconds slows down one pass of a row and not all of it.
const PASSES: usize = 5;
/// Rounds of a row in one pass. The sides take turns, so that a machine that slows down for a moment
/// does so for all of them.
const ROUNDS: usize = 12;
/// Calls in a round.
pub(super) const CALLS: usize = 100;

/// A round of calls on an image, and how many nanoseconds one of them took.
type Round = Box<dyn FnMut(&mut [u8]) -> f64>;

/// What is measured of one implementation.
struct Side {
    order: fn(&Geometry) -> Round,
    refused_order: fn(&Geometry) -> Round,
    start: fn(&Geometry, &Command) -> Round,
    refused_start: fn(&Geometry, &Command, u32) -> Round,
    run: fn(&[u8], &Geometry, &Command) -> Round,
}

impl Side {
    fn of<U: Updater + 'static>() -> Side {
        Side {
            order: order_round::<U>,
            refused_order: refused_order_round::<U>,
            start: start_round::<U>,
            refused_start: refused_start_round::<U>,
            run: run_round::<U>,
        }
    }
}

#[cfg(feature = "linked")]
fn sides() -> Vec<Side> {
    vec![Side::of::<Independent>(), Side::of::<super::linked::Linked>()]
}

#[cfg(not(feature = "linked"))]
fn sides() -> Vec<Side> {
    vec![Side::of::<Independent>()]
}

/// A row of the table: the flash, the call, and how long it takes each side.
struct Row {
    flash: String,
    call: String,
    times: Vec<f64>,
}

/// Measures everything and prints a table.
pub fn measure() {
    keep_freed_memory();
    let sides = sides();
    let mut rows = measure_once(&sides);
    for _ in 1..PASSES {
        for (row, again) in rows.iter_mut().zip(measure_once(&sides)) {
            for (least, time) in row.times.iter_mut().zip(again.times) {
                *least = least.min(time);
            }
        }
    }
    let columns = if sides.len() == 2 { "independent | updater | ratio" } else { "ns" };
    println!("slots | used places | of | image | call | {columns}");
    print_ratios(rows.iter().filter_map(print_row).collect());
}

/// One pass over everything.
fn measure_once(sides: &[Side]) -> Vec<Row> {
    let mut rows = Vec::new();
    for (length_name, image_length) in IMAGE_LENGTHS {
        for slots in SLOTS {
            // The image of 64 KiB has room for 3 slots only.
            if image_length / BLOCK_BYTES < FIXED_NAMES.len() + slots as usize {
                continue;
            }
            for (shape, used) in
                SHAPES.iter().flat_map(|shape| USED_PLACES.map(|used| (shape, used)))
            {
                let used = used.min(shape.count as u64);
                let flash = bench_flash(image_length, slots, *shape, used, 0);
                let mut measured = measure_flash(sides, &flash);
                let one_outside = |slots: u64| bench_flash(image_length, slots, *shape, used, 1);
                // With all 121 slots the table is full.
                measured.extend(measure_creates(sides, &one_outside(slots.min(MOST_SLOTS - 1))));
                measured.extend(measure_deletes(sides, &one_outside(slots)));
                if slots == MOST_SLOTS && used == USED_PLACES[0] && *shape == Shape::OLD_EDITION {
                    measured.extend(measure_refusals(sides, &flash));
                }
                let flash = format!("{slots} | {used} | {} | {length_name}", shape.count);
                let row = |(call, times)| Row { flash: flash.clone(), call, times };
                rows.extend(measured.into_iter().map(row));
            }
        }
    }
    rows
}

/// Frees a large buffer, after which glibc no longer gives the heap's end back whenever a job there is
/// dropped: whether it does would depend on what else was measured before.
fn keep_freed_memory() {
    const LARGE: usize = 30 << 20;
    drop(black_box(vec![0u8; LARGE]));
}

/// Prints a row, and answers its ratio where there are two sides.
fn print_row(row: &Row) -> Option<f64> {
    let columns: Vec<String> = row.times.iter().map(|time| format!("{time:.0}")).collect();
    print!("{} | {} | {}", row.flash, row.call, columns.join(" | "));
    let ratio = match row.times[..] {
        [independent, updater] => Some(updater / independent),
        _ => None,
    };
    match ratio {
        Some(ratio) => println!(" | {ratio:.2}"),
        None => println!(),
    }
    ratio
}

/// How many of the ratios are how great.
fn print_ratios(mut ratios: Vec<f64>) {
    ratios.sort_by(f64::total_cmp);
    let [Some(least), Some(greatest)] = [ratios.first(), ratios.last()] else {
        return;
    };
    let up_to = |bound: f64| ratios.iter().filter(|&&ratio| ratio <= bound).count();
    let median = ratios[ratios.len() / 2];
    println!(
        "{} ratios: {} up to 1.0, {} up to 1.5; least {least:.2}, median {median:.2}, greatest {greatest:.2}",
        ratios.len(),
        up_to(1.0),
        up_to(1.5),
    );
}

/// A flash with slots spread over the image, with gaps between them and a longer one behind the last.
/// The places are used in turn by all slots but so many of the first, which are not in the order. Of
/// a slot's first 4,096 bytes only the last shows that it is not empty.
pub(super) fn bench_flash(
    image_length: usize,
    slots: u64,
    shape: Shape,
    used: u64,
    outside: usize,
) -> Flash {
    const BLOCK: u64 = BLOCK_BYTES as u64;
    let fixed = (0..).zip(FIXED_NAMES);
    let mut partitions: Vec<_> =
        fixed.map(|(number, name)| partition(name, number * BLOCK, BLOCK as u32, 1)).collect();
    let first = partitions.len() as u64;
    let stride = (image_length as u64 / BLOCK - first) / slots;
    let starts: Vec<u64> = (0..slots).map(|slot| (first + slot * stride) * BLOCK).collect();
    for (number, start) in (1..).zip(&starts) {
        partitions.push(partition(&format!("P{number}"), *start, BLOCK as u32, 0));
    }
    let ordered = &starts[outside..];
    let places: Vec<u64> =
        (0..used as usize).map(|place| ordered[place * 7 % ordered.len()]).collect();
    let mut flash = Flash::new(image_length, BLOCK, partitions, &[]).shaped(shape, &places);
    flash.contents = starts.iter().map(|start| (start + BLOCK - 1, vec![0])).collect();
    flash
}

/// Each call on this flash, and how long it takes each side.
fn measure_flash(sides: &[Side], flash: &Flash) -> Vec<(String, Vec<f64>)> {
    let mut image = flash.image();
    let geometry = flash.geometry();
    let mut row = [0; PLACES_MAX];
    let count = Independent::order_list(&image, &geometry, &mut row).expect("a flash that stands");
    let (first, last) = (row[0], row[count - 1]);
    let orders = sides.iter().map(|side| (side.order)(&geometry)).collect();
    let mut measured = vec![("order list".to_string(), least_times(orders, &mut image))];
    let commands = [
        ("enable", Command::Enable(last)),
        ("disable", Command::Disable(first)),
        ("rename", Command::Rename(0, b"ANOTHER-NAME".to_vec())),
    ];
    for (name, command) in commands {
        measured.extend(measure_command(sides, &mut image, &geometry, name, &command));
    }
    // What is not judged differs, so that both pairs disagree.
    let [[_, spt1], [_, cpb1]] = [flash.table_addresses(), flash.pointer_addresses()];
    for address in [spt1, cpb1] {
        image[address as usize + 12] ^= 1;
    }
    measured.extend(measure_command(sides, &mut image, &geometry, "repair", &Command::Repair));
    measured
}

/// Starts of a create that uses the first gap, of one that only the room behind the last slot is long
/// enough for, and of one that is refused.
fn measure_creates(sides: &[Side], flash: &Flash) -> Vec<(String, Vec<f64>)> {
    let mut image = flash.image();
    let geometry = flash.geometry();
    let slots = &flash.partitions[FIXED_NAMES.len()..];
    let create = |length: u64| Command::Create(length as u32, b"ANOTHER-NAME".to_vec());
    let first_gap = create(BLOCK_BYTES as u64);
    let behind_last = create(slots[1].start - slots[0].start);
    let too_long = create((image.len() - BLOCK_BYTES) as u64);
    let refused = sides.iter().map(|side| (side.refused_start)(&geometry, &too_long, 42)).collect();
    let mut start =
        |name: &str, command| measure_start(sides, &mut image, &geometry, name, command);
    vec![
        start("create in the first gap", &first_gap),
        start("create behind the last slot", &behind_last),
        ("create refused 42".to_string(), least_times(refused, &mut image)),
    ]
}

/// The start of a delete that moves all slots' rows but one.
fn measure_deletes(sides: &[Side], flash: &Flash) -> Vec<(String, Vec<f64>)> {
    let geometry = flash.geometry();
    vec![measure_start(sides, &mut flash.image(), &geometry, "delete", &Command::Delete(0))]
}

fn measure_start(
    sides: &[Side],
    image: &mut [u8],
    geometry: &Geometry,
    name: &str,
    command: &Command,
) -> (String, Vec<f64>) {
    let steps = started::<Independent>(image, geometry, command).remaining();
    let starts = sides.iter().map(|side| (side.start)(geometry, command)).collect();
    (format!("{name}, {steps} steps, start"), least_times(starts, image))
}

/// Order lists that are refused 51, by rules that are found broken late. The table has one of them
/// broken in both copies: the last two entries have the same name or start, or the first two each
/// other's name.
fn measure_refusals(sides: &[Side], flash: &Flash) -> Vec<(String, Vec<f64>)> {
    let geometry = flash.geometry();
    let entry = |number: usize, at: usize| ENTRIES_OFFSET + ENTRY_BYTES * number + at;
    let last = flash.partitions.len() - 1;
    let broken = [
        ("rule 4", [(entry(last - 1, 0), entry(last, 0)); 2], NAME_BYTES),
        ("rule 7", [(entry(last - 1, 0x10), entry(last, 0x10)); 2], 8),
        ("rule 9", [(entry(1, 0), entry(0, 0)), (entry(0, 0), entry(1, 0))], NAME_BYTES),
    ];
    broken
        .map(|(rule, copies, length)| {
            let mut image = flash.image();
            for table in flash.table_addresses().map(|address| address as usize) {
                for (from, to) in copies {
                    let bytes = &flash.table[from..from + length];
                    image[table + to..table + to + length].copy_from_slice(bytes);
                }
            }
            let rounds = sides.iter().map(|side| (side.refused_order)(&geometry)).collect();
            (format!("order list refused 51, {rule}"), least_times(rounds, &mut image))
        })
        .into()
}

/// A command's start and its whole run; the image is as before afterwards.
fn measure_command(
    sides: &[Side],
    image: &mut [u8],
    geometry: &Geometry,
    name: &str,
    command: &Command,
) -> [(String, Vec<f64>); 2] {
    let starts = sides.iter().map(|side| (side.start)(geometry, command)).collect();
    let start = least_times(starts, image);
    let blocks = FIXED_NAMES.len() * BLOCK_BYTES;
    let before = image[..blocks].to_vec();
    let runs = sides.iter().map(|side| (side.run)(image, geometry, command)).collect();
    let mut job = started::<Independent>(image, geometry, command);
    let steps = Independent::run(&mut job, image, u64::MAX).expect("a job with steps");
    let run = least_times(runs, image);
    image[..blocks].copy_from_slice(&before);
    [("start", start), ("run", run)]
        .map(|(part, times)| (format!("{name}, {steps} steps, {part}"), times))
}

fn least_times(mut rounds: Vec<Round>, image: &mut [u8]) -> Vec<f64> {
    let mut least = vec![f64::INFINITY; rounds.len()];
    for _ in 0..ROUNDS {
        for (time, round) in least.iter_mut().zip(&mut rounds) {
            *time = time.min(round(image));
        }
    }
    least
}

/// Nanoseconds that one of these calls takes.
pub(super) fn time<T>(inputs: impl IntoIterator<Item = T>, mut call: impl FnMut(T)) -> f64 {
    let began = Instant::now();
    for input in inputs {
        call(input);
    }
    began.elapsed().as_nanos() as f64 / CALLS as f64
}

fn order_round<U: Updater>(geometry: &Geometry) -> Round {
    let geometry = *geometry;
    Box::new(move |image| {
        let mut row = [0; PLACES_MAX];
        time(0..CALLS, |_| {
            let count = U::order_list(black_box(image), &geometry, &mut row);
            assert!(count.is_ok());
        })
    })
}

fn refused_order_round<U: Updater>(geometry: &Geometry) -> Round {
    let geometry = *geometry;
    Box::new(move |image| {
        let mut row = [0; PLACES_MAX];
        time(0..CALLS, |_| {
            let refused = U::order_list(black_box(image), &geometry, &mut row);
            assert_eq!(refused, Err(51));
        })
    })
}

fn started<U: Updater>(image: &[u8], geometry: &Geometry, command: &Command) -> U::Job {
    let mut job = U::no_job();
    U::start(image, geometry, command, &mut job).expect("a job");
    job
}

fn start_round<U: Updater + 'static>(geometry: &Geometry, command: &Command) -> Round {
    let (geometry, command) = (*geometry, command.clone());
    let mut job = U::no_job();
    Box::new(move |image| {
        time(0..CALLS, |_| {
            let started = U::start(black_box(image), &geometry, &command, black_box(&mut job));
            assert!(started.is_ok());
        })
    })
}

fn refused_start_round<U: Updater + 'static>(
    geometry: &Geometry,
    command: &Command,
    refusal: u32,
) -> Round {
    let (geometry, command) = (*geometry, command.clone());
    let mut job = U::no_job();
    Box::new(move |image| {
        time(0..CALLS, |_| {
            let refused = U::start(black_box(image), &geometry, &command, black_box(&mut job));
            assert_eq!(refused, Err(refusal));
        })
    })
}

fn run_round<U: Updater + 'static>(image: &[u8], geometry: &Geometry, command: &Command) -> Round {
    let job = started::<U>(image, geometry, command);
    Box::new(move |image| {
        let mut jobs = vec![job.clone(); CALLS];
        time(&mut jobs, |job| {
            let steps = U::run(job, black_box(&mut *image), u64::MAX);
            assert!(steps.is_ok());
        })
    })
}
