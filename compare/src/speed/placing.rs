//! Starts with the job's buffer, then with the image, lent at every eighth byte of a page: how long a
//! start takes must not depend on where in memory a caller has them.

use std::hint::black_box;

use super::bench::{bench_flash, time, CALLS};
use super::linked::{job_size, start_into};
use crate::document::commands::Command;
use crate::document::image::{Geometry, BLOCK_BYTES};
use crate::document::pointers::Shape;

/// The least time of these many rounds over all places counts, so that a machine that slows down for a
/// while does so for all of them.
const ROUNDS: usize = 20;
const IMAGE_LENGTH: usize = 65_536;
const SLOTS: u64 = 3;
const USED_PLACES: u64 = 508;

/// Prints the least, the middle and the greatest time over all places.
pub fn measure() {
    let flash = bench_flash(IMAGE_LENGTH, SLOTS, Shape::OLD_EDITION, USED_PLACES, 1);
    let mut differing = flash.image();
    let [[_, spt1], [_, cpb1]] = [flash.table_addresses(), flash.pointer_addresses()];
    for address in [spt1, cpb1] {
        differing[address as usize + 12] ^= 1;
    }
    let name = b"ANOTHER-NAME".to_vec();
    let commands = [
        ("enable", Command::Enable(0)),
        ("disable", Command::Disable(1)),
        ("rename", Command::Rename(0, name.clone())),
        ("create", Command::Create(BLOCK_BYTES as u32, name)),
        ("delete", Command::Delete(0)),
        ("repair", Command::Repair),
    ];
    let mut room = vec![0; IMAGE_LENGTH + BLOCK_BYTES];
    let mut job_room = vec![0; job_size() + BLOCK_BYTES];
    println!("start of | moved | least ns | middle | greatest");
    for (name, command) in &commands {
        let image = if *name == "repair" { &differing } else { &flash.image() };
        for (moved, apart) in [("the job", [0, 1]), ("the image", [1, 0])] {
            let mut times = vec![f64::INFINITY; BLOCK_BYTES / 8];
            for _ in 0..ROUNDS {
                for (place, time) in (0..).step_by(8).zip(&mut times) {
                    let [before, before_job] = apart.map(|times| times * place);
                    let lent = &mut room[before..before + image.len()];
                    lent.copy_from_slice(image);
                    let job = &mut job_room[before_job..before_job + job_size()];
                    *time = time.min(start_time(lent, &flash.geometry(), command, job));
                }
            }
            times.sort_by(f64::total_cmp);
            let [least, middle, greatest] =
                [0, times.len() / 2, times.len() - 1].map(|at| times[at]);
            println!("{name} | {moved} | {least:.0} | {middle:.0} | {greatest:.0}");
        }
    }
}

fn start_time(image: &[u8], geometry: &Geometry, command: &Command, job: &mut [u8]) -> f64 {
    time(0..CALLS, |_| {
        let refused = start_into(black_box(image), geometry, command, black_box(&mut *job));
        assert_eq!(refused, 0);
    })
}
