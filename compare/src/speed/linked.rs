//! The updater's static library behind the same trait, by the declarations of its wrapper in Rust,
//! link/rust. Every function returns 0 or a refusal number.

use delunkpawi::raw::{
    delunkpawi_create, delunkpawi_delete, delunkpawi_disable, delunkpawi_enable,
    delunkpawi_job_size, delunkpawi_order, delunkpawi_rename, delunkpawi_repair, delunkpawi_run,
};

use super::Updater;
use crate::document::commands::Command;
use crate::document::image::Geometry;

pub struct Linked;

fn unless_refused<T>(number: u8, answer: T) -> Result<T, u32> {
    if number == 0 {
        Ok(answer)
    } else {
        Err(u32::from(number))
    }
}

/// Granule and table addresses as the header has them.
fn setting(geometry: &Geometry) -> (usize, usize, usize) {
    let Geometry { granule, table_addresses: [spt0, spt1] } = *geometry;
    (granule as usize, spt0 as usize, spt1 as usize)
}

/// The length of a buffer for a job.
pub fn job_size() -> usize {
    // SAFETY: it takes nothing and answers a constant.
    unsafe { delunkpawi_job_size() }
}

/// Starts a command into a buffer for its job; 0, or the refusal.
pub fn start_into(image: &[u8], geometry: &Geometry, command: &Command, job: &mut [u8]) -> u8 {
    let (granule, spt0, spt1) = setting(geometry);
    let (at, length) = (image.as_ptr(), image.len());
    let (job, size) = (job.as_mut_ptr(), job.len());
    // SAFETY: image, name and the job's buffer are lent for the call, with their lengths.
    unsafe {
        match command {
            Command::Enable(slot) => {
                delunkpawi_enable(at, length, granule, spt0, spt1, *slot, job, size)
            }
            Command::Disable(slot) => {
                delunkpawi_disable(at, length, granule, spt0, spt1, *slot, job, size)
            }
            Command::Rename(slot, name) => {
                let (name, bytes) = (name.as_ptr(), name.len());
                delunkpawi_rename(at, length, granule, spt0, spt1, *slot, name, bytes, job, size)
            }
            Command::Create(slot_length, name) => {
                let (name, bytes) = (name.as_ptr(), name.len());
                delunkpawi_create(
                    at,
                    length,
                    granule,
                    spt0,
                    spt1,
                    name,
                    bytes,
                    *slot_length,
                    job,
                    size,
                )
            }
            Command::Delete(slot) => {
                delunkpawi_delete(at, length, granule, spt0, spt1, *slot, job, size)
            }
            Command::Repair => delunkpawi_repair(at, length, granule, spt0, spt1, job, size),
        }
    }
}

impl Updater for Linked {
    type Job = Vec<u8>;

    fn order_list(image: &[u8], geometry: &Geometry, row: &mut [u32]) -> Result<usize, u32> {
        let (granule, spt0, spt1) = setting(geometry);
        let (at, length) = (image.as_ptr(), image.len());
        let mut count = 0;
        // SAFETY: image and row are lent for the call, with their lengths.
        let refused = unsafe {
            let (row, row_length) = (row.as_mut_ptr(), row.len());
            delunkpawi_order(at, length, granule, spt0, spt1, row, row_length, &mut count)
        };
        unless_refused(refused, count)
    }

    fn no_job() -> Vec<u8> {
        vec![0; job_size()]
    }

    fn start(
        image: &[u8],
        geometry: &Geometry,
        command: &Command,
        job: &mut Vec<u8>,
    ) -> Result<(), u32> {
        unless_refused(start_into(image, geometry, command, job), ())
    }

    fn run(job: &mut Vec<u8>, image: &mut [u8], budget: u64) -> Result<u64, u32> {
        let mut done = 0;
        let (at, length) = (image.as_mut_ptr(), image.len());
        // SAFETY: the job's buffer and the image are lent for the call, with their lengths.
        let refused = unsafe {
            delunkpawi_run(job.as_mut_ptr(), job.len(), at, length, budget as usize, &mut done)
        };
        unless_refused(refused, done as u64)
    }
}
