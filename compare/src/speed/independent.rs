//! The independent implementation, to be measured.

use super::Updater;
use crate::document::commands::{self, Command};
use crate::document::image::Geometry;
use crate::document::reading;
use crate::document::refusal::Refusal;
use crate::document::steps::Job;

pub struct Independent;

fn number(refusal: Refusal) -> u32 {
    refusal.number() as u32
}

impl Updater for Independent {
    type Job = Job;

    fn order_list(image: &[u8], geometry: &Geometry, row: &mut [u32]) -> Result<usize, u32> {
        reading::order_list(image, geometry, row).map_err(number)
    }

    fn no_job() -> Job {
        Job::new(0, 0, Vec::new())
    }

    fn start(
        image: &[u8],
        geometry: &Geometry,
        command: &Command,
        job: &mut Job,
    ) -> Result<(), u32> {
        *job = commands::start(image, geometry, command, None).map_err(number)?;
        Ok(())
    }

    fn run(job: &mut Job, image: &mut [u8], budget: u64) -> Result<u64, u32> {
        let done = job.run(image, budget).map_err(number)?;
        Ok(done as u64)
    }
}
