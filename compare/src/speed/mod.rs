//! How long readers, starts and runs take, for each implementation on the same inputs.

mod bench;
mod independent;
#[cfg(feature = "linked")]
mod linked;
#[cfg(feature = "linked")]
mod placing;
mod summary;

pub use bench::measure;
#[cfg(feature = "linked")]
pub use placing::measure as measure_places;
pub use summary::summarize;

use crate::document::commands::Command;
use crate::document::image::Geometry;

/// What is measured of an implementation. Refusals are the documents' numbers.
pub trait Updater {
    type Job: Clone;

    /// Writes the boot order into the front of the row and returns its length.
    fn order_list(image: &[u8], geometry: &Geometry, row: &mut [u32]) -> Result<usize, u32>;

    /// What a start puts its job into, with no job in it yet.
    fn no_job() -> Self::Job;

    fn start(
        image: &[u8],
        geometry: &Geometry,
        command: &Command,
        job: &mut Self::Job,
    ) -> Result<(), u32>;

    /// Runs a job within a budget and returns the number of steps done.
    fn run(job: &mut Self::Job, image: &mut [u8], budget: u64) -> Result<u64, u32>;
}
