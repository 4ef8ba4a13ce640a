//! Jobs as lists of steps: programming bytes, rewriting blocks, running with a budget, cuts.

use crate::document::image::{BLOCK_BYTES, ERASED};
use crate::document::refusal::Refusal;

/// Steps of a rewriting: four zeros, one erase and every byte programmed.
pub const REWRITE_STEPS: usize = Manner::RIGHT.zeros.len() + REWRITE_STEPS_FROM_ERASE;
/// Those from the erase on.
pub const REWRITE_STEPS_FROM_ERASE: usize = 1 + BLOCK_BYTES;

/// How a block is rewritten.
#[derive(Clone, Copy)]
pub struct Manner {
    /// The bytes that are programmed to zero before the erase.
    pub zeros: &'static [usize],
    /// After the erase the bytes from this one up are programmed, and then those before it.
    pub first: usize,
}

impl Manner {
    /// The magic is the first to go and the last to come.
    pub const RIGHT: Manner = Manner { zeros: &[0, 1, 2, 3], first: 4 };
}

#[derive(Clone, Copy, Debug, PartialEq, Eq)]
pub enum Step {
    /// New byte = old AND given.
    Program { address: usize, given: u8 },
    /// The granule from this address becomes 0xFF.
    Erase { address: usize },
}

/// A part of a job whose steps follow from little.
#[derive(Clone)]
pub enum Stage {
    /// These bytes, one after the other.
    Program(Vec<(usize, u8)>),
    /// Zeros, an erase, then the block's bytes.
    Rewrite { address: usize, block: Box<[u8; BLOCK_BYTES]>, manner: Manner },
}

impl Stage {
    /// The rewriting of the block at this address.
    pub fn rewrite(address: usize, block: &[u8; BLOCK_BYTES], manner: Manner) -> Stage {
        Stage::Rewrite { address, block: Box::new(*block), manner }
    }

    fn steps(&self) -> usize {
        match self {
            Stage::Program(bytes) => bytes.len(),
            Stage::Rewrite { manner, .. } => manner.zeros.len() + REWRITE_STEPS_FROM_ERASE,
        }
    }

    fn step(&self, number: usize) -> Step {
        match self {
            Stage::Program(bytes) => {
                let (address, given) = bytes[number];
                Step::Program { address, given }
            }
            Stage::Rewrite { address, block, manner: Manner { zeros, first } } => {
                if let Some(offset) = zeros.get(number) {
                    return Step::Program { address: address + offset, given: 0 };
                }
                if number == zeros.len() {
                    return Step::Erase { address: *address };
                }
                let offset = (first + number - zeros.len() - 1) % BLOCK_BYTES;
                Step::Program { address: address + offset, given: block[offset] }
            }
        }
    }

    /// Does the steps from `from` up to, not including, `to`.
    fn apply(&self, from: usize, to: usize, granule: usize, image: &mut [u8]) {
        match self {
            Stage::Program(bytes) => {
                for &(address, given) in &bytes[from..to] {
                    image[address] &= given;
                }
            }
            Stage::Rewrite { address, block, manner: Manner { zeros, first } } => {
                let erasing = zeros.len();
                for offset in &zeros[from.min(erasing)..to.min(erasing)] {
                    image[address + offset] = 0;
                }
                if (from..to).contains(&erasing) {
                    erase(image, *address, granule);
                }
                // From the erase on, step `n` programs the byte `first + n - 1`, counted round the
                // block's end.
                let [from, to] = [from, to].map(|step| first + step.saturating_sub(erasing + 1));
                let target = &mut image[*address..*address + BLOCK_BYTES];
                let upward = from.min(BLOCK_BYTES)..to.min(BLOCK_BYTES);
                program(&mut target[upward.clone()], &block[upward]);
                let lowest = from.max(BLOCK_BYTES) - BLOCK_BYTES..to.max(BLOCK_BYTES) - BLOCK_BYTES;
                program(&mut target[lowest.clone()], &block[lowest]);
            }
        }
    }
}

/// Erases bytes from an address up.
fn erase(image: &mut [u8], address: usize, length: usize) {
    image[address..address + length].fill(ERASED);
}

/// Programs bytes: new byte = old AND given.
fn program(bytes: &mut [u8], given: &[u8]) {
    for (byte, given) in bytes.iter_mut().zip(given) {
        *byte &= given;
    }
}

/// A list of steps fixed at its command's start, and how many of them are done.
#[derive(Clone)]
pub struct Job {
    image_length: usize,
    granule: usize,
    stages: Vec<Stage>,
    /// The stage of the next step, and the steps done within it.
    stage: usize,
    done_in_stage: usize,
    remaining: usize,
}

impl Job {
    /// A job for an image of this length. Every stage has a step, and all lie inside the image.
    pub fn new(image_length: usize, granule: u64, stages: Vec<Stage>) -> Job {
        let remaining = stages.iter().map(Stage::steps).sum();
        let granule = granule as usize;
        Job { image_length, granule, stages, stage: 0, done_in_stage: 0, remaining }
    }

    pub fn remaining(&self) -> usize {
        self.remaining
    }

    pub fn granule(&self) -> usize {
        self.granule
    }

    pub fn next_step(&self) -> Option<Step> {
        self.step_after(0)
    }

    /// The step that comes when this many more are done.
    pub fn step_after(&self, steps: usize) -> Option<Step> {
        let mut number = self.done_in_stage + steps;
        for stage in &self.stages[self.stage..] {
            if number < stage.steps() {
                return Some(stage.step(number));
            }
            number -= stage.steps();
        }
        None
    }

    /// Whether the image has the length that it had at the start; then every step lies inside.
    pub fn fits(&self, image: &[u8]) -> bool {
        image.len() == self.image_length
    }

    /// Does as many steps as the budget allows or all that remain, and returns their number.
    pub fn run(&mut self, image: &mut [u8], budget: u64) -> Result<usize, Refusal> {
        if self.remaining == 0 {
            return Err(Refusal::JobFinished);
        }
        if !self.fits(image) {
            return Err(Refusal::ImageChanged);
        }
        let done = usize::try_from(budget).unwrap_or(usize::MAX).min(self.remaining);
        self.advance(image, done);
        Ok(done)
    }

    fn advance(&mut self, image: &mut [u8], mut steps: usize) {
        self.remaining -= steps;
        while steps > 0 {
            let stage = &self.stages[self.stage];
            let from = self.done_in_stage;
            let to = stage.steps().min(from + steps);
            stage.apply(from, to, self.granule, image);
            steps -= to - from;
            self.done_in_stage = to;
            if to == stage.steps() {
                self.stage += 1;
                self.done_in_stage = 0;
            }
        }
    }

    /// Does `steps` steps, fewer than remain; then, if the next one is an erase, the cut falls
    /// inside it and leaves these ranges of the granule erased: where each begins, and its length.
    /// What passes the granule's end is ignored.
    pub fn torn(mut self, image: &mut [u8], steps: usize, ranges: &[(u64, u64)]) {
        self.advance(image, steps);
        if let Some(Step::Erase { address }) = self.next_step() {
            let granule = self.granule as u64;
            for &(from, length) in ranges {
                let [from, to] = [from, from.saturating_add(length)].map(|at| at.min(granule));
                erase(image, address + from as usize, (to - from) as usize);
            }
        }
    }

    /// The same, with the granule's lowest `inside` bytes erased.
    pub fn cut(self, image: &mut [u8], steps: usize, inside: u64) {
        self.torn(image, steps, &[(0, inside)]);
    }
}
