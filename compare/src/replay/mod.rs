//! The script language: what each line does to an image in memory and what it prints.

use std::io::{self, BufRead, Read, Write};

use crate::document::commands::{self, Command};
use crate::document::image::{Geometry, ERASED};
use crate::document::listing::Listing;
use crate::document::pointers;
use crate::document::reading::View;
use crate::document::refusal::Refusal;
use crate::document::shortcut::Shortcut;
use crate::document::steps::Job;

mod answer;
mod words;

pub use answer::{fnv1a, hex, Answer};
pub use words::NotALine;
use words::{byte_of, bytes_of, command_of, length_of, number_of, ranges_of, u32_of};

pub const LINE_BYTES_MAX: usize = 16_384;
pub const IMAGE_BYTES_MAX: u64 = 1_048_576;
/// The longest row that `order` may ask for, and the row of a bare `order`.
const ROW_MAX: u64 = 508;
const ROW_DEFAULT: u64 = 127;

type Answered = Result<Answer, NotALine>;

/// The state that a script works on.
#[derive(Default)]
pub struct Session {
    pub image: Vec<u8>,
    pub geometry: Geometry,
    pub job: Option<Job>,
    pub shortcut: Option<Shortcut>,
}

impl Session {
    /// Does one line, given without its LF.
    pub fn line(&mut self, line: &[u8]) -> Answered {
        if line.len() > LINE_BYTES_MAX {
            return Err(NotALine);
        }
        if line.is_empty() || line[0] == b'#' {
            return Ok(Answer::Nothing);
        }
        let words: Vec<&[u8]> = line.split(|&byte| byte == b' ').collect();
        match words[0] {
            b"image" | b"length" | b"box" | b"put" | b"copy" => self.change(&words),
            b"enable" | b"disable" | b"rename" | b"create" | b"delete" | b"repair" => {
                Ok(self.start(&command_of(&words)?))
            }
            b"run" | b"cut" | b"torn" => self.carry_out(&words),
            _ => self.ask(&words),
        }
    }

    /// The lines that change the image or where things are said to be.
    fn change(&mut self, words: &[&[u8]]) -> Answered {
        match *words {
            [b"image", length, byte] => self.new_image(length_of(length)?, byte_of(byte)?),
            [b"length", length] => self.new_length(length_of(length)?),
            [b"box", granule, first, second] => {
                let table_addresses = [number_of(first)?, number_of(second)?];
                self.geometry = Geometry { granule: number_of(granule)?, table_addresses };
                Ok(Answer::Nothing)
            }
            [b"put", address, bytes] => self.put(number_of(address)?, &bytes_of(bytes)?),
            [b"copy", from, to, length] => {
                self.copy(number_of(from)?, number_of(to)?, number_of(length)?)
            }
            _ => Err(NotALine),
        }
    }

    /// The lines that do steps of the current job.
    fn carry_out(&mut self, words: &[&[u8]]) -> Answered {
        match *words {
            [b"run", budget] => self.run(number_of(budget)?),
            [b"cut", steps] => self.cut(number_of(steps)?, &[]),
            [b"cut", steps, inside] => self.cut(number_of(steps)?, &[(0, number_of(inside)?)]),
            [b"torn", steps, ref ranges @ ..] => self.cut(number_of(steps)?, &ranges_of(ranges)?),
            _ => Err(NotALine),
        }
    }

    /// The lines that ask and change nothing.
    fn ask(&self, words: &[&[u8]]) -> Answered {
        match *words {
            [b"order"] => self.order(ROW_DEFAULT),
            [b"order", row] => self.order(number_of(row)?),
            [b"slot", slot] => Ok(self.slot(u32_of(slot)?)),
            [b"list"] => Ok(self.list()),
            [b"peek", address, length] => {
                let bytes = self.part(number_of(address)?, number_of(length)?)?;
                Ok(Answer::Bytes(bytes.to_vec()))
            }
            [b"sum"] => Ok(Answer::Sum(fnv1a(&self.image))),
            [b"dumps", first, first_length, second, second_length] => {
                let first = self.part(number_of(first)?, number_of(first_length)?)?;
                let second = self.part(number_of(second)?, number_of(second_length)?)?;
                let dump = pointers::standing_dump(first, second);
                Ok(Answer::Dump(dump.len(), fnv1a(dump)))
            }
            _ => Err(NotALine),
        }
    }

    fn new_image(&mut self, length: usize, byte: u8) -> Answered {
        self.image.clear();
        self.image.resize(length, byte);
        self.job = None;
        Ok(Answer::Nothing)
    }

    fn new_length(&mut self, length: usize) -> Answered {
        self.image.resize(length, ERASED);
        Ok(Answer::Nothing)
    }

    fn put(&mut self, address: u64, bytes: &[u8]) -> Answered {
        self.part(address, bytes.len() as u64)?;
        self.image[address as usize..][..bytes.len()].copy_from_slice(bytes);
        Ok(Answer::Nothing)
    }

    fn copy(&mut self, from: u64, to: u64, length: u64) -> Answered {
        self.part(from, length)?;
        self.part(to, length)?;
        let (from, length) = (from as usize, length as usize);
        self.image.copy_within(from..from + length, to as usize);
        Ok(Answer::Nothing)
    }

    fn view(&self) -> Result<View<'_>, Refusal> {
        View::planted(&self.image, &self.geometry, self.shortcut)
    }

    fn order(&self, row_length: u64) -> Answered {
        if row_length > ROW_MAX {
            return Err(NotALine);
        }
        let mut row = vec![0; row_length as usize];
        Ok(match self.view().and_then(|view| view.order_into(&mut row)) {
            Ok(count) => {
                row.truncate(count);
                Answer::Order(row)
            }
            Err(refusal) => Answer::Refused(refusal),
        })
    }

    fn slot(&self, slot: u32) -> Answer {
        match self.view().and_then(|view| view.slot_facts(slot)) {
            Ok((number, entry)) => Answer::Slot {
                slot,
                entry: number,
                name: entry.name_bytes().to_vec(),
                start: entry.start,
                length: entry.length,
                flags: entry.flags,
            },
            Err(refusal) => Answer::Refused(refusal),
        }
    }

    fn list(&self) -> Answer {
        match self.view() {
            Ok(view) => Answer::Listing(Listing::of(&view, self.shortcut)),
            Err(refusal) => Answer::ListingRefused(refusal),
        }
    }

    /// Starts a command; its job becomes the current one, or there is none.
    fn start(&mut self, command: &Command) -> Answer {
        match commands::start(&self.image, &self.geometry, command, self.shortcut) {
            Ok(job) => Answer::Job(self.job.insert(job).remaining()),
            Err(refusal) => {
                self.job = None;
                Answer::Refused(refusal)
            }
        }
    }

    fn run(&mut self, budget: u64) -> Answered {
        let job = self.job.as_mut().ok_or(NotALine)?;
        Ok(match job.run(&mut self.image, budget) {
            Ok(steps) => Answer::Ran(steps),
            Err(refusal) => Answer::Refused(refusal),
        })
    }

    fn cut(&mut self, steps: u64, ranges: &[(u64, u64)]) -> Answered {
        let job = self.job.take().ok_or(NotALine)?;
        if steps >= job.remaining() as u64 {
            return Err(NotALine);
        }
        // a job that a run would refuse with 12 does no step
        if job.fits(&self.image) {
            job.torn(&mut self.image, steps as usize, ranges);
        }
        Ok(Answer::Cut)
    }

    fn part(&self, address: u64, length: u64) -> Result<&[u8], NotALine> {
        let end = address.checked_add(length).ok_or(NotALine)?;
        if end > self.image.len() as u64 {
            return Err(NotALine);
        }
        Ok(&self.image[address as usize..end as usize])
    }
}

/// Runs a script of any length, reading it line by line.
pub fn run_script(mut script: impl BufRead, out: &mut impl Write) -> io::Result<()> {
    let mut session = Session::default();
    let mut line = Vec::new();
    for number in 1u64.. {
        line.clear();
        let limit = LINE_BYTES_MAX as u64 + 2;
        if script.by_ref().take(limit).read_until(b'\n', &mut line)? == 0 {
            break;
        }
        if line.last() == Some(&b'\n') {
            line.pop();
        }
        match session.line(&line) {
            Ok(Answer::Nothing) => {}
            Ok(answer) => writeln!(out, "{answer}")?,
            Err(NotALine) => {
                writeln!(out, "error {number}")?;
                break;
            }
        }
    }
    out.flush()
}
