//! A verified flash updater, linked: safe functions over its C interface.
//!
//! Every image, number and job gets an answer: what was asked for, or a [`Refused`], which leaves image and job
//! as they were. A Rust slice or reference is all that the library asks of what is lent, so nothing is left to check.

pub mod raw;

/// The first rule that a copy of the table breaks, 1 to 11, and the entry that breaks it, 127 where the rule is about no
/// entry by itself; 0 and 127 for a copy that stands.
#[derive(Clone, Copy, Debug, PartialEq, Eq)]
pub struct Fault {
    pub rule: u8,
    pub entry: usize,
}

/// What each copy of the table breaks first.
#[derive(Clone, Copy, Debug, PartialEq, Eq)]
pub struct TableFaults {
    pub spt0: Fault,
    pub spt1: Fault,
}

/// A refusal: its number, of which `docs/REFUSALS.md` has the list, and with 50 and 51 what each copy of the table breaks.
#[derive(Clone, Copy, Debug, PartialEq, Eq)]
pub struct Refused {
    pub number: u8,
    pub faults: Option<TableFaults>,
}

impl Refused {
    /// A refusal that is not about the table.
    pub const fn numbered(number: u8) -> Refused {
        Refused { number, faults: None }
    }
}

impl std::fmt::Display for Refused {
    fn fmt(&self, f: &mut std::fmt::Formatter<'_>) -> std::fmt::Result {
        write!(f, "refused {}", self.number)?;
        if let Some(TableFaults { spt0, spt1 }) = self.faults {
            write!(f, ": SPT0 breaks rule {} at entry {}", spt0.rule, spt0.entry)?;
            write!(f, ", SPT1 rule {} at entry {}", spt1.rule, spt1.entry)?;
        }
        Ok(())
    }
}

impl std::error::Error for Refused {}

/// The refusals that carry faults.
const NO_TABLE: [u8; 2] = [50, 51];

fn answer<T>(number: u8, given: T) -> Result<T, Refused> {
    if number == 0 {
        Ok(given)
    } else {
        Err(Refused::numbered(number))
    }
}

/// The erase granule of a flash, and the addresses of the two copies of its table.
#[derive(Clone, Copy, Debug)]
pub struct Setting {
    pub granule: usize,
    pub spt0: usize,
    pub spt1: usize,
}

/// What is known of a slot beside its name.
#[derive(Clone, Copy, Debug, PartialEq, Eq)]
pub struct Facts {
    pub entry: usize,
    pub start: u64,
    pub size: u64,
    pub flags: u64,
}

/// Where the two copies of the pointer block are, and where the copies are that are read.
#[derive(Clone, Copy, Debug, PartialEq, Eq)]
pub struct View {
    pub cpb0: usize,
    pub cpb1: usize,
    pub table: usize,
    pub pointers: usize,
}

/// For each of the four blocks whether it stands, for each pair whether it agrees.
#[derive(Clone, Copy, Debug, PartialEq, Eq)]
pub struct Condition {
    pub spt0: bool,
    pub spt1: bool,
    pub cpb0: bool,
    pub cpb1: bool,
    pub tables: bool,
    pub pointers: bool,
}

/// An entry of the table, slot or not.
#[derive(Clone, Debug, PartialEq, Eq)]
pub struct Entry {
    pub name: Vec<u8>,
    pub start: u64,
    pub size: u64,
    pub flags: u64,
}

/// What a place of the pointer block holds, beside its value.
#[derive(Clone, Copy, Debug, PartialEq, Eq)]
pub enum Place {
    Erased,
    /// It points at the start of this slot.
    Live(u32),
    /// It was cleared: its value is 0.
    Spent,
    /// Its top byte is 0xFF, though not all of them are.
    PartWritten,
    /// Any other value, at which no slot starts.
    Stray,
}

/// The step that comes next.
#[derive(Clone, Copy, Debug, PartialEq, Eq)]
pub enum Step {
    /// A byte programmed at an address: new byte = old AND given.
    Program(usize, u8),
    /// The granule at an address erased.
    Erase(usize),
}

/// The length of a job's bytes, as the header has it; every start compares it with the library's.
pub const JOB_SIZE: usize = 9264;

/// The listed steps of a command, less those done.
#[derive(Clone, PartialEq, Eq)]
pub struct Job {
    bytes: Box<[u8; JOB_SIZE]>,
}

/// More slots than the boot order of any image has.
const ORDER_MAX: usize = 127;

/// More bytes than a name has.
const NAME_MAX: usize = 16;

impl Setting {
    /// What was asked for, or the refusal, with the faults where no copy of the table stands.
    fn answer<T>(&self, image: &[u8], number: u8, given: T) -> Result<T, Refused> {
        if NO_TABLE.contains(&number) {
            return Err(Refused { number, faults: self.table_faults(image).ok() });
        }
        answer(number, given)
    }

    /// What each copy of the table breaks first; refused 1 to 3 only.
    pub fn table_faults(&self, image: &[u8]) -> Result<TableFaults, Refused> {
        let (mut spt0, mut spt1) = (Fault { rule: 0, entry: 0 }, Fault { rule: 0, entry: 0 });
        let number = unsafe {
            raw::delunkpawi_table_faults(
                image.as_ptr(),
                image.len(),
                self.granule,
                self.spt0,
                self.spt1,
                &mut spt0.rule,
                &mut spt0.entry,
                &mut spt1.rule,
                &mut spt1.entry,
            )
        };
        answer(number, TableFaults { spt0, spt1 })
    }

    /// The slots of the boot order, first choice first.
    pub fn order(&self, image: &[u8]) -> Result<Vec<u32>, Refused> {
        let mut row = vec![0; ORDER_MAX];
        let mut count = 0;
        let number = unsafe {
            raw::delunkpawi_order(
                image.as_ptr(),
                image.len(),
                self.granule,
                self.spt0,
                self.spt1,
                row.as_mut_ptr(),
                row.len(),
                &mut count,
            )
        };
        row.truncate(count);
        self.answer(image, number, row)
    }

    /// How many application slots there are.
    pub fn slot_count(&self, image: &[u8]) -> Result<usize, Refused> {
        let mut count = 0;
        let number = unsafe {
            raw::delunkpawi_slot_count(
                image.as_ptr(),
                image.len(),
                self.granule,
                self.spt0,
                self.spt1,
                &mut count,
            )
        };
        self.answer(image, number, count)
    }

    /// The row of a slot in the table, its start, length and flags.
    pub fn slot_facts(&self, image: &[u8], slot: u32) -> Result<Facts, Refused> {
        let mut facts = Facts { entry: 0, start: 0, size: 0, flags: 0 };
        let number = unsafe {
            raw::delunkpawi_slot_facts(
                image.as_ptr(),
                image.len(),
                self.granule,
                self.spt0,
                self.spt1,
                slot,
                &mut facts.entry,
                &mut facts.start,
                &mut facts.size,
                &mut facts.flags,
            )
        };
        self.answer(image, number, facts)
    }

    /// The name of a slot, up to its zero.
    pub fn slot_name(&self, image: &[u8], slot: u32) -> Result<Vec<u8>, Refused> {
        let mut name = vec![0; NAME_MAX];
        let count = self.slot_name_into(image, slot, &mut name)?;
        name.truncate(count);
        Ok(name)
    }

    /// The same into the front of lent bytes, and its length: refused 91 if they are too few.
    pub fn slot_name_into(
        &self,
        image: &[u8],
        slot: u32,
        name: &mut [u8],
    ) -> Result<usize, Refused> {
        let mut count = 0;
        let number = unsafe {
            raw::delunkpawi_slot_name(
                image.as_ptr(),
                image.len(),
                self.granule,
                self.spt0,
                self.spt1,
                slot,
                name.as_mut_ptr(),
                name.len(),
                &mut count,
            )
        };
        self.answer(image, number, count)
    }

    /// Where the pointer blocks are, and which copies are read.
    pub fn view(&self, image: &[u8]) -> Result<View, Refused> {
        let mut view = View { cpb0: 0, cpb1: 0, table: 0, pointers: 0 };
        let number = unsafe {
            raw::delunkpawi_view(
                image.as_ptr(),
                image.len(),
                self.granule,
                self.spt0,
                self.spt1,
                &mut view.cpb0,
                &mut view.cpb1,
                &mut view.table,
                &mut view.pointers,
            )
        };
        self.answer(image, number, view)
    }

    /// Which copies stand, and which pairs agree.
    pub fn condition(&self, image: &[u8]) -> Result<Condition, Refused> {
        let [mut spt0, mut spt1, mut cpb0, mut cpb1, mut tables, mut pointers] = [0; 6];
        let number = unsafe {
            raw::delunkpawi_copies(
                image.as_ptr(),
                image.len(),
                self.granule,
                self.spt0,
                self.spt1,
                &mut spt0,
                &mut spt1,
                &mut cpb0,
                &mut cpb1,
                &mut tables,
                &mut pointers,
            )
        };
        let condition = Condition {
            spt0: spt0 == 1,
            spt1: spt1 == 1,
            cpb0: cpb0 == 1,
            cpb1: cpb1 == 1,
            tables: tables == 1,
            pointers: pointers == 1,
        };
        self.answer(image, number, condition)
    }

    /// How many entries the table read has.
    pub fn entry_count(&self, image: &[u8]) -> Result<usize, Refused> {
        let mut count = 0;
        let number = unsafe {
            raw::delunkpawi_entry_count(
                image.as_ptr(),
                image.len(),
                self.granule,
                self.spt0,
                self.spt1,
                &mut count,
            )
        };
        self.answer(image, number, count)
    }

    /// An entry of the table read: its name up to its zero, its start, length and flags.
    pub fn entry(&self, image: &[u8], entry: usize) -> Result<Entry, Refused> {
        let mut found = Entry { name: vec![0; NAME_MAX], start: 0, size: 0, flags: 0 };
        let mut count = 0;
        let number = unsafe {
            raw::delunkpawi_entry(
                image.as_ptr(),
                image.len(),
                self.granule,
                self.spt0,
                self.spt1,
                entry,
                found.name.as_mut_ptr(),
                found.name.len(),
                &mut count,
                &mut found.start,
                &mut found.size,
                &mut found.flags,
            )
        };
        found.name.truncate(count);
        self.answer(image, number, found)
    }

    /// How many places the pointer block read has.
    pub fn place_count(&self, image: &[u8]) -> Result<usize, Refused> {
        let mut count = 0;
        let number = unsafe {
            raw::delunkpawi_place_count(
                image.as_ptr(),
                image.len(),
                self.granule,
                self.spt0,
                self.spt1,
                &mut count,
            )
        };
        self.answer(image, number, count)
    }

    /// What a place of the pointer block read holds, and its value.
    pub fn place(&self, image: &[u8], place: usize) -> Result<(Place, u64), Refused> {
        let (mut kind, mut slot, mut value) = (0, 0, 0);
        let number = unsafe {
            raw::delunkpawi_place(
                image.as_ptr(),
                image.len(),
                self.granule,
                self.spt0,
                self.spt1,
                place,
                &mut kind,
                &mut slot,
                &mut value,
            )
        };
        let judgement = match kind {
            0 => Place::Erased,
            1 => Place::Live(slot),
            2 => Place::Spent,
            3 => Place::PartWritten,
            _ => Place::Stray,
        };
        self.answer(image, number, (judgement, value))
    }

    /// A job by which a slot comes first in the boot order: refused 14 if its first 4,096 bytes are all 0xFF, and 15 if
    /// each place of the pointer block has a slot of its own and this slot has none.
    pub fn enable(&self, image: &[u8], slot: u32) -> Result<Job, Refused> {
        self.slot_job(raw::delunkpawi_enable, image, slot)
    }

    /// A job by which a slot leaves the boot order.
    pub fn disable(&self, image: &[u8], slot: u32) -> Result<Job, Refused> {
        self.slot_job(raw::delunkpawi_disable, image, slot)
    }

    fn slot_job(&self, start: raw::SlotStart, image: &[u8], slot: u32) -> Result<Job, Refused> {
        self.started(image, |job| unsafe {
            start(
                image.as_ptr(),
                image.len(),
                self.granule,
                self.spt0,
                self.spt1,
                slot,
                job.as_mut_ptr(),
                job.len(),
            )
        })
    }

    /// A job by which a slot gets another name.
    pub fn rename(&self, image: &[u8], slot: u32, name: &[u8]) -> Result<Job, Refused> {
        self.started(image, |job| unsafe {
            raw::delunkpawi_rename(
                image.as_ptr(),
                image.len(),
                self.granule,
                self.spt0,
                self.spt1,
                slot,
                name.as_ptr(),
                name.len(),
                job.as_mut_ptr(),
                job.len(),
            )
        })
    }

    /// A job by which a new slot of a length comes into the table, at the lowest free start that no place holds.
    pub fn create(&self, image: &[u8], name: &[u8], length: u32) -> Result<Job, Refused> {
        self.started(image, |job| unsafe {
            raw::delunkpawi_create(
                image.as_ptr(),
                image.len(),
                self.granule,
                self.spt0,
                self.spt1,
                name.as_ptr(),
                name.len(),
                length,
                job.as_mut_ptr(),
                job.len(),
            )
        })
    }

    /// A job by which a slot that is not in the boot order leaves the table. The slots after it are one number lower.
    pub fn delete(&self, image: &[u8], slot: u32) -> Result<Job, Refused> {
        self.started(image, |job| unsafe {
            raw::delunkpawi_delete(
                image.as_ptr(),
                image.len(),
                self.granule,
                self.spt0,
                self.spt1,
                slot,
                job.as_mut_ptr(),
                job.len(),
            )
        })
    }

    /// A job by which the copies of a pair that disagree become the copy read.
    pub fn repair(&self, image: &[u8]) -> Result<Job, Refused> {
        self.started(image, |job| unsafe {
            raw::delunkpawi_repair(
                image.as_ptr(),
                image.len(),
                self.granule,
                self.spt0,
                self.spt1,
                job.as_mut_ptr(),
                job.len(),
            )
        })
    }

    /// A job into a new buffer of the library's own length.
    fn started(&self, image: &[u8], start: impl FnOnce(&mut [u8]) -> u8) -> Result<Job, Refused> {
        assert_eq!(
            unsafe { raw::delunkpawi_job_size() },
            JOB_SIZE,
            "this wrapper is not for this library"
        );
        let mut bytes = Box::new([0; JOB_SIZE]);
        let number = start(&mut bytes[..]);
        self.answer(image, number, Job { bytes })
    }
}

impl Job {
    /// The job as bytes, to keep or to pass on.
    pub fn bytes(&self) -> &[u8; JOB_SIZE] {
        &self.bytes
    }

    /// The job that bytes hold: refused 90 if they hold none.
    pub fn from_bytes(bytes: &[u8]) -> Result<Job, Refused> {
        let Ok(array) = <[u8; JOB_SIZE]>::try_from(bytes) else {
            return Err(Refused::numbered(90));
        };
        let job = Job { bytes: Box::new(array) };
        job.remaining().map(|_| job)
    }

    /// How many steps remain.
    pub fn remaining(&self) -> Result<usize, Refused> {
        let mut count = 0;
        let number =
            unsafe { raw::delunkpawi_remaining(self.bytes.as_ptr(), self.bytes.len(), &mut count) };
        answer(number, count)
    }

    /// The step that comes next, if one does.
    pub fn next_step(&self) -> Result<Option<Step>, Refused> {
        let (mut kind, mut address, mut byte) = (0, 0, 0);
        let number = unsafe {
            raw::delunkpawi_next_step(
                self.bytes.as_ptr(),
                self.bytes.len(),
                &mut kind,
                &mut address,
                &mut byte,
            )
        };
        let step = match kind {
            0 => None,
            1 => Some(Step::Program(address, byte)),
            _ => Some(Step::Erase(address)),
        };
        answer(number, step)
    }

    /// Does so many steps, or all that remain, on an image in memory, and tells how many.
    pub fn run(&mut self, image: &mut [u8], budget: usize) -> Result<usize, Refused> {
        let mut done = 0;
        let number = unsafe {
            raw::delunkpawi_run(
                self.bytes.as_mut_ptr(),
                self.bytes.len(),
                image.as_mut_ptr(),
                image.len(),
                budget,
                &mut done,
            )
        };
        answer(number, done)
    }

    /// Counts so many steps that a driver carried out itself, in their order, or all that remain; tells how many.
    pub fn advance(&mut self, steps: usize) -> Result<usize, Refused> {
        let mut count = 0;
        let number = unsafe {
            raw::delunkpawi_advance(self.bytes.as_mut_ptr(), self.bytes.len(), steps, &mut count)
        };
        answer(number, count)
    }
}
