//! Counts of what a comparison tried.

use std::fmt;

use crate::document::book::{Choice, Outcome};
use crate::document::image::ERASED;
use crate::document::listing::Listing;
use crate::document::pointers::{judge, Judgement, PointerBlock, Shape, OFFSET_LEAST};
use crate::document::reading::View;
use crate::document::refusal::{Refusal, NUMBERS};
use crate::document::rooms::{free_start, lowest_room};
use crate::document::steps::{Step, REWRITE_STEPS};
use crate::document::table::{ENTRIES_MAX, RULES};
use crate::replay::{Answer, Session};

/// The kinds of jobs, in the order in which they are counted.
const JOB_KINDS: [&str; 14] = [
    "enable, 0 steps",
    "enable, 16 steps",
    "enable, 8202 steps",
    "disable, 16 steps",
    "disable, 16 steps for each of several places",
    "disable, 8202 steps",
    "rename, 0 steps",
    "rename, 8202 steps",
    "create, 8202 steps",
    "delete, 8202 steps",
    "repair, 0 steps",
    "repair, 4101 steps, table",
    "repair, 4101 steps, pointer block",
    "repair, 8202 steps",
];

/// The commands that are accepted or refused.
const COMMANDS: [&str; 10] =
    ["order", "slot", "list", "enable", "disable", "rename", "create", "delete", "repair", "run"];

/// Every refusal, every kind of job and every broken rule is tried at least this often.
const LEAST: u64 = 100;
/// Enables of an empty slot, which are refused 14.
const LEAST_EMPTY: u64 = 1000;
/// Enables whose order is too long, which are refused 15.
const LEAST_TOO_LONG: u64 = 300;
/// Rewritings of a boot order with bytes before the places and behind them to be kept.
const LEAST_KEEPING: u64 = 500;
/// One flash of so many has pointer blocks of another shape than the old edition's.
const FLASHES_TO_ONE_SHAPED: u64 = 3;
/// Each of the refusals that create and delete alone have.
const LEAST_ROOMS: u64 = 300;
/// Creates in room that a delete freed.
const LEAST_REUSED: u64 = 500;
/// Creates that a dead place keeps from a lower start.
const LEAST_HELD: u64 = 300;
/// Cuts inside an erase that leave any bytes erased.
const LEAST_TORN: u64 = 2000;

/// How often a rule was told as broken: in SPT0 beside another one in SPT1, the other way round,
/// and in both.
const WHERE_BROKEN: [&str; 3] = ["SPT0 alone", "SPT1 alone", "both"];

/// The kinds of listings, in the order in which they are counted.
const LISTING_KINDS: [&str; 13] = [
    "spent at place 0",
    "spent in the middle",
    "spent at the last place",
    "part-written at place 0",
    "part-written in the middle",
    "part-written at the last place",
    "stray at place 0",
    "stray in the middle",
    "stray at the last place",
    "every place dead",
    "no place dead",
    "an empty order and dead places",
    "a slot that live places hold twice, and dead places",
];

/// The kinds of creates and deletes, in the order in which they are counted.
const ROOM_KINDS: [(&str, u64); 8] = [
    ("creates in room that a delete freed", LEAST_REUSED),
    ("creates that a dead place keeps from a lower start", LEAST_HELD),
    ("creates refused 42 because of dead places alone", LEAST),
    ("creates that end with the image", LEAST),
    ("creates in a table of 126 entries", LEAST),
    ("creates refused in a table of 127", LEAST),
    ("deletes in a table of 126", LEAST),
    ("deletes in a table of 127", LEAST),
];

/// A count, and how great it must be in a whole comparison.
struct Demand {
    what: String,
    count: u64,
    least: u64,
}

#[derive(Default)]
pub struct Tally {
    pub scripts: u64,
    /// Flashes built, and those whose pointer blocks are not of the old edition.
    flashes: u64,
    flashes_shaped: u64,
    /// Accepted and refused, for each command.
    commands: [(u64, u64); COMMANDS.len()],
    /// In the order of the refusals' numbers.
    refusals: [u64; NUMBERS.len()],
    /// For each rule, from the first.
    broken_rules: [[u64; WHERE_BROKEN.len()]; RULES],
    /// Refusals 14 of the slot that is first already.
    first_and_empty: u64,
    listings: [u64; LISTING_KINDS.len()],
    jobs: [u64; JOB_KINDS.len()],
    rooms: [u64; ROOM_KINDS.len()],
    /// Start and end of each slot that the present script deletes.
    deleted: Vec<(u64, u64)>,
    /// Rewritings of a boot order where other bytes than 0xFF are before the places and behind them.
    keeping_rewrites: u64,
    pub cuts: u64,
    /// Cuts that leave the lowest bytes of a granule erased.
    pub cuts_inside_an_erase: u64,
    /// Cuts that leave any bytes of a granule erased.
    pub torn_erases: u64,
    pub other_lines: u64,
    pub errors: u64,
    /// Items of the book that were refused, finished, cut and read as before, cut and read changed.
    book: [u64; 4],
    pub book_broken: u64,
}

impl Tally {
    pub fn commands(&self) -> u64 {
        self.accepted() + self.refused()
    }

    pub fn accepted(&self) -> u64 {
        self.commands.iter().map(|count| count.0).sum()
    }

    pub fn refused(&self) -> u64 {
        self.commands.iter().map(|count| count.1).sum()
    }

    /// What came up less often than a whole comparison must try it.
    pub fn too_few(&self) -> Vec<String> {
        let few = self.demands().into_iter().filter(|demand| demand.count < demand.least);
        few.map(|demand| format!("{}: {}, not {}", demand.what, demand.count, demand.least))
            .collect()
    }

    /// What a whole comparison must try and did not come up.
    pub fn untried(&self) -> Vec<String> {
        let untried = self.demands().into_iter().filter(|demand| demand.count == 0);
        untried.map(|demand| demand.what).collect()
    }

    fn demands(&self) -> Vec<Demand> {
        let demand = |what: String, count: u64| Demand { what, count, least: LEAST };
        let mut demands = Vec::new();
        for (&number, count) in NUMBERS.iter().zip(self.refusals) {
            let least = match number {
                number if number == Refusal::SlotEmpty.number() => LEAST_EMPTY,
                number if number == Refusal::OrderTooLong.number() => LEAST_TOO_LONG,
                40..=43 => LEAST_ROOMS,
                _ => LEAST,
            };
            demands.push(Demand { what: format!("refusal {number}"), count, least });
        }
        demands.push(Demand {
            what: "pointer blocks not of the old edition".to_string(),
            count: self.flashes_shaped,
            least: self.flashes.div_ceil(FLASHES_TO_ONE_SHAPED),
        });
        demands.push(Demand {
            what: "rewritings with bytes before and behind the places".to_string(),
            count: self.keeping_rewrites,
            least: LEAST_KEEPING,
        });
        demands.push(demand("first already and empty".to_string(), self.first_and_empty));
        for (rule, counts) in (1..).zip(self.broken_rules) {
            for (copy, count) in WHERE_BROKEN.iter().zip(counts) {
                demands.push(demand(format!("rule {rule} in {copy}"), count));
            }
        }
        for (name, count) in LISTING_KINDS.iter().zip(self.listings) {
            demands.push(demand(format!("listings with {name}"), count));
        }
        for (name, count) in JOB_KINDS.iter().zip(self.jobs) {
            demands.push(demand(name.to_string(), count));
        }
        for ((name, least), count) in ROOM_KINDS.into_iter().zip(self.rooms) {
            demands.push(Demand { what: name.to_string(), count, least });
        }
        let what = "torn erases".to_string();
        demands.push(Demand { what, count: self.torn_erases, least: LEAST_TORN });
        demands
    }

    /// Counts a flash that a script builds.
    pub fn count_flash(&mut self, shape: Shape) {
        self.flashes += 1;
        self.deleted.clear();
        self.flashes_shaped += u64::from(shape != Shape::OLD_EDITION);
    }

    /// Counts a line that a session has just done.
    pub fn count(&mut self, line: &str, answer: &Answer, session: &Session) {
        let word = line.split(' ').next().unwrap_or("");
        let Some(command) = COMMANDS.iter().position(|&command| command == word) else {
            match answer {
                Answer::Nothing => {}
                Answer::Cut => self.cuts += 1,
                _ => self.other_lines += 1,
            }
            return;
        };
        match word {
            "create" => self.count_create(line, answer, session),
            "delete" => self.count_delete(line, answer, session),
            _ => {}
        }
        if let Answer::ListingRefused(refusal) = answer {
            self.commands[command].1 += 1;
            self.count_number(*refusal);
            return;
        }
        if let Answer::Refused(refusal) = answer {
            self.commands[command].1 += 1;
            self.count_refusal(*refusal);
            if *refusal == Refusal::SlotEmpty && line_names_first_slot(line, session) {
                self.first_and_empty += 1;
            }
            return;
        }
        self.commands[command].0 += 1;
        if let Answer::Listing(listing) = answer {
            self.count_listing(listing, session);
        }
        if let Answer::Job(steps) = answer {
            let kind = job_kind(word, *steps, session);
            self.jobs[kind] += 1;
            let rewrites_order = ["enable", "disable"].contains(&word) && *steps == REWRITE_BOTH;
            self.keeping_rewrites += u64::from(rewrites_order && bytes_to_keep(session));
        }
    }

    fn count_number(&mut self, refusal: Refusal) {
        let number = NUMBERS.iter().position(|&number| number == refusal.number());
        self.refusals[number.expect("a number of the list")] += 1;
    }

    fn count_refusal(&mut self, refusal: Refusal) {
        self.count_number(refusal);
        if let Some(faults) = refusal.faults() {
            let [first, second] = faults.map(|fault| fault.rule as usize - 1);
            if first == second {
                self.broken_rules[first][2] += 1;
            } else {
                self.broken_rules[first][0] += 1;
                self.broken_rules[second][1] += 1;
            }
        }
    }

    fn count_listing(&mut self, listing: &Listing, session: &Session) {
        let Ok(view) = View::of(&session.image, &session.geometry) else {
            return;
        };
        let count = view.pointers.shape.count;
        let mut met = [false; LISTING_KINDS.len()];
        for &(place, judgement) in &listing.dead {
            let kind = match judgement {
                Judgement::Spent => 0,
                Judgement::PartWritten(_) => 3,
                _ => 6,
            };
            met[kind + if place == 0 { 0 } else { 1 + usize::from(place + 1 == count) }] = true;
        }
        let dead = listing.dead.len();
        met[9] = dead == count;
        met[10] = dead == 0;
        met[11] = dead > 0 && listing.slots.is_empty();
        met[12] = dead > 0 && live_places(&view) > listing.slots.len();
        for (count, met) in self.listings.iter_mut().zip(met) {
            *count += u64::from(met);
        }
    }

    fn count_create(&mut self, line: &str, answer: &Answer, session: &Session) {
        let Ok(view) = View::of(&session.image, &session.geometry) else {
            return;
        };
        let length = argument(line);
        let entries = view.table.entries.len();
        let room = lowest_room(&view, u64::from(length));
        if let Answer::Refused(refusal) = answer {
            let held = *refusal == Refusal::NoRoom && room.is_some();
            self.rooms[2] += u64::from(held);
            self.rooms[5] += u64::from(entries == ENTRIES_MAX);
            return;
        }
        let Some(start) = free_start(&view, length, None) else {
            return;
        };
        let end = start + u64::from(length);
        let reused = self.deleted.iter().any(|&(from, to)| start < to && from < end);
        self.rooms[0] += u64::from(reused);
        self.rooms[1] += u64::from(room != Some(start));
        self.rooms[3] += u64::from(end == view.image.len() as u64);
        self.rooms[4] += u64::from(entries + 1 == ENTRIES_MAX);
    }

    fn count_delete(&mut self, line: &str, answer: &Answer, session: &Session) {
        let Ok(view) = View::of(&session.image, &session.geometry) else {
            return;
        };
        if let (Answer::Job(_), Ok((_, entry))) = (answer, view.slot_facts(argument(line))) {
            self.deleted.push((entry.start, entry.end()));
            let entries = view.table.entries.len();
            self.rooms[6] += u64::from(entries + 1 == ENTRIES_MAX);
            self.rooms[7] += u64::from(entries == ENTRIES_MAX);
        }
    }

    pub fn count_item(&mut self, outcome: Outcome, choice: Option<Choice>) {
        match (outcome, choice) {
            (_, None) => self.book_broken += 1,
            (Outcome::Refused, _) => self.book[0] += 1,
            (Outcome::Finished, _) => self.book[1] += 1,
            (Outcome::Cut, Some(Choice::Unchanged)) => self.book[2] += 1,
            (Outcome::Cut, Some(Choice::Changed)) => self.book[3] += 1,
        }
    }
}

/// How many places of the copy read are live.
fn live_places(view: &View) -> usize {
    let judged = view.pointers.places().map(|value| judge(value, &view.table.starts));
    judged.filter(|judgement| matches!(judgement, Judgement::Live(_))).count()
}

/// Whether the copy read has other bytes than 0xFF both before its places and behind them.
fn bytes_to_keep(session: &Session) -> bool {
    let Ok(View { pointers: PointerBlock { bytes, shape }, .. }) =
        View::of(&session.image, &session.geometry)
    else {
        return false;
    };
    let around = [&bytes[OFFSET_LEAST..shape.offset], &bytes[shape.end()..]];
    around.iter().all(|bytes| bytes.iter().any(|&byte| byte != ERASED))
}

/// The number in a line such as `delete 3`.
fn argument(line: &str) -> u32 {
    let number = line.split(' ').nth(1).and_then(|word| word.parse().ok());
    number.expect("a number of the line")
}

/// Whether the slot of a line such as `enable 3` is the first of the boot order.
fn line_names_first_slot(line: &str, session: &Session) -> bool {
    let view = View::of(&session.image, &session.geometry);
    view.is_ok_and(|view| view.order().first() == Some(&argument(line)))
}

/// Steps of a job that rewrites a pair.
const REWRITE_BOTH: usize = 2 * REWRITE_STEPS;

fn job_kind(word: &str, steps: usize, session: &Session) -> usize {
    let in_table = match session.job.as_ref().and_then(|job| job.next_step()) {
        Some(Step::Erase { address } | Step::Program { address, .. }) => {
            let tables = session.geometry.table_addresses;
            tables.iter().any(|&table| (table..table + 4).contains(&(address as u64)))
        }
        None => false,
    };
    match (word, steps) {
        ("enable", 0) => 0,
        ("enable", REWRITE_BOTH) => 2,
        ("enable", _) => 1,
        ("disable", 16) => 3,
        ("disable", REWRITE_BOTH) => 5,
        ("disable", _) => 4,
        ("rename", 0) => 6,
        ("rename", _) => 7,
        ("create", _) => 8,
        ("delete", _) => 9,
        (_, 0) => 10,
        (_, REWRITE_BOTH) => 13,
        _ if in_table => 11,
        _ => 12,
    }
}

impl fmt::Display for Tally {
    fn fmt(&self, out: &mut fmt::Formatter<'_>) -> fmt::Result {
        let (accepted, refused) = (self.accepted(), self.refused());
        writeln!(out, "{} scripts, {} commands", self.scripts, self.commands())?;
        let (flashes, shaped) = (self.flashes, self.flashes_shaped);
        writeln!(out, "{flashes} flashes, {shaped} with pointer blocks not of the old edition")?;
        writeln!(out, "{accepted} accepted, {refused} refused")?;
        for (name, (accepted, refused)) in COMMANDS.iter().zip(self.commands) {
            writeln!(out, "  {name}: {accepted} accepted, {refused} refused")?;
        }
        writeln!(out, "refusals")?;
        for (number, count) in NUMBERS.iter().zip(self.refusals) {
            writeln!(out, "  {number}: {count}")?;
        }
        writeln!(out, "  {} of 14 where the slot is first already", self.first_and_empty)?;
        writeln!(out, "first broken rule of a table: {}", WHERE_BROKEN.join(", "))?;
        for (rule, [first, second, both]) in (1..).zip(self.broken_rules) {
            writeln!(out, "  {rule}: {first}, {second}, {both}")?;
        }
        writeln!(out, "listings with")?;
        for (name, count) in LISTING_KINDS.iter().zip(self.listings) {
            writeln!(out, "  {name}: {count}")?;
        }
        writeln!(out, "jobs")?;
        for (name, count) in JOB_KINDS.iter().zip(self.jobs) {
            writeln!(out, "  {name}: {count}")?;
        }
        for ((name, _), count) in ROOM_KINDS.iter().zip(self.rooms) {
            writeln!(out, "  {name}: {count}")?;
        }
        let keeping = self.keeping_rewrites;
        writeln!(out, "  {keeping} of 8202 with bytes before and behind the places to be kept")?;
        let (lowest, torn) = (self.cuts_inside_an_erase, self.torn_erases);
        writeln!(out, "{} cuts", self.cuts)?;
        writeln!(out, "  {lowest} inside an erase that has wiped the lowest bytes")?;
        writeln!(out, "  {torn} inside an erase that has wiped any bytes")?;
        writeln!(out, "{} other lines, {} scripts with an error", self.other_lines, self.errors)?;
        let [refused, finished, old, new] = self.book;
        let items = self.book.iter().sum::<u64>() + self.book_broken;
        writeln!(out, "book: {items} items, {refused} refused, {finished} finished,")?;
        writeln!(out, "  {} cut ({old} read as before, {new} changed)", old + new)?;
        write!(out, "  {} where no choice fits", self.book_broken)
    }
}
