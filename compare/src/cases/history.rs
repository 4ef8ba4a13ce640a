//! A list of items on flash whose pairs agree, entered into the book one by one.

use crate::cases::arguments::{random_budget, random_command, random_cut, random_slot};
use crate::cases::layout::random_flash;
use crate::cases::random::Random;
use crate::cases::script::Writer;
use crate::document::book::{Book, Choice, Item, Outcome};
use crate::document::commands::Command;
use crate::document::reading::View;
use crate::replay::Answer;

/// Writes a script of some items, and judges each by the book.
pub fn write_history(random: &mut Random, writer: &mut Writer, items: u64) {
    let flash = random_flash(random);
    writer.build(&flash);
    writer.line("order");
    let frame = Frame::of(writer);
    let reading = view(writer).expect("a flash that stands").reading();
    let mut book = Book::begin(reading);
    for _ in 0..items {
        let command = random_command(random, &writer.session);
        let Some(item) = view(writer).map(|got| Item::of(&command, &got)) else {
            return;
        };
        let outcome = write_item(random, writer, &command);
        write_questions(random, writer);
        let choice = judge(writer, &mut book, &item, outcome, &frame);
        writer.tally.count_item(outcome, choice);
        if choice.is_none() {
            return;
        }
    }
    writer.line("sum");
}

/// The bytes outside the first granules of the four blocks.
struct Frame {
    before: Vec<u8>,
    granules: Vec<(usize, usize)>,
}

impl Frame {
    fn of(writer: &Writer) -> Frame {
        let view = view(writer).expect("a flash that stands");
        let granule = writer.session.geometry.granule as usize;
        let blocks = view.table_addresses.into_iter().chain(view.table.pointer_addresses);
        let mut granules: Vec<(usize, usize)> =
            blocks.map(|address| (address, address + granule)).collect();
        granules.sort_unstable();
        Frame { before: view.image.to_vec(), granules }
    }

    fn kept_by(&self, image: &[u8]) -> bool {
        let mut at = 0;
        for &(start, end) in &self.granules {
            if image[at..start] != self.before[at..start] {
                return false;
            }
            at = end;
        }
        image[at..] == self.before[at..]
    }
}

fn view<'a>(writer: &'a Writer) -> Option<View<'a>> {
    View::of(&writer.session.image, &writer.session.geometry).ok()
}

/// The choice with which the book's reading is the flash's; none also where a finished item
/// leaves pairs that disagree, or a byte outside the four granules has changed.
fn judge(
    writer: &Writer,
    book: &mut Book,
    item: &Item,
    outcome: Outcome,
    frame: &Frame,
) -> Option<Choice> {
    let view = view(writer)?;
    let agree = view.tables_agree() && view.pointers_agree();
    if outcome == Outcome::Finished && !agree || !frame.kept_by(&writer.session.image) {
        return None;
    }
    book.enter(item, outcome, &view.reading())
}

/// One command and the runs of its job, to its end or to a cut.
fn write_item(random: &mut Random, writer: &mut Writer, command: &Command) -> Outcome {
    let steps = match writer.start(command) {
        Answer::Job(steps) => steps,
        _ => return Outcome::Refused,
    };
    if steps > 0 && random.percent(45) {
        return write_cut(random, writer);
    }
    while remaining(writer) > 0 {
        let budget = random_budget(random, remaining(writer));
        writer.line(format!("run {budget}"));
        if random.percent(10) {
            writer.line("order");
        }
    }
    if random.percent(15) {
        let budget = random_budget(random, 0);
        writer.line(format!("run {budget}"));
    }
    Outcome::Finished
}

/// Runs that do not finish the job, then a cut or nothing more.
fn write_cut(random: &mut Random, writer: &mut Writer) -> Outcome {
    if random.percent(30) {
        let budget = random.below(remaining(writer) as u64);
        writer.line(format!("run {budget}"));
    }
    if random.percent(90) {
        let job = writer.session.job.as_ref().expect("the job just started");
        let cut = random_cut(random, job);
        writer.cut(&cut);
    }
    Outcome::Cut
}

fn remaining(writer: &Writer) -> usize {
    writer.session.job.as_ref().map_or(0, |job| job.remaining())
}

fn write_questions(random: &mut Random, writer: &mut Writer) {
    if random.percent(80) {
        writer.line("order");
    }
    if random.percent(40) {
        writer.line("sum");
    }
    if random.percent(6) {
        writer.line("list");
    }
    let Some(view) = view(writer) else {
        return;
    };
    let slots = view.table.slots.len();
    let pointer_address = random.pick(&view.table.pointer_addresses);
    let table_address = random.pick(&view.table_addresses);
    let (order_length, entries) = (view.order().len(), view.table.entries.len());
    let shape = view.pointers.shape;
    match random.below(8) {
        0 | 1 => {
            let slot = random_slot(random, slots);
            writer.line(format!("slot {slot}"));
        }
        2 => {
            let row = random.pick(&[order_length, order_length.saturating_sub(1), 0, 508]);
            writer.line(format!("order {row}"));
        }
        3 => {
            let places = random.pick(&[5, shape.count]).min(shape.count);
            let at = shape.place_offset(random.index(places));
            writer.line(format!("peek {} 8", pointer_address + at));
        }
        4 => {
            let entry = random.index(entries);
            writer.line(format!("peek {} 32", table_address + 32 + 32 * entry));
        }
        _ => {}
    }
}
