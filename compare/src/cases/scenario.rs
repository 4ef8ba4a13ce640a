//! Scripts on images that are damaged, told of wrongly, or changed under a running job.

use crate::cases::arguments::{
    any_command, random_budget, random_command, random_create, random_cut, random_delete,
    random_gap, random_slot,
};
use crate::cases::damage::{pointer_damage, rule_damage, shape_damage, table_damage, Damage};
use crate::cases::flash::Flash;
use crate::cases::history::write_history;
use crate::cases::layout::{
    dead_value, random_flash, random_flash_of, random_name, random_value, slot_starts,
};
use crate::cases::random::Random;
use crate::cases::script::Writer;
use crate::document::commands::Command;
use crate::document::image::BLOCK_BYTES;
use crate::document::pointers::PLACE_BYTES;
use crate::document::reading::View;
use crate::document::rooms::lowest_room;
use crate::document::steps::Step;
use crate::document::table::{ENTRIES_MAX, RULES};
use crate::replay::{hex, Answer, IMAGE_BYTES_MAX};

/// Writes one script of a random kind.
pub fn write_script(random: &mut Random, writer: &mut Writer) {
    match random.below(100) {
        0..=42 => {
            let items = random.between(6, 16);
            write_history(random, writer, items);
        }
        43..=51 => write_rooms(random, writer),
        52..=69 => write_damaged(random, writer),
        70..=79 => write_broken_rules(random, writer),
        80..=86 => write_wrong_geometry(random, writer),
        87..=92 => write_wrong_length(random, writer),
        93..=94 => write_other_writer(random, writer),
        95..=97 => write_listings(random, writer),
        _ => write_dumps(random, writer),
    }
}

/// One or two damaged copies, then every reader and every command.
fn write_damaged(random: &mut Random, writer: &mut Writer) {
    let flash = random_flash(random);
    writer.build(&flash);
    let rounds = random.pick(&[1, 2]);
    for _ in 0..rounds {
        damage_some(random, writer, &flash);
        write_everything(random, writer);
    }
}

/// Both table copies broken, each by a rule, and one reader or command or several. The copies are
/// mended before the next two rules.
fn write_broken_rules(random: &mut Random, writer: &mut Writer) {
    let mut flash = random_flash(random);
    // Rule 11 can be broken on the larger granules alone.
    while flash.granule == BLOCK_BYTES as u64 && random.percent(50) {
        flash = random_flash(random);
    }
    writer.build(&flash);
    for _ in 0..random.between(4, 8) {
        let rule = 1 + random.index(RULES);
        let other = if random.percent(45) { rule } else { 1 + random.index(RULES) };
        let first = rule_damage(random, &flash, rule);
        let second =
            if random.percent(30) { first.clone() } else { rule_damage(random, &flash, other) };
        let damages = [first, second];
        for (address, damage) in flash.table_addresses().into_iter().zip(&damages) {
            store(writer, address, damage);
        }
        write_questions(random, writer);
        for (address, damage) in flash.table_addresses().into_iter().zip(&damages) {
            let mended = damage.iter().map(|(at, bytes)| {
                let old = &flash.table[*at..*at + bytes.len()];
                (*at, old.to_vec())
            });
            store(writer, address, &mended.collect());
        }
    }
    writer.line("order");
}

/// Mostly one question of a flash that is likely to be refused.
fn write_questions(random: &mut Random, writer: &mut Writer) {
    for _ in 0..random.weighted(&[(70, 1), (30, 2)]) {
        if random.percent(50) {
            writer.line("order");
        } else if random.percent(10) {
            writer.line("list");
        } else if random.percent(30) {
            let slot = random_slot(random, 4);
            writer.line(format!("slot {slot}"));
        } else {
            let command = any_command(random);
            writer.start(&command);
        }
    }
}

fn damage_some(random: &mut Random, writer: &mut Writer, flash: &Flash) {
    let (tables, pointers) = (flash.table_addresses(), flash.pointer_addresses());
    let damaged_tables = random.percent(65);
    if damaged_tables {
        let damage = table_damage(random, flash);
        let second = random.percent(20).then(|| table_damage(random, flash));
        damage_pair(random, writer, tables, damage, second);
    }
    if !damaged_tables || random.percent(50) {
        let damage = pointer_damage(random, flash);
        let second = random.percent(40).then(|| pointer_damage(random, flash));
        damage_pair(random, writer, pointers, damage, second);
    }
}

/// Stores damage in one copy, and in the other the same, other damage or none.
fn damage_pair(
    random: &mut Random,
    writer: &mut Writer,
    addresses: [u64; 2],
    damage: Damage,
    second: Option<Damage>,
) {
    let copy = random.index(2);
    store(writer, addresses[copy], &damage);
    match second {
        Some(second) => store(writer, addresses[1 - copy], &second),
        None if random.percent(60) => store(writer, addresses[1 - copy], &damage),
        None => {}
    }
}

fn store(writer: &mut Writer, address: u64, damage: &Damage) {
    for (offset, bytes) in damage {
        writer.line(format!("put {} {}", address + *offset as u64, hex(bytes)));
    }
}

/// Every reader, some commands with their jobs run or cut, and the readers again.
fn write_everything(random: &mut Random, writer: &mut Writer) {
    writer.line("order");
    let slot = random_slot(random, 4);
    writer.line(format!("slot {slot}"));
    let commands = random.between(2, 5);
    for _ in 0..commands {
        let command = random_command(random, &writer.session);
        if let Answer::Job(steps) = writer.start(&command) {
            write_runs(random, writer, steps);
        }
    }
    writer.line("order");
    if random.percent(30) {
        writer.line("list");
    }
    writer.line("sum");
}

/// Slots deleted and created, many in the room of others; dead places put where a create would begin.
fn write_rooms(random: &mut Random, writer: &mut Writer) {
    let full = random.weighted(&[(15, ENTRIES_MAX - 2), (30, ENTRIES_MAX - 1), (55, ENTRIES_MAX)]);
    let flash =
        if random.percent(30) { random_flash_of(random, full) } else { random_flash(random) };
    writer.build(&flash);
    for _ in 0..random.between(4, 9) {
        match random.below(100) {
            0..=34 => write_reuse(random, writer),
            35..=59 => write_held(random, writer, &flash),
            60..=84 => write_create(random, writer),
            _ => {
                let command = random_command(random, &writer.session);
                write_finished(random, writer, &command);
            }
        }
        if random.percent(30) {
            writer.line("order");
        }
    }
    writer.line("sum");
}

/// A slot outside the order deleted, mostly the lowest, and one created that mostly fits its room.
fn write_reuse(random: &mut Random, writer: &mut Writer) {
    let Ok(view) = View::of(&writer.session.image, &writer.session.geometry) else {
        return;
    };
    let order = view.order();
    let outside = (0..).zip(&view.table.slots).filter(|(slot, _)| !order.contains(slot));
    let lowest = outside.min_by_key(|(_, &number)| view.table.entries[number].start);
    let Some((slot, &number)) = lowest else {
        return;
    };
    let length = view.table.entries[number].length;
    let slots = view.table.slots.len();
    let any = random_delete(random, &view);
    let delete = if random.percent(75) { Command::Delete(slot) } else { any };
    write_finished(random, writer, &delete);
    let name = random_name(random);
    write_finished(random, writer, &Command::Create(length, name));
    let slot = random.pick(&[slots.saturating_sub(2), slots - 1]);
    writer.line(format!("slot {slot}"));
}

fn write_create(random: &mut Random, writer: &mut Writer) {
    if let Ok(view) = View::of(&writer.session.image, &writer.session.geometry) {
        let command = random_create(random, &view);
        write_finished(random, writer, &command);
    }
}

/// A dead place where a slot of some length would begin, and the create of one.
fn write_held(random: &mut Random, writer: &mut Writer, flash: &Flash) {
    let Ok(view) = View::of(&writer.session.image, &writer.session.geometry) else {
        return;
    };
    let length = random_gap(random, &view);
    let slots = view.table.slots.len();
    if let Some(start) = lowest_room(&view, u64::from(length)) {
        let place = flash.shape.place_offset(random.index(flash.shape.count));
        let value = vec![(place, start.to_le_bytes().to_vec())];
        for block in flash.pointer_addresses() {
            store(writer, block, &value);
        }
    }
    let name = random_name(random);
    write_finished(random, writer, &Command::Create(length, name));
    writer.line(format!("slot {slots}"));
}

/// A command whose job is run or cut, and a repair if one is due.
fn write_finished(random: &mut Random, writer: &mut Writer, command: &Command) {
    if let Answer::Job(steps) = writer.start(command) {
        write_runs(random, writer, steps);
        if matches!(writer.start(&Command::Repair), Answer::Job(steps) if steps > 0) {
            writer.line(format!("run {}", u64::MAX));
        }
    }
}

/// Dead, live and erased values put into places, some at either end, and the listing.
fn write_listings(random: &mut Random, writer: &mut Writer) {
    let flash = random_flash(random);
    writer.build(&flash);
    writer.line("list");
    if random.percent(40) {
        fill_places(random, writer, &flash);
        writer.line("list");
    }
    let starts = slot_starts(&flash.partitions);
    for _ in 0..random.between(4, 9) {
        let count = flash.shape.count;
        let (low, any) = (random.index(count.min(4)), random.index(count));
        let place = random.pick(&[0, count - 1, low, any]);
        let value = match random.below(10) {
            0 | 1 => random_value(random, &starts),
            _ => dead_value(random, &flash.partitions),
        };
        let both = random.percent(85);
        for block in flash.pointer_addresses().into_iter().take(if both { 2 } else { 1 }) {
            let address = block + flash.shape.place_offset(place) as u64;
            writer.line(format!("put {address} {}", hex(&value.to_le_bytes())));
        }
        writer.line("list");
        if random.percent(20) {
            let command = random_command(random, &writer.session);
            if let Answer::Job(steps) = writer.start(&command) {
                write_runs(random, writer, steps);
                writer.line("list");
            }
        }
    }
    writer.line("order");
}

/// One dead value in every place of both copies.
fn fill_places(random: &mut Random, writer: &mut Writer, flash: &Flash) {
    let [cpb0, cpb1] = flash.pointer_addresses();
    let places = flash.shape.count;
    let first = cpb0 + flash.shape.offset as u64;
    let value = dead_value(random, &flash.partitions);
    writer.line(format!("put {first} {}", hex(&value.to_le_bytes())));
    let mut filled = 1;
    while filled < places {
        let more = filled.min(places - filled);
        let (to, bytes) = (first + (filled * PLACE_BYTES) as u64, more * PLACE_BYTES);
        writer.line(format!("copy {first} {to} {bytes}"));
        filled += more;
    }
    writer.line(format!("copy {cpb0} {cpb1} {BLOCK_BYTES}"));
}

fn write_runs(random: &mut Random, writer: &mut Writer, steps: usize) {
    if steps > 0 && random.percent(25) {
        let job = writer.session.job.as_ref().expect("the job just started");
        let cut = random_cut(random, job);
        writer.cut(&cut);
        return;
    }
    let budget = random_budget(random, steps);
    writer.line(format!("run {budget}"));
    if random.percent(60) {
        writer.line(format!("run {}", u64::MAX));
    }
}

/// A granule or table addresses that are not those of the image.
fn write_wrong_geometry(random: &mut Random, writer: &mut Writer) {
    let flash = random_flash(random);
    writer.build(&flash);
    for _ in 0..3 {
        let (granule, [first, second]) = wrong_geometry(random, &flash);
        writer.line(format!("box {granule} {first} {second}"));
        write_everything(random, writer);
    }
}

fn wrong_geometry(random: &mut Random, flash: &Flash) -> (u64, [u64; 2]) {
    let [first, second] = flash.table_addresses();
    let granule = flash.granule;
    let length = flash.image_length as u64;
    let number = random.number();
    let granules = [0, 1, 2048, 4095, 4097, 8192, 16_384, 131_072, 1 << 32 | granule, number];
    let other_granules = [4096, 32_768, 65_536];
    let addresses = [
        first,
        first + 1,
        first + 4096,
        first + granule,
        0,
        length,
        length - 4096,
        length.saturating_sub(granule),
        1 << 63,
        1 << 32 | first,
        u64::MAX,
        u64::MAX - 4095,
        u64::MAX - granule + 1,
        number,
    ];
    match random.below(6) {
        0 => (random.pick(&granules), [first, second]),
        1 => (random.pick(&other_granules), [first, second]),
        2 => (granule, [random.pick(&addresses), second]),
        3 => (granule, [first, random.pick(&addresses)]),
        4 => (granule, [first, first]),
        _ => (granule, [second, first]),
    }
}

/// Another image length, before a command and under its job.
fn write_wrong_length(random: &mut Random, writer: &mut Writer) {
    let flash = random_flash(random);
    writer.build(&flash);
    let length = flash.image_length as u64;
    for _ in 0..3 {
        let other = other_length(random, length);
        let command = random_command(random, &writer.session);
        if let Answer::Job(steps) = writer.start(&command) {
            if random.percent(50) {
                let budget = random_budget(random, steps);
                writer.line(format!("run {budget}"));
            }
            writer.line(format!("length {other}"));
            let job = writer.session.job.as_ref().expect("the job just started");
            if job.remaining() > 0 && random.percent(25) {
                let cut = random_cut(random, job);
                writer.cut(&cut);
                writer.line(format!("length {length}"));
                continue;
            }
            let budget = random_budget(random, steps);
            writer.line(format!("run {budget}"));
            writer.line(format!("length {length}"));
            writer.line(format!("run {}", u64::MAX));
        }
        writer.line("order");
        writer.line("sum");
    }
    let other = other_length(random, length);
    writer.line(format!("length {other}"));
    writer.line("order");
    writer.line("list");
    writer.line("slot 0");
    for _ in 0..4 {
        let command = any_command(random);
        writer.start(&command);
    }
    writer.line("sum");
}

fn other_length(random: &mut Random, length: u64) -> u64 {
    let lengths = [
        0,
        1,
        4095,
        4096,
        length - 4096,
        length - 1,
        length + 1,
        length + 4096,
        IMAGE_BYTES_MAX,
        IMAGE_BYTES_MAX - 1,
        random.below(IMAGE_BYTES_MAX),
    ];
    random.pick(&lengths).min(IMAGE_BYTES_MAX)
}

/// Bytes stored under a job where its steps will program: only these show `old AND given`.
fn write_other_writer(random: &mut Random, writer: &mut Writer) {
    let flash = random_flash(random);
    writer.build(&flash);
    for _ in 0..4 {
        let command = random_command(random, &writer.session);
        let Answer::Job(steps) = writer.start(&command) else {
            continue;
        };
        if steps > 0 {
            let budget = random.pick(&[0, 1, 2, steps / 2 + 1]);
            writer.line(format!("run {budget}"));
        }
        let job = writer.session.job.as_ref().expect("the job just started");
        let steps = random.pick(&[1, 8, 40]);
        let step = random.index(steps);
        if let Some(Step::Program { address, .. } | Step::Erase { address }) = job.step_after(step)
        {
            writer.line(format!("put {address} {}", hex(&random.bytes(1))));
        }
        writer.line(format!("run {}", u64::MAX));
        writer.line("sum");
        writer.line("order");
    }
}

/// Pairs of dumps: whole, damaged, too short, too long, empty.
fn write_dumps(random: &mut Random, writer: &mut Writer) {
    let flash = random_flash(random);
    writer.build(&flash);
    let pointers = flash.pointer_addresses();
    for address in pointers {
        if random.percent(40) {
            let damage = pointer_damage(random, &flash);
            store(writer, address, &damage);
        }
    }
    for _ in 0..6 {
        let parts = [0, 1].map(|_| {
            let address =
                random.pick(&[pointers[0], pointers[1], pointers[0], flash.start_of("SPT0")]);
            let block = BLOCK_BYTES as u64;
            let length = random.weighted(&[(60, block), (10, block - 1), (10, 0), (10, 32)]);
            (address, length)
        });
        let [(first, first_length), (second, second_length)] = parts;
        writer.line(format!("dumps {first} {first_length} {second} {second_length}"));
    }
    writer.line("order");
    write_shapes(random, writer, &flash);
}

/// Both pointer blocks with the same other offset or count, and what is read then.
fn write_shapes(random: &mut Random, writer: &mut Writer, flash: &Flash) {
    for _ in 0..8 {
        for block in flash.pointer_addresses() {
            store(writer, block, &vec![(0, flash.pointers[..0x20].to_vec())]);
        }
        let damage = shape_damage(random, flash.shape);
        for block in flash.pointer_addresses() {
            store(writer, block, &damage);
        }
        let [first, second] = flash.pointer_addresses();
        writer.line(format!("dumps {second} {BLOCK_BYTES} {first} {BLOCK_BYTES}"));
        write_questions(random, writer);
    }
}
