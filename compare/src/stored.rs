//! The scripts that are stored with what they print: worked examples, then random ones.

use crate::cases::errors::write_error;
use crate::cases::flash::{partition, Flash};
use crate::cases::random::Random;
use crate::cases::scenario::write_script;
use crate::cases::script::{Script, Writer};
use crate::cases::tally::Tally;
use crate::document::pointers::{Shape, OFFSET_FIELD};
use crate::document::table::RULES;
use crate::replay::hex;

/// Longer random scripts are left out, and such as print more.
const SCRIPT_BYTES_MAX: usize = 6_000;
/// All scripts together stay below this length.
const STORED_BYTES_MAX: usize = 700_000;

/// Scripts that reach every refusal and every kind of job; the last ends in an error.
pub fn stored_scripts(seed: u64) -> (Vec<Script>, Tally) {
    let mut tally = Tally::default();
    let mut scripts = worked_examples(&mut tally);
    let mut random = Random::new(seed);
    let mut bytes: usize = scripts.iter().map(script_bytes).sum();
    while bytes < STORED_BYTES_MAX {
        let seed = random.number();
        let mut trial = Tally::default();
        let script = random_script(seed, &mut trial);
        if script_bytes(&script).max(printed_bytes(&script)) <= SCRIPT_BYTES_MAX {
            bytes += script_bytes(&script);
            scripts.push(random_script(seed, &mut tally));
        }
    }
    let mut writer = Writer::new(&mut tally, None);
    write_error(&mut random, &mut writer);
    scripts.push(writer.script);
    (scripts, tally)
}

fn random_script(seed: u64, tally: &mut Tally) -> Script {
    let mut random = Random::new(seed);
    let mut writer = Writer::new(tally, None);
    write_script(&mut random, &mut writer);
    writer.script
}

fn script_bytes(script: &Script) -> usize {
    script.lines.iter().map(|line| line.len() + 1).sum()
}

fn printed_bytes(script: &Script) -> usize {
    script.printed.iter().map(|printed| printed.text.len() + 1).sum()
}

fn worked_examples(tally: &mut Tally) -> Vec<Script> {
    let mut scripts = Vec::new();
    let split = |lines: &str| lines.split("; ").map(str::to_string).collect();
    let examples = examples().into_iter().map(|(title, flash, lines)| (title, flash, split(lines)));
    for (title, flash, lines) in examples.chain([broken_rules(), shapes()]) {
        let mut writer = Writer::new(tally, None);
        writer.line(format!("# {title}"));
        writer.build(&flash);
        for line in lines {
            writer.line(line);
        }
        writer.line("sum");
        scripts.push(writer.script);
    }
    scripts
}

/// What breaks rule 1, 2 and so on of the quarry image of granule 32,768: offsets in the table and
/// the bytes there. The entries at fault are 8, 8, 6, 8 and 7 for rules 3 to 7, then 0, 2 and 4 for
/// rules 9 to 11.
const BREAKING: [&[(usize, &[u8])]; RULES] = [
    &[(0, &[0])],
    &[(8, &[0])],
    &[(288, &[0])],
    &[(288, b"P1")],
    &[(248, &[1])],
    &[(314, &[8])],
    &[(241, &[0x80])],
    &[(32, b"b")],
    &[(49, &[0x80]), (56, &[0, 0x80, 0, 0])],
    &[(99, b"1"), (131, b"0")],
    &[(185, &[0x70])],
];

/// Every rule broken in both copies, and in SPT0 with the next rule in SPT1.
fn broken_rules() -> (&'static str, Flash, Vec<String>) {
    let flash = Flash::quarry_wide(8);
    let mut lines = Vec::new();
    for (rule, breaking) in BREAKING.iter().enumerate() {
        for other in [breaking, &BREAKING[(rule + 1) % RULES]] {
            let both = flash.table_addresses().into_iter().zip([breaking, other]);
            for (table, breaking) in both.clone() {
                for (at, bytes) in *breaking {
                    lines.push(format!("put {} {}", table + *at as u64, hex(bytes)));
                }
            }
            lines.push("order".to_string());
            for (table, breaking) in both {
                for (at, bytes) in *breaking {
                    let old = &flash.table[*at..*at + bytes.len()];
                    lines.push(format!("put {} {}", table + *at as u64, hex(old)));
                }
            }
        }
    }
    lines.push("order".to_string());
    ("document 02, No. 8: every rule broken in both tables, then with the next one", flash, lines)
}

/// Offsets and counts that stand, and such as just do not.
const SHAPES: [(u32, u32); 22] = [
    (0x20, 508),
    (0x20, 509),
    (0x20, 1),
    (0x20, 0),
    (0x18, 508),
    (0x1C, 508),
    (0x24, 507),
    (0x28, 507),
    (0x28, 508),
    (2048, 256),
    (2048, 257),
    (4080, 2),
    (4080, 3),
    (4088, 1),
    (4088, 2),
    (4088, 0),
    (4092, 1),
    (4096, 0),
    (4096, 1),
    (u32::MAX - 7, u32::MAX),
    (0x20, u32::MAX),
    (0x20, 1 << 29 | 508),
];

/// Every such shape told in both pointer blocks.
fn shapes() -> (&'static str, Flash, Vec<String>) {
    let flash = Flash::quarry();
    let [cpb0, cpb1] = flash.pointer_addresses();
    let mut lines = Vec::new();
    for (offset, count) in SHAPES {
        let fields = hex(&[offset, count].map(u32::to_le_bytes).concat());
        let puts =
            [cpb0, cpb1].map(|block| format!("put {} {fields}", block + OFFSET_FIELD as u64));
        lines.extend(puts);
        lines.push("order".to_string());
        lines.push(format!("dumps {cpb0} 4096 {cpb1} 4096"));
    }
    ("document 02, No. 9: which offsets and counts stand", flash, lines)
}

/// The cases of the documents on the quarry image, and the vendor's example. In CPB0 of the quarry
/// image, places 2, 3 and 507 are at 24624, 24632 and 28664.
fn examples() -> Vec<(&'static str, Flash, &'static str)> {
    let quarry = Flash::quarry;
    let sent = || quarry().with_first_bytes();
    let used_up_to = |highest: usize| {
        let mut places = vec![0; highest + 1];
        places[..2].copy_from_slice(&[0x8000, 0x9000]);
        Flash::quarry_with(65_536, 0x8000, 0x9000, &places).with_first_bytes()
    };
    let case_9 = || Flash::quarry_with(73_728, 0x1_1000, 0x1_0000, &[0x1_1000, 0x1_0000]);
    let case_6 = "enable 2; cut 15; peek 24624 8; order; enable 2; repair; run 4101; enable 2; \
        run 16; peek 24632 8; order";
    let names = "rename 0 4e4e4e4e4e4e4e4e4e4e4e4e4e4e4e; run 8202; slot 0; \
        rename 0 4e4e4e4e4e4e4e4e4e4e4e4e4e4e4e4e";
    let no_magic = "put 16384 00; put 20480 00; order; slot 0; enable 0; disable 0; rename 0 41; \
        repair; put 20480 27; put 20484 01; order; put 20484 00; order";
    let empty = "enable 1; enable 2; put 40959 00; put 45056 00; enable 2; enable 3; disable 1; \
        put 45055 fe; enable 2; run 16; order; enable 2; put 45055 ff; enable 2; enable 1; enable 0; \
        put 32768 00; enable 0";
    let zeros = "rename 0 41; cut 1; peek 20480 5; order; repair; cut 2; peek 20480 5; repair; \
        run 3; peek 20480 5; run 1; peek 20480 5; run 1; peek 20480 5; run 4096; sum; repair; \
        rename 0 41; run 4101; peek 16384 5; slot 0; run 1; peek 16384 5; slot 0; cut 2; \
        peek 16384 5; repair; torn 3 0 4096; peek 16384 5; slot 0; disable 2";
    let torn =
        "rename 0 41; torn 4 1 2 32 64 4090 100; peek 20480 6; peek 24570 8; order; enable 0; \
        repair; run 3; torn 1 0 1; peek 20480 6; order; repair; run 4101; slot 0; rename 0 41; \
        torn 4105 3 1; peek 16384 6; slot 0; repair; torn 4 0 0; repair; torn 4 0 4096; repair; \
        torn 4 4096 1 18446744073709551615 18446744073709551615; peek 16384 6; repair; run 4101; \
        slot 0; repair; enable 2; torn 0 0 4096; order; repair";
    let wide =
        "rename 1 42; torn 4 4096 61440 0 2; peek 327680 5; peek 331776 2; order; sum; repair; \
        torn 4 8192 18446744073709551615; sum; repair; run 5; sum; run 4096; order; slot 1";
    let kinds =
        "put 24608 0000000000000000; put 26640 00a00000000000ff; put 28664 0100000000000000; \
        list; put 24608 ffffffffffff00ff; put 26640 ffffffffffffff00; put 28664 0000000000000000; \
        list; put 24608 0000000000000080; put 26640 0000000000000000; put 28664 feffffffffffffff; \
        list; put 24616 0060000000000000; list; put 24608 ffffffffffffffff; \
        put 24616 ffffffffffffffff; put 26640 ffffffffffffffff; put 28664 ffffffffffffffff; list";
    let all_dead = "put 24608 00000000000000000080000000000100; copy 24608 24624 16; \
        copy 24608 24640 32; copy 24608 24672 64; copy 24608 24736 128; copy 24608 24864 256; \
        copy 24608 25120 512; copy 24608 25632 1024; copy 24608 26656 2016; list; order; \
        put 26640 0090000000000000; list";
    let half_cleared = "list; put 24624 0010010000000000; put 24632 0000000000000000; \
        put 24640 0010000000000000; list; order";
    let other_setting = "list; put 159784 00000800000000ff; put 163880 00000800000000ff; rename 0 20ff7e; run 8202; list";
    let refused = "put 16384 00; put 20480 00; list; put 20480 27; put 20488 00; list; order; \
        box 1 16384 20480; list; box 4096 16384 16384; list; length 0; list; image 65536 0; list";
    let shaped = |offset: usize, count: usize, places: &[u64]| {
        sent().shaped(Shape { offset, count }, places)
    };
    let next_edition =
        "order; enable 2; run 16; peek 24632 8; order; list; disable 0; run 16; list";
    let last_place = "order; enable 0; enable 1; enable 2; enable 3; disable 1; put 36864 ff; \
        enable 1; put 36864 00; disable 0; run 16; list; enable 1; run 8202; order; enable 0; \
        enable 1";
    let behind = "put 24640 00a0000000000000; put 28736 00a0000000000000; put 28671 07; \
        put 32767 07; order; list; enable 2; run 8202; peek 24592 56; peek 28671 1; order; \
        enable 0; run 16; peek 24608 40; enable 1; cut 4102; order; repair; run 4101; order; list";
    let before = "put 24608 0080000000000000; put 28704 0080000000000000; put 24630 0102; \
        put 28726 0102; put 24648 0304; put 28744 0304; order; disable 1; run 16; enable 1; \
        run 8202; peek 24592 64; order; enable 2; enable 0; run 8202; peek 24592 64; order";
    let clash = "put 28692 fb; order; enable 1; disable 1; rename 1 41; repair; run 4101; repair; \
        put 24592 28000000fb010000; order; list; enable 1; repair; run 4101; peek 28688 8; enable 1; \
        put 24596 00; order; repair";
    let without_p3 = |places: &[u64]| {
        let mut partitions = quarry().partitions;
        partitions.pop();
        Flash::new(65_536, 4096, partitions, places)
    };
    let reused = "delete 2; run 8202; order; slot 2; peek 16392 4; peek 16640 64; \
        create 4096 5034; run 8202; slot 2; peek 16392 4; peek 16640 96; order; list";
    let held =
        "create 4096 5034; run 8202; slot 2; order; list; create 4096 5035; run 8202; slot 3";
    let not_created = "create 4096; create 0 53505430; create 4096 410042; \
        create 4096 4e4e4e4e4e4e4e4e4e4e4e4e4e4e4e4e; create 0 5032; create 0 5034; create 1 5034; \
        create 4095 5034; create 4294967295 5034; create 24576 5034; create 4294963200 5034; \
        create 20480 5034; run 8202; slot 3; create 4096 5035; create 0 5035; delete 3; run 8202; \
        create 20480 5035; put 20492 01; create 0; create 4096 5035; repair; run 4101; \
        create 4096 5035; cut 0; put 16384 00; put 20480 00; create 0; delete 9";
    let not_deleted = "delete 0; delete 1; delete 3; delete 4294967295; put 20492 01; delete 3; \
        repair; run 4101; disable 0; run 16; delete 0; run 8202; order; slot 0; slot 1; slot 2; \
        list; delete 0; delete 1; run 8202; order; delete 1; put 24616 0000000000000000; \
        put 28712 0000000000000000; delete 0; run 8202; order; delete 0";
    let numbers_move =
        "order; delete 0; cut 4105; slot 0; slot 1; order; delete 0; repair; run 4101; \
        delete 0; run 8202; slot 0; order";
    let junk = "put 16396 0102030405060708; put 16704 aaaaaaaaaaaaaaaaeeeeeeeeeeeeeeee; \
        copy 16704 16720 16; copy 16704 16736 32; put 20479 01; copy 16384 20480 4096; \
        create 4096 5034; run 8202; peek 16384 32; peek 16672 96; peek 20479 1; delete 2; run 8202; \
        peek 16384 32; peek 16640 128; peek 20479 1; slot 2";
    let gaps = || {
        let mut partitions = quarry().partitions;
        partitions.push(partition("Q", 0x1_0000, 0x2000, 0));
        Flash::new(0x1_8000, 4096, partitions, &[0x8000, 0xB000, 0xC001, 0x1_3000])
    };
    let where_free = "create 16384 41; run 8202; slot 4; create 24576 42; run 8202; slot 5; \
        create 4096 43; delete 4; run 8202; create 20480 43; create 8192 43; run 8202; slot 5; \
        create 4096 44; run 8202; slot 6; create 4096 45; run 8202; slot 7; create 4096 46; order; \
        put 24616 0000000000000000; put 28712 0000000000000000; create 4096 46; run 8202; slot 8; \
        order; create 4096 47";
    let cut_create = "create 4096 5034; cut 0; create 4096 5034; cut 4101; slot 3; repair; cut 4; \
        slot 3; repair; run 4101; create 4096 5034; torn 4105 0 3 9 1; slot 3; order; repair; \
        run 4101; slot 3; create 4096 5034; delete 3; torn 4 0 4096; slot 3; repair; run 4101; \
        delete 3; cut 4102; slot 3; repair; run 4101; create 8192 5034; run 8202; slot 3";
    let full = "create 4096 41; run 8202; slot 120; create 0 42; create 4096 42; create 4294963200 42; \
        delete 120; run 8202; peek 20448 32; create 8192 42; run 8202; slot 120; delete 2; run 8202; \
        slot 119; delete 119; cut 0; create 4096 43; run 8202; slot 120; create 4096 44; order";
    let many = || {
        let mut partitions = quarry().partitions;
        for number in partitions.len() as u64..126 {
            partitions.push(partition(&format!("S{number}"), (number + 7) * 0x1000, 0x1000, 0));
        }
        Flash::new(0x9_0000, 4096, partitions, &[0x8000, 0x9000])
    };
    let vendor = "order; slot 0; slot 1; slot 2; enable 1; run 16; order";
    vec![
        ("document 01, case 1", quarry(), "order; order 2; order 1; slot 0"),
        ("case 2, with no slot empty", sent(), "enable 2; run 16; peek 24624 8; order"),
        ("case 3", sent(), "enable 1; run 0"),
        ("case 4", sent(), "enable 0; run 16; peek 24624 8; order; disable 0; run 32; order"),
        ("case 5", quarry(), "disable 2; enable 3; disable 3; rename 3; slot 3"),
        ("case 6", sent(), case_6),
        ("case 7, highest 506", used_up_to(506), "enable 2; run 16; peek 28664 8; order"),
        ("case 7, highest 507", used_up_to(507), "enable 2; run 8202; peek 24624 8; order"),
        ("case 8, after step 4,101", used_up_to(507), "enable 2; cut 4101; peek 24576 5; order"),
        ("case 8, after step 4,102", used_up_to(507), "enable 2; cut 4102; peek 24576 5; order"),
        ("case 9, slot 0", case_9(), "disable 0; run 8202; order"),
        ("case 9, slot 1", case_9(), "disable 1; run 16; order"),
        ("case 10, names", quarry(), names),
        ("case 10, an empty image", quarry(), "length 0; order; slot 0; repair"),
        (
            "document 000, 5.2.3 and 6.5.1: P1 first, P2 added and enabled",
            Flash::vendor().with_first_bytes(),
            vendor,
        ),
        ("document 02, No. 8: wrong magics, then a wrong version", quarry(), no_magic),
        ("document 02, No. 2: P2 first already, and P3, both empty", quarry(), empty),
        ("document 02, No. 3: cuts among the zeros", sent(), zeros),
        ("document 02, No. 3: torn erases", sent(), torn),
        ("document 02, No. 3: torn erases of a large granule", Flash::quarry_wide(16), wide),
        ("document 02, No. 7: case 1, no place dead", quarry(), "list"),
        ("document 02, No. 7: case 6", sent(), "enable 2; cut 15; list; repair; run 4101; list"),
        ("document 02, No. 7: each kind at place 0, 254 and 507", quarry(), kinds),
        ("document 02, No. 7: every place dead", quarry(), all_dead),
        ("document 02, No. 7: live, half-cleared and doubled places", case_9(), half_cleared),
        ("document 02, No. 7: a listing of another setting", Flash::vendor(), other_setting),
        ("document 02, No. 7: refused listings", quarry(), refused),
        (
            "document 02, No. 9: offset 0x28 with 507 places",
            shaped(0x28, 507, &[0x8000, 0x9000]),
            next_edition,
        ),
        ("document 02, No. 9: one place at the end", shaped(4088, 1, &[0x8000]), last_place),
        (
            "document 02, No. 9: four places and bytes behind them",
            shaped(0x20, 4, &[0x8000, 0x8000, 0x8000, 0x9000]),
            behind,
        ),
        (
            "document 02, No. 9: two places and bytes before and behind them",
            shaped(0x38, 2, &[0x8000, 0x9000]),
            before,
        ),
        ("document 02, No. 9: copies of different shape", sent(), clash),
        ("document 02, No. 5: P3 deleted, P4 created in its room", quarry(), reused),
        (
            "document 02, No. 5: P4 where no place points",
            without_p3(&[0x8000, 0x9000, 0xA000]),
            held,
        ),
        ("document 02, No. 5: refused creates", quarry(), not_created),
        ("document 02, No. 5: refused deletes", quarry(), not_deleted),
        (
            "document 02, No. 5: slot numbers move after a cut delete",
            Flash::quarry_with(65_536, 0x8000, 0x9000, &[0xA000]),
            numbers_move,
        ),
        ("document 02, No. 5: bytes that are kept and rows that become zero", quarry(), junk),
        ("document 02, No. 5: which room is used", gaps(), where_free),
        ("document 02, No. 5: cuts", quarry(), cut_create),
        ("document 02, No. 5: tables of 126 and 127 entries", many(), full),
    ]
}
