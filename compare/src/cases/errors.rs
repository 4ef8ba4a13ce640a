//! Lines that end a script with `error`.

use crate::cases::flash::Flash;
use crate::cases::random::Random;
use crate::cases::script::Writer;
use crate::replay::LINE_BYTES_MAX;

/// Lines that are in error on a 65,536-byte image with no job.
const LINES: &[&str] = &[
    " ",
    " order",
    "order ",
    "order  3",
    "Order",
    "orders",
    "order 509",
    "order -1",
    "order 1 2",
    "order 0x3",
    "order\t3",
    "order\r",
    "list 1",
    "list ",
    "lists",
    "slot",
    "slot 4294967296",
    "slot 1 2",
    "slot a",
    "enable",
    "enable 4294967296",
    "enable 18446744073709551616",
    "disable",
    "rename",
    "rename 0 f",
    "rename 0 FF",
    "rename 0 0g",
    "rename 0 41 42",
    "rename 0 ",
    "create",
    "create 4294967296 41",
    "create 4096 f",
    "create 4096 FF",
    "create 4096 41 42",
    "create 4096 ",
    "create a 41",
    "create -1",
    "delete",
    "delete 4294967296",
    "delete 0 0",
    "delete P1",
    "repair 0",
    "run",
    "run 1",
    "run 18446744073709551616",
    "cut",
    "cut 0",
    "cut 0 0",
    "cut 0 0 0",
    "torn",
    "torn 0",
    "torn 0 0 1",
    "peek",
    "peek 0",
    "peek 65536 1",
    "peek 65537 0",
    "peek 18446744073709551615 1",
    "peek 0 65537",
    "put 0",
    "put 0 f",
    "put 65536 00",
    "put 65535 0000",
    "put 18446744073709551615 00",
    "copy 0 0",
    "copy 0 65535 2",
    "copy 65535 0 2",
    "copy 0 0 18446744073709551615",
    "image 4096",
    "image 1048577 0",
    "image 4096 256",
    "length",
    "length 1048577",
    "box 4096 0",
    "sum 1",
    "dumps 0 0 0",
    "dumps 65537 0 0 0",
    "dumps 0 1 0 65537",
];

/// Lines that give the quarry image, no slot of which is empty, a current job, and then one that is
/// in error.
const AFTER_JOB: &[(&[&str], &str)] = &[
    (&["enable 2"], "cut 16"),
    (&["enable 2"], "cut 18446744073709551615 1"),
    (&["enable 2", "run 10"], "cut 6"),
    (&["enable 2"], "torn 16 0 1"),
    (&["enable 2"], "torn 0"),
    (&["enable 2"], "torn 0 1"),
    (&["enable 2"], "torn 0 1 2 3"),
    (&["rename 0 41"], "torn 4 0 18446744073709551616"),
    (&["rename 0 41"], "torn 8202 0 1"),
    (&["rename 0 41", "torn 8201 0 1"], "run 1"),
    (&["enable 2"], "cut 0 0 1"),
    (&["enable 2", "run 16"], "cut 0"),
    (&["enable 1"], "cut 0 1"),
    (&["enable 2", "cut 3"], "run 1"),
    (&["enable 2", "disable 2"], "run 1"),
    (&["create 4096 41", "delete 0"], "run 1"),
    (&["delete 2", "create 1 41"], "cut 0"),
    (&["create 4096 41"], "cut 8202"),
    (&["delete 2", "run 8202"], "torn 0 0 1"),
];

/// Writes a script that ends in an error, with a line after it that must not be done.
pub fn write_error(random: &mut Random, writer: &mut Writer) {
    if random.percent(20) {
        let (lines, error) = random.pick(AFTER_JOB);
        writer.build(&Flash::quarry().with_first_bytes());
        for line in lines {
            writer.line(*line);
        }
        writer.error(error);
    } else {
        for line in ["image 65536 255", "", "# passed over", "sum", "peek 0065536 00", "peek 1 2"] {
            writer.line(line);
        }
        match random.below(12) {
            0 => writer.error(&"#".repeat(LINE_BYTES_MAX + 1)),
            1 => writer.error(&format!("put 0 {}", "00".repeat(LINE_BYTES_MAX))),
            _ => writer.error(random.pick(LINES)),
        }
    }
    writer.script.lines.push("sum".to_string());
}
