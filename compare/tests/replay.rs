//! The script language: scripts and what they must print, worked out from the documents.

use compare::cases::flash::Flash;
use compare::replay::run_script;

/// What the lines print after those that build this flash.
fn printed(flash: &Flash, lines: &[&str]) -> String {
    let mut script = flash.lines().join("\n");
    for line in lines {
        script.push('\n');
        script.push_str(line);
    }
    let mut out = Vec::new();
    run_script(script.as_bytes(), &mut out).expect("a script in memory");
    String::from_utf8(out).expect("text")
}

#[track_caller]
fn assert_prints(flash: &Flash, lines: &[&str], expected: &[&str]) {
    let printed = printed(flash, lines);
    assert_eq!(printed.lines().collect::<Vec<&str>>(), expected);
}

#[test]
fn every_answer_that_no_table_stands_says_why() {
    // Neither magic, then SPT1's magic again but P3's length 0 there.
    let spt0_magic = "put 16384 00";
    let spt1_magic = "put 20480 00";
    let mended = "put 20480 27";
    let p3_length = "put 20792 00000000";
    let asked = ["order", "slot 0", "enable 0", "disable 0", "rename 0 41", "repair", "order 0"];
    let lines = [&[spt0_magic, spt1_magic], &asked[..], &[mended, p3_length], &asked[..]].concat();
    let expected = [[&"refused 50 1 127 1 127"; 7], [&"refused 51 1 127 5 8"; 7]].concat();
    assert_prints(&Flash::quarry(), &lines, &expected.into_iter().copied().collect::<Vec<_>>());
}

#[test]
fn other_refusals_are_numbers_alone() {
    let lines = ["order 1", "slot 3", "disable 2", "box 4096 0 0", "repair", "run 1"];
    let expected = ["refused 13", "refused 7", "refused 8", "refused 3"];
    let errors = format!("error {}", Flash::quarry().lines().len() + lines.len());
    assert_prints(&Flash::quarry(), &lines, &[&expected[..], &[&errors]].concat());
}

/// The first bytes of SPT1 after a rename that is cut at its erase, step 5, with ranges wiped.
fn torn(ranges: &str) -> Vec<String> {
    let line = format!("torn 4 {ranges}");
    let lines = ["rename 0 41", &line, "peek 20480 8", "peek 24568 8", "peek 24576 4", "order"];
    printed(&Flash::quarry(), &lines).lines().map(str::to_string).collect()
}

#[test]
fn torn_erases() {
    // SPT1 is from 20480 to 24575, with zeros at its end; CPB0 begins at 24576.
    let (head, tail) = ("bytes 00000000", "bytes 0000000000000000");
    let cpb0 = "bytes 09967857";
    let expect = |ranges: &str, rest: &str, tail: &str| {
        let head = if rest.len() == 16 { format!("bytes {rest}") } else { format!("{head}{rest}") };
        assert_eq!(torn(ranges), ["job 8202", "cut", &head, tail, cpb0, "order 1 0"], "{ranges}");
    };
    // Nothing wiped: the four zeros, then the version as it was.
    expect("0 0", "00000000", tail);
    expect("4096 1", "00000000", tail);
    expect("18446744073709551615 18446744073709551615", "00000000", tail);
    // Byte 0 alone; bytes 1 and 3; all but bytes 4 to 7; what passes the granule's end.
    expect("0 1", "ff00000000000000", tail);
    expect("3 1 1 1", "00ff00ff00000000", tail);
    let wiped = "bytes ffffffffffffffff";
    expect("0 4 8 18446744073709551615", "ffffffff00000000", wiped);
    expect("4094 3", "00000000", "bytes 000000000000ffff");
    expect("0 4096", "ffffffffffffffff", wiped);
}

#[test]
fn torn_elsewhere() {
    let sent = Flash::quarry().with_first_bytes();
    // Before a program step the ranges are ignored, and the job is dropped.
    let lines = ["enable 2", "torn 9 0 100", "peek 28720 2", "peek 24624 2", "sum", "run 1"];
    let cut = ["enable 2", "cut 9", "peek 28720 2", "peek 24624 2", "sum", "run 1"];
    assert_eq!(printed(&sent, &lines), printed(&sent, &cut));
    assert!(printed(&sent, &lines).starts_with("job 16\ncut\nbytes 00a0\nbytes 00ff\nsum "));
    // Three zeros done, the fourth comes next.
    let lines = ["rename 0 41", "run 1", "torn 2 0 4096", "peek 20480 5"];
    assert_prints(&sent, &lines, &["job 8202", "ran 1", "cut", "bytes 0000005700"]);
    // The second table's erase is step 4,106.
    let lines = ["rename 0 41", "torn 4105 1 2", "peek 16384 5", "slot 0"];
    let slot = "slot 0 6 41 32768 4096 0";
    assert_prints(&sent, &lines, &["job 8202", "cut", "bytes 00ffff0000", slot]);
    // Not so many steps left; a job that a run would refuse with 12.
    let at_end = format!("error {}", sent.lines().len() + 2);
    assert_prints(&sent, &["rename 0 41", "torn 8202 0 1"], &["job 8202", &at_end]);
    let lines = ["rename 0 41", "length 61440", "torn 4 0 1", "length 65536", "peek 20480 4"];
    assert_prints(&sent, &lines, &["job 8202", "cut", "bytes 27347157"]);
    for line in ["torn", "torn 0", "torn 0 1", "torn 0 1 2 3", "torn 0 1 a", "torn 0 1 2 "] {
        assert_prints(&sent, &["rename 0 41", line], &["job 8202", &at_end]);
    }
}

#[test]
fn listings() {
    let header = "order slot name start length";
    let order = ["1 1 P2 36864 4096", "2 0 P1 32768 4096"];
    let lines = ["list", "put 24624 00a00000000000ff", "list"];
    let dead = ["", "place kind value", "2 part-written 18374686479671664640"];
    let expected = [&[header], &order[..], &[header], &order[..], &dead[..]].concat();
    assert_prints(&Flash::quarry(), &lines, &expected);
    // Of a refusal the number alone, as the listing program does.
    let lines = ["put 16384 00", "put 20488 00", "order", "list", "put 20480 00", "list"];
    let expected = ["refused 51 1 127 2 127", "refused 51", "refused 50"];
    assert_prints(&Flash::quarry(), &lines, &expected);
    let lines = ["box 1 2 3", "list", "length 4095", "list", "length 0", "list", "list 0"];
    let error = format!("error {}", Flash::quarry().lines().len() + lines.len());
    let expected = ["refused 2", "refused 1", "refused 1", &error];
    assert_prints(&Flash::quarry(), &lines, &expected);
}

#[test]
fn creates_and_deletes() {
    let quarry = Flash::quarry();
    let lines =
        ["create 4096 5034", "run 8202", "slot 3", "order", "delete 2", "run 9000", "slot 2"];
    let created = "slot 3 9 5034 45056 4096 0";
    let moved = "slot 2 8 5034 45056 4096 0";
    let expected = ["job 8202", "ran 8202", created, "order 1 0", "job 8202", "ran 8202", moved];
    assert_prints(&quarry, &lines, &expected);
    // An empty name, a name of 16 bytes and one that is there; lengths; room; the order; no slot.
    let long = format!("create 0 {}", "41".repeat(16));
    let lines =
        ["create 4096", &long, "create 0 5031", "create 0 41", "create 24576 41", "delete 0"];
    let expected =
        ["refused 9", "refused 9", "refused 10", "refused 40", "refused 42", "refused 43"];
    assert_prints(&quarry, &lines, &expected);
    assert_prints(
        &quarry,
        &["create 4294963200 41", "delete 4294967295"],
        &["refused 42", "refused 7"],
    );
    // A refusal drops the job that there was.
    let lines = ["create 4096 41", "delete 0", "run 1"];
    let error = format!("error {}", quarry.lines().len() + 3);
    assert_prints(&quarry, &lines, &["job 8202", "refused 43", &error]);
    let error = format!("error {}", quarry.lines().len() + 1);
    for line in
        ["create", "create 4294967296 41", "create 4096 4", "create 4096 41 42", "create  41"]
    {
        assert_prints(&quarry, &[line], &[&error]);
    }
    for line in ["delete", "delete 4294967296", "delete 2 2", "delete a"] {
        assert_prints(&quarry, &[line], &[&error]);
    }
}
