//! Document 01's cases on the quarry image, through every function of the library.

use delunkpawi::{
    Condition, Entry, Facts, Fault, Job, Place, Refused, Setting, Step, TableFaults, View,
};

const SETTING: Setting = Setting { granule: 4096, spt0: 0x4000, spt1: 0x5000 };

/// Where the first kind stands in a job's bytes.
const FIRST_KIND: usize = 44;

/// The quarry image: its slots are empty.
fn quarry() -> Vec<u8> {
    std::fs::read(concat!(env!("CARGO_MANIFEST_DIR"), "/../../crates/listing/stdin")).unwrap()
}

/// The same with a first byte of 0 in each slot.
fn quarry_sent() -> Vec<u8> {
    let mut image = quarry();
    for start in [0x8000, 0x9000, 0xA000] {
        image[start] = 0;
    }
    image
}

/// Runs a job to its end, and tells how many steps it did.
fn finish(mut job: Job, image: &mut [u8]) -> usize {
    let steps = job.remaining().unwrap();
    if steps > 0 {
        assert_eq!(job.run(image, usize::MAX), Ok(steps));
    }
    assert_eq!(job.next_step(), Ok(None));
    assert_eq!(job.run(image, 1), Err(Refused::numbered(11)));
    steps
}

#[test]
fn reads() {
    let image = quarry();
    assert_eq!(SETTING.order(&image), Ok(vec![1, 0]));
    assert_eq!(SETTING.slot_count(&image), Ok(3));
    assert_eq!(SETTING.slot_name(&image, 2), Ok(b"P3".to_vec()));
    let facts = Facts { entry: 8, start: 0xA000, size: 0x1000, flags: 0 };
    assert_eq!(SETTING.slot_facts(&image, 2), Ok(facts));
}

#[test]
fn looks_into() {
    let mut image = quarry();
    let view = View { cpb0: 0x6000, cpb1: 0x7000, table: 0x4000, pointers: 0x6000 };
    assert_eq!(SETTING.view(&image), Ok(view));
    assert_eq!(SETTING.entry_count(&image), Ok(9));
    let first = Entry { name: b"BOOT_INFO".to_vec(), start: 0, size: 0x2000, flags: 1 };
    assert_eq!(SETTING.entry(&image, 0), Ok(first));
    assert_eq!(SETTING.entry(&image, 9), Err(Refused::numbered(92)));
    assert_eq!(SETTING.place_count(&image), Ok(508));
    assert_eq!(SETTING.place(&image, 1), Ok((Place::Live(1), 0x9000)));
    assert_eq!(SETTING.place(&image, 2), Ok((Place::Erased, u64::MAX)));
    assert_eq!(SETTING.place(&image, 508), Err(Refused::numbered(93)));
    image[0x6021] = 0;
    assert_eq!(SETTING.place(&image, 0), Ok((Place::Spent, 0)));
    image[0x6020] = 1;
    assert_eq!(SETTING.place(&image, 0), Ok((Place::Stray, 1)));
    image[0x6027] = 0xFF;
    assert_eq!(SETTING.place(&image, 0), Ok((Place::PartWritten, 0xFF00_0000_0000_0001)));
}

#[test]
fn tells_which_rule_the_table_broke() {
    let mut image = quarry();
    let none = Fault { rule: 0, entry: 127 };
    assert_eq!(SETTING.table_faults(&image), Ok(TableFaults { spt0: none, spt1: none }));
    image[0x5004] = 1;
    let header = Fault { rule: 1, entry: 127 };
    assert_eq!(SETTING.table_faults(&image), Ok(TableFaults { spt0: none, spt1: header }));
    image[0x4020 + 32 * 8] = 0;
    let faults = TableFaults { spt0: Fault { rule: 3, entry: 8 }, spt1: header };
    let refused = Refused { number: 51, faults: Some(faults) };
    assert_eq!(SETTING.order(&image), Err(refused));
    assert_eq!(SETTING.repair(&image).err(), Some(refused));
    image[0x4000] = 0;
    image[0x5000] = 0;
    let faults = TableFaults { spt0: header, spt1: header };
    assert_eq!(SETTING.order(&image), Err(Refused { number: 50, faults: Some(faults) }));
    assert_eq!(SETTING.table_faults(&[]), Err(Refused::numbered(1)));
}

#[test]
fn tells_which_copies_stand() {
    let mut image = quarry();
    let whole =
        Condition { spt0: true, spt1: true, cpb0: true, cpb1: true, tables: true, pointers: true };
    assert_eq!(SETTING.condition(&image), Ok(whole));
    image[0x5FFF] ^= 1;
    assert_eq!(SETTING.condition(&image), Ok(Condition { tables: false, ..whole }));
    image[0x6000] = 0;
    let cut = Condition { cpb0: false, tables: false, pointers: false, ..whole };
    assert_eq!(SETTING.condition(&image), Ok(cut));
    assert_eq!(SETTING.view(&image).map(|view| view.pointers), Ok(0x7000));
    image[0x7000] = 0;
    assert_eq!(SETTING.condition(&image), Err(Refused::numbered(5)));
}

#[test]
fn refuses() {
    let image = quarry();
    let other = Setting { granule: 8192, ..SETTING };
    assert_eq!(SETTING.order(&[]), Err(Refused::numbered(1)));
    assert_eq!(other.slot_count(&image), Err(Refused::numbered(2)));
    assert_eq!(SETTING.slot_facts(&image, 3), Err(Refused::numbered(7)));
    assert_eq!(SETTING.slot_name(&image, 3), Err(Refused::numbered(7)));
    assert_eq!(SETTING.slot_name_into(&image, 2, &mut [0]), Err(Refused::numbered(91)));
    assert_eq!(SETTING.slot_name_into(&image, 2, &mut [0; 2]), Ok(2));
    assert_eq!(SETTING.disable(&image, 2).err(), Some(Refused::numbered(8)));
    assert_eq!(SETTING.rename(&image, 0, &[b'n'; 16]).err(), Some(Refused::numbered(9)));
    assert_eq!(SETTING.rename(&image, 0, b"P2").err(), Some(Refused::numbered(10)));
}

#[test]
fn refuses_an_empty_slot() {
    let mut image = quarry();
    assert_eq!(SETTING.enable(&image, 1).err(), Some(Refused::numbered(14)));
    assert_eq!(SETTING.enable(&image, 2).err(), Some(Refused::numbered(14)));
    assert_eq!(SETTING.enable(&image, 3).err(), Some(Refused::numbered(7)));
    image[0xAFFF] = 0;
    assert_eq!(finish(SETTING.enable(&image, 2).unwrap(), &mut image), 16);
}

/// One place at the block's end, which holds P2: offset 4,088, count 1.
#[test]
fn takes_offset_and_count_from_the_block() {
    let mut image = quarry_sent();
    for cpb in [0x6000, 0x7000] {
        image[cpb + 0x10..cpb + 0x18].copy_from_slice(&[0xF8, 0x0F, 0, 0, 1, 0, 0, 0]);
        image[cpb + 4088..cpb + 4096].copy_from_slice(&0x9000u64.to_le_bytes());
    }
    assert_eq!(SETTING.place_count(&image), Ok(1));
    assert_eq!(SETTING.order(&image), Ok(vec![1]));
    assert_eq!(finish(SETTING.enable(&image, 1).unwrap(), &mut image), 0);
    assert_eq!(SETTING.enable(&image, 2).err(), Some(Refused::numbered(15)));
    for cpb in [0x6000, 0x7000] {
        image[cpb + 0x14] = 2;
    }
    assert_eq!(SETTING.order(&image), Err(Refused::numbered(5)));
}

#[test]
fn enables_and_disables() {
    let mut image = quarry_sent();
    assert_eq!(finish(SETTING.enable(&image, 1).unwrap(), &mut image), 0);
    assert_eq!(finish(SETTING.enable(&image, 0).unwrap(), &mut image), 16);
    assert_eq!(SETTING.order(&image), Ok(vec![0, 1]));
    assert_eq!(finish(SETTING.disable(&image, 0).unwrap(), &mut image), 32);
    assert_eq!(SETTING.order(&image), Ok(vec![1]));
}

#[test]
fn renames() {
    let mut image = quarry();
    assert_eq!(finish(SETTING.rename(&image, 0, &[b'n'; 15]).unwrap(), &mut image), 8202);
    assert_eq!(SETTING.slot_name(&image, 0), Ok(vec![b'n'; 15]));
}

#[test]
fn repairs_after_a_cut() {
    let mut image = quarry_sent();
    let mut job = SETTING.enable(&image, 2).unwrap();
    assert_eq!(job.next_step(), Ok(Some(Step::Program(0x7030, 0x00))));
    assert_eq!(job.run(&mut image, 15), Ok(15));
    assert_eq!(SETTING.order(&image), Ok(vec![1, 0]));
    assert_eq!(SETTING.enable(&image, 2).err(), Some(Refused::numbered(6)));
    let job = SETTING.repair(&image).unwrap();
    assert_eq!(job.next_step(), Ok(Some(Step::Program(0x7000, 0x00))));
    assert_eq!(finish(job, &mut image), 4101);
    let job = SETTING.enable(&image, 2).unwrap();
    assert_eq!(job.next_step(), Ok(Some(Step::Program(0x7038, 0x00))));
    assert_eq!(finish(job, &mut image), 16);
    assert_eq!(SETTING.order(&image), Ok(vec![2, 1, 0]));
}

/// A driver that does each step itself: a rewrite that is done so leaves what a run leaves, in image and job.
#[test]
fn counts_steps_done_by_a_driver() {
    let mut image = quarry();
    let mut flash = quarry();
    let mut job = SETTING.rename(&image, 0, b"other").unwrap();
    let mut driven = job.clone();
    assert_eq!(job.run(&mut image, 5000), Ok(5000));
    for _ in 0..5000 {
        match driven.next_step().unwrap() {
            Some(Step::Program(address, byte)) => flash[address] &= byte,
            Some(Step::Erase(address)) => flash[address..address + SETTING.granule].fill(0xFF),
            None => panic!("steps remain"),
        }
        assert_eq!(driven.advance(1), Ok(1));
    }
    assert!(flash == image);
    assert!(driven == job);
    assert_eq!(driven.advance(0), Ok(0));
    assert_eq!(driven.advance(usize::MAX), Ok(3202));
    assert_eq!(driven.next_step(), Ok(None));
    assert_eq!(driven.advance(0), Err(Refused::numbered(11)));
}

#[test]
fn keeps_a_job_as_bytes() {
    let mut image = quarry_sent();
    let mut job = SETTING.enable(&image, 2).unwrap();
    assert_eq!(job.run(&mut image, 7), Ok(7));
    let bytes = *job.bytes();
    assert_eq!(Job::from_bytes(&bytes).unwrap().remaining(), Ok(9));
    assert_eq!(Job::from_bytes(&bytes[1..]).err(), Some(Refused::numbered(90)));
    let mut damaged = bytes;
    damaged[FIRST_KIND] = 3;
    assert_eq!(Job::from_bytes(&damaged).err(), Some(Refused::numbered(90)));
    assert_eq!(job.run(&mut image[4096..], 1), Err(Refused::numbered(12)));
    assert!(job.bytes() == &bytes);
}
