//! Document 02, No. 8: which rule a table broke, and at which entry, on the quarry image.

use compare::cases::damage::{rule_damage, table_damage};
use compare::cases::flash::{partition, Flash};
use compare::cases::layout::random_flash;
use compare::cases::random::Random;
use compare::document::image::Geometry;
use compare::document::reading::View;
use compare::document::refusal::Refusal;
use compare::document::table::{fault, Fault, Table, RULES};

/// Entry numbers of the quarry image.
const BOOT_INFO: usize = 0;
const FACTORY_IMAGE: usize = 1;
const SPT0: usize = 2;
const SPT1: usize = 3;
const CPB0: usize = 4;
const CPB1: usize = 5;
const P1: usize = 6;
const P2: usize = 7;
const P3: usize = 8;

const TABLES: [usize; 2] = [0x4000, 0x5000];

struct Bench {
    image: Vec<u8>,
    geometry: Geometry,
}

impl Bench {
    fn quarry() -> Bench {
        let flash = Flash::quarry();
        Bench { image: flash.image(), geometry: flash.geometry() }
    }

    /// Stores bytes in one table copy.
    fn put(&mut self, copy: usize, at: usize, bytes: &[u8]) -> &mut Bench {
        let at = TABLES[copy] + at;
        self.image[at..at + bytes.len()].copy_from_slice(bytes);
        self
    }

    fn both(&mut self, at: usize, bytes: &[u8]) -> &mut Bench {
        self.put(0, at, bytes).put(1, at, bytes)
    }

    fn refused(&self) -> Refusal {
        View::of(&self.image, &self.geometry).err().expect("a refusal")
    }

    /// The refusal's number, and rule and entry of SPT0 and of SPT1.
    fn told(&self) -> (usize, [(usize, usize); 2]) {
        let refusal = self.refused();
        let faults = refusal.faults().expect("what is wrong in each copy");
        (refusal.number(), faults.map(|Fault { rule, entry }| (rule as usize, entry)))
    }
}

fn name(entry: usize) -> usize {
    0x20 + 0x20 * entry
}

fn start(entry: usize) -> usize {
    name(entry) + 0x10
}

fn length(entry: usize) -> usize {
    name(entry) + 0x18
}

/// The refusal 51 with the same fault in both copies.
fn both_told(rule: usize, entry: usize) -> (usize, [(usize, usize); 2]) {
    (51, [(rule, entry); 2])
}

#[test]
fn rule_1_magic_and_version() {
    let mut bench = Bench::quarry();
    bench.both(0, &[0x26]);
    assert_eq!(bench.told(), (50, [(1, 127); 2]));
    bench.put(1, 0, &[0x27]).put(1, 7, &[1]);
    assert_eq!(bench.told(), both_told(1, 127));
    let mut bench = Bench::quarry();
    bench.both(4, &[1]);
    assert_eq!(bench.told(), both_told(1, 127));
    let mut bench = Bench::quarry();
    bench.put(0, 3, &[0]).put(1, 8, &[0]);
    assert_eq!(bench.told(), (51, [(1, 127), (2, 127)]));
    bench.put(1, 1, &[0]);
    assert_eq!(bench.told(), (50, [(1, 127); 2]));
}

#[test]
fn a_copy_that_stands_is_read() {
    let mut bench = Bench::quarry();
    bench.put(0, 0, &[0]);
    assert!(View::of(&bench.image, &bench.geometry).is_ok());
    let mut bench = Bench::quarry();
    bench.put(1, 0, &[0]);
    assert!(View::of(&bench.image, &bench.geometry).is_ok());
}

#[test]
fn rule_2_number_of_entries() {
    for count in [0u32, 128, u32::MAX] {
        let mut bench = Bench::quarry();
        bench.both(8, &count.to_le_bytes());
        assert_eq!(bench.told(), both_told(2, 127));
    }
    // A tenth row, which is all zeros, is counted too.
    let mut bench = Bench::quarry();
    bench.both(8, &[10]);
    assert_eq!(bench.told(), both_told(3, 9));
}

#[test]
fn rule_3_names_with_their_zero() {
    let mut bench = Bench::quarry();
    bench.both(name(P2), &[0]).both(name(CPB0), &[b'N'; 16]);
    assert_eq!(bench.told(), both_told(3, CPB0));
    // An empty name is not compared with others: rule 3 comes before 4.
    let mut bench = Bench::quarry();
    bench.both(name(P3), &[0]).both(name(P2), b"P1");
    assert_eq!(bench.told(), both_told(3, P3));
}

#[test]
fn rule_4_the_later_of_two_equal_names() {
    let mut bench = Bench::quarry();
    bench.both(name(P3), b"BOOT_INFO\0XY").put(0, name(P2), b"SPT1\0");
    assert_eq!(bench.told(), (51, [(4, P2), (4, P3)]));
    // Three times the same name: the lowest that has it again.
    let mut bench = Bench::quarry();
    bench.both(name(P1), b"P3").both(name(P2), b"P3");
    assert_eq!(bench.told(), both_told(4, P2));
    // Names before ranges.
    bench.both(length(FACTORY_IMAGE), &[1]);
    assert_eq!(bench.told(), both_told(4, P2));
}

#[test]
fn rules_5_and_6_ranges() {
    let mut bench = Bench::quarry();
    bench.both(length(P2), &[0, 0]).both(start(P3), &[1]).both(length(CPB1), &[0, 0, 1]);
    assert_eq!(bench.told(), both_told(5, P2));
    bench.put(1, length(P2), &[0, 0x10]);
    assert_eq!(bench.told(), (51, [(5, P2), (5, P3)]));
    bench.both(length(P2), &[0, 0x10]).both(start(P3), &[0]);
    assert_eq!(bench.told(), both_told(6, CPB1));
    let mut bench = Bench::quarry();
    bench.both(start(P3) + 7, &[0x80]).both(length(P2), &[0, 0x80]);
    assert_eq!(bench.told(), both_told(6, P2));
    bench.both(length(P2), &[0, 0x70]);
    assert_eq!(bench.told(), both_told(6, P3));
}

#[test]
fn rule_7_the_later_of_two_that_overlap() {
    let mut bench = Bench::quarry();
    // P1 reaches into P2: P2 clashes with an earlier one, and P1 with none.
    bench.both(length(P1), &[0, 0x20]);
    assert_eq!(bench.told(), both_told(7, P2));
    // P1 on top of CPB1: now P1 does.
    bench.put(1, start(P1) + 1, &[0x70]);
    assert_eq!(bench.told(), (51, [(7, P2), (7, P1)]));
    // FACTORY_IMAGE over everything: the lowest later one is SPT0.
    bench.put(0, length(FACTORY_IMAGE), &[0, 0xE0]);
    assert_eq!(bench.told(), (51, [(7, SPT0), (7, P1)]));
}

#[test]
fn rule_8_the_six_names() {
    for entry in [BOOT_INFO, FACTORY_IMAGE, SPT0, SPT1, CPB0, CPB1] {
        let mut bench = Bench::quarry();
        bench.both(name(entry), b"x");
        assert_eq!(bench.told(), both_told(8, 127));
    }
    // The uncounted P3 does not count.
    let mut bench = Bench::quarry();
    bench.both(8, &[8]).both(name(SPT1), b"Q\0").both(name(P3), b"SPT1\0");
    assert_eq!(bench.told(), both_told(8, 127));
}

#[test]
fn rules_9_and_10_where_they_start() {
    let mut bench = Bench::quarry();
    bench.both(name(BOOT_INFO), b"P3\0").both(name(P3), b"BOOT_INFO\0");
    assert_eq!(bench.told(), both_told(9, P3));
    // SPT0 and SPT1 wrong as well: 9 comes first.
    bench.both(name(SPT0), b"SPT1").both(name(SPT1), b"SPT0");
    assert_eq!(bench.told(), both_told(9, P3));
    bench.both(name(BOOT_INFO), b"BOOT_INFO\0").both(name(P3), b"P3\0");
    assert_eq!(bench.told(), both_told(10, SPT0));
    // SPT0 is P2's entry and SPT1 is right.
    let mut bench = Bench::quarry();
    bench.both(name(SPT0), b"P2\0").both(name(P2), b"SPT0\0");
    assert_eq!(bench.told(), both_told(10, P2));
    // Both wrong: the lower number, whichever of the two that is.
    bench.both(name(SPT1), b"P1\0").both(name(P1), b"SPT1\0");
    assert_eq!(bench.told(), both_told(10, P1));
    let mut bench = Bench::quarry();
    bench.geometry.table_addresses = [0x5000, 0x4000];
    assert_eq!(bench.told(), both_told(10, SPT0));
    bench.put(0, 2, &[0]);
    assert_eq!(bench.told(), (51, [(10, SPT0), (1, 127)]));
}

#[test]
fn rule_11_granules() {
    // CPB0 and CPB1 come before SPT0 in the table.
    let mut partitions = Flash::quarry_wide(8).partitions;
    partitions.rotate_right(5);
    let numbers = |name: &[u8]| partitions.iter().position(|entry| entry.name == name).unwrap();
    let [spt0, cpb0, cpb1] = [b"SPT0", b"CPB0", b"CPB1"].map(|name| numbers(name));
    assert_eq!([cpb0, cpb1, spt0], [0, 1, 7]);
    let told = |changed: &[(usize, u64, u32)]| {
        let mut partitions = partitions.clone();
        for &(entry, start, length) in changed {
            let name = String::from_utf8(partitions[entry].name.clone()).unwrap();
            let moved = partitions[entry].start + start;
            partitions[entry] = partition(&name, moved, length, 1);
        }
        let flash = Flash::new(0x8_0000, 0x8000, partitions, &[]);
        let bench = Bench { image: flash.image(), geometry: flash.geometry() };
        bench.told()
    };
    assert_eq!(told(&[(spt0, 0, 0x7000)]), both_told(11, spt0));
    assert_eq!(told(&[(spt0, 0, 0x7000), (cpb1, 0, 0x1000)]), both_told(11, cpb1));
    assert_eq!(told(&[(cpb1, 0x1000, 0x7000), (cpb0, 0, 0x4000)]), both_told(11, cpb0));
    assert_eq!(told(&[(cpb1, 0x1000, 0x7000)]), both_told(11, cpb1));
}

#[test]
fn at_the_place_of_refusal_4() {
    let mut bench = Bench::quarry();
    bench.both(0, &[0]).geometry.granule = 1;
    assert_eq!(bench.refused(), Refusal::Granule);
    let mut bench = Bench::quarry();
    // No pointer block stands either.
    bench.image[0x6000..0x8000].fill(0);
    assert_eq!(bench.refused(), Refusal::NoPointerBlockStands);
    bench.both(8, &[0]);
    assert_eq!(bench.told(), both_told(2, 127));
}

#[test]
fn a_table_stands_exactly_if_it_has_no_fault() {
    let mut random = Random::new(7);
    let mut met = [0; RULES + 1];
    for _ in 0..300 {
        let flash = random_flash(&mut random);
        for rule in 0..=RULES {
            let damage = match rule {
                0 => table_damage(&mut random, &flash),
                _ => rule_damage(&mut random, &flash, rule),
            };
            let mut block = flash.table;
            for (at, bytes) in damage {
                block[at..at + bytes.len()].copy_from_slice(&bytes);
            }
            let length = flash.image_length as u64;
            let table = Table::standing(&block, length, &flash.geometry());
            let fault = fault(&block, length, &flash.geometry(), None);
            assert_eq!(table.is_some(), fault.is_none());
            met[fault.map_or(0, |fault| fault.rule as usize)] += 1;
        }
    }
    assert!(met.iter().all(|&count| count > 50), "{met:?}");
}
