//! Document 02, No. 7: what a place is judged to be, and the listing.

use compare::cases::flash::{partition, Flash};
use compare::document::commands::{start, Command};
use compare::document::listing::Listing;
use compare::document::pointers::{judge, Judgement, Shape, PLACES_MAX};
use compare::document::reading::View;
use compare::document::shortcut::Shortcut;

const CPB0: usize = 0x6000;
const PART_WRITTEN: u64 = 0xFF00_0000_0000_A000;
const STRAY: u64 = 0xFEFF_FFFF_FFFF_FFFF;

/// The listing's lines for an image of this flash.
fn listed(flash: &Flash, image: &[u8]) -> Vec<String> {
    let view = View::of(image, &flash.geometry()).expect("a flash that stands");
    Listing::of(&view, None).to_string().split('\n').map(str::to_string).collect()
}

/// The listing's lines for the quarry image with these values in these places of CPB0.
fn with_places(places: &[(usize, u64)]) -> Vec<String> {
    let flash = Flash::quarry();
    let mut image = flash.image();
    for &(place, value) in places {
        let at = CPB0 + Shape::OLD_EDITION.place_offset(place);
        image[at..at + 8].copy_from_slice(&value.to_le_bytes());
    }
    listed(&flash, &image)
}

const HEADER: &str = "order slot name start length";
const SECOND_HEADER: &str = "place kind value";
const P2_FIRST: &str = "1 1 P2 36864 4096";
const P1_SECOND: &str = "2 0 P1 32768 4096";

#[test]
fn case_1_prints_as_before() {
    let flash = Flash::quarry();
    assert_eq!(listed(&flash, &flash.image()), [HEADER, P2_FIRST, P1_SECOND]);
}

#[test]
fn case_6_prints_the_part_written_place() {
    let flash = Flash::quarry().with_first_bytes();
    let mut image = flash.image();
    let job = start(&image, &flash.geometry(), &Command::Enable(2), None).expect("a job");
    job.cut(&mut image, 15, 0);
    let dead = "2 part-written 18374686479671664640";
    assert_eq!(listed(&flash, &image), [HEADER, P2_FIRST, P1_SECOND, "", SECOND_HEADER, dead]);
}

#[test]
fn each_kind_at_either_end_and_between() {
    let texts = |place: usize| {
        [
            (0, format!("{place} spent 0")),
            (PART_WRITTEN, format!("{place} part-written 18374686479671664640")),
            (STRAY, format!("{place} stray 18374686479671623679")),
        ]
    };
    for turn in 0..3 {
        let [low, middle, last] = [0, 254, 507].map(texts);
        let chosen = [&low[turn], &middle[(turn + 1) % 3], &last[(turn + 2) % 3]];
        let values = chosen.map(|(value, _)| *value);
        let places = [(0, values[0]), (254, values[1]), (507, values[2])];
        let dead = chosen.map(|(_, text)| text.as_str());
        let expected = [&[HEADER, P2_FIRST, "", SECOND_HEADER], &dead[..]].concat();
        assert_eq!(with_places(&places), expected);
    }
}

#[test]
fn every_place_dead() {
    let places: Vec<(usize, u64)> =
        (0..PLACES_MAX).map(|place| (place, place as u64 % 2)).collect();
    let listed = with_places(&places);
    assert_eq!(listed[..3], [HEADER, "", SECOND_HEADER]);
    assert_eq!(listed[3..5], ["0 spent 0", "1 stray 1"]);
    assert_eq!(listed[510], "507 stray 1");
    assert_eq!(listed.len(), 511);
}

#[test]
fn an_empty_order() {
    assert_eq!(with_places(&[(0, u64::MAX), (1, u64::MAX)]), [HEADER]);
    let listed = with_places(&[(0, u64::MAX), (1, 0x8001)]);
    assert_eq!(listed, [HEADER, "", SECOND_HEADER, "1 stray 32769"]);
}

#[test]
fn a_live_duplicate_is_not_listed() {
    let listed = with_places(&[(5, 0x8000), (7, 0x8000), (9, 0)]);
    let first = "1 0 P1 32768 4096";
    let second = "2 1 P2 36864 4096";
    assert_eq!(listed, [HEADER, first, second, "", SECOND_HEADER, "9 spent 0"]);
}

/// In the order of the judgement: erased, spent, live, part-written, stray.
#[test]
fn judgements() {
    let starts = [0x1_1000, 0x1_0000];
    let judged = |value: u64| judge(value, &starts);
    assert_eq!(judged(u64::MAX), Judgement::Erased);
    assert_eq!(judged(0), Judgement::Spent);
    assert_eq!(judged(0x1_1000), Judgement::Live(0));
    // A half-cleared value is judged by its number like any other.
    assert_eq!(judged(0x1_0000), Judgement::Live(1));
    assert_eq!(judged(0x1_1001), Judgement::Stray(0x1_1001));
    assert_eq!(judged(u64::MAX - 1), Judgement::PartWritten(u64::MAX - 1));
    assert_eq!(judged(0xFF << 56), Judgement::PartWritten(0xFF << 56));
    assert_eq!(judged(u64::MAX >> 1), Judgement::Stray(u64::MAX >> 1));
    assert_eq!(judged(0xFE << 56), Judgement::Stray(0xFE << 56));
    assert_eq!(judge(0x8000, &[]), Judgement::Stray(0x8000));
}

#[test]
fn names_and_larger_images() {
    let mut partitions = Flash::quarry_wide(16).partitions;
    partitions[7] = partition("\u{1}a ~!", 0x9_0000, 0x1_0000, 0);
    let flash = Flash::new(0x10_0000, 0x1_0000, partitions, &[0xA_0000, 0x9_0000, 0x4_0000]);
    let expected = [
        HEADER,
        "1 1 ?a?~! 589824 65536",
        "2 2 P3 655360 65536",
        "",
        SECOND_HEADER,
        "2 stray 262144",
    ];
    assert_eq!(listed(&flash, &flash.image()), expected);
}

#[test]
fn shortcuts_show_in_a_listing() {
    let flash = Flash::quarry_with(65_536, 0x8000, 0x9000, &[0, PART_WRITTEN]);
    let image = flash.image();
    let view = View::of(&image, &flash.geometry()).expect("a flash that stands");
    let right = Listing::of(&view, None);
    use Shortcut::{PartWrittenIsStray, PlacesDownward, SpentIsStray};
    for shortcut in [PartWrittenIsStray, PlacesDownward, SpentIsStray] {
        assert_ne!(Listing::of(&view, Some(shortcut)).to_string(), right.to_string());
    }
}
