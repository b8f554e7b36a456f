//! Cases of queues whose records are refused one by one, and none of it stops the next record.
use super::build::{sized, with, ONES};
use super::queues::{queue_of, record, Queues};
use super::section1::{self, of_template, plain, with_years};
use super::section3::{grid, with_list, Grid, Without};
use super::section4::{self, smallest, with_numbers};
use super::section5::{five, seven};
use super::shelves::{
    eleven, good, good_but, EVEN_ROWS, FIVE, FOUR, ONE, SEVEN, SHORTER_EVEN_ROWS, THREE,
};

/// A record of a good field, but for the sections that are given.
pub fn filed(slot: u64, issue: impl Into<Option<u32>>, given: &[(usize, Vec<u8>)]) -> Vec<u8> {
    record(slot, issue.into(), &good_but(given).concat())
}

/// A record of issue 0 that is filed.
pub fn plainly(slot: u64) -> Vec<u8> {
    filed(slot, 0, &[])
}

pub fn later() -> Vec<u8> {
    section1::section(None, 2025, 0, 0)
}

fn foreign(template: u8, calendar: u8) -> Vec<u8> {
    section1::section(Some(template), 2025, 0, calendar)
}

fn month_0() -> Vec<u8> {
    plain(&[(15, 0)])
}

/// A section that is refused: its place in a field, and number, section and place of the refusal.
pub struct Bad {
    pub at: usize,
    pub section: Vec<u8>,
    pub told: (u8, u8, u32),
}

/// Refused by its own reader: places 0 to 4 are sections 1, 3, 4, 5 and 7.
fn bad(number: u8, at: usize, section: Vec<u8>, place: u32) -> Bad {
    let told = (number, [1, 3, 4, 5, 7][at], place);
    Bad { at, section, told }
}

fn bad_of_section1() -> Vec<Bad> {
    let one = of_template(None);
    let of_0 = of_template(Some(0));
    let with_template = |octets| with(&of_0, octets);
    vec![
        bad(4, ONE, with(&one, &[(5, 3)]), 0),
        bad(5, ONE, sized(&one, 20), 0),
        bad(5, ONE, sized(&one, 22), 0),
        bad(5, ONE, sized(&one, 5), 0),
        bad(6, ONE, with_template(&[(23, 3)]), 0),
        bad(7, ONE, sized(&of_0, 23), 0),
        bad(8, ONE, section1::section(None, 65535, 0, 0), 13),
        bad(8, ONE, month_0(), 15),
        bad(8, ONE, plain(&[(15, 13)]), 15),
        bad(8, ONE, plain(&[(16, 32)]), 16),
        bad(8, ONE, plain(&[(17, 24)]), 17),
        bad(8, ONE, plain(&[(18, 60)]), 18),
        bad(8, ONE, plain(&[(19, 60)]), 19),
        bad(8, ONE, with_years(1, 2024, 65535), 24),
        bad(8, ONE, with_years(2, 2024, 65535), 25),
        bad(21, ONE, sized(&of_0, 25), 25),
        bad(21, ONE, sized(&of_0, 27), 25),
    ]
}

fn bad_of_section3() -> Vec<Bad> {
    let three = grid(0).octets();
    let width = Grid {
        width: 3,
        interpretation: Some(0),
        ..grid(0)
    };
    let interpretation = |number| {
        Grid {
            interpretation: Some(number),
            ..grid(0)
        }
        .octets()
    };
    let listed = with_list(0, 2, &[4, 6, 4], Without::Ni);
    vec![
        bad(4, THREE, with(&three, &[(5, 1)]), 0),
        bad(5, THREE, sized(&three, 13), 0),
        bad(6, THREE, grid(0).with(&[(13, 4)]), 0),
        bad(7, THREE, sized(&three, 71), 0),
        bad(8, THREE, grid(0).with(&[(6, 1)]), 6),
        bad(8, THREE, width.octets(), 11),
        bad(8, THREE, interpretation(3), 12),
        bad(8, THREE, Grid { ni: 0, ..grid(0) }.octets(), 31),
        bad(8, THREE, Grid { nj: 0, ..grid(0) }.octets(), 35),
        bad(8, THREE, grid(0).with(&[(43, 0)]), 43),
        bad(8, THREE, grid(0).with(&[(60, ONES)]), 60),
        bad(8, THREE, grid(3).with(&[(89, ONES)]), 89),
        bad(
            10,
            THREE,
            Grid {
                ni: ONES,
                ..grid(0)
            }
            .octets(),
            0,
        ),
        bad(10, THREE, interpretation(1), 0),
        bad(11, THREE, sized(&listed.octets(), 77), 78),
        bad(21, THREE, sized(&listed.octets(), 79), 79),
        bad(21, THREE, sized(&three, 73), 73),
        bad(13, THREE, grid(0).points_are(13), 0),
        bad(13, THREE, listed.points_are(12), 0),
    ]
}

fn bad_of_section4() -> Vec<Bad> {
    let four = smallest(0);
    let listed = section4::section(8, 2, 0, 2);
    vec![
        bad(4, FOUR, with(&four, &[(5, 0)]), 0),
        bad(5, FOUR, sized(&four, 8), 0),
        bad(6, FOUR, with(&four, &[(9, 2)]), 0),
        bad(7, FOUR, sized(&four, 33), 0),
        bad(7, FOUR, sized(&smallest(8), 57), 0),
        bad(8, FOUR, with_numbers(0, &[(19, ONES)]), 19),
        bad(8, FOUR, with_numbers(8, &[(35, 65535)]), 35),
        bad(8, FOUR, with_numbers(8, &[(41, 60)]), 41),
        bad(9, FOUR, with_numbers(8, &[(42, 0)]), 0),
        bad(11, FOUR, sized(&listed, 77), 78),
        bad(21, FOUR, sized(&listed, 79), 79),
        bad(21, FOUR, sized(&four, 35), 35),
    ]
}

/// With 14, which section 3 can bring about too.
fn bad_of_sections_5_and_7() -> Vec<Bad> {
    let [_, _, _, good_5, good_7] = good();
    let listed = with_list(0, 2, &[4, 6, 4], Without::Ni);
    let points_differ = Bad {
        at: THREE,
        section: listed.octets(),
        told: (14, 5, 0),
    };
    vec![
        bad(4, FIVE, with(&good_5, &[(5, 255)]), 0),
        bad(4, SEVEN, with(&good_7, &[(5, 6)]), 0),
        bad(5, FIVE, sized(&good_5, 10), 0),
        bad(6, FIVE, with(&good_5, &[(11, 40)]), 0),
        bad(7, FIVE, sized(&good_5, 20), 0),
        bad(8, FIVE, five(12, 33), 20),
        bad(21, FIVE, sized(&good_5, 22), 22),
        bad(14, FIVE, five(11, 3), 0),
        points_differ,
        bad(15, SEVEN, seven(&[0, 1, 2, 3]), 0),
        bad(15, SEVEN, seven(&[0, 1, 2, 3, 4, 5]), 0),
    ]
}

/// By the refusal's number and section.
pub fn all_bad() -> Vec<Bad> {
    let mut all = bad_of_section1();
    all.extend(bad_of_section3());
    all.extend(bad_of_section4());
    all.extend(bad_of_sections_5_and_7());
    all.sort_by_key(|bad| (bad.told.0, bad.told.1));
    all
}

/// A spoilt record would be the newer one; the slot stays as it was, and the record after it is filed.
fn refusals_of_fields(cases: &mut Queues) {
    for Bad { at, section, told } in all_bad() {
        let (number, of, place) = told;
        let spoilt = filed(5, 9, &[(ONE, later()), (at, section)]);
        let queue = queue_of(&[plainly(5), spoilt, plainly(6)]);
        let stated = format!("\n2 5 9 refused {number} {of} {place}\n");
        let shows = format!("refusal {number} of section {of}");
        cases.stated(&shows, queue, &stated);
    }
    for template in [0, 2] {
        for calendar in [1, 2, 255] {
            let spoilt = filed(5, 9, &[(ONE, foreign(template, calendar))]);
            let queue = queue_of(&[plainly(5), spoilt, plainly(6)]);
            let shows = "refusal 17, a calendar that is not 0";
            cases.stated(shows, queue, "\n2 5 9 refused 17 1 0\n3 6 0 kept\n");
        }
    }
    let gregorian = filed(5, 0, &[(ONE, of_template(Some(0)))]);
    let newer = filed(5, 9, &[(ONE, foreign(2, 0))]);
    let queue = queue_of(&[gregorian, newer]);
    cases.stated("calendar 0 is no refusal", queue, "\nkept 2 ");
}

/// No record has refusals 1, 2 or 3: a section of under 5 octets, or of another length than its own octets say, makes a body that is refused
/// with 20; a longer one than 65,536 octets makes a queue that is refused with 2.
fn in_place_of_others(cases: &mut Queues) {
    let [one, _, _, _, packed] = good();
    let shows = "in place of 1 and 3 a record has 20";
    for given in [(ONE, sized(&one, 4)), (SEVEN, packed[..9].to_vec())] {
        let queue = queue_of(&[filed(5, 0, &[given]), plainly(6)]);
        cases.stated(shows, queue, "\n1 5 0 refused 20 0 0\n2 6 0 kept\n");
    }
}

/// Ni and Nj as large as they can be: their product is just below 2^64, and its last 32 bits are the number of points that is stated.
fn greatest_product(cases: &mut Queues) {
    let most = ONES - 1;
    let great = Grid {
        ni: most,
        nj: most,
        ..grid(0)
    }
    .points_are(4);
    let queue = queue_of(&[filed(5, 0, &[(THREE, great)]), plainly(6)]);
    let shows = "refusal 13 for the greatest Ni x Nj";
    cases.stated(shows, queue, "\n1 5 0 refused 13 3 0\n");
}

/// Offset rows: N is octets 7-10 of section 3, and not Ni x Nj.
fn offset_rows(cases: &mut Queues) {
    let eleven = |slot, mode| record(slot, Some(0), &eleven(mode).concat());
    let queue = queue_of(&[
        eleven(5, SHORTER_EVEN_ROWS),
        filed(6, 0, &[(THREE, grid(0).scanned(SHORTER_EVEN_ROWS, 11))]),
        eleven(7, EVEN_ROWS),
        plainly(8),
    ]);
    let fates = "\n1 5 0 kept\n2 6 0 refused 14 5 0\n3 7 0 refused 13 3 0\n4 8 0 kept\n";
    cases.stated("offset rows, and N by octets 7-10", queue, fates);
}

fn slots(cases: &mut Queues) {
    let small = [0, 1, 62, 63, 64, 65, 127, 128, 255, 256, 320, 16383, 16384];
    let great = [65536, 65543, 1 << 31, ONES, 1 << 32];
    for slot in small.into_iter().chain(great) {
        let fate = if slot <= 63 { "kept" } else { "refused 16 0 0" };
        let queue = queue_of(&[filed(slot, 3, &[]), plainly(2)]);
        let stated = format!("\n1 {slot} 3 {fate}\n2 2 0 kept\n");
        cases.stated("slots, and refusal 16 from 64 on", queue, &stated);
    }
    let queue = queue_of(&[plainly(63), plainly(64), filed(63, 1, &[])]);
    let stated = "\n2 64 0 refused 16 0 0\n3 63 1 kept\n";
    cases.stated("slot 63 and slot 64", queue, stated);
}

/// A record between two others, refused with 20.
fn refused_20(cases: &mut Queues, shows: &str, body: &[u8]) {
    let queue = queue_of(&[plainly(1), record(2, Some(0), body), plainly(3)]);
    let shows = format!("20: {shows}");
    cases.stated(&shows, queue, "\n2 2 0 refused 20 0 0\n3 3 0 kept\n");
}

/// The good field with another length in the section at this place, and the octets from there on.
fn stating(at: usize, length: u64) -> Vec<u8> {
    let mut sections = good();
    sections[at][..4].copy_from_slice(&(length as u32).to_be_bytes());
    sections.concat()
}

fn bodies(cases: &mut Queues) {
    let sections = good();
    let body = sections.concat();
    for count in 1..5 {
        let shows = "under 5 octets left at the first section";
        refused_20(cases, shows, &body[..count]);
    }
    for before in 1..5 {
        for count in 1..5 {
            let tail = [&vec![0; count - 1][..], &[count as u8]].concat();
            let shows = "under 5 octets left at a later section";
            let front = sections[..before].concat();
            refused_20(cases, shows, &[front, tail].concat());
        }
    }
    for at in ONE..=SEVEN {
        for length in [0, 1, 4] {
            refused_20(cases, "a length under 5", &stating(at, length));
        }
    }
    let left = |at: usize| sections[at..].concat().len() as u64;
    for at in ONE..=SEVEN {
        let next = plainly(3).len() as u64;
        let near = [left(at) + 1, left(at) + next];
        let far = [65536, 1 << 31, ONES - 7, ONES];
        for length in near.into_iter().chain(far) {
            let shows = "a length past the body's end";
            refused_20(cases, shows, &stating(at, length));
        }
    }
    for at in ONE..SEVEN {
        let whole = record(2, Some(0), &stating(at, left(at)));
        let queue = queue_of(&[plainly(1), whole]);
        let shows = "20: a section that takes the rest of the body";
        cases.stated(shows, queue, "\n2 2 0 refused 20 0 0\n");
    }
}

/// In 32 bits the second of these lengths would lead back to index 10, and from there the body would seem to have five sections.
fn round_32_bits() -> Vec<u8> {
    let lengths: [(usize, u32); 5] = [(0, 40), (10, 60), (40, u32::MAX - 29), (70, 10), (80, 10)];
    let mut body = vec![0; 90];
    for (index, length) in lengths {
        body[index..index + 4].copy_from_slice(&length.to_be_bytes());
    }
    body
}

fn more_bodies(cases: &mut Queues) {
    let sections = good();
    let body = sections.concat();
    let queue = queue_of(&[record(2, Some(0), &round_32_bits()), plainly(3)]);
    let stated = "\n1 2 0 refused 20 0 0\n2 3 0 kept\n";
    cases.stated("20: a length that goes round 32 bits", queue, stated);
    for tail in [&[0][..], &[0; 4], &[0, 0, 0, 5, 7], &sections[SEVEN]] {
        refused_20(cases, "octets left over", &[&body, tail].concat());
    }
    for (issue, named) in [(None, "-"), (Some(0), "0"), (Some(7), "7")] {
        let queue = queue_of(&[plainly(1), record(2, issue, &[]), plainly(3)]);
        let stated = format!("\n2 2 {named} refused 20 0 0\n3 3 0 kept\n");
        cases.stated("20: an empty body", queue, &stated);
    }
    for missing in ONE..=SEVEN {
        let mut four_left = sections.to_vec();
        four_left.remove(missing);
        refused_20(cases, "four sections", &four_left.concat());
    }
    let shows = "a body cut by one octet";
    refused_20(cases, shows, &body[..body.len() - 1]);
    let smallest = [1, 3, 4, 5, 7].map(|number| [0, 0, 0, 5, number]).concat();
    let queue = queue_of(&[record(2, Some(0), &smallest), plainly(3)]);
    let shows = "five sections of 5 octets are cut, and refused by section 1";
    cases.stated(shows, queue, "\n1 2 0 refused 5 1 0\n2 3 0 kept\n");
    let [one, three, four, five, seven] = sections;
    let queue = queue_of(&[
        record(2, Some(0), &[three, one, four, five, seven].concat()),
        plainly(3),
    ]);
    let shows = "the section's number is left to its reader";
    cases.stated(shows, queue, "\n1 2 0 refused 4 1 0\n2 3 0 kept\n");
}

/// The order of a record's refusals.
fn several(cases: &mut Queues) {
    let [_, _, _, _, packed] = good();
    let body = good().concat();
    let cut = &body[..body.len() - 1];
    let short = packed[..packed.len() - 1].to_vec();
    let long = [&packed[..], &[0]].concat();
    let alien = (ONE, foreign(0, 1));
    let queue = queue_of(&[
        record(64, Some(0), cut),
        record(64, Some(0), &[]),
        plainly(3),
    ]);
    let stated = "\n1 64 0 refused 20 0 0\n2 64 0 refused 20 0 0\n3 3 0 kept\n";
    cases.stated("several reasons: 20 before 16", queue, stated);
    let queue = queue_of(&[
        filed(5, 0, &[(ONE, month_0()), (SEVEN, short)]),
        filed(5, 0, &[alien.clone(), (SEVEN, long)]),
    ]);
    let shows = "several reasons: 20 before the field's and 17";
    cases.stated(
        shows,
        queue,
        "\n1 5 0 refused 20 0 0\n2 5 0 refused 20 0 0\n",
    );
    let queue = queue_of(&[
        filed(64, 0, &[(ONE, month_0())]),
        filed(1 << 32, 0, &[(SEVEN, seven(&[0, 1, 2, 3]))]),
    ]);
    let shows = "several reasons: 16 before the field's";
    let stated = "\n1 64 0 refused 16 0 0\n2 4294967296 0 refused 16 0 0\n";
    cases.stated(shows, queue, stated);
    let shows = "several reasons: 16 before 17";
    let queue = filed(64, 0, &[alien.clone()]);
    cases.stated(shows, queue, "\n1 64 0 refused 16 0 0\n");
    for Bad { at, section, told } in all_bad() {
        if at != ONE {
            let queue = filed(5, 0, &[alien.clone(), (at, section)]);
            let (number, of, place) = told;
            let stated = format!("\n1 5 0 refused {number} {of} {place}\n");
            cases.stated("several reasons: the field's before 17", queue, &stated);
        }
    }
}

fn first_section_that_is_refused(cases: &mut Queues) {
    let bad = [
        (ONE, month_0(), "8 1 15"),
        (THREE, grid(0).points_are(13), "13 3 0"),
        (FOUR, sized(&smallest(0), 35), "21 4 35"),
        (FIVE, five(11, 3), "14 5 0"),
        (SEVEN, seven(&[]), "15 7 0"),
    ];
    for first in 0..5 {
        let rest = bad[first..].iter();
        let rest: Vec<_> = rest
            .map(|(at, section, _)| (*at, section.clone()))
            .collect();
        let stated = format!("\n1 5 0 refused {}\n", bad[first].2);
        let shows = "several reasons: the first section's that is refused";
        cases.stated(shows, filed(5, 0, &rest), &stated);
    }
    let shows = "several reasons: section 5's own before 14";
    let queue = filed(5, 0, &[(FIVE, five(11, 33))]);
    cases.stated(shows, queue, "\n1 5 0 refused 8 5 20\n");
    let shows = "several reasons: 14 before section 7";
    let [_, _, _, _, packed] = good();
    let queue = filed(
        5,
        0,
        &[(FIVE, five(11, 3)), (SEVEN, with(&packed, &[(5, 0)]))],
    );
    cases.stated(shows, queue, "\n1 5 0 refused 14 5 0\n");
    let queue = queue_of(&[
        record(1, Some(0), &[]),
        plainly(64),
        filed(1, 5, &[(ONE, month_0())]),
        filed(1, 5, &[(ONE, foreign(0, 1))]),
        filed(1, 4, &[]),
        filed(1, 3, &[]),
        plainly(70),
        plainly(2),
    ]);
    let shows = "records after refused ones are still filed";
    let fates = "\n5 1 4 kept\n6 1 3 passed\n7 70 0 refused 16 0 0\n8 2 0 kept\n";
    let stated = format!("{fates}kept 2 passed 1 refused 5\n");
    cases.stated(shows, queue, &stated);
}

pub fn add(cases: &mut Queues) {
    refusals_of_fields(cases);
    in_place_of_others(cases);
    greatest_product(cases);
    offset_rows(cases);
    slots(cases);
    bodies(cases);
    more_bodies(cases);
    several(cases);
    first_section_that_is_refused(cases);
}
