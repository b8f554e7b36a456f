//! Cases of messages, on both sides of every rule about them. Most fields are of the smallest sections.
use super::build::{with, with_number, ONES};
use super::queue_records::{all_bad, Bad};
use super::section1::{self, of_template, with_years};
use super::section3::{grid, with_list, Grid, Without};
use super::section4::smallest;
use super::section5::{five, seven};
use super::shelves::{
    eleven, good, good_but, EVEN_ROWS, FIVE, FOUR, ONE, SEVEN, SHORTER_EVEN_ROWS, THREE,
};
use super::{Asked, Cases};
use crate::examples::message_sections;
use crate::generate::messages::{close_message, framed, group, message, Field, Sections};
use crate::generate::sections::put;
use crate::generate::Rng;
use crate::reference::listing::CONTENTS;
use crate::reference::message::{may_follow, MOST_FIELDS, NO_BIT_MAP};
use crate::reference::{grid as grids, product, MOST_OCTETS};

/// The cases, each of a message.
struct Messages<'a>(&'a mut Cases);

impl Messages<'_> {
    /// With a part of what is printed, where the rules or whoever chose the message says it beforehand.
    fn stated(&mut self, shows: &str, message: Vec<u8>, stated: &str) {
        self.0.stated(shows, Asked::Message(message), stated);
    }

    /// Accepted, with so many fields.
    fn accepted(&mut self, shows: &str, sections: &[Vec<u8>], fields: usize) {
        self.stated(shows, framed(sections), &format!("\nfields {fields}\n"));
    }

    /// Refused by the frame.
    fn refused(&mut self, number: u8, shows: &str, message: Vec<u8>) {
        let stated = format!("refused {number} 0 0\n");
        self.stated(&format!("{number}: {shows}"), message, &stated);
    }

    /// The same with these sections, and all else as it should be.
    fn refused_sections(&mut self, number: u8, shows: &str, sections: &[Vec<u8>]) {
        self.refused(number, shows, framed(sections));
    }
}

/// A message of one field, in which section 7 is packed octets of 37, and what is printed of it.
fn example() -> Vec<u8> {
    framed(&message_sections(&[3]))
}

pub const EXAMPLE_CONTENTS: &str = "field year month day hour minute second grid product points bits first1 length1 first3 length3 first4 length4 first5 length5 first7 length7\n\
                                    1 2024 3 7 0 0 0 0 8 12 9 17 21 38 72 110 58 168 21 195 19\n\
                                    fields 1\n";

fn local(length: usize) -> Vec<u8> {
    let mut s = vec![3; length];
    put(&mut s, 1, 4, length as u64);
    s[4] = 2;
    s
}

/// The section 1 of the first field, and a group for each, which begins at this section.
fn grouped(fields: &[(usize, Field)]) -> Sections {
    let one = fields[0].1[ONE].clone();
    let groups = fields.iter().cloned();
    let groups = groups.flat_map(|(from, field)| group(from, local(5), field));
    [one].into_iter().chain(groups).collect()
}

/// Good fields, in groups that begin at these sections.
fn good_groups(from: &[usize]) -> Sections {
    let fields: Vec<(usize, Field)> = from.iter().map(|&from| (from, good())).collect();
    grouped(&fields)
}

/// One good field behind a section 2.
fn with_local() -> Sections {
    good_groups(&[2])
}

/// So many good fields, of which the first has a section 3.
fn good_fields(count: usize) -> Sections {
    good_groups(&[&[3][..], &vec![4; count - 1]].concat())
}

/// Fourteen points by a list, where the good field has twelve.
fn fourteen() -> Field {
    good_but(&[
        (THREE, with_list(0, 2, &[4, 6, 4], Without::Ni).octets()),
        (FIVE, five(14, 3)),
        (SEVEN, seven(&[7; 6])),
    ])
}

fn of_five_octets(number: u8) -> Vec<u8> {
    vec![0, 0, 0, 5, number]
}

/// Groups of which the second, the fourth and the sixth have the section 3 of the one before.
pub fn several_groups() -> Vec<u8> {
    framed(&grouped(&[
        (3, good()),
        (4, good()),
        (2, fourteen()),
        (4, fourteen()),
        (3, good()),
        (4, good()),
    ]))
}

/// What is printed of it, behind the heading.
const SEVERAL_GROUPS: &str = "\n1 2024 3 7 18 30 45 0 0 12 3 17 21 38 72 110 34 144 21 171 10\n\
                              2 2024 3 7 18 30 45 0 0 12 3 17 21 38 72 181 34 215 21 242 10\n\
                              3 2024 3 7 18 30 45 0 0 14 3 17 21 257 78 335 34 369 21 396 11\n\
                              4 2024 3 7 18 30 45 0 0 14 3 17 21 257 78 407 34 441 21 468 11\n\
                              5 2024 3 7 18 30 45 0 0 12 3 17 21 479 72 551 34 585 21 612 10\n\
                              6 2024 3 7 18 30 45 0 0 12 3 17 21 479 72 622 34 656 21 683 10\n\
                              fields 6\n";

fn groups(cases: &mut Messages) {
    cases.stated("one field, whole", example(), EXAMPLE_CONTENTS);
    for from in [
        &[2][..],
        &[3],
        &[3, 2],
        &[3, 3],
        &[3, 4],
        &[2, 4],
        &[2, 4, 3, 4, 4, 2, 4],
    ] {
        let shows = "groups that begin at section 2, 3 or 4";
        cases.accepted(shows, &good_groups(from), from.len());
    }
    let shows = "a section 3 in force over several groups";
    cases.stated(shows, several_groups(), SEVERAL_GROUPS);
    let shows = "offset rows over two groups, and then twelve values of them";
    let offset = [3, 4].map(|from| (from, eleven(SHORTER_EVEN_ROWS)));
    let stated = "\n2 2024 3 7 18 30 45 0 0 11 3 17 21 38 72 181 34 215 21 242 10\nfields 2\n";
    cases.stated(shows, framed(&grouped(&offset)), stated);
    let sections = grouped(&[offset[0].clone(), (4, good())]);
    cases.stated(shows, framed(&sections), "refused 14 5 0\n");
    let shows = "offset rows without bit 8 of the scanning mode";
    let sections = grouped(&[(3, eleven(EVEN_ROWS))]);
    cases.stated(shows, framed(&sections), "refused 13 3 0\n");
    let shows = "a field of twelve values where fourteen points are in force";
    let sections = grouped(&[(3, good()), (3, fourteen()), (4, good())]);
    cases.stated(shows, framed(&sections), "refused 14 5 0\n");
}

fn section_2(cases: &mut Messages) {
    for length in [5, 6, 16, 17, 500] {
        let mut sections = with_local();
        sections[1] = local(length);
        cases.accepted("section 2 of 5 octets and more", &sections, 1);
    }
    let mut sections = with_local();
    sections[1].extend(good_groups(&[3]).concat());
    let length = sections[1].len() as u64;
    put(&mut sections[1], 1, 4, length);
    cases.accepted("section 2 with the octets of sections", &sections, 1);
}

fn counts(cases: &mut Messages) {
    for count in [1, 2, 15, MOST_FIELDS] {
        cases.accepted("1 to 16 fields", &good_fields(count), count);
    }
    for count in [17, 18, 33] {
        cases.refused_sections(25, "more than 16 fields", &good_fields(count));
    }
    for from in [2, 3, 4] {
        let sections = [good_fields(16), group(from, local(5), good())].concat();
        let shows = format!("a 17th field in a group that begins at section {from}");
        cases.refused_sections(25, &shows, &sections);
        let sections = [good_fields(16), vec![of_five_octets(from as u8)]].concat();
        let shows = format!("a section {from} behind the 16th field");
        cases.refused_sections(25, &shows, &sections);
    }
}

/// What the lines say of each template, of years and of bits.
fn lines(cases: &mut Messages) {
    let mut line = |shows, given: &[(usize, Vec<u8>)], stated: &str| {
        let sections = grouped(&[(3, good_but(given))]);
        cases.stated(shows, framed(&sections), stated);
    };
    for template in 0..grids::TEMPLATES.len() {
        let stated = format!("\n1 2024 3 7 18 30 45 {template} 0 12 3 17 21 38 ");
        line("each grid", &[(THREE, grid(template).octets())], &stated);
    }
    for template in product::TEMPLATES {
        let t = template.number;
        let stated = format!("\n1 2024 3 7 18 30 45 0 {t} 12 3 17 21 38 72 110 ");
        line("each product", &[(FOUR, smallest(t))], &stated);
    }
    for bits in [0, 1, 7, 8, 32] {
        let packed = vec![0xa5; (12 * usize::from(bits)).div_ceil(8)];
        let length = 5 + packed.len();
        let given = [(FIVE, five(12, bits)), (SEVEN, seven(&packed))];
        let stated = format!(" 12 {bits} 17 21 38 72 110 34 144 21 171 {length}\n");
        line("bits", &given, &stated);
    }
    for (one, real) in [
        (section1::section(None, 0, 0, 0), 0),
        (section1::section(None, 65534, 0, 0), 65534),
        (of_template(Some(0)), 2024),
        (with_years(1, 2024, 0x8002), -17976),
        (with_years(1, 0xfffe, 0xfffe), -327692766),
        (with_years(2, 0x7fff, 0x7fff), 327702767),
    ] {
        let length = one.len();
        let stated = format!("\n1 {real} 3 7 18 30 45 0 0 12 3 17 {length} ");
        line("years, below zero too", &[(ONE, one)], &stated);
    }
    for calendar in [1, 255] {
        let one = section1::section(Some(2), 2024, 0, calendar);
        let shows = "a calendar that filing refuses";
        line(shows, &[(ONE, one)], "\nfields 1\n");
    }
}

/// A message of this length, whose section 7 ends with octets of 37 as the message does.
fn of_length(length: usize) -> Vec<u8> {
    let points = length - (framed(&good_groups(&[3])).len() - good()[SEVEN].len() + 5);
    let (ni, nj) = (points as u64, 1);
    let field = good_but(&[
        (THREE, Grid { ni, nj, ..grid(0) }.octets()),
        (FIVE, five(ni, 8)),
        (SEVEN, seven(&vec![b'7'; points])),
    ]);
    let message = framed(&grouped(&[(3, field)]));
    assert_eq!(message.len(), length);
    message
}

fn longest(cases: &mut Messages) {
    for length in [MOST_OCTETS - 1, MOST_OCTETS] {
        let shows = format!("{length} octets, one field");
        cases.stated(&shows, of_length(length), "\nfields 1\n");
    }
    cases.refused(2, "65,537 octets, one field", of_length(MOST_OCTETS + 1));
    let mut one_more = of_length(MOST_OCTETS);
    one_more.push(b'7');
    cases.refused(2, "65,536 octets, and one more", one_more);
    for octet in [0, b'7', 0xff] {
        let shows = "one octet again and again";
        cases.refused(22, shows, vec![octet; MOST_OCTETS]);
        for length in [MOST_OCTETS + 1, 70000, 2 * MOST_OCTETS] {
            cases.refused(2, shows, vec![octet; length]);
        }
    }
    let mut section0 = framed(&[]);
    section0.resize(MOST_OCTETS, b'7');
    close_message(&mut section0);
    let shows = "a length of 926,365,495 in front of the last four";
    cases.refused(23, shows, section0);
}

fn shortest(cases: &mut Messages) {
    let nothing = framed(&[]);
    cases.refused(23, "20 octets, and so no section", nothing.clone());
    let mut wrong = nothing.clone();
    wrong[19] = 0;
    cases.refused(23, "20 octets, the last of which is wrong", wrong);
    for length in 0..20 {
        let mut short = nothing[..length].to_vec();
        close_message(&mut short);
        cases.refused(22, "under 20 octets", short);
    }
}

fn section_0(cases: &mut Messages) {
    let good = framed(&good_groups(&[3]));
    let total = good.len() as u64;
    for at in 1..=4 {
        for octet in [0, good[at - 1] + 32, good[at - 1] ^ 0x80] {
            cases.refused(22, "the start", with(&good, &[(at, octet)]));
        }
    }
    for edition in [0, 1, 3, 130, 255] {
        cases.refused(22, "the edition", with(&good, &[(8, edition)]));
    }
    for wrong in [0, total - 1, total + 1, total - 4, total.swap_bytes(), !0] {
        let message = with_number(&good, 9, 16, wrong);
        cases.refused(22, "the total length", message);
    }
    for at in 9..=16 {
        let octet = good[at - 1] ^ 1;
        let shows = "each octet of the total length";
        cases.refused(22, shows, with(&good, &[(at, octet)]));
    }
    let cut = good[..good.len() - 1].to_vec();
    cases.refused(22, "a message without its last octet", cut.clone());
    let mut closed = cut;
    close_message(&mut closed);
    let shows = "a message without its last octet, which its total length leaves out";
    cases.refused(23, shows, closed);
    let longer = [&good[..], b"7"].concat();
    cases.refused(22, "a message with an octet more", longer);
    for octets in [[0; 3], [255; 3], [1, 2, 3]] {
        let mut message = good.clone();
        message[4..7].copy_from_slice(&octets);
        cases.stated("octets 5-7 of section 0", message, "\nfields 1\n");
    }
}

/// The section at this place states another length.
fn stating(at: usize, length: u64) -> Sections {
    let mut sections = with_local();
    put(&mut sections[at], 1, 4, length);
    sections
}

fn lengths(cases: &mut Messages) {
    for left in 1..=4 {
        for octet in [0, left, b'7'] {
            let mut sections = good_groups(&[3]);
            sections.push(vec![octet; left.into()]);
            let shows = "fewer than 5 octets left before the last four";
            cases.refused_sections(23, shows, &sections);
        }
    }
    let sections = with_local();
    for at in 0..sections.len() {
        for length in [0, 4] {
            let shows = "a length under 5";
            cases.refused_sections(23, shows, &stating(at, length));
        }
        let left = sections[at..].concat().len() as u64;
        for length in [left + 1, left + 5, ONES] {
            let shows = "a length into the last four, and past them";
            cases.refused_sections(23, shows, &stating(at, length));
        }
    }
    // In 32 bits both would lead back to section 1.
    for (at, passed) in [(1, 21), (6, 159)] {
        let length = (1 << 32) - passed;
        let shows = "a length that goes round 32 bits";
        cases.refused_sections(23, shows, &stating(at, length));
    }
    let last = sections.len() - 1;
    for length in [5, 6, 9] {
        let shows = "a last section that leaves fewer than 5 octets, or what is no section";
        cases.refused_sections(23, shows, &stating(last, length));
    }
}

/// A section of any number behind each, and none.
fn orders(cases: &mut Messages) {
    let whole = with_local();
    for last in 0..=7u8 {
        let front = &whole[..last.into()];
        let numbers = (0..=8).chain([128 + 3, 255]);
        for number in numbers.filter(|number| !may_follow(last).contains(number)) {
            let sections = [front, &[of_five_octets(number)]].concat();
            let shows = format!("a section {number} behind {last}");
            cases.refused_sections(23, &shows, &sections);
        }
    }
    for last in 0..7 {
        let mut message = framed(&whole[..last]);
        cases.refused(23, &format!("nothing behind {last}"), message.clone());
        *message.last_mut().expect("an octet") = 0;
        let shows = format!("nothing behind {last}, and the last four are wrong");
        cases.refused(23, &shows, message);
    }
}

fn missing_and_twice(cases: &mut Messages) {
    let whole = with_local();
    for (at, section) in whole.iter().enumerate() {
        let number = section[4];
        let (mut without, mut twice) = (whole.clone(), whole.clone());
        without.remove(at);
        let shows = format!("a message without its section {number}");
        match number {
            2 => cases.accepted(&shows, &without, 1),
            _ => cases.refused_sections(23, &shows, &without),
        }
        twice.insert(at, section.clone());
        cases.refused_sections(23, &format!("a section {number} twice"), &twice);
    }
}

fn later_groups(cases: &mut Messages) {
    let whole = with_local();
    for from in 1..=7 {
        let sections = [&good_fields(2)[..], &whole[from - 1..]].concat();
        let shows = format!("a third group that begins at section {from}");
        match from {
            2..=4 => cases.accepted(&shows, &sections, 3),
            _ => cases.refused_sections(23, &shows, &sections),
        }
    }
}

const BAD_BIT_MAPS: [&[u8]; 7] = [
    &[0, 0, 0, 5, 6],
    &[0, 0, 0, 7, 6, 255, 255],
    &[0, 0, 0, 8, 6, 0, 255, 255],
    &[0, 0, 0, 6, 6, 0],
    &[0, 0, 0, 6, 6, 1],
    &[0, 0, 0, 6, 6, 127],
    &[0, 0, 0, 6, 6, 254],
];

fn bit_maps(cases: &mut Messages) {
    for bad in BAD_BIT_MAPS {
        let good = good_fields(3);
        let is_bit_map = |at: &usize| good[*at] == NO_BIT_MAP;
        for at in (0..good.len()).filter(is_bit_map) {
            let mut sections = good.clone();
            sections[at] = bad.to_vec();
            let shows = "section 6 of another length, or with another indicator";
            cases.refused_sections(24, shows, &sections);
            sections.swap(at, at - 1);
            let shows = "such a section 6 out of order";
            cases.refused_sections(23, shows, &sections);
        }
        let mut sections = good;
        sections.truncate(4);
        sections.push(bad.to_vec());
        let shows = "such a section 6, behind which a section is missing";
        cases.refused_sections(24, shows, &sections);
    }
}

fn last_four(cases: &mut Messages) {
    let good = framed(&good_groups(&[3, 4]));
    for at in good.len() - 3..=good.len() {
        for octet in [0, b'6', b'8', 0xb7] {
            let shows = "each octet of the last four";
            cases.refused(25, shows, with(&good, &[(at, octet)]));
        }
    }
    let sixteen = framed(&good_fields(16));
    let at = sixteen.len();
    let shows = "the last four behind the 16th field";
    cases.refused(25, shows, with(&sixteen, &[(at, 0)]));
}

/// What the frame refuses at one place, the lower number first, and at the first place.
fn several(cases: &mut Messages) {
    for number in [0, 1, 5, 6, 7, 8, 255] {
        let sections = [good_fields(16), vec![of_five_octets(number)]].concat();
        let shows = "a section out of order behind the 16th field";
        cases.refused_sections(23, shows, &sections);
    }
    let mut stump = good_fields(16);
    stump.push(vec![0, 0, 0]);
    let shows = "fewer than 5 octets behind the 16th field";
    cases.refused_sections(23, shows, &stump);
    let mut sections = good_fields(3);
    sections[4] = BAD_BIT_MAPS[0].to_vec();
    let shows = "the first place: 24 before a section that is missing";
    cases.refused_sections(24, shows, &sections[..6]);
    let mut message = framed(&sections);
    let end = message.len();
    message[end - 1] = 0;
    cases.refused(24, "the first place: 24 before the last four", message);
    sections.remove(1);
    let shows = "the first place: a section that is missing before 24";
    cases.refused_sections(23, shows, &sections);
    let mut sections = good_fields(17);
    let end = sections.len() - 2;
    sections[end] = BAD_BIT_MAPS[0].to_vec();
    let shows = "the first place: the 17th field before its section 6";
    cases.refused_sections(25, shows, &sections);
    let message = with(&framed(&sections), &[(8, 1)]);
    cases.refused(22, "section 0 before all others", message);
}

/// Two good fields and another between them, of which this section is given. Section 1 is that of all three.
fn between_two(at: usize, section: &[u8]) -> Sections {
    let field = good_but(&[(at, section.to_vec())]);
    let from = if at == THREE { 3 } else { 4 };
    let one = field[ONE].clone();
    let mut sections = grouped(&[(3, good()), (from, field), (3, good())]);
    sections[0] = one;
    sections
}

/// A section of another number is out of order; each other refusal of a field is that of the message.
fn fields_refused(cases: &mut Messages) {
    for Bad { at, section, told } in all_bad() {
        let (number, of, place) = told;
        let sections = between_two(at, &section);
        if number == 4 {
            cases.refused_sections(23, "in place of 4", &sections);
            continue;
        }
        let shows = format!("refusal {number} of section {of}");
        let stated = format!("refused {number} {of} {place}\n");
        cases.stated(&shows, framed(&sections), &stated);
    }
    let with_bits = |bits| good_but(&[(FIVE, five(12, bits))]);
    let no_data = good_but(&[(SEVEN, seven(&[]))]);
    let sections = grouped(&[(3, good()), (4, no_data.clone()), (4, with_bits(33))]);
    let shows = "the first field refused, though a later one has a lower number";
    cases.stated(shows, framed(&sections), "refused 15 7 0\n");
    let sections = grouped(&[(3, with_bits(33)), (4, no_data), (4, good())]);
    let shows = "the first field refused, and a later one";
    cases.stated(shows, framed(&sections), "refused 8 5 20\n");
    let mut last = good_fields(16);
    let end = last.len() - 1;
    last[end] = seven(&[]);
    let shows = "the 16th field refused";
    cases.stated(shows, framed(&last), "refused 15 7 0\n");
}

/// A frame that is refused at its end wins over the first field.
fn frame_before_fields(cases: &mut Messages) {
    let month_0 = with(&of_template(None), &[(15, 0)]);
    let bad = between_two(ONE, &month_0);
    let shows = "behind fields that are refused";
    let end = framed(&bad).len();
    cases.refused(25, shows, with(&framed(&bad), &[(end, 0)]));
    cases.refused_sections(23, shows, &[&bad[..], &[of_five_octets(3)]].concat());
    let mut bit_map = bad.clone();
    let end = bit_map.len() - 2;
    bit_map[end] = BAD_BIT_MAPS[3].to_vec();
    cases.refused_sections(24, shows, &bit_map);
    let many = [bad, good_fields(14).split_off(1)].concat();
    cases.refused_sections(25, shows, &many);
}

/// Messages that are good and damaged, as the tests of the library have them, but for long ones.
fn generated(cases: &mut Messages) {
    let some = |seed| message(&mut Rng::of_input(seed, 2));
    let short = (0..).map(some).filter(|message| message.len() <= 1500);
    for (place, message) in short.take(80).enumerate() {
        let shows = format!("any sections, {place}");
        cases.0.add(&shows, Asked::Message(message));
    }
}

pub fn add(cases: &mut Cases) {
    assert!(EXAMPLE_CONTENTS.starts_with(CONTENTS));
    cases.begin("messages: ");
    let cases = &mut Messages(cases);
    groups(cases);
    section_2(cases);
    counts(cases);
    lines(cases);
    longest(cases);
    shortest(cases);
    section_0(cases);
    lengths(cases);
    orders(cases);
    missing_and_twice(cases);
    later_groups(cases);
    bit_maps(cases);
    last_four(cases);
    several(cases);
    fields_refused(cases);
    frame_before_fields(cases);
    generated(cases);
}
