//! Section 1, on both sides of every rule.
use super::build::{resized, rising, sized, with, with_number};
use super::{Asked, Cases};
use crate::examples;
use crate::reference::identification::MONTH_TO_SECOND;
use crate::reference::table::Rule;

/// One that document 01 accepts; its other octets are those of the examples.
pub fn section(template: Option<u8>, year: u16, offset: u16, calendar: u8) -> Vec<u8> {
    let mut tail = vec![];
    if let Some(number) = template {
        tail.extend([0, number]);
        if number != 1 {
            tail.push(calendar);
        }
        if number != 0 {
            tail.extend(offset.to_be_bytes());
        }
    }
    examples::section1(year.to_be_bytes(), 3, &tail)
}

/// Of 2024, in the Gregorian calendar, without an offset.
pub fn of_template(template: Option<u8>) -> Vec<u8> {
    section(template, 2024, 0, 0)
}

/// Without a template, with these octets.
pub fn plain(octets: &[(usize, u8)]) -> Vec<u8> {
    with(&of_template(None), octets)
}

pub fn with_years(template: u8, year: u16, offset: u16) -> Vec<u8> {
    section(Some(template), year, offset, 0)
}

fn case(cases: &mut Cases, shows: &str, s: Vec<u8>) {
    cases.add(shows, Asked::Section(1, s));
}

fn examples_of_document(cases: &mut Cases) {
    let mut example = |s, stated| {
        cases.stated("the examples of document 01", Asked::Section(1, s), stated);
    };
    example(with_years(1, 2024, 0x8002), " -17976 ");
    example(with_years(1, 0x8005, 0x8001), " -10005 ");
    example(with_years(2, 0, 1), " 10000 ");
    example(plain(&[(15, 0)]), "refused 8 1 15 ");
}

fn lengths(cases: &mut Cases) {
    for t in 0..=2 {
        let shows = format!("template 1.{t} cut to, or with a tail to, 0 to 30 octets");
        for length in 0..=30 {
            case(cases, &shows, sized(&of_template(Some(t)), length));
        }
    }
    let s = of_template(Some(0));
    let shows = "octets 1-4 differ from the lent length";
    for length in [5, 20, 21, 22, 23] {
        case(cases, shows, resized(&s, length));
    }
    case(cases, shows, with(&s, &[(4, 25)]));
    for length in [65535, 65536, 65537, 65600] {
        case(cases, "the longest section", sized(&s, length));
    }
    let shows = "a length of 65,537 that octets 1-4 deny";
    case(cases, shows, resized(&s, 65537));
}

/// 7 catches what is shorter than the template's total.
fn short_or_long(cases: &mut Cases) {
    for (t, total) in [(0, 24), (1, 25), (2, 26)] {
        for (length, stated) in [
            (total - 1, "refused 7 1 0 ".to_string()),
            (total + 1, format!("refused 21 1 {} ", total + 1)),
            (65536, format!("refused 21 1 {} ", total + 1)),
        ] {
            let asked = Asked::Section(1, sized(&of_template(Some(t)), length));
            cases.stated("short or long, with the place", asked, &stated);
        }
    }
}

fn numbers(cases: &mut Cases) {
    let s = of_template(Some(0));
    for number in [0, 2, 3, 7, 129, 255] {
        case(cases, "a wrong section number", with(&s, &[(5, number)]));
    }
    for template in [0, 1, 2, 3, 4, 255, 256, 258, 0x8001, 65535] {
        for length in [23, 24, 25, 26, 30] {
            let s = with_number(&sized(&s, length), 22, 23, template);
            case(cases, "template numbers, listed and not", s);
        }
    }
}

fn times(cases: &mut Cases) {
    for field in MONTH_TO_SECOND {
        let Rule::Within(least, most) = field.rule else {
            panic!("each has a range");
        };
        let edges = vec![0, least, least + 1, most - 1, most, most + 1, 127, 128, 255];
        for number in rising(edges) {
            let s = plain(&[(field.first, number as u8)]);
            case(cases, &format!("the {}", field.name), s);
        }
    }
    let shows = "day 31 in February, and a second of 60";
    case(cases, shows, plain(&[(15, 2), (16, 31)]));
    case(cases, shows, plain(&[(19, 60)]));
}

const ENDS: [u16; 10] = [
    0, 1, 0x7ffe, 0x7fff, 0x8000, 0x8001, 0x8002, 0xfffd, 0xfffe, 0xffff,
];

fn years(cases: &mut Cases) {
    for template in [None, Some(0)] {
        for year in ENDS.into_iter().chain([2024, 9999, 10000]) {
            let s = section(template, year, 0, 0);
            case(cases, "years without an offset", s);
        }
    }
    for t in [1, 2] {
        let shows = format!("years and offsets of template 1.{t}");
        for year in ENDS {
            for offset in ENDS {
                case(cases, &shows, with_years(t, year, offset));
            }
        }
    }
}

fn raw(cases: &mut Cases) {
    for calendar in [0, 1, 3, 192, 255] {
        case(cases, "calendars", section(Some(0), 2024, 0, calendar));
        case(cases, "calendars", section(Some(2), 2024, 0x0102, calendar));
    }
    for at in [6, 7, 8, 9, 10, 11, 12, 20, 21] {
        for octet in [0, 255] {
            let s = with(&of_template(Some(1)), &[(at, octet)]);
            case(cases, "raw numbers at both ends", s);
        }
    }
}

fn several(cases: &mut Cases) {
    let with = |template, year, offset, octets: &[(usize, u8)]| {
        with(&with_years(template, year, offset), octets)
    };
    for s in [
        with(2, 0xffff, 0xffff, &[(15, 0), (19, 60)]),
        with(2, 2024, 0xffff, &[(17, 24), (18, 60)]),
        with(1, 2024, 0xffff, &[(16, 0), (15, 13)]),
        with(1, 2024, 0xffff, &[]),
    ] {
        case(cases, "several bad fields: the lowest", s);
    }
    for s in [
        sized(&with(0, 2024, 0, &[(15, 0)]), 27),
        sized(&with(2, 2024, 0xffff, &[]), 30),
        sized(&with(2, 2024, 0, &[(15, 0)]), 25),
        with(0, 2024, 0, &[(5, 3), (15, 0)]),
        with(0, 2024, 0, &[(4, 0), (5, 3)]),
        sized(&with(0, 2024, 0, &[(22, 9), (15, 0)]), 24),
    ] {
        case(cases, "several reasons: the lowest number", s);
    }
}

pub fn add(cases: &mut Cases) {
    cases.begin("section 1: ");
    examples_of_document(cases);
    for template in [None, Some(0), Some(1), Some(2)] {
        case(cases, "each form", of_template(template));
    }
    lengths(cases);
    short_or_long(cases);
    numbers(cases);
    times(cases);
    years(cases);
    raw(cases);
    several(cases);
}
