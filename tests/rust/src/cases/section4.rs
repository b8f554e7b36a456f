//! Section 4, on both sides of every rule.
use super::build::{resized, rising, sized, with, with_fields, with_number, ONES};
use super::{Asked, Cases};
use crate::generate::sections::{close, put};
use crate::reference::octets::all_ones;
use crate::reference::product::{Template, NV_AT, TEMPLATES};
use crate::reference::table::{rows, Field, Rule};

pub fn template(number: u64) -> &'static Template {
    let mut listed = TEMPLATES.iter();
    let found = listed.find(|template| template.number == number);
    found.expect("a listed template")
}

/// One that document 01 accepts, with these counts, where its template has them; its octets are all different as far as they go.
pub fn section(number: u64, n: u8, members: u8, nv: u16) -> Vec<u8> {
    let Template {
        octets,
        n_at,
        nc_at,
        ..
    } = *template(number);
    let ranges = n_at.map_or(0, |_| 12 * usize::from(n));
    let listed = nc_at.map_or(0, |_| usize::from(members));
    let total = octets + ranges + listed + 4 * usize::from(nv);
    let mut s: Vec<u8> = (0..total).map(|i| ((7 * i + 1) % 251) as u8).collect();
    close(&mut s);
    put(&mut s, 5, 5, 4);
    put(&mut s, NV_AT, 7, nv.into());
    put(&mut s, 8, 9, number);
    if let Some(at) = n_at {
        s[at - 8..at].copy_from_slice(&[7, 232, 3, 7, 18, 30, 45, n]);
    }
    if let Some(at) = nc_at {
        s[at - 1] = members;
    }
    s
}

/// With n = 1 and no lists.
pub fn smallest(number: u64) -> Vec<u8> {
    section(number, 1, 0, 0)
}

/// The same with these numbers in the fields that begin at these octets.
pub fn with_numbers(number: u64, numbers: &[(usize, u64)]) -> Vec<u8> {
    with_fields(&smallest(number), template(number).blocks, numbers)
}

fn case(cases: &mut Cases, shows: &str, s: Vec<u8>) {
    cases.add(shows, Asked::Section(4, s));
}

fn examples_of_document(cases: &mut Cases) {
    let mut example = |s, stated| {
        cases.stated("the examples of document 01", Asked::Section(4, s), stated);
    };
    let listed = section(8, 2, 0, 2);
    example(listed.clone(), "read 27 78 4 ");
    example(sized(&listed, 77), "refused 11 4 78 ");
    example(sized(&listed, 79), "refused 21 4 79 ");
    example(smallest(11), "read 30 61 4 ");
    example(sized(&smallest(11), 58), "refused 7 4 0 ");
    example(section(14, 1, 5, 0), "read 42 93 4 ");
    example(smallest(4), "read 34 64 4 ");
}

fn counts(cases: &mut Cases) {
    for template in TEMPLATES {
        let t = template.number;
        let shows = format!("template 4.{t} with its counts");
        let ranges: &[u8] = template.n_at.map_or(&[1], |_| &[1, 2, 3, 7]);
        let members: &[u8] = template.nc_at.map_or(&[0], |_| &[0, 1, 5]);
        for &n in ranges {
            for &members in members {
                for nv in [0, 1, 2, 9] {
                    case(cases, &shows, section(t, n, members, nv));
                }
            }
        }
    }
    for (t, n, members, nv) in [
        (8, 255, 0, 0),
        (14, 255, 255, 3),
        (4, 1, 255, 1),
        (46, 255, 0, 1),
    ] {
        case(cases, "the greatest counts", section(t, n, members, nv));
    }
}

fn lengths(cases: &mut Cases) {
    for template in TEMPLATES {
        let (t, octets, least) = (template.number, template.octets, template.smallest());
        let shows = format!("template 4.{t} cut to, or with a tail to, other lengths");
        for length in [
            8,
            9,
            10,
            octets - 1,
            octets,
            least - 1,
            least,
            least + 1,
            least + 4,
        ] {
            case(cases, &shows, sized(&smallest(t), length));
        }
        let shows = format!("template 4.{t} with its lists, shorter and longer");
        let whole = section(t, 2, 3, 2);
        for longer in [-8, -4, -1, 1, 4, 12] {
            let length = whole.len().checked_add_signed(longer);
            case(cases, &shows, sized(&whole, length.expect("a length")));
        }
    }
    let s = smallest(0);
    for length in 0..10 {
        case(cases, "the head of a section", sized(&s, length));
    }
    for length in [5, 33, 35] {
        let shows = "octets 1-4 differ from the lent length";
        case(cases, shows, resized(&s, length));
    }
    for (nv, length) in [(16368, 65536), (16368, 65537), (0, 65537)] {
        let s = with_numbers(4, &[(NV_AT, nv)]);
        case(cases, "the longest section", sized(&s, length));
    }
    let shows = "a length of 65,537 that octets 1-4 deny";
    case(cases, shows, resized(&s, 65537));
}

/// By one octet, also where the section is as long as one may be, and by more.
fn short_or_long(cases: &mut Cases) {
    let mut case = |s, stated: &str| {
        let shows = "short or long, with the place";
        cases.stated(shows, Asked::Section(4, s), stated);
    };
    for template in TEMPLATES {
        let whole = section(template.number, 2, 3, 2);
        let total = whole.len();
        let longer = format!("refused 21 4 {} ", total + 1);
        case(sized(&whole, total - 1), &format!("refused 11 4 {total} "));
        case(sized(&whole, total + 1), &longer);
        case(sized(&whole, 65536), &longer);
    }
    // 37 + 4 x 16,375 octets, and 47 + 4 x 16,372.
    let of_65537 = with_numbers(1, &[(NV_AT, 16375)]);
    let of_65535 = with_numbers(5, &[(NV_AT, 16372)]);
    case(sized(&of_65537, 65536), "refused 11 4 65537 ");
    case(sized(&of_65537, 65535), "refused 11 4 65536 ");
    case(sized(&of_65535, 65536), "refused 21 4 65536 ");
}

fn numbers(cases: &mut Cases) {
    for number in [0, 1, 3, 5, 132, 255] {
        let s = with(&smallest(0), &[(5, number)]);
        case(cases, "a wrong section number", s);
    }
    let unlisted = [45, 46, 47, 67, 255, 256, 264, 0x8000, 65535];
    for template in (0..16).chain(unlisted) {
        for length in [9, 34, 58, 71] {
            let s = with_number(&smallest(8), 8, 9, template);
            case(cases, "template numbers, listed and not", sized(&s, length));
        }
    }
}

fn forecast_times(cases: &mut Cases) {
    for (t, at) in [(0, 19), (46, 32)] {
        let shows = format!("the forecast time of 4.{t}");
        let ends = [0, 1, 0x7fff_ffff - 1, 0x7fff_ffff];
        let negative = [0x8000_0000, 0x8000_0001, ONES - 1, ONES];
        for number in ends.into_iter().chain(negative) {
            case(cases, &shows, with_numbers(t, &[(at, number)]));
        }
    }
}

/// Month to second of the end of the interval.
fn ranged(template: &Template) -> impl Iterator<Item = (Field, u64, u64)> {
    rows(template.blocks).filter_map(|field| match field.rule {
        Rule::Within(least, most) => Some((field, least, most)),
        _ => None,
    })
}

fn intervals(cases: &mut Cases) {
    for template in TEMPLATES {
        let Some(n_at) = template.n_at else {
            continue;
        };
        let t = template.number;
        let shows = format!("the year of the end of the interval of 4.{t}");
        for year in [0, 0x7fff, 0x8000, 0xfffe, 0xffff] {
            case(cases, &shows, with_numbers(t, &[(n_at - 7, year)]));
        }
        for (field, least, most) in ranged(template) {
            let shows = format!("the {} of the end of the interval of 4.{t}", field.name);
            for number in rising(vec![0, least, most, most + 1, 255]) {
                case(cases, &shows, with_numbers(t, &[(field.first, number)]));
            }
        }
        case(cases, "n is 0", with_numbers(t, &[(n_at, 0)]));
        let all_missing = with_numbers(t, &[(n_at + 1, ONES)]);
        case(cases, "the missing count", all_missing);
    }
}

fn missing(cases: &mut Cases) {
    for template in TEMPLATES {
        let t = template.number;
        let shows = format!("numbers of 4.{t} that may be missing");
        let may_be = |field: &Field| matches!(field.rule, Rule::OrMissing | Rule::SignedOrMissing);
        for field in rows(template.blocks).filter(may_be) {
            let ones = all_ones(field.octets());
            let sign = ones / 2 + 1;
            let edges = [0, 1, sign - 1, sign, sign + 1, ones - 1, ones];
            // All blocks stand in these three.
            let edges = if [0, 5, 46].contains(&t) {
                &edges[..]
            } else {
                &[ones]
            };
            for &number in edges {
                case(cases, &shows, with_numbers(t, &[(field.first, number)]));
            }
        }
    }
}

fn raw(cases: &mut Cases) {
    let s = section(14, 1, 1, 0);
    let blocks = template(14).blocks;
    let is_raw = |field: &Field| field.rule == Rule::Raw && field.name != "Nc";
    let of_parts = |field: &Field| (10..=64).contains(&field.first);
    for field in rows(blocks).filter(is_raw).filter(of_parts) {
        for number in [0, all_ones(field.octets())] {
            let s = with_fields(&s, blocks, &[(field.first, number)]);
            case(cases, "raw numbers at both ends", s);
        }
    }
}

fn several(cases: &mut Cases) {
    for s in [
        with_numbers(8, &[(19, ONES), (35, 0xffff), (41, 60)]),
        with_numbers(8, &[(35, 0xffff), (37, 13), (41, 60)]),
        with_numbers(8, &[(39, 24), (40, 60), (41, 60)]),
        with_numbers(46, &[(32, ONES), (50, 0)]),
    ] {
        case(cases, "several bad fields: the lowest", s);
    }
    let with = |octets: &[(usize, u8)]| with(&smallest(8), octets);
    for s in [
        with(&[(41, 60), (42, 0)]),
        sized(&with(&[(42, 0)]), 60),
        sized(&with(&[(37, 0)]), 60),
        sized(&with(&[(37, 0)]), 57),
        sized(&with(&[(9, 2), (37, 0)]), 57),
        with(&[(5, 3), (9, 2)]),
        with(&[(4, 0), (5, 3)]),
    ] {
        case(cases, "several reasons: the lowest number", s);
    }
}

pub fn add(cases: &mut Cases) {
    cases.begin("section 4: ");
    examples_of_document(cases);
    counts(cases);
    lengths(cases);
    short_or_long(cases);
    numbers(cases);
    forecast_times(cases);
    intervals(cases);
    missing(cases);
    raw(cases);
    several(cases);
}
