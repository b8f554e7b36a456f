//! Section 3, on both sides of every rule.
use super::build::{resized, sized, with_fields, with_number, ONES};
use super::{Asked, Cases};
use crate::generate::sections::{close, put};
use crate::reference::grid::{
    Template, DI_AT, DJ_AT, NI_AT, NJ_AT, POINTS_AT, SCANNING_MODE_AT, TEMPLATES,
};
use crate::reference::table::{rows, Rule};

/// The counts and the list of a section, which is accepted as it stands here.
#[derive(Clone)]
pub struct Grid {
    pub template: usize,
    pub ni: u64,
    pub nj: u64,
    /// Those that the counts or the list give, if not others.
    pub points: Option<u64>,
    pub width: u64,
    /// 1 with a list and 0 without, if not another.
    pub interpretation: Option<u64>,
    pub list: Vec<u64>,
}

pub fn grid(template: usize) -> Grid {
    Grid {
        template,
        ni: 4,
        nj: 3,
        points: None,
        width: 0,
        interpretation: None,
        list: vec![],
    }
}

/// Which of Ni and Nj is missing.
#[derive(Clone, Copy)]
pub enum Without {
    Ni,
    Nj,
}

const EITHER: [Without; 2] = [Without::Ni, Without::Nj];

pub fn with_list(template: usize, width: u64, list: &[u64], without: Without) -> Grid {
    let count = list.len() as u64;
    let (ni, nj) = match without {
        Without::Ni => (ONES, count),
        Without::Nj => (count, ONES),
    };
    let list = list.to_vec();
    Grid {
        ni,
        nj,
        width,
        list,
        ..grid(template)
    }
}

/// Document 01's list.
fn document(width: u64) -> Grid {
    with_list(0, width, &[4, 6, 4], Without::Ni)
}

/// A list of which only the first number is not 0.
fn long_list(count: usize) -> Vec<u64> {
    let mut list = vec![0; count];
    list[0] = 9;
    list
}

impl Grid {
    fn points(&self) -> u64 {
        let counted = match self.width {
            0 => self.ni * self.nj,
            _ => self.list.iter().sum(),
        };
        self.points.unwrap_or(counted & ONES)
    }

    /// The fields in front of the poles that are not left at zero; an increment is missing where its count is.
    fn fields(&self) -> Vec<(usize, u64)> {
        let increment = |count, increment| if count == ONES { ONES } else { increment };
        let with_list = u64::from(self.width != 0);
        let interpretation = self.interpretation.unwrap_or(with_list);
        let mut fields = vec![(5, 3), (POINTS_AT, self.points())];
        fields.extend([(11, self.width), (12, interpretation)]);
        fields.extend([(13, self.template as u64), (15, 1), (16, 2), (17, 6371229)]);
        fields.extend([(21, 255), (22, ONES), (26, 255), (27, ONES)]);
        fields.extend([(NI_AT, self.ni), (NJ_AT, self.nj), (43, ONES)]);
        fields.extend([(47, 60000000), (51, 0x8000_0000 + 5000000), (55, 48)]);
        fields.extend([(56, 50000000), (60, 15000000), (SCANNING_MODE_AT, 64)]);
        fields.push((DI_AT, increment(self.ni, 250000)));
        fields.push((DJ_AT, increment(self.nj, 500000)));
        fields
    }

    pub fn octets(&self) -> Vec<u8> {
        let Template {
            base_end, blocks, ..
        } = TEMPLATES[self.template];
        let mut s = with_fields(&vec![0; base_end], blocks, &self.fields());
        for at in (73..base_end).step_by(4) {
            put(&mut s, at, at + 3, at as u64 * 1000003);
        }
        for number in &self.list {
            s.extend(&number.to_be_bytes()[8 - self.width as usize..]);
        }
        close(&mut s);
        s
    }

    /// With these numbers in the fields that begin at these octets.
    pub fn with(&self, fields: &[(usize, u64)]) -> Vec<u8> {
        with_fields(&self.octets(), TEMPLATES[self.template].blocks, fields)
    }

    pub fn points_are(self, points: u64) -> Vec<u8> {
        let points = Some(points);
        Grid { points, ..self }.octets()
    }

    /// With this scanning mode, and so many points.
    pub fn scanned(self, mode: u64, points: u64) -> Vec<u8> {
        let points = Some(points);
        Grid { points, ..self }.with(&[(SCANNING_MODE_AT, mode)])
    }

    fn interpretation_is(self, interpretation: u64) -> Grid {
        let interpretation = Some(interpretation);
        Grid {
            interpretation,
            ..self
        }
    }
}

fn case(cases: &mut Cases, shows: &str, s: Vec<u8>) {
    cases.add(shows, Asked::Section(3, s));
}

fn examples_of_document(cases: &mut Cases) {
    let mut example = |s, stated| {
        cases.stated("the examples of document 01", Asked::Section(3, s), stated);
    };
    example(document(2).octets(), "read 26 78 3 0 14 ");
    example(grid(0).octets(), "read 26 72 3 0 12 ");
    example(grid(0).points_are(13), "refused 13 3 0 ");
}

/// Each template with document 01's list, in each width and along either side.
fn with_each_list() -> Vec<Grid> {
    let mut all = vec![];
    for template in 0..4 {
        for width in [1, 2, 4] {
            let list = |without| with_list(template, width, &[4, 6, 4], without);
            all.extend(EITHER.map(list));
        }
    }
    all
}

fn templates(cases: &mut Cases) {
    for t in 0..4 {
        case(cases, "each template, with no list", grid(t).octets());
    }
    for grid in with_each_list() {
        let shows = "each template, width and missing number";
        case(cases, shows, grid.octets());
    }
    for width in [1, 2, 4] {
        for without in EITHER {
            let shows = "a list of one number, and a long one";
            case(cases, shows, with_list(3, width, &[7], without).octets());
            let long = with_list(3, width, &long_list(300), without);
            case(cases, shows, long.octets());
        }
    }
}

fn lengths(cases: &mut Cases) {
    let s = grid(0).octets();
    for length in 0..=16 {
        let shows = "template 3.0 cut to 0 to 16 octets";
        case(cases, shows, sized(&s, length));
    }
    for t in 0..4 {
        for length in [71, 72, 73, 83, 84, 85, 95, 96, 97] {
            let shows = "each template cut, or with a tail, around each base end";
            case(cases, shows, sized(&grid(t).octets(), length));
        }
    }
    let shows = "octets 1-4 differ from the lent length";
    for length in [5, 13, 14, 71] {
        case(cases, shows, resized(&s, length));
    }
    case(cases, shows, grid(0).with(&[(1, 73)]));
    let of_base = [
        (1, 65463),
        (1, 65464),
        (1, 65465),
        (2, 32732),
        (2, 32733),
        (4, 16366),
        (4, 16367),
    ];
    for (width, count) in of_base {
        let grid = with_list(0, width, &long_list(count), Without::Ni);
        case(cases, "the longest section", grid.octets());
    }
    for (width, count) in [(1, 65440), (1, 65441), (4, 16360), (4, 16361)] {
        let grid = with_list(3, width, &long_list(count), Without::Nj);
        case(cases, "the longest section", grid.octets());
    }
}

/// By one octet, also where the section is as long as one may be, and by more.
fn short_or_long(cases: &mut Cases) {
    let mut case = |s, stated: &str| {
        let shows = "short or long, with the place";
        cases.stated(shows, Asked::Section(3, s), stated);
    };
    let listed = document(2).octets();
    case(sized(&listed, 72), "refused 11 3 73 ");
    case(sized(&listed, 77), "refused 11 3 78 ");
    case(sized(&listed, 79), "refused 21 3 79 ");
    case(sized(&listed, 65536), "refused 21 3 79 ");
    for (t, base_end) in [(0, 72), (1, 84), (2, 84), (3, 96)] {
        let s = grid(t).octets();
        let longer = format!("refused 21 3 {} ", base_end + 1);
        case(sized(&s, base_end - 1), "refused 7 3 0 ");
        case(sized(&s, base_end + 1), &longer);
        case(sized(&s, 65536), &longer);
        let list = |total| with_list(t, 1, &long_list(total - base_end), Without::Nj);
        case(sized(&list(65535).octets(), 65536), "refused 21 3 65536 ");
        case(sized(&list(65537).octets(), 65536), "refused 11 3 65537 ");
    }
}

/// 21 is above 13, and is tested where 11 is.
fn before_the_points(cases: &mut Cases) {
    let listed = document(2).points_are(12);
    for (s, stated) in [
        (sized(&grid(1).points_are(1), 85), "refused 21 3 85 "),
        (sized(&listed, 77), "refused 11 3 78 "),
        (sized(&listed, 79), "refused 21 3 79 "),
        (listed.clone(), "refused 13 3 0 "),
    ] {
        let shows = "several reasons: 11 and 21 before 13";
        cases.stated(shows, Asked::Section(3, s), stated);
    }
}

fn numbers(cases: &mut Cases) {
    for number in [0, 1, 2, 4, 131, 255] {
        let s = grid(0).with(&[(5, number)]);
        case(cases, "a wrong section number", s);
    }
    for template in [0, 1, 2, 3, 4, 5, 255, 256, 257, 0x8000, 65535] {
        for length in [14, 72, 96] {
            let s = with_number(&sized(&grid(3).octets(), length), 13, 14, template);
            case(cases, "template numbers, listed and not", s);
        }
    }
}

fn front(cases: &mut Cases) {
    for source in [0, 1, 2, 128, 255] {
        case(cases, "the source", grid(0).with(&[(6, source)]));
    }
    let of_width = |width, interpretation| {
        let points = Some(12);
        let grid = Grid {
            width,
            points,
            interpretation,
            ..grid(0)
        };
        grid.octets()
    };
    for width in 0..9 {
        for interpretation in [0, 1] {
            let s = of_width(width, Some(interpretation));
            case(cases, "the list width", s);
        }
    }
    for width in [16, 127, 128, 254, 255] {
        case(cases, "the list width", of_width(width, None));
    }
    for number in [0, 1, 2, 3, 4, 127, 128, 254, 255] {
        let shows = "the list interpretation";
        case(cases, shows, grid(0).interpretation_is(number).octets());
        let listed = with_list(1, 2, &[4, 6, 4], Without::Ni);
        case(cases, shows, listed.interpretation_is(number).octets());
    }
}

/// Numbers of four octets at the ends, and where the sign is.
const ENDS: [u64; 5] = [0, 0x7fff_ffff, 0x8000_0000, ONES - 1, ONES];

fn counts(cases: &mut Cases) {
    for without in EITHER {
        for count in [0, 1, 2, 0x7fff_ffff, 0x8000_0000, ONES - 1, ONES] {
            let shows = "Ni and Nj without a list";
            let grid = match without {
                Without::Ni => Grid {
                    ni: count,
                    ..grid(0)
                },
                Without::Nj => Grid {
                    nj: count,
                    ..grid(0)
                },
            };
            case(cases, shows, grid.octets());
            case(cases, shows, grid.points_are(12));
        }
    }
    for number in [0, 1, 0x7fff_ffff, 0x8000_0000, ONES - 1, ONES] {
        case(cases, "the subdivisions", grid(0).with(&[(43, number)]));
    }
}

fn signed(cases: &mut Cases) {
    for t in 0..4 {
        let shows = format!("signed fields of template 3.{t}, never missing");
        // Those in front of the poles stand in all four, so that two are enough.
        let first = if t == 0 || t == 3 { 1 } else { 73 };
        let signed = rows(TEMPLATES[t].blocks).filter(|field| field.rule == Rule::Signed);
        for field in signed.filter(|field| field.first >= first) {
            for number in [0x7fff_ffff, 0x8000_0000, 0x8000_0001, ONES - 1, ONES] {
                case(cases, &shows, grid(t).with(&[(field.first, number)]));
            }
        }
    }
}

fn raw(cases: &mut Cases) {
    for at in [15, 16, 21, 26, 55, 72] {
        for octet in [0, 127, 128, 254, 255] {
            let shows = "raw octets, and scale factors of the earth";
            case(cases, shows, grid(2).with(&[(at, octet)]));
        }
    }
    let mut ends = |shows, t, at| {
        for number in ENDS {
            case(cases, shows, grid(t).with(&[(at, number)]));
        }
    };
    for at in [17, 22, 27, 39, DI_AT, DJ_AT] {
        let shows = "raw numbers, values of the earth, increments without a list";
        ends(shows, 2, at);
    }
    for (t, at) in [(1, 81), (2, 81), (3, 81), (3, 93)] {
        let shows = "the angle of rotation and the stretching factor are raw";
        ends(shows, t, at);
    }
}

/// Every combination of what has to go together.
fn agreement(cases: &mut Cases) {
    for width in [0, 1, 2, 4] {
        let (list, points, interpretations) = match width {
            0 => (vec![], 4, &[0, 1, 2][..]),
            2 => (vec![3, 5], 8, &[0, 1, 2][..]),
            _ => (vec![3, 5], 8, &[1][..]),
        };
        for missing in 0..16 {
            let is_missing = |bit: u32, present| match missing >> bit & 1 {
                0 => present,
                _ => ONES,
            };
            for &interpretation in interpretations {
                let grid = Grid {
                    template: 0,
                    ni: is_missing(3, 2),
                    nj: is_missing(2, 2),
                    points: Some(points),
                    width,
                    interpretation: Some(interpretation),
                    list: list.clone(),
                };
                let s = grid.with(&[(DI_AT, is_missing(1, 1)), (DJ_AT, is_missing(0, 1))]);
                case(cases, "width, Ni, Nj, Di, Dj and octet 12", s);
            }
        }
    }
}

fn totals(cases: &mut Cases) {
    for grid in with_each_list() {
        let s = grid.octets();
        let shows = "the total one short and one long";
        case(cases, shows, sized(&s, s.len() - 1));
        case(cases, shows, sized(&s, s.len() + 1));
    }
    for width in [1, 2, 4] {
        for nj in [4, 2] {
            let shows = "a list of one number too few, and of one too many";
            case(
                cases,
                shows,
                Grid {
                    nj,
                    ..document(width)
                }
                .octets(),
            );
        }
    }
    let round = [
        (1, ONES - 1),
        (2, ONES - 1),
        (4, ONES - 1),
        (4, 0x4000_0000),
        (2, 0x8000_0000),
        (4, 0x3fff_ffff),
    ];
    for (width, count) in round {
        let none = |without| with_list(0, width, &[], without);
        let rows = Grid {
            nj: count,
            ..none(Without::Ni)
        };
        let columns = Grid {
            ni: count,
            ..none(Without::Nj)
        };
        for grid in [rows, columns] {
            let shows = "a count whose octets go round 32 bits";
            case(cases, shows, grid.octets());
        }
    }
}

fn points(cases: &mut Cases) {
    for points in [0, 11, 12, 13, ONES] {
        case(cases, "points and Ni x Nj", grid(0).points_are(points));
    }
    for points in [0, 13, 14, 15, ONES] {
        let along_columns = with_list(3, 4, &[4, 6, 4], Without::Nj);
        for grid in [document(2), along_columns] {
            let shows = "points and the sum of the list";
            case(cases, shows, grid.points_are(points));
        }
    }
    let products = [
        (65535, 65537, ONES),
        (65536, 65536, 0),
        (65536, 65536, 1),
        (0x8000_0000, 2, 0),
        (ONES - 1, ONES - 1, 4),
        (ONES - 1, 1, ONES - 1),
        (0x10001, 0xffff, ONES),
        (0x8000_0001, 2, 2),
    ];
    for (ni, nj, points) in products {
        let shows = "Ni x Nj above 32 bits is never cut";
        case(cases, shows, Grid { ni, nj, ..grid(0) }.points_are(points));
    }
    let sums: [(&[u64], u64); 9] = [
        (&[ONES - 1, 1], ONES),
        (&[ONES], ONES),
        (&[ONES, 1], 0),
        (&[ONES, 2], 1),
        (&[ONES, ONES], ONES - 1),
        (&[ONES; 3], ONES - 2),
        (&[0x8000_0000, 0x8000_0000], 0),
        (&[ONES; 16000], ONES - 15999),
        (&[0x7fff_ffff, 0x8000_0000], ONES),
    ];
    for (list, points) in sums {
        let grid = with_list(0, 4, list, Without::Ni);
        let shows = "a sum above 32 bits is never cut";
        case(cases, shows, grid.points_are(points));
    }
}

const WITH_BIT_8: [u64; 7] = [1, 5, 9, 65, 127, 129, 255];
const WITHOUT_BIT_8: [u64; 7] = [0, 2, 4, 8, 64, 128, 254];

/// Bit 8 of the scanning mode is the lowest. Set and without a list, octets 7-10 stand as they are.
fn bit_8(cases: &mut Cases) {
    let read = |points| format!("read 26 72 3 0 {points} ");
    let mut case = |shows: &str, s, stated: &str| {
        cases.stated(shows, Asked::Section(3, s), stated);
    };
    let points = [0, 11, 12, 13, ONES];
    for (mode, points) in pairs(&WITH_BIT_8, &points) {
        let shows = "bit 8 of the scanning mode set: any points";
        case(shows, grid(0).scanned(mode, points), &read(points));
    }
    for (mode, points) in pairs(&WITHOUT_BIT_8, &points) {
        let shows = "bit 8 of the scanning mode clear, whatever the others: Ni x Nj";
        let right = read(12);
        let stated = if points == 12 {
            &right
        } else {
            "refused 13 3 0 "
        };
        case(shows, grid(0).scanned(mode, points), stated);
    }
    for (t, values, base_end) in [(1, 29, 84), (2, 29, 84), (3, 32, 96)] {
        let shows = "bit 8 of the scanning mode in the other templates";
        let stated = format!("read {values} {base_end} 3 0 13 ");
        case(shows, grid(t).scanned(1, 13), &stated);
        case(shows, grid(t).scanned(254, 13), "refused 13 3 0 ");
    }
    let shows = "bit 8 of the scanning mode with a list: its sum";
    for grid in with_each_list() {
        case(shows, grid.clone().scanned(1, 14), " 3 0 14 ");
        case(shows, grid.scanned(1, 13), "refused 13 3 0 ");
    }
    for points in [0, 12, 15, ONES] {
        case(shows, document(2).scanned(255, points), "refused 13 3 0 ");
    }
}

fn pairs<'a>(modes: &'a [u64], points: &'a [u64]) -> impl Iterator<Item = (u64, u64)> + 'a {
    let with_points = move |&mode| points.iter().map(move |&points| (mode, points));
    modes.iter().flat_map(with_points)
}

/// Reasons that come before 13 are met with bit 8 as without it.
fn before_bit_8(cases: &mut Cases) {
    let no_ni = Grid {
        ni: ONES,
        ..grid(0)
    };
    let no_nj = Grid { nj: 0, ..grid(0) };
    for (s, stated) in [
        (sized(&grid(1).scanned(1, 13), 83), "refused 7 3 0 "),
        (no_nj.scanned(1, 13), "refused 8 3 35 "),
        (no_ni.scanned(1, 13), "refused 10 3 0 "),
        (sized(&grid(0).scanned(1, 13), 73), "refused 21 3 73 "),
    ] {
        let shows = "bit 8 of the scanning mode: the reasons before 13";
        cases.stated(shows, Asked::Section(3, s), stated);
    }
    let most = Grid {
        ni: ONES - 1,
        nj: ONES - 1,
        ..grid(0)
    };
    let shows = "bit 8 of the scanning mode: the greatest counts";
    let s = most.scanned(1, 12);
    cases.stated(shows, Asked::Section(3, s), "read 26 72 3 0 12 ");
}

fn listed_numbers(cases: &mut Cases) {
    for width in [1, 2, 4] {
        let most: u64 = (1 << (8 * width)) - 1;
        let mut listed = |shows, template, list: &[u64], without| {
            let grid = with_list(template, width, list, without);
            case(cases, shows, grid.octets());
        };
        let shows = "zero in the list";
        listed(shows, 0, &[0, 6, 0], Without::Ni);
        listed(shows, 0, &[0], Without::Nj);
        listed(shows, 0, &[0, 0, 0], Without::Ni);
        let shows = "all ones in the list is just a number";
        let below = if width < 4 { most - 1 } else { 0 };
        listed(shows, 0, &[most], Without::Ni);
        listed(shows, 0, &[most, below, 0], Without::Nj);
        let shows = "big-endian numbers in the list";
        listed(shows, 1, &[1, most / 255, most / 2], Without::Nj);
    }
    let shows = "a big list of octets, and one of pairs";
    let octets = with_list(0, 1, &[255; 60000], Without::Ni);
    case(cases, shows, octets.octets());
    let pairs = with_list(2, 2, &[65535; 30000], Without::Nj);
    case(cases, shows, pairs.octets());
}

fn several(cases: &mut Cases) {
    let ones = |ats: &[usize]| -> Vec<(usize, u64)> { ats.iter().map(|&at| (at, ONES)).collect() };
    let no_ni = |template| Grid {
        ni: ONES,
        ..grid(template)
    };
    let no_nj = Grid { nj: 0, ..grid(3) };
    for s in [
        grid(3).with(&[(6, 1), (31, 0), (60, ONES), (89, ONES)]),
        Grid {
            ni: 0,
            ..no_nj.clone()
        }
        .with(&[(43, 0)]),
        no_nj.with(&[(43, 0), (47, ONES)]),
        grid(3).with(&[(43, 0), (51, ONES)]),
        grid(3).with(&ones(&[51, 47])),
        grid(3).with(&ones(&[60, 56])),
        grid(3).with(&ones(&[73, 77, 85, 89])),
        grid(3).with(&ones(&[77, 85])),
        grid(3).with(&ones(&[89, 85])),
        Grid {
            width: 3,
            ..grid(0)
        }
        .interpretation_is(3)
        .octets(),
    ] {
        case(cases, "several bad fields: the lowest", s);
    }
    let unlisted = with_number(&grid(0).with(&[(6, 1)]), 13, 14, 9);
    for s in [
        sized(&grid(0).with(&[(6, 1)]), 71),
        no_ni(1).with(&[(60, ONES)]),
        sized(&no_ni(1).octets(), 90),
        no_ni(1).points_are(1),
        Grid {
            nj: 3,
            ..with_list(2, 2, &[4, 6], Without::Ni)
        }
        .points_are(1),
        grid(0).with(&[(5, 1), (6, 1)]),
        sized(&unlisted, 20),
    ] {
        case(cases, "several reasons: the lowest number", s);
    }
}

pub fn add(cases: &mut Cases) {
    cases.begin("section 3: ");
    examples_of_document(cases);
    templates(cases);
    lengths(cases);
    short_or_long(cases);
    before_the_points(cases);
    numbers(cases);
    front(cases);
    counts(cases);
    signed(cases);
    raw(cases);
    agreement(cases);
    totals(cases);
    points(cases);
    bit_8(cases);
    before_bit_8(cases);
    listed_numbers(cases);
    several(cases);
}
