//! Filing and joining: histories that end with what each slot holds.
use super::build::{sized, with};
use super::section1::{self, of_template, plain, with_years};
use super::section3::grid;
use super::section4::smallest;
use super::section5::{five, seven};
use super::{Asked, Cases};
use crate::generate::Rng;

/// The greatest issue.
pub const TOP: u32 = u32::MAX;

/// The sections of a field.
pub type Sections = [Vec<u8>; 5];

/// A field that is accepted, of the smallest sections.
pub fn good() -> Sections {
    let packed = seven(&[0, 1, 2, 3, 4]);
    [
        of_template(None),
        grid(0).octets(),
        smallest(0),
        five(12, 3),
        packed,
    ]
}

/// Places in a field.
pub const ONE: usize = 0;
pub const THREE: usize = 1;
pub const FOUR: usize = 2;
pub const FIVE: usize = 3;
pub const SEVEN: usize = 4;

/// The good field but for the sections that are given.
pub fn good_but(given: &[(usize, Vec<u8>)]) -> Sections {
    let mut sections = good();
    for (at, section) in given {
        sections[*at] = section.clone();
    }
    sections
}

/// Scanning modes: even rows are offset, and with bit 8 they have a point less.
pub const EVEN_ROWS: u64 = 64 + 4;
pub const SHORTER_EVEN_ROWS: u64 = EVEN_ROWS + 1;

/// A field of eleven points, where Ni is 4 and Nj is 3: as many as there are where even rows have a point less.
pub fn eleven(mode: u64) -> Sections {
    good_but(&[
        (THREE, grid(0).scanned(mode, 11)),
        (FIVE, five(11, 3)),
        (SEVEN, seven(&[7; 5])),
    ])
}

fn filed(slot: u64, issue: impl Into<Option<u32>>, given: &[(usize, Vec<u8>)]) -> Asked {
    Asked::Filing(slot, issue.into(), good_but(given))
}

fn with_one(slot: u64, issue: u32, one: Vec<u8>) -> Asked {
    filed(slot, issue, &[(ONE, one)])
}

fn with_four(slot: u64, issue: u32, four: Vec<u8>) -> Asked {
    filed(slot, issue, &[(FOUR, four)])
}

/// From two empty shelves; what the shelf holds is shown after each order.
fn history(cases: &mut Cases, shows: &str, orders: impl IntoIterator<Item = Asked>) {
    for order in [Asked::Empty, Asked::ChangeOver, Asked::Empty] {
        cases.add(shows, order);
    }
    for order in orders {
        cases.add(shows, order);
        cases.add(shows, Asked::Show);
    }
}

fn slots_and_issues(cases: &mut Cases) {
    let top = u64::from(TOP);
    let slots = [0, 1, 62, 63, 64, 65, 255, 256, 320, 65536, top, top + 1];
    history(cases, "slots", slots.map(|slot| filed(slot, 0, &[])));
    let mut issues = |shows, issues: &[Option<u32>]| {
        let orders = issues.iter().map(|&issue| filed(5, issue, &[]));
        history(cases, shows, orders);
    };
    let all = [1, 0, 2, 2, TOP, TOP - 1].map(Some);
    let shows = "the issue, and none named";
    issues(shows, &[&all[..2], &[None], &all[2..]].concat());
    issues("none named is issue 0", &[None, Some(0), Some(1), None]);
    let reload = |slot| Asked::BenchReload(slot, good());
    let shows = "the bench reload names no issue";
    let orders = [filed(5, 0, &[]), reload(5), filed(5, 3, &[]), reload(5)];
    history(cases, shows, orders);
    let shows = "the bench reload to an empty slot";
    history(
        cases,
        shows,
        [reload(9), filed(9, 0, &[]), filed(9, 1, &[])],
    );
    history(
        cases,
        "the listing's example",
        listing_example().map(|(issue, one)| filed(7, issue, &[(ONE, one), (FOUR, smallest(8))])),
    );
}

/// Issue and section 1 of the two records of document 01's listing.
pub fn listing_example() -> [(u32, Vec<u8>); 2] {
    let at = |day, hour| plain(&[(16, day), (17, hour), (18, 0), (19, 0)]);
    [(40, at(7, 0)), (41, at(5, 12))]
}

/// What decides between two reference times, each with a section 1 that is later by it.
fn later() -> [(&'static str, Vec<u8>); 6] {
    [
        ("year", section1::section(None, 2025, 0, 0)),
        ("month", plain(&[(15, 4)])),
        ("day", plain(&[(16, 8)])),
        ("hour", plain(&[(17, 19)])),
        ("minute", plain(&[(18, 31)])),
        ("second", plain(&[(19, 46)])),
    ]
}

fn times(cases: &mut Cases) {
    let later = later();
    for (i, (name, greater)) in later.iter().enumerate() {
        for (lower, lesser) in &later[i + 1..] {
            let orders = [lesser, greater, lesser].map(|one| with_one(3, 0, one.clone()));
            history(cases, &format!("a {name} over a {lower}"), orders);
        }
    }
    for (name, greater) in later {
        let orders = [
            filed(3, TOP, &[]),
            with_one(3, 0, greater),
            filed(3, TOP, &[]),
        ];
        history(cases, &format!("a {name} over an issue"), orders);
    }
}

fn products(cases: &mut Cases) {
    let four = smallest(0);
    let lesser = with(&four, &[(10, 0)]);
    let orders = [(1, &four), (2, &lesser), (1, &four)];
    let orders = orders.map(|(issue, four)| with_four(3, issue, four.clone()));
    history(cases, "an issue over the product", orders);
    for at in 10..=34 {
        let shows = format!("a tie that octet {at} of the product decides, as an octet");
        let with = |octet| with_four(3, 1, with(&four, &[(at, octet)]));
        history(cases, &shows, [with(127), with(128), with(127)]);
    }
    let member = smallest(1);
    let other = with(&member, &[(35, 255)]);
    let orders = [member, other].map(|four| with_four(3, 1, four));
    history(cases, "octet 35 does not decide", orders);
    let templates = [8, 0, 9, 1, 46, 4].map(|t| with_four(3, 1, smallest(t)));
    history(cases, "the template is of the product", templates);
}

fn years(cases: &mut Cases) {
    let year = |slot, issue, year, offset| with_one(slot, issue, with_years(1, year, offset));
    let unsigned = |slot, year| with_one(slot, 1, section1::section(None, year, 0, 0));
    let orders = [
        year(2, 0, 0x8005, 0x8001),
        year(2, 0, 0x8004, 0x8001),
        year(2, 0, 5, 0),
        year(2, 9, 0xfffe, 0xfffe),
    ];
    history(cases, "years below zero", orders);
    let orders = [
        year(2, 1, 10007, 0),
        year(2, 1, 7, 1),
        year(2, 2, 7, 1),
        unsigned(2, 10007),
    ];
    history(cases, "the same year written in two ways", orders);
    let orders = [
        year(2, 1, 0x7fff, 0x7fff),
        year(2, 1, 0xfffe, 0xfffe),
        year(1, 1, 0xfffe, 0xfffe),
        unsigned(1, 65534),
    ];
    history(cases, "the ends of the years", orders);
    let of_octet = |at| with_one(2, 0, plain(&[(at, 255)]));
    let orders = [filed(2, 0, &[]), of_octet(6), of_octet(20)];
    history(cases, "centre and status do not decide", orders);
}

/// Sections in which a field is refused, by their places.
fn bad() -> [Vec<Vec<u8>>; 5] {
    let [one, three, four, five_good, seven_good] = good();
    let cut = |s: &[u8]| s[..4].to_vec();
    [
        vec![
            cut(&one),
            sized(&one, 70000),
            with(&one, &[(4, 22)]),
            with(&one, &[(5, 3)]),
            plain(&[(15, 0)]),
        ],
        vec![
            cut(&three),
            with(&three, &[(5, 4)]),
            grid(0).points_are(13),
            grid(0).with(&[(43, 0)]),
        ],
        vec![
            cut(&four),
            with(&four, &[(5, 5)]),
            with(&four, &[(9, 3)]),
            sized(&four, 35),
        ],
        vec![
            cut(&five_good),
            with(&five_good, &[(5, 7)]),
            five(13, 3),
            five(12, 33),
            five(12, 4),
        ],
        vec![
            cut(&seven_good),
            with(&seven_good, &[(5, 5)]),
            with(&seven_good, &[(4, 9)]),
            seven(&[0, 1, 2, 3]),
            seven(&[0, 1, 2, 3, 4, 5]),
        ],
    ]
}

fn refusals(cases: &mut Cases) {
    let bad = bad();
    let mut orders = vec![filed(4, 3, &[])];
    for (at, sections) in bad.iter().enumerate() {
        orders.extend(sections.iter().map(|s| filed(4, 4, &[(at, s.clone())])));
    }
    history(cases, "each refusal of a field", orders);
    let mut orders = vec![];
    for a in 0..5 {
        for b in a + 1..5 {
            for (s, t) in bad[a].iter().zip(&bad[b]) {
                let both = [(a, s.clone()), (b, t.clone())];
                orders.extend([4, 64].map(|slot| filed(slot, 4, &both)));
            }
        }
    }
    history(cases, "the first refusal decides", orders);
    calendars(cases, &bad);
}

fn calendars(cases: &mut Cases, bad: &[Vec<Vec<u8>>; 5]) {
    let calendar = |template, calendar| section1::section(Some(template), 2024, 0, calendar);
    let each = [0, 2].map(|t| [0, 1, 2, 3, 255].map(|number| calendar(t, number)));
    let orders = (0..).zip(each.concat());
    let orders = orders.map(|(issue, one)| with_one(4, issue, one));
    history(cases, "calendars", orders);
    let mut orders = vec![];
    for (at, sections) in bad.iter().enumerate().skip(THREE) {
        for s in sections {
            let both = [(ONE, calendar(0, 1)), (at, s.clone())];
            orders.extend([4, 64].map(|slot| filed(slot, 4, &both)));
        }
    }
    history(cases, "17 after the field", orders);
}

fn some_field(rng: &mut Rng) -> Sections {
    let (year, offset) = (rng.pick(&[5, 0x8005, 2024]), rng.pick(&[0, 1, 0x8001]));
    let time = [(15, rng.pick(&[3, 4])), (19, rng.pick(&[0, 59]))];
    let product = [(10, rng.pick(&[1, 200])), (34, rng.pick(&[1, 200]))];
    good_but(&[
        (ONE, with(&with_years(1, year, offset), &time)),
        (FOUR, with(&smallest(0), &product)),
    ])
}

fn some_order(rng: &mut Rng) -> Asked {
    let orders = if rng.percent(50) {
        "fffffffbjxxe"
    } else {
        "ffffffbjx"
    };
    let slot = rng.pick(&[0, 1, 2, 31, 63]);
    match rng.pick(orders.as_bytes()) {
        b'f' => {
            let issue = rng.pick(&[None, Some(0), Some(1), Some(TOP)]);
            Asked::Filing(slot, issue, some_field(rng))
        }
        b'b' => Asked::BenchReload(slot, some_field(rng)),
        b'j' => Asked::Join,
        b'x' => Asked::ChangeOver,
        _ => Asked::Empty,
    }
}

/// The places of four things, in every order.
fn orders_of_four() -> Vec<[usize; 4]> {
    let mut orders = vec![];
    for a in 0..4 {
        for b in (0..4).filter(|&b| b != a) {
            for c in (0..4).filter(|&c| c != a && c != b) {
                orders.push([a, b, c, 6 - a - b - c]);
            }
        }
    }
    orders
}

fn joins(cases: &mut Cases) {
    let newer = |issue| with_one(1, issue, section1::section(None, 2025, 0, 0));
    let four = [
        filed(1, 2, &[]),
        newer(1),
        filed(1, 1, &[]),
        filed(0, None, &[]),
    ];
    for order in orders_of_four() {
        let shows = "the same fields in any order";
        history(cases, shows, order.map(|at| four[at].clone()));
    }
    let a = [filed(1, 2, &[]), filed(63, 1, &[]), filed(2, 7, &[])];
    let b = [filed(1, 3, &[]), filed(63, 0, &[]), filed(9, None, &[])];
    let (over, join) = ([Asked::ChangeOver], [Asked::Join]);
    let orders = [&a[..], &over, &b, &join, &join].concat();
    history(cases, "joined one way", orders);
    let orders = [&b[..], &over, &a, &join, &join].concat();
    history(cases, "joined the other way", orders);
    let shows = "an old queue replayed after a join";
    let orders = [&[newer(2)][..], &over, &a, &join, &a, &over, &join, &b].concat();
    history(cases, shows, orders);
}

pub fn add(cases: &mut Cases) {
    cases.begin("shelves: ");
    slots_and_issues(cases);
    times(cases);
    products(cases);
    years(cases);
    refusals(cases);
    for seed in 0..12 {
        let rng = &mut Rng::of_input(seed, 5);
        let orders: Vec<Asked> = (0..43).map(|_| some_order(rng)).collect();
        history(cases, &format!("any orders, {seed}"), orders);
    }
    joins(cases);
}
