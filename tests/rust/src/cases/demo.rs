//! The demonstration queues: fields as a trailer gets them, of a small grid in the north, with values as they are in the air.
use super::build::{sized, with};
use super::queues::record;
use super::shelves::Sections;
use crate::generate::sections::close;

const ONES: [u8; 4] = [255; 4];
const HOUR: u8 = 1;
const POINTS: u8 = 12;
const BITS: u8 = 9;
const GROUND: u8 = 1;
const ABOVE_GROUND: u8 = 103;

/// Day and hour of March 2024 at which a forecast starts.
#[derive(Clone, Copy)]
struct Run(u8, u8);

impl Run {
    /// Year to second, so many hours later in the same month.
    fn time_after(self, hours: u8) -> Vec<u8> {
        let Run(day, hour) = self;
        let hour = hour + hours;
        vec![0x07, 0xe8, 3, day + hour / 24, hour % 24, 0, 0]
    }
}

fn section(number: u8, parts: &[&[u8]]) -> Vec<u8> {
    let mut s = [&[0, 0, 0, 0, number], &parts.concat()[..]].concat();
    close(&mut s);
    s
}

/// Section 1 of a forecast: an operational product of one centre, and no template unless a calendar is named.
fn identification(run: Run, calendar: Option<u8>) -> Vec<u8> {
    let template = calendar.map_or(vec![], |calendar| vec![0, 0, calendar]);
    let head = [0, 88, 0, 0, 30, 0, 1];
    section(1, &[&head, &run.time_after(0), &[0, 1], &template])
}

/// Section 3, template 3.0: four times three points a quarter of a degree apart from 67.75 north 20 east on, a sphere for the earth, no list.
fn grid() -> Vec<u8> {
    let number = |number: u32| number.to_be_bytes();
    let front = [0, 0, 0, 0, POINTS, 0, 0, 0, 0];
    let earth = [&[6][..], &[255; 15]].concat();
    let counts = [number(4), number(3), number(0), ONES].concat();
    let first = [number(67750000), number(20000000)].concat();
    let last = [number(67250000), number(20750000)].concat();
    let apart = [number(250000), number(250000)].concat();
    section(
        3,
        &[&front, &earth, &counts, &first, &[48], &last, &apart, &[0]],
    )
}

/// What the dispatch tablets ask for.
#[derive(Clone, Copy)]
enum What {
    Rain,
    Temperature,
    WindEast,
    WindNorth,
    MemberTemperature,
    GustsAbove20,
    Visibility,
}

/// Section 4 of a forecast for so many hours after the run at one surface, then the template's own part; no second surface, no coordinates.
fn forecast(template: u8, parameter: [u8; 2], hours: u8, surface: [u8; 2], part: &[u8]) -> Vec<u8> {
    let front = [0, 0, 0, template];
    let process = [2, 0, 1, 0, 0, 0, HOUR, 0, 0, 0, hours];
    let [kind, height] = surface;
    let first = [kind, 0, 0, 0, 0, height];
    let second = [255; 6];
    section(4, &[&front, &parameter, &process, &first, &second, part])
}

/// The end of an interval that starts 6 and ends 12 hours after the run, and its one range: an accumulation.
fn accumulation(run: Run) -> Vec<u8> {
    let range = [1, 2, HOUR, 0, 0, 0, 6, 255, 0, 0, 0, 0];
    [&run.time_after(12)[..], &[1, 0, 0, 0, 0], &range].concat()
}

fn product(what: What, run: Run) -> Vec<u8> {
    let high = |metres| [ABOVE_GROUND, metres];
    match what {
        What::Rain => forecast(8, [1, 8], 6, [GROUND, 0], &accumulation(run)),
        What::Temperature => forecast(0, [0, 0], 6, high(2), &[]),
        What::WindEast => forecast(0, [2, 2], 6, high(10), &[]),
        What::WindNorth => forecast(0, [2, 3], 6, high(10), &[]),
        What::MemberTemperature => forecast(1, [0, 0], 12, high(2), &[3, 17, 51]),
        What::GustsAbove20 => {
            let limits = [1, 1, 3, 0, 0, 0, 0, 20, 255, 255, 255, 255, 255];
            forecast(5, [2, 22], 12, high(10), &limits)
        }
        What::Visibility => forecast(0, [19, 0], 6, [GROUND, 0], &[]),
    }
}

/// The reference value, the decimal scale factor and the packed numbers; the value is (reference + number) / 10 ^ factor.
fn values(what: What) -> (f32, i16, [u16; POINTS as usize]) {
    match what {
        What::Rain => (0.0, 1, [0, 0, 2, 5, 0, 3, 14, 22, 1, 9, 31, 40]),
        What::Temperature => {
            let numbers = [113, 115, 118, 121, 110, 112, 116, 119, 104, 108, 113, 117];
            (2600.0, 1, numbers)
        }
        What::WindEast => {
            let numbers = [131, 134, 140, 152, 129, 135, 143, 155, 126, 133, 147, 160];
            (-120.0, 1, numbers)
        }
        What::WindNorth => (-95.0, 1, [40, 43, 51, 60, 38, 44, 50, 63, 35, 41, 52, 66]),
        What::MemberTemperature => {
            let numbers = [98, 101, 103, 107, 97, 99, 102, 105, 93, 96, 101, 104];
            (2600.0, 1, numbers)
        }
        What::GustsAbove20 => (0.0, 0, [4, 6, 10, 16, 4, 8, 12, 20, 2, 6, 14, 24]),
        What::Visibility => {
            let numbers = [300, 310, 295, 280, 120, 90, 60, 45, 15, 20, 33, 40];
            (0.0, -2, numbers)
        }
    }
}

/// The numbers as one string of bits, the most significant first, filled up with zeros to a whole octet.
fn packed(numbers: &[u16]) -> Vec<u8> {
    let digits = numbers.iter().map(|number| format!("{number:09b}"));
    let digits: Vec<u8> = digits.collect::<String>().into();
    let octet = |bits: &[u8]| {
        (0..8).fold(0, |so_far, at| {
            so_far << 1 | u8::from(bits.get(at) == Some(&b'1'))
        })
    };
    digits.chunks(8).map(octet).collect()
}

/// Sections 5 and 7 by simple packing, with a binary scale factor of 0.
fn data(what: What) -> [Vec<u8>; 2] {
    let (reference, decimal, numbers) = values(what);
    let sign = if decimal < 0 { 0x8000 } else { 0 };
    let decimal = (decimal.unsigned_abs() | sign).to_be_bytes();
    let front = [0, 0, 0, POINTS, 0, 0];
    let scaling = [&reference.to_be_bytes()[..], &[0, 0], &decimal].concat();
    let five = section(5, &[&front, &scaling, &[BITS, 0]]);
    [five, section(7, &[&packed(&numbers)])]
}

fn field(what: What, run: Run) -> Sections {
    let [five, seven] = data(what);
    let (one, four) = (identification(run, None), product(what, run));
    [one, grid(), four, five, seven]
}

/// Newer assignments first, and then the whole old queue of a trailer that was dark for two days, replayed over them: the later run
/// holds its slot, whatever the issue, and only the slot that nothing newer was assigned to takes what the trailer had.
pub fn dark_trailer() -> Vec<u8> {
    let newer = [
        (7, Some(40), What::Rain, Run(7, 0)),
        (8, Some(40), What::Temperature, Run(7, 0)),
        (9, Some(41), What::WindEast, Run(7, 12)),
        (10, Some(41), What::WindNorth, Run(7, 12)),
        (12, Some(12), What::MemberTemperature, Run(7, 0)),
        (20, None, What::GustsAbove20, Run(7, 12)),
    ];
    let old = [
        (7, Some(41), What::Rain, Run(5, 12)),
        (8, Some(39), What::Temperature, Run(5, 12)),
        (9, Some(44), What::WindEast, Run(5, 0)),
        (10, Some(44), What::WindNorth, Run(5, 0)),
        (12, Some(57), What::MemberTemperature, Run(5, 0)),
        (20, Some(3), What::GustsAbove20, Run(5, 12)),
        (33, Some(58), What::Visibility, Run(5, 12)),
    ];
    let records = newer.into_iter().chain(old);
    let records =
        records.map(|(slot, issue, what, run)| record(slot, issue, &field(what, run).concat()));
    records.flatten().collect()
}

/// What a radio link leaves: each spoilt record is refused by itself, and the good ones between them are filed.
pub fn spoilt_records() -> Vec<u8> {
    let run = Run(7, 0);
    let good = field(What::Temperature, run);
    let but = |at: usize, section: Vec<u8>| {
        let mut sections = good.clone();
        sections[at] = section;
        sections.concat()
    };
    let month_0 = but(0, with(&good[0], &[(15, 0)]));
    let foreign = but(0, identification(run, Some(1)));
    let a_tail = but(2, sized(&good[2], good[2].len() + 2));
    let eleven = but(3, with(&good[3], &[(9, POINTS - 1)]));
    let good = good.concat();
    let cut = &good[..good.len() - 6];
    let rain = field(What::Rain, run).concat();
    let earlier = field(What::Temperature, Run(6, 12)).concat();
    let records: [(u64, u32, &[u8]); 9] = [
        (5, 12, &month_0),
        (5, 12, &good),
        (64, 12, &good),
        (6, 3, cut),
        (6, 3, &rain),
        (5, 13, &foreign),
        (5, 14, &a_tail),
        (5, 15, &eleven),
        (5, 16, &earlier),
    ];
    records
        .map(|(slot, issue, body)| record(slot, Some(issue), body))
        .concat()
}

/// Each by its file's name.
pub fn files() -> [(&'static str, Vec<u8>); 2] {
    [
        ("dark-trailer.queue", dark_trailer()),
        ("spoilt-records.queue", spoilt_records()),
    ]
}
