//! Cases of queues, on both sides of every rule about them. Most records are of the smallest fields, so that a case fits on a line.
use super::build::{sized, with};
use super::queue_records::{filed, later, plainly};
use super::section1::{self, of_template, with_years};
use super::section3::{grid, Grid};
use super::section4::smallest;
use super::section5::{five, seven};
use super::shelves::{good_but, listing_example, Sections, FIVE, FOUR, ONE, SEVEN, THREE, TOP};
use super::{decoded, demo, queue_edges, queue_records, Asked, Cases};
use crate::generate::queues::spelled;
use crate::generate::Rng;
use crate::reference::product::TEMPLATES;
use crate::reference::{explanation, MOST_OCTETS};

/// The cases, each of a queue.
pub struct Queues<'a>(&'a mut Cases);

impl Queues<'_> {
    pub fn add(&mut self, shows: &str, queue: Vec<u8>) {
        self.0.add(shows, Asked::Queue(queue));
    }

    /// With a part of what is printed, where document 01 or whoever chose the queue says it beforehand.
    pub fn stated(&mut self, shows: &str, queue: Vec<u8>, stated: &str) {
        self.0.stated(shows, Asked::Queue(queue), stated);
    }
}

/// No issue is named where it is `None`.
pub fn record(slot: u64, issue: Option<u32>, body: &[u8]) -> Vec<u8> {
    let issue_plus_1 = issue.map_or(0, |issue| u64::from(issue) + 1);
    let numbers = [slot, issue_plus_1, body.len() as u64].map(spelled);
    [&numbers.concat(), body].concat()
}

pub fn queue_of(records: &[Vec<u8>]) -> Vec<u8> {
    records.concat()
}

/// Document 01's listing.
pub fn example() -> Vec<u8> {
    let records = listing_example();
    let record = |(issue, one)| filed(7, issue, &[(ONE, one), (FOUR, smallest(8))]);
    queue_of(&records.map(record))
}

/// What document 01 has it print, whole.
pub const EXAMPLE_LISTING: &str = "slot year month day hour minute second issue template\n\
                                   7 2024 3 7 0 0 0 40 8\n\
                                   kept 1 passed 1 refused 0\n";

fn examples_of_document(cases: &mut Queues) {
    cases.stated("document 01's listing example", example(), EXAMPLE_LISTING);
    let nothing = "kept 0 passed 0 refused 0\n";
    let stated = format!("template\n{nothing}record slot issue fate\n{nothing}");
    cases.stated("the empty queue", vec![], &stated);
    cases.stated("one record", plainly(0), "\n1 0 0 kept\n");
    let dark = demo::dark_trailer();
    cases.stated("the dark trailer", dark, "\nkept 7 passed 6 refused 0\n");
    let spoilt = demo::spoilt_records();
    cases.stated("spoilt records", spoilt, "\nkept 2 passed 1 refused 6\n");
}

fn cards_by_issue(cases: &mut Queues) {
    let of = |issues: &[Option<u32>]| -> Vec<u8> {
        let records = issues.iter().map(|&issue| filed(5, issue, &[]));
        records.flatten().collect()
    };
    let shows = "none named is issue 0, named later";
    let stated = "\n1 5 - kept\n2 5 0 passed\n3 5 1 kept\n4 5 - passed\n";
    cases.stated(shows, of(&[None, Some(0), Some(1), None]), stated);
    let shows = "none named is issue 0, named before";
    let stated = "\n1 5 0 kept\n2 5 - passed\n";
    cases.stated(shows, of(&[Some(0), None]), stated);
    let stated = "\nkept 1 passed 2 refused 0\n";
    cases.stated("equal cards", of(&[Some(2); 3]), stated);
    let given = [
        (SEVEN, seven(&[5, 6, 7, 8, 9])),
        (ONE, with(&of_template(None), &[(6, 9)])),
        (ONE, of_template(Some(2))),
        (THREE, grid(3).octets()),
    ];
    let others = given.map(|one| filed(5, 2, &[one])).concat();
    let queue = [filed(5, 2, &[]), others].concat();
    let stated = "\nkept 1 passed 4 refused 0\n";
    cases.stated("equal cards of other fields", queue, stated);
    let shows = "the issue decides between equal times";
    let issues = [3, 4, 2, TOP, TOP - 1].map(Some);
    cases.stated(shows, of(&issues), "\nkept 3 passed 2 refused 0\n");
    let newer = filed(5, 0, &[(ONE, later())]);
    let queue = queue_of(&[filed(5, TOP, &[]), newer, filed(5, TOP, &[])]);
    let stated = "\nkept 2 passed 1 refused 0\n";
    cases.stated("the time overrules the issue", queue, stated);
}

fn cards_by_product(cases: &mut Queues) {
    let with_four = |slot, four| filed(slot, 3, &[(FOUR, four)]);
    let templates = [8, 0, 9, 1, 46, 14].map(|t| with_four(5, smallest(t)));
    let shows = "the product decides between equal issues";
    let stated = "\nkept 3 passed 3 refused 0\n";
    cases.stated(shows, queue_of(&templates), stated);
    for (at, second) in [(10, "kept"), (34, "kept"), (35, "passed")] {
        let octets = [127, 128, 127].map(|octet| with(&smallest(1), &[(at, octet)]));
        let queue = octets.map(|four| with_four(5, four)).concat();
        let stated = format!("\n1 5 3 kept\n2 5 3 {second}\n3 5 3 passed\n");
        let shows = "octets 8 to 34 of section 4 decide, and 35 does not";
        cases.stated(shows, queue, &stated);
    }
    for template in TEMPLATES {
        let t = template.number;
        let queue = with_four(t, smallest(t));
        cases.stated("each template", queue, &format!(" 3 {t}\n"));
    }
}

/// Section 1, and the real year that it says.
fn years() -> Vec<(Vec<u8>, i64)> {
    let plain = |year| section1::section(None, year, 0, 0);
    vec![
        (plain(0), 0),
        (plain(65534), 65534),
        (of_template(Some(0)), 2024),
        (with_years(1, 2024, 0x8002), -17976),
        (with_years(1, 0x8005, 0x8001), -10005),
        (with_years(2, 0, 1), 10000),
        (with_years(1, 0xfffe, 0xfffe), -327692766),
        (with_years(2, 0x7fff, 0x7fff), 327702767),
        (with_years(1, 0x8001, 0), -1),
        (with_years(1, 0x8000, 0x8000), 0),
        (with_years(2, 5, 0x8001), -9995),
    ]
}

fn cards_by_year(cases: &mut Queues) {
    let with_one = |slot, one: &[u8]| filed(slot, 1, &[(ONE, one.to_vec())]);
    let mut years = years();
    for (one, real) in &years {
        let stated = format!("\n9 {real} 3 7 18 30 45 1 0\n");
        let shows = "years, below zero too and with offsets";
        cases.stated(shows, with_one(9, one), &stated);
    }
    let queue = |years: &[(Vec<u8>, i64)]| -> Vec<u8> {
        let records = years.iter().map(|(one, _)| with_one(9, one));
        records.flatten().collect()
    };
    years.sort_by_key(|year| year.1);
    cases.add("years in rising order", queue(&years));
    years.sort_by_key(|year| -year.1);
    cases.add("years in falling order", queue(&years));
    let same = [
        with_years(1, 10007, 0),
        with_years(1, 7, 1),
        section1::section(None, 10007, 0, 0),
    ];
    let queue = same.map(|one| with_one(2, &one)).concat();
    let shows = "the same year written in two ways";
    cases.stated(shows, queue, "\nkept 1 passed 2 refused 0\n");
}

fn every_slot(cases: &mut Queues) {
    let mixed: Vec<u64> = (0..64).map(|k| (29 * k + 11) % 64).collect();
    let queue = |slots: &[u64], issue: fn(u64) -> u64| -> Vec<u8> {
        let records = slots
            .iter()
            .map(|&slot| filed(slot, issue(slot) as u32, &[]));
        records.flatten().collect()
    };
    let squares = queue(&mixed, |slot| slot * slot);
    let stated = "\nkept 64 passed 0 refused 0\n";
    cases.stated("all 64 slots in a mixed order", squares, stated);
    let rising: Vec<u64> = (0..64).collect();
    let twice = [queue(&mixed, |slot| 1000 - slot), queue(&rising, |_| 968)];
    let stated = "\nkept 95 passed 33 refused 0\n";
    let shows = "all 64 slots, and each of them again";
    cases.stated(shows, twice.concat(), stated);
}

/// What the decoder's keys say of them is listed, and counted.
fn messages(cases: &mut Queues) {
    let messages = decoded::messages();
    let fields: Vec<&decoded::Field> = messages.iter().flat_map(|one| &one.fields).collect();
    let queue = |slot: fn(u64) -> u64| -> Vec<u8> {
        let records = (0..).zip(&fields);
        let records = records.map(|(at, field)| record(slot(at), None, &field.body()));
        records.flatten().collect()
    };
    let lines = (0..).zip(&fields);
    let lines: String = lines
        .filter_map(|(slot, field)| field.listed(slot))
        .collect();
    let filed = lines.lines().count();
    let refused = fields.len() - filed;
    let shows = "messages of an independent decoder, a slot to each";
    let stated = format!("{lines}kept {filed} passed 0 refused {refused}\n");
    cases.stated(shows, queue(|at| at), &stated);
    let shows = "messages of an independent decoder, all to one slot";
    cases.stated(shows, queue(|_| 0), &format!(" refused {refused}\n"));
}

/// A queue of this length: a record whose section 7 has an octet for each point.
fn one_record_of(length: usize, ni: u64, nj: u64) -> Vec<u8> {
    let points = ni * nj;
    let queue = filed(
        5,
        3,
        &[
            (THREE, Grid { ni, nj, ..grid(0) }.octets()),
            (FIVE, five(points, 8)),
            (SEVEN, seven(&vec![0xa5; points as usize])),
        ],
    );
    assert_eq!(queue.len(), length);
    queue
}

fn longest(cases: &mut Queues) {
    let refused = |number: u8| format!("refused {number}\nrefused {number}\n");
    let (longest, more) = (
        one_record_of(65536, 32689, 2),
        one_record_of(65537, 21793, 3),
    );
    let one_left = [one_record_of(65535, 65377, 1), vec![0xa5]].concat();
    let one_more = [&longest[..], &[0xa5]].concat();
    cases.stated("65,536 octets, one record", longest, "\n1 5 3 kept\n");
    cases.stated("65,537 octets, one record", more, &refused(2));
    let shows = "65,536 octets, of which the last makes no record";
    cases.stated(shows, one_left, &refused(19));
    let shows = "65,536 octets, and one more that makes no record";
    cases.stated(shows, one_more, &refused(2));
    for octet in [0, 0x80, 0xff] {
        for length in [65536, 65537, 70000, 2 * 65536, 2 * 65536 + 3] {
            let number = if length > MOST_OCTETS { 2 } else { 19 };
            cases.stated("2 before 19", vec![octet; length], &refused(number));
        }
    }
    let mut zeros = |shows, front: Vec<u8>, count: usize, stated: &str| {
        cases.stated(shows, [front, vec![0; 3 * count]].concat(), stated);
    };
    let shows = "20,000 records of three zero octets";
    zeros(shows, vec![], 20000, "\nkept 0 passed 0 refused 20000\n");
    let shows = "21,845 records of three zero octets";
    zeros(shows, vec![], 21845, "\nkept 0 passed 0 refused 21845\n");
    let shows = "a good record before 20,000 of three zero octets";
    zeros(
        shows,
        plainly(5),
        20000,
        "\nkept 1 passed 0 refused 20000\n",
    );
    for length in [3999, 4000, 4001] {
        let shows = format!("an explanation of {length} octets");
        cases.add(&shows, explained_in(length));
    }
}

/// A queue of empty bodies whose explanation has this many octets: a slot of two digits makes a line one octet longer.
fn explained_in(length: usize) -> Vec<u8> {
    let explained = |count: usize| explanation(&vec![0; 3 * count]).len();
    let fit = (1..).take_while(|&count| explained(count) <= length);
    let count = fit.last().expect("one record is short");
    let wider = length - explained(count);
    let empty = |slot| record(slot, None, &[]);
    [empty(10).repeat(wider), empty(0).repeat(count - wider)].concat()
}

fn some_sections(rng: &mut Rng) -> Sections {
    let template = rng.pick(&[None, Some(0), Some(1), Some(2)]);
    let (year, offset) = (rng.pick(&[5, 2023, 2024]), rng.pick(&[0, 1, 0x8001]));
    let calendar = u8::from(rng.percent(10));
    let one = section1::section(template, year, offset, calendar);
    let time = [(15, rng.pick(&[3, 4])), (17, rng.pick(&[0, 12]))];
    let product = smallest(rng.pick(&[0, 1, 5, 8, 11]));
    good_but(&[
        (ONE, with(&one, &time)),
        (FOUR, with(&product, &[(10, rng.pick(&[1, 200]))])),
    ])
}

/// One octet changed or lost, a section lost, shorter or longer, two changed over, or the end lost.
fn damaged(rng: &mut Rng, mut sections: Vec<Vec<u8>>) -> Vec<u8> {
    let mut body = sections.concat();
    let (at, place) = (rng.below(body.len()), rng.below(5));
    match rng.below(8) {
        0..=2 => body[at] = rng.any() as u8,
        3 => drop(body.remove(at)),
        4 => {
            sections.remove(place);
            return sections.concat();
        }
        5 => {
            let longer = rng.pick(&[-9, -1, 1, 9]);
            let length = sections[place].len().saturating_add_signed(longer);
            sections[place] = sized(&sections[place], length);
            return sections.concat();
        }
        6 => {
            sections.swap(place, (place + rng.within(1, 4)) % 5);
            return sections.concat();
        }
        _ => body.truncate(at),
    }
    body
}

fn some_record(rng: &mut Rng) -> Vec<u8> {
    let sections = some_sections(rng);
    let body = match rng.percent(30) {
        true => damaged(rng, sections.to_vec()),
        false => sections.concat(),
    };
    // Half of the records go to a few slots, so that cards meet.
    let slot = match rng.percent(50) {
        true => rng.below(71) as u64,
        false => rng.pick(&[0, 7, 63]),
    };
    let issues = [0, 1, 40, 41, 300, TOP].map(Some);
    let issue = rng.pick(&[&issues[..], &[None]].concat());
    record(slot, issue, &body)
}

fn some_queue(rng: &mut Rng) -> Vec<u8> {
    let count = rng.within(1, 12);
    let mut queue: Vec<u8> = (0..count).flat_map(|_| some_record(rng)).collect();
    if rng.percent(15) {
        queue.truncate(rng.below(queue.len()));
    }
    queue
}

/// Fields that are good and damaged, slots 0 to 70, and some queues cut off.
fn generated(cases: &mut Queues) {
    let some = |seed| some_queue(&mut Rng::of_input(seed, 1));
    let queues: Vec<Vec<u8>> = (0..60).map(some).collect();
    for (seed, queue) in queues.iter().enumerate() {
        cases.add(&format!("any records, {seed}"), queue.clone());
    }
    for i in (0..24).step_by(2) {
        let next = i + 1;
        let shows = format!("two queues, and one behind the other, {i} and {next}");
        for queue in [&[i][..], &[next], &[i, next], &[next, i]] {
            let queue: Vec<u8> = queue.iter().flat_map(|&at| queues[at].clone()).collect();
            cases.add(&shows, queue);
        }
    }
    cases.add("a queue behind itself", queues[0].repeat(2));
}

pub fn add(cases: &mut Cases) {
    cases.begin("queues: ");
    let cases = &mut Queues(cases);
    examples_of_document(cases);
    queue_records::add(cases);
    queue_edges::add(cases);
    cards_by_issue(cases);
    cards_by_product(cases);
    cards_by_year(cases);
    every_slot(cases);
    messages(cases);
    longest(cases);
    generated(cases);
}
