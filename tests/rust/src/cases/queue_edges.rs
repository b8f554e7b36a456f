//! Cases of queues that are refused whole with 19, so that nothing is filed, and of the numbers next to them.
use super::build::ONES;
use super::queue_records::{filed, plainly};
use super::queues::{queue_of, record, Queues};
use super::section1::plain;
use super::shelves::{good, ONE};
use crate::generate::queues::spelled;
use crate::reference::queue::GREATEST;

const BOTH_REFUSED: &str = "refused 19\nrefused 19\n";
const NUMBERS: [&str; 3] = ["slot", "issue", "length"];
const SLOT: usize = 0;
const ISSUE: usize = 1;
const LENGTH: usize = 2;

/// The greatest number as it is spelled.
const GREATEST_SPELLED: [u8; 5] = [0x80, 0x80, 0x80, 0x80, 0x10];

const MALFORMED: [(&str, &[u8]); 8] = [
    ("a longer spelling, 80 00", &[0x80, 0]),
    ("a longer spelling, 81 80 00", &[0x81, 0x80, 0]),
    (
        "a longer spelling of five octets",
        &[0x81, 0x80, 0x80, 0x80, 0],
    ),
    ("six octets", &[0x80, 0x80, 0x80, 0x80, 0x80, 1]),
    ("six octets, the last 0", &[0x81, 0x80, 0x80, 0x80, 0x80, 0]),
    ("six octets with the top bit", &[0xff; 6]),
    ("4,294,967,297", &[0x81, 0x80, 0x80, 0x80, 0x10]),
    ("five octets, the greatest", &[0xff, 0xff, 0xff, 0xff, 0x7f]),
];

/// A good record's octets with others in the place of one of its three numbers.
fn with_number(which: usize, octets: &[u8]) -> Vec<u8> {
    let body = good().concat();
    let mut numbers = [5, 3, body.len() as u64].map(spelled);
    numbers[which] = octets.to_vec();
    [numbers.concat(), body].concat()
}

/// Good records to slots from the one to below the other.
fn good_records(slots: std::ops::Range<u64>) -> Vec<u8> {
    slots.flat_map(plainly).collect()
}

/// As the first, a middle and the last of three records.
fn among_three(cases: &mut Queues, shows: &str, broken: &[u8]) {
    for place in 0..3 {
        let mut queue = [1, 2, 3].map(plainly);
        queue[place] = broken.to_vec();
        cases.stated(shows, queue.concat(), BOTH_REFUSED);
    }
}

/// The shortest spelling with a group of zeros behind it.
fn longer(number: u64) -> Vec<u8> {
    let mut octets = spelled(number);
    *octets.last_mut().expect("an octet") |= 0x80;
    octets.push(0);
    octets
}

fn malformed(cases: &mut Queues) {
    for (shows, octets) in MALFORMED {
        for (which, name) in NUMBERS.iter().enumerate() {
            let shows = format!("19: {shows}, as the {name}");
            among_three(cases, &shows, &with_number(which, octets));
        }
    }
    let right = [5, 3, good().concat().len() as u64];
    for (which, name) in NUMBERS.iter().enumerate() {
        let shows = format!("19: the right {name} in a longer spelling");
        among_three(cases, &shows, &with_number(which, &longer(right[which])));
    }
    let shows = "19: an empty body whose length is 80 00";
    among_three(cases, shows, &[5, 3, 0x80, 0]);
}

/// A number that the end cuts off stands in the last record there is, wherever that is of the three that were sent.
fn cut_off(cases: &mut Queues) {
    for before in 0..3 {
        let whole = good_records(0..before);
        for (which, name) in NUMBERS.iter().enumerate() {
            let numbers = spelled(300).repeat(which);
            for octets in [&[0x80][..], &[0xff, 0x80], &[0x80; 4]] {
                let shows = format!("19: the {name} cut off, after {before} records");
                let queue = [&whole, &numbers, octets].concat();
                cases.stated(&shows, queue, BOTH_REFUSED);
            }
            if which > 0 {
                let shows = format!("19: no {name}, after {before} records");
                let queue = [&whole, &[5, 1][..which]].concat();
                cases.stated(&shows, queue, BOTH_REFUSED);
            }
        }
    }
}

fn past_the_end(cases: &mut Queues) {
    let body = good().concat().len() as u64;
    for place in 0..3 {
        let (front, rest) = (good_records(0..place), good_records(place + 1..3));
        let behind = body + rest.len() as u64;
        for past in [1, 100, GREATEST - behind] {
            let broken = with_number(LENGTH, &spelled(behind + past));
            let shows =
                "19: a body past the queue's end, in the first, a middle and the last record";
            let queue = [&front[..], &broken, &rest].concat();
            cases.stated(shows, queue, BOTH_REFUSED);
        }
        let mut queue = good_records(0..place + 1);
        queue.pop();
        let shows = "19: a last record without the last octet of its body";
        cases.stated(shows, queue, BOTH_REFUSED);
    }
    let mut refused = |shows, queue: &[u8]| cases.stated(shows, queue.to_vec(), BOTH_REFUSED);
    refused("19: a body of one octet that is not there", &[5, 1, 1]);
    refused("19: only an octet", &[0]);
    refused("19: only an octet", &[0x80]);
    refused("19: only two octets", &[0, 0]);
    let month_0 = filed(5, 0, &[(ONE, plain(&[(15, 0)]))]);
    let queue = queue_of(&[record(64, Some(0), &[]), month_0, vec![5, 1]]);
    refused("19 after records that would be refused", &queue);
}

fn in_range(cases: &mut Queues) {
    let next = plainly(9);
    let taken = good().concat().len() + next.len();
    let queue = [with_number(LENGTH, &spelled(taken as u64)), next].concat();
    let shows = "a body that takes the next record with it is 20, not 19";
    let stated = "\n1 5 2 refused 20 0 0\nkept 0 passed 0 refused 1\n";
    cases.stated(shows, queue, stated);
    for (which, stated) in [
        (SLOT, "\n1 4294967296 2 refused 16 0 0\n2 6 0 kept\n"),
        (ISSUE, "\n1 5 4294967295 kept\n2 6 0 kept\n"),
        (LENGTH, BOTH_REFUSED),
    ] {
        let shows = format!("the greatest number as the {}", NUMBERS[which]);
        let queue = [with_number(which, &GREATEST_SPELLED), plainly(6)].concat();
        cases.stated(&shows, queue, stated);
    }
    let around = [7, 14, 21, 28].map(|bits| [(1 << bits) - 1, 1 << bits]);
    let more = [0, 1, 2, 126, 129, 300, 1 << 31, ONES, 1 << 32];
    for issue_plus_1 in super::build::rising([&around.concat()[..], &more].concat()) {
        let named = match issue_plus_1 {
            0 => "-".to_string(),
            _ => (issue_plus_1 - 1).to_string(),
        };
        let queue = with_number(ISSUE, &spelled(issue_plus_1));
        let stated = format!("\n1 5 {named} kept\n");
        cases.stated("issues around each number of octets", queue, &stated);
    }
}

pub fn add(cases: &mut Queues) {
    malformed(cases);
    cut_off(cases);
    past_the_end(cases);
    in_range(cases);
}
