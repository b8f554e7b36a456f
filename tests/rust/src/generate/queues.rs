//! Queues: several records of one stock, so that cards compete.
use super::damage::damage_queue;
use super::filings::{damaged_field, stored_issue, Stock};
use super::sections::put;
use super::Rng;
use crate::reference::queue::GREATEST;
use crate::reference::MOST_OCTETS;

/// Groups of seven bits, least first, in the shortest form.
pub fn spelled(mut number: u64) -> Vec<u8> {
    let mut groups = Vec::new();
    while number >= 0x80 {
        groups.push(number as u8 | 0x80);
        number >>= 7;
    }
    groups.push(number as u8);
    groups
}

/// A spelling that is refused: not the shortest, too long, or of a number that is too great.
fn misspelled(rng: &mut Rng, number: u64) -> Vec<u8> {
    let mut groups = spelled(number);
    match rng.below(4) {
        0 => {
            let last = groups.len() - 1;
            groups[last] |= 0x80;
            groups.resize(last + rng.within(1, 4), 0x80);
            groups.push(0);
        }
        1 => groups = spelled(GREATEST + rng.pick(&[1, 1, 2, 128, 1_000])),
        2 => groups = spelled(1 << rng.within(33, 63)),
        _ => groups = vec![0x80; rng.within(1, 12)],
    }
    groups
}

fn spelled_by_chance(rng: &mut Rng, number: u64) -> Vec<u8> {
    match rng.below(400) {
        0 => misspelled(rng, number),
        _ => spelled(number),
    }
}

/// The sections of a body, damaged or not.
fn body(rng: &mut Rng, field: [Vec<u8>; 5]) -> Vec<u8> {
    match rng.below(30) {
        0..=11 => damaged_field(rng, field).concat(),
        12 => damaged_body(rng, field),
        _ => field.concat(),
    }
}

/// A body that is not five sections.
fn damaged_body(rng: &mut Rng, mut field: [Vec<u8>; 5]) -> Vec<u8> {
    match rng.below(6) {
        0 => field[rng.below(5)].clear(),
        1 => {
            let which = rng.below(5);
            let doubled = field[which].repeat(2);
            field[which] = doubled;
        }
        2 => {
            let more = rng.within(1, 9);
            field[4].extend(rng.octets(more));
        }
        3 => {
            let which = rng.below(5);
            let length = rng.pick(&[0, 1, 4, 5, 6, 0xffff_ffff]);
            if field[which].len() >= 4 {
                put(&mut field[which], 1, 4, length);
            }
        }
        4 => field[rng.below(5)] = vec![0, 0, 0, 4],
        _ => {
            let mut body = field.concat();
            body.truncate(rng.below(body.len() + 1));
            return body;
        }
    }
    field.concat()
}

pub fn record(rng: &mut Rng, slot: u64, stored: u64, body: &[u8]) -> Vec<u8> {
    let mut record = spelled_by_chance(rng, slot);
    record.extend(spelled_by_chance(rng, stored));
    record.extend(spelled_by_chance(rng, body.len() as u64));
    record.extend(body);
    record
}

fn some_record(rng: &mut Rng, stock: &Stock) -> Vec<u8> {
    let field = stock.field(rng);
    let body = body(rng, field);
    let (slot, stored) = (stock.slot(rng), stored_issue(rng));
    record(rng, slot, stored, &body)
}

/// Fills a queue up to one of the lengths around the limit, by a last record whose body is no five sections.
fn filled(rng: &mut Rng, mut queue: Vec<u8>) -> Vec<u8> {
    let wanted = rng.pick(&[MOST_OCTETS - 1, MOST_OCTETS, MOST_OCTETS, MOST_OCTETS + 1]);
    let head = spelled(1).len() + spelled(1).len() + spelled(20_000).len();
    if let Some(body) = wanted.checked_sub(queue.len() + head) {
        queue.extend([1, 1]);
        queue.extend(spelled(body as u64));
        queue.extend(rng.octets(body));
    }
    queue
}

pub fn queue(rng: &mut Rng) -> Vec<u8> {
    let stock = Stock::new(rng);
    queue_of(rng, &stock)
}

pub fn queue_of(rng: &mut Rng, stock: &Stock) -> Vec<u8> {
    let records = match rng.below(400) {
        0 => rng.within(250, 450),
        1..=10 => rng.within(10, 60),
        11..=20 => 0,
        _ => rng.within(1, 6),
    };
    let mut queue = Vec::new();
    for _ in 0..records {
        queue.extend(some_record(rng, stock));
    }
    match rng.below(400) {
        0 => queue = filled(rng, queue),
        1..=40 => damage_queue(rng, &mut queue),
        _ => (),
    }
    queue
}
