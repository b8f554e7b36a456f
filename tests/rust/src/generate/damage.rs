//! Ways to damage a section, a queue or a message.
use super::messages::close_message;
use super::sections::{close, edge, put, MISSING};
use super::Rng;
use crate::reference::message::{SECTION_0, TOTAL_AT};
use crate::reference::octets::number;
use crate::reference::table::{rows, Field};
use crate::reference::{grid, identification, packing, product, MOST_OCTETS};

/// Lengths at which some rule begins or ends.
const LENGTHS: &[usize] = &[
    0, 1, 4, 5, 6, 8, 9, 10, 11, 13, 14, 15, 20, 21, 22, 23, 24, 25, 26, 27, 33, 34, 36, 37, 46,
    47, 57, 58, 60, 61, 63, 64, 70, 71, 72, 73, 83, 84, 85, 87, 88, 95, 96,
];

/// The fields of a section by its number and template, or none.
fn fields_of(s: &[u8]) -> Vec<Field> {
    let template = |at: usize| (s.len() > at).then(|| number(s, at, at + 1));
    let blocks = match s.get(4) {
        Some(1) => identification::WITH_TEMPLATE
            .iter()
            .find(|form| form.template == template(22))
            .map_or(identification::WITHOUT_TEMPLATE.blocks, |form| form.blocks),
        Some(3) => grid::TEMPLATES
            .iter()
            .find(|listed| Some(listed.number) == template(13))
            .map_or(&[][..], |listed| listed.blocks),
        Some(4) => product::TEMPLATES
            .iter()
            .find(|listed| Some(listed.number) == template(8))
            .map_or(&[][..], |listed| listed.blocks),
        Some(5) => packing::TEMPLATES[0].blocks,
        _ => &[],
    };
    rows(blocks).filter(|field| field.last <= s.len()).collect()
}

/// The fields that say how long a section is, or that have to go with others.
const COUNTS: &[&str] = &[
    "n",
    "Nc",
    "NV",
    "Ni",
    "Nj",
    "Di",
    "Dj",
    "list width",
    "list interpretation",
    "number of points",
    "number of values",
    "bits per value",
];

/// A field other than the length and the section's number, which have damage of their own.
fn some_field(rng: &mut Rng, s: &[u8]) -> Option<Field> {
    let fields = fields_of(s);
    let counts: Vec<Field> = fields
        .iter()
        .filter(|field| COUNTS.contains(&field.name))
        .copied()
        .collect();
    let most = fields.len().checked_sub(1).filter(|&most| most >= 2)?;
    Some(match rng.percent(30) && !counts.is_empty() {
        true => rng.pick(&counts),
        false => fields[rng.within(2, most)],
    })
}

/// Some field at an edge, or next to what it was.
fn spoil_field(rng: &mut Rng, s: &mut [u8]) {
    let Some(field) = some_field(rng, s) else {
        return flip(rng, s);
    };
    let was = number(s, field.first, field.last);
    let spoilt = match rng.below(6) {
        0 => was.wrapping_add(1),
        1 => was.wrapping_sub(1),
        // One of the top bits, for a reader whose products or sums wrap.
        2..=3 => was ^ 1 << (8 * field.octets() - rng.within(1, 7)),
        _ => edge(rng, field.octets()),
    };
    put(s, field.first, field.last, spoilt);
}

/// One range less and three coordinates more: the total stays, also where no range is left.
fn trade_range(s: &mut [u8]) {
    let fields = fields_of(s);
    let named = |name| fields.iter().find(|field| field.name == name);
    if let (Some(n), Some(nv)) = (named("n"), named("NV")) {
        let ranges = number(s, n.first, n.last).wrapping_sub(1);
        let coordinates = number(s, nv.first, nv.last).wrapping_add(3);
        put(s, n.first, n.last, ranges);
        put(s, nv.first, nv.last, coordinates);
    }
}

/// A bit of some octet.
fn flip(rng: &mut Rng, s: &mut [u8]) {
    if !s.is_empty() {
        let at = rng.below(s.len());
        s[at] ^= 1 << rng.below(8);
    }
}

/// Some octet, an early one as often as any.
fn overwrite(rng: &mut Rng, s: &mut [u8]) {
    if !s.is_empty() {
        let most = if rng.percent(50) { s.len() } else { 24 };
        let at = rng.below(s.len().min(most));
        s[at] = rng.octet();
    }
}

fn cut(rng: &mut Rng, s: &mut Vec<u8>) {
    let length = match rng.below(3) {
        0 => rng.pick(LENGTHS),
        1 => s.len().saturating_sub(rng.within(1, 4)),
        _ => rng.below(s.len() + 1),
    };
    s.truncate(length);
}

fn extend(rng: &mut Rng, s: &mut Vec<u8>) {
    let more = match rng.below(3) {
        0 => 1,
        1 => rng.within(1, 40),
        _ => LENGTHS[rng.below(LENGTHS.len())].saturating_sub(s.len()),
    };
    s.extend(rng.octets(more));
}

/// Beyond the limit, or just up to it.
fn swell(rng: &mut Rng, s: &mut Vec<u8>) {
    let length = match rng.below(3) {
        0 => MOST_OCTETS,
        1 => MOST_OCTETS + 1,
        _ => rng.within(MOST_OCTETS + 1, 70_000),
    };
    let filler = rng.octet();
    s.resize(length.max(s.len()), filler);
}

/// The same, with true length octets.
pub fn swell_section(rng: &mut Rng, s: &mut Vec<u8>) {
    swell(rng, s);
    close_if_any(s);
}

/// The list that ends a section: how many octets each of its numbers has, and the field that counts them.
fn last_list(s: &[u8]) -> Option<(u64, Field)> {
    let fields = fields_of(s);
    let value = |field: &Field| number(s, field.first, field.last);
    let named = |name| fields.iter().find(|field| field.name == name).copied();
    if let Some(coordinates) = named("NV") {
        return Some((4, coordinates));
    }
    let width = named("list width").map(|field| value(&field))?;
    let mut counts = ["Ni", "Nj"].into_iter().filter_map(named);
    let count = counts.find(|count| value(count) != MISSING)?;
    (width > 0).then_some((width, count))
}

/// As long as a section may be. Its list has as many numbers as fit, or one more, so that it is whole, short or long by a few octets; where
/// there is none it has a long tail.
fn fill_to_the_limit(rng: &mut Rng, s: &mut Vec<u8>) {
    if let Some((width, count)) = last_list(s) {
        let listed = number(s, count.first, count.last).saturating_mul(width);
        let before = (s.len() as u64).saturating_sub(listed);
        let fit = (MOST_OCTETS as u64).saturating_sub(before) / width;
        put(s, count.first, count.last, fit + rng.below(2) as u64);
    }
    let filler = rng.octet();
    s.resize(MOST_OCTETS, filler);
    close(s);
}

fn change_length_octets(rng: &mut Rng, s: &mut [u8]) {
    if s.len() >= 4 {
        let length = number(s, 1, 4);
        let wrong = match rng.below(3) {
            0 => length.wrapping_add(1),
            1 => length.wrapping_sub(1),
            _ => edge(rng, 4),
        };
        put(s, 1, 4, wrong);
    }
}

fn swap_octets(rng: &mut Rng, s: &mut [u8]) {
    if !s.is_empty() {
        let (one, other) = (rng.below(s.len()), rng.below(s.len()));
        s.swap(one, other);
    }
}

/// Sets the length octets to the length there is, if there are any.
pub fn close_if_any(s: &mut [u8]) {
    if s.len() >= 4 {
        close(s);
    }
}

/// One damage whose length octets stay true, so that what lies behind them is reached.
pub fn damage_inside(rng: &mut Rng, s: &mut Vec<u8>) {
    match rng.below(20) {
        0 => trade_range(s),
        1..=9 => spoil_field(rng, s),
        10..=11 => overwrite(rng, s),
        12 => flip(rng, s),
        13..=15 => cut(rng, s),
        16..=18 => extend(rng, s),
        _ => swap_octets(rng, s),
    }
    close_if_any(s);
}

/// One damage to a section that is lent by itself.
pub fn damage(rng: &mut Rng, s: &mut Vec<u8>) {
    match rng.below(200) {
        0 => swell_section(rng, s),
        1..=3 => fill_to_the_limit(rng, s),
        4..=10 => change_length_octets(rng, s),
        11..=20 => cut(rng, s),
        21..=28 => extend(rng, s),
        29..=34 => flip(rng, s),
        35..=40 if s.len() >= 5 => s[4] = rng.octet(),
        _ => damage_inside(rng, s),
    }
}

/// One damage to a queue, which has no length octets of its own.
pub fn damage_queue(rng: &mut Rng, queue: &mut Vec<u8>) {
    match rng.below(40) {
        0 => swell(rng, queue),
        1..=8 => cut(rng, queue),
        9..=14 => extend(rng, queue),
        15..=20 => overwrite(rng, queue),
        _ => flip(rng, queue),
    }
}

fn change_total(rng: &mut Rng, message: &mut [u8]) {
    let total = number(message, TOTAL_AT, SECTION_0);
    let wrong = match rng.below(6) {
        0..=1 => total.wrapping_add(1),
        2 => total.wrapping_sub(1),
        // One of the upper octets, for a reader of four.
        3 => total ^ 1 << rng.within(32, 63),
        4 => total.swap_bytes(),
        _ => rng.any(),
    };
    put(message, TOTAL_AT, SECTION_0, wrong);
}

/// Start, edition or total length.
fn damage_section0(rng: &mut Rng, message: &mut [u8]) {
    if message.len() < SECTION_0 {
        return flip(rng, message);
    }
    match rng.below(6) {
        0..=1 => message[rng.below(4)] = rng.octet(),
        2 => message[7] = rng.pick(&[0, 1, 3, 0x82, 255]),
        _ => change_total(rng, message),
    }
}

/// An octet of the last four.
fn spoil_end(rng: &mut Rng, message: &mut [u8]) {
    let last = message.len().saturating_sub(4);
    flip(rng, &mut message[last..]);
}

fn cut_message(rng: &mut Rng, message: &mut Vec<u8>) {
    match rng.below(2) {
        0 => message.truncate(rng.within(14, 24)),
        _ => cut(rng, message),
    }
}

/// One damage to a message. Where it is not section 0's, octets 9-16 stay true or not.
pub fn damage_message(rng: &mut Rng, message: &mut Vec<u8>) {
    match rng.below(60) {
        0..=19 => return damage_section0(rng, message),
        20 => swell(rng, message),
        21..=34 => spoil_end(rng, message),
        35..=44 => cut_message(rng, message),
        45..=49 => extend(rng, message),
        50..=54 => overwrite(rng, message),
        _ => flip(rng, message),
    }
    if rng.percent(70) {
        close_message(message);
    }
}
