//! Sections that are accepted, built from the tables of the fields.
use super::Rng;
use crate::reference::octets::{all_ones, number};
use crate::reference::packing::data_length;
use crate::reference::table::{rows, Block, Meaning, Rule};
use crate::reference::{grid, identification, packing, product, MOST_OCTETS};

pub const MISSING: u64 = 0xffff_ffff;

/// Writes a number to the octets `first` to `last`.
pub fn put(s: &mut [u8], first: usize, last: usize, number: u64) {
    let octets = last - first + 1;
    s[first - 1..last].copy_from_slice(&number.to_be_bytes()[8 - octets..]);
}

/// Writes a section's length to its own length octets.
pub fn close(s: &mut [u8]) {
    let length = s.len() as u64;
    put(s, 1, 4, length);
}

/// A number at one of the edges of so many octets, or any.
pub fn edge(rng: &mut Rng, octets: usize) -> u64 {
    let ones = all_ones(octets);
    let sign = ones / 2 + 1;
    match rng.below(2) {
        0 => rng.pick(&[0, 1, 2, sign - 1, sign, sign + 1, ones - 1, ones]),
        _ => rng.any() & ones,
    }
}

fn candidate(rng: &mut Rng, rule: Rule, octets: usize) -> u64 {
    match rule {
        Rule::Within(least, most) => match rng.below(3) {
            0 => least,
            1 => most,
            _ => rng.within(least as usize, most as usize) as u64,
        },
        Rule::OneOf(numbers) => rng.pick(numbers),
        _ => edge(rng, octets),
    }
}

fn in_range(rng: &mut Rng, rule: Rule, octets: usize) -> u64 {
    loop {
        let raw = candidate(rng, rule, octets);
        if rule.meaning(raw, octets) != Meaning::OutOfRange {
            return raw;
        }
    }
}

/// All fields of a table with values in their ranges.
fn fill(rng: &mut Rng, section: u8, blocks: &[Block]) -> Vec<u8> {
    let end = rows(blocks).map(|field| field.last).max().unwrap_or(0);
    let mut s = vec![0; end];
    for field in rows(blocks) {
        let raw = in_range(rng, field.rule, field.octets());
        put(&mut s, field.first, field.last, raw);
    }
    s[4] = section;
    close(&mut s);
    s
}

/// How large the sections may grow.
#[derive(Clone, Copy, PartialEq, Eq)]
pub enum Size {
    Small,
    Large,
}

impl Size {
    /// Small, and large now and then.
    pub fn some(rng: &mut Rng) -> Size {
        match rng.below(150) {
            0 => Size::Large,
            _ => Size::Small,
        }
    }
}

/// A count up to `most`, small or not.
fn count(rng: &mut Rng, size: Size, most: usize) -> usize {
    match size {
        Size::Small => rng.below(most.min(6) + 1),
        Size::Large => match rng.below(3) {
            0 => most,
            _ => rng.below(most + 1),
        },
    }
}

fn form(rng: &mut Rng) -> &'static identification::Form {
    match rng.below(4) {
        0 => &identification::WITHOUT_TEMPLATE,
        other => &identification::WITH_TEMPLATE[other - 1],
    }
}

fn filled_form(rng: &mut Rng, form: &identification::Form) -> Vec<u8> {
    let mut s = fill(rng, 1, form.blocks);
    if let Some(template) = form.template {
        put(&mut s, 22, 23, template);
    }
    s
}

pub fn section1(rng: &mut Rng) -> Vec<u8> {
    let form = form(rng);
    filled_form(rng, form)
}

fn sign_and_magnitude(number: i64) -> u64 {
    number.unsigned_abs() | if number < 0 { 0x8000 } else { 0 }
}

/// Year and offset as this form has them for a real year, if it can.
fn year_and_offset(rng: &mut Rng, form: &identification::Form, year: i64) -> Option<(u64, u64)> {
    if form.offset_at.is_none() {
        return (0..65_535).contains(&year).then_some((year as u64, 0));
    }
    let offset = year.div_euclid(10_000) + rng.below(9) as i64 - 4;
    let stated = year - 10_000 * offset;
    let fits = |number: &i64| (-32_766..=32_767).contains(number);
    let both = fits(&stated) && fits(&offset);
    both.then(|| (sign_and_magnitude(stated), sign_and_magnitude(offset)))
}

/// Section 1 of a real reference time, in one of the forms that can say it; nearly always Gregorian.
pub fn section1_at(rng: &mut Rng, [year, later @ ..]: [i64; 6]) -> Vec<u8> {
    let (form, year, offset) = loop {
        let form = form(rng);
        if let Some((year, offset)) = year_and_offset(rng, form, year) {
            break (form, year, offset);
        }
    };
    let mut s = filled_form(rng, form);
    put(&mut s, 13, 14, year);
    for (at, number) in (15..).zip(later) {
        put(&mut s, at, at, number as u64);
    }
    if let Some(at) = form.offset_at {
        put(&mut s, at, at + 1, offset);
    }
    if let Some(at) = form.calendar_at {
        let calendar = if rng.percent(5) { rng.octet() } else { 0 };
        put(&mut s, at, at, u64::from(calendar));
    }
    s
}

/// Ni and Nj whose product fits the number of points.
fn counts(rng: &mut Rng, size: Size) -> (u64, u64) {
    match size {
        Size::Small => (rng.within(1, 6) as u64, rng.within(1, 6) as u64),
        Size::Large => match rng.below(3) {
            0 => (MISSING - 1, 1),
            1 => (65_535, 65_537),
            _ => (rng.within(1, 65_535) as u64, rng.within(1, 65_535) as u64),
        },
    }
}

/// Ni x Nj of a section 3 whose numbers agree, or the sum of its list.
pub fn counted_points(s: &[u8]) -> u64 {
    let width = number(s, grid::WIDTH_AT, 11) as usize;
    if width == 0 {
        return number(s, grid::NI_AT, 34) * number(s, grid::NJ_AT, 38);
    }
    let base_end = grid::TEMPLATES[number(s, 13, 14) as usize].base_end;
    let listed = s[base_end..].chunks_exact(width);
    listed.map(|one| number(one, 1, width)).sum()
}

/// Mostly others than these: above, below or none.
fn other_points(rng: &mut Rng, points: u64) -> u64 {
    let few = rng.within(1, 3) as u64;
    match rng.below(3) {
        0 => points.saturating_add(few).min(MISSING),
        1 => points.saturating_sub(few),
        _ => 0,
    }
}

/// Points of a grid without a list: Ni x Nj, and others as well where bit 8 of the scanning mode is set.
fn points_without_list(rng: &mut Rng, s: &[u8], product: u64) -> u64 {
    let mode = s[grid::SCANNING_MODE_AT - 1];
    match grid::bit_8_is_set(mode) && rng.percent(75) {
        true => other_points(rng, product),
        false => product,
    }
}

/// Ni and Nj whose product passes 32 bits: just, or nearly up to 2^64.
fn counts_beyond(rng: &mut Rng) -> (u64, u64) {
    let few = rng.below(3) as u64;
    match rng.below(2) {
        0 => (1 << 16, (1 << 16) + few),
        _ => (MISSING - 1 - few, MISSING - 1),
    }
}

/// Numbers of a list, whose sum fits the number of points.
fn listed(rng: &mut Rng, size: Size, width: usize, count: usize) -> Vec<u64> {
    let most = match size {
        Size::Small => rng.pick(&[0, 1, 9]),
        Size::Large => all_ones(width).min(MISSING / count as u64),
    };
    let number = |_| match rng.below(3) {
        0 => most,
        _ => rng.any() % (most + 1),
    };
    (0..count).map(number).collect()
}

fn with_counts(s: &mut [u8], interpretation: u64, width: usize, ni: u64, nj: u64, points: u64) {
    put(s, grid::INTERPRETATION_AT, 12, interpretation);
    put(s, grid::WIDTH_AT, 11, width as u64);
    put(s, grid::NI_AT, 34, ni);
    put(s, grid::NJ_AT, 38, nj);
    put(s, grid::POINTS_AT, 10, points);
}

fn with_list(rng: &mut Rng, s: &mut Vec<u8>, width: usize, size: Size) {
    let room = (MOST_OCTETS - s.len()) / width;
    let count = count(rng, size, room).max(1);
    let numbers = listed(rng, size, width, count);
    let (points, count) = (numbers.iter().sum(), count as u64);
    let interpretation = rng.pick(&[1, 2]);
    if rng.percent(50) {
        with_counts(s, interpretation, width, MISSING, count, points);
        put(s, grid::DI_AT, 67, MISSING);
    } else {
        with_counts(s, interpretation, width, count, MISSING, points);
        put(s, grid::DJ_AT, 71, MISSING);
    }
    for number in numbers {
        s.extend(&number.to_be_bytes()[8 - width..]);
    }
    close(s);
}

pub fn section3(rng: &mut Rng, size: Size) -> Vec<u8> {
    let template = &grid::TEMPLATES[rng.below(grid::TEMPLATES.len())];
    let mut s = fill(rng, 3, template.blocks);
    put(&mut s, 13, 14, template.number);
    match rng.pick(&[0, 0, 1, 2, 4]) {
        0 => {
            let (ni, nj) = counts(rng, size);
            let points = points_without_list(rng, &s, ni * nj);
            with_counts(&mut s, 0, 0, ni, nj, points);
        }
        width => with_list(rng, &mut s, width, size),
    }
    s
}

/// Section 3 with other points than it had: 13 where there is a list, or bit 8 of the scanning mode is clear.
pub fn section3_of_other_points(rng: &mut Rng) -> Vec<u8> {
    let mut s = section3(rng, Size::Small);
    let others = other_points(rng, points(&s));
    put(&mut s, grid::POINTS_AT, 10, others);
    s
}

/// Section 3 whose points are right but for a multiple of 2^32: 13 where there is a list, or bit 8 of the scanning mode is clear. A reader
/// whose products or sums wrap would accept it.
pub fn wrapped_section3(rng: &mut Rng) -> Vec<u8> {
    let mut s = section3(rng, Size::Small);
    let points = if number(&s, grid::WIDTH_AT, 11) == 4 {
        wrap_list(rng, &mut s)
    } else {
        s.truncate(grid::TEMPLATES[number(&s, 13, 14) as usize].base_end);
        close(&mut s);
        let (ni, nj) = counts_beyond(rng);
        with_counts(&mut s, 0, 0, ni, nj, 0);
        ni * nj
    };
    put(&mut s, grid::POINTS_AT, 10, points & MISSING);
    s
}

/// Section 3 with a list of a width that there is none of, and all else as it would be: 8.
pub fn section3_of_no_width(rng: &mut Rng) -> Vec<u8> {
    let template = &grid::TEMPLATES[rng.below(grid::TEMPLATES.len())];
    let mut s = fill(rng, 3, template.blocks);
    put(&mut s, 13, 14, template.number);
    let width = rng.pick(&[3, 3, 5, 6, 7]);
    with_list(rng, &mut s, width, Size::Small);
    s
}

/// Makes the last number of a list so great that the sum passes 32 bits, where there are two or more; gives the sum.
fn wrap_list(rng: &mut Rng, s: &mut [u8]) -> u64 {
    let end = s.len();
    let least = MISSING - counted_points(s).min(40);
    put(
        s,
        end - 3,
        end,
        rng.within(least as usize, MISSING as usize) as u64,
    );
    counted_points(s)
}

pub fn section4(rng: &mut Rng, size: Size) -> Vec<u8> {
    let template = &product::TEMPLATES[rng.below(product::TEMPLATES.len())];
    let mut s = fill(rng, 4, template.blocks);
    put(&mut s, 8, 9, template.number);
    let mut tail = 0;
    if let Some(at) = template.n_at {
        let n = count(rng, size, 255).max(1);
        put(&mut s, at, at, n as u64);
        tail += product::RANGE_OCTETS * n;
    }
    if let Some(at) = template.nc_at {
        let members = count(rng, size, 255);
        put(&mut s, at, at, members as u64);
        tail += members;
    }
    let room = (MOST_OCTETS - s.len() - tail) / 4;
    let coordinates = count(rng, size, room);
    put(&mut s, product::NV_AT, 7, coordinates as u64);
    s.extend(rng.octets(tail + 4 * coordinates));
    close(&mut s);
    s
}

pub fn section5(rng: &mut Rng, values: u64, bits: u64) -> Vec<u8> {
    let template = &packing::TEMPLATES[0];
    let mut s = fill(rng, 5, template.blocks);
    put(&mut s, 10, 11, template.number);
    put(&mut s, packing::VALUES_AT, 9, values);
    put(&mut s, packing::BITS_AT, 20, bits);
    s
}

/// Section 7 for so many values of so many bits, which have to fit a section.
pub fn section7(rng: &mut Rng, values: u64, bits: u64) -> Vec<u8> {
    let packed = data_length(values, bits) as usize - 5;
    let mut s = vec![0, 0, 0, 0, 7];
    s.extend(rng.octets(packed));
    close(&mut s);
    s
}

/// The most values of so many bits that a section of so many octets holds; a row for width 0 is no larger than others.
fn most_values(octets: usize, bits: u64) -> u64 {
    let held = 8 * (octets as u64 - 5);
    held.checked_div(bits).unwrap_or(held)
}

/// Sections 5 and 7 that go together.
pub fn packed(rng: &mut Rng) -> (Vec<u8>, Vec<u8>) {
    let bits = rng.within(0, 32) as u64;
    let most = most_values(MOST_OCTETS, bits);
    let values = match rng.below(300) {
        0 => most,
        1 => most - most.min(rng.below(2_000) as u64),
        2..=20 => rng.below(3_000.min(most as usize)) as u64,
        _ => rng.below(48) as u64,
    };
    (section5(rng, values, bits), section7(rng, values, bits))
}

/// The most octets of a section 7 that is not large.
pub const SMALL_DATA: usize = 400;

/// Points of an accepted section 3.
fn points(three: &[u8]) -> u64 {
    number(three, grid::POINTS_AT, 10)
}

/// Section 3 without a list, whose data may fill most of a queue.
fn wide_section3(rng: &mut Rng) -> Vec<u8> {
    let template = &grid::TEMPLATES[rng.below(grid::TEMPLATES.len())];
    let mut s = fill(rng, 3, template.blocks);
    put(&mut s, 13, 14, template.number);
    let (ni, nj) = (rng.within(1, 300) as u64, rng.within(1, 300) as u64);
    with_counts(&mut s, 0, 0, ni, nj, ni * nj);
    s
}

/// Sections 4, 5 and 7 of a field over this section 3, where section 7 has at most so many octets.
pub fn over(rng: &mut Rng, three: &[u8], size: Size, octets: usize) -> [Vec<u8>; 3] {
    let four = section4(rng, size);
    let (five, seven) = packed_within(rng, points(three), octets);
    [four, five, seven]
}

/// Sections 5 and 7 for so many values, of at most so many octets.
fn packed_within(rng: &mut Rng, values: u64, octets: usize) -> (Vec<u8>, Vec<u8>) {
    let most = (0..=32)
        .rev()
        .find(|&bits| values <= most_values(octets, bits));
    let bits = rng.within(0, most.unwrap_or(0) as usize) as u64;
    (section5(rng, values, bits), section7(rng, values, bits))
}

/// Five sections of one field of a reference time. A queue has room for one large section at most.
pub fn field_at(rng: &mut Rng, time: [i64; 6], size: Size) -> [Vec<u8>; 5] {
    let large = match size {
        Size::Small => 0,
        Size::Large => rng.pick(&[3, 4, 7]),
    };
    let of = |section| match section == large {
        true => Size::Large,
        false => Size::Small,
    };
    let one = section1_at(rng, time);
    let three = match large {
        7 => wide_section3(rng),
        _ => section3(rng, of(3)),
    };
    let room = if large == 7 { 64_000 } else { SMALL_DATA };
    let [four, five, seven] = over(rng, &three, of(4), room);
    [one, three, four, five, seven]
}
