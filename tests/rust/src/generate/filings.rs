//! Fields to be filed, one by one or as a queue's records.
use super::damage::{damage, damage_inside, swell_section};
use super::sections::{
    field_at, put, section1_at, section3_of_no_width, section3_of_other_points, section5, section7,
    wrapped_section3, Size,
};
use super::Rng;
use crate::reference::queue::GREATEST;

/// The issue + 1; 0 where none is named.
pub fn stored_issue(rng: &mut Rng) -> u64 {
    match rng.below(6) {
        0 => 0,
        1 => rng.pick(&[128, 129, 16_384, GREATEST - 1, GREATEST]),
        2 => rng.any() % (GREATEST + 1),
        _ => rng.within(1, 3) as u64,
    }
}

fn time(rng: &mut Rng) -> [i64; 6] {
    let year = match rng.below(4) {
        0 => rng.within(0, 40_000) as i64 - 20_000,
        1 => rng.pick(&[0, -1, 1, 9_999, 10_000, -10_000, 65_534, 32_767, 32_768]),
        _ => 2_024,
    };
    [
        year,
        rng.within(1, 12) as i64,
        rng.within(1, 31) as i64,
        rng.within(0, 23) as i64,
        rng.within(0, 59) as i64,
        rng.within(0, 59) as i64,
    ]
}

/// Another time that differs from this one in one number at most.
fn time_beside(rng: &mut Rng, mut time: [i64; 6]) -> [i64; 6] {
    let which = rng.below(6);
    time[which] = self::time(rng)[which];
    if which == 0 && rng.percent(20) {
        // As far as year and offset go.
        time[0] = rng.pick(&[-327_692_766, 327_702_767, -17_976, -10_005]);
    }
    time
}

/// Octets 10-34 of section 4, one of which may make another card; section 4 may be refused then.
fn touch_product(rng: &mut Rng, four: &mut [u8]) {
    let at = rng.within(10, 34);
    let octet = rng.octet();
    put(four, at, at, u64::from(octet));
}

/// What several filings are made of: one slot, and times and products that differ little, so that cards compete.
pub struct Stock {
    slot: u64,
    time: [i64; 6],
    field: [Vec<u8>; 5],
}

impl Stock {
    pub fn new(rng: &mut Rng) -> Stock {
        let time = time(rng);
        Stock {
            slot: rng.pick(&[0, 7, 63]),
            time,
            field: field_at(rng, time, Size::Small),
        }
    }

    /// The stock's own slot more often than not.
    pub fn slot(&self, rng: &mut Rng) -> u64 {
        match rng.below(20) {
            0..=12 => self.slot,
            13..=17 => rng.within(0, 70) as u64,
            18 => rng.within(60, 66) as u64,
            _ => rng.pick(&[127, 128, 255, 256, 65_536, GREATEST - 1, GREATEST]),
        }
    }

    /// The same field, or one that differs from it in the time or in the product, or another.
    pub fn field(&self, rng: &mut Rng) -> [Vec<u8>; 5] {
        let mut field = self.field.clone();
        match rng.below(10) {
            0..=2 => {
                let time = time_beside(rng, self.time);
                field[0] = section1_at(rng, time);
            }
            3 => field[0] = section1_at(rng, self.time),
            4..=5 => touch_product(rng, &mut field[2]),
            6..=7 => {
                let time = time_beside(rng, self.time);
                let size = Size::some(rng);
                field = field_at(rng, time, size);
            }
            _ => (),
        }
        field
    }
}

/// One damage to a field that leaves it five sections with true length octets.
pub fn damaged_field(rng: &mut Rng, mut field: [Vec<u8>; 5]) -> [Vec<u8>; 5] {
    match rng.below(13) {
        0..=6 => {
            let which = rng.below(5);
            damage_inside(rng, &mut field[which]);
        }
        7 => {
            let (one, other) = (rng.below(5), rng.below(5));
            field.swap(one, other);
        }
        // The number of values and the data of another field.
        8 => {
            let (values, bits) = (rng.below(40) as u64, rng.within(0, 32) as u64);
            field[3] = section5(rng, values, bits);
            field[4] = section7(rng, values, bits);
        }
        9 => {
            let (values, bits) = (rng.below(40) as u64, rng.within(0, 32) as u64);
            field[4] = section7(rng, values, bits);
        }
        10 => field[1] = wrapped_section3(rng),
        11 => field[1] = section3_of_other_points(rng),
        _ => field[1] = section3_of_no_width(rng),
    }
    field
}

/// What one call for filing takes. Each section is exactly as long as it says.
pub struct Filing {
    pub slot: u64,
    pub issue_plus_1: u64,
    field: [Box<[u8]>; 5],
}

impl Filing {
    pub fn sections(&self) -> [&[u8]; 5] {
        self.field.each_ref().map(|section| &section[..])
    }
}

/// A field, or one with a section damaged in a way that a queue's body can't be, or can.
fn lent_field(rng: &mut Rng, mut field: [Vec<u8>; 5]) -> [Vec<u8>; 5] {
    let which = rng.below(5);
    match rng.below(100) {
        0 => swell_section(rng, &mut field[which]),
        1..=20 => damage(rng, &mut field[which]),
        21..=40 => field = damaged_field(rng, field),
        _ => (),
    }
    field
}

/// Numbers that no queue can say.
fn above_greatest(rng: &mut Rng) -> u64 {
    match rng.below(2) {
        0 => rng.pick(&[GREATEST + 1, GREATEST + 2, 2 * GREATEST, u64::MAX]),
        _ => rng.any() | 1 << 63,
    }
}

/// A number, or now and then one above the greatest of a queue.
fn by_chance_above(rng: &mut Rng, number: u64) -> u64 {
    match rng.below(40) {
        0 => above_greatest(rng),
        _ => number,
    }
}

impl Stock {
    pub fn filing(&self, rng: &mut Rng) -> Filing {
        let (slot, issue_plus_1) = (self.slot(rng), stored_issue(rng));
        let field = self.field(rng);
        Filing {
            slot: by_chance_above(rng, slot),
            issue_plus_1: by_chance_above(rng, issue_plus_1),
            field: lent_field(rng, field).map(Vec::into_boxed_slice),
        }
    }
}
