//! Section 3.
use super::head::{look_at_head, look_at_total, look_up, HEAD};
use super::octets::number;
use super::table::{self, block, octet, span, Block, Field, Record, Rule};
use super::{refuse_if, Outcome};

const SECTION: u8 = 3;
const SHORTEST: usize = 14;
pub const TEMPLATE_AT: usize = 13;
pub const POINTS_AT: usize = 7;
pub const WIDTH_AT: usize = 11;
pub const INTERPRETATION_AT: usize = 12;
pub const NI_AT: usize = 31;
pub const NJ_AT: usize = 35;
pub const DI_AT: usize = 64;
pub const DJ_AT: usize = 68;
pub const SCANNING_MODE_AT: usize = 72;

const FRONT: &[Field] = &[
    octet(6, "source", Rule::OneOf(&[0])),
    span(POINTS_AT, 10, "number of points", Rule::Raw),
    octet(WIDTH_AT, "list width", Rule::OneOf(&[0, 1, 2, 4])),
    octet(INTERPRETATION_AT, "list interpretation", Rule::Within(0, 2)),
    span(TEMPLATE_AT, 14, "template", Rule::Raw),
];
const BASE: &[Field] = &[
    octet(15, "shape of the earth", Rule::Raw),
    octet(16, "radius, scale factor", Rule::OrMissing),
    span(17, 20, "radius, value", Rule::OrMissing),
    octet(21, "major axis, scale factor", Rule::OrMissing),
    span(22, 25, "major axis, value", Rule::OrMissing),
    octet(26, "minor axis, scale factor", Rule::OrMissing),
    span(27, 30, "minor axis, value", Rule::OrMissing),
    span(NI_AT, 34, "Ni", Rule::CountOrMissing),
    span(NJ_AT, 38, "Nj", Rule::CountOrMissing),
    span(39, 42, "basic angle", Rule::Raw),
    span(43, 46, "subdivisions", Rule::CountOrMissing),
    span(47, 50, "La1", Rule::Signed),
    span(51, 54, "Lo1", Rule::Signed),
    octet(55, "resolution and component flags", Rule::Raw),
    span(56, 59, "La2", Rule::Signed),
    span(60, 63, "Lo2", Rule::Signed),
    span(DI_AT, 67, "Di", Rule::OrMissing),
    span(DJ_AT, 71, "Dj", Rule::OrMissing),
    octet(SCANNING_MODE_AT, "scanning mode", Rule::Raw),
];
/// The first pole of 3.1 to 3.3 and what goes with it: an angle of rotation or a stretching factor.
const POLE: &[Field] = &[
    span(73, 76, "latitude of the pole", Rule::Signed),
    span(77, 80, "longitude of the pole", Rule::Signed),
    span(81, 84, "angle or factor", Rule::Raw),
];
/// The second pole of 3.3, a pole's octets further on.
const POLE_OCTETS: usize = 12;

pub struct Template {
    pub number: u64,
    pub base_end: usize,
    pub blocks: &'static [Block],
}

pub const TEMPLATES: &[Template] = &[
    Template {
        number: 0,
        base_end: 72,
        blocks: &[block(HEAD), block(FRONT), block(BASE)],
    },
    Template {
        number: 1,
        base_end: 84,
        blocks: &[block(HEAD), block(FRONT), block(BASE), block(POLE)],
    },
    Template {
        number: 2,
        base_end: 84,
        blocks: &[block(HEAD), block(FRONT), block(BASE), block(POLE)],
    },
    Template {
        number: 3,
        base_end: 96,
        blocks: &[
            block(HEAD),
            block(FRONT),
            block(BASE),
            block(POLE),
            table::shifted(POLE_OCTETS, POLE),
        ],
    },
];

/// The list behind the base: so many numbers of so many octets; none where the width is 0.
#[derive(Clone, Copy)]
struct List {
    after: usize,
    width: usize,
    count: u64,
}

impl List {
    fn total(self) -> u64 {
        self.after as u64 + self.width as u64 * self.count
    }

    fn sum(self, s: &[u8]) -> u64 {
        let listed = s[self.after..].chunks_exact(self.width);
        listed.map(|one| number(one, 1, self.width)).sum()
    }
}

pub struct Grid {
    pub record: Record,
    pub points: u64,
    /// Octets in front of the list, and octets of it.
    pub list: (usize, usize),
}

/// Whether width, Ni, Nj, Di, Dj and octet 12 go together.
fn agree(record: &Record) -> bool {
    let interpretation = record.number(INTERPRETATION_AT);
    let [no_ni, no_nj, no_di, no_dj] = [NI_AT, NJ_AT, DI_AT, DJ_AT].map(|at| record.is_missing(at));
    if record.number(WIDTH_AT) == 0 {
        !no_ni && !no_nj && interpretation == 0
    } else {
        let increment_missing_too = if no_ni { no_di } else { no_dj };
        no_ni != no_nj && increment_missing_too && interpretation != 0
    }
}

/// For a record whose fields agree.
fn list_of(record: &Record, base_end: usize) -> List {
    let width = record.number(WIDTH_AT) as usize;
    let present = record.value(NI_AT).or(record.value(NJ_AT));
    List {
        after: base_end,
        width,
        count: match width {
            0 => 0,
            _ => present.expect("one of Ni and Nj is present") as u64,
        },
    }
}

/// Bit 1 is the most significant.
pub fn bit_8_is_set(scanning_mode: u8) -> bool {
    scanning_mode & 1 != 0
}

/// Whether those that the section states are right: with a list the sum of its numbers; without one Ni x Nj, or any number where bit 8 of
/// the scanning mode is set. Neither product nor sum can pass 64 bits.
fn points_are_right(s: &[u8], record: &Record, list: List) -> bool {
    let stated = record.number(POINTS_AT) as u64;
    let mode = record.number(SCANNING_MODE_AT) as u8;
    match list.width {
        0 if bit_8_is_set(mode) => true,
        0 => stated == record.number(NI_AT) as u64 * record.number(NJ_AT) as u64,
        _ => stated == list.sum(s),
    }
}

pub fn read(s: &[u8]) -> Outcome<Grid> {
    look_at_head(s, SECTION)?;
    refuse_if(s.len() < SHORTEST, 5, SECTION)?;
    let template = look_up(s, SECTION, TEMPLATE_AT, TEMPLATES, |template| {
        (template.number, template.base_end)
    })?;
    let record = table::read(s, SECTION, template.blocks)?;
    refuse_if(!agree(&record), 10, SECTION)?;
    let list = list_of(&record, template.base_end);
    look_at_total(s, SECTION, list.total())?;
    refuse_if(!points_are_right(s, &record, list), 13, SECTION)?;
    Ok(Grid {
        points: record.number(POINTS_AT) as u64,
        record,
        list: (list.after, s.len() - list.after),
    })
}

#[cfg(test)]
mod tests {
    use super::*;
    use crate::examples::{four_by_three, listed, section3, MISSING};

    fn refusal(s: &[u8]) -> (u8, u32) {
        let refusal = read(s).err().expect("refused");
        (refusal.number, refusal.place)
    }

    #[test]
    fn tables_end_where_the_document_says() {
        for template in TEMPLATES {
            assert_eq!(table::end_of(template.blocks), Some(template.base_end));
        }
    }

    #[test]
    fn list_of_the_document() {
        let s = listed(14);
        let grid = read(&s).expect("accepted");
        assert_eq!((s.len(), grid.points, grid.list), (78, 14, (72, 6)));
    }

    #[test]
    fn points_of_the_document() {
        assert_eq!(
            read(&four_by_three(12)).ok().map(|grid| grid.points),
            Some(12)
        );
        assert_eq!(refusal(&four_by_three(13)), (13, 0));
    }

    #[test]
    fn points_by_bit_8() {
        for mode in 0..=255 {
            for points in [0, 11, 12, 13] {
                let mut s = four_by_three(points);
                s[71] = mode;
                let read = read(&s).map(|grid| grid.points);
                match mode % 2 == 1 || points == 12 {
                    true => assert_eq!(read.ok(), Some(u64::from(points))),
                    false => assert_eq!(read.err().map(|refusal| refusal.number), Some(13)),
                }
            }
            let [mut right, mut wrong] = [14, 13].map(listed);
            (right[71], wrong[71]) = (mode, mode);
            assert_eq!(read(&right).ok().map(|grid| grid.points), Some(14));
            assert_eq!(refusal(&wrong), (13, 0));
        }
    }

    #[test]
    fn disagreement() {
        assert_eq!(refusal(&section3(12, 0, 0, MISSING, [0, 0, 0, 3])), (10, 0));
        assert_eq!(
            refusal(&section3(12, 0, 1, [0, 0, 0, 4], [0, 0, 0, 3])),
            (10, 0)
        );
        assert_eq!(
            refusal(&section3(12, 3, 1, [0, 0, 0, 4], [0, 0, 0, 3])),
            (8, 11)
        );
        let mut increment_present = listed(14);
        increment_present[63] = 0;
        assert_eq!(refusal(&increment_present), (10, 0));
    }

    #[test]
    fn a_list_that_is_too_long_by_its_count() {
        let mut s = listed(14);
        s[34..38].copy_from_slice(&[255, 255, 255, 254]);
        assert_eq!(refusal(&s), (11, 79));
    }
}
