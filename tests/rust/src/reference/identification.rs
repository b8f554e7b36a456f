//! Section 1.
use super::head::{look_at_head, look_at_total, look_up, HEAD};
use super::table::{self, block, octet, span, Block, Field, Record, Rule};
use super::{refuse_if, Outcome};

const SECTION: u8 = 1;
const SHORTEST: usize = 21;
/// Half a template number.
const NO_FORM_HAS: usize = 22;
const TEMPLATE_AT: usize = 22;
const YEAR_AT: usize = 13;

const ORIGIN: &[Field] = &[
    span(6, 7, "centre", Rule::Raw),
    span(8, 9, "sub-centre", Rule::Raw),
    octet(10, "master table version", Rule::Raw),
    octet(11, "local table version", Rule::Raw),
    octet(12, "significance", Rule::Raw),
];
const YEAR: &[Field] = &[span(YEAR_AT, 14, "year", Rule::Unsigned)];
const SIGNED_YEAR: &[Field] = &[span(YEAR_AT, 14, "year", Rule::Signed)];
/// Month to second; section 4 has them too, elsewhere.
pub const MONTH_TO_SECOND: &[Field] = &[
    octet(15, "month", Rule::Within(1, 12)),
    octet(16, "day", Rule::Within(1, 31)),
    octet(17, "hour", Rule::Within(0, 23)),
    octet(18, "minute", Rule::Within(0, 59)),
    octet(19, "second", Rule::Within(0, 59)),
];
const STATUS: &[Field] = &[
    octet(20, "status", Rule::Raw),
    octet(21, "type of data", Rule::Raw),
];
const TEMPLATE: &[Field] = &[span(TEMPLATE_AT, 23, "template", Rule::Raw)];
const CALENDAR: &[Field] = &[octet(24, "calendar", Rule::Raw)];
const OFFSET: &[Field] = &[span(24, 25, "offset", Rule::Signed)];
const OFFSET_AFTER_CALENDAR: &[Field] = &[span(25, 26, "offset", Rule::Signed)];

/// One of the four forms of section 1: without a template, or with 1.0, 1.1, 1.2.
pub struct Form {
    pub template: Option<u64>,
    pub total: usize,
    pub calendar_at: Option<usize>,
    pub offset_at: Option<usize>,
    pub blocks: &'static [Block],
}

pub const WITHOUT_TEMPLATE: Form = Form {
    template: None,
    total: 21,
    calendar_at: None,
    offset_at: None,
    blocks: &[
        block(HEAD),
        block(ORIGIN),
        block(YEAR),
        block(MONTH_TO_SECOND),
        block(STATUS),
    ],
};

pub const WITH_TEMPLATE: &[Form] = &[
    Form {
        template: Some(0),
        total: 24,
        calendar_at: Some(24),
        offset_at: None,
        blocks: &[
            block(HEAD),
            block(ORIGIN),
            block(YEAR),
            block(MONTH_TO_SECOND),
            block(STATUS),
            block(TEMPLATE),
            block(CALENDAR),
        ],
    },
    Form {
        template: Some(1),
        total: 25,
        calendar_at: None,
        offset_at: Some(24),
        blocks: &[
            block(HEAD),
            block(ORIGIN),
            block(SIGNED_YEAR),
            block(MONTH_TO_SECOND),
            block(STATUS),
            block(TEMPLATE),
            block(OFFSET),
        ],
    },
    Form {
        template: Some(2),
        total: 26,
        calendar_at: Some(24),
        offset_at: Some(25),
        blocks: &[
            block(HEAD),
            block(ORIGIN),
            block(SIGNED_YEAR),
            block(MONTH_TO_SECOND),
            block(STATUS),
            block(TEMPLATE),
            block(CALENDAR),
            block(OFFSET_AFTER_CALENDAR),
        ],
    },
];

pub struct Identification {
    pub record: Record,
    pub real_year: i64,
    pub calendar: Option<i64>,
}

impl Identification {
    /// The record's values and then the real year.
    pub fn values(&self) -> Vec<i64> {
        let mut values = self.record.values();
        values.push(self.real_year);
        values
    }

    /// Real year, month, day, hour, minute, second.
    pub fn reference_time(&self) -> [i64; 6] {
        let later = |at| self.record.number(at);
        [
            self.real_year,
            later(15),
            later(16),
            later(17),
            later(18),
            later(19),
        ]
    }
}

fn form_of(s: &[u8]) -> Outcome<&'static Form> {
    refuse_if(s.len() < SHORTEST || s.len() == NO_FORM_HAS, 5, SECTION)?;
    if s.len() == WITHOUT_TEMPLATE.total {
        return Ok(&WITHOUT_TEMPLATE);
    }
    look_up(s, SECTION, TEMPLATE_AT, WITH_TEMPLATE, |form| {
        (form.template.expect("all have one"), form.total)
    })
}

pub fn read(s: &[u8]) -> Outcome<Identification> {
    look_at_head(s, SECTION)?;
    let form = form_of(s)?;
    let record = table::read(s, SECTION, form.blocks)?;
    look_at_total(s, SECTION, form.total as u64)?;
    let offset = form.offset_at.map_or(0, |at| record.number(at));
    Ok(Identification {
        real_year: record.number(YEAR_AT) + 10_000 * offset,
        calendar: form.calendar_at.map(|at| record.number(at)),
        record,
    })
}

#[cfg(test)]
mod tests {
    use super::*;
    use crate::examples::section1 as section;
    use crate::reference::Refusal;

    fn real_year(s: &[u8]) -> i64 {
        read(s).expect("accepted").real_year
    }

    fn refusal(s: &[u8]) -> Refusal {
        read(s).err().expect("refused")
    }

    #[test]
    fn tables_end_where_the_document_says() {
        assert_eq!(table::end_of(WITHOUT_TEMPLATE.blocks), Some(21));
        for form in WITH_TEMPLATE {
            assert_eq!(table::end_of(form.blocks), Some(form.total));
        }
    }

    #[test]
    fn real_years_of_the_document() {
        assert_eq!(real_year(&section([7, 0xe8], 3, &[0, 1, 0x80, 2])), -17_976);
        assert_eq!(real_year(&section([0x80, 5], 3, &[0, 1, 0x80, 1])), -10_005);
        assert_eq!(real_year(&section([0, 0], 3, &[0, 1, 0, 1])), 10_000);
        assert_eq!(real_year(&section([0, 0], 3, &[0, 2, 0, 0, 1])), 10_000);
        assert_eq!(real_year(&section([0x80, 5], 3, &[])), 32_773);
        assert_eq!(real_year(&section([0x80, 5], 3, &[0, 0, 0])), 32_773);
    }

    #[test]
    fn month_0_is_8_at_15() {
        let expected = Refusal {
            number: 8,
            section: 1,
            place: 15,
        };
        assert_eq!(refusal(&section([7, 0xe8], 0, &[])), expected);
        // Also before the tail is looked at.
        assert_eq!(refusal(&section([7, 0xe8], 0, &[0, 0, 0, 0])), expected);
    }

    #[test]
    fn lengths() {
        assert_eq!(refusal(&[0, 0, 0, 4]).number, 1);
        assert_eq!(refusal(&section([7, 0xe8], 3, &[0])).number, 5);
        assert_eq!(refusal(&section([7, 0xe8], 3, &[0, 3])).number, 6);
        assert_eq!(refusal(&section([7, 0xe8], 3, &[0, 0])).number, 7);
        let tail = refusal(&section([7, 0xe8], 3, &[0, 0, 0, 0]));
        assert_eq!((tail.number, tail.place), (21, 25));
    }

    #[test]
    fn year_and_offset_are_never_missing() {
        let year = refusal(&section([0xff, 0xff], 3, &[]));
        assert_eq!((year.number, year.place), (8, 13));
        let offset = refusal(&section([0, 0], 3, &[0, 2, 0, 0xff, 0xff]));
        assert_eq!((offset.number, offset.place), (8, 25));
    }
}
