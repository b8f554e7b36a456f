//! Sections 5 and 7, and unpacking.
use super::head::{look_at_head, look_at_total, look_up, HEAD};
use super::table::{self, block, octet, span, Block, Field, Record, Rule};
use super::{refuse_if, Outcome, Refusal};

const DATA: u8 = 7;
const DATA_HEAD: usize = 5;
const SECTION: u8 = 5;
const SHORTEST: usize = 11;
const TEMPLATE_AT: usize = 10;
pub const VALUES_AT: usize = 6;
pub const BITS_AT: usize = 20;

const SIMPLE: &[Field] = &[
    span(VALUES_AT, 9, "number of values", Rule::Raw),
    span(TEMPLATE_AT, 11, "template", Rule::Raw),
    span(12, 15, "R as bits", Rule::Raw),
    span(16, 17, "E", Rule::SignedAll),
    span(18, 19, "D", Rule::SignedAll),
    octet(BITS_AT, "bits per value", Rule::Within(0, 32)),
    octet(21, "type", Rule::Raw),
];

pub struct Template {
    pub number: u64,
    pub total: usize,
    pub blocks: &'static [Block],
}

pub const TEMPLATES: &[Template] = &[Template {
    number: 0,
    total: 21,
    blocks: &[block(HEAD), block(SIMPLE)],
}];

pub struct Packing {
    pub record: Record,
    pub values: u64,
    pub bits: u64,
}

pub fn read(s: &[u8]) -> Outcome<Packing> {
    look_at_head(s, SECTION)?;
    refuse_if(s.len() < SHORTEST, 5, SECTION)?;
    let template = look_up(s, SECTION, TEMPLATE_AT, TEMPLATES, |template| {
        (template.number, template.total)
    })?;
    let record = table::read(s, SECTION, template.blocks)?;
    look_at_total(s, SECTION, template.total as u64)?;
    Ok(Packing {
        values: record.number(VALUES_AT) as u64,
        bits: record.number(BITS_AT) as u64,
        record,
    })
}

/// Section 7 alone: 1 to 4.
pub fn read_data(s: &[u8]) -> Outcome<Record> {
    look_at_head(s, DATA)?;
    table::read(s, DATA, &[block(HEAD)])
}

/// The octets of section 7 for so many values of so many bits.
pub fn data_length(values: u64, bits: u64) -> u64 {
    DATA_HEAD as u64 + (values * bits).div_ceil(8)
}

/// Section 7 beside its section 5: 1 to 4, then 15.
pub fn look_at_data(s: &[u8], packing: &Packing) -> Outcome<()> {
    read_data(s)?;
    let wanted = data_length(packing.values, packing.bits);
    refuse_if(s.len() as u64 != wanted, 15, DATA)
}

/// An octet that is missing counts as 0. Section 7 has all that its values need.
fn bit(packed: &[u8], place: usize) -> u32 {
    let octet = packed.get(place / 8).copied().unwrap_or(0);
    u32::from(octet >> (7 - place % 8) & 1)
}

/// The value that begins at this bit, most significant bit first.
fn value(packed: &[u8], first: usize, bits: usize) -> u32 {
    (first..first + bits).fold(0, |so_far, place| so_far << 1 | bit(packed, place))
}

/// The first values of so many bits, at most 32, one after the other without a gap.
pub fn numbers(packed: &[u8], bits: usize, places: usize) -> Vec<u32> {
    let firsts = (0..places).map(|i| i * bits);
    firsts.map(|first| value(packed, first, bits)).collect()
}

/// What unpacking writes into a row of so many places.
pub fn unpack(five: &[u8], seven: &[u8], places: usize) -> Outcome<Vec<u32>> {
    let packing = read(five)?;
    look_at_data(seven, &packing)?;
    if places as u64 != packing.values {
        return Err(Refusal::of_none(18));
    }
    Ok(numbers(&seven[DATA_HEAD..], packing.bits as usize, places))
}

#[cfg(test)]
mod tests {
    use super::*;
    use crate::examples::{section5 as five, section7 as seven};

    fn refusal(outcome: Outcome<Vec<u32>>) -> (u8, u8, u32) {
        let refusal = outcome.expect_err("refused");
        (refusal.number, refusal.section, refusal.place)
    }

    #[test]
    fn tables_end_where_the_document_says() {
        for template in TEMPLATES {
            assert_eq!(table::end_of(template.blocks), Some(template.total));
        }
    }

    #[test]
    fn examples_of_the_document() {
        assert_eq!(data_length(14, 9), 21);
        assert_eq!(
            unpack(&five(3, 5), &seven(&[0x0c, 0x44]), 3),
            Ok(vec![1, 17, 2])
        );
        // Spare bits are not looked at.
        assert_eq!(
            unpack(&five(3, 5), &seven(&[0x0c, 0x45]), 3),
            Ok(vec![1, 17, 2])
        );
    }

    #[test]
    fn missing_octets_count_as_0() {
        assert_eq!(numbers(&[0x0c, 0x44], 5, 5), [1, 17, 2, 0, 0]);
        assert_eq!(numbers(&[0x0c], 5, 3), [1, 16, 0]);
        assert_eq!(numbers(&[0xff; 7], 32, 2), [0xffff_ffff, 0xffff_ff00]);
        assert_eq!(numbers(&[], 32, 2), [0, 0]);
    }

    #[test]
    fn width_0_writes_zeros() {
        assert_eq!(unpack(&five(4, 0), &seven(&[]), 4), Ok(vec![0; 4]));
        assert_eq!(unpack(&five(0, 0), &seven(&[]), 0), Ok(vec![]));
    }

    #[test]
    fn refusals_in_their_order() {
        let packed = seven(&[0x0c, 0x44]);
        assert_eq!(refusal(unpack(&five(3, 33), &packed, 9)), (8, 5, 20));
        assert_eq!(refusal(unpack(&five(3, 6), &packed, 9)), (15, 7, 0));
        assert_eq!(refusal(unpack(&five(3, 5), &packed, 2)), (18, 0, 0));
        assert_eq!(refusal(unpack(&five(3, 5), &packed, 4)), (18, 0, 0));
    }

    #[test]
    fn e_and_d_are_never_missing() {
        let mut s = five(0, 0);
        s[15..19].fill(0xff);
        let record = read(&s).expect("accepted").record;
        assert_eq!((record.number(16), record.number(18)), (-32_767, -32_767));
    }
}
