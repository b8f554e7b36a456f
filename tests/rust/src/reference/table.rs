//! A section as a table of fields: where each stands, and which values it takes.
use super::octets::{all_ones, number, signed};
use super::{Outcome, Refusal};

/// Which values a field takes, and what they mean.
#[derive(Clone, Copy, Debug, PartialEq, Eq)]
pub enum Rule {
    /// A raw number.
    Raw,
    /// Unsigned, never missing.
    Unsigned,
    /// Unsigned or missing.
    OrMissing,
    /// Unsigned or missing, never zero.
    CountOrMissing,
    /// Signed, and every value is a number: only E and D, for which the document knows no missing.
    SignedAll,
    /// Signed, never missing.
    Signed,
    /// Signed or missing.
    SignedOrMissing,
    /// From the one to the other.
    Within(u64, u64),
    /// One of these.
    OneOf(&'static [u64]),
}

/// What the octets of a field mean.
#[derive(Clone, Copy, Debug, PartialEq, Eq)]
pub enum Meaning {
    Value(i64),
    Missing,
    OutOfRange,
}

fn in_range(holds: bool, value: i64) -> Meaning {
    if holds {
        Meaning::Value(value)
    } else {
        Meaning::OutOfRange
    }
}

impl Rule {
    pub fn meaning(self, raw: u64, octets: usize) -> Meaning {
        let ones = raw == all_ones(octets);
        let plain = raw as i64;
        match self {
            Rule::Raw => Meaning::Value(plain),
            Rule::Unsigned => in_range(!ones, plain),
            Rule::OrMissing | Rule::CountOrMissing | Rule::SignedOrMissing if ones => {
                Meaning::Missing
            }
            Rule::OrMissing => Meaning::Value(plain),
            Rule::CountOrMissing => in_range(raw != 0, plain),
            Rule::SignedAll | Rule::SignedOrMissing => Meaning::Value(signed(raw, octets)),
            Rule::Signed => in_range(!ones, signed(raw, octets)),
            Rule::Within(least, most) => in_range(least <= raw && raw <= most, plain),
            Rule::OneOf(numbers) => in_range(numbers.contains(&raw), plain),
        }
    }
}

/// A row of a table.
#[derive(Clone, Copy, Debug)]
pub struct Field {
    pub first: usize,
    pub last: usize,
    pub name: &'static str,
    pub rule: Rule,
}

impl Field {
    pub fn octets(&self) -> usize {
        self.last - self.first + 1
    }
}

/// A row for a field of several octets.
pub const fn span(first: usize, last: usize, name: &'static str, rule: Rule) -> Field {
    Field {
        first,
        last,
        name,
        rule,
    }
}

/// A row for a field of one octet.
pub const fn octet(at: usize, name: &'static str, rule: Rule) -> Field {
    span(at, at, name, rule)
}

/// Rows that stand `shift` octets after where the table has them, as in the templates that put others in front.
#[derive(Clone, Copy, Debug)]
pub struct Block {
    pub shift: usize,
    pub fields: &'static [Field],
}

pub const fn block(fields: &'static [Field]) -> Block {
    shifted(0, fields)
}

pub const fn shifted(shift: usize, fields: &'static [Field]) -> Block {
    Block { shift, fields }
}

/// All rows of some blocks, at their places.
pub fn rows(blocks: &[Block]) -> impl Iterator<Item = Field> + '_ {
    blocks.iter().flat_map(|block| {
        block.fields.iter().map(|field| Field {
            first: field.first + block.shift,
            last: field.last + block.shift,
            ..*field
        })
    })
}

/// What was read out: first octet and value of each field, in the order of the octets. `None` is missing.
#[derive(Clone, Debug, PartialEq, Eq)]
pub struct Record {
    fields: Vec<(usize, Option<i64>)>,
}

impl Record {
    /// The value of the field that begins at this octet.
    pub fn value(&self, first: usize) -> Option<i64> {
        let field = self.fields.iter().find(|field| field.0 == first);
        field.expect("a field begins there").1
    }

    /// The same for a field that is never missing.
    pub fn number(&self, first: usize) -> i64 {
        self.value(first).expect("never missing")
    }

    pub fn is_missing(&self, first: usize) -> bool {
        self.value(first).is_none()
    }

    pub fn values(&self) -> Vec<i64> {
        let values = self.fields.iter();
        values.map(|field| field.1.unwrap_or(i64::MIN)).collect()
    }
}

/// Reads all fields; 8 with the first octet of the lowest that is out of its range.
pub fn read(s: &[u8], section: u8, blocks: &[Block]) -> Outcome<Record> {
    let mut fields = Vec::new();
    for field in rows(blocks) {
        let raw = number(s, field.first, field.last);
        match field.rule.meaning(raw, field.octets()) {
            Meaning::Value(value) => fields.push((field.first, Some(value))),
            Meaning::Missing => fields.push((field.first, None)),
            Meaning::OutOfRange => {
                let place = field.first as u32;
                return Err(Refusal {
                    place,
                    ..Refusal::of_section(8, section)
                });
            }
        }
    }
    Ok(Record { fields })
}

/// The end of the table if its rows follow one another from octet 1 without gap or overlap.
#[cfg(test)]
pub fn end_of(blocks: &[Block]) -> Option<usize> {
    rows(blocks).try_fold(0, |end, field| {
        (field.first == end + 1 && field.last >= field.first).then_some(field.last)
    })
}

#[cfg(test)]
mod tests {
    use super::*;

    #[test]
    fn all_ones_by_rule() {
        assert_eq!(Rule::Raw.meaning(0xff, 1), Meaning::Value(255));
        assert_eq!(Rule::Unsigned.meaning(0xffff, 2), Meaning::OutOfRange);
        assert_eq!(Rule::Unsigned.meaning(0xfffe, 2), Meaning::Value(65_534));
        assert_eq!(Rule::OrMissing.meaning(0xffff, 2), Meaning::Missing);
        assert_eq!(Rule::SignedAll.meaning(0xffff, 2), Meaning::Value(-32_767));
        assert_eq!(Rule::Signed.meaning(0xffff, 2), Meaning::OutOfRange);
        assert_eq!(Rule::SignedOrMissing.meaning(0xff, 1), Meaning::Missing);
        assert_eq!(Rule::SignedOrMissing.meaning(0xfe, 1), Meaning::Value(-126));
    }

    #[test]
    fn zero_by_rule() {
        assert_eq!(Rule::CountOrMissing.meaning(0, 4), Meaning::OutOfRange);
        assert_eq!(Rule::OrMissing.meaning(0, 4), Meaning::Value(0));
        assert_eq!(Rule::Signed.meaning(0x8000_0000, 4), Meaning::Value(0));
        assert_eq!(Rule::Within(1, 12).meaning(0, 1), Meaning::OutOfRange);
    }
}
