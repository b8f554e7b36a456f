//! Whole messages: section 0, sections in groups, and 7777. Octets count from 1 at the start of the message.
use super::field::{self, FieldRead};
use super::octets::number;
use super::queue::SMALLEST_SECTION;
use super::{Outcome, Refusal, Span, MOST_OCTETS};
use std::collections::BTreeMap;

const START: &[u8] = b"GRIB";
const EDITION_AT: usize = 8;
const EDITION: u8 = 2;
pub const TOTAL_AT: usize = 9;
/// Section 0 ends with the total length.
pub const SECTION_0: usize = 16;
const LAST_FOUR: &[u8] = b"7777";
const SHORTEST: usize = SECTION_0 + LAST_FOUR.len();
pub const MOST_FIELDS: usize = 16;
/// The only section 6 there is: no bit map.
pub const NO_BIT_MAP: [u8; 6] = [0, 0, 0, 6, 6, 255];
const BIT_MAP: u8 = 6;
/// A field ends with it.
pub const DATA: u8 = 7;
/// The sections of a field.
pub const OF_A_FIELD: [u8; 5] = [1, 3, 4, 5, DATA];

/// What can be wrong with the frame, which is all that is no field's.
#[derive(Clone, Copy, Debug, PartialEq, Eq)]
pub enum Fault {
    TooLong,
    TooShort,
    Start,
    Edition,
    TotalLength,
    TooFewLeft,
    LengthUnder5,
    IntoTheLastFour,
    OutOfOrder,
    BitMap,
    AfterThe16thField,
    SectionMissing,
    LastFour,
}

impl Fault {
    pub const ALL: [Fault; 13] = [
        Fault::TooLong,
        Fault::TooShort,
        Fault::Start,
        Fault::Edition,
        Fault::TotalLength,
        Fault::TooFewLeft,
        Fault::LengthUnder5,
        Fault::IntoTheLastFour,
        Fault::OutOfOrder,
        Fault::BitMap,
        Fault::AfterThe16thField,
        Fault::SectionMissing,
        Fault::LastFour,
    ];

    pub fn refusal(self) -> Refusal {
        Refusal::of_none(match self {
            Fault::TooLong => 2,
            Fault::TooShort | Fault::Start | Fault::Edition | Fault::TotalLength => 22,
            Fault::TooFewLeft | Fault::LengthUnder5 | Fault::IntoTheLastFour => 23,
            Fault::OutOfOrder | Fault::SectionMissing => 23,
            Fault::BitMap => 24,
            Fault::AfterThe16thField | Fault::LastFour => 25,
        })
    }

    fn if_so(self, holds: bool) -> Result<(), Fault> {
        match holds {
            true => Err(self),
            false => Ok(()),
        }
    }
}

/// Refusals 2 and 22.
fn look_at_section0(message: &[u8]) -> Result<(), Fault> {
    Fault::TooLong.if_so(message.len() > MOST_OCTETS)?;
    Fault::TooShort.if_so(message.len() < SHORTEST)?;
    Fault::Start.if_so(!message.starts_with(START))?;
    Fault::Edition.if_so(message[EDITION_AT - 1] != EDITION)?;
    let total = number(message, TOTAL_AT, SECTION_0);
    Fault::TotalLength.if_so(total != message.len() as u64)
}

/// The sections that may stand behind one of this number; 0 is section 0.
pub fn may_follow(last: u8) -> &'static [u8] {
    match last {
        0 => &[1],
        1 => &[2, 3],
        2 => &[3],
        3 => &[4],
        4 => &[5],
        5 => &[6],
        6 => &[7],
        _ => &[2, 3, 4],
    }
}

/// The section at the start of what is left in front of the last four.
fn cut(left: &[u8]) -> Result<&[u8], Fault> {
    Fault::TooFewLeft.if_so((left.len() as u64) < SMALLEST_SECTION)?;
    let length = number(left, 1, 4);
    Fault::LengthUnder5.if_so(length < SMALLEST_SECTION)?;
    Fault::IntoTheLastFour.if_so(length > left.len() as u64)?;
    Ok(&left[..length as usize])
}

#[derive(Clone, Copy, Debug, PartialEq, Eq)]
pub struct Section {
    pub number: u8,
    pub span: Span,
}

/// The sections that are walked over, and where the walk ends before the message does, what is wrong there.
#[derive(Default)]
pub struct Walk {
    pub sections: Vec<Section>,
    pub fault: Option<Fault>,
}

/// The spans of a field's five sections.
pub type Spans = [Span; 5];

impl Walk {
    pub fn of(message: &[u8]) -> Walk {
        let mut walk = Walk::default();
        walk.fault = walk.go(message).err();
        walk
    }

    /// The number of the last section so far.
    pub fn last(&self) -> u8 {
        self.sections.last().map_or(0, |section| section.number)
    }

    /// How many octets it has come over.
    pub fn passed(&self) -> usize {
        let end = |section: &Section| section.span.first - 1 + section.span.length;
        self.sections
            .last()
            .map_or(SECTION_0, |last| end(last) as usize)
    }

    /// 23, then 24, then 25, of a section at the place that the walk has come to.
    fn look_at(&self, section: &[u8]) -> Result<(), Fault> {
        let number = section[4];
        let follows = may_follow(self.last()).contains(&number);
        Fault::OutOfOrder.if_so(!follows)?;
        Fault::BitMap.if_so(number == BIT_MAP && section != NO_BIT_MAP)?;
        Fault::AfterThe16thField.if_so(self.fields().len() == MOST_FIELDS)
    }

    fn go(&mut self, message: &[u8]) -> Result<(), Fault> {
        look_at_section0(message)?;
        let (sections, last_four) = message.split_at(message.len() - LAST_FOUR.len());
        while self.passed() < sections.len() {
            let section = cut(&sections[self.passed()..])?;
            self.look_at(section)?;
            self.sections.push(Section {
                number: section[4],
                span: Span {
                    first: self.passed() as u64 + 1,
                    length: section.len() as u64,
                },
            });
        }
        Fault::SectionMissing.if_so(self.last() != DATA)?;
        Fault::LastFour.if_so(last_four != LAST_FOUR)
    }

    /// Each field that is complete, with the sections that are in force where it ends.
    pub fn fields(&self) -> Vec<Spans> {
        let mut in_force = BTreeMap::new();
        let mut fields = vec![];
        for section in &self.sections {
            in_force.insert(section.number, section.span);
            if section.number == DATA {
                fields.push(OF_A_FIELD.map(|number| in_force[&number]));
            }
        }
        fields
    }
}

/// The five sections at these spans.
pub fn sections_at(message: &[u8], spans: Spans) -> [&[u8]; 5] {
    spans.map(|Span { first, length }| &message[first as usize - 1..][..length as usize])
}

pub struct MessageField {
    pub spans: Spans,
    pub read: FieldRead,
}

/// The frame's refusals, and then that of the first field refused.
pub fn read(message: &[u8]) -> Outcome<Vec<MessageField>> {
    let walk = Walk::of(message);
    if let Some(fault) = walk.fault {
        return Err(fault.refusal());
    }
    let read = |spans| {
        let read = field::read(sections_at(message, spans))?;
        Ok(MessageField { spans, read })
    };
    walk.fields().into_iter().map(read).collect()
}

#[cfg(test)]
mod tests {
    use super::*;
    use crate::examples::{message_sections as sections, section2};
    use crate::generate::messages::{close_message, framed};
    use crate::generate::sections::{close, put};

    fn message(from: &[usize]) -> Vec<u8> {
        framed(&sections(from))
    }

    fn number_of(message: &[u8]) -> u8 {
        let refusal = read(message).err();
        refusal.map_or(0, |refusal| {
            assert_eq!((refusal.section, refusal.place), (0, 0));
            refusal.number
        })
    }

    fn spans_of(message: &[u8]) -> Vec<[(u64, u64); 5]> {
        let fields = read(message).expect("accepted").into_iter();
        let pair = |span: Span| (span.first, span.length);
        fields.map(|field| field.spans.map(pair)).collect()
    }

    #[test]
    fn one_field() {
        let expected = [(17, 21), (38, 72), (110, 58), (168, 21), (195, 19)];
        assert_eq!(spans_of(&message(&[3])), [expected]);
        // Section 2 is passed over.
        let mut longer = sections(&[2]);
        longer[1] = section2(100);
        let expected = [(17, 21), (138, 72), (210, 58), (268, 21), (295, 19)];
        assert_eq!(spans_of(&framed(&longer)), [expected]);
    }

    #[test]
    fn what_is_not_repeated_stays_in_force() {
        let spans = spans_of(&message(&[3, 4, 3, 2]));
        assert_eq!(spans[1][..2], [(17, 21), (38, 72)]);
        assert_eq!(spans[1][2..], [(214, 58), (272, 21), (299, 19)]);
        assert_eq!(spans[2][1], (318, 72));
        assert_eq!(spans[3][1], (318 + 176 + 5, 72));
    }

    #[test]
    fn section_0() {
        let good = message(&[3]);
        for at in (1..=4).chain([EDITION_AT]).chain(TOTAL_AT..=SECTION_0) {
            let mut bad = good.clone();
            bad[at - 1] ^= 1;
            assert_eq!(number_of(&bad), 22, "{at}");
        }
        let mut other = good.clone();
        other[4..7].fill(0xff);
        assert_eq!(number_of(&other), 0);
        other.push(b'7');
        assert_eq!(number_of(&other), 22);
    }

    #[test]
    fn shortest_and_longest() {
        let mut nothing = framed(&[]);
        assert_eq!((nothing.len(), number_of(&nothing)), (20, 23));
        nothing.pop();
        close_message(&mut nothing);
        assert_eq!(number_of(&nothing), 22);
        let mut longest = sections(&[2]);
        let more = MOST_OCTETS - framed(&longest).len();
        longest[1].resize(5 + more, 0);
        close(&mut longest[1]);
        assert_eq!(number_of(&framed(&longest)), 0);
        longest[1].push(0);
        close(&mut longest[1]);
        assert_eq!(number_of(&framed(&longest)), 2);
        assert_eq!(number_of(&[0; MOST_OCTETS + 1]), 2);
        assert_eq!(number_of(&[0; MOST_OCTETS]), 22);
    }

    /// A message whose walk comes to a section of this number behind one of another, with nothing wrong before.
    fn behind(last: u8, number: u8) -> Vec<u8> {
        let mut front = sections(&[2]);
        front.truncate(last.into());
        front.push(vec![0, 0, 0, 5, number]);
        framed(&front)
    }

    #[test]
    fn every_order() {
        for last in 0..=DATA {
            for number in 0..=255 {
                let walk = Walk::of(&behind(last, number));
                assert_eq!(walk.sections.len().min(last.into()), usize::from(last));
                let expected = match (last, number) {
                    (5, BIT_MAP) => Fault::BitMap,
                    (6, DATA) => continue,
                    _ if may_follow(last).contains(&number) => Fault::SectionMissing,
                    _ => Fault::OutOfOrder,
                };
                assert_eq!(walk.fault, Some(expected), "{number} behind {last}");
            }
        }
    }

    #[test]
    fn a_section_is_missing_at_the_end() {
        for count in 0..=6 {
            let mut cut = sections(&[2]);
            cut.truncate(count);
            assert_eq!(number_of(&framed(&cut)), 23, "{count}");
        }
    }

    #[test]
    fn lengths() {
        for left in 1..=4 {
            let mut more = sections(&[3]);
            more.push(vec![0; left]);
            assert_eq!(Walk::of(&framed(&more)).fault, Some(Fault::TooFewLeft));
        }
        let stating = |length: u64| {
            let mut sections = sections(&[3]);
            put(&mut sections[5], 1, 4, length);
            Walk::of(&framed(&sections)).fault
        };
        for length in 0..=4 {
            assert_eq!(stating(length), Some(Fault::LengthUnder5));
        }
        assert_eq!(stating(18), Some(Fault::TooFewLeft));
        assert_eq!(stating(19), None);
        for length in [20, 23, 0xffff_ffff] {
            assert_eq!(stating(length), Some(Fault::IntoTheLastFour));
        }
    }

    #[test]
    fn section_6() {
        for bad in [
            &[0, 0, 0, 5, 6][..],
            &[0, 0, 0, 7, 6, 255, 255],
            &[0, 0, 0, 6, 6, 254],
            &[0, 0, 0, 6, 6, 0],
        ] {
            let mut sections = sections(&[3]);
            sections[4] = bad.to_vec();
            assert_eq!(number_of(&framed(&sections)), 24);
            // Where it stands out of order, 23 comes first.
            sections.swap(3, 4);
            assert_eq!(number_of(&framed(&sections)), 23);
        }
    }

    #[test]
    fn sixteen_fields() {
        let of = |fields, more: Vec<u8>| {
            let mut sections = sections(&vec![3; fields]);
            sections.push(more);
            framed(&sections)
        };
        let of_number = |number| vec![0, 0, 0, 5, number];
        assert_eq!(spans_of(&of(16, vec![])).len(), 16);
        assert_eq!(number_of(&of(17, vec![])), 25);
        for number in [2, 3, 4] {
            assert_eq!(number_of(&of(16, of_number(number))), 25);
            assert_eq!(number_of(&of(15, of_number(number))), 23);
        }
        for number in [0, 1, 5, 6, 7, 8] {
            assert_eq!(number_of(&of(16, of_number(number))), 23);
        }
    }

    #[test]
    fn last_four() {
        let good = message(&[3]);
        for back in 1..=4 {
            let mut bad = good.clone();
            let at = bad.len() - back;
            bad[at] = b'8';
            assert_eq!(Walk::of(&bad).fault, Some(Fault::LastFour));
        }
        // A section that is missing comes first.
        let mut cut = sections(&[3]);
        cut.pop();
        let mut cut = framed(&cut);
        *cut.last_mut().expect("an octet") = 0;
        assert_eq!(Walk::of(&cut).fault, Some(Fault::SectionMissing));
    }

    #[test]
    fn the_first_field_refused() {
        let mut sections = sections(&[3, 4, 4]);
        sections[7][19] = 33;
        sections[11][19] = 40;
        let refused = |sections: &[Vec<u8>]| read(&framed(sections)).err();
        let expected = Refusal {
            number: 8,
            section: 5,
            place: 20,
        };
        assert_eq!(refused(&sections), Some(expected));
        sections[3][8] = 11;
        assert_eq!(refused(&sections), Some(Refusal::of_section(14, 5)));
        // The frame comes before every field.
        sections[12][5] = 0;
        assert_eq!(refused(&sections), Some(Refusal::of_none(24)));
        sections[12] = NO_BIT_MAP.to_vec();
        sections[0][14] = 13;
        let expected = Refusal {
            number: 8,
            section: 1,
            place: 15,
        };
        assert_eq!(refused(&sections), Some(expected));
    }
}
