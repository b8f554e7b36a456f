//! The queue file.
use super::octets::number;
use super::shelf::{Card, Filed, Shelf};
use super::{refuse_if, Outcome, Refusal, MOST_OCTETS};

const MOST_GROUPS: usize = 5;
/// The greatest number of a queue, and issue + 1 at the most.
pub const GREATEST: u64 = 4_294_967_296;
pub const SMALLEST_SECTION: u64 = 5;

/// What is left of a queue.
struct Rest<'a>(&'a [u8]);

fn malformed<T>() -> Outcome<T> {
    Err(Refusal::of_none(19))
}

impl<'a> Rest<'a> {
    fn take(&mut self, octets: u64) -> Outcome<&'a [u8]> {
        if octets > self.0.len() as u64 {
            return malformed();
        }
        let (taken, rest) = self.0.split_at(octets as usize);
        self.0 = rest;
        Ok(taken)
    }

    /// A number in groups of seven bits, least first, in its shortest form.
    fn number(&mut self) -> Outcome<u64> {
        let is_last = |octet: &u8| octet & 0x80 == 0;
        let Some(last) = self.0.iter().position(is_last) else {
            return malformed();
        };
        let groups = self.take(last as u64 + 1)?;
        let not_shortest = groups.len() > 1 && groups[last] == 0;
        if groups.len() > MOST_GROUPS || not_shortest {
            return malformed();
        }
        let grown = |so_far, octet: &u8| so_far << 7 | u64::from(octet & 0x7f);
        match groups.iter().rev().fold(0, grown) {
            number @ 0..=GREATEST => Ok(number),
            _ => malformed(),
        }
    }
}

#[derive(Clone, Copy, Debug, PartialEq, Eq)]
pub struct QueueRecord<'a> {
    pub slot: u64,
    pub issue: Option<u32>,
    pub body: &'a [u8],
}

/// The issue that an issue + 1 names, if it names one.
pub fn named_issue(issue_plus_1: u64) -> Option<u32> {
    issue_plus_1.checked_sub(1).map(|issue| issue as u32)
}

fn next_record<'a>(rest: &mut Rest<'a>) -> Outcome<QueueRecord<'a>> {
    let slot = rest.number()?;
    let stored = rest.number()?;
    let length = rest.number()?;
    Ok(QueueRecord {
        slot,
        issue: named_issue(stored),
        body: rest.take(length)?,
    })
}

/// All records of a queue: 2, then 19 over the whole file.
pub fn records(queue: &[u8]) -> Outcome<Vec<QueueRecord<'_>>> {
    refuse_if(queue.len() > MOST_OCTETS, 2, 0)?;
    let mut rest = Rest(queue);
    let mut records = Vec::new();
    while !rest.0.is_empty() {
        records.push(next_record(&mut rest)?);
    }
    Ok(records)
}

/// The section that a body begins with, cut by its own length octets, and what is left.
fn first_section(body: &[u8]) -> Option<(&[u8], &[u8])> {
    if (body.len() as u64) < SMALLEST_SECTION {
        return None;
    }
    let length = number(body, 1, 4);
    let fits = SMALLEST_SECTION <= length && length <= body.len() as u64;
    fits.then(|| body.split_at(length as usize))
}

/// Exactly five sections of 5 or more octets.
pub fn five_sections(body: &[u8]) -> Option<[&[u8]; 5]> {
    let mut rest = body;
    let mut sections: [&[u8]; 5] = [&[]; 5];
    for section in &mut sections {
        (*section, rest) = first_section(rest)?;
    }
    rest.is_empty().then_some(sections)
}

impl QueueRecord<'_> {
    /// The card that the record takes to its slot: 20, then as filing.
    pub fn card(&self) -> Outcome<Card> {
        let sections = five_sections(self.body).ok_or(Refusal::of_none(20))?;
        Card::to_file(self.slot, self.issue, sections)
    }
}

/// What became of each record, in their order.
pub type Fates = Vec<Outcome<Filed>>;

pub fn file_records(shelf: &mut Shelf, records: Vec<QueueRecord>) -> Fates {
    let file = |record: QueueRecord| {
        let card = record.card()?;
        Ok(shelf.put(record.slot as usize, Some(card)))
    };
    records.into_iter().map(file).collect()
}

pub fn file_queue(shelf: &mut Shelf, queue: &[u8]) -> Outcome<Fates> {
    let records = records(queue)?;
    Ok(file_records(shelf, records))
}

/// The records kept, passed and refused.
pub fn counts(fates: &Fates) -> [u64; 3] {
    let count = |wanted: fn(&Outcome<Filed>) -> bool| {
        let counted = fates.iter().filter(|fate| wanted(fate));
        counted.count() as u64
    };
    [
        count(|fate| *fate == Ok(Filed::Kept)),
        count(|fate| *fate == Ok(Filed::Passed)),
        count(|fate| fate.is_err()),
    ]
}

#[cfg(test)]
mod tests {
    use super::*;

    fn number_of(octets: &[u8]) -> Option<u64> {
        Rest(octets).number().ok()
    }

    #[test]
    fn numbers_of_the_document() {
        assert_eq!(number_of(&[0xac, 0x02]), Some(300));
        assert_eq!(number_of(&[0x80, 0x00]), None);
        assert_eq!(number_of(&[0]), Some(0));
    }

    #[test]
    fn ends_of_the_range() {
        assert_eq!(number_of(&[0x80, 0x80, 0x80, 0x80, 0x10]), Some(GREATEST));
        assert_eq!(number_of(&[0x81, 0x80, 0x80, 0x80, 0x10]), None);
        assert_eq!(
            number_of(&[0xff, 0xff, 0xff, 0xff, 0x0f]),
            Some(GREATEST - 1)
        );
        assert_eq!(number_of(&[0x80, 0x80, 0x80, 0x80, 0x80, 0x01]), None);
        assert_eq!(number_of(&[0x80]), None);
        assert_eq!(number_of(&[]), None);
    }

    #[test]
    fn a_body_past_the_end() {
        assert_eq!(records(&[0, 0, 1]), malformed());
        assert_eq!(records(&[0, 0, 0]).map(|records| records.len()), Ok(1));
        let too_long = vec![0; MOST_OCTETS + 1];
        assert_eq!(records(&too_long), Err(Refusal::of_none(2)));
        // 65,536 is 3 x 21,845 + 1: the last record is cut off.
        assert_eq!(records(&too_long[1..]), malformed());
    }

    #[test]
    fn bodies() {
        let section = [0, 0, 0, 5, 9];
        assert!(five_sections(&section.repeat(5)).is_some());
        assert!(five_sections(&section.repeat(4)).is_none());
        assert!(five_sections(&section.repeat(6)).is_none());
        assert!(five_sections(&[section.repeat(5), vec![0]].concat()).is_none());
        assert!(five_sections(&[section.repeat(4), vec![0, 0, 0, 4, 0]].concat()).is_none());
        assert!(five_sections(&[]).is_none());
    }
}
