//! What the C entries owe beyond document 01, from the header's text: the sizes of what is lent, what is written at its start,
//! and shelves as octets. Each gives what is written, so that all else stays as it was.
use super::message::{self, MessageField, MOST_FIELDS, OF_A_FIELD};
use super::queue::{self, named_issue, Fates, GREATEST};
use super::shelf::{Card, Filed, Shelf, SLOTS};
use super::shelf_octets::SHELF_OCTETS;
use super::{parts, refuse_if, Outcome};

/// Places that the values of every section, and of a slot, are lent.
pub const VALUES: usize = 64;
/// Places that the spans of every message are lent: first octet and length of each section of each field.
pub const SPANS: usize = 2 * OF_A_FIELD.len() * MOST_FIELDS;

/// 18, which comes after all other refusals.
fn refuse_places(too_few: bool) -> Outcome<()> {
    refuse_if(too_few, 18, 0)
}

fn lent_shelf(octets: &[u8]) -> Outcome<Shelf> {
    refuse_places(octets.len() != SHELF_OCTETS)?;
    Ok(Shelf::of_octets(octets))
}

/// Values with their count in front.
fn counted(values: Vec<i64>) -> Vec<i64> {
    let count = values.len() as i64;
    [vec![count], values].concat()
}

/// The values of a section, into so many places.
pub fn read(section: u8, s: &[u8], places: usize) -> Outcome<Vec<i64>> {
    let values = super::read(section, s)?;
    refuse_places(places < VALUES)?;
    Ok(counted(values))
}

/// First octet and length, into the first two of so many places.
pub fn part(part: u8, s: &[u8], k: u64, places: usize) -> Outcome<[u64; 2]> {
    refuse_places(places < 2)?;
    let span = parts::part(part, s, k);
    Ok([span.first, span.length])
}

/// A text, into so many places, and its length, into the first of `one` places.
pub fn list(text: &str, places: usize, one: usize) -> Outcome<&[u8]> {
    refuse_places(text.len() > places || one == 0)?;
    Ok(text.as_bytes())
}

/// The spans of the fields of a message, into so many places; how many fields there are goes into the first of `one` places.
pub fn message(message: &[u8], places: usize, one: usize) -> Outcome<Vec<[u64; 10]>> {
    let fields = message::read(message)?;
    refuse_places(places < SPANS || one == 0)?;
    let spans = |field: MessageField| {
        let pairs = field.spans.map(|span| [span.first, span.length]);
        pairs.concat().try_into().expect("five pairs")
    };
    Ok(fields.into_iter().map(spans).collect())
}

pub fn empty(octets: usize) -> Outcome<Vec<u8>> {
    refuse_places(octets != SHELF_OCTETS)?;
    Ok(Shelf::empty().octets())
}

/// The card that filing takes to a slot: 19, then as document 01 has it.
pub fn card(slot: u64, issue_plus_1: u64, sections: [&[u8]; 5]) -> Outcome<Card> {
    refuse_if(issue_plus_1 > GREATEST, 19, 0)?;
    Card::to_file(slot, named_issue(issue_plus_1), sections)
}

/// The shelf after filing, and whether the slot changed, into the first of `one` places.
pub fn file(
    shelf: &[u8],
    slot: u64,
    issue_plus_1: u64,
    sections: [&[u8]; 5],
    one: usize,
) -> Outcome<(Vec<u8>, Filed)> {
    let card = card(slot, issue_plus_1, sections)?;
    let mut shelf = lent_shelf(shelf)?;
    refuse_places(one == 0)?;
    let filed = shelf.put(slot as usize, Some(card));
    Ok((shelf.octets(), filed))
}

/// The shelf after a queue, and what became of the records, whose counts go into the first three of `three` places.
pub fn file_queue(shelf: &[u8], queue: &[u8], three: usize) -> Outcome<(Vec<u8>, Fates)> {
    let records = queue::records(queue)?;
    let mut shelf = lent_shelf(shelf)?;
    refuse_places(three < 3)?;
    let fates = queue::file_records(&mut shelf, records);
    Ok((shelf.octets(), fates))
}

/// The shelf after joining another in.
pub fn join(shelf: &[u8], other: &[u8]) -> Outcome<Vec<u8>> {
    let (mut shelf, other) = (lent_shelf(shelf)?, lent_shelf(other)?);
    shelf.join(&other);
    Ok(shelf.octets())
}

/// What a slot holds, into so many places.
pub fn slot(shelf: &[u8], slot: u64, places: usize) -> Outcome<Vec<i64>> {
    refuse_if(slot >= SLOTS as u64, 16, 0)?;
    let shelf = lent_shelf(shelf)?;
    refuse_places(places < VALUES)?;
    let card = &shelf.slots[slot as usize];
    Ok(counted(card.as_ref().map_or(vec![], Card::values)))
}

#[cfg(test)]
mod tests {
    use super::*;
    use crate::examples::message_sections;
    use crate::generate::messages::framed;
    use crate::reference::Refusal;

    const SECTION_7: [u8; 6] = [0, 0, 0, 6, 7, 0xff];

    #[test]
    fn values_come_with_their_count() {
        assert_eq!(read(7, &SECTION_7, VALUES), Ok(vec![2, 6, 7]));
    }

    #[test]
    fn too_few_places_come_last() {
        assert_eq!(read(7, &SECTION_7, 63), Err(Refusal::of_none(18)));
        assert_eq!(read(7, &[], 63), Err(Refusal::of_section(1, 7)));
        assert_eq!(read(2, &[], 63), Err(Refusal::of_section(4, 2)));
        assert_eq!(slot(&[], 64, 0), Err(Refusal::of_none(16)));
        assert_eq!(slot(&[], 63, VALUES), Err(Refusal::of_none(18)));
        assert_eq!(file_queue(&[], &[0x80], 0), Err(Refusal::of_none(19)));
        assert_eq!(file_queue(&[], &[], 3), Err(Refusal::of_none(18)));
    }

    #[test]
    fn too_few_places_for_a_message_come_last() {
        let good = framed(&message_sections(&[3]));
        let of = |places, one| message(&good, places, one).map(|fields| fields.len());
        assert_eq!(SPANS, 160);
        assert_eq!(of(160, 1), Ok(1));
        assert_eq!(of(161, 2), Ok(1));
        assert_eq!(of(159, 1), Err(Refusal::of_none(18)));
        assert_eq!(of(160, 0), Err(Refusal::of_none(18)));
        assert_eq!(message(&good[1..], 0, 0), Err(Refusal::of_none(22)));
    }

    #[test]
    fn issue_plus_1_comes_first() {
        let nothing: [&[u8]; 5] = [&[]; 5];
        let filed = |slot, issue_plus_1| file(&[], slot, issue_plus_1, nothing, 0);
        assert_eq!(filed(64, GREATEST + 1), Err(Refusal::of_none(19)));
        assert_eq!(filed(64, GREATEST), Err(Refusal::of_none(16)));
        assert_eq!(filed(63, GREATEST), Err(Refusal::of_section(1, 1)));
    }

    #[test]
    fn an_empty_slot_has_no_values() {
        let shelf = empty(SHELF_OCTETS).expect("a shelf");
        assert_eq!(slot(&shelf, 63, VALUES), Ok(vec![0]));
        assert_eq!(empty(SHELF_OCTETS + 1), Err(Refusal::of_none(18)));
    }
}
