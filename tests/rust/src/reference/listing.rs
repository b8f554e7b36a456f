//! What the programs print: the listing and the explanation of a queue, and the contents of a message.
use super::message::{self, MessageField};
use super::queue::{counts, file_queue, records, Fates, QueueRecord};
use super::shelf::{Card, Filed, Shelf};
use super::{grid, product, Outcome, Refusal, Span};

const HEADING: &str = "slot year month day hour minute second issue template\n";

fn time([year, month, day, hour, minute, second]: [i64; 6]) -> String {
    format!("{year} {month} {day} {hour} {minute} {second}")
}

fn held_line(slot: usize, card: &Card) -> String {
    let (time, issue, template) = (time(card.reference_time), card.issue, card.template());
    format!("{slot} {time} {issue} {template}\n")
}

fn counts_line(fates: &Fates) -> String {
    let [kept, passed, refused] = counts(fates);
    format!("kept {kept} passed {passed} refused {refused}\n")
}

fn text(filed: &Outcome<Fates>, shelf: &Shelf) -> String {
    match filed {
        Err(Refusal { number, .. }) => format!("refused {number}\n"),
        Ok(fates) => {
            let held = shelf.held().map(|(slot, card)| held_line(slot, card));
            HEADING.to_string() + &held.collect::<String>() + &counts_line(fates)
        }
    }
}

/// The text, and what became of the records.
pub fn listing_and_fates(queue: &[u8]) -> (String, Outcome<Fates>) {
    let mut shelf = Shelf::empty();
    let filed = file_queue(&mut shelf, queue);
    (text(&filed, &shelf), filed)
}

/// The text for a queue, from an empty shelf.
pub fn listing(queue: &[u8]) -> String {
    listing_and_fates(queue).0
}

const EXPLAINED: &str = "record slot issue fate\n";

/// What became of a field or a record, in words.
pub fn fate(filed: &Outcome<Filed>) -> String {
    match filed {
        Ok(Filed::Kept) => "kept".to_string(),
        Ok(Filed::Passed) => "passed".to_string(),
        Err(refusal) => refused(*refusal),
    }
}

fn refused(refusal: Refusal) -> String {
    format!("refused {refusal}")
}

/// A record's line; an issue that is not named is a dash.
fn record_line((place, (record, filed)): (usize, (&QueueRecord, &Outcome<Filed>))) -> String {
    let named = record.issue.map(|issue| issue.to_string());
    let issue = named.unwrap_or("-".to_string());
    format!("{place} {} {issue} {}\n", record.slot, fate(filed))
}

/// What became of each record, from an empty shelf.
pub fn explanation(queue: &[u8]) -> String {
    match (records(queue), file_queue(&mut Shelf::empty(), queue)) {
        (Ok(records), Ok(fates)) => {
            let lines = (1..).zip(records.iter().zip(&fates)).map(record_line);
            EXPLAINED.to_string() + &lines.collect::<String>() + &counts_line(&fates)
        }
        (_, refused) => text(&refused, &Shelf::empty()),
    }
}

pub const CONTENTS: &str = "field year month day hour minute second grid product points bits \
                            first1 length1 first3 length3 first4 length4 first5 length5 first7 length7\n";

fn field_line((place, field): (usize, &MessageField)) -> String {
    let read = &field.read;
    let time = time(read.identification.reference_time());
    let grid = read.grid.record.number(grid::TEMPLATE_AT);
    let product = read.product.record.number(product::TEMPLATE_AT);
    let (points, bits) = (read.grid.points, read.packing.bits);
    let spans = field
        .spans
        .map(|Span { first, length }| format!(" {first} {length}"));
    format!(
        "{place} {time} {grid} {product} {points} {bits}{}\n",
        spans.concat()
    )
}

/// The fields of a message.
pub fn contents(message: &[u8]) -> String {
    match message::read(message) {
        Ok(fields) => {
            let lines = (1..).zip(&fields).map(field_line);
            let count = fields.len();
            CONTENTS.to_string() + &lines.collect::<String>() + &format!("fields {count}\n")
        }
        Err(refusal) => refused(refusal) + "\n",
    }
}

#[cfg(test)]
mod tests {
    use super::*;
    use crate::examples::message_sections;
    use crate::generate::messages::framed;

    #[test]
    fn empty_queue() {
        let expected = format!("{HEADING}kept 0 passed 0 refused 0\n");
        assert_eq!(listing(&[]), expected);
    }

    #[test]
    fn refused_queue() {
        assert_eq!(listing(&[0x80, 0x00]), "refused 19\n");
        assert_eq!(listing(&[0; 65_537]), "refused 2\n");
    }

    #[test]
    fn refused_records() {
        let queue = [64, 0, 0, 0, 1, 0];
        let counts = "kept 0 passed 0 refused 2\n";
        assert_eq!(listing(&queue), format!("{HEADING}{counts}"));
        let lines = "1 64 - refused 20 0 0\n2 0 0 refused 20 0 0\n";
        assert_eq!(explanation(&queue), format!("{EXPLAINED}{lines}{counts}"));
        assert_eq!(explanation(&[0x80, 0x00]), "refused 19\n");
    }

    #[test]
    fn a_message() {
        let mut sections = message_sections(&[3]);
        let line = "1 2024 3 7 0 0 0 0 8 12 9 17 21 38 72 110 58 168 21 195 19\n";
        let expected = format!("{CONTENTS}{line}fields 1\n");
        assert_eq!(contents(&framed(&sections)), expected);
        sections[0][14] = 0;
        assert_eq!(contents(&framed(&sections)), "refused 8 1 15\n");
        sections.pop();
        assert_eq!(contents(&framed(&sections)), "refused 23 0 0\n");
    }
}
