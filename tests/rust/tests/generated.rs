//! What is generated undamaged is accepted by the reference, so that damage alone makes refusals.
use skogmund_tests::generate::filings::Stock;
use skogmund_tests::generate::messages::{framed, message, Whole};
use skogmund_tests::generate::queues::{queue, record, spelled};
use skogmund_tests::generate::sections::{self, Size};
use skogmund_tests::generate::shelves::{any_shelf, of_another_length, shelf_beside};
use skogmund_tests::generate::Rng;
use skogmund_tests::reference::message::{self, sections_at, MOST_FIELDS};
use skogmund_tests::reference::queue::named_issue;
use skogmund_tests::reference::shelf::{Filed, Shelf};
use skogmund_tests::reference::shelf_octets::SHELF_OCTETS;
use skogmund_tests::reference::{self, listing::listing_and_fates};

const TIMES: u64 = 5_000;

fn accepted(section: u8, s: &[u8]) {
    let read = reference::read(section, s);
    assert!(read.is_ok(), "{read:?}: {s:02x?}");
}

#[test]
fn sections_are_accepted() {
    for input in 0..TIMES {
        let rng = &mut Rng::of_input(1, input);
        let size = Size::some(rng);
        accepted(1, &sections::section1(rng));
        accepted(3, &sections::section3(rng, size));
        accepted(4, &sections::section4(rng, size));
    }
}

#[test]
fn large_sections_are_accepted() {
    for input in 0..TIMES / 20 {
        let rng = &mut Rng::of_input(2, input);
        accepted(3, &sections::section3(rng, Size::Large));
        accepted(4, &sections::section4(rng, Size::Large));
    }
}

#[test]
fn packed_values_go_together() {
    for input in 0..TIMES {
        let rng = &mut Rng::of_input(3, input);
        let (five, seven) = sections::packed(rng);
        let values = reference::octets::number(&five, 6, 9) as usize;
        assert!(reference::unpack(&five, &seven, values).is_ok());
    }
}

#[test]
fn fields_keep_their_time() {
    let times = [
        [2_024, 3, 7, 0, 0, 0],
        [-327_692_766, 12, 31, 23, 59, 59],
        [327_702_767, 1, 1, 0, 0, 0],
        [65_534, 2, 31, 1, 2, 3],
        [-5, 1, 1, 0, 0, 0],
    ];
    for input in 0..TIMES {
        let rng = &mut Rng::of_input(4, input);
        let time = rng.pick(&times);
        let field = sections::field_at(rng, time, Size::Small);
        let queue = [
            spelled(63),
            spelled(1),
            spelled(field.concat().len() as u64),
            field.concat(),
        ];
        let (text, fates) = listing_and_fates(&queue.concat());
        let fate = fates.expect("a queue")[0];
        let [year, month, day, hour, minute, second] = time;
        let line = format!("\n63 {year} {month} {day} {hour} {minute} {second} 0 ");
        let other_calendar = fate.is_err_and(|refusal| refusal.number == 17);
        assert!(
            other_calendar || fate == Ok(Filed::Kept) && text.contains(&line),
            "{text}"
        );
    }
}

#[test]
fn same_seed_same_queue_and_message() {
    for input in 0..100 {
        let made = |make: fn(&mut Rng) -> Vec<u8>| make(&mut Rng::of_input(5, input));
        assert_eq!(made(queue), made(queue));
        assert_eq!(made(message), made(message));
    }
}

#[test]
fn messages_are_accepted_with_their_fields() {
    for input in 0..TIMES / 10 {
        let rng = &mut Rng::of_input(9, input);
        let count = rng.within(1, MOST_FIELDS);
        let whole = Whole::of(rng, count);
        let message = framed(&whole.sections);
        let read = message::read(&message).unwrap_or_else(|refusal| panic!("{refusal}"));
        let sections = read.iter().map(|field| sections_at(&message, field.spans));
        assert!(sections.eq(whole
            .fields
            .iter()
            .map(|field| field.each_ref().map(|s| &s[..]))));
    }
}

#[test]
fn shelves_are_of_a_shelfs_length_or_not() {
    for input in 0..TIMES / 10 {
        let rng = &mut Rng::of_input(7, input);
        let shelf = any_shelf(rng);
        assert_eq!(shelf.len(), SHELF_OCTETS);
        assert_eq!(shelf_beside(rng, &shelf).len(), SHELF_OCTETS);
        assert_ne!(of_another_length(rng, &shelf).len(), SHELF_OCTETS);
    }
}

/// So that filings reach the shelf, and cards that are there already.
#[test]
fn fields_of_one_stock_compete() {
    let mut times = [0; 3];
    for input in 0..TIMES / 10 {
        let rng = &mut Rng::of_input(8, input);
        let stock = Stock::new(rng);
        let mut shelf = Shelf::empty();
        for _ in 0..10 {
            let filing = stock.filing(rng);
            let issue = named_issue(filing.issue_plus_1);
            match shelf.file(filing.slot, issue, filing.sections()) {
                Ok(Filed::Kept) => times[0] += 1,
                Ok(Filed::Passed) => times[1] += 1,
                Err(_) => times[2] += 1,
            }
        }
    }
    assert!(
        times.into_iter().all(|times| times > TIMES / 10),
        "{times:?}"
    );
}

#[test]
fn a_record_begins_with_three_numbers() {
    let rng = &mut Rng::of_input(6, 0);
    assert_eq!(record(rng, 7, 300, &[1, 2]), [7, 0xac, 2, 2, 1, 2]);
}
