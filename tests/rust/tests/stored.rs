//! The stored cases. That the reference answers what it wrote itself shows nothing; so here it is held to what others say: an independent
//! decoder's answers to 46 messages, document 01's listing, what was known beforehand of a case (which working the cases out compares), and
//! what has to hold of every queue and of every message. That the files are as they would be written: `cases --check`.
use skogmund_tests::cases::{self, decoded, Asked, EXAMPLE_CONTENTS, EXAMPLE_LISTING};
use skogmund_tests::examples::message_sections;
use skogmund_tests::generate::messages::framed;
use skogmund_tests::reference::message::{self, sections_at, MOST_FIELDS};
use skogmund_tests::reference::queue::{counts, file_queue, Fates};
use skogmund_tests::reference::shelf::Shelf;
use skogmund_tests::reference::{contents, explanation, listing, Outcome};
use std::collections::BTreeSet;
use std::fs;
use std::path::PathBuf;

fn stored(name: &str) -> Vec<u8> {
    let path = PathBuf::from(env!("CARGO_MANIFEST_DIR"))
        .join("../../crates")
        .join(name);
    fs::read(&path).unwrap_or_else(|error| panic!("{name}: {error}"))
}

#[test]
fn messages_of_an_independent_decoder() {
    let messages = decoded::messages();
    assert_eq!(messages.len(), 46);
    let fields = messages.iter().flat_map(|message| &message.fields);
    assert_eq!(fields.filter(|field| field.has_offset_rows()).count(), 4);
    let gathered = decoded::gathered();
    assert!(gathered[0].1.ends_with("\nfields 16\n"));
    let answers = messages.iter().flat_map(|message| message.answers());
    for (asked, told) in answers.chain(gathered) {
        assert_eq!(cases::by_reference(&asked), told, "{}", asked.line());
    }
}

#[test]
fn the_listing_of_the_document() {
    let queue = stored("listing/stdin");
    assert_eq!(listing(&queue), EXAMPLE_LISTING);
    assert_eq!(stored("listing/stdout"), EXAMPLE_LISTING.as_bytes());
    let explained = "record slot issue fate\n\
                     1 7 40 kept\n\
                     2 7 41 passed\n\
                     kept 1 passed 1 refused 0\n";
    assert_eq!(explanation(&queue), explained);
}

#[test]
fn the_contents_of_the_example() {
    let message = framed(&message_sections(&[3]));
    assert_eq!(contents(&message), EXAMPLE_CONTENTS);
}

fn queues() -> Vec<(String, Vec<u8>)> {
    let of_queue = |case: cases::Case| match case.asked {
        Asked::Queue(queue) => Some((case.shows, queue)),
        _ => None,
    };
    cases::all().into_iter().filter_map(of_queue).collect()
}

fn messages() -> Vec<(String, Vec<u8>)> {
    let of_message = |case: cases::Case| match case.asked {
        Asked::Message(message) => Some((case.shows, message)),
        _ => None,
    };
    cases::all().into_iter().filter_map(of_message).collect()
}

fn filed(queue: &[u8]) -> (Outcome<Fates>, Shelf) {
    let mut shelf = Shelf::empty();
    (file_queue(&mut shelf, queue), shelf)
}

/// The two texts end with the same counts, which sum to the records, and a line stands for each record and each held slot.
fn texts_agree(shows: &str, queue: &[u8], fates: &Fates, shelf: &Shelf) {
    let (listing, explanation) = (listing(queue), explanation(queue));
    let [kept, passed, refused] = counts(fates);
    let last = format!("kept {kept} passed {passed} refused {refused}\n");
    assert!(
        listing.ends_with(&last) && explanation.ends_with(&last),
        "{shows}"
    );
    assert_eq!(kept + passed + refused, fates.len() as u64, "{shows}");
    assert_eq!(explanation.lines().count(), fates.len() + 2, "{shows}");
    let held = shelf.held().count();
    assert_eq!(listing.lines().count(), held + 2, "{shows}");
    assert!(held as u64 <= kept, "{shows}");
}

#[test]
fn what_holds_of_every_queue() {
    let mut numbers = BTreeSet::new();
    for (shows, queue) in queues() {
        match filed(&queue) {
            (Err(refusal), _) => {
                let text = format!("refused {}\n", refusal.number);
                assert_eq!((listing(&queue), explanation(&queue)), (text.clone(), text));
                numbers.insert(refusal.number);
            }
            (Ok(fates), shelf) => {
                texts_agree(&shows, &queue, &fates, &shelf);
                numbers.extend(
                    fates
                        .iter()
                        .filter_map(|fate| fate.err())
                        .map(|refusal| refusal.number),
                );
            }
        }
    }
    // A record never has 1, 3 or 18, and 2 is the whole queue's.
    let met = [2].into_iter().chain(4..=11).chain(13..=17).chain(19..=21);
    assert_eq!(numbers, met.collect());
}

#[test]
fn the_order_of_queues_decides_nothing_but_the_counts() {
    let mut accepted = queues();
    accepted.retain(|(shows, queue)| shows.contains("any records") && filed(queue).0.is_ok());
    assert!(accepted.len() > 30);
    for pair in accepted.windows(2) {
        let [(_, a), (_, b)] = pair else {
            panic!("two");
        };
        let (one_way, other_way) = (filed(&[&a[..], b].concat()), filed(&[&b[..], a].concat()));
        assert_eq!(one_way.1, other_way.1);
    }
}

/// The fields' sections are parts of the message in their order, and between them stand only sections 2 and 6; so each field can be filed by
/// itself, and a queue of them all is filed as the fields are, but for a calendar.
fn fields_stand_in_order(shows: &str, octets: &[u8], fields: &[message::MessageField]) {
    let mut passed = 16;
    for field in fields {
        for (span, section) in field.spans.iter().zip(sections_at(octets, field.spans)) {
            let in_force = span.first <= passed;
            if !in_force {
                let between = &octets[passed as usize..span.first as usize - 1];
                assert!(
                    between.is_empty() || [2, 6].contains(&between[4]),
                    "{shows}"
                );
                passed = span.first - 1 + span.length;
            }
            assert_eq!(section.len() as u64, span.length, "{shows}");
        }
    }
    assert_eq!(passed as usize + 4, octets.len(), "{shows}");
}

#[test]
fn what_holds_of_every_message() {
    let mut numbers = BTreeSet::new();
    for (shows, octets) in messages() {
        let text = contents(&octets);
        match message::read(&octets) {
            Err(refusal) => {
                assert_eq!(text, format!("refused {refusal}\n"), "{shows}");
                numbers.insert(refusal.number);
            }
            Ok(fields) => {
                assert!((1..=MOST_FIELDS).contains(&fields.len()), "{shows}");
                assert_eq!(text.lines().count(), fields.len() + 2, "{shows}");
                let last = format!("\nfields {}\n", fields.len());
                assert!(text.ends_with(&last), "{shows}");
                fields_stand_in_order(&shows, &octets, &fields);
            }
        }
    }
    // 4 is 23 there, and a calendar is no matter of a message.
    let met = [2].into_iter().chain(5..=11).chain(13..=15).chain(21..=25);
    assert_eq!(numbers, met.collect());
}
