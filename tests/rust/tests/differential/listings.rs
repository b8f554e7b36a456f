//! `skogmund_list`.
use crate::tally::Tally;
use skogmund_tests::entries::{self, Answer};
use skogmund_tests::generate::queues::queue;
use skogmund_tests::generate::Rng;
use skogmund_tests::lent::{difference_of_answers, exact, hex, places_about, report, Lent};
use skogmund_tests::reference::{self, listing};

/// Enough places more often than not.
fn places_for_text(rng: &mut Rng, length: usize) -> usize {
    match rng.below(20) {
        0 => length - 1,
        1 => rng.below(length),
        2 => 0,
        3..=12 => length,
        _ => length + rng.within(1, 300),
    }
}

pub fn one_listing(rng: &mut Rng, tally: &mut Tally) -> Result<(), String> {
    let queue = exact(queue(rng));
    let (expected, fates) = listing::listing_and_fates(&queue);
    tally.outcome("list", &fates);
    tally.fates("list", fates.as_deref().unwrap_or(&[]));
    let places = places_for_text(rng, expected.len());
    let one = places_about(rng, 1);
    let mut text = Lent::new(rng, places, |pattern| pattern as u8);
    let mut length = Lent::new(rng, one, |pattern| pattern);
    let answer = entries::list(&queue, text.lent(), length.lent());
    let owed = reference::entries::list(&expected, places, one);
    tally.calls += 1;
    tally.outcome("list", &owed);
    tally.length(&queue);
    if owed.is_ok() {
        tally.kind("list: text written");
    }
    let owed_length = owed.map_or(vec![], |text| vec![text.len() as u64]);
    report(
        || {
            let written = String::from_utf8_lossy(text.now());
            format!(
                "list places {places} one {one} queue {}\n\
                 by the reference\n{expected}the library's buffer\n{written}",
                hex(&queue)
            )
        },
        [
            difference_of_answers(answer, Answer::from(&owed)),
            text.difference("text", owed.unwrap_or(&[])),
            length.difference("length", &owed_length),
            queue.change("the queue"),
        ],
    )
}
