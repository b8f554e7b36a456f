//! The entries for shelves. An input is several calls one after the other on two shelves, which begin empty or as any octets, so
//! that every entry is lent what the others made, and what none of them makes.
use crate::tally::Tally;
use skogmund_tests::entries::{self, Answer};
use skogmund_tests::generate::filings::{Filing, Stock};
use skogmund_tests::generate::queues::queue_of;
use skogmund_tests::generate::shelves::{any_shelf, of_another_length, shelf_beside, slot_number};
use skogmund_tests::generate::Rng;
use skogmund_tests::lent::{
    change_of, difference_of_answers, exact, hex, places_about, report, Lent,
};
use skogmund_tests::reference::entries::VALUES;
use skogmund_tests::reference::shelf::{Filed, Shelf};
use skogmund_tests::reference::shelf_octets::{is_as_written, SHELF_OCTETS};
use skogmund_tests::reference::{self, queue, Outcome};

type Octets = Vec<u8>;

/// One shelf and another. `here` is what a call changes.
struct Shelves {
    here: Octets,
    other: Octets,
}

/// A shelf as it is, or one of another length now and then.
fn lent_shelf(rng: &mut Rng, tally: &mut Tally, shelf: &[u8]) -> Lent<u8> {
    let pattern = |pattern| pattern as u8;
    if rng.percent(6) {
        let other = of_another_length(rng, shelf);
        return Lent::holding(rng, &other, pattern);
    }
    tally.kind(match is_as_written(shelf) {
        true => "shelf: as an entry writes it",
        false => "shelf: as no entry writes it",
    });
    Lent::holding(rng, shelf, pattern)
}

/// 18 has several causes.
fn tally_places<T>(tally: &mut Tally, owed: &Outcome<T>, shelf: &[u8]) {
    if owed.as_ref().is_err_and(|refusal| refusal.number == 18) {
        tally.kind(match shelf.len() {
            0..SHELF_OCTETS => "shelf: too short",
            SHELF_OCTETS => "shelf: too little beside it",
            _ => "shelf: too long",
        });
    }
}

/// What one call on `here` came to.
struct Call<'a, T> {
    entry: &'static str,
    answer: Answer,
    owed: &'a Outcome<T>,
    shelf: &'a Lent<u8>,
    /// What the shelf is to hold afterwards, unless the call is refused.
    written: &'a [u8],
}

/// Compares the answer, the shelf and what else was lent; takes the shelf over that the library made.
fn settle<T>(
    tally: &mut Tally,
    here: &mut Octets,
    call: Call<T>,
    said: impl Fn() -> String,
    beside: impl IntoIterator<Item = Option<String>>,
) -> Result<(), String> {
    tally.calls += 1;
    tally.outcome(call.entry, call.owed);
    tally_places(tally, call.owed, call.shelf.before());
    report(
        || format!("{} shelf {}", said(), hex(call.shelf.before())),
        [
            difference_of_answers(call.answer, Answer::from(call.owed)),
            call.shelf.difference("shelf", call.written),
        ]
        .into_iter()
        .chain(beside),
    )?;
    if call.owed.is_ok() {
        *here = call.shelf.now().to_vec();
    }
    Ok(())
}

fn empty_one(rng: &mut Rng, tally: &mut Tally, here: &mut Octets) -> Result<(), String> {
    let mut shelf = lent_shelf(rng, tally, here);
    let answer = entries::empty(shelf.lent());
    let owed = reference::entries::empty(shelf.before().len());
    let call = Call {
        entry: "empty",
        answer,
        owed: &owed,
        shelf: &shelf,
        written: owed.as_deref().unwrap_or(&[]),
    };
    settle(tally, here, call, || "empty".to_string(), [])
}

pub fn filing_in_hex(filing: &Filing) -> String {
    let Filing {
        slot, issue_plus_1, ..
    } = filing;
    let sections = [1, 3, 4, 5, 7].iter().zip(filing.sections());
    let sections: String = sections
        .map(|(section, s)| format!(" section {section} {}", hex(s)))
        .collect();
    format!("file slot {slot} issue_plus_1 {issue_plus_1}{sections}")
}

fn file_one(
    rng: &mut Rng,
    tally: &mut Tally,
    stock: &Stock,
    here: &mut Octets,
) -> Result<(), String> {
    let filing = &stock.filing(rng);
    let before = filing.sections().concat();
    let one = places_about(rng, 1);
    let mut shelf = lent_shelf(rng, tally, here);
    let mut kept = Lent::new(rng, one, |pattern| pattern);
    let (slot, issue, sections) = (filing.slot, filing.issue_plus_1, filing.sections());
    let answer = entries::file(shelf.lent(), slot, issue, sections, kept.lent());
    let owed = reference::entries::file(shelf.before(), slot, issue, sections, one);
    let (written, owed_kept) = match &owed {
        Err(_) => (&[][..], vec![]),
        Ok((octets, filed)) => (&octets[..], vec![u64::from(*filed == Filed::Kept)]),
    };
    if let Ok((_, filed)) = &owed {
        tally.fates("file", &[Ok(*filed)]);
    }
    let call = Call {
        entry: "file",
        answer,
        owed: &owed,
        shelf: &shelf,
        written,
    };
    let said = || format!("{} one {one}", filing_in_hex(filing));
    let beside = [
        kept.difference("kept", &owed_kept),
        change_of("the sections", &before, &filing.sections().concat()),
    ];
    settle(tally, here, call, said, beside)
}

fn file_queue_one(
    rng: &mut Rng,
    tally: &mut Tally,
    stock: &Stock,
    here: &mut Octets,
) -> Result<(), String> {
    let queue = exact(queue_of(rng, stock));
    let three = places_about(rng, 3);
    let mut shelf = lent_shelf(rng, tally, here);
    let mut counts = Lent::new(rng, three, |pattern| pattern);
    let answer = entries::file_queue(shelf.lent(), &queue, counts.lent());
    let owed = reference::entries::file_queue(shelf.before(), &queue, three);
    let (written, owed_counts) = match &owed {
        Err(_) => (&[][..], vec![]),
        Ok((octets, fates)) => (&octets[..], queue::counts(fates).to_vec()),
    };
    tally.length(&queue);
    if let Ok((_, fates)) = &owed {
        tally.fates("file_queue", fates);
    }
    let call = Call {
        entry: "file_queue",
        answer,
        owed: &owed,
        shelf: &shelf,
        written,
    };
    let said = || format!("file_queue three {three} queue {}", hex(&queue));
    let beside = [
        counts.difference("counts", &owed_counts),
        queue.change("the queue"),
    ];
    settle(tally, here, call, said, beside)
}

fn tally_join(tally: &mut Tally, before: &[u8], owed: &Outcome<Vec<u8>>) {
    if let Ok(joined) = owed {
        tally.kind(match *joined == Shelf::of_octets(before).octets() {
            true => "join: no slot changed",
            false => "join: a slot changed",
        });
    }
}

fn join_one(rng: &mut Rng, tally: &mut Tally, shelves: &mut Shelves) -> Result<(), String> {
    let mut shelf = lent_shelf(rng, tally, &shelves.here);
    let mut other = lent_shelf(rng, tally, &shelves.other);
    let answer = entries::join(shelf.lent(), other.lent());
    let owed = reference::entries::join(shelf.before(), other.before());
    tally_join(tally, shelf.before(), &owed);
    let call = Call {
        entry: "join",
        answer,
        owed: &owed,
        shelf: &shelf,
        written: owed.as_deref().unwrap_or(&[]),
    };
    let said = || format!("join other {}", hex(other.before()));
    settle(
        tally,
        &mut shelves.here,
        call,
        said,
        [other.change("the other shelf")],
    )
}

fn slot_one(rng: &mut Rng, tally: &mut Tally, here: &mut Octets) -> Result<(), String> {
    let slot = slot_number(rng);
    let places = places_about(rng, VALUES);
    let mut shelf = lent_shelf(rng, tally, here);
    let mut values = Lent::new(rng, places, |pattern| pattern as i64);
    let answer = entries::slot(shelf.lent(), slot, values.lent());
    let owed = reference::entries::slot(shelf.before(), slot, places);
    if let Ok(values) = &owed {
        tally.kind(match values[0] {
            0 => "slot: empty",
            _ => "slot: held",
        });
    }
    let call = Call {
        entry: "slot",
        answer,
        owed: &owed,
        shelf: &shelf,
        written: &[],
    };
    let said = || format!("slot {slot} places {places}");
    let beside = [values.difference("values", owed.as_deref().unwrap_or(&[]))];
    settle(tally, here, call, said, beside)
}

impl Shelves {
    /// Each empty or of any octets, or the one like the other but for some octets.
    fn some(rng: &mut Rng) -> Shelves {
        let mut start = || match rng.below(2) {
            0 => vec![0; SHELF_OCTETS],
            _ => any_shelf(rng),
        };
        let (here, mut other) = (start(), start());
        if rng.percent(30) {
            other = shelf_beside(rng, &here);
        }
        Shelves { here, other }
    }

    fn one_call(&mut self, rng: &mut Rng, tally: &mut Tally, stock: &Stock) -> Result<(), String> {
        match rng.below(40) {
            0 => empty_one(rng, tally, &mut self.here),
            1..=16 => file_one(rng, tally, stock, &mut self.here),
            17..=24 => file_queue_one(rng, tally, stock, &mut self.here),
            25..=32 => join_one(rng, tally, self),
            33..=37 => slot_one(rng, tally, &mut self.here),
            _ => {
                self.here = shelf_beside(rng, &self.here);
                Ok(())
            }
        }
    }
}

pub fn calls_on_shelves(rng: &mut Rng, tally: &mut Tally) -> Result<(), String> {
    let stock = Stock::new(rng);
    let mut shelves = Shelves::some(rng);
    for _ in 0..rng.within(2, 6) {
        shelves.one_call(rng, tally, &stock)?;
        if rng.percent(30) {
            std::mem::swap(&mut shelves.here, &mut shelves.other);
        }
    }
    Ok(())
}
