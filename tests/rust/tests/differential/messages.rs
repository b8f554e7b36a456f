//! `skogmund_message`.
use crate::tally::Tally;
use skogmund_tests::entries::{self, Answer};
use skogmund_tests::generate::messages::message;
use skogmund_tests::generate::Rng;
use skogmund_tests::lent::{difference_of_answers, exact, hex, places_about, report, Lent};
use skogmund_tests::reference::entries::{SPANS, VALUES};
use skogmund_tests::reference::message::{
    sections_at, Fault, Walk, DATA, MOST_FIELDS, NO_BIT_MAP, OF_A_FIELD, SECTION_0, TOTAL_AT,
};
use skogmund_tests::reference::octets::number;
use skogmund_tests::reference::shelf_octets::SHELF_OCTETS;
use skogmund_tests::reference::{self, field, Outcome, Span};

type Fields = Vec<[u64; 10]>;

const KINDS: &[&str] = &[
    "message: 1 field",
    "message: 16 fields",
    "message: section 2 of 5 octets",
    "message: section 2 of more octets",
    LONGEST,
    "message: the first field refused",
    "message: a later field refused",
    "message: 22 for octets 9-12 alone",
    "message: frame refused behind a refused field",
    "message: 23 where 24 holds too",
    "message: 23 where 25 holds too",
    "message: too few places for spans",
    "message: no place for the count",
];
const LONGEST: &str = "message: 65,536 octets accepted";

/// Lengths on both sides of a limit.
const LENGTHS: [usize; 4] = [19, 20, 65_536, 65_537];

fn length_kind(length: usize) -> String {
    format!("message: of {length} octets")
}

fn fault_kind(fault: Fault) -> String {
    format!("message: {fault:?}")
}

/// Numbers from here on are one kind.
const ANOTHER: u8 = 9;

/// A section behind another, in order or not.
fn order_kind(last: u8, number: u8) -> String {
    match number {
        ANOTHER.. => format!("message: another behind {last}"),
        _ => format!("message: {number} behind {last}"),
    }
}

/// The walk stands at the last four, and the last section is none that a field ends with.
fn end_kind(last: u8) -> String {
    format!("message: ends behind {last}")
}

/// What comes behind the 16th field.
fn too_many_kind(number: u8) -> String {
    format!("message: {number} behind the 16th field")
}

pub fn every_kind() -> Vec<String> {
    let named = KINDS.iter().map(|kind| kind.to_string());
    let orders = (0..=DATA).flat_map(|last| (0..=ANOTHER).map(move |next| order_kind(last, next)));
    named
        .chain(LENGTHS.map(length_kind))
        .chain(Fault::ALL.map(fault_kind))
        .chain(orders)
        .chain((0..DATA).map(end_kind))
        .chain([2, 3, 4].map(too_many_kind))
        .collect()
}

/// Where a section is out of order, another refusal may hold at its place too.
fn tally_order(tally: &mut Tally, walk: &Walk, at_place: &[u8]) {
    tally.kind(&order_kind(walk.last(), at_place[4]));
    if at_place[4] == NO_BIT_MAP[4] && !at_place.starts_with(&NO_BIT_MAP) {
        tally.kind("message: 23 where 24 holds too");
    }
    if walk.fields().len() == MOST_FIELDS {
        tally.kind("message: 23 where 25 holds too");
    }
}

fn tally_fault(tally: &mut Tally, message: &[u8], walk: &Walk, fault: Fault) {
    tally.kind(&fault_kind(fault));
    let at_place = message.get(walk.passed()..).unwrap_or(&[]);
    match fault {
        Fault::TotalLength if number(message, TOTAL_AT + 4, SECTION_0) == message.len() as u64 => {
            tally.kind("message: 22 for octets 9-12 alone");
        }
        Fault::OutOfOrder => tally_order(tally, walk, at_place),
        Fault::AfterThe16thField => tally.kind(&too_many_kind(at_place[4])),
        Fault::SectionMissing => tally.kind(&end_kind(walk.last())),
        _ => (),
    }
    let refused = |&spans: &_| field::read(sections_at(message, spans)).is_err();
    if walk.fields().iter().any(refused) {
        tally.kind("message: frame refused behind a refused field");
    }
}

/// Of a message whose frame is right.
fn tally_fields(tally: &mut Tally, message: &[u8], walk: &Walk) {
    let refused = |&spans: &_| field::read(sections_at(message, spans)).is_err();
    let fields = walk.fields();
    match (fields.iter().position(refused), fields.len()) {
        (Some(0), _) => tally.kind("message: the first field refused"),
        (Some(_), _) => tally.kind("message: a later field refused"),
        (None, 1) => tally.kind("message: 1 field"),
        (None, MOST_FIELDS) => tally.kind("message: 16 fields"),
        _ => (),
    }
    for section in walk.sections.iter().filter(|section| section.number == 2) {
        tally.kind(match section.span.length {
            5 => "message: section 2 of 5 octets",
            _ => "message: section 2 of more octets",
        });
    }
}

fn tally_message(tally: &mut Tally, message: &[u8], owed: &Outcome<Fields>, places: usize) {
    tally.length(message);
    tally.outcome("message", owed);
    if LENGTHS.contains(&message.len()) {
        tally.kind(&length_kind(message.len()));
    }
    match owed {
        Ok(_) if message.len() == reference::MOST_OCTETS => tally.kind(LONGEST),
        Err(refusal) if refusal.number == 18 => tally.kind(match places {
            0..SPANS => "message: too few places for spans",
            _ => "message: no place for the count",
        }),
        _ => (),
    }
    let walk = Walk::of(message);
    let numbers = walk.sections.iter().map(|section| section.number);
    for (last, number) in [0].into_iter().chain(numbers.clone()).zip(numbers) {
        tally.kind(&order_kind(last, number));
    }
    match walk.fault {
        Some(fault) => tally_fault(tally, message, &walk, fault),
        None => tally_fields(tally, message, &walk),
    }
}

/// The sections at the spans that the library gave, to the other entries. A calendar that filing refuses is no matter of a message.
fn accepted_by_others(message: &[u8], spans: &[u64]) -> Option<String> {
    let mut shelf = vec![0; SHELF_OCTETS];
    spans.chunks_exact(2 * OF_A_FIELD.len()).find_map(|field| {
        let span = |at| Span {
            first: field[2 * at],
            length: field[2 * at + 1],
        };
        let sections = sections_at(message, std::array::from_fn(span));
        let read = |(number, section)| entries::read(number, section, &mut [0; VALUES]);
        let mut answers: Vec<Answer> = OF_A_FIELD.into_iter().zip(sections).map(read).collect();
        answers.push(entries::file(&mut shelf, 0, 0, sections, &mut [0]));
        let accepted = |answer: &Answer| match answer {
            Answer::Refused(refusal) => refusal.number == 17,
            answer => *answer == Answer::Done,
        };
        let all = answers.iter().all(accepted);
        (!all).then(|| format!("sections at {field:?}, read and filed: {answers:?}"))
    })
}

pub fn one_message(rng: &mut Rng, tally: &mut Tally) -> Result<(), String> {
    let message = exact(message(rng));
    let (places, one) = (places_about(rng, SPANS), places_about(rng, 1));
    let mut spans = Lent::new(rng, places, |pattern| pattern);
    let mut count = Lent::new(rng, one, |pattern| pattern);
    let answer = entries::message(&message, spans.lent(), count.lent());
    let owed = reference::entries::message(&message, places, one);
    tally.calls += 1;
    tally_message(tally, &message, &owed, places);
    let (owed_spans, owed_count) = match &owed {
        Ok(fields) => (fields.concat(), vec![fields.len() as u64]),
        Err(_) => (vec![], vec![]),
    };
    let said = || {
        format!(
            "message places {places} one {one} message {}",
            hex(&message)
        )
    };
    report(
        said,
        [
            difference_of_answers(answer, Answer::from(&owed)),
            spans.difference("spans", &owed_spans),
            count.difference("count", &owed_count),
            message.change("the message"),
        ],
    )?;
    // From here on the library's spans are the reference's.
    report(said, [accepted_by_others(&message, &owed_spans)])
}
