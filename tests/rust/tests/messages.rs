//! Messages through the library: whole ones, each octet of the frame, every order of sections, both sides of each limit.
#![cfg(not(no_library))]

use skogmund_tests::entries::{self, raw, Answer};
use skogmund_tests::examples::{message_sections, section2};
use skogmund_tests::generate::messages::{close_message, framed};
use skogmund_tests::generate::sections::{close, put};
use skogmund_tests::reference::entries::SPANS;
use skogmund_tests::reference::message::may_follow;
use skogmund_tests::reference::{Refusal, MOST_OCTETS};
use std::ptr::{null, null_mut, NonNull};

/// What stands in a place that nothing was written to.
const STAYS: u64 = 77;

const fn refused_at(number: u8, section: u8, place: u32) -> Answer {
    Answer::Refused(Refusal {
        number,
        section,
        place,
    })
}

/// By the frame.
const fn refused(number: u8) -> Answer {
    refused_at(number, 0, 0)
}

const TOO_FEW_PLACES: Answer = refused(18);

/// The answer and the spans of the fields; nothing else may be written.
fn fields_in(message: &[u8], places: usize, one: usize) -> (Answer, Vec<Vec<u64>>) {
    let (mut spans, mut count) = (vec![STAYS; places], vec![STAYS; one]);
    let answer = entries::message(message, &mut spans, &mut count);
    let fields = match answer {
        Answer::Done => std::mem::replace(&mut count[0], STAYS) as usize,
        _ => 0,
    };
    let rest = spans.split_off(10 * fields);
    assert!(rest.iter().chain(&count).all(|&place| place == STAYS));
    let fields = spans.chunks(10).map(|field| field.to_vec());
    (answer, fields.collect())
}

fn answer_of(message: &[u8]) -> Answer {
    fields_in(message, SPANS, 1).0
}

fn fields_of(sections: &[Vec<u8>]) -> Vec<Vec<u64>> {
    let (answer, fields) = fields_in(&framed(sections), SPANS, 1);
    assert_eq!(answer, Answer::Done);
    fields
}

fn answer_of_sections(sections: &[Vec<u8>]) -> Answer {
    answer_of(&framed(sections))
}

#[test]
fn one_field() {
    let expected = [17, 21, 38, 72, 110, 58, 168, 21, 195, 19];
    assert_eq!(fields_of(&message_sections(&[3])), [expected]);
    let mut longer = message_sections(&[2]);
    longer[1] = section2(100);
    let behind = [17, 21, 138, 72, 210, 58, 268, 21, 295, 19];
    assert_eq!(fields_of(&longer), [behind]);
}

#[test]
fn what_is_not_repeated_stays_in_force() {
    let expected = [
        [17, 21, 38, 72, 110, 58, 168, 21, 195, 19],
        [17, 21, 38, 72, 214, 58, 272, 21, 299, 19],
        [17, 21, 318, 72, 390, 58, 448, 21, 475, 19],
        [17, 21, 499, 72, 571, 58, 629, 21, 656, 19],
        [17, 21, 499, 72, 675, 58, 733, 21, 760, 19],
    ];
    assert_eq!(fields_of(&message_sections(&[3, 4, 3, 2, 4])), expected);
}

#[test]
fn each_octet_of_section_0() {
    let good = framed(&message_sections(&[3]));
    for at in 1..=16 {
        let mut other = good.clone();
        other[at - 1] ^= 0x80;
        let expected = match at {
            5..=7 => Answer::Done,
            _ => refused(22),
        };
        assert_eq!(answer_of(&other), expected, "octet {at}");
    }
    for total in [good.len() as u64 - 1, good.len() as u64 + 1] {
        let mut other = good.clone();
        put(&mut other, 9, 16, total);
        assert_eq!(answer_of(&other), refused(22), "{total}");
    }
}

#[test]
fn each_octet_of_the_last_four() {
    let good = framed(&message_sections(&[3]));
    for at in good.len() - 4..good.len() {
        let mut other = good.clone();
        other[at] = b'8';
        assert_eq!(answer_of(&other), refused(25));
    }
}

#[test]
fn shortest() {
    let mut message = framed(&[]);
    assert_eq!(answer_of(&message), refused(23));
    for length in (0..20).rev() {
        message.truncate(length);
        close_message(&mut message);
        assert_eq!(answer_of(&message), refused(22), "{length} octets");
    }
}

#[test]
fn longest() {
    let mut sections = message_sections(&[2]);
    let more = MOST_OCTETS - framed(&sections).len();
    sections[1].resize(5 + more, 0);
    close(&mut sections[1]);
    assert_eq!(answer_of_sections(&sections), Answer::Done);
    sections[1].push(0);
    close(&mut sections[1]);
    assert_eq!(answer_of_sections(&sections), refused(2));
    assert_eq!(answer_of(&vec![0; MOST_OCTETS]), refused(22));
    assert_eq!(answer_of(&vec![0; MOST_OCTETS + 1]), refused(2));
}

/// A section of 5 octets behind the first so many, whose last has that number; then the message ends.
#[test]
fn every_order() {
    for last in 0..=7 {
        for number in 0..=255 {
            let mut sections = message_sections(&[2]);
            sections.truncate(last);
            sections.push(vec![0, 0, 0, 5, number]);
            let expected = match (last, number) {
                (5, 6) => refused(24),
                // A section 7 without values.
                (6, 7) => refused_at(15, 7, 0),
                // In order, a section is missing at the end.
                _ => refused(23),
            };
            let answer = answer_of_sections(&sections);
            assert_eq!(answer, expected, "{number} behind {last}");
        }
    }
}

/// With all that has to follow, a section that may follow another is accepted, and else none.
#[test]
fn every_order_that_goes_on() {
    let whole = message_sections(&[2]);
    for last in 0..=7 {
        for next in 1..=7 {
            let sections = [&whole[..last], &whole[next - 1..]].concat();
            let expected = match may_follow(last as u8).contains(&(next as u8)) {
                true => Answer::Done,
                false => refused(23),
            };
            let answer = answer_of_sections(&sections);
            assert_eq!(answer, expected, "{next} behind {last}");
        }
    }
}

#[test]
fn lengths() {
    let last = message_sections(&[3]).len() - 1;
    let stating = |length| {
        let mut sections = message_sections(&[3]);
        put(&mut sections[last], 1, 4, length);
        answer_of_sections(&sections)
    };
    assert_eq!(stating(19), Answer::Done);
    for length in [0, 1, 2, 3, 4, 15, 16, 17, 18, 20, 21, 23, 24, 65_536] {
        assert_eq!(stating(length), refused(23), "{length}");
    }
    // In 32 bits they would lead back into the message, the first to section 1.
    for length in [(1 << 32) - 178, (1 << 32) - 19, 0xffff_ffff] {
        assert_eq!(stating(length), refused(23), "{length}");
    }
    for left in 1..=4 {
        let mut sections = message_sections(&[3]);
        sections.push(vec![0, 0, 0, left]);
        sections[last + 1].truncate(left.into());
        assert_eq!(answer_of_sections(&sections), refused(23), "{left} left");
    }
}

#[test]
fn section_6() {
    for bad in [
        &[0, 0, 0, 5, 6][..],
        &[0, 0, 0, 7, 6, 255, 255],
        &[0, 0, 0, 6, 6, 0],
        &[0, 0, 0, 6, 6, 254],
    ] {
        let mut sections = message_sections(&[3, 4]);
        sections[4] = bad.to_vec();
        assert_eq!(answer_of_sections(&sections), refused(24));
        sections.swap(4, 8);
        assert_eq!(answer_of_sections(&sections), refused(24));
        // Out of order it is 23.
        sections.swap(7, 8);
        assert_eq!(answer_of_sections(&sections), refused(23));
    }
}

#[test]
fn sixteen_fields() {
    let sixteen = message_sections(&[3; 16]);
    assert_eq!(fields_of(&sixteen).len(), 16);
    for number in 0..=8 {
        let sections = [&sixteen[..], &[vec![0, 0, 0, 5, number]]].concat();
        let expected = match number {
            2..=4 => refused(25),
            _ => refused(23),
        };
        assert_eq!(answer_of_sections(&sections), expected, "{number}");
    }
    for from in [2, 3, 4] {
        let seventeen = [3; 16].into_iter().chain([from]);
        let sections = message_sections(&seventeen.collect::<Vec<_>>());
        assert_eq!(answer_of_sections(&sections), refused(25));
    }
}

#[test]
fn the_first_field_refused() {
    let mut sections = message_sections(&[3, 4, 4]);
    sections[11][19] = 33;
    assert_eq!(answer_of_sections(&sections), refused_at(8, 5, 20));
    sections[6].push(0);
    close(&mut sections[6]);
    assert_eq!(answer_of_sections(&sections), refused_at(21, 4, 59));
    sections[3][8] = 11;
    assert_eq!(answer_of_sections(&sections), refused_at(14, 5, 0));
    // The frame comes before every field.
    sections[12][5] = 0;
    assert_eq!(answer_of_sections(&sections), refused(24));
}

/// Filing refuses another calendar, a message does not.
#[test]
fn another_calendar() {
    let mut sections = message_sections(&[3]);
    sections[0].extend([0, 0, 1]);
    close(&mut sections[0]);
    let expected = [17, 24, 41, 72, 113, 58, 171, 21, 198, 19];
    assert_eq!(fields_of(&sections), [expected]);
}

#[test]
fn too_few_places_come_last() {
    let good = framed(&message_sections(&[3]));
    let answer = |places, one| fields_in(&good, places, one).0;
    assert_eq!(answer(SPANS, 1), Answer::Done);
    assert_eq!(answer(SPANS + 1, 2), Answer::Done);
    for (places, one) in [(0, 0), (10, 1), (SPANS - 1, 1), (SPANS, 0)] {
        assert_eq!(answer(places, one), TOO_FEW_PLACES);
    }
    assert_eq!(fields_in(&good[1..], 0, 0).0, refused(22));
}

/// An empty slice comes with a null pointer or with any other.
#[test]
fn slices_of_nothing() {
    let some = NonNull::<u64>::dangling().as_ptr();
    let good = framed(&message_sections(&[3]));
    for (nothing, place) in [(null(), null_mut()), (some as *const u8, some)] {
        // SAFETY: every pointer that comes with a length above 0 is of a slice of that length.
        unsafe {
            let code = raw::skogmund_message(nothing, 0, place, 0, place, 0);
            assert_eq!(code, 22 << 40);
            let code = raw::skogmund_message(good.as_ptr(), good.len(), place, 0, place, 0);
            assert_eq!(code, 18 << 40);
        }
    }
}
