//! A safe wrapper of the C entries. Slices go over as pointer and length, an empty one with a null pointer.
use crate::reference::Refusal;

/// The entries as the header has them.
pub mod raw {
    extern "C" {
        pub fn skogmund_read(
            section: u8,
            s: *const u8,
            n: usize,
            values: *mut i64,
            places: usize,
        ) -> u64;
        pub fn skogmund_part(
            part: u8,
            s: *const u8,
            n: usize,
            k: u64,
            span: *mut u64,
            places: usize,
        ) -> u64;
        pub fn skogmund_unpack(
            s5: *const u8,
            n5: usize,
            s7: *const u8,
            n7: usize,
            row: *mut u32,
            places: usize,
        ) -> u64;
        pub fn skogmund_list(
            queue: *const u8,
            n: usize,
            text: *mut u8,
            places: usize,
            length: *mut u64,
            one: usize,
        ) -> u64;
        pub fn skogmund_message(
            message: *const u8,
            n: usize,
            spans: *mut u64,
            places: usize,
            count: *mut u64,
            one: usize,
        ) -> u64;
        pub fn skogmund_empty(shelf: *mut u8, octets: usize) -> u64;
        pub fn skogmund_file(
            shelf: *mut u8,
            octets: usize,
            slot: u64,
            issue_plus_1: u64,
            s1: *const u8,
            n1: usize,
            s3: *const u8,
            n3: usize,
            s4: *const u8,
            n4: usize,
            s5: *const u8,
            n5: usize,
            s7: *const u8,
            n7: usize,
            kept: *mut u64,
            one: usize,
        ) -> u64;
        pub fn skogmund_file_queue(
            shelf: *mut u8,
            octets: usize,
            queue: *const u8,
            n: usize,
            counts: *mut u64,
            three: usize,
        ) -> u64;
        pub fn skogmund_join(shelf: *mut u8, octets: usize, other: *const u8, n: usize) -> u64;
        pub fn skogmund_slot(
            shelf: *const u8,
            octets: usize,
            slot: u64,
            values: *mut i64,
            places: usize,
        ) -> u64;
    }
}

/// An entry's number taken apart, as the header does it: number x 2^40 + section x 2^32 + place.
pub fn number(code: u64) -> u64 {
    code >> 40
}

pub fn section(code: u64) -> u8 {
    (code >> 32) as u8
}

pub fn place(code: u64) -> u32 {
    code as u32
}

/// What an entry's number says: 0 is no refusal. A number that no refusal has is kept as it came, so that a test can show
/// it.
#[derive(Clone, Copy, Debug, PartialEq, Eq)]
pub enum Answer {
    Done,
    Refused(Refusal),
    NotANumberOfOurs(u64),
}

impl Answer {
    pub fn of(code: u64) -> Answer {
        match (code, number(code)) {
            (0, _) => Answer::Done,
            (_, number @ 1..=255) => Answer::Refused(Refusal {
                number: number as u8,
                section: section(code),
                place: place(code),
            }),
            _ => Answer::NotANumberOfOurs(code),
        }
    }
}

impl<T> From<&Result<T, Refusal>> for Answer {
    fn from(outcome: &Result<T, Refusal>) -> Answer {
        match outcome {
            Ok(_) => Answer::Done,
            Err(refusal) => Answer::Refused(*refusal),
        }
    }
}

pub(crate) fn lent<T>(s: &[T]) -> *const T {
    if s.is_empty() {
        std::ptr::null()
    } else {
        s.as_ptr()
    }
}

pub(crate) fn lent_to_write<T>(s: &mut [T]) -> *mut T {
    if s.is_empty() {
        std::ptr::null_mut()
    } else {
        s.as_mut_ptr()
    }
}

/// The values of a section and before them their count, at the start of `values`.
pub fn read(section: u8, s: &[u8], values: &mut [i64]) -> Answer {
    // SAFETY: each pointer comes with the length of the slice that it is of, and the entry keeps none.
    Answer::of(unsafe {
        raw::skogmund_read(
            section,
            lent(s),
            s.len(),
            lent_to_write(values),
            values.len(),
        )
    })
}

/// First octet (from 1) and length of a part of a section, into the first two places of `span`.
pub fn part(part: u8, s: &[u8], k: u64, span: &mut [u64]) -> Answer {
    // SAFETY: as above.
    Answer::of(unsafe {
        raw::skogmund_part(part, lent(s), s.len(), k, lent_to_write(span), span.len())
    })
}

/// The values of sections 5 and 7, into a row of exactly as many places.
pub fn unpack(five: &[u8], seven: &[u8], row: &mut [u32]) -> Answer {
    // SAFETY: as above.
    Answer::of(unsafe {
        raw::skogmund_unpack(
            lent(five),
            five.len(),
            lent(seven),
            seven.len(),
            lent_to_write(row),
            row.len(),
        )
    })
}

/// The listing of a queue, at the start of `text`, and its length, into the first place of `length`.
pub fn list(queue: &[u8], text: &mut [u8], length: &mut [u64]) -> Answer {
    // SAFETY: as above.
    Answer::of(unsafe {
        raw::skogmund_list(
            lent(queue),
            queue.len(),
            lent_to_write(text),
            text.len(),
            lent_to_write(length),
            length.len(),
        )
    })
}

/// First octet (from 1) and length of sections 1, 3, 4, 5 and 7 of each field of a message, at the start of `spans`, and how many fields
/// there are, into the first place of `count`.
pub fn message(message: &[u8], spans: &mut [u64], count: &mut [u64]) -> Answer {
    // SAFETY: as above.
    Answer::of(unsafe {
        raw::skogmund_message(
            lent(message),
            message.len(),
            lent_to_write(spans),
            spans.len(),
            lent_to_write(count),
            count.len(),
        )
    })
}

/// The empty shelf.
pub fn empty(shelf: &mut [u8]) -> Answer {
    // SAFETY: as above.
    Answer::of(unsafe { raw::skogmund_empty(lent_to_write(shelf), shelf.len()) })
}

/// Files a field; 1 into the first place of `kept` where the slot changed, else 0.
pub fn file(
    shelf: &mut [u8],
    slot: u64,
    issue_plus_1: u64,
    sections: [&[u8]; 5],
    kept: &mut [u64],
) -> Answer {
    let [one, three, four, five, seven] = sections;
    // SAFETY: as above.
    Answer::of(unsafe {
        raw::skogmund_file(
            lent_to_write(shelf),
            shelf.len(),
            slot,
            issue_plus_1,
            lent(one),
            one.len(),
            lent(three),
            three.len(),
            lent(four),
            four.len(),
            lent(five),
            five.len(),
            lent(seven),
            seven.len(),
            lent_to_write(kept),
            kept.len(),
        )
    })
}

/// Files a queue; its records kept, passed and refused, into the first three places of `counts`.
pub fn file_queue(shelf: &mut [u8], queue: &[u8], counts: &mut [u64]) -> Answer {
    // SAFETY: as above.
    Answer::of(unsafe {
        raw::skogmund_file_queue(
            lent_to_write(shelf),
            shelf.len(),
            lent(queue),
            queue.len(),
            lent_to_write(counts),
            counts.len(),
        )
    })
}

/// Joins another shelf in.
pub fn join(shelf: &mut [u8], other: &[u8]) -> Answer {
    // SAFETY: as above.
    Answer::of(unsafe {
        raw::skogmund_join(lent_to_write(shelf), shelf.len(), lent(other), other.len())
    })
}

/// What a slot holds, and before it the count of its values, at the start of `values`.
pub fn slot(shelf: &[u8], slot: u64, values: &mut [i64]) -> Answer {
    // SAFETY: as above.
    Answer::of(unsafe {
        raw::skogmund_slot(
            lent(shelf),
            shelf.len(),
            slot,
            lent_to_write(values),
            values.len(),
        )
    })
}
