//! What the sections share beside their fields: refusals 1 to 7, and the total's 11 and 21.
use super::octets::number;
use super::table::{octet, span, Field, Rule};
use super::{refuse_if, Outcome, Refusal, MOST_OCTETS};
use std::cmp::Ordering;

/// The two fields that every section begins with.
pub const HEAD: &[Field] = &[
    span(1, 4, "length", Rule::Raw),
    octet(5, "number of section", Rule::Raw),
];

/// Refusals 1 to 4.
pub fn look_at_head(s: &[u8], section: u8) -> Outcome<()> {
    refuse_if(s.len() < 5, 1, section)?;
    refuse_if(s.len() > MOST_OCTETS, 2, section)?;
    refuse_if(number(s, 1, 4) != s.len() as u64, 3, section)?;
    refuse_if(s[4] != section, 4, section)
}

/// Refusals 6 and 7: the entry of the list whose number stands at `at` and `at + 1`, with its smallest total.
pub fn look_up<T>(
    s: &[u8],
    section: u8,
    at: usize,
    listed: &'static [T],
    number_and_smallest: impl Fn(&T) -> (u64, usize),
) -> Outcome<&'static T> {
    let stated = number(s, at, at + 1);
    let found = listed
        .iter()
        .find(|entry| number_and_smallest(entry).0 == stated);
    let entry = found.ok_or(Refusal::of_section(6, section))?;
    refuse_if(s.len() < number_and_smallest(entry).1, 7, section)?;
    Ok(entry)
}

/// Refusals 11 and 21: shorter than the total, at the first octet that is not there; longer, at the first octet beyond it.
pub fn look_at_total(s: &[u8], section: u8, total: u64) -> Outcome<()> {
    let length = s.len() as u64;
    let behind = |number, octet: u64| {
        let place = octet as u32 + 1;
        Err(Refusal {
            number,
            section,
            place,
        })
    };
    match length.cmp(&total) {
        Ordering::Less => behind(11, length),
        Ordering::Equal => Ok(()),
        Ordering::Greater => behind(21, total),
    }
}
