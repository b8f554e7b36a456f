//! Document 01 in plain Rust: tables of the fields with their rules, and the rules between them. It shares nothing with
//! the library. Octets count from 1 at the start of a section, as in the document.

pub mod entries;
pub mod field;
pub mod grid;
pub mod head;
pub mod identification;
pub mod listing;
pub mod message;
pub mod octets;
pub mod packing;
pub mod parts;
pub mod product;
pub mod queue;
pub mod shelf;
pub mod shelf_octets;
pub mod table;

pub use listing::{contents, explanation, listing};
pub use packing::unpack;
pub use parts::{part, Span};

use std::fmt;

/// The most octets that a section, a queue or a message may have.
pub const MOST_OCTETS: usize = 65_536;

/// A number of the table of refusals, the section asked for, and the place.
#[derive(Clone, Copy, Debug, PartialEq, Eq, PartialOrd, Ord)]
pub struct Refusal {
    pub number: u8,
    pub section: u8,
    pub place: u32,
}

impl Refusal {
    pub fn of_section(number: u8, section: u8) -> Refusal {
        Refusal {
            number,
            section,
            place: 0,
        }
    }

    /// One that belongs to no section.
    pub fn of_none(number: u8) -> Refusal {
        Refusal::of_section(number, 0)
    }
}

impl fmt::Display for Refusal {
    fn fmt(&self, out: &mut fmt::Formatter) -> fmt::Result {
        write!(out, "{} {} {}", self.number, self.section, self.place)
    }
}

pub type Outcome<T> = Result<T, Refusal>;

/// Refuses with this number and section where the condition holds.
pub fn refuse_if(holds: bool, number: u8, section: u8) -> Outcome<()> {
    if holds {
        Err(Refusal::of_section(number, section))
    } else {
        Ok(())
    }
}

/// The values of a section in the order of their octets, missing as `i64::MIN`. Another section's number is 4.
pub fn read(section: u8, s: &[u8]) -> Outcome<Vec<i64>> {
    match section {
        1 => identification::read(s).map(|read| read.values()),
        3 => grid::read(s).map(|read| read.record.values()),
        4 => product::read(s).map(|read| read.record.values()),
        5 => packing::read(s).map(|read| read.record.values()),
        7 => packing::read_data(s).map(|record| record.values()),
        _ => Err(Refusal::of_section(4, section)),
    }
}
