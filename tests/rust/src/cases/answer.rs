//! What the program `cases` prints of what is asked, by the reference.
use super::asked::{hex, Asked};
use crate::reference::listing::fate;
use crate::reference::shelf::{Card, Shelf};
use crate::reference::{self, contents, explanation, listing, Span};

/// What each place of a row holds before unpacking.
const HELD: u32 = 9;

fn word(value: i64) -> String {
    match value {
        i64::MIN => "missing".to_string(),
        _ => value.to_string(),
    }
}

/// The row of values as an accepted section has it: their count, and they.
pub fn row(values: &[i64]) -> String {
    let words: Vec<String> = values.iter().copied().map(word).collect();
    format!("read {} {}", values.len(), words.join(" "))
}

fn values(section: u8, s: &[u8]) -> String {
    match reference::read(section, s) {
        Ok(values) => row(&values),
        Err(refusal) => format!("refused {refusal}"),
    }
}

/// A part that a caller is shown: how many octets, and these, of which a long one's middle is left out.
fn shown(name: &str, octets: &[u8]) -> String {
    let length = octets.len();
    match length {
        0 => format!(" {name} 0"),
        1..=40 => format!(" {name} {length} {}", hex(octets)),
        _ => {
            let (front, back) = (hex(&octets[..24]), hex(&octets[length - 12..]));
            format!(" {name} {length} {front}..{back}")
        }
    }
}

/// The parts of section 3.
pub fn list(octets: &[u8]) -> String {
    shown("list", octets)
}

/// The parts of section 4: the time ranges and one more, which is empty, one at the greatest index, members and coordinates.
pub fn lists(ranges: &[&[u8]], members: &[u8], coordinates: &[u8]) -> String {
    let ranges: String = ranges.iter().map(|range| shown("range", range)).collect();
    ranges
        + &shown("range", &[])
        + &shown("range_at_most", &[])
        + &shown("members", members)
        + &shown("coordinates", coordinates)
}

fn part(number: u8, s: &[u8], k: u64) -> &[u8] {
    let Span { first, length } = reference::part(number, s, k);
    let after = first.saturating_sub(1) as usize;
    &s[after..after + length as usize]
}

fn parts(section: u8, s: &[u8]) -> String {
    match section {
        3 => list(part(1, s, 0)),
        4 => {
            let ranges = (0..).map(|k| part(2, s, k));
            let ranges: Vec<&[u8]> = ranges.take_while(|range| !range.is_empty()).collect();
            assert!(part(2, s, u64::MAX).is_empty());
            lists(&ranges, part(3, s, 0), part(4, s, 0))
        }
        _ => String::new(),
    }
}

/// A number that a change of any place changes.
fn digest(row: &[u32]) -> u32 {
    let grown = |so_far: u32, number: &u32| so_far.wrapping_mul(31).wrapping_add(*number);
    row.iter().fold(0, grown)
}

fn places(row: &[u32]) -> String {
    match row.len() {
        0..=8 => row.iter().map(|number| format!(" {number}")).collect(),
        _ => format!(" digest {}", digest(row)),
    }
}

/// A row that was unpacked.
pub fn written(row: &[u32]) -> String {
    format!(" unpacked written {} row{}", row.len(), places(row))
}

fn unpacked(five: &[u8], seven: &[u8], size: usize) -> String {
    let row = match reference::unpack(five, seven, size) {
        Ok(row) => written(&row),
        Err(refusal) => {
            let row = places(&vec![HELD; size]);
            format!(" unpacked refused {refusal} row{row}")
        }
    };
    values(7, seven) + &row
}

fn held((slot, card): (usize, &Card)) -> String {
    let time = card.reference_time.map(|number| format!(" {number}"));
    let (issue, product) = (card.issue, hex(&card.product));
    format!(" slot {slot}{} {issue} {product}", time.concat())
}

/// Of a long explanation the start and the end.
fn in_short(text: String) -> String {
    match text.len() {
        0..=4000 => text,
        length => format!("{}\n...\n{}", &text[..1000], &text[length - 200..]),
    }
}

fn borrowed(sections: &[Vec<u8>; 5]) -> [&[u8]; 5] {
    std::array::from_fn(|at| &sections[at][..])
}

/// The shelf that fields are filed to, and another.
#[derive(Clone)]
pub struct Shelves {
    here: Shelf,
    other: Shelf,
}

impl Shelves {
    pub fn empty() -> Shelves {
        Shelves {
            here: Shelf::empty(),
            other: Shelf::empty(),
        }
    }

    /// What is printed, and the shelves as they are then.
    pub fn answer(&mut self, asked: &Asked) -> String {
        let nothing = String::new();
        match asked {
            Asked::Section(section, s) => values(*section, s) + &parts(*section, s),
            Asked::Unpacking(five, seven, places) => unpacked(five, seven, *places),
            Asked::Filing(slot, issue, sections) => {
                fate(&self.here.file(*slot, *issue, borrowed(sections)))
            }
            // It names no issue.
            Asked::BenchReload(slot, sections) => {
                fate(&self.here.file(*slot, None, borrowed(sections)))
            }
            Asked::Empty => {
                self.here = Shelf::empty();
                nothing
            }
            Asked::ChangeOver => {
                std::mem::swap(&mut self.here, &mut self.other);
                nothing
            }
            Asked::Join => {
                self.here.join(&self.other);
                nothing
            }
            Asked::Show => self
                .here
                .held()
                .fold("held".to_string(), |line, slot| line + &held(slot)),
            Asked::Queue(queue) => listing(queue) + &in_short(explanation(queue)),
            Asked::Message(message) => contents(message),
        }
    }

    /// The same, with the whole of an explanation.
    pub fn in_full(&self, asked: &Asked) -> String {
        match asked {
            Asked::Queue(queue) => listing(queue) + &explanation(queue),
            _ => self.clone().answer(asked),
        }
    }
}
