//! Messages: fields in groups that begin at section 2, 3 or 4, whole and damaged.
use super::damage::{damage_inside, damage_message};
use super::sections::{close, edge, field_at, over, put, section1, section3, Size, SMALL_DATA};
use super::Rng;
use crate::reference::message::{MOST_FIELDS, NO_BIT_MAP, OF_A_FIELD, SECTION_0, TOTAL_AT};
use crate::reference::MOST_OCTETS;

/// The sections of a message behind section 0.
pub type Sections = Vec<Vec<u8>>;
/// The sections of a field.
pub type Field = [Vec<u8>; 5];

/// Writes a message's length to octets 9-16, if there are any.
pub fn close_message(message: &mut [u8]) {
    let total = message.len() as u64;
    if message.len() >= SECTION_0 {
        put(message, TOTAL_AT, SECTION_0, total);
    }
}

/// Section 0 with zeros for octets 5-7, these sections, and the last four.
pub fn framed(sections: &[Vec<u8>]) -> Vec<u8> {
    let section0 = [&b"GRIB"[..], &[0, 0, 0, 2], &[0; 8]].concat();
    let mut message = [section0, sections.concat(), b"7777".to_vec()].concat();
    close_message(&mut message);
    message
}

/// A group that begins at section 2, 3 or 4, with this field's sections.
pub fn group(from: usize, two: Vec<u8>, [_, three, four, five, seven]: Field) -> Sections {
    let mut sections = vec![two, three, four, five, NO_BIT_MAP.to_vec(), seven];
    sections.split_off(from - 2)
}

/// The number of a section, if it is long enough to have one.
fn number_of(section: &[u8]) -> Option<u8> {
    section.get(4).copied()
}

/// A section of any octets but its length and its number.
fn any_section(rng: &mut Rng, number: u8, length: usize) -> Vec<u8> {
    let mut s = rng.octets(length);
    s[4] = number;
    close(&mut s);
    s
}

/// Section 2 of the fewest octets, or more.
fn section2(rng: &mut Rng) -> Vec<u8> {
    let length = rng.pick(&[5, 5, 6, 17, 300]);
    any_section(rng, 2, length)
}

/// A message that is accepted, if it is not too long: its fields, and its sections behind section 0.
pub struct Whole {
    pub fields: Vec<Field>,
    pub sections: Sections,
}

impl Whole {
    /// So many small fields.
    pub fn of(rng: &mut Rng, fields: usize) -> Whole {
        let mut whole = Whole {
            fields: vec![],
            sections: vec![section1(rng)],
        };
        for _ in 0..fields {
            whole.go_on(rng);
        }
        whole
    }

    /// One field with a large section.
    fn large(rng: &mut Rng) -> Whole {
        let field = field_at(rng, [2024, 3, 7, 0, 0, 0], Size::Large);
        let mut whole = Whole {
            fields: vec![],
            sections: vec![field[0].clone()],
        };
        whole.add(rng, 3, field);
        whole
    }

    /// One more field, in a group that begins at section 2, 3 or, where a section 3 is in force, 4.
    fn go_on(&mut self, rng: &mut Rng) {
        let (from, three) = match self.fields.last() {
            Some([_, three, ..]) if rng.percent(35) => (4, three.clone()),
            _ => (rng.within(2, 3), section3(rng, Size::Small)),
        };
        let [four, five, seven] = over(rng, &three, Size::Small, SMALL_DATA);
        let one = self.sections[0].clone();
        self.add(rng, from, [one, three, four, five, seven]);
    }

    fn add(&mut self, rng: &mut Rng, from: usize, field: Field) {
        self.fields.push(field.clone());
        self.sections.extend(group(from, section2(rng), field));
    }
}

/// The count of fields: few, or one of those around the most.
fn count(rng: &mut Rng) -> usize {
    match rng.below(20) {
        0..=1 => MOST_FIELDS,
        2 => MOST_FIELDS + 1,
        3 => rng.within(1, MOST_FIELDS),
        _ => rng.within(1, 4),
    }
}

/// A section 6 of another length or with another indicator.
fn bit_map(rng: &mut Rng) -> Vec<u8> {
    let longer = rng.within(7, 12);
    let (indicator, length) = match rng.below(2) {
        0 => (255, rng.pick(&[5, 7, longer])),
        _ => (rng.pick(&[0, 1, 127, 254]), rng.pick(&[6, 6, longer])),
    };
    let mut s = vec![indicator; length];
    s[4] = 6;
    close(&mut s);
    s
}

/// A section of a number that a message has, or that none has.
fn some_section(rng: &mut Rng) -> Vec<u8> {
    let (number, length) = match rng.below(10) {
        9 => (rng.octet(), 5),
        number => (number as u8, rng.within(5, 12)),
    };
    match (number, rng.below(3)) {
        (6, 0) => NO_BIT_MAP.to_vec(),
        (6, _) => bit_map(rng),
        _ => any_section(rng, number, length),
    }
}

/// Where the sections of this number stand.
fn places_of(sections: &[Vec<u8>], number: u8) -> Vec<usize> {
    let is_one = |at: &usize| number_of(&sections[*at]) == Some(number);
    (0..sections.len()).filter(is_one).collect()
}

/// Some section behind one of any number that has its place, or behind section 0; by chance for the one that stands there.
fn misplace(rng: &mut Rng, sections: &mut Sections) {
    let behind: Vec<usize> = match rng.within(0, 7) as u8 {
        0 => vec![0],
        last => places_of(sections, last).iter().map(|at| at + 1).collect(),
    };
    let Some(&most) = behind.last() else {
        return;
    };
    // The last of them more often, since behind the last section 7 a message may end.
    let at = match rng.below(3) {
        0 => most,
        _ => rng.pick(&behind),
    };
    if at < sections.len() && rng.percent(50) {
        sections.remove(at);
    }
    sections.insert(at, some_section(rng));
}

/// A length that is none, that leaves fewer octets than a section has in front of the last four or that goes into them.
fn misstate_length(rng: &mut Rng, sections: &mut [Vec<u8>], which: usize) {
    let left = sections[which..].concat().len();
    let length = match rng.below(5) {
        0 => rng.below(5) as u64,
        1 => (left + 1) as u64,
        2 => (left + rng.within(2, 9)) as u64,
        3 => left.saturating_sub(rng.below(5)) as u64,
        _ => edge(rng, 4),
    };
    if sections[which].len() >= 4 {
        put(&mut sections[which], 1, 4, length);
    }
}

/// One of the sections of this number, if there is any.
fn some_of<'a>(rng: &mut Rng, sections: &'a mut [Vec<u8>], number: u8) -> Option<&'a mut Vec<u8>> {
    let there = places_of(sections, number);
    (!there.is_empty()).then(|| &mut sections[rng.pick(&there)])
}

fn spoil_bit_map(rng: &mut Rng, sections: &mut [Vec<u8>]) {
    if let Some(section) = some_of(rng, sections, 6) {
        *section = bit_map(rng);
    }
}

/// Inside of a section, each number as often as others: a field's refusal more often than not.
fn spoil_field(rng: &mut Rng, sections: &mut [Vec<u8>]) {
    let number = rng.pick(&OF_A_FIELD);
    if let Some(section) = some_of(rng, sections, number) {
        damage_inside(rng, section);
    }
}

/// One damage to the sections of a message.
fn damage_sections(rng: &mut Rng, sections: &mut Sections) {
    let Some(last) = sections.len().checked_sub(1) else {
        return;
    };
    let (which, other) = (rng.below(sections.len()), rng.below(sections.len()));
    match rng.below(50) {
        0..=22 => spoil_field(rng, sections),
        23..=24 => drop(sections.remove(which)),
        25..=26 => sections.insert(which, sections[which].clone()),
        27 => sections.swap(which, other),
        28..=30 => spoil_bit_map(rng, sections),
        31..=33 => misstate_length(rng, sections, which),
        34 => misstate_length(rng, sections, last),
        // Fewer octets than a section has, behind the last.
        35 => {
            let left = rng.within(1, 4);
            sections.push(rng.octets(left));
        }
        36 => sections.truncate(which),
        37 => sections.truncate(rng.within(0, 6)),
        38..=40 => sections.push(some_section(rng)),
        _ => misplace(rng, sections),
    }
}

/// As long as a message may be, or one octet less or more, by its section 2.
fn fill(rng: &mut Rng, sections: &mut Sections) {
    let is_local = |section: &Vec<u8>| number_of(section) == Some(2);
    if !sections.iter().any(is_local) {
        sections.insert(sections.len().min(1), section2(rng));
    }
    let wanted = rng.pick(&[MOST_OCTETS - 1, MOST_OCTETS, MOST_OCTETS, MOST_OCTETS + 1]);
    let more = wanted.saturating_sub(framed(sections).len());
    if let Some(local) = sections.iter_mut().find(|section| is_local(section)) {
        local.resize(local.len() + more, rng.octet());
        close(local);
    }
}

fn some_sections(rng: &mut Rng) -> Sections {
    let fields = count(rng);
    match rng.below(80) {
        0 => Whole::large(rng).sections,
        1..=2 => {
            let mut sections = Whole::of(rng, fields).sections;
            fill(rng, &mut sections);
            sections
        }
        _ => Whole::of(rng, fields).sections,
    }
}

pub fn message(rng: &mut Rng) -> Vec<u8> {
    let mut sections = some_sections(rng);
    while rng.percent(50) {
        damage_sections(rng, &mut sections);
    }
    let mut message = framed(&sections);
    let not_looked_at = rng.octets(3);
    message[4..7].copy_from_slice(&not_looked_at);
    while rng.percent(20) {
        damage_message(rng, &mut message);
    }
    message
}
