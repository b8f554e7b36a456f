//! `skogmund_read`.
use crate::tally::{
    points_kind, template_kind, total_kind, Beside, Tally, AT_THE_LIMIT, BY_ONE_OCTET,
    GREATEST_PRODUCT,
};
use skogmund_tests::entries::{self, Answer};
use skogmund_tests::generate::sections::{self, Size};
use skogmund_tests::generate::Rng;
use skogmund_tests::lent::{
    damaged_by_chance, difference_of_answers, exact, hex, places_about, report, Lent,
};
use skogmund_tests::reference::entries::VALUES;
use skogmund_tests::reference::octets::number;
use skogmund_tests::reference::{self, grid, Outcome, Refusal, MOST_OCTETS};

const SECTIONS: &[u8] = &[1, 3, 4, 5, 7];

/// A section that is accepted, but for a grid now and then.
fn whole_section(rng: &mut Rng, section: u8) -> Vec<u8> {
    let (size, values) = (Size::some(rng), rng.below(48) as u64);
    let bits = rng.within(0, 32) as u64;
    match (section, rng.below(12)) {
        (1, _) => sections::section1(rng),
        (3, 0) => sections::section3_of_no_width(rng),
        (3, 1) => sections::wrapped_section3(rng),
        (3, 2) => sections::section3_of_other_points(rng),
        (3, _) => sections::section3(rng, size),
        (4, _) => sections::section4(rng, size),
        (5, _) => sections::section5(rng, values, bits),
        _ => sections::section7(rng, values, bits),
    }
}

fn section_to_read(rng: &mut Rng, section: u8) -> Vec<u8> {
    match rng.below(40) {
        0 => {
            let length = rng.below(120);
            rng.octets(length)
        }
        _ => {
            let s = whole_section(rng, section);
            damaged_by_chance(rng, s, 40)
        }
    }
}

/// The section's own number more often than not.
fn number_asked(rng: &mut Rng, section: u8) -> u8 {
    match rng.below(20) {
        0 => rng.pick(&[0, 2, 6, 8, 9, 129, 131, 255]),
        1 => rng.pick(SECTIONS),
        2 => rng.octet(),
        _ => section,
    }
}

/// Of a section 3 that is accepted or has 13: its list, bit 8 of its scanning mode, and its points beside those that are counted.
fn tally_points(tally: &mut Tally, s: &[u8], accepted: bool) {
    let stated = number(s, grid::POINTS_AT, 10);
    let counted = sections::counted_points(s);
    let has_list = number(s, grid::WIDTH_AT, 11) != 0;
    let beside = match stated {
        _ if stated == counted => Beside::Equal,
        0 => Beside::None,
        _ if stated < counted => Beside::Below,
        _ => Beside::Above,
    };
    let bit_8 = s[grid::SCANNING_MODE_AT - 1] % 2 == 1;
    tally.kind(&points_kind(accepted, has_list, bit_8, beside));
    if !accepted && !has_list && counted >= 1 << 63 {
        tally.kind(GREATEST_PRODUCT);
    }
}

/// Whether a section that has not its total differs from it by one octet. One that is too short would not be with another octet.
fn is_by_one(s: &[u8], refusal: Refusal) -> bool {
    if refusal.number == 21 {
        return refusal.place as usize == s.len();
    }
    let mut longer = [s, &[0]].concat();
    sections::close(&mut longer);
    let refused = reference::read(refusal.section, &longer).err();
    !refused.is_some_and(|refused| refused.number == 11)
}

/// Of 11 and 21.
fn tally_total(tally: &mut Tally, s: &[u8], refusal: Refusal) {
    let Refusal {
        number, section, ..
    } = refusal;
    if s.len() == MOST_OCTETS {
        tally.kind(&total_kind(number, section, AT_THE_LIMIT));
    } else if is_by_one(s, refusal) {
        tally.kind(&total_kind(number, section, BY_ONE_OCTET));
    }
}

fn tally_read(tally: &mut Tally, asked: u8, s: &[u8], owed: &Outcome<Vec<i64>>) {
    tally.length(s);
    if !SECTIONS.contains(&asked) {
        return tally.kind("read: another section number");
    }
    tally.outcome("read", owed);
    let values = match owed {
        Ok(values) => values,
        Err(refusal) if refusal.number == 13 => return tally_points(tally, s, false),
        Err(refusal) if matches!(refusal.number, 11 | 21) => {
            return tally_total(tally, s, *refusal)
        }
        Err(_) => return,
    };
    if values.contains(&i64::MIN) {
        tally.kind("read: missing value");
    }
    if asked == 3 {
        tally_points(tally, s, true);
    }
    // Behind the count: length, number, and then the template as the section has it.
    let template = match (asked, s.len()) {
        (1, 21) => return tally.kind("read: accepted 1 without a template"),
        (1, _) => values[16],
        (3, _) => values[7],
        (4, _) => values[4],
        _ => 0,
    };
    tally.kind(&template_kind("read", asked, template as u64));
}

pub fn one_reading(rng: &mut Rng, tally: &mut Tally) -> Result<(), String> {
    let section = rng.pick(SECTIONS);
    let s = exact(section_to_read(rng, section));
    let asked = number_asked(rng, section);
    let places = places_about(rng, VALUES);
    let mut values = Lent::new(rng, places, |pattern| pattern as i64);
    let answer = entries::read(asked, &s, values.lent());
    let owed = reference::entries::read(asked, &s, places);
    tally.calls += 1;
    tally_read(tally, asked, &s, &owed);
    report(
        || format!("read {asked} places {places} section {}", hex(&s)),
        [
            difference_of_answers(answer, Answer::from(&owed)),
            values.difference("values", owed.as_deref().unwrap_or(&[])),
            s.change("the section"),
        ],
    )
}
