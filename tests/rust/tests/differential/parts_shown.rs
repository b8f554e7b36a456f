//! `skogmund_part`: several calls for each section.
use crate::tally::{template_kind, Tally};
use skogmund_tests::entries::{self, Answer};
use skogmund_tests::generate::sections::{self, Size};
use skogmund_tests::generate::Rng;
use skogmund_tests::lent::{
    damaged_by_chance, difference_of_answers, exact, hex, places_about, report, Exact, Lent,
};
use skogmund_tests::reference::{self, grid, parts, product, Outcome};

fn section_for_parts(rng: &mut Rng) -> Vec<u8> {
    let size = Size::some(rng);
    let s = match rng.below(40) {
        0 => sections::section1(rng),
        1 => sections::section5(rng, 3, 5),
        2 => sections::section7(rng, 3, 5),
        3 => {
            let length = rng.below(120);
            rng.octets(length)
        }
        4 => match rng.below(3) {
            0 => sections::section3_of_no_width(rng),
            1 => sections::section3_of_other_points(rng),
            _ => sections::wrapped_section3(rng),
        },
        5..=16 => sections::section3(rng, size),
        _ => sections::section4(rng, size),
    };
    damaged_by_chance(rng, s, 40)
}

fn which_part(rng: &mut Rng, s: &[u8]) -> u8 {
    match (rng.below(20), s.get(4)) {
        (0, _) => rng.pick(&[0, 5, 6, 7, 129, 255]),
        (1..=3, _) => rng.within(1, 4) as u8,
        (_, Some(3)) => 1,
        _ => rng.within(2, 4) as u8,
    }
}

/// One of the ranges that the section has, or around their number, or far from it.
fn which_range(rng: &mut Rng, s: &[u8]) -> u64 {
    let n = product::read(s).map_or(1, |product| product.tail.n as u64);
    match rng.below(8) {
        0 => rng.pick(&[256, 65_536, 1 << 32, u64::MAX / 12, u64::MAX - 1, u64::MAX]),
        1 => n + rng.below(3) as u64,
        2 => n.saturating_sub(1),
        3 => rng.below(256) as u64,
        _ => rng.any() % n.max(1),
    }
}

fn tally_part(tally: &mut Tally, part: u8, outcome: Outcome<parts::Span>) {
    let shown = outcome.is_ok_and(|span| span.length > 0);
    tally.outcome("part", &outcome);
    tally.kind(match part {
        _ if outcome.is_err() => "part: empty part of a refused section",
        1 if shown => "part: list of section 3 shown",
        2 if shown => "part: time range shown",
        3 if shown => "part: members shown",
        4 if shown => "part: coordinates shown",
        1..=4 => "part: empty part of an accepted section",
        _ => "part: another part number",
    });
}

fn one_part(rng: &mut Rng, tally: &mut Tally, s: &Exact) -> Result<(), String> {
    let (part, k) = (which_part(rng, s), which_range(rng, s));
    let places = places_about(rng, 2);
    let mut span = Lent::new(rng, places, |pattern| pattern);
    let answer = entries::part(part, s, k, span.lent());
    let owed = reference::entries::part(part, s, k, places);
    tally.calls += 1;
    tally.outcome("part", &owed);
    // With too few places the section is not looked at.
    if owed.is_ok() {
        tally_part(tally, part, parts::part_of_accepted(part, s, k));
    }
    report(
        || format!("part {part} k {k} places {places} section {}", hex(s)),
        [
            difference_of_answers(answer, Answer::from(&owed)),
            span.difference("span", owed.as_ref().map_or(&[], |span| &span[..])),
            s.change("the section"),
        ],
    )
}

fn tally_section(tally: &mut Tally, s: &[u8]) {
    if let Ok(grid) = grid::read(s) {
        tally.kind(&template_kind("part", 3, grid.record.number(13) as u64));
    }
    if let Ok(product) = product::read(s) {
        tally.kind(&template_kind("part", 4, product.record.number(8) as u64));
    }
    tally.length(s);
}

pub fn parts_of_a_section(rng: &mut Rng, tally: &mut Tally) -> Result<(), String> {
    let s = exact(section_for_parts(rng));
    tally_section(tally, &s);
    (0..4).try_for_each(|_| one_part(rng, tally, &s))
}
