//! `skogmund_unpack`.
use crate::tally::{width_kind, Tally};
use skogmund_tests::entries::{self, Answer};
use skogmund_tests::generate::sections;
use skogmund_tests::generate::Rng;
use skogmund_tests::lent::{damaged_by_chance, difference_of_answers, exact, hex, report, Lent};
use skogmund_tests::reference::{self, packing};

/// Rows for more values than this are not lent.
const MOST_PLACES: u64 = 1 << 20;

fn packed(rng: &mut Rng) -> (Vec<u8>, Vec<u8>) {
    let (five, seven) = sections::packed(rng);
    match rng.below(20) {
        0 => (seven, five),
        1 => (five, sections::packed(rng).1),
        2..=8 => (damaged_by_chance(rng, five, 60), seven),
        9..=13 => (five, damaged_by_chance(rng, seven, 60)),
        _ => (five, seven),
    }
}

/// As many places as there are values, or nearly.
fn places_for(rng: &mut Rng, five: &[u8]) -> usize {
    let values = packing::read(five).map_or(3, |packing| packing.values);
    let values = if values > MOST_PLACES {
        3
    } else {
        values as usize
    };
    match rng.below(12) {
        0 => values.saturating_sub(1),
        1 => values + 1,
        2 => rng.pick(&[0, 1, 2, 64]),
        _ => values,
    }
}

fn tally_row(tally: &mut Tally, row: &[u32], five: &[u8]) {
    tally.kind(match row {
        [] => "unpack: row of no places",
        _ => "unpack: row written",
    });
    if let (Ok(packing), false) = (packing::read(five), row.is_empty()) {
        tally.kind(&width_kind(packing.bits));
    }
}

pub fn one_unpacking(rng: &mut Rng, tally: &mut Tally) -> Result<(), String> {
    let (five, seven) = packed(rng);
    let (five, seven) = (exact(five), exact(seven));
    let places = places_for(rng, &five);
    let mut row = Lent::new(rng, places, |pattern| pattern as u32);
    let answer = entries::unpack(&five, &seven, row.lent());
    let owed = reference::unpack(&five, &seven, places);
    tally.calls += 1;
    tally.outcome("unpack", &owed);
    tally.length(&seven);
    if let Ok(row) = &owed {
        tally_row(tally, row, &five);
    }
    report(
        || {
            format!(
                "unpack places {places} section 5 {} section 7 {}",
                hex(&five),
                hex(&seven)
            )
        },
        [
            difference_of_answers(answer, Answer::from(&owed)),
            row.difference("row", owed.as_ref().map_or(&[], |row| &row[..])),
            five.change("section 5"),
            seven.change("section 7"),
        ],
    )
}
