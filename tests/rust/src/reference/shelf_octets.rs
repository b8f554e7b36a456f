//! A shelf as octets, as the header has it: what a caller keeps, stores and sends.
use super::octets::number;
use super::shelf::{Card, Shelf, SLOTS};

/// Octets of one slot, which count from 1.
pub const SLOT_OCTETS: usize = 41;
pub const SHELF_OCTETS: usize = SLOTS * SLOT_OCTETS;
const EMPTY: u8 = 0;
const HELD: u8 = 1;
/// What is added to the real year, so that it has no sign.
const YEAR_SHIFT: i64 = 1 << 31;
const PRODUCT_AT: usize = 15;

/// There is a card where octet 1 is 1; nothing else is looked at in an empty slot.
fn card_of(slot: &[u8]) -> Option<Card> {
    let at = |first, last| number(slot, first, last) as i64;
    let later = |first| at(first, first);
    (slot[0] == HELD).then(|| Card {
        reference_time: [
            at(2, 5) - YEAR_SHIFT,
            later(6),
            later(7),
            later(8),
            later(9),
            later(10),
        ],
        issue: number(slot, 11, 14) as u32,
        product: slot[PRODUCT_AT - 1..].try_into().expect("27 octets"),
    })
}

fn write_card(octets: &mut Vec<u8>, card: &Card) {
    let [year, later @ ..] = card.reference_time;
    octets.push(HELD);
    octets.extend(((year + YEAR_SHIFT) as u32).to_be_bytes());
    octets.extend(later.map(|number| number as u8));
    octets.extend(card.issue.to_be_bytes());
    octets.extend(card.product);
}

fn write_slot(octets: &mut Vec<u8>, slot: &Option<Card>) {
    match slot {
        None => octets.extend([EMPTY; SLOT_OCTETS]),
        Some(card) => write_card(octets, card),
    }
}

/// Whether an entry writes a shelf so, and not only takes it.
pub fn is_as_written(octets: &[u8]) -> bool {
    octets
        .chunks_exact(SLOT_OCTETS)
        .all(|slot| slot[0] == HELD || slot.iter().all(|octet| *octet == EMPTY))
}

impl Shelf {
    /// Any octets of a shelf's length are a shelf.
    pub fn of_octets(octets: &[u8]) -> Shelf {
        let slots = octets.chunks_exact(SLOT_OCTETS).map(card_of);
        Shelf {
            slots: slots.collect(),
        }
    }

    /// The one form in which an entry writes it.
    pub fn octets(&self) -> Vec<u8> {
        let mut octets = Vec::with_capacity(SHELF_OCTETS);
        for slot in &self.slots {
            write_slot(&mut octets, slot);
        }
        octets
    }
}

#[cfg(test)]
mod tests {
    use super::*;

    fn one_card() -> Card {
        Card {
            reference_time: [-1, 2, 3, 4, 5, 6],
            issue: 0x0102_0304,
            product: std::array::from_fn(|at| at as u8 + 8),
        }
    }

    #[test]
    fn a_slot_as_the_header_has_it() {
        let mut octets = vec![];
        write_card(&mut octets, &one_card());
        assert_eq!(octets.len(), SLOT_OCTETS);
        assert_eq!(octets[..5], [1, 0x7f, 0xff, 0xff, 0xff]);
        assert_eq!(octets[5..14], [2, 3, 4, 5, 6, 1, 2, 3, 4]);
        assert_eq!((octets[14], octets[40]), (8, 34));
        assert_eq!(card_of(&octets), Some(one_card()));
    }

    #[test]
    fn any_octets_are_a_shelf() {
        assert_eq!(SHELF_OCTETS, 2_624);
        let full = Shelf::of_octets(&[1; SHELF_OCTETS]);
        assert_eq!(full.held().count(), SLOTS);
        assert_eq!(full.octets(), [1; SHELF_OCTETS]);
        let empty = Shelf::of_octets(&[2; SHELF_OCTETS]);
        assert_eq!(empty.held().count(), 0);
        // What an empty slot has behind its octet 1 is nothing.
        let mut octets = [1; SHELF_OCTETS];
        octets[SLOT_OCTETS] = 0;
        let shelf = Shelf::of_octets(&octets);
        assert_eq!(shelf.slots[1], None);
        assert_eq!(
            shelf.octets()[SLOT_OCTETS..2 * SLOT_OCTETS],
            [0; SLOT_OCTETS]
        );
        assert_eq!(Shelf::of_octets(&shelf.octets()), shelf);
        assert!(is_as_written(&shelf.octets()) && !is_as_written(&octets));
    }

    #[test]
    fn the_empty_shelf_is_all_zero() {
        assert_eq!(Shelf::empty().octets(), [0; SHELF_OCTETS]);
    }
}
