//! Cards and the shelf.
use super::field::FieldRead;
use super::octets::number;
use super::{field, refuse_if, Outcome};

pub const SLOTS: usize = 64;
const PRODUCT_FIRST: usize = 8;
pub const PRODUCT_OCTETS: usize = 27;
const GREGORIAN: i64 = 0;

/// The derived order is the document's: the fields from the first to the last, the octets from the left.
#[derive(Clone, Debug, PartialEq, Eq, PartialOrd, Ord)]
pub struct Card {
    /// Real year, month, day, hour, minute, second.
    pub reference_time: [i64; 6],
    pub issue: u32,
    /// Octets 8-34 of section 4.
    pub product: [u8; PRODUCT_OCTETS],
}

impl Card {
    /// Octets 8-9 of section 4.
    pub fn template(&self) -> u64 {
        number(&self.product, 1, 2)
    }

    fn of(field: &FieldRead, issue: u32, four: &[u8]) -> Card {
        let product = &four[PRODUCT_FIRST - 1..][..PRODUCT_OCTETS];
        Card {
            reference_time: field.identification.reference_time(),
            issue,
            product: product.try_into().expect("27 octets"),
        }
    }

    /// The card that filing takes to a slot: 16, the field's refusals, 17. A caller that names no issue gets issue 0.
    pub fn to_file(slot: u64, issue: Option<u32>, sections: [&[u8]; 5]) -> Outcome<Card> {
        refuse_if(slot >= SLOTS as u64, 16, 0)?;
        let field = field::read(sections)?;
        let calendar = field.identification.calendar.unwrap_or(GREGORIAN);
        refuse_if(calendar != GREGORIAN, 17, 1)?;
        Ok(Card::of(&field, issue.unwrap_or(0), sections[2]))
    }

    /// Real year, month, day, hour, minute, second, issue, and the octets one by one.
    pub fn values(&self) -> Vec<i64> {
        let mut values = self.reference_time.to_vec();
        values.push(i64::from(self.issue));
        values.extend(self.product.map(i64::from));
        values
    }
}

#[derive(Clone, Copy, Debug, PartialEq, Eq)]
pub enum Filed {
    Kept,
    Passed,
}

#[derive(Clone, Debug, PartialEq, Eq)]
pub struct Shelf {
    pub slots: Vec<Option<Card>>,
}

impl Shelf {
    pub fn empty() -> Shelf {
        Shelf {
            slots: vec![None; SLOTS],
        }
    }

    /// The slot keeps the greater card; `None` is below every card. Kept means that the slot changed.
    pub fn put(&mut self, slot: usize, card: Option<Card>) -> Filed {
        if card > self.slots[slot] {
            self.slots[slot] = card;
            Filed::Kept
        } else {
            Filed::Passed
        }
    }

    pub fn file(&mut self, slot: u64, issue: Option<u32>, sections: [&[u8]; 5]) -> Outcome<Filed> {
        let card = Card::to_file(slot, issue, sections)?;
        Ok(self.put(slot as usize, Some(card)))
    }

    pub fn join(&mut self, other: &Shelf) {
        for (slot, card) in other.slots.iter().enumerate() {
            self.put(slot, card.clone());
        }
    }

    /// The held slots, rising.
    pub fn held(&self) -> impl Iterator<Item = (usize, &Card)> {
        let slots = self.slots.iter().enumerate();
        slots.filter_map(|(slot, card)| card.as_ref().map(|card| (slot, card)))
    }
}

#[cfg(test)]
mod tests {
    use super::*;

    fn card(year: i64, day: i64, issue: u32) -> Option<Card> {
        Some(Card {
            reference_time: [year, 3, day, 0, 0, 0],
            issue,
            product: [0; PRODUCT_OCTETS],
        })
    }

    #[test]
    fn the_reference_time_comes_before_the_issue() {
        let mut shelf = Shelf::empty();
        assert_eq!(shelf.put(7, card(2024, 7, 40)), Filed::Kept);
        assert_eq!(shelf.put(7, card(2024, 5, 41)), Filed::Passed);
        assert_eq!(shelf.put(7, card(2024, 7, 40)), Filed::Passed);
        assert_eq!(shelf.put(7, card(2024, 7, 41)), Filed::Kept);
        assert_eq!(shelf.put(7, card(-2024, 9, 99)), Filed::Passed);
    }

    #[test]
    fn joining_goes_slot_by_slot() {
        let (mut one, mut other) = (Shelf::empty(), Shelf::empty());
        one.put(1, card(2024, 7, 1));
        one.put(2, card(2024, 7, 1));
        other.put(2, card(2024, 8, 1));
        other.put(3, card(-1, 1, 1));
        let mut either = other.clone();
        either.join(&one);
        one.join(&other);
        assert_eq!(one, either);
        let held: Vec<usize> = one.held().map(|(slot, _)| slot).collect();
        assert_eq!(held, [1, 2, 3]);
        assert_eq!(one.slots[2], card(2024, 8, 1));
    }
}
