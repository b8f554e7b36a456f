//! Shelves of any octets. Those that filing and joining make come from the entries themselves.
use super::Rng;
use crate::reference::shelf::SLOTS;
use crate::reference::shelf_octets::{SHELF_OCTETS, SLOT_OCTETS};

/// Octet 1: held, or empty as an entry writes it or by another octet.
fn mark(rng: &mut Rng) -> u8 {
    match rng.below(6) {
        0 => 0,
        1 => rng.octet(),
        _ => 1,
    }
}

/// Any octets: a slot in three is empty, with what is not looked at behind its octet 1, or nearly all of them are.
pub fn any_shelf(rng: &mut Rng) -> Vec<u8> {
    let mut shelf = rng.octets(SHELF_OCTETS);
    if rng.percent(80) {
        for slot in shelf.chunks_exact_mut(SLOT_OCTETS) {
            slot[0] = mark(rng);
        }
    }
    shelf
}

/// Some octet of a slot, so that each decides between two cards in turn.
fn touch_slot(rng: &mut Rng, slot: &mut [u8]) {
    let at = rng.below(SLOT_OCTETS);
    slot[at] = match rng.below(3) {
        0 => rng.octet(),
        1 => slot[at].wrapping_add(1),
        _ => slot[at] ^ 0x80,
    };
}

/// The same shelf but for an octet of some of its slots.
pub fn shelf_beside(rng: &mut Rng, shelf: &[u8]) -> Vec<u8> {
    let mut beside = shelf.to_vec();
    let chance = rng.pick(&[2, 30, 100]);
    for slot in beside.chunks_exact_mut(SLOT_OCTETS) {
        if rng.percent(chance) {
            touch_slot(rng, slot);
        }
    }
    beside
}

/// A slot's number that a shelf has, more often than not.
pub fn slot_number(rng: &mut Rng) -> u64 {
    match rng.below(12) {
        0 => rng.pick(&[64, 65, 127, 255, 256, 1 << 32, 1 << 58, u64::MAX]),
        1 => rng.pick(&[0, 62, 63]),
        2 => rng.any(),
        _ => rng.below(SLOTS) as u64,
    }
}

/// Of another length than a shelf.
pub fn of_another_length(rng: &mut Rng, shelf: &[u8]) -> Vec<u8> {
    let lengths = [0, 1, SLOT_OCTETS, SHELF_OCTETS - SLOT_OCTETS];
    let length = match rng.below(3) {
        0 => rng.pick(&lengths),
        1 => SHELF_OCTETS - 1,
        _ => SHELF_OCTETS + rng.pick(&[1, SLOT_OCTETS, SHELF_OCTETS]),
    };
    let mut other = shelf.to_vec();
    let filler = rng.octet();
    other.resize(length, filler);
    other
}
