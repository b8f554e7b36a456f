//! The unpacker's engines, each by itself, against the reference and against one another.
#![cfg(not(no_library))]

use skogmund_tests::engines::{Engine, ENGINES};
use skogmund_tests::generate::Rng;
use skogmund_tests::lent::{exact, hex, report, Lent};
use skogmund_tests::reference::packing::numbers;
use std::collections::BTreeSet;
use std::ptr::{null, null_mut, NonNull};

const SEED: u64 = 20_240_307;
/// More than eight groups of eight numbers.
const MOST_PLACES: usize = 70;
/// Octets all alike: zeros, ones, and alternating bits.
const ALIKE: [u8; 4] = [0, 0xff, 0xaa, 0x55];
/// More bits than a place has.
const TOO_WIDE: [u32; 5] = [33, 40, 64, 255, u32::MAX];

/// The octets that so many numbers take.
fn needed(bits: u32, places: usize) -> usize {
    (places * bits as usize).div_ceil(8)
}

/// As many octets as are needed, some missing, down to none at all, and some to spare.
fn lengths_about(needed: usize) -> BTreeSet<usize> {
    let fewer = [1, 2, 3, 4, 5, 9, 33].into_iter();
    let fewer = fewer.filter_map(|missing| needed.checked_sub(missing));
    let more = [0, 1, 2, 7, 40].map(|spare| needed + spare);
    fewer.chain(more).chain([0, needed / 2]).collect()
}

/// Each engine is lent a row with a pattern in it and around it. It writes this at the start, and all else stays as it was.
fn all_write(rng: &mut Rng, packed: &[u8], bits: u32, places: usize, written: &[u32]) {
    for engine in ENGINES {
        let packed = exact(packed.to_vec());
        let mut row = Lent::new(rng, places, |pattern| pattern as u32);
        engine.unpack(&packed, bits, row.lent());
        let call = || {
            let (name, packed) = (engine.name, hex(&packed));
            format!("{name} places {places} bits {bits} packed {packed}")
        };
        let differences = [row.difference("row", written), packed.change("packed")];
        report(call, differences).unwrap_or_else(|said| panic!("{said}"));
    }
}

fn all_write_as_the_reference(rng: &mut Rng, packed: &[u8], bits: u32, places: usize) {
    let written = numbers(packed, bits as usize, places);
    all_write(rng, packed, bits, places, &written);
}

fn widths_and_places() -> impl Iterator<Item = (u32, usize)> {
    (0..=32).flat_map(|bits| (0..=MOST_PLACES).map(move |places| (bits, places)))
}

fn flipped(packed: &[u8], bit: usize) -> Vec<u8> {
    let mut packed = packed.to_vec();
    packed[bit / 8] ^= 0x80 >> (bit % 8);
    packed
}

#[test]
fn example_of_the_document() {
    let rng = &mut Rng::of_input(SEED, 0);
    all_write(rng, &[0x0c, 0x44], 5, 3, &[1, 17, 2]);
}

#[test]
fn every_width_and_number_of_places() {
    let rng = &mut Rng::of_input(SEED, 1);
    for (bits, places) in widths_and_places() {
        for length in lengths_about(needed(bits, places)) {
            for octet in ALIKE {
                all_write_as_the_reference(rng, &vec![octet; length], bits, places);
            }
            let octets = rng.octets(length);
            all_write_as_the_reference(rng, &octets, bits, places);
        }
    }
}

/// One bit is set, each in its turn, also where the last octet is missing or one is to spare. The rows are less than a group of eight, a
/// group, a group and one, two groups and one.
#[test]
fn one_bit_that_walks() {
    let rng = &mut Rng::of_input(SEED, 2);
    for (bits, places) in widths_and_places().filter(|(_, places)| [7, 8, 9, 17].contains(places)) {
        let needed = needed(bits, places);
        for length in needed.saturating_sub(1)..=needed + 1 {
            for bit in 0..8 * length {
                let octets = flipped(&vec![0; length], bit);
                all_write_as_the_reference(rng, &octets, bits, places);
            }
        }
    }
}

/// Where the last number ends with an octet, before its end and behind it: its last bit counts, and the bit behind that does not.
#[test]
fn the_last_bit_and_the_one_behind_it() {
    let rng = &mut Rng::of_input(SEED, 3);
    let mut ends = BTreeSet::new();
    for (bits, places) in widths_and_places().filter(|&(bits, places)| bits > 0 && places > 0) {
        let end = places * bits as usize;
        let octets = rng.octets(end / 8 + 1);
        let mut row = numbers(&octets, bits as usize, places);
        all_write(rng, &flipped(&octets, end), bits, places, &row);
        row[places - 1] ^= 1;
        all_write(rng, &flipped(&octets, end - 1), bits, places, &row);
        ends.insert(end % 8);
    }
    assert_eq!(ends, (0..8).collect(), "an end never came up");
}

#[test]
fn longer_rows() {
    let rng = &mut Rng::of_input(SEED, 4);
    for bits in [0, 1, 3, 4, 7, 8, 9, 12, 16, 20, 24, 31, 32] {
        for places in (71..=80).chain([127, 128, 129, 1_000, 16_000]) {
            for length in lengths_about(needed(bits, places)) {
                let octets = rng.octets(length);
                all_write_as_the_reference(rng, &octets, bits, places);
            }
        }
    }
}

#[test]
fn a_row_for_wider_numbers_stays() {
    let rng = &mut Rng::of_input(SEED, 5);
    for bits in TOO_WIDE {
        for places in [0, 1, 7, 8, 9, 16, 64, 1_000] {
            for length in [0, 1, 5, 8_000] {
                let octets = rng.octets(length);
                all_write(rng, &octets, bits, places, &[]);
            }
        }
    }
}

/// Compared with nothing but one another. Each row holds something else before, so that none is the same by being left alone.
#[test]
fn all_give_the_same_row() {
    let rng = &mut Rng::of_input(SEED, 6);
    for _ in 0..5_000 {
        let (bits, places) = (rng.within(0, 32) as u32, rng.within(0, 300));
        let length = rng.within(0, needed(bits, places) + 9);
        let octets = rng.octets(length);
        let [first, others @ ..] = ENGINES.map(|engine| {
            let mut row = vec![rng.any() as u32; places];
            engine.unpack(&octets, bits, &mut row);
            row
        });
        for (row, engine) in others.iter().zip(&ENGINES[1..]) {
            let packed = || format!("bits {bits} packed {}", hex(&octets));
            assert_eq!(row, &first, "{} {}", engine.name, packed());
        }
    }
}

/// Neither octets nor places, then octets alone, then places alone, each of which holds 9 before and `left` afterwards.
fn lend_nothing(engine: Engine, nothing: (*const u8, *mut u32), bits: u32, left: u32) {
    let (no_octets, no_places) = nothing;
    for places in [1, 7, 8, 9, 17] {
        let (octets, mut row) = ([0xff_u8; 68], vec![9; places]);
        // SAFETY: every pointer that comes with a length above 0 is of a slice of that length.
        unsafe {
            (engine.raw)(no_octets, 0, bits, no_places, 0);
            (engine.raw)(octets.as_ptr(), octets.len(), bits, no_places, 0);
            (engine.raw)(no_octets, 0, bits, row.as_mut_ptr(), places);
        }
        assert_eq!(row, vec![left; places], "{} bits {bits}", engine.name);
    }
}

/// An empty slice comes with a null pointer or with any other.
#[test]
fn slices_of_nothing() {
    let some = NonNull::<u32>::dangling().as_ptr();
    for nothing in [(null(), null_mut()), (some as *const u8, some)] {
        for engine in ENGINES {
            (0..=32).for_each(|bits| lend_nothing(engine, nothing, bits, 0));
            lend_nothing(engine, nothing, 33, 9);
        }
    }
}
