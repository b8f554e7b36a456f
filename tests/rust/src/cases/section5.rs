//! Sections 5 and 7, on both sides of every rule, and every width unpacked.
use super::build::{sized, with, with_number, ONES};
use super::{Asked, Cases};
use crate::generate::sections::close;
use crate::generate::Rng;
use crate::reference::packing::data_length;

const SEED: u64 = 5;

/// Section 5 of so many values of so many bits.
pub fn five(values: u64, bits: u8) -> Vec<u8> {
    let s = [
        0, 0, 0, 21, 5, 0, 0, 0, 0, 0, 0, 0x42, 0xc8, 0, 0, 0x80, 3, 0, 1, bits, 1,
    ];
    with_number(&s, 6, 9, values)
}

pub fn seven(packed: &[u8]) -> Vec<u8> {
    let mut s = vec![0, 0, 0, 0, 7];
    s.extend(packed);
    close(&mut s);
    s
}

fn size(values: u64, bits: u8) -> usize {
    data_length(values, bits.into()) as usize - 5
}

fn case(cases: &mut Cases, shows: &str, s: Vec<u8>) {
    cases.add(shows, Asked::Section(5, s));
}

fn together(cases: &mut Cases, shows: &str, five: &[u8], seven: &[u8], places: usize) {
    let asked = Asked::Unpacking(five.to_vec(), seven.to_vec(), places);
    cases.add(shows, asked);
}

fn unpacking(cases: &mut Cases, shows: &str, values: u64, bits: u8, packed: &[u8]) {
    let places = values as usize;
    together(cases, shows, &five(values, bits), &seven(packed), places);
}

fn examples_of_document(cases: &mut Cases) {
    let mut example = |values: u64, bits, seven, stated| {
        let asked = Asked::Unpacking(five(values, bits), seven, values as usize);
        cases.stated("the examples of document 01", asked, stated);
    };
    let packed = seven(&[0x0c, 0x44]);
    example(3, 5, packed, "written 3 row 1 17 2 ");
    let of_21 = sized(&seven(&[]), 21);
    example(14, 9, of_21, "read 2 21 7 unpacked written 14 ");
}

fn section5(cases: &mut Cases) {
    let s = five(14, 9);
    for length in 0..27 {
        case(cases, "a section 5 of 0 to 26 octets", sized(&s, length));
    }
    for length in [20, 21, 65536, 65537] {
        case(cases, "a long section 5", sized(&s, length));
    }
    let shows = "octets 1-4 differ from the lent length";
    case(cases, shows, with(&s, &[(4, 20)]));
    for number in [0, 1, 3, 7, 255] {
        case(cases, "a wrong section number", with(&s, &[(5, number)]));
    }
    for template in [1, 2, 40, 256, 65535] {
        let s = with_number(&s, 10, 11, template);
        case(cases, "a template that is not 0", s);
    }
    for bits in [0, 1, 31, 32, 33, 64, 127, 128, 255] {
        case(cases, "bits per value", five(14, bits));
    }
    for values in [0, 1, 1 << 31, ONES] {
        case(cases, "the number of values", five(values, 9));
    }
    for at in [16, 18] {
        for number in [0, 1, 0x7fff, 0x8000, 0x8001, 0xfffe, 0xffff] {
            let s = with_number(&s, at, at + 1, number);
            case(cases, "E and D at both ends", s);
        }
    }
    for octet in [0, 1, 255] {
        let s = with(&s, &[(12, octet), (15, octet), (21, octet)]);
        case(cases, "R as bits, and the type", s);
    }
    let many_bits = five(14, 40);
    for s in [
        sized(&many_bits, 22),
        sized(&with(&many_bits, &[(11, 1)]), 15),
        sized(&many_bits, 20),
    ] {
        case(cases, "several reasons: the lowest number", s);
    }
}

/// 7 catches what is shorter than 21 octets.
fn short_or_long(cases: &mut Cases) {
    for (length, stated) in [
        (20, "refused 7 5 0 "),
        (22, "refused 21 5 22 "),
        (65536, "refused 21 5 22 "),
    ] {
        let asked = Asked::Section(5, sized(&five(14, 9), length));
        cases.stated("short or long, with the place", asked, stated);
    }
}

/// So many octets in which only this bit is set.
fn single_bit(octets: usize, bit: usize) -> Vec<u8> {
    let mut packed = vec![0; octets];
    if let Some(octet) = packed.get_mut(bit / 8) {
        *octet = 0x80 >> (bit % 8);
    }
    packed
}

fn every_width(cases: &mut Cases, rng: &mut Rng) {
    for bits in 0..=32 {
        for values in 0..=40 {
            let shows = "every width, 0 to 40 values: all ones";
            let packed = vec![255; size(values, bits)];
            unpacking(cases, shows, values, bits, &packed);
        }
        for values in 0..=40 {
            let shows = "every width, 0 to 40 values: a single bit";
            let all_bits = values as usize * usize::from(bits);
            let bit = rng.below(all_bits.max(1));
            let packed = single_bit(size(values, bits), bit);
            unpacking(cases, shows, values, bits, &packed);
        }
        for values in 0..=40 {
            let shows = "every width, 0 to 40 values: mixed octets";
            let packed = mixed(rng, size(values, bits));
            unpacking(cases, shows, values, bits, &packed);
        }
    }
}

fn mixed(rng: &mut Rng, octets: usize) -> Vec<u8> {
    (0..octets).map(|_| rng.any() as u8).collect()
}

fn single_bits_and_spare_ones(cases: &mut Cases, rng: &mut Rng) {
    for bits in [1, 3, 9, 13, 31] {
        for bit in 0..3 * usize::from(bits) {
            let packed = single_bit(size(3, bits), bit);
            unpacking(cases, "each single bit of three values", 3, bits, &packed);
        }
    }
    for bits in [1, 3, 5, 7, 9, 15, 31] {
        let mut packed = mixed(rng, size(3, bits));
        let last = packed.len() - 1;
        let spare = (8 * packed.len() - 3 * usize::from(bits)) as u32;
        let spare_bits = (1u16 << spare) as u8 - 1;
        for octet in [packed[last] & !spare_bits, packed[last] | spare_bits] {
            packed[last] = octet;
            unpacking(cases, "spare bits clear and set", 3, bits, &packed);
        }
    }
}

fn refusals(cases: &mut Cases) {
    let (of_3, packed) = (five(3, 5), seven(&[0x0c, 0x44]));
    for length in 0..10 {
        let shows = "a section 7 of 0 to 9 octets, where 7 are right";
        together(cases, shows, &of_3, &sized(&packed, length), 3);
    }
    for places in [0, 2, 3, 4, 40, 100] {
        let shows = "a row that is not N long";
        together(cases, shows, &of_3, &packed, places);
    }
    let shows = "the refusals of section 5 come first";
    together(cases, shows, &five(3, 40), &sized(&packed, 6), 2);
    together(cases, shows, &sized(&of_3, 20), &packed, 3);
    let with_a_tail = Asked::Unpacking(sized(&of_3, 22), sized(&packed, 6), 2);
    cases.stated(shows, with_a_tail, "refused 21 5 22 ");
    let shows = "then those of section 7";
    together(cases, shows, &of_3, &with(&packed, &[(5, 5)]), 2);
    together(cases, shows, &of_3, &sized(&packed, 8), 2);
    together(cases, shows, &of_3, &sized(&packed, 65537), 3);
    for (values, bits) in [
        (ONES, 32),
        (1 << 29, 8),
        (1 << 31, 16),
        (ONES, 1),
        (1 << 27, 32),
    ] {
        let shows = "N x bits that 32 bits do not hold";
        together(cases, shows, &five(values, bits), &packed, 3);
    }
    for values in [ONES, 5, 0] {
        let places = values.min(5) as usize;
        together(cases, "width 0", &five(values, 0), &seven(&[]), places);
    }
}

fn largest(cases: &mut Cases) {
    for (values, bits, octet) in [
        (524248, 1, 0xa5),
        (65531, 8, 0xc3),
        (16382, 32, 0x81),
        (16383, 32, 0x81),
        (43687, 12, 0x6d),
        (524248, 1, 255),
        (524249, 1, 0),
    ] {
        let packed = vec![octet; size(values, bits).min(65531)];
        unpacking(cases, "the largest section 7", values, bits, &packed);
    }
}

pub fn add(cases: &mut Cases) {
    cases.begin("sections 5 and 7: ");
    let rng = &mut Rng::of_input(SEED, 0);
    examples_of_document(cases);
    section5(cases);
    short_or_long(cases);
    every_width(cases, rng);
    single_bits_and_spare_ones(cases, rng);
    refusals(cases);
    largest(cases);
}
