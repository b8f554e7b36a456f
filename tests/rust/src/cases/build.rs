//! Sections of the cases: the good ones that document 01 accepts, and how they are changed. Octets count from 1.
use crate::generate::sections::put;
use crate::reference::table::{rows, Block};

/// All bits one in four octets.
pub const ONES: u64 = 0xffff_ffff;

/// The same octets with this number at octets `first` to `last`.
pub fn with_number(s: &[u8], first: usize, last: usize, number: u64) -> Vec<u8> {
    let mut s = s.to_vec();
    put(&mut s, first, last, number);
    s
}

/// The same with these single octets.
pub fn with(s: &[u8], octets: &[(usize, u8)]) -> Vec<u8> {
    let mut s = s.to_vec();
    for &(at, octet) in octets {
        s[at - 1] = octet;
    }
    s
}

/// The same with these numbers in the fields that begin at these octets.
pub fn with_fields(s: &[u8], blocks: &[Block], numbers: &[(usize, u64)]) -> Vec<u8> {
    let mut s = s.to_vec();
    for &(at, number) in numbers {
        let field = rows(blocks).find(|field| field.first == at);
        let last = field.expect("a field begins there").last;
        put(&mut s, at, last, number);
    }
    s
}

/// Cut, or with a tail of zeros; octets 1-4 stay.
pub fn resized(s: &[u8], length: usize) -> Vec<u8> {
    let mut s = s.to_vec();
    s.resize(length, 0);
    s
}

/// Cut, or with a tail of zeros, with as much of the length octets as there is.
pub fn sized(s: &[u8], length: usize) -> Vec<u8> {
    let mut s = resized(s, length);
    let stated = (length as u32).to_be_bytes();
    let there = length.min(4);
    s[..there].copy_from_slice(&stated[..there]);
    s
}

/// In rising order, each once.
pub fn rising(mut numbers: Vec<u64>) -> Vec<u64> {
    numbers.sort();
    numbers.dedup();
    numbers
}
