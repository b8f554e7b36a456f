//! A safe wrapper of the unpacker's engines (`include/unpacking.h`). Slices go over as those of the entries do.
use crate::entries::{lent, lent_to_write};

/// The engines as the header has them.
pub mod raw {
    pub type Unpack =
        unsafe extern "C" fn(packed: *const u8, n: usize, bits: u32, row: *mut u32, places: usize);

    extern "C" {
        pub fn unpack_bits(packed: *const u8, n: usize, bits: u32, row: *mut u32, places: usize);
        pub fn unpack_octets(packed: *const u8, n: usize, bits: u32, row: *mut u32, places: usize);
        pub fn unpack(packed: *const u8, n: usize, bits: u32, row: *mut u32, places: usize);
    }
}

#[derive(Clone, Copy)]
pub struct Engine {
    pub name: &'static str,
    pub raw: raw::Unpack,
}

/// The last is what the entries use.
pub const ENGINES: [Engine; 3] = [
    Engine {
        name: "unpack_bits",
        raw: raw::unpack_bits,
    },
    Engine {
        name: "unpack_octets",
        raw: raw::unpack_octets,
    },
    Engine {
        name: "unpack",
        raw: raw::unpack,
    },
];

impl Engine {
    /// Fills the row with the first numbers of so many bits; from 33 bits on it stays as it was.
    pub fn unpack(&self, packed: &[u8], bits: u32, row: &mut [u32]) {
        let (n, places) = (packed.len(), row.len());
        // SAFETY: each pointer comes with the length of the slice that it is of, and the engine keeps none.
        unsafe { (self.raw)(lent(packed), n, bits, lent_to_write(row), places) }
    }
}
