//! Numbers of octets.

/// The big-endian number at octets `first` to `last`.
pub fn number(s: &[u8], first: usize, last: usize) -> u64 {
    s[first - 1..last]
        .iter()
        .fold(0, |so_far, &octet| so_far * 256 + u64::from(octet))
}

/// All bits one, in so many octets.
pub fn all_ones(octets: usize) -> u64 {
    (1 << (8 * octets)) - 1
}

/// Sign and magnitude: the top bit is the sign, the rest the size.
pub fn signed(raw: u64, octets: usize) -> i64 {
    let sign = 1 << (8 * octets - 1);
    let size = (raw % sign) as i64;
    if raw >= sign {
        -size
    } else {
        size
    }
}

#[cfg(test)]
mod tests {
    use super::*;

    #[test]
    fn signed_numbers() {
        assert_eq!(signed(0x8005, 2), -5);
        assert_eq!(signed(0x8000, 2), 0);
        assert_eq!(signed(0x7fff, 2), 32_767);
        assert_eq!(signed(0xffff, 2), -32_767);
        assert_eq!(signed(0xff, 1), -127);
        assert_eq!(signed(0xffff_fffe, 4), -2_147_483_646);
    }

    #[test]
    fn big_endian() {
        assert_eq!(number(&[9, 1, 2, 3], 2, 4), 0x010203);
        assert_eq!(all_ones(4), 0xffff_ffff);
    }
}
