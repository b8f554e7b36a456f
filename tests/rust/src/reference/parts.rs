//! The parts of a section that a caller is shown.
use super::{grid, product, Outcome};

/// First octet (from 1) and length; both 0 for an empty part.
#[derive(Clone, Copy, Debug, PartialEq, Eq)]
pub struct Span {
    pub first: u64,
    pub length: u64,
}

const EMPTY: Span = Span {
    first: 0,
    length: 0,
};

fn shown((after, octets): (usize, usize)) -> Span {
    match octets {
        0 => EMPTY,
        _ => Span {
            first: after as u64 + 1,
            length: octets as u64,
        },
    }
}

/// Part 1 is the list of section 3, 2 the k-th time range, 3 the members and 4 the coordinates of section 4. The refusal is
/// kept for who counts them; what is shown of a refused section is [`part`].
pub fn part_of_accepted(part: u8, s: &[u8], k: u64) -> Outcome<Span> {
    Ok(match part {
        1 => shown(grid::read(s)?.list),
        2 => {
            let tail = product::read(s)?.tail;
            match k < tail.n as u64 {
                true => shown(tail.range(k as usize)),
                false => EMPTY,
            }
        }
        3 => shown(product::read(s)?.tail.members()),
        4 => shown(product::read(s)?.tail.coordinates()),
        _ => EMPTY,
    })
}

pub fn part(part: u8, s: &[u8], k: u64) -> Span {
    part_of_accepted(part, s, k).unwrap_or(EMPTY)
}

#[cfg(test)]
mod tests {
    use super::*;
    use crate::examples::section4;

    /// 4.14 with two ranges, three members and one coordinate: 76 + 24 + 3 + 4 octets.
    fn section() -> Vec<u8> {
        section4(14, 107, 1, 2, 3)
    }

    fn shown(asked: u8, k: u64) -> (u64, u64) {
        let span = part(asked, &section(), k);
        (span.first, span.length)
    }

    #[test]
    fn one_behind_the_other() {
        assert_eq!(shown(2, 0), (77, 12));
        assert_eq!(shown(2, 1), (89, 12));
        assert_eq!(shown(3, 0), (101, 3));
        assert_eq!(shown(4, 0), (104, 4));
    }

    #[test]
    fn empty_parts() {
        assert_eq!(shown(1, 0), (0, 0));
        assert_eq!(shown(2, 2), (0, 0));
        assert_eq!(shown(2, u64::MAX), (0, 0));
        assert_eq!(shown(0, 0), (0, 0));
        assert_eq!(shown(5, 0), (0, 0));
        assert_eq!(part(3, &section()[1..], 0), EMPTY);
    }
}
