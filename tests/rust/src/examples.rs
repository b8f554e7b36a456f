//! Sections of document 01's examples, with zeros for all that an example does not say, and a message's. Octets count from 1.
use crate::generate::messages::{group, Sections};
use crate::reference::product::TEMPLATES;

pub const MISSING: [u8; 4] = [255; 4];

/// Sets the last of the length octets to the length there is.
fn closed(mut s: Vec<u8>) -> Vec<u8> {
    s[3] = s.len() as u8;
    s
}

/// Of the 7th, 18:30:45, and from octet 22 on what is given.
pub fn section1(year: [u8; 2], month: u8, tail: &[u8]) -> Vec<u8> {
    let mut s = vec![0, 0, 0, 0, 1, 0, 98, 0, 7, 30, 1, 2];
    s.extend(year);
    s.extend([month, 7, 18, 30, 45, 4, 5]);
    s.extend(tail);
    closed(s)
}

/// Template 3.0 without a list.
pub fn section3(points: u8, width: u8, interpretation: u8, ni: [u8; 4], nj: [u8; 4]) -> Vec<u8> {
    let mut s = vec![0; 72];
    s[4] = 3;
    s[9] = points;
    s[10] = width;
    s[11] = interpretation;
    s[30..34].copy_from_slice(&ni);
    s[34..38].copy_from_slice(&nj);
    s[42..46].copy_from_slice(&MISSING);
    closed(s)
}

/// Ni = 4, Nj = 3.
pub fn four_by_three(points: u8) -> Vec<u8> {
    section3(points, 0, 0, [0, 0, 0, 4], [0, 0, 0, 3])
}

/// Ni missing, Nj = 3, width 2, list 4, 6, 4.
pub fn listed(points: u8) -> Vec<u8> {
    let mut s = section3(points, 2, 1, MISSING, [0, 0, 0, 3]);
    s[63..67].copy_from_slice(&MISSING);
    s.extend([0, 4, 0, 6, 0, 4]);
    closed(s)
}

/// So many octets of a template with these counts; an interval ends on the 1st of January.
pub fn section4(number: u8, length: usize, nv: u8, n: u8, nc: u8) -> Vec<u8> {
    let mut listed = TEMPLATES.iter();
    let template = listed
        .find(|template| template.number == u64::from(number))
        .expect("a listed template");
    let mut s = vec![0; length.max(template.smallest())];
    s[4] = 4;
    s[6] = nv;
    s[8] = number;
    if let Some(at) = template.nc_at {
        s[at - 1] = nc;
    }
    if let Some(at) = template.n_at {
        s[at - 1] = n;
        s[at - 6] = 1;
        s[at - 5] = 1;
    }
    s.truncate(length);
    closed(s)
}

pub fn section5(values: u8, bits: u8) -> Vec<u8> {
    let mut s = vec![0; 21];
    s[4] = 5;
    s[8] = values;
    s[19] = bits;
    closed(s)
}

pub fn section7(packed: &[u8]) -> Vec<u8> {
    closed([&[0, 0, 0, 0, 7], packed].concat())
}

/// Of so many octets, at most 255.
pub fn section2(length: usize) -> Vec<u8> {
    closed([&[0, 0, 0, 0, 2], &vec![0x20; length - 5][..]].concat())
}

/// The sections of a message behind section 0: section 1 of 2024-03-07 00:00:00, and groups that begin at these sections, each of twelve
/// values of 9 bits and 4.8 with n = 1.
pub fn message_sections(from: &[usize]) -> Sections {
    let mut one = section1([7, 0xe8], 3, &[]);
    one[16..19].fill(0);
    let (three, four) = (four_by_three(12), section4(8, 58, 0, 1, 0));
    let (five, seven) = (section5(12, 9), section7(&[0x37; 14]));
    let field = [one.clone(), three, four, five, seven];
    let groups = from.iter();
    let groups = groups.flat_map(|&from| group(from, section2(5), field.clone()));
    [one].into_iter().chain(groups).collect()
}
