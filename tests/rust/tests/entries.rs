//! Document 01's examples of sections and queues through the library, and slices of nothing.
#![cfg(not(no_library))]

use skogmund_tests::entries::{self, raw, Answer};
use skogmund_tests::examples::{four_by_three, listed, section1, section4, section5, section7};
use skogmund_tests::reference::entries::VALUES;
use skogmund_tests::reference::Refusal;
use std::ptr::{null, null_mut, NonNull};

const MISSING: i64 = i64::MIN;
const YEAR_2024: [u8; 2] = [7, 0xe8];

const fn refused(number: u8, section: u8, place: u32) -> Answer {
    Answer::Refused(Refusal {
        number,
        section,
        place,
    })
}

const TOO_FEW_PLACES: Answer = refused(18, 0, 0);
/// What stands in a place that nothing was written to.
const STAYS: i64 = -77;

/// The answer, and the values behind their count; nothing else may be written.
fn values_in(section: u8, s: &[u8], places: usize) -> (Answer, Vec<i64>) {
    let mut values = vec![STAYS; places];
    let answer = entries::read(section, s, &mut values);
    if answer != Answer::Done {
        assert_eq!(values, vec![STAYS; places]);
        return (answer, vec![]);
    }
    let end = 1 + values[0] as usize;
    assert!(values[end..].iter().all(|&value| value == STAYS));
    (answer, values[1..end].to_vec())
}

fn answer_of(section: u8, s: &[u8]) -> Answer {
    values_in(section, s, VALUES).0
}

fn values_of(section: u8, s: &[u8]) -> Vec<i64> {
    let (answer, values) = values_in(section, s, VALUES);
    assert_eq!(answer, Answer::Done);
    values
}

fn real_year(s: &[u8]) -> i64 {
    *values_of(1, s).last().expect("values")
}

#[test]
fn real_years_of_the_document() {
    assert_eq!(
        real_year(&section1(YEAR_2024, 3, &[0, 1, 0x80, 2])),
        -17_976
    );
    assert_eq!(
        real_year(&section1([0x80, 5], 3, &[0, 1, 0x80, 1])),
        -10_005
    );
    assert_eq!(real_year(&section1([0, 0], 3, &[0, 1, 0, 1])), 10_000);
    assert_eq!(real_year(&section1([0x80, 5], 3, &[])), 32_773);
}

#[test]
fn section_1_keeps_year_and_offset_beside_the_real_year() {
    let with_both = section1(YEAR_2024, 3, &[0, 2, 9, 0x80, 2]);
    let head = [26, 1, 98, 7, 30, 1, 2, 2024, 3, 7, 18, 30, 45, 4, 5];
    let template = [2, 9, -2, -17_976];
    assert_eq!(values_of(1, &with_both), [&head[..], &template].concat());
    let without = section1(YEAR_2024, 3, &[]);
    let expected = [21, 1, 98, 7, 30, 1, 2, 2024, 3, 7, 18, 30, 45, 4, 5, 2024];
    assert_eq!(values_of(1, &without), expected);
}

#[test]
fn month_0_is_8_at_15() {
    let section = section1(YEAR_2024, 0, &[]);
    assert_eq!(answer_of(1, &section), refused(8, 1, 15));
    let mut values = [STAYS; VALUES];
    // SAFETY: each pointer comes with the length of the slice that it is of.
    let code = unsafe { raw::skogmund_read(1, section.as_ptr(), 21, values.as_mut_ptr(), VALUES) };
    assert_eq!(code, 8 << 40 | 1 << 32 | 15);
}

#[test]
fn totals_of_the_document() {
    assert_eq!(answer_of(4, &section4(8, 78, 2, 2, 0)), Answer::Done);
    assert_eq!(answer_of(4, &section4(8, 77, 2, 2, 0)), refused(11, 4, 78));
    assert_eq!(answer_of(4, &section4(8, 79, 2, 2, 0)), refused(21, 4, 79));
    assert_eq!(answer_of(4, &section4(11, 61, 0, 1, 0)), Answer::Done);
    assert_eq!(answer_of(4, &section4(11, 58, 0, 1, 0)), refused(7, 4, 0));
    assert_eq!(answer_of(4, &section4(14, 93, 0, 1, 5)), Answer::Done);
    assert_eq!(answer_of(4, &section4(4, 64, 0, 0, 0)), Answer::Done);
}

/// As many octets as a section may have, all 0 but these.
fn longest(section: u8, octets: &[(usize, &[u8])]) -> Vec<u8> {
    let mut s = vec![0; 65_536];
    s[1] = 1;
    s[4] = section;
    for (at, some) in octets {
        s[at - 1..][..some.len()].copy_from_slice(some);
    }
    s
}

/// 3.0 with a list of so many numbers of one octet: 72 octets and as many more.
fn longest_list(count: u16) -> Vec<u8> {
    let nj = [&[0, 0][..], &count.to_be_bytes()].concat();
    longest(
        3,
        &[
            (11, &[1, 1]),
            (31, &[255; 4]),
            (35, &nj),
            (46, &[1]),
            (64, &[255; 4]),
        ],
    )
}

/// 4.1 has 37 octets before its coordinate values, 4.5 has 47.
fn longest_coordinates(template: u8, count: u16) -> Vec<u8> {
    longest(4, &[(6, &count.to_be_bytes()), (9, &[template])])
}

#[test]
fn short_or_long_at_the_limit() {
    let one = longest(1, &[(15, &[1, 1])]);
    assert_eq!(answer_of(1, &one), refused(21, 1, 25));
    assert_eq!(answer_of(3, &longest_list(65_463)), refused(21, 3, 65_536));
    assert_eq!(answer_of(3, &longest_list(65_465)), refused(11, 3, 65_537));
    let (tail, clipped) = (
        longest_coordinates(5, 16_372),
        longest_coordinates(1, 16_375),
    );
    assert_eq!(answer_of(4, &tail), refused(21, 4, 65_536));
    assert_eq!(answer_of(4, &clipped), refused(11, 4, 65_537));
    assert_eq!(answer_of(5, &longest(5, &[])), refused(21, 5, 22));
    let mut values = [STAYS; VALUES];
    // SAFETY: each pointer comes with the length of the slice that it is of.
    let code =
        unsafe { raw::skogmund_read(4, clipped.as_ptr(), 65_536, values.as_mut_ptr(), VALUES) };
    assert_eq!(code, 11 << 40 | 4 << 32 | 65_537);
}

#[test]
fn missing_values_of_section_4() {
    let mut section = section4(0, 34, 0, 0, 0);
    section[14..16].fill(255);
    section[18] = 0x80;
    section[23..28].fill(255);
    let expected = [
        34, 4, 0, 0, 0, 0, 0, 0, 0, MISSING, 0, 0, 0, 0, MISSING, MISSING, 0, 0, 0,
    ];
    assert_eq!(values_of(4, &section), expected);
}

#[test]
fn grids_of_the_document() {
    let values = values_of(3, &listed(14));
    // Length, number, source, points, width, interpretation, template; the list is not among them.
    assert_eq!(values[..7], [78, 3, 0, 14, 2, 1, 0]);
    // Ni, Nj; Di, Dj and the scanning mode, with which the base ends.
    assert_eq!(values[14..16], [MISSING, 3]);
    assert_eq!(values[23..], [MISSING, 0, 0]);
    assert_eq!(answer_of(3, &listed(15)), refused(13, 3, 0));
    assert_eq!(values_of(3, &four_by_three(12))[3], 12);
    assert_eq!(answer_of(3, &four_by_three(13)), refused(13, 3, 0));
}

#[test]
fn sections_5_and_7_alone() {
    let mut five = section5(14, 9);
    five[15..19].copy_from_slice(&[0x80, 3, 0xff, 0xff]);
    assert_eq!(values_of(5, &five), [21, 5, 14, 0, 0, -3, -32_767, 9, 0]);
    assert_eq!(answer_of(5, &section5(14, 33)), refused(8, 5, 20));
    // Section 7 alone knows 1 to 4 only: any length will do.
    assert_eq!(values_of(7, &section7(&[])), [5, 7]);
    assert_eq!(values_of(7, &section7(&[0xff; 3])), [8, 7]);
    assert_eq!(answer_of(7, &section5(14, 9)), refused(4, 7, 0));
    assert_eq!(answer_of(7, &[0, 0, 0, 4]), refused(1, 7, 0));
}

#[test]
fn another_section_number_is_4() {
    for number in [0, 2, 6, 8, 255] {
        let mut section = section7(&[]);
        section[4] = number;
        assert_eq!(answer_of(number, &section), refused(4, number, 0));
        assert_eq!(values_in(number, &[], 0).0, refused(4, number, 0));
    }
}

#[test]
fn too_few_places_for_values_come_last() {
    let section = section7(&[]);
    assert_eq!(values_in(7, &section, VALUES - 1).0, TOO_FEW_PLACES);
    assert_eq!(values_in(7, &section[1..], 0).0, refused(1, 7, 0));
    assert_eq!(values_in(7, &section, VALUES + 1).0, Answer::Done);
}

/// First octet and length.
fn part_of(part: u8, s: &[u8], k: u64) -> (u64, u64) {
    let mut span = [9; 3];
    assert_eq!(entries::part(part, s, k, &mut span), Answer::Done);
    assert_eq!(span[2], 9);
    (span[0], span[1])
}

#[test]
fn list_of_section_3_of_the_document() {
    assert_eq!(part_of(1, &listed(14), u64::MAX), (73, 6));
    assert_eq!(part_of(1, &listed(15), 0), (0, 0));
    assert_eq!(part_of(1, &four_by_three(12), 0), (0, 0));
}

#[test]
fn parts_of_section_4() {
    let of_4_8 = section4(8, 78, 2, 2, 0);
    assert_eq!(part_of(2, &of_4_8, 0), (47, 12));
    assert_eq!(part_of(2, &of_4_8, 1), (59, 12));
    assert_eq!(part_of(2, &of_4_8, 2), (0, 0));
    assert_eq!(part_of(2, &of_4_8, u64::MAX), (0, 0));
    assert_eq!(part_of(3, &of_4_8, 0), (0, 0));
    assert_eq!(part_of(4, &of_4_8, 0), (71, 8));
    assert_eq!(part_of(3, &section4(14, 93, 0, 1, 5), 7), (89, 5));
    for no_part in [0, 5, 255] {
        assert_eq!(part_of(no_part, &of_4_8, 0), (0, 0));
    }
}

#[test]
fn too_few_places_for_a_span() {
    let mut span = [9];
    assert_eq!(entries::part(1, &listed(14), 0, &mut span), TOO_FEW_PLACES);
    assert_eq!(span, [9]);
}

#[test]
fn unpacking_of_the_document() {
    let mut row = [9; 3];
    let answer = entries::unpack(&section5(3, 5), &section7(&[0x0c, 0x44]), &mut row);
    assert_eq!((answer, row), (Answer::Done, [1, 17, 2]));
}

#[test]
fn a_row_that_does_not_fit_stays() {
    for places in [0, 1, 2, 4, 5] {
        let mut row = vec![9; places];
        let answer = entries::unpack(&section5(3, 5), &section7(&[0x0c, 0x44]), &mut row);
        assert_eq!((answer, row), (TOO_FEW_PLACES, vec![9; places]));
    }
}

#[test]
fn listing_of_nothing() {
    let expected =
        b"slot year month day hour minute second issue template\nkept 0 passed 0 refused 0\n";
    let (mut text, mut length) = ([b'?'; 100], [9, 9]);
    assert_eq!(entries::list(&[], &mut text, &mut length), Answer::Done);
    assert_eq!(length, [expected.len() as u64, 9]);
    assert_eq!(&text[..expected.len()], expected);
    assert!(text[expected.len()..].iter().all(|&octet| octet == b'?'));
}

#[test]
fn spelling_80_00_is_19() {
    let list = |places: usize, one: usize| {
        let (mut text, mut length) = (vec![b'?'; places], vec![9; one]);
        let answer = entries::list(&[0x80, 0x00], &mut text, &mut length);
        (answer, text, length)
    };
    let text = b"refused 19\n".to_vec();
    assert_eq!(list(11, 1), (Answer::Done, text, vec![11]));
    assert_eq!(list(10, 1), (TOO_FEW_PLACES, vec![b'?'; 10], vec![9]));
    assert_eq!(list(11, 0), (TOO_FEW_PLACES, vec![b'?'; 11], vec![]));
}

/// An empty slice comes with a null pointer or with any other.
#[test]
fn slices_of_nothing() {
    let some = NonNull::<u64>::dangling();
    let octets = [null(), some.as_ptr() as *const u8];
    for (nothing, place) in octets.into_iter().zip([null_mut(), some.as_ptr()]) {
        // SAFETY: no pointer here comes with a length above 0.
        unsafe {
            let code = raw::skogmund_read(3, nothing, 0, place.cast(), 0);
            assert_eq!(code, 1 << 40 | 3 << 32);
            assert_eq!(raw::skogmund_part(1, nothing, 0, 0, place, 0), 18 << 40);
            let code = raw::skogmund_unpack(nothing, 0, nothing, 0, place.cast(), 0);
            assert_eq!(code, 1 << 40 | 5 << 32);
            let code = raw::skogmund_list(nothing, 0, place.cast(), 0, place, 0);
            assert_eq!(code, 18 << 40);
        }
        part_of_nothing(nothing);
    }
}

fn part_of_nothing(nothing: *const u8) {
    let mut span = [9; 2];
    // SAFETY: every pointer that comes with a length above 0 is of a slice of that length.
    let code = unsafe { raw::skogmund_part(1, nothing, 0, 0, span.as_mut_ptr(), 2) };
    assert_eq!((code, span), (0, [0, 0]));
}
