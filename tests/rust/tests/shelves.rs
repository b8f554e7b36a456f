//! Document 01's examples of filing, joining and queues through the library, on shelves as the header has them.
#![cfg(not(no_library))]

use skogmund_tests::entries::{self, raw, Answer};
use skogmund_tests::examples::{listed, section1, section4, section5, section7};
use skogmund_tests::generate::queues::spelled;
use skogmund_tests::reference::entries::VALUES;
use skogmund_tests::reference::shelf_octets::{SHELF_OCTETS, SLOT_OCTETS};
use skogmund_tests::reference::Refusal;
use std::ptr::{null, null_mut, NonNull};

const NO_ISSUE: u64 = 0;
const GREATEST: u64 = 4_294_967_296;
const YEAR_2024: [u8; 2] = [7, 0xe8];
const TOO_FEW_PLACES: Answer = refused(18, 0);

const fn refused(number: u8, section: u8) -> Answer {
    Answer::Refused(Refusal {
        number,
        section,
        place: 0,
    })
}

fn empty_shelf() -> Vec<u8> {
    let mut shelf = vec![9; SHELF_OCTETS];
    assert_eq!(entries::empty(&mut shelf), Answer::Done);
    shelf
}

/// Of the document: the list of 14 points, 14 values of 9 bits in 21 octets, and 4.8 with n = 2 and NV = 2.
fn field_of(one: Vec<u8>) -> [Vec<u8>; 5] {
    let (three, four) = (listed(14), section4(8, 78, 2, 2, 0));
    [one, three, four, section5(14, 9), section7(&[0; 16])]
}

/// At 00:00:00 on a day of March 2024, as the listing's example has it.
fn field_on(day: u8, hour: u8) -> [Vec<u8>; 5] {
    let mut one = section1(YEAR_2024, 3, &[]);
    one[15..19].copy_from_slice(&[day, hour, 0, 0]);
    field_of(one)
}

/// The answer and `kept`; a refusal may change nothing.
fn file(shelf: &mut [u8], slot: u64, issue_plus_1: u64, field: &[Vec<u8>; 5]) -> (Answer, u64) {
    let before = shelf.to_vec();
    let mut kept = [9, 9];
    let sections = field.each_ref().map(|section| &section[..]);
    let answer = entries::file(shelf, slot, issue_plus_1, sections, &mut kept);
    assert_eq!(kept[1], 9);
    if answer != Answer::Done {
        assert_eq!((&before[..], kept[0]), (&*shelf, 9));
    }
    (answer, kept[0])
}

const KEPT: (Answer, u64) = (Answer::Done, 1);
const PASSED: (Answer, u64) = (Answer::Done, 0);

/// The values of a slot behind their count.
fn held(shelf: &[u8], slot: u64) -> Vec<i64> {
    let mut values = [-77; VALUES + 1];
    assert_eq!(entries::slot(shelf, slot, &mut values), Answer::Done);
    let end = 1 + values[0] as usize;
    assert!(values[end..].iter().all(|&value| value == -77));
    values[1..end].to_vec()
}

#[test]
fn slot_63_is_filed_and_64_is_16() {
    let mut shelf = empty_shelf();
    assert_eq!(shelf, [0; SHELF_OCTETS]);
    let field = field_on(7, 0);
    assert_eq!(file(&mut shelf, 64, 1, &field), (refused(16, 0), 9));
    assert_eq!(file(&mut shelf, 63, 1, &field), KEPT);
    assert_eq!(file(&mut shelf, 63, NO_ISSUE, &field), PASSED);
    assert_eq!(shelf[..63 * SLOT_OCTETS], [0; 63 * SLOT_OCTETS]);
    let octets = &shelf[63 * SLOT_OCTETS..];
    // 2024 + 2^31 is 80 00 07 E8; then month to second and issue 0.
    assert_eq!(octets[..5], [1, 0x80, 0, 7, 0xe8]);
    assert_eq!(octets[5..14], [3, 7, 0, 0, 0, 0, 0, 0, 0]);
    assert_eq!(octets[14..], field[2][7..34]);
}

#[test]
fn the_reference_time_comes_before_the_issue() {
    let mut shelf = empty_shelf();
    let field = field_on(7, 0);
    assert_eq!(file(&mut shelf, 7, 41, &field), KEPT);
    assert_eq!(file(&mut shelf, 7, 42, &field_on(5, 12)), PASSED);
    let product = field[2][7..34].iter().map(|&octet| octet.into());
    let expected: Vec<i64> = [2024, 3, 7, 0, 0, 0, 40]
        .into_iter()
        .chain(product)
        .collect();
    assert_eq!(expected.len(), 34);
    assert_eq!(held(&shelf, 7), expected);
    assert_eq!(held(&shelf, 6), []);
}

#[test]
fn a_real_year_below_0_is_held() {
    let mut shelf = empty_shelf();
    let offset = section1(YEAR_2024, 3, &[0, 1, 0x80, 2]);
    assert_eq!(file(&mut shelf, 0, 1, &field_of(offset)), KEPT);
    assert_eq!(held(&shelf, 0)[..3], [-17_976, 3, 7]);
    assert_eq!(file(&mut shelf, 0, 1, &field_on(1, 0)), KEPT);
    assert_eq!(held(&shelf, 0)[0], 2_024);
}

#[test]
fn issues_from_none_to_the_greatest() {
    let mut shelf = empty_shelf();
    let field = field_on(7, 0);
    assert_eq!(file(&mut shelf, 1, NO_ISSUE, &field), KEPT);
    assert_eq!(file(&mut shelf, 1, GREATEST, &field), KEPT);
    assert_eq!(held(&shelf, 1)[6], 4_294_967_295);
    // 19 comes before 16.
    let above = GREATEST + 1;
    assert_eq!(file(&mut shelf, 64, above, &field), (refused(19, 0), 9));
    let greatest = file(&mut shelf, 64, GREATEST, &field);
    assert_eq!(greatest, (refused(16, 0), 9));
}

#[test]
fn fields_that_are_refused() {
    let mut shelf = empty_shelf();
    let mut answer = |field| file(&mut shelf, 0, 1, &field).0;
    let julian = section1(YEAR_2024, 3, &[0, 0, 1]);
    assert_eq!(answer(field_of(julian.clone())), refused(17, 1));
    let [one, three, four, five, seven] = field_on(7, 0);
    let other_points = [&one, &three, &four, &section5(13, 9), &seven];
    assert_eq!(answer(other_points.map(Vec::clone)), refused(14, 5));
    let too_long = [&julian, &three, &four, &five, &section7(&[0; 17])];
    assert_eq!(answer(too_long.map(Vec::clone)), refused(15, 7));
}

#[test]
fn too_few_places_come_after_the_field() {
    let field = field_on(7, 0);
    let mut short = vec![9; SHELF_OCTETS - 1];
    assert_eq!(file(&mut short, 0, 1, &field), (TOO_FEW_PLACES, 9));
    let julian = field_of(section1(YEAR_2024, 3, &[0, 0, 1]));
    assert_eq!(file(&mut short, 0, 1, &julian), (refused(17, 1), 9));
    let mut shelf = empty_shelf();
    let sections = field.each_ref().map(|section| &section[..]);
    let no_place = entries::file(&mut shelf, 0, 1, sections, &mut []);
    assert_eq!((no_place, shelf), (TOO_FEW_PLACES, empty_shelf()));
}

fn record(slot: u64, issue_plus_1: u64, body: &[u8]) -> Vec<u8> {
    let numbers = [slot, issue_plus_1, body.len() as u64].map(spelled);
    [&numbers.concat(), body].concat()
}

fn file_queue(shelf: &mut [u8], queue: &[u8]) -> (Answer, [u64; 4]) {
    let mut counts = [9; 4];
    (entries::file_queue(shelf, queue, &mut counts), counts)
}

#[test]
fn empty_queue() {
    let mut shelf = empty_shelf();
    assert_eq!(file_queue(&mut shelf, &[]), (Answer::Done, [0, 0, 0, 9]));
    assert_eq!(shelf, empty_shelf());
}

#[test]
fn the_queue_of_the_listing() {
    let first = record(7, 41, &field_on(7, 0).concat());
    let second = record(7, 42, &field_on(5, 12).concat());
    let spelled_300 = [0xac, 0x02, 0x00, 0x00];
    let queue = [&first[..], &second, &spelled_300].concat();
    let mut shelf = empty_shelf();
    assert_eq!(file_queue(&mut shelf, &queue), (Answer::Done, [1, 1, 1, 9]));
    assert_eq!(held(&shelf, 7)[..7], [2024, 3, 7, 0, 0, 0, 40]);
    // Again, and nothing changes.
    let before = shelf.clone();
    assert_eq!(file_queue(&mut shelf, &queue), (Answer::Done, [0, 2, 1, 9]));
    assert_eq!(shelf, before);
}

#[test]
fn a_queue_refused_files_nothing() {
    let whole = record(7, 41, &field_on(7, 0).concat());
    let misspelled = [&whole[..], &[0x80, 0x00]].concat();
    let mut shelf = empty_shelf();
    let nothing = [9; 4];
    let answer = file_queue(&mut shelf, &misspelled);
    assert_eq!(answer, (refused(19, 0), nothing));
    let answer = file_queue(&mut shelf, &[0; 65_537]);
    assert_eq!(answer, (refused(2, 0), nothing));
    let mut two = [9; 2];
    let answer = entries::file_queue(&mut shelf, &whole, &mut two);
    assert_eq!((answer, two), (TOO_FEW_PLACES, [9; 2]));
    assert_eq!(shelf, empty_shelf());
}

#[test]
fn joining_goes_slot_by_slot() {
    let (mut one, mut other) = (empty_shelf(), empty_shelf());
    file(&mut one, 1, 1, &field_on(7, 0));
    file(&mut one, 2, 1, &field_on(7, 0));
    file(&mut other, 2, 1, &field_on(8, 0));
    file(&mut other, 3, 1, &field_on(1, 0));
    let mut either = other.clone();
    assert_eq!(entries::join(&mut either, &one), Answer::Done);
    assert_eq!(entries::join(&mut one, &other), Answer::Done);
    assert_eq!(one, either);
    let days: Vec<Option<i64>> = (0..5)
        .map(|slot| held(&one, slot).get(2).copied())
        .collect();
    assert_eq!(days, [None, Some(7), Some(8), Some(1), None]);
}

/// A slot is held by an octet 1 of 1 alone. Octets that are not looked at in an empty slot are written anew by whatever changes a shelf.
#[test]
fn any_octets_are_a_shelf() {
    let mut shelf = vec![0xff; SHELF_OCTETS];
    shelf[0] = 1;
    shelf[SLOT_OCTETS] = 0;
    shelf[2 * SLOT_OCTETS] = 2;
    assert_eq!(held(&shelf, 0)[..2], [2_147_483_647, 255]);
    for slot in 1..4 {
        assert_eq!(held(&shelf, slot), []);
    }
    assert_eq!(entries::join(&mut shelf, &empty_shelf()), Answer::Done);
    let mut expected = empty_shelf();
    expected[..SLOT_OCTETS].fill(0xff);
    expected[0] = 1;
    assert_eq!(shelf, expected);
}

#[test]
fn shelves_of_another_length_are_18_and_stay() {
    let whole = empty_shelf();
    for octets in [0, 1, SHELF_OCTETS - 1, SHELF_OCTETS + 1] {
        let mut shelf = vec![9; octets];
        assert_eq!(entries::empty(&mut shelf), TOO_FEW_PLACES);
        assert_eq!(entries::join(&mut shelf, &whole), TOO_FEW_PLACES);
        assert_eq!(file_queue(&mut shelf, &[]), (TOO_FEW_PLACES, [9; 4]));
        let mut values = [9; VALUES];
        assert_eq!(entries::slot(&shelf, 0, &mut values), TOO_FEW_PLACES);
        assert_eq!(entries::slot(&shelf, 64, &mut values), refused(16, 0));
        assert_eq!((values, &shelf), ([9; VALUES], &vec![9; octets]));
        let mut untouched = whole.clone();
        assert_eq!(entries::join(&mut untouched, &shelf), TOO_FEW_PLACES);
        assert_eq!(untouched, whole);
    }
}

#[test]
fn too_few_places_for_a_slot() {
    let shelf = empty_shelf();
    let mut values = [9; VALUES - 1];
    assert_eq!(entries::slot(&shelf, 0, &mut values), TOO_FEW_PLACES);
    assert_eq!(entries::slot(&shelf, 64, &mut values), refused(16, 0));
    assert_eq!(values, [9; VALUES - 1]);
}

/// An empty slice comes with a null pointer or with any other.
#[test]
fn slices_of_nothing() {
    let some = NonNull::<u64>::dangling().as_ptr();
    for (nothing, place) in [(null(), null_mut()), (some as *const u8, some)] {
        let shelf = place.cast();
        // SAFETY: no pointer here comes with a length above 0.
        unsafe {
            assert_eq!(raw::skogmund_empty(shelf, 0), 18 << 40);
            assert_eq!(raw::skogmund_join(shelf, 0, nothing, 0), 18 << 40);
            let code = raw::skogmund_slot(nothing, 0, 0, place.cast(), 0);
            assert_eq!(code, 18 << 40);
            let code = raw::skogmund_file_queue(shelf, 0, nothing, 0, place, 0);
            assert_eq!(code, 18 << 40);
            let code = raw::skogmund_file(
                shelf, 0, 0, 0, nothing, 0, nothing, 0, nothing, 0, nothing, 0, nothing, 0, place,
                0,
            );
            assert_eq!(code, 1 << 40 | 1 << 32);
        }
    }
}
