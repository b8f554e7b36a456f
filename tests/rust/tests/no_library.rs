//! Says so where no library was linked, since the tests that need one are left out then.
#![cfg(no_library)]

#[test]
#[ignore = "no library was linked: nothing was compared"]
fn library_and_reference_agree() {}
