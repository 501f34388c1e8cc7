//! Assertions that say at what.

use std::fmt::{Debug, Display};

/// Ends the test where this is false.
#[track_caller]
pub fn assert_that(is_so: bool) {
    assert!(is_so);
}

/// Ends the test where this is false, and says at what.
#[track_caller]
pub fn assert_that_at<A: Debug>(at: &A, is_so: bool) {
    assert!(is_so, "at {at:?}");
}

/// Ends the test where these values differ.
#[track_caller]
pub fn assert_same<T: PartialEq + Debug + ?Sized>(found: &T, wanted: &T) {
    assert_eq!(found, wanted);
}

/// Ends the test where these values differ, and says at what.
#[track_caller]
pub fn assert_same_at<A: Debug, T: PartialEq + Debug + ?Sized>(at: &A, found: &T, wanted: &T) {
    assert_eq!(found, wanted, "at {at:?}");
}

/// The text of a value, by its `Debug`.
pub fn text_of<T: Debug>(value: &T) -> String {
    format!("{value:?}")
}

/// Ends the test where the text of a value, by its `Debug`, is not this one.
#[track_caller]
pub fn assert_text<T: Debug>(value: &T, wanted: &str) {
    assert_same(text_of(value).as_str(), wanted);
}

/// Ends the test where the text of a value, by its `Display`, is not this one.
#[track_caller]
pub fn assert_shown<T: Display>(value: &T, wanted: &str) {
    assert_same(format!("{value}").as_str(), wanted);
}
