//! The worked example plays to its end: by its chance numbers red's two players have 7 and 5 points, blue's 3 and 6.

#[allow(dead_code)]
#[path = "../examples/match.rs"]
mod example;

#[test]
fn red_is_ahead_by_three() {
    assert_eq!(example::play().unwrap(), 3.0);
}
