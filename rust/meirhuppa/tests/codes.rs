//! The refusals' numbers, and how they are shown, on any machine.
use meirhuppa::{Code, Refusal, Rivals};

#[test]
fn every_number_is_given_back() {
    for number in 0..=40 {
        assert_eq!(Code::of(number).number(), number);
    }
}

#[test]
fn numbers_are_those_of_the_documents() {
    assert_eq!(Code::of(1), Code::Layout);
    assert_eq!(Code::of(15), Code::NoBindingLeft);
    assert_eq!(Code::of(17), Code::TooDeep);
    assert_eq!(Code::of(20), Code::TooLong);
    assert_eq!(Code::of(21), Code::OutsideProfile);
    assert_eq!(Code::of(22), Code::DrivenTwice);
    assert_eq!(Code::of(23), Code::TooManyBits);
    assert_eq!(Code::of(24), Code::BadRecording);
    assert_eq!(Code::of(25), Code::DrivenChange);
    assert_eq!(Code::of(26), Code::BadText);
    assert_eq!(Code::of(27), Code::Unbalanced);
    assert_eq!(Code::of(28), Code::NoIntroduction);
    assert_eq!(Code::of(29), Code::AnotherTree);
    assert_eq!(Code::of(30), Code::NoSuchName);
}

#[test]
fn other_numbers_are_unknown() {
    for number in [0, 16, 31, 40] {
        assert_eq!(Code::of(number), Code::Unknown(number));
    }
}

#[test]
fn an_ambiguous_refusal_names_the_two_bindings() {
    let rivals = Some(Rivals { first: 1, second: 2 });
    let refusal = Refusal { code: Code::Ambiguous, units: 1, rivals };
    assert_eq!(refusal.to_string(), "ambiguous: bindings 1 and 2 compete");
}

#[test]
fn other_refusals_show_their_number() {
    let refusal = Refusal { code: Code::TooDeep, units: 1, rivals: None };
    assert_eq!(refusal.to_string(), "refused with code 17");
}
