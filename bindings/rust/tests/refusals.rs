//! Each refusal has a number and a text of its own.

use lemidrosy::Refusal;
use std::collections::BTreeSet;

#[test]
fn numbers_and_texts_are_of_one_refusal_each() {
    let refusals: Vec<Refusal> = (0..=255).filter_map(Refusal::with_number).collect();
    let numbers: Vec<u8> = refusals.iter().map(|refusal| refusal.number()).collect();
    let expected: Vec<u8> = (1..=25).filter(|number| *number != 6).collect();
    assert_eq!(numbers, expected);
    let texts: BTreeSet<&str> = refusals.iter().map(|refusal| refusal.text()).collect();
    assert_eq!(texts.len(), refusals.len());
    assert!(!texts.contains("no refusal has this number"));
}
