//! The refusals have the names and numbers of the Rust crate.

use tell::{Refusal, REFUSALS};

#[test]
fn refusals_are_named_as_in_the_crate() {
    let codes = include_str!("../../bindings/rust/src/codes.rs");
    for Refusal { number, name, .. } in &REFUSALS {
        let said = [format!("Self::{name} => {number},"), format!("Self::{name}(_) => {number},")];
        assert!(said.iter().any(|said| codes.contains(said)), "{number} {name}");
    }
}
