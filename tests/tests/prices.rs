//! Price files in the proved library, compared with the simple version.

mod library;

use library::Library;
use reference::compare::prices;

#[test]
fn boundaries() {
    prices::boundaries::<Library>();
}

#[test]
fn every_byte() {
    prices::every_byte::<Library>();
}

#[test]
fn random_files() {
    prices::random_files::<Library>(31, 200_000);
}

#[test]
fn every_class() {
    prices::every_class::<Library>(32);
}

#[test]
fn built_in_as_a_file() {
    prices::built_in_as_a_file::<Library>(33, 50_000);
}
