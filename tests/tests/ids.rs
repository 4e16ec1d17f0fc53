//! Scans of other files, in the proved library, compared with the simple version.

mod library;

use library::Library;
use reference::compare::ids;

#[test]
fn every_bit() {
    ids::every_bit::<Library>(51);
}

#[test]
fn every_two() {
    ids::every_two::<Library>(52);
}

#[test]
fn order() {
    ids::order::<Library>(53);
}
