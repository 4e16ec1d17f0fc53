//! The checker of the proved library, compared with the simple version.

mod library;

use library::Library;
use reference::compare::checker;
use reference::random::no_upload;

#[test]
fn every_pair_of_rows() {
    checker::every_pair_of_rows::<Library>(None);
}

#[test]
fn every_list_of_rows() {
    checker::every_list_of_rows::<Library>(None);
}

#[test]
fn random_rows() {
    checker::random_rows::<Library>(4, 300_000, no_upload);
}

#[test]
fn damaged_logs() {
    checker::damaged_logs::<Library>(5, 50_000, no_upload);
}

#[test]
fn longest_chain() {
    checker::longest_chain::<Library>();
}

#[test]
fn many_rows() {
    checker::many_rows::<Library>(6, no_upload);
}

#[test]
fn bounds() {
    checker::bounds::<Library>(None);
}
