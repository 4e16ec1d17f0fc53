//! Sum, reader and writer of the proved library, compared with the simple version.

mod library;

use library::Library;
use reference::compare::log;

#[test]
fn sums() {
    log::sums::<Library>();
}

#[test]
fn factors() {
    log::factors::<Library>();
}

#[test]
fn wrong_sums() {
    log::wrong_sums::<Library>();
}

#[test]
fn every_byte() {
    log::every_byte::<Library>();
}

#[test]
fn every_length() {
    log::every_length::<Library>();
}

#[test]
fn reads() {
    log::reads::<Library>(1, 200_000);
}

#[test]
fn writes() {
    log::writes::<Library>(2, 100_000);
}

#[test]
fn round_trips() {
    log::round_trips::<Library>(3, 50_000);
}

#[test]
fn longest() {
    log::longest::<Library>();
}

#[test]
fn bounds() {
    log::bounds::<Library>();
}
