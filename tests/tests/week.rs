//! The week pages of the proved library, compared with the simple version, with the rows of its plans and with pages written out.

mod library;

use library::Library;
use reference::compare::week;

#[test]
fn samples() {
    week::samples::<Library>();
}

#[test]
fn literal() {
    week::literal::<Library>();
}

#[test]
fn empty() {
    week::empty::<Library>();
}

#[test]
fn midnights() {
    week::midnights::<Library>();
}

#[test]
fn order() {
    week::order::<Library>();
}

#[test]
fn last_seconds() {
    week::last_seconds::<Library>();
}

#[test]
fn rooms() {
    week::rooms::<Library>();
}

#[test]
fn random_logs() {
    week::random_logs::<Library>(81, 150_000);
}

#[test]
fn every_damage() {
    week::every_damage::<Library>();
}

#[test]
fn every_class() {
    week::every_class::<Library>(82, 2_000);
}

#[test]
fn by_seconds() {
    week::by_seconds::<Library>(83, 50);
}

#[test]
fn every_small_log() {
    week::every_small_log::<Library>(4);
}

#[test]
fn long_logs() {
    week::long_logs::<Library>(84, 8);
}

#[test]
fn largest() {
    week::largest::<Library>();
}
