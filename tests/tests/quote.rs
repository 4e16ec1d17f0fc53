//! The quotes of the proved library, compared with the simple version, with its least costs and with a search over everything.

mod library;

use library::Library;
use reference::compare::quote;

#[test]
fn weeks() {
    quote::weeks::<Library>();
}

#[test]
fn random_logs() {
    quote::random_logs::<Library>(61, 200_000);
}

#[test]
fn every_damage() {
    quote::every_damage::<Library>();
}

#[test]
fn every_cut() {
    quote::every_cut::<Library>(62, 60_000);
}

#[test]
fn every_class() {
    quote::every_class::<Library>(63, 1_000);
}

#[test]
fn every_small_log() {
    quote::every_small_log::<Library>(4);
}

#[test]
fn every_small_log_by_sets() {
    quote::every_small_log_by_sets::<Library>(4);
}

#[test]
fn long_logs() {
    quote::long_logs::<Library>(64, 3);
}

#[test]
fn equal() {
    quote::equal::<Library>();
}

#[test]
fn twice() {
    quote::twice::<Library>();
}

#[test]
fn windows() {
    quote::windows::<Library>();
}

#[test]
fn products() {
    quote::products::<Library>();
}

#[test]
fn largest() {
    quote::largest::<Library>();
}
