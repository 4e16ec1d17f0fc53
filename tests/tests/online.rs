//! The online cache of the proved library, compared with the simple version; and demand 3 over lists of calls.

mod library;

use library::Library;
use reference::compare::online;

#[test]
fn starts() {
    online::starts::<Library>();
}

#[test]
fn every_small_list() {
    online::every_small_list::<Library>(4);
}

#[test]
fn random_lists() {
    online::random_lists::<Library>(12, 40_000);
}

#[test]
fn made_up_states() {
    online::made_up_states::<Library>(13, 300_000);
}

#[test]
fn price_bounds() {
    online::price_bounds::<Library>();
}

#[test]
fn full() {
    online::full::<Library>(14);
}

#[test]
fn dearest() {
    online::dearest::<Library>();
}

#[test]
fn each_age() {
    online::each_age::<Library>();
}
