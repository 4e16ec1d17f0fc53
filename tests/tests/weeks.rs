//! 01's worked weeks by the proved library.

mod library;

use library::Library;
use reference::compare::weeks;

#[test]
fn a_to_f() {
    weeks::a_to_f::<Library>();
}

#[test]
fn g() {
    weeks::g::<Library>();
}

#[test]
fn h_and_i() {
    weeks::h_and_i::<Library>();
}
