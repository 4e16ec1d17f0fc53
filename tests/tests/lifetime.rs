//! The class that is no longer sold, in the proved library, compared with the simple version.

mod library;

use library::Library;
use reference::compare::lifetime;

#[test]
fn order() {
    lifetime::order::<Library>();
}

#[test]
fn old_logs() {
    lifetime::old_logs::<Library>(41, 2_000);
}

#[test]
fn loaded() {
    lifetime::loaded::<Library>(42, 400);
}
