//! The games of the proved library, compared with the simple version, which tries everything, and the table of docs/GAME.md.

mod library;

use library::Library;
use reference::compare::game;

#[test]
fn figures() {
    game::figures::<Library>();
}

#[test]
fn every_size() {
    game::every_size::<Library>(111, 24);
}

#[test]
fn boundaries() {
    game::boundaries::<Library>();
}

#[test]
fn random_games() {
    game::random_games::<Library>(112, 10_000);
}

#[test]
fn outer_limits() {
    game::outer_limits::<Library>(113, 2_000);
}

#[test]
fn steps() {
    game::steps::<Library>(114, 50_000);
}

#[test]
fn for_all_prices() {
    game::for_all_prices::<Library>(115, 300, 50_000);
}

#[test]
fn table() {
    game::table::<Library>();
}
