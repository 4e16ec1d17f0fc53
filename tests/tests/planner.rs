//! The planner of the proved library, compared with the simple version and with searches over everything.

mod library;

use library::Library;
use reference::compare::planner;
use reference::random::no_upload;

#[test]
fn every_small_log() {
    planner::every_small_log::<Library>(4, no_upload);
}

#[test]
fn random_logs() {
    planner::random_logs::<Library>(7, 60_000, no_upload);
}

#[test]
fn damaged_logs() {
    planner::damaged_logs::<Library>(8, 50_000, no_upload);
}

#[test]
fn all_markings() {
    planner::all_markings::<Library>(9, 10_000, 10, no_upload);
}

#[test]
fn sources() {
    planner::sources::<Library>(22, 10_000, 2_000, no_upload);
}

#[test]
fn every_set_of_holders() {
    planner::every_set_of_holders::<Library>(None);
}

#[test]
fn all_sets() {
    planner::all_sets::<Library>(10, 20_000, no_upload);
}

#[test]
fn all_schedules() {
    planner::all_schedules::<Library>();
}

#[test]
fn long_logs() {
    planner::long_logs::<Library>(11, 3, no_upload);
}

#[test]
fn every_small_log_by_sets() {
    planner::every_small_log_by_sets::<Library>(4, no_upload);
}

#[test]
fn bounds() {
    planner::bounds::<Library>(None);
}
