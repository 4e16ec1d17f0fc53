//! Uploads in the proved library, compared with the simple version and with searches over everything.

mod library;

use library::Library;
use reference::compare::{checker, planner, uploads};
use reference::random::random_upload;

#[test]
fn week_c() {
    uploads::week_c::<Library>();
}

#[test]
fn weeks() {
    uploads::weeks::<Library>();
}

#[test]
fn price_bounds() {
    uploads::price_bounds::<Library>();
}

#[test]
fn order() {
    uploads::order::<Library>();
}

#[test]
fn form() {
    uploads::form::<Library>();
}

#[test]
fn standing() {
    uploads::standing::<Library>();
}

#[test]
fn longest_chain() {
    uploads::longest_chain::<Library>();
}

#[test]
fn many_uploads() {
    uploads::many_uploads::<Library>();
}

#[test]
fn ties() {
    uploads::ties::<Library>();
}

#[test]
fn two_rows_a_request() {
    uploads::two_rows_a_request::<Library>();
}

#[test]
fn largest() {
    uploads::largest::<Library>();
}

#[test]
fn every_small_log() {
    uploads::every_small_log::<Library>(3);
}

#[test]
fn all_schedules() {
    uploads::all_schedules::<Library>();
}

#[test]
fn beside_none() {
    uploads::beside_none::<Library>(71, 50_000);
}

#[test]
fn check_every_pair_of_rows() {
    checker::every_pair_of_rows::<Library>(Some(3));
}

#[test]
fn check_every_list_of_rows() {
    checker::every_list_of_rows::<Library>(Some(3));
}

#[test]
fn check_random_rows() {
    checker::random_rows::<Library>(72, 300_000, random_upload);
}

#[test]
fn check_damaged_logs() {
    checker::damaged_logs::<Library>(73, 50_000, random_upload);
}

#[test]
fn check_many_rows() {
    checker::many_rows::<Library>(74, random_upload);
}

#[test]
fn check_bounds() {
    checker::bounds::<Library>(Some(7));
    checker::bounds::<Library>(Some(1_000_000));
}

#[test]
fn plan_every_small_log() {
    planner::every_small_log::<Library>(4, random_upload);
}

#[test]
fn plan_random_logs() {
    planner::random_logs::<Library>(75, 60_000, random_upload);
}

#[test]
fn plan_damaged_logs() {
    planner::damaged_logs::<Library>(76, 50_000, random_upload);
}

#[test]
fn plan_all_markings() {
    planner::all_markings::<Library>(77, 10_000, 7, random_upload);
}

#[test]
fn plan_sources() {
    planner::sources::<Library>(78, 10_000, 500, random_upload);
}

#[test]
fn plan_every_set_of_holders() {
    planner::every_set_of_holders::<Library>(Some(600));
}

#[test]
fn plan_all_sets() {
    planner::all_sets::<Library>(79, 20_000, random_upload);
}

#[test]
fn plan_every_small_log_by_sets() {
    planner::every_small_log_by_sets::<Library>(4, random_upload);
}

#[test]
fn plan_long_logs() {
    planner::long_logs::<Library>(80, 3, random_upload);
}

#[test]
fn plan_bounds() {
    planner::bounds::<Library>(Some(1));
    planner::bounds::<Library>(Some(2_000));
    planner::bounds::<Library>(Some(1_000_000));
}
