//! The comparison of an implementation of the calls with the simple one, over inputs of each kind.
//!
//! Lent outputs are full of noise before a call, and longer than needed, just long enough or too short; they are
//! compared whole after it, so that zeros beyond an answer and outputs left as they were are seen.

pub mod checker;
pub mod game;
pub mod ids;
pub mod lifetime;
pub mod log;
pub mod online;
pub mod planner;
pub mod prices;
pub mod quote;
pub mod season;
pub mod uploads;
pub mod week;
pub mod weeks;

use crate::random::Random;
use crate::Refusal;
use std::collections::BTreeMap;

/// How often each refusal was met; 0 counts what was accepted.
#[derive(Debug, Default)]
pub struct Met {
    times: BTreeMap<u8, u64>,
}

impl Met {
    fn count<T>(&mut self, outcome: &Result<T, Refusal>) {
        let number = outcome.as_ref().err().map_or(0, |refusal| refusal.number);
        *self.times.entry(number).or_default() += 1;
    }

    /// Nothing but these numbers, each at least so often.
    fn exactly(&self, numbers: &[u8], least: u64) {
        let met: Vec<u8> = self.times.keys().copied().collect();
        assert_eq!(met, numbers, "{self:?}");
        self.at_least(numbers, least);
    }

    /// Each of these numbers at least so often.
    fn at_least(&self, numbers: &[u8], least: u64) {
        let often = |number| self.times.get(number).is_some_and(|&times| times >= least.max(1));
        assert!(numbers.iter().all(often), "{self:?}");
    }
}

/// A length for an output: too short, just long enough or longer.
fn room(random: &mut Random, needed: usize) -> usize {
    match random.below(8) {
        0 if needed > 0 => needed - 1,
        1 => random.below(needed as u64 + 1) as usize,
        2 => needed + 1,
        3 | 4 => needed + random.below(40) as usize,
        _ => needed,
    }
}

fn noise8(random: &mut Random, length: usize) -> Vec<u8> {
    random.bytes(length)
}

fn noise16(random: &mut Random, length: usize) -> Vec<u16> {
    (0..length).map(|_| random.word() as u16).collect()
}

fn noise32(random: &mut Random, length: usize) -> Vec<u32> {
    (0..length).map(|_| random.word() as u32).collect()
}

fn noise64(random: &mut Random, length: usize) -> Vec<u64> {
    (0..length).map(|_| random.word()).collect()
}

/// The fast implementation goes through all of it.
#[cfg(test)]
mod tests {
    use super::*;
    use crate::fast::Fast;
    use crate::random::{no_upload, random_upload};

    #[test]
    fn fast_log() {
        log::sums::<Fast>();
        log::factors::<Fast>();
        log::wrong_sums::<Fast>();
        log::every_byte::<Fast>();
        log::every_length::<Fast>();
        log::reads::<Fast>(11, 10_000);
        log::writes::<Fast>(12, 10_000);
        log::round_trips::<Fast>(13, 1_000);
        log::longest::<Fast>();
        log::bounds::<Fast>();
    }

    #[test]
    fn fast_checker() {
        checker::every_pair_of_rows::<Fast>(None);
        checker::every_list_of_rows::<Fast>(None);
        checker::random_rows::<Fast>(14, 20_000, no_upload);
        checker::damaged_logs::<Fast>(15, 1_000, no_upload);
        checker::longest_chain::<Fast>();
        checker::many_rows::<Fast>(16, no_upload);
        checker::bounds::<Fast>(None);
    }

    #[test]
    fn fast_planner() {
        planner::every_small_log::<Fast>(3, no_upload);
        planner::random_logs::<Fast>(17, 5_000, no_upload);
        planner::damaged_logs::<Fast>(18, 1_000, no_upload);
        planner::all_markings::<Fast>(19, 500, 10, no_upload);
        planner::sources::<Fast>(23, 500, 100, no_upload);
        planner::every_set_of_holders::<Fast>(None);
        planner::all_sets::<Fast>(20, 500, no_upload);
        planner::all_schedules::<Fast>();
        planner::every_small_log_by_sets::<Fast>(3, no_upload);
        planner::long_logs::<Fast>(21, 1, no_upload);
        planner::bounds::<Fast>(None);
    }

    #[test]
    fn fast_uploads() {
        uploads::week_c::<Fast>();
        uploads::weeks::<Fast>();
        uploads::price_bounds::<Fast>();
        uploads::order::<Fast>();
        uploads::form::<Fast>();
        uploads::standing::<Fast>();
        uploads::longest_chain::<Fast>();
        uploads::many_uploads::<Fast>();
        uploads::ties::<Fast>();
        uploads::two_rows_a_request::<Fast>();
        uploads::largest::<Fast>();
        uploads::every_small_log::<Fast>(2);
        uploads::all_schedules::<Fast>();
        uploads::beside_none::<Fast>(37, 5_000);
    }

    #[test]
    fn fast_checker_with_uploads() {
        checker::every_pair_of_rows::<Fast>(Some(3));
        checker::every_list_of_rows::<Fast>(Some(3));
        checker::random_rows::<Fast>(38, 20_000, random_upload);
        checker::damaged_logs::<Fast>(39, 1_000, random_upload);
        checker::many_rows::<Fast>(40, random_upload);
        checker::bounds::<Fast>(Some(7));
    }

    #[test]
    fn fast_planner_with_uploads() {
        planner::every_small_log::<Fast>(3, random_upload);
        planner::random_logs::<Fast>(41, 5_000, random_upload);
        planner::damaged_logs::<Fast>(42, 1_000, random_upload);
        planner::all_markings::<Fast>(43, 500, 7, random_upload);
        planner::sources::<Fast>(44, 2_000, 100, random_upload);
        planner::every_set_of_holders::<Fast>(Some(600));
        planner::all_sets::<Fast>(45, 500, random_upload);
        planner::every_small_log_by_sets::<Fast>(3, random_upload);
        planner::long_logs::<Fast>(46, 1, random_upload);
        planner::bounds::<Fast>(Some(100_000));
    }

    #[test]
    fn fast_quote() {
        quote::weeks::<Fast>();
        quote::random_logs::<Fast>(33, 20_000);
        quote::every_damage::<Fast>();
        quote::every_cut::<Fast>(34, 2_000);
        quote::every_class::<Fast>(35, 20);
        quote::every_small_log::<Fast>(3);
        quote::every_small_log_by_sets::<Fast>(3);
        quote::long_logs::<Fast>(36, 1);
        quote::equal::<Fast>();
        quote::twice::<Fast>();
        quote::windows::<Fast>();
        quote::products::<Fast>();
        quote::largest::<Fast>();
    }

    #[test]
    fn fast_week() {
        week::samples::<Fast>();
        week::literal::<Fast>();
        week::empty::<Fast>();
        week::midnights::<Fast>();
        week::order::<Fast>();
        week::last_seconds::<Fast>();
        week::rooms::<Fast>();
        week::random_logs::<Fast>(47, 20_000);
        week::every_damage::<Fast>();
        week::every_class::<Fast>(48, 200);
        week::by_seconds::<Fast>(49, 20);
        week::every_small_log::<Fast>(3);
        week::long_logs::<Fast>(50, 1);
        week::largest::<Fast>();
    }

    #[test]
    fn fast_online() {
        online::starts::<Fast>();
        online::every_small_list::<Fast>(3);
        online::random_lists::<Fast>(22, 1_000);
        online::made_up_states::<Fast>(23, 10_000);
        online::full::<Fast>(24);
        online::dearest::<Fast>();
        online::each_age::<Fast>();
        online::price_bounds::<Fast>();
    }

    #[test]
    fn fast_ids() {
        ids::every_bit::<Fast>(30);
        ids::every_two::<Fast>(31);
        ids::order::<Fast>(32);
    }

    #[test]
    fn fast_prices() {
        prices::boundaries::<Fast>();
        prices::every_byte::<Fast>();
        prices::random_files::<Fast>(25, 20_000);
        prices::every_class::<Fast>(26);
        prices::built_in_as_a_file::<Fast>(27, 2_000);
    }

    #[test]
    fn fast_game() {
        game::figures::<Fast>();
        game::boundaries::<Fast>();
        game::every_size::<Fast>(51, 4);
        game::random_games::<Fast>(52, 2_000);
        game::outer_limits::<Fast>(53, 20);
        game::steps::<Fast>(54, 5_000);
        game::for_all_prices::<Fast>(55, 100, 1_000);
        game::table::<Fast>();
    }

    #[test]
    fn fast_lifetime() {
        lifetime::order::<Fast>();
        lifetime::old_logs::<Fast>(28, 200);
        lifetime::loaded::<Fast>(29, 40);
    }
}
