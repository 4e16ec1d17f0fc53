//! 02's request 10: class 7 of the built-in table is no longer sold (43), its old logs are taken all the same, and class 7 of a price file is a class
//! like any other.

use super::log::round_trip;
use super::online::served;
use super::planner::answers;
use super::quote::quote;
use super::week::page;
use super::Met;
use crate::calls::{Calls, Simple};
use crate::log::{self, requests_of, Header, Log};
use crate::online::{or_zeros, Cache};
use crate::planner::letter;
use crate::prices::{self, PriceFile, Prices, Table, Upload, BUILT_IN, UNSOLD};
use crate::random::{random_log_of, random_pair, Random};
use crate::{refuse, Refusal};

/// An old log, of gaps below the window and above it.
pub const SAMPLE: &[u8] = include_bytes!("../../../samples/lifetime.log");

/// Its sheet.
pub const SAMPLE_SHEET: &str = include_str!("../../../samples/lifetime.sheet");

/// A refusal's number and place, if any.
pub(super) type Fault = Option<(u8, usize)>;

pub(super) fn unless<T>(fault: Fault, value: impl FnOnce() -> T) -> Result<T, Refusal> {
    match fault {
        Some((number, place)) => refuse(number, place),
        None => Ok(value()),
    }
}

/// Writes and starts of classes 6, 7 and 8, with every other fault and with none: the first of 3, 43, 4, 5, 7, 11 to 13 and 31, in this order, is
/// given, and what was lent is as it was. With the built-in table as a price file there is no 43.
pub fn order<C: Calls>() {
    let mut met = Met::default();
    let file = prices::encode(&BUILT_IN);
    let without: [(PriceFile, u8, Fault); 3] = [(None, 6, None), (None, 7, Some((43, 0))), (None, 8, Some((3, 0)))];
    let with: [(PriceFile, u8, Fault); 3] = [(Some(&file), 6, None), (Some(&file), 7, None), (Some(&file), 8, Some((3, 0)))];
    let setups = [(2, 1, None), (0, 0, Some((4, 0))), (65, 0, Some((4, 0))), (65, 65, Some((4, 0))), (2, 2, Some((5, 0)))];
    let lists = [
        (vec![5, 9], vec![1, 0], None),
        (vec![1; 2_049], vec![0; 2_049], Some((7, 0))),
        (vec![5, 9], vec![1], Some((7, 0))),
        (vec![5], vec![1, 0], Some((7, 0))),
        (vec![5, 9], vec![1, 2], Some((11, 2))),
        (vec![0, 9], vec![1, 0], Some((12, 1))),
        (vec![5, 5], vec![1, 0], Some((13, 2))),
    ];
    for (prices, class, of_class) in without.into_iter().chain(with) {
        for (server_count, home, of_setup) in setups {
            let fault = of_class.or(of_setup);
            let header = Header { class, server_count, home, id: [5; 16] };
            let cache = unless(fault, || Cache::fresh(Prices::of(class), &header));
            assert_eq!(C::start(prices, &header), or_zeros(cache), "{prices:?} {header:?}");
            for (seconds, servers, of_lists) in &lists {
                let needed = 40 + 6 * seconds.len();
                for length in [0, needed - 1, needed, needed + 3] {
                    let fault = fault.or(*of_lists).or((length < needed).then_some((31, needed)));
                    let mut right = unless(fault, || log::encode(&header, &requests_of(seconds, servers))).unwrap_or(vec![9; length]);
                    right.resize(length, 0);
                    let mut out = vec![9; length];
                    let written = C::write(prices, &header, seconds, servers, &mut out);
                    assert_eq!(written, unless(fault, || needed as u64), "{prices:?} {header:?} {seconds:?} {servers:?} {length}");
                    assert_eq!(out, right, "{prices:?} {header:?} {seconds:?} {servers:?}");
                    met.count(&written);
                }
            }
        }
    }
    met.exactly(&[0, 3, 4, 5, 7, 11, 12, 13, 31, 43], 4);
}

/// A log planned and checked, its least costs being the first of some.
fn planned<C: Calls>(table: &Table, upload: Upload, log: &Log, costs: &[u64]) {
    let plan = answers::<C>(table.file(), upload, log);
    assert_eq!(plan, answers::<Simple>(table.file(), upload, log), "{upload:?} {log:?}");
    let (cost, _, rows, least) = plan;
    assert_eq!(C::check(table.file(), upload, &log.bytes(), &rows), Ok(cost), "{upload:?} {log:?}");
    let count = log.requests.len();
    assert_eq!((cost, &least[..]), (costs[count], &costs[..=count]), "{upload:?} {log:?}");
}

/// Each cut of a log: read, and written again or refused with 43; planned and checked, its least costs those of the whole log, without uploads and with
/// uploads at the price of a transfer; quoted; served one by one and closed.
fn each_cut<C: Calls>(table: &Table, log: &Log, writes: &mut Met, calls: &mut Met) {
    let upload = Some(table.of(log.header.class).transfer);
    let (_, _, _, costs) = answers::<C>(table.file(), None, log);
    let (_, _, _, costs_with_uploads) = answers::<C>(table.file(), upload, log);
    for count in 0..=log.requests.len() {
        let cut = log.cut(count);
        writes.count(&round_trip::<C>(table, &cut));
        planned::<C>(table, None, &cut, &costs);
        planned::<C>(table, upload, &cut, &costs_with_uploads);
        assert!(quote::<C>(table.file(), &cut.bytes()).is_ok(), "{cut:?}");
        let _ = served::<C>(table, &cut, calls);
    }
}

/// The page of each cut of a log.
fn pages<C: Calls>(random: &mut Random, log: &Log, met: &mut Met) {
    for count in 0..=log.requests.len() {
        met.count(&page::<C>(random, &log.cut(count).bytes(), 4_420));
    }
}

/// Logs of class 7 without a price file, the sample first: everything but a write takes them, a page those within the week, and the cache that serves
/// them has their old prices.
pub fn old_logs<C: Calls>(seed: u64, times: usize) {
    let mut random = Random::new(seed);
    let (mut writes, mut calls, mut paged) = (Met::default(), Met::default(), Met::default());
    let table = Table::built_in();
    let sample = log::read(table.classes(), SAMPLE).unwrap();
    let marks: Vec<u8> = served::<C>(&table, &sample, &mut calls).into_iter().map(letter).collect();
    assert_eq!((&answers::<C>(None, None, &sample).1[..], &marks[..]), (&b"SSKSKSKSKKSK"[..], &b"SSKSKSKSKKSS"[..]));
    assert_eq!(quote::<C>(None, SAMPLE), Ok(13_990_001));
    each_cut::<C>(&table, &sample, &mut writes, &mut calls);
    pages::<C>(&mut random, &sample, &mut paged);
    for _ in 0..times {
        let log = random_log_of(&mut random, &table, UNSOLD, 12);
        each_cut::<C>(&table, &log, &mut writes, &mut calls);
        pages::<C>(&mut random, &log, &mut paged);
    }
    writes.exactly(&[43], 4 * times as u64);
    calls.exactly(&[0], 4 * times as u64);
    paged.exactly(&[0, 36], times as u64);
}

/// Tables of price files that have a class 7: the built-in one, and others of 8 to 256 classes.
pub fn tables_with_class_7(random: &mut Random) -> Vec<Table> {
    let mut own = |classes| Table::of_pairs(&(0..classes).map(|_| random_pair(random)).collect::<Vec<_>>());
    vec![Table::of_pairs(&BUILT_IN), own(8), own(9), own(100), own(256)]
}

/// Logs of class 7 of a price file, which are written too.
pub fn loaded<C: Calls>(seed: u64, times: usize) {
    let mut random = Random::new(seed);
    let (mut writes, mut calls) = (Met::default(), Met::default());
    for _ in 0..times {
        for table in tables_with_class_7(&mut random) {
            each_cut::<C>(&table, &random_log_of(&mut random, &table, 7, 12), &mut writes, &mut calls);
        }
    }
    writes.exactly(&[0], 20 * times as u64);
    calls.exactly(&[0], 20 * times as u64);
}

#[cfg(test)]
mod tests {
    use super::*;
    use crate::online::history;
    use crate::planner::plan_by_all_markings;
    use crate::sheet::printed;

    #[test]
    fn simple() {
        order::<Simple>();
        old_logs::<Simple>(1, 20);
        loaded::<Simple>(2, 4);
    }

    /// The end of the sample's sheet by the plainest ways: all markings, and the cache second by second.
    #[test]
    fn sample() {
        assert_eq!(printed(None, SAMPLE), SAMPLE_SHEET);
        let (prices, log) = (Prices::of(UNSOLD), log::read(8, SAMPLE).unwrap());
        let (plan, history) = (plan_by_all_markings(prices, None, &log), history(prices, log.header.home, &log.requests));
        let running = prices.cost(history.held as u64, history.transfers as u64);
        let end = format!(" K S {} {running}\nrows {}\nclose {}\n", plan.cost, plan.rows.len(), history.closing_cost(prices));
        assert!(SAMPLE_SHEET.ends_with(&end), "{end}");
    }
}
