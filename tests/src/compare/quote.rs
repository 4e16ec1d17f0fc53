//! 02's request 07: the quote, its two parts, and the least cost and its double about it.

use super::log::{about_bounds, changed, lengths};
use super::weeks::WEEKS;
use super::Met;
use crate::calls::{Calls, Simple};
use crate::log::{Header, Log, Request, LAST_SECOND, MOST_REQUESTS};
use crate::planner;
use crate::prices::{each_class, encode, PriceFile, Prices, Table, BUILT_IN, HIGHEST, UNSOLD};
use crate::quote;
use crate::random::{damaged_log, damaged_prices, random_header, random_log, random_log_of, random_requests, random_table, Random};
use crate::search::{least_by_sets, lists_of_gaps};
use crate::{refuse, Refusal};

/// The quote of a file.
pub(super) fn quote<C: Calls>(prices: PriceFile, file: &[u8]) -> Result<u64, Refusal> {
    let a = Simple::quote(prices, file);
    assert_eq!(C::quote(prices, file), a, "{prices:?} {file:?}");
    a
}

/// The least costs of a log's first requests, from none to all.
fn least<C: Calls>(table: &Table, log: &Log) -> Vec<u64> {
    let count = log.requests.len();
    let mut costs = vec![9; count + 1];
    assert_eq!(C::least(table.file(), None, &log.bytes(), &mut costs), Ok(count as u32 + 1));
    assert_eq!(costs, planner::least(table.of(log.header.class), None, log), "{log:?}");
    costs
}

/// How many quotes of logs with a request were the least cost, between it and its double, and the double.
#[derive(Debug, Default)]
struct Seen {
    equal: usize,
    between: usize,
    twice: usize,
}

impl Seen {
    /// Each at least so often.
    fn at_least(&self, times: usize) {
        assert!(self.equal >= times && self.between >= times && self.twice >= times, "{self:?}");
    }

    /// The quote of a log whose least cost is given: neither part exceeds that, and the quote is from it to its double.
    fn quote<C: Calls>(&mut self, table: &Table, log: &Log, least: u64) -> u64 {
        let parts = quote::quote(table.of(log.header.class), log);
        let total = parts.total();
        assert_eq!(quote::<C>(table.file(), &log.bytes()), Ok(total), "{log:?}");
        assert!(parts.requests <= least && parts.hold <= least, "{table:?} {log:?} {parts:?} {least}");
        assert!(least <= total && total <= 2 * least, "{table:?} {log:?} {parts:?} {least}");
        match total {
            _ if log.requests.is_empty() => {}
            _ if total == least => self.equal += 1,
            _ if total == 2 * least => self.twice += 1,
            _ => self.between += 1,
        }
        total
    }

    /// The same for each cut of a log.
    fn each_cut<C: Calls>(&mut self, table: &Table, log: &Log) {
        for (count, least) in least::<C>(table, log).into_iter().enumerate() {
            self.quote::<C>(table, &log.cut(count), least);
        }
    }
}

/// Weeks A to F, and each cut of them.
pub fn weeks<C: Calls>() {
    let mut seen = Seen::default();
    for week in WEEKS {
        seen.each_cut::<C>(&Table::built_in(), &week.log());
        assert_eq!(C::quote(None, &week.log().bytes()), Ok(week.quote));
    }
}

/// Logs of any kind, two of three damaged, and a price file, right or damaged, or none.
pub fn random_logs<C: Calls>(seed: u64, times: usize) {
    let mut random = Random::new(seed);
    let mut met = Met::default();
    for i in 0..times {
        let table = random_table(&mut random);
        let file = match i % 3 {
            0 => random_log(&mut random, &table, 30).bytes(),
            _ => damaged_log(&mut random, &table),
        };
        let damaged = if random.once_in(8) { Some(damaged_prices(&mut random)) } else { None };
        met.count(&quote::<C>(damaged.as_deref().or(table.file()), &file));
    }
    met.exactly(&[0, 1, 2, 3, 4, 5, 6, 7, 8, 9, 10, 11, 12, 13, 37, 38], times as u64 / 1_000);
}

/// A small log with each byte at each value, and at each length; logs about the bounds of 01. Each without a price file, and with the built-in table as
/// one, which gives the same.
pub fn every_damage<C: Calls>() {
    let mut met = Met::default();
    let prices = encode(&BUILT_IN);
    let bounds = [6, UNSOLD].into_iter().flat_map(about_bounds).map(|log| log.bytes());
    for file in changed().into_iter().flatten().chain(lengths()).chain(bounds) {
        let quoted = quote::<C>(None, &file);
        assert_eq!(quote::<C>(Some(&prices), &file), quoted, "{file:?}");
        met.count(&quoted);
    }
    met.exactly(&[0, 1, 2, 3, 4, 5, 6, 7, 8, 9, 10, 11, 12, 13], 5);
}

/// Random logs, and each cut of them.
pub fn every_cut<C: Calls>(seed: u64, times: usize) {
    let mut random = Random::new(seed);
    let mut seen = Seen::default();
    for _ in 0..times {
        let table = random_table(&mut random);
        let most = random.one_of(&[5, 10, 20, 40]);
        seen.each_cut::<C>(&table, &random_log(&mut random, &table, most));
    }
    seen.at_least(times / 5);
}

/// Random logs of every class, of as many with each pair of prices about their bounds, and each cut of them.
pub fn every_class<C: Calls>(seed: u64, times: usize) {
    let mut random = Random::new(seed);
    let mut seen = Seen::default();
    let ends = [1, 2, HIGHEST - 1, HIGHEST];
    let pairs = Table::of_pairs(&ends.map(|hold| ends.map(|transfer| (hold, transfer))).concat());
    for (table, class) in each_class().into_iter().chain((0..16).map(|class| (pairs.clone(), class))) {
        for _ in 0..times {
            seen.each_cut::<C>(&table, &random_log_of(&mut random, &table, class, 20));
        }
    }
    seen.at_least(10 * times);
}

/// All lists of at most `most` requests at up to three servers whose gaps are 1, the window and the window and one more.
fn small_lists(prices: Prices, server_count: u8, most: usize) -> Vec<Vec<Request>> {
    let window = prices.window() as u32;
    let mut gaps = vec![1, window.max(1), window + 1];
    gaps.dedup();
    lists_of_gaps(server_count, &gaps, most)
}

pub fn every_small_log<C: Calls>(most: usize) {
    let mut seen = Seen::default();
    for (table, class) in each_class() {
        for server_count in 1..=3 {
            for home in 0..server_count.min(2) {
                let header = Header { class, server_count, home, id: [0; 16] };
                for requests in small_lists(table.of(class), server_count, most) {
                    let log = Log { header, requests };
                    if log.last_second() <= LAST_SECOND {
                        let count = log.requests.len();
                        seen.quote::<C>(&table, &log, least::<C>(&table, &log)[count]);
                    }
                }
            }
        }
    }
    seen.at_least(300);
}

/// The same for the prices with short windows, the least cost being that of all schedules, by sets of servers second by second.
pub fn every_small_log_by_sets<C: Calls>(most: usize) {
    let mut seen = Seen::default();
    for (table, class) in each_class().into_iter().filter(|(table, class)| table.of(*class).window() <= 12) {
        let prices = table.of(class);
        for server_count in 1..=3 {
            let header = Header { class, server_count, home: server_count / 2, id: [0; 16] };
            for requests in small_lists(prices, server_count, most) {
                let log = Log { header, requests };
                seen.quote::<C>(&table, &log, least_by_sets(prices, None, &log));
            }
        }
    }
    seen.at_least(100);
}

/// The longest logs over 1, 2, 8 and 64 servers, and some cuts of them.
pub fn long_logs<C: Calls>(seed: u64, times: usize) {
    let mut random = Random::new(seed);
    let mut seen = Seen::default();
    for server_count in [1, 2, 8, 64] {
        for _ in 0..times {
            let table = random_table(&mut random);
            let home = random.below(server_count as u64) as u8;
            let header = Header { server_count, home, ..random_header(&mut random, &table) };
            let log = Log { header, requests: random_requests(&mut random, table.of(header.class), &header, MOST_REQUESTS) };
            let costs = least::<C>(&table, &log);
            let any = random.below(MOST_REQUESTS as u64) as usize;
            for count in [1, any, MOST_REQUESTS - 1, MOST_REQUESTS] {
                seen.quote::<C>(&table, &log.cut(count), costs[count]);
            }
        }
    }
}

fn log_of(class: u8, server_count: u8, home: u8, requests: &[(u32, u16)]) -> Log {
    let header = Header { class, server_count, home, id: [7; 16] };
    Log { header, requests: requests.iter().map(|&(second, server)| Request { second, server }).collect() }
}

/// The least cost and the quote of a log.
fn figures<C: Calls>(table: &Table, log: &Log) -> (u64, u64) {
    let least = least::<C>(table, log)[log.requests.len()];
    (least, Seen::default().quote::<C>(table, log, least))
}

/// The same with a hold and a transfer price.
fn figures_at<C: Calls>(pair: (u32, u32), server_count: u8, home: u8, requests: &[(u32, u16)]) -> (u64, u64) {
    figures::<C>(&Table::of_pairs(&[pair]), &log_of(0, server_count, home, requests))
}

/// Where each server is asked for at most once and home never, the quote is the least cost: a transfer for each, and one copy held up to the last.
pub fn equal<C: Calls>() {
    assert_eq!(figures_at::<C>((1, 10), 2, 0, &[(7, 1)]), (17, 17));
    assert_eq!(figures_at::<C>((1, 10), 2, 1, &[(1, 0)]), (11, 11));
    assert_eq!(figures_at::<C>((7, 5), 4, 3, &[(1, 0), (2, 2), (9, 1)]), (78, 78));
    let others: Vec<(u32, u16)> = (1..=63).map(|i| (if i < 63 { i } else { LAST_SECOND }, i as u16 - 1)).collect();
    assert_eq!(figures_at::<C>((HIGHEST, HIGHEST), 64, 63, &others), (4_000_063_000_000, 4_000_063_000_000));
    for (table, class) in each_class() {
        for count in 1..=63 {
            let cost = table.of(class).cost(others[count - 1].0 as u64, count as u64);
            assert_eq!(figures::<C>(&table, &log_of(class, 64, 63, &others[..count])), (cost, cost));
        }
    }
}

/// Where home alone is asked for, no gap above the window, the quote is twice the least cost, which is that of the copy held at home; near it where a
/// gap is one more, or another server is asked for once.
pub fn twice<C: Calls>() {
    assert_eq!(figures_at::<C>((1, 10), 1, 0, &[(10, 0), (20, 0), (30, 0)]), (30, 60));
    assert_eq!(figures_at::<C>((1, 10), 1, 0, &[(10, 0), (20, 0), (31, 0)]), (31, 61));
    assert_eq!(figures_at::<C>((1, 10), 3, 2, &[(11, 2), (22, 2), (33, 2)]), (33, 63));
    assert_eq!(figures_at::<C>((7, 5), 1, 0, &[(1, 0), (2, 0), (3, 0)]), (21, 36));
    let millions: Vec<(u32, u16)> = (1..=4).map(|i| (HIGHEST * i, 0)).collect();
    assert_eq!(figures_at::<C>((1, HIGHEST), 2, 0, &millions), (4_000_000, 8_000_000));
    assert_eq!(figures_at::<C>((1, HIGHEST), 2, 0, &[(1_000_001, 0), (2_000_002, 0), (3_000_003, 0)]), (3_000_003, 6_000_003));
    let mut tens: Vec<(u32, u16)> = (1..=2_048).map(|i| (10 * i, 1)).collect();
    assert_eq!(figures_at::<C>((1, 10), 2, 1, &tens), (20_480, 40_960));
    tens[2_047] = (20_471, 0);
    assert_eq!(figures_at::<C>((1, 10), 2, 1, &tens), (20_481, 40_951));
}

/// About each window: home's first request, another server's, and the next at each of them. At a server that was not asked for before it is a transfer,
/// however early.
pub fn windows<C: Calls>() {
    for (table, class) in each_class() {
        let prices = table.of(class);
        let window = prices.window() as u32;
        let transfer = prices.cost(0, 1);
        let held = |seconds: u32| prices.cost(seconds as u64, 0);
        let price = |gap: u32| if gap <= window { held(gap) } else { transfer };
        for (server_count, home, other) in [(2, 0, 1), (2, 1, 0), (64, 0, 63), (64, 63, 0)] {
            let quoted = |requests: &[(u32, u16)]| figures::<C>(&table, &log_of(class, server_count, home as u8, requests)).1;
            assert_eq!(quoted(&[]), 0);
            assert_eq!(quoted(&[(1, other)]), transfer + held(1));
            assert_eq!(quoted(&[(LAST_SECOND, other)]), transfer + held(LAST_SECOND));
            for gap in window.max(2) - 1..=window + 2 {
                assert_eq!(quoted(&[(gap, home)]), price(gap) + held(gap));
                assert_eq!(quoted(&[(gap, home), (2 * gap, home)]), 2 * price(gap) + held(2 * gap));
                assert_eq!(quoted(&[(gap, other)]), transfer + held(gap));
                assert_eq!(quoted(&[(1, other), (gap + 1, other)]), transfer + price(gap) + held(gap + 1));
                assert_eq!(quoted(&[(1, other), (gap + 1, home)]), transfer + price(gap + 1) + held(gap + 1));
                assert_eq!(quoted(&[(1, other), (gap + 1, home), (gap + 2, other)]), transfer + 2 * price(gap + 1) + held(gap + 2));
            }
        }
    }
    // a hold below a transfer, the same, and above
    let quoted = |pair, second| figures_at::<C>(pair, 1, 0, &[(second, 0)]).1;
    assert_eq!((quoted((2, 25), 12), quoted((2, 24), 12), quoted((2, 23), 12)), (48, 48, 47));
    assert_eq!((quoted((1, 10), 9), quoted((1, 10), 10), quoted((1, 10), 11)), (18, 20, 21));
}

/// Hold price times seconds about each power of two from 2^24 on, at home and at another server: a transfer costs less.
pub fn products<C: Calls>() {
    for hold in (0..20).map(|k| 1 << k) {
        for product in (24..=41).map(|k| 1u64 << k).filter(|product| product / hold + 1 < LAST_SECOND as u64) {
            for transfer in [1, hold as u32, HIGHEST] {
                for gap in [product / hold - 1, product / hold, product / hold + 1] {
                    let quoted = |requests: &[(u32, u16)]| figures_at::<C>((hold as u32, transfer), 2, 0, requests).1;
                    assert_eq!(quoted(&[(gap as u32, 0)]), transfer as u64 + hold * gap);
                    assert_eq!(quoted(&[(1, 1), (gap as u32 + 1, 1)]), 2 * transfer as u64 + hold * (gap + 1));
                }
            }
        }
    }
}

/// 64 servers, 2,048 requests and the last second with the highest prices: no quote is greater. Then one second more, one server and one request.
pub fn largest<C: Calls>() {
    let server = |i: u32| (i % 64) as u16;
    let second = |i: u32| (LAST_SECOND as u64 * i as u64 / MOST_REQUESTS as u64) as u32;
    let mut requests: Vec<(u32, u16)> = (1..=MOST_REQUESTS as u32).map(|i| (second(i), server(i))).collect();
    assert_eq!(figures_at::<C>((HIGHEST, HIGHEST), 64, 63, &requests).1, 4_002_048_000_000);
    assert_eq!(figures_at::<C>((HIGHEST, 1), 64, 63, &requests).1, 4_000_000_002_048);
    // 63 first requests, home's at second 123,046, and 1,984 after 125,000 seconds
    assert_eq!(figures_at::<C>((1, HIGHEST), 64, 63, &requests).1, 315_123_046);
    assert_eq!(figures_at::<C>((1, 1), 64, 63, &requests).1, 4_002_048);
    let refused = |requests: &[(u32, u16)]| quote::<C>(Some(&encode(&[(HIGHEST, HIGHEST)])), &log_of(0, 64, 63, requests).bytes());
    requests[MOST_REQUESTS - 1].0 += 1;
    assert_eq!(refused(&requests), refuse(12, MOST_REQUESTS));
    requests[MOST_REQUESTS - 1] = (LAST_SECOND - 1, 64);
    assert_eq!(refused(&requests), refuse(11, MOST_REQUESTS));
    requests.push((LAST_SECOND, 0));
    assert_eq!(refused(&requests), refuse(7, 0));
}

#[cfg(test)]
mod tests {
    use super::*;

    #[test]
    fn simple() {
        weeks::<Simple>();
        equal::<Simple>();
        twice::<Simple>();
        windows::<Simple>();
        products::<Simple>();
        largest::<Simple>();
    }
}
