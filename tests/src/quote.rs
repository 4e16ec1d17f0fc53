//! 02's request 07: a quote of a log without a plan, in two parts.

use crate::log::Log;
use crate::prices::Prices;

#[derive(Clone, Copy, Debug, PartialEq, Eq)]
pub struct Quote {
    /// what the requests come to, one by one
    pub requests: u64,
    /// one copy held up to the last request
    pub hold: u64,
}

impl Quote {
    pub fn total(self) -> u64 {
        self.requests + self.hold
    }
}

/// The second of the latest earlier request at the server of one; home has one at second 0.
fn previous(log: &Log, i: usize) -> Option<u32> {
    let server = log.requests[i].server;
    match log.requests[..i].iter().rev().find(|request| request.server == server) {
        Some(request) => Some(request.second),
        None if server == log.header.home as u16 => Some(0),
        None => None,
    }
}

/// The smaller of a transfer and of holding since the server's previous request; a transfer where there was none.
fn price(prices: Prices, log: &Log, i: usize) -> u64 {
    let transfer = prices.cost(0, 1);
    match previous(log, i) {
        Some(second) => transfer.min(prices.cost((log.requests[i].second - second) as u64, 0)),
        None => transfer,
    }
}

pub fn quote(prices: Prices, log: &Log) -> Quote {
    let requests = (0..log.requests.len()).map(|i| price(prices, log, i)).sum();
    Quote { requests, hold: prices.cost(log.last_second() as u64, 0) }
}

#[cfg(test)]
mod tests {
    use super::*;
    use crate::log::{Header, Request};

    /// The price of each request, by the prices of class 0: hold 1, transfer 10.
    fn each(home: u8, requests: &[(u32, u16)]) -> Vec<u64> {
        let header = Header { class: 0, server_count: 4, home, id: [0; 16] };
        let log = Log { header, requests: requests.iter().map(|&(second, server)| Request { second, server }).collect() };
        let prices: Vec<u64> = (0..requests.len()).map(|i| price(Prices::of(0), &log, i)).collect();
        let hold = requests.last().map_or(0, |last| last.0 as u64);
        assert_eq!(quote(Prices::of(0), &log), Quote { requests: prices.iter().sum(), hold });
        prices
    }

    #[test]
    fn no_request() {
        assert_eq!(each(0, &[]), []);
    }

    #[test]
    fn home_has_a_request_at_second_0() {
        for (second, expected) in [(1, 1), (9, 9), (10, 10), (11, 10), (4_000_000, 10)] {
            assert_eq!(each(3, &[(second, 3)]), [expected]);
            assert_eq!(each(0, &[(second, 3)]), [10]);
        }
    }

    #[test]
    fn the_latest_earlier_request_of_the_server_counts() {
        assert_eq!(each(0, &[(1, 1), (2, 0), (4, 1), (9, 0), (19, 0), (20, 1), (30, 0)]), [10, 2, 3, 7, 10, 10, 10]);
        assert_eq!(each(2, &[(1, 1), (2, 0), (4, 1), (9, 0), (19, 2), (20, 1), (30, 0)]), [10, 10, 3, 7, 10, 10, 10]);
    }

    #[test]
    fn week_b() {
        let requests = [(5, 1), (8, 2), (11, 3), (14, 0), (26, 1), (32, 1), (40, 2)];
        assert_eq!(each(0, &requests), [10, 10, 10, 10, 10, 6, 10]);
    }
}
