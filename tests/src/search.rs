//! The least cost by search over all schedules, for small logs.

use crate::checker::{flat, Row};
use crate::log::{Log, Request};
use crate::prices::{Prices, Upload};
use crate::Refusal;

const NEVER: u64 = u64::MAX;

fn size(set: usize) -> u64 {
    set.count_ones() as u64
}

/// The least cost by going through the seconds, for each set of servers the least cost at which just these
/// hold over the next second. In a second the copy may be sent to any servers from those that hold it, and uploaded to any if there is an upload
/// price; without one, once no server holds it, it is lost.
pub fn least_by_sets(prices: Prices, upload: Upload, log: &Log) -> u64 {
    let sets = 1usize << log.header.server_count;
    let mut holding = vec![NEVER; sets];
    holding[1 << log.header.home] = 0;
    let Some(last) = log.requests.last() else { return 0 };
    for t in 0..=last.second {
        let mut standing = with_arrivals(prices, upload, &holding);
        if let Some(request) = log.requests.iter().find(|request| request.second == t) {
            for set in 0..sets {
                if set >> request.server & 1 == 0 {
                    standing[set] = NEVER;
                }
            }
        }
        if t == last.second {
            return *standing.iter().min().unwrap();
        }
        holding = held_on(prices, &standing);
    }
    unreachable!()
}

/// From the servers that hold up to a second to those where the copy stands in it.
fn with_arrivals(prices: Prices, upload: Upload, holding: &[u64]) -> Vec<u64> {
    let mut standing = holding.to_vec();
    for before in 0..holding.len() {
        if holding[before] == NEVER {
            continue;
        }
        for after in 0..holding.len() {
            if before & after == before && before != after {
                let cost = arrival_cost(prices, upload, before, size(after & !before));
                standing[after] = standing[after].min(holding[before].saturating_add(cost));
            }
        }
    }
    standing
}

/// The least cost of one or more servers that come to those that hold: some by uploads, one at least where none holds, the others by transfers.
fn arrival_cost(prices: Prices, upload: Upload, before: usize, new: u64) -> u64 {
    let fewest = u64::from(before == 0);
    let most = if upload.is_some() { new } else { 0 };
    let cost = |uploads: u64| prices.cost(0, new - uploads) + upload.unwrap_or(0) as u64 * uploads;
    (fewest..=most).map(cost).min().unwrap_or(NEVER)
}

/// From the servers where the copy stands in a second to those that hold it to the next.
fn held_on(prices: Prices, standing: &[u64]) -> Vec<u64> {
    let mut holding = vec![NEVER; standing.len()];
    for before in 0..standing.len() {
        if standing[before] == NEVER {
            continue;
        }
        for after in 0..standing.len() {
            if before & after == after {
                holding[after] = holding[after].min(standing[before] + prices.cost(size(after), 0));
            }
        }
    }
    holding
}

/// The least cost by handing each list of rows that is in order to a checker: for 2 servers and 3 seconds 2^14 schedules, for 2 seconds with uploads
/// 2^16.
pub fn least_by_schedules(uploads: bool, log: &Log, mut check: impl FnMut(&[u32]) -> Result<u64, Refusal>) -> u64 {
    let last = log.last_second();
    let count = log.header.server_count as u32;
    let cells: Vec<(u32, u32)> = (0..count).flat_map(|server| (0..last).map(move |second| (server, second))).collect();
    let mut arrivals = Vec::new();
    for second in 0..=last {
        for source in 0..count {
            for target in 0..count {
                if source != target && last > 0 {
                    arrivals.push(Row::Transfer { source, target, second });
                }
            }
        }
    }
    if uploads && last > 0 {
        for second in 0..=last {
            arrivals.extend((0..count).map(|target| Row::Upload { target, second }));
        }
    }
    let mut least = NEVER;
    for held in 0..1u64 << cells.len() {
        let holds = runs(&cells, held);
        for arrived in 0..1u64 << arrivals.len() {
            let chosen = (0..arrivals.len()).filter(|&i| arrived >> i & 1 == 1).map(|i| arrivals[i]);
            let rows: Vec<Row> = holds.iter().copied().chain(chosen).collect();
            if let Ok(cost) = check(&flat(&rows)) {
                least = least.min(cost);
            }
        }
    }
    least
}

/// The holds of a set of servers' seconds: touching ones joined.
fn runs(cells: &[(u32, u32)], held: u64) -> Vec<Row> {
    let mut rows: Vec<Row> = Vec::new();
    for (i, &(at, second)) in cells.iter().enumerate() {
        if held >> i & 1 == 0 {
            continue;
        }
        match rows.last_mut() {
            Some(Row::Hold { server, to, .. }) if *server == at && *to == second => *to = second + 1,
            _ => rows.push(Row::Hold { server: at, from: second, to: second + 1 }),
        }
    }
    rows
}

/// All lists of at most `most` requests whose gaps are among some.
pub fn lists_of_gaps(server_count: u8, gaps: &[u32], most: usize) -> Vec<Vec<Request>> {
    let mut lists = vec![vec![]];
    let mut start = 0;
    for _ in 0..most {
        let end = lists.len();
        for i in start..end {
            let list: Vec<Request> = lists[i].clone();
            let second = list.last().map_or(0, |request: &Request| request.second);
            for server in 0..server_count as u16 {
                for gap in gaps {
                    let mut longer = list.clone();
                    longer.push(Request { second: second + gap, server });
                    lists.push(longer);
                }
            }
        }
        start = end;
    }
    lists
}

#[cfg(test)]
mod tests {
    use super::*;
    use crate::checker;
    use crate::log::Header;
    use crate::prices::each_class;

    #[test]
    fn number_of_lists() {
        assert_eq!(lists_of_gaps(2, &[1, 3], 3).len(), 1 + 4 + 16 + 64);
    }

    #[test]
    fn both_searches_agree() {
        for (table, class) in each_class() {
            let prices = table.of(class);
            for home in 0..2 {
                let header = Header { class, server_count: 2, home, id: [0; 16] };
                for requests in lists_of_gaps(2, &[1, 2, 3], 3) {
                    let log = Log { header, requests };
                    if log.last_second() <= 2 || (log.last_second() == 3 && class % 6 == 0) {
                        let least = least_by_schedules(false, &log, |rows| checker::check(prices, None, &log, rows));
                        assert_eq!(least, least_by_sets(prices, None, &log), "{prices:?} {log:?}");
                    }
                }
            }
        }
    }

    #[test]
    fn both_searches_agree_on_uploads() {
        let prices = Prices { hold: 3, transfer: 4 };
        for home in 0..2 {
            let header = Header { class: 0, server_count: 2, home, id: [0; 16] };
            for requests in lists_of_gaps(2, &[1, 2], 2) {
                let log = Log { header, requests };
                if log.last_second() <= 2 {
                    for upload in [2, 4, 7].map(Some) {
                        let least = least_by_schedules(true, &log, |rows| checker::check(prices, upload, &log, rows));
                        assert_eq!(least, least_by_sets(prices, upload, &log), "{upload:?} {log:?}");
                    }
                }
            }
        }
    }

    #[test]
    fn arrivals() {
        let cost = |upload, before, new| arrival_cost(Prices { hold: 1, transfer: 10 }, upload, before, new);
        assert_eq!([cost(None, 1, 1), cost(None, 1, 3), cost(None, 0, 1)], [10, 30, NEVER]);
        assert_eq!([cost(Some(4), 1, 1), cost(Some(4), 1, 3), cost(Some(4), 0, 3)], [4, 12, 12]);
        assert_eq!([cost(Some(15), 1, 1), cost(Some(15), 1, 3), cost(Some(15), 0, 1), cost(Some(15), 0, 3)], [10, 30, 15, 35]);
    }
}
