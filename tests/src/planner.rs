//! 01, 'The plan', with the source of 02's request 03 and the uploads of its request 11. The marks come from a plain dynamic program, or for few
//! requests from trying all of them.

use crate::checker::{cost_of, Row};
use crate::log::Log;
use crate::prices::{Prices, Upload};
use std::collections::BTreeSet;

#[derive(Clone, Copy, Debug, PartialEq, Eq)]
pub enum Mark {
    K,
    S,
    U,
}

#[derive(Clone, Debug, PartialEq, Eq)]
pub struct Plan {
    pub cost: u64,
    pub marks: Vec<Mark>,
    pub rows: Vec<Row>,
}

/// Point 0 is home at second 0; point i is request i.
struct Points {
    second: Vec<u32>,
    server: Vec<u32>,
    /// the latest earlier point at the same server
    previous: Vec<Option<usize>>,
}

fn points(log: &Log) -> Points {
    let mut second = vec![0];
    let mut server = vec![log.header.home as u32];
    for request in &log.requests {
        second.push(request.second);
        server.push(request.server as u32);
    }
    let previous = (0..server.len()).map(|i| (0..i).rev().find(|&j| server[j] == server[i])).collect();
    Points { second, server, previous }
}

impl Points {
    fn may_keep(&self, i: usize) -> bool {
        self.previous[i].is_some()
    }

    fn may_send(&self, i: usize) -> bool {
        self.server[i] != self.server[i - 1]
    }

    /// The seconds from one point to another.
    fn seconds(&self, from: usize, to: usize) -> u64 {
        (self.second[to] - self.second[from]) as u64
    }

    /// The servers that hold over each gap, gap i lying between points i - 1 and i; before a U there may be none. (There is no gap 0.)
    fn holders(&self, marks: &[Mark]) -> Vec<BTreeSet<u32>> {
        let mut holders = vec![BTreeSet::new(); self.server.len()];
        for (i, mark) in (1..).zip(marks) {
            if *mark == Mark::K {
                for gap in self.previous[i].unwrap() + 1..=i {
                    holders[gap].insert(self.server[i]);
                }
            }
        }
        for gap in 1..holders.len() {
            if holders[gap].is_empty() && marks[gap - 1] != Mark::U {
                holders[gap].insert(self.server[gap - 1]);
            }
        }
        holders
    }

    /// The rows of a marking: each server's runs of gaps as holds, then the transfers, then the uploads.
    fn rows(&self, marks: &[Mark]) -> Vec<Row> {
        let holders = self.holders(marks);
        let mut rows = Vec::new();
        for server in 0..64 {
            let mut gap = 1;
            while gap < holders.len() {
                if !holders[gap].contains(&server) {
                    gap += 1;
                    continue;
                }
                let from = self.second[gap - 1];
                while gap < holders.len() && holders[gap].contains(&server) {
                    gap += 1;
                }
                rows.push(Row::Hold { server, from, to: self.second[gap - 1] });
            }
        }
        for (i, mark) in (1..).zip(marks) {
            if *mark == Mark::S {
                let target = self.server[i];
                rows.push(Row::Transfer { source: nearest(&holders[i], target), target, second: self.second[i] });
            }
        }
        for (i, mark) in (1..).zip(marks) {
            if *mark == Mark::U {
                rows.push(Row::Upload { target: self.server[i], second: self.second[i] });
            }
        }
        rows
    }
}

/// The server whose number is nearest the target's, the lower of two equally near.
pub fn nearest(servers: &BTreeSet<u32>, target: u32) -> u32 {
    servers.iter().copied().min_by_key(|&server| (server.abs_diff(target), server)).unwrap()
}

/// `costs[i][r]`: the least cost of requests 1 to i and of the gaps up to them, where the K spans of later
/// requests cover all gaps after point r. With r = i they cover none of these gaps.
fn table(prices: Prices, upload: Upload, points: &Points) -> Vec<Vec<u64>> {
    let mut costs = vec![vec![0]];
    for i in 1..points.server.len() {
        let before = &costs[i - 1];
        let least = |r| {
            let (keep, send) = (keep_cost(prices, points, before, i, r), send_cost(prices, points, before, i, r));
            keep.min(send).min(upload_cost(upload, before, i, r))
        };
        let row = (0..=i).map(least).collect();
        costs.push(row);
    }
    costs
}

const NEVER: u64 = u64::MAX;

/// The same with request i marked K.
fn keep_cost(prices: Prices, points: &Points, before: &[u64], i: usize, r: usize) -> u64 {
    match points.previous[i] {
        Some(p) => before[r.min(p)] + prices.cost(points.seconds(p, i), 0),
        None => NEVER,
    }
}

/// The same with request i marked S.
fn send_cost(prices: Prices, points: &Points, before: &[u64], i: usize, r: usize) -> u64 {
    if !points.may_send(i) {
        return NEVER;
    }
    let gap = if r < i { 0 } else { points.seconds(i - 1, i) };
    before[r.min(i - 1)] + prices.cost(gap, 1)
}

/// The same with request i marked U.
fn upload_cost(upload: Upload, before: &[u64], i: usize, r: usize) -> u64 {
    match upload {
        Some(price) => before[r.min(i - 1)] + price as u64,
        None => NEVER,
    }
}

/// The plan: from the last request back, K where the least cost can be had with it, else S where it can, else U.
pub fn plan(prices: Prices, upload: Upload, log: &Log) -> Plan {
    let points = points(log);
    let costs = table(prices, upload, &points);
    let n = log.requests.len();
    let mut marks = vec![Mark::U; n];
    let mut r = n;
    for i in (1..=n).rev() {
        r = r.min(i);
        if keep_cost(prices, &points, &costs[i - 1], i, r) == costs[i][r] {
            marks[i - 1] = Mark::K;
            r = r.min(points.previous[i].unwrap());
        } else if send_cost(prices, &points, &costs[i - 1], i, r) == costs[i][r] {
            marks[i - 1] = Mark::S;
        }
    }
    let rows = points.rows(&marks);
    Plan { cost: cost_of(prices, upload, &rows), marks, rows }
}

/// The least cost of the first 0, 1, .. and all requests.
pub fn least(prices: Prices, upload: Upload, log: &Log) -> Vec<u64> {
    let costs = table(prices, upload, &points(log));
    (0..costs.len()).map(|i| costs[i][i]).collect()
}

/// All allowed markings; of two, at the latest request where they differ K comes before S, and S before U.
pub fn all_markings(prices: Prices, upload: Upload, log: &Log) -> Vec<Plan> {
    let points = points(log);
    let mut markings = vec![vec![]];
    for i in 1..points.server.len() {
        let mut longer = Vec::new();
        for mark in [Mark::K, Mark::S, Mark::U] {
            let allowed = match mark {
                Mark::K => points.may_keep(i),
                Mark::S => points.may_send(i),
                Mark::U => upload.is_some(),
            };
            if allowed {
                longer.extend(markings.iter().map(|marks: &Vec<Mark>| [&marks[..], &[mark]].concat()));
            }
        }
        markings = longer;
    }
    let plan = |marks: Vec<Mark>| {
        let rows = points.rows(&marks);
        Plan { cost: cost_of(prices, upload, &rows), marks, rows }
    };
    markings.into_iter().map(plan).collect()
}

/// The plan by trying all of them.
pub fn plan_by_all_markings(prices: Prices, upload: Upload, log: &Log) -> Plan {
    // of equals, `min_by_key` takes the first
    all_markings(prices, upload, log).into_iter().min_by_key(|plan| plan.cost).unwrap()
}

/// A mark as one ASCII letter.
pub fn letter(mark: Mark) -> u8 {
    match mark {
        Mark::K => b'K',
        Mark::S => b'S',
        Mark::U => b'U',
    }
}

#[cfg(test)]
mod tests {
    use super::*;
    use crate::checker::{check, flat};
    use crate::log::{Header, Request};
    use crate::prices::{each_class, upload_edges};
    use crate::random::{no_upload, random_header, random_log, random_requests, random_table, random_upload, Random};
    use crate::search::{lists_of_gaps, least_by_sets};

    /// All logs of at most `most` requests at up to three servers whose gaps are 1, the window and the window and one more, for every class.
    fn small_logs(most: usize, mut each: impl FnMut(Prices, &Log)) {
        for (table, class) in each_class() {
            let prices = table.of(class);
            let window = prices.window() as u32;
            let mut gaps = vec![1, window.max(1), window + 1];
            gaps.dedup();
            for server_count in 1..=3 {
                let header = Header { class, server_count, home: 0, id: [0; 16] };
                for requests in lists_of_gaps(server_count, &gaps, most) {
                    each(prices, &Log { header, requests });
                }
            }
        }
    }

    #[test]
    fn equals_all_markings_on_every_small_log() {
        small_logs(4, |prices, log| agrees(prices, None, log));
        small_logs(3, |prices, log| upload_edges(prices).into_iter().for_each(|price| agrees(prices, Some(price), log)));
    }

    #[test]
    fn equals_all_markings_on_random_logs() {
        let mut random = Random::new(3);
        for (most, uploads) in [(9, no_upload as fn(&mut Random, Prices) -> Upload), (7, random_upload)] {
            for _ in 0..3_000 {
                let table = random_table(&mut random);
                let log = random_log(&mut random, &table, most);
                let prices = table.of(log.header.class);
                agrees(prices, uploads(&mut random, prices), &log);
            }
        }
    }

    fn agrees(prices: Prices, upload: Upload, log: &Log) {
        let plan = plan(prices, upload, log);
        assert_eq!(plan, plan_by_all_markings(prices, upload, log), "{prices:?} {upload:?} {log:?}");
        let costs: Vec<u64> = (0..=log.requests.len()).map(|k| plan_by_all_markings(prices, upload, &log.cut(k)).cost).collect();
        assert_eq!(least(prices, upload, log), costs, "{prices:?} {upload:?} {log:?}");
        assert_eq!(check(prices, upload, log, &flat(&plan.rows)), Ok(plan.cost), "{prices:?} {upload:?} {log:?}");
        assert!(plan.rows.len() <= 2 * log.requests.len());
    }

    /// What the marks come to one by one: a K its span, an S a transfer and the gap before it where no K covers that, a U an upload.
    fn cost_by_marks(prices: Prices, upload: Upload, log: &Log, marks: &[Mark]) -> u64 {
        let points = points(log);
        let covered = |gap: usize| (gap..=marks.len()).any(|i| marks[i - 1] == Mark::K && points.previous[i].unwrap() < gap);
        let cost = |i: usize| match marks[i - 1] {
            Mark::K => prices.cost(points.seconds(points.previous[i].unwrap(), i), 0),
            Mark::S if covered(i) => prices.cost(0, 1),
            Mark::S => prices.cost(points.seconds(i - 1, i), 1),
            Mark::U => upload.unwrap() as u64,
        };
        (1..=marks.len()).map(cost).sum()
    }

    #[test]
    fn each_marking_is_feasible_at_the_cost_of_its_marks() {
        let mut random = Random::new(6);
        for _ in 0..200 {
            let table = random_table(&mut random);
            let log = random_log(&mut random, &table, 6);
            let prices = table.of(log.header.class);
            for upload in [None, random_upload(&mut random, prices)] {
                for plan in all_markings(prices, upload, &log) {
                    assert_eq!(check(prices, upload, &log, &flat(&plan.rows)), Ok(plan.cost), "{log:?} {plan:?}");
                    assert_eq!(cost_by_marks(prices, upload, &log, &plan.marks), plan.cost, "{log:?} {plan:?}");
                    assert!(plan.rows.len() <= 2 * log.requests.len());
                }
            }
        }
    }

    #[test]
    fn no_schedule_is_cheaper() {
        let mut random = Random::new(4);
        for _ in 0..3_000 {
            let table = random_table(&mut random);
            let mut header = random_header(&mut random, &table);
            header.server_count = header.server_count.min(4);
            header.home %= header.server_count;
            let prices = table.of(header.class);
            let count = random.below(9) as usize;
            let log = Log { header, requests: random_requests(&mut random, prices, &header, count) };
            if log.last_second() <= 300 {
                for upload in [None, random_upload(&mut random, prices)] {
                    assert_eq!(plan(prices, upload, &log).cost, least_by_sets(prices, upload, &log), "{prices:?} {upload:?} {log:?}");
                }
            }
        }
    }

    #[test]
    fn long_plans_are_accepted() {
        let mut random = Random::new(5);
        for _ in 0..10 {
            let table = random_table(&mut random);
            let log = random_log(&mut random, &table, 400);
            let prices = table.of(log.header.class);
            for upload in [None, random_upload(&mut random, prices)] {
                let plan = plan(prices, upload, &log);
                assert_eq!(check(prices, upload, &log, &flat(&plan.rows)), Ok(plan.cost));
                assert_eq!(least(prices, upload, &log).last(), Some(&plan.cost));
                assert!(plan.rows.len() <= 2 * log.requests.len());
            }
        }
    }

    #[test]
    fn table_of_002_is_not_the_table_of_01() {
        // 002's recurrence would take K at the last request
        let header = Header { class: 0, server_count: 2, home: 0, id: [0; 16] };
        let requests = [(1, 1), (12, 1), (13, 0)].map(|(second, server)| Request { second, server }).to_vec();
        let plan = plan(Prices::of(0), None, &Log { header, requests });
        assert_eq!((plan.marks, plan.cost), (vec![Mark::S, Mark::K, Mark::S], 33));
    }
}
