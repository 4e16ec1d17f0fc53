//! The planner and the least costs, without an upload price and with one.

use super::{noise32, noise64, noise8, room, Met};
use crate::calls::{Calls, Simple};
use crate::checker::flat;
use crate::log::{Header, Log, Request, LAST_SECOND, MOST_REQUESTS};
use crate::planner::{self, letter, Plan};
use crate::prices::{each_class, PriceFile, Table, Upload, HIGHEST};
use crate::random::{damaged_log, random_header, random_log, random_requests, random_table, Random, Uploads};
use crate::search::{least_by_schedules, least_by_sets, lists_of_gaps};
use crate::Refusal;
use std::collections::BTreeSet;

/// The plan of a file, with outputs of the given lengths.
pub(super) fn plan<C: Calls>(
    random: &mut Random,
    prices: PriceFile,
    upload: Upload,
    file: &[u8],
    marks: usize,
    rows: usize,
) -> Result<(u64, u32), Refusal> {
    let (marks, rows) = (noise8(random, marks), noise32(random, rows));
    let (mut marks_a, mut rows_a) = (marks.clone(), rows.clone());
    let (mut marks_b, mut rows_b) = (marks, rows);
    let a = Simple::plan(prices, upload, file, &mut marks_a, &mut rows_a);
    let b = C::plan(prices, upload, file, &mut marks_b, &mut rows_b);
    assert_eq!(b, a, "{prices:?} {upload:?} {file:?}");
    assert_eq!(marks_b, marks_a, "{prices:?} {upload:?} {file:?}");
    assert_eq!(rows_b, rows_a, "{prices:?} {upload:?} {file:?}");
    a
}

/// The least costs of a file, with an output of the given length.
pub(super) fn least<C: Calls>(random: &mut Random, prices: PriceFile, upload: Upload, file: &[u8], costs: usize) -> Result<u32, Refusal> {
    let costs = noise64(random, costs);
    let (mut costs_a, mut costs_b) = (costs.clone(), costs);
    let a = Simple::least(prices, upload, file, &mut costs_a);
    let b = C::least(prices, upload, file, &mut costs_b);
    assert_eq!(b, a, "{prices:?} {upload:?} {file:?}");
    assert_eq!(costs_b, costs_a, "{prices:?} {upload:?} {file:?}");
    a
}

/// Plan and least costs of a log, and what the checker says of the plan.
fn both<C: Calls>(random: &mut Random, table: &Table, upload: Upload, log: &Log, met: &mut Met) {
    let file = log.bytes();
    let count = log.requests.len();
    let rows = 4 * planner::plan(table.of(log.header.class), upload, log).rows.len();
    let (marks_room, rows_room, costs_room) = (room(random, count), room(random, rows), room(random, count + 1));
    met.count(&plan::<C>(random, table.file(), upload, &file, marks_room, rows_room));
    met.count(&least::<C>(random, table.file(), upload, &file, costs_room));
    if count == 0 || random.once_in(8) {
        accepted::<C>(table.file(), upload, &file, count, rows);
    }
}

/// The checker accepts the plan, with the plan's cost. It has at most two rows for each request.
fn accepted<C: Calls>(prices: PriceFile, upload: Upload, file: &[u8], count: usize, rows: usize) {
    let (mut marks, mut rows) = (vec![0; count], vec![0; rows]);
    let (cost, number) = C::plan(prices, upload, file, &mut marks, &mut rows).unwrap();
    assert!(number as usize * 4 == rows.len() && number as usize <= 2 * count);
    assert_eq!(C::check(prices, upload, file, &rows), Ok(cost), "{prices:?} {upload:?} {file:?}");
}

/// All logs of at most `most` requests at up to three servers whose gaps are 1, the window and the window and one more.
pub fn every_small_log<C: Calls>(most: usize, uploads: Uploads) {
    let mut random = Random::new(200);
    let mut met = Met::default();
    for (table, class) in each_class() {
        let window = table.of(class).window() as u32;
        let mut gaps = vec![1, window.max(1), window + 1];
        gaps.dedup();
        for server_count in 1..=3 {
            for home in 0..server_count.min(2) {
                let header = Header { class, server_count, home, id: [0; 16] };
                for requests in lists_of_gaps(server_count, &gaps, most) {
                    let log = Log { header, requests };
                    if log.last_second() <= LAST_SECOND {
                        let upload = uploads(&mut random, table.of(class));
                        both::<C>(&mut random, &table, upload, &log, &mut met);
                    }
                }
            }
        }
    }
    met.exactly(&[0, 31], 100);
}

pub fn random_logs<C: Calls>(seed: u64, times: usize, uploads: Uploads) {
    let mut random = Random::new(seed);
    let mut met = Met::default();
    for _ in 0..times {
        let table = random_table(&mut random);
        let most = random.one_of(&[5, 10, 20, 60]);
        let log = random_log(&mut random, &table, most);
        let upload = uploads(&mut random, table.of(log.header.class));
        both::<C>(&mut random, &table, upload, &log, &mut met);
    }
    met.exactly(&[0, 31], times as u64 / 20);
}

pub fn damaged_logs<C: Calls>(seed: u64, times: usize, uploads: Uploads) {
    let mut random = Random::new(seed);
    let mut met = Met::default();
    for _ in 0..times {
        let table = random_table(&mut random);
        let file = damaged_log(&mut random, &table);
        let upload = uploads(&mut random, table.of(0));
        met.count(&plan::<C>(&mut random, table.file(), upload, &file, 12, 96));
        met.count(&least::<C>(&mut random, table.file(), upload, &file, 13));
    }
    met.exactly(&[0, 1, 2, 3, 4, 5, 6, 7, 8, 9, 10, 11, 12, 13], 1);
}

/// Both calls with room enough.
pub(super) fn answers<C: Calls>(prices: PriceFile, upload: Upload, log: &Log) -> (u64, Vec<u8>, Vec<u32>, Vec<u64>) {
    let file = log.bytes();
    let count = log.requests.len();
    let (mut marks, mut rows, mut costs) = (vec![9; count], vec![9; 8 * count], vec![9; count + 1]);
    let (cost, number) = C::plan(prices, upload, &file, &mut marks, &mut rows).unwrap();
    rows.truncate(4 * number as usize);
    assert_eq!(C::least(prices, upload, &file, &mut costs), Ok(count as u32 + 1));
    (cost, marks, rows, costs)
}

/// The plan is the first of all markings in 01's order, those with the least cost first.
pub fn all_markings<C: Calls>(seed: u64, times: usize, most: usize, uploads: Uploads) {
    let mut random = Random::new(seed);
    for _ in 0..times {
        let table = random_table(&mut random);
        let log = random_log(&mut random, &table, most);
        let upload = uploads(&mut random, table.of(log.header.class));
        first_of_all_markings::<C>(&table, upload, &log);
    }
}

pub(super) fn first_of_all_markings<C: Calls>(table: &Table, upload: Upload, log: &Log) {
    let prices = table.of(log.header.class);
    let (cost, marks, rows, _) = answers::<C>(table.file(), upload, log);
    let Plan { cost: other, marks: letters, rows: other_rows } = planner::plan_by_all_markings(prices, upload, log);
    assert_eq!((cost, marks), (other, letters.into_iter().map(letter).collect()), "{prices:?} {upload:?} {log:?}");
    assert_eq!(rows, flat(&other_rows), "{prices:?} {upload:?} {log:?}");
}

/// The servers with a hold that began before a second and reaches it.
fn holders(rows: &[u32], second: u32) -> BTreeSet<u32> {
    rows.chunks(4).filter(|row| row[0] == 0 && row[2] < second && second <= row[3]).map(|row| row[1]).collect()
}

/// Each planned transfer leaves the nearest of the servers that hold up to its second. From any of them the checker takes it, for the same cost. More
/// than `often` times that is not the lowest, and a tenth as often it is one of two equally near.
pub fn sources<C: Calls>(seed: u64, times: usize, often: usize, uploads: Uploads) {
    let mut random = Random::new(seed);
    let (mut not_lowest, mut equally_near) = (0, 0);
    for _ in 0..times {
        let table = random_table(&mut random);
        let log = random_log(&mut random, &table, 60);
        let upload = uploads(&mut random, table.of(log.header.class));
        let (cost, _, rows, _) = answers::<C>(table.file(), upload, &log);
        let mut others = rows.clone();
        for (row, other) in rows.chunks(4).zip(others.chunks_mut(4)).filter(|(row, _)| row[0] == 1) {
            let (source, target) = (row[1], row[2]);
            let holders = holders(&rows, row[3]);
            assert_eq!(source, planner::nearest(&holders, target), "{log:?}");
            not_lowest += usize::from(Some(&source) != holders.first());
            equally_near += usize::from(source < target && holders.contains(&(target + (target - source))));
            other[1] = random.one_of(&holders.into_iter().collect::<Vec<_>>());
        }
        assert_eq!(C::check(table.file(), upload, &log.bytes(), &others), Ok(cost), "{upload:?} {log:?}");
    }
    assert!(not_lowest > often && equally_near > often / 10, "{not_lowest} {equally_near}");
}

/// Every set of servers 0 to 7 as the holders, and every other of these servers as the target: the set is asked for in turn, then the target, then
/// the set again, soon enough that every copy is kept. Home is in the set. An upload at the price of a transfer changes nothing.
pub fn every_set_of_holders<C: Calls>(upload: Upload) {
    for set in 1..256u32 {
        let members: BTreeSet<u32> = (0..8).filter(|&server| set >> server & 1 == 1).collect();
        let header = Header { class: 5, server_count: 8, home: set.trailing_zeros() as u8, id: [0; 16] };
        for target in (0..8).filter(|target| !members.contains(target)) {
            let servers = members.iter().chain([&target]).chain(&members);
            let requests = (1..).zip(servers).map(|(second, &server)| Request { second, server: server as u16 }).collect();
            let log = Log { header, requests };
            let (_, _, rows, _) = answers::<C>(None, upload, &log);
            let second = members.len() as u32 + 1;
            assert_eq!(holders(&rows, second), members, "{log:?}");
            let sent = rows.chunks(4).find(|row| row[0] == 1 && row[3] == second).unwrap();
            assert_eq!(sent, [1, planner::nearest(&members, target), target, second], "{log:?}");
        }
    }
}

/// No schedule is cheaper: sets of servers second by second.
pub fn all_sets<C: Calls>(seed: u64, times: usize, uploads: Uploads) {
    let mut random = Random::new(seed);
    for _ in 0..times {
        let table = random_table(&mut random);
        let mut header = random_header(&mut random, &table);
        header.server_count = header.server_count.min(4);
        header.home %= header.server_count;
        let count = random.below(9) as usize;
        let prices = table.of(header.class);
        let mut requests = random_requests(&mut random, prices, &header, count);
        requests.retain(|request| request.second <= 300);
        let log = Log { header, requests };
        let upload = uploads(&mut random, prices);
        let (cost, _, _, costs) = answers::<C>(table.file(), upload, &log);
        assert_eq!(cost, least_by_sets(prices, upload, &log), "{prices:?} {upload:?} {log:?}");
        let k = random.below(costs.len() as u64) as usize;
        assert_eq!(costs[k], least_by_sets(prices, upload, &log.cut(k)), "{prices:?} {upload:?} {log:?}");
    }
}

/// The same for all logs of at most `most` requests at up to three servers, for the prices with short windows.
pub fn every_small_log_by_sets<C: Calls>(most: usize, uploads: Uploads) {
    let mut random = Random::new(202);
    for (table, class) in each_class().into_iter().filter(|(table, class)| table.of(*class).window() <= 12) {
        let prices = table.of(class);
        let window = prices.window() as u32;
        let mut gaps = vec![1, window.max(1), window + 1];
        gaps.dedup();
        for server_count in 1..=3 {
            let header = Header { class, server_count, home: server_count / 2, id: [0; 16] };
            for requests in lists_of_gaps(server_count, &gaps, most) {
                let log = Log { header, requests };
                let upload = uploads(&mut random, prices);
                assert_eq!(answers::<C>(table.file(), upload, &log).0, least_by_sets(prices, upload, &log), "{prices:?} {upload:?} {log:?}");
            }
        }
    }
}

/// No schedule that the checker accepts is cheaper: all lists of rows in order, for two servers and three seconds.
pub fn all_schedules<C: Calls>() {
    let (built_in, own) = (Table::built_in(), Table::of_pairs(&[(3, 2), (2, 7), (HIGHEST, 1), (1, HIGHEST), (HIGHEST, HIGHEST)]));
    let built_in = [(0, 0), (2, 1), (6, 0)].map(|(class, home)| (&built_in, class, home));
    for (table, class, home) in built_in.into_iter().chain((0..5).map(|class| (&own, class, class % 2))) {
        let header = Header { class, server_count: 2, home, id: [0; 16] };
        for requests in lists_of_gaps(2, &[1, 2, 3], 3) {
            let log = Log { header, requests };
            if log.last_second() <= 3 {
                let file = log.bytes();
                let least = least_by_schedules(false, &log, |rows| C::check(table.file(), None, &file, rows));
                assert_eq!(answers::<C>(table.file(), None, &log).0, least, "{table:?} {log:?}");
            }
        }
    }
}

/// A long log with outputs just long enough, too short by one and longer; the checker accepts the plan.
fn long_log<C: Calls>(random: &mut Random, table: &Table, upload: Upload, log: &Log, met: &mut Met) {
    let file = log.bytes();
    let count = log.requests.len();
    let rows = 4 * planner::plan(table.of(log.header.class), upload, log).rows.len();
    for (marks, numbers) in [(count, rows), (count - 1, rows - 1), (count + 1, rows - 1), (3_000, 16_384)] {
        met.count(&plan::<C>(random, table.file(), upload, &file, marks, numbers));
    }
    for costs in [count + 1, count] {
        met.count(&least::<C>(random, table.file(), upload, &file, costs));
    }
    accepted::<C>(table.file(), upload, &file, count, rows);
}

/// The longest logs over 1, 2, 8 and 64 servers.
pub fn long_logs<C: Calls>(seed: u64, times: usize, uploads: Uploads) {
    let mut random = Random::new(seed);
    let mut met = Met::default();
    for server_count in [1, 2, 8, 64] {
        for _ in 0..times {
            let table = random_table(&mut random);
            let header = Header { server_count, home: 0, ..random_header(&mut random, &table) };
            let requests = random_requests(&mut random, table.of(header.class), &header, MOST_REQUESTS);
            let upload = uploads(&mut random, table.of(header.class));
            long_log::<C>(&mut random, &table, upload, &Log { header, requests }, &mut met);
        }
    }
    met.exactly(&[0, 31], 3);
}

/// The bounds of 01: 2,048 requests that end with the last second, over 1, 2 and 64 servers; and one request more. The prices go up to the highest.
pub fn bounds<C: Calls>(upload: Upload) {
    let mut random = Random::new(201);
    let mut met = Met::default();
    let (built_in, highest) = (Table::built_in(), Table::of_pairs(&[(HIGHEST, HIGHEST), (HIGHEST, 1), (1, HIGHEST)]));
    let ordinary = [(7, 64), (5, 64), (6, 2), (7, 1), (0, 64)].map(|(class, server_count)| (&built_in, class, server_count));
    let dear = [(0, 64), (1, 64), (2, 64), (0, 1)].map(|(class, server_count)| (&highest, class, server_count));
    for (table, class, server_count) in ordinary.into_iter().chain(dear) {
        let header = Header { class, server_count, home: server_count - 1, id: [0xff; 16] };
        for count in [MOST_REQUESTS, MOST_REQUESTS + 1] {
            let last = |i| (LAST_SECOND as u64 * i as u64 / count as u64) as u32;
            let server = |i| (i % server_count as usize) as u16;
            let log = Log { header, requests: (1..=count).map(|i| Request { second: last(i), server: server(i) }).collect() };
            assert_eq!(log.last_second(), LAST_SECOND);
            if count == MOST_REQUESTS {
                long_log::<C>(&mut random, table, upload, &log, &mut met);
            } else {
                met.count(&plan::<C>(&mut random, table.file(), upload, &log.bytes(), 3_000, 16_384));
                met.count(&least::<C>(&mut random, table.file(), upload, &log.bytes(), 3_000));
            }
        }
        let past = Log { header, requests: vec![Request { second: LAST_SECOND, server: 0 }, Request { second: LAST_SECOND + 1, server: 0 }] };
        met.count(&plan::<C>(&mut random, table.file(), upload, &past.bytes(), 9, 99));
        met.count(&least::<C>(&mut random, table.file(), upload, &past.bytes(), 9));
    }
    met.exactly(&[0, 7, 12, 31], 10);
}
