//! The checker, without an upload price and with one.

use super::Met;
use crate::calls::{Calls, Simple};
use crate::checker::{flat, Row};
use crate::log::{Header, Log, Request, LAST_SECOND};
use crate::planner;
use crate::prices::{PriceFile, Table, Upload, HIGHEST};
use crate::random::{damaged_log, random_header, random_log, random_requests, random_table, Random, Uploads};
use crate::Refusal;

pub(super) fn check<C: Calls>(prices: PriceFile, upload: Upload, file: &[u8], rows: &[u32]) -> Result<u64, Refusal> {
    let a = Simple::check(prices, upload, file, rows);
    assert_eq!(C::check(prices, upload, file, rows), a, "{prices:?} {upload:?} {file:?} {rows:?}");
    a
}

fn week(server_count: u8, home: u8, requests: &[(u32, u16)]) -> Log {
    let header = Header { class: 2, server_count, home, id: [3; 16] };
    Log { header, requests: requests.iter().map(|&(second, server)| Request { second, server }).collect() }
}

/// All lists of at most two rows of small numbers, right or wrong, and of a few numbers more.
pub fn every_pair_of_rows<C: Calls>(upload: Upload) {
    let mut met = Met::default();
    let mut rows = Vec::new();
    for kind in 0..4 {
        for a in 0..3 {
            for b in 0..4 {
                for c in 0..4 {
                    rows.push([kind, a, b, c]);
                }
            }
        }
    }
    for log in [week(2, 0, &[]), week(2, 1, &[(2, 0)]), week(2, 0, &[(1, 1), (3, 1)])] {
        let file = log.bytes();
        for length in 0..7 {
            met.count(&check::<C>(None, upload, &file, &[0, 0, 0, 1, 1, 0, 1][..length]));
        }
        for first in &rows {
            met.count(&check::<C>(None, upload, &file, first));
            for second in &rows {
                met.count(&check::<C>(None, upload, &file, &[*first, *second].concat()));
            }
        }
    }
    met.exactly(&[0, 14, 15, 16, 17, 18], 4);
}

/// The rows of some servers and seconds that are in form.
fn formed(upload: Upload, server_count: u32, last: u32) -> Vec<Row> {
    let mut rows = Vec::new();
    for server in 0..server_count {
        for from in 0..last {
            rows.extend((from + 1..=last).map(|to| Row::Hold { server, from, to }));
        }
    }
    for second in 0..=last {
        for source in 0..server_count {
            let targets = (0..server_count).filter(|&target| target != source);
            rows.extend(targets.map(|target| Row::Transfer { source, target, second }));
        }
        if upload.is_some() {
            rows.extend((0..server_count).map(|target| Row::Upload { target, second }));
        }
    }
    rows
}

fn every_list<C: Calls>(upload: Upload, file: &[u8], rows: &[Row], list: &mut Vec<Row>, most: usize, met: &mut Met) {
    met.count(&check::<C>(None, upload, file, &flat(list)));
    if list.len() < most {
        for row in rows {
            list.push(*row);
            every_list::<C>(upload, file, rows, list, most, met);
            list.pop();
        }
    }
}

/// All lists of a few rows in form.
pub fn every_list_of_rows<C: Calls>(upload: Upload) {
    let mut met = Met::default();
    let two = formed(upload, 2, 2);
    for log in [week(2, 0, &[(2, 0)]), week(2, 0, &[(1, 1), (2, 1)]), week(2, 1, &[(2, 0)])] {
        every_list::<C>(upload, &log.bytes(), &two, &mut vec![], 4, &mut met);
    }
    let three = formed(upload, 3, 2);
    for log in [week(3, 0, &[(2, 1)]), week(3, 1, &[(1, 2), (2, 0)])] {
        every_list::<C>(upload, &log.bytes(), &three, &mut vec![], 3, &mut met);
    }
    met.exactly(&[0, 16, 17, 18], 100);
}

/// A feasible schedule, second by second: sets of servers that hold, and transfers with some that nobody needs. With an upload price there are uploads
/// too, and seconds over which no server holds.
fn feasible(random: &mut Random, upload: Upload, log: &Log) -> Vec<Row> {
    let count = log.header.server_count as u32;
    let mut holds: Vec<Vec<bool>> = vec![vec![]; count as usize];
    let (mut transfers, mut uploads) = (Vec::new(), Vec::new());
    let mut standing: Vec<u32> = vec![log.header.home as u32];
    let mut requests = log.requests.iter().peekable();
    for second in 0..=log.last_second() {
        let mut arrived = Vec::new();
        let due = requests.next_if(|request| request.second == second).map(|request| request.server as u32);
        let mut targets: Vec<u32> = due.into_iter().filter(|server| !standing.contains(server)).collect();
        for _ in 0..random.one_of(&[0, 0, 1, 2]) {
            targets.push(random.below(count as u64) as u32);
        }
        let mut uploaded = Vec::new();
        for target in targets {
            if upload.is_some() && (standing.is_empty() || random.once_in(2)) {
                uploaded.push(target);
            } else {
                let source = random.one_of(&standing);
                if source != target && !arrived.contains(&(source, target)) {
                    arrived.push((source, target));
                }
            }
            if !standing.contains(&target) {
                standing.push(target);
            }
        }
        arrived.sort();
        transfers.extend(arrived.into_iter().map(|(source, target)| Row::Transfer { source, target, second }));
        uploaded.sort();
        uploaded.dedup();
        uploads.extend(uploaded.into_iter().map(|target| Row::Upload { target, second }));
        if upload.is_none() || !standing.is_empty() && random.once_in(2) {
            let kept = random.one_of(&standing);
            let rare = random.one_of(&[2, 3, 8]);
            standing.retain(|&server| server == kept || !random.once_in(rare));
        } else {
            standing.retain(|_| random.once_in(2));
        }
        for server in 0..count {
            holds[server as usize].push(standing.contains(&server) && second < log.last_second());
        }
    }
    let mut rows = Vec::new();
    for (server, held) in holds.iter().enumerate() {
        for run in runs(held) {
            rows.push(Row::Hold { server: server as u32, from: run.0, to: run.1 });
        }
    }
    if !log.requests.is_empty() {
        rows.extend(transfers);
        rows.extend(uploads);
    }
    rows
}

/// The runs of seconds that are held.
fn runs(held: &[bool]) -> Vec<(u32, u32)> {
    let mut runs: Vec<(u32, u32)> = Vec::new();
    for second in (0..held.len() as u32).filter(|&second| held[second as usize]) {
        match runs.last_mut() {
            Some(run) if run.1 == second => run.1 += 1,
            _ => runs.push((second, second + 1)),
        }
    }
    runs
}

/// One thing changed in some rows.
fn spoil(random: &mut Random, log: &Log, rows: &mut Vec<[u32; 4]>) {
    let at = random.below(rows.len().max(1) as u64) as usize;
    let last = log.last_second();
    let server = random.below(log.header.server_count as u64 + 1) as u32;
    match random.below(17) {
        0 if at < rows.len() => drop(rows.remove(at)),
        1 if at < rows.len() => rows.insert(at, rows[at]),
        2 if at < rows.len() => rows[at][random.below(4) as usize] = random.number(),
        3 if at + 1 < rows.len() => rows.swap(at, at + 1),
        4 if at < rows.len() => {
            let other = random.below(rows.len() as u64) as usize;
            rows.swap(at, other);
        }
        5 if at < rows.len() => {
            let field = random.between(1, 3) as usize;
            rows[at][field] = rows[at][field].wrapping_add(1);
        }
        6 if at < rows.len() => {
            let field = random.between(1, 3) as usize;
            rows[at][field] = rows[at][field].wrapping_sub(1);
        }
        7 if at < rows.len() && rows[at][0] == 0 => {
            // two holds that touch
            let [_, server, from, to] = rows[at];
            if to.saturating_sub(from) > 1 {
                let middle = random.between(from as u64 + 1, to as u64 - 1) as u32;
                rows[at][3] = middle;
                rows.insert(at + 1, [0, server, middle, to]);
            }
        }
        8 if at < rows.len() && rows[at][0] == 0 => {
            // a hole in a hold
            let [_, server, from, to] = rows[at];
            if to.saturating_sub(from) > 3 {
                rows[at][3] = from + 1;
                rows.insert(at + 1, [0, server, from + 2, to]);
            }
        }
        9 | 10 => {
            // a cycle of two or three transfers
            let second = random.between(0, last as u64) as u32;
            let ends = if random.once_in(2) { vec![(0, 1), (1, 0)] } else { vec![(0, 1), (1, 2), (2, 0)] };
            rows.extend(ends.into_iter().map(|(source, target)| [1, source, target, second]));
            sort(rows);
        }
        11 => {
            // a chain, listed in the order of its numbers
            let second = random.between(0, last as u64) as u32;
            rows.extend((0..random.between(1, 4) as u32).map(|k| [1, k + 1, k, second]));
            sort(rows);
        }
        12 => {
            let from = random.between(0, last as u64) as u32;
            rows.push([0, server, from, random.between(from as u64, last as u64 + 1) as u32]);
            sort(rows);
        }
        13 if at < rows.len() => rows.truncate(at),
        14 => {
            let second = random.between(0, last as u64 + 1) as u32;
            rows.push([2, server, second, random.one_of(&[0, 0, 0, 1])]);
            sort(rows);
        }
        15 => {
            // a transfer from an upload of its second, or of the one before
            let second = random.between(0, last as u64) as u32;
            let earlier = second - second.min(random.below(2) as u32);
            rows.extend([[1, server, (server + 1) % log.header.server_count as u32, second], [2, server, earlier, 0]]);
            sort(rows);
        }
        16 if at < rows.len() && rows[at][0] == 2 && rows[at][2] <= last => {
            // a hold from an upload
            let [_, server, second, _] = rows[at];
            rows.push([0, server, second, random.between(second as u64, last as u64 + 1) as u32]);
            sort(rows);
        }
        _ => {}
    }
}

/// Into 01's order.
pub(super) fn sort(rows: &mut [[u32; 4]]) {
    rows.sort_by_key(|&[kind, a, b, c]| match kind {
        0 => (0, a, b, c),
        1 => (1, c, a, b),
        _ => (kind, b, a, c),
    });
}

pub fn random_rows<C: Calls>(seed: u64, times: usize, uploads: Uploads) {
    let mut random = Random::new(seed);
    let mut met = Met::default();
    for i in 0..times {
        let table = random_table(&mut random);
        let mut header = random_header(&mut random, &table);
        header.server_count = header.server_count.min(9);
        header.home %= header.server_count;
        let count = random.one_of(&[0, 1, 1, 2, 3, 6]);
        let prices = table.of(header.class);
        let mut requests = random_requests(&mut random, prices, &header, count);
        requests.retain(|request| request.second <= 60);
        let log = Log { header, requests };
        let upload = uploads(&mut random, prices);
        let mut rows: Vec<[u32; 4]> = match i % 4 {
            0 => planner::plan(prices, upload, &log).rows.iter().map(|row| row.numbers()).collect(),
            _ => feasible(&mut random, upload, &log).iter().map(|row| row.numbers()).collect(),
        };
        if random.once_in(4) {
            let cost = check::<C>(table.file(), upload, &log.bytes(), &rows.concat());
            assert!(cost.is_ok(), "{upload:?} {log:?} {rows:?}");
        }
        for _ in 0..random.one_of(&[0, 1, 1, 1, 2, 3]) {
            spoil(&mut random, &log, &mut rows);
        }
        let mut numbers = rows.concat();
        if random.once_in(30) {
            numbers.truncate(random.below(numbers.len() as u64 + 1) as usize);
        }
        met.count(&check::<C>(table.file(), upload, &log.bytes(), &numbers));
    }
    met.exactly(&[0, 14, 15, 16, 17, 18], times as u64 / 200);
}

/// The log's refusals come before those of the rows.
pub fn damaged_logs<C: Calls>(seed: u64, times: usize, uploads: Uploads) {
    let mut random = Random::new(seed);
    let mut met = Met::default();
    for _ in 0..times {
        let table = random_table(&mut random);
        let file = damaged_log(&mut random, &table);
        let rows: Vec<u32> = (0..random.below(9)).map(|_| random.number()).collect();
        let upload = uploads(&mut random, table.of(0));
        met.count(&check::<C>(table.file(), upload, &file, &rows));
    }
    met.at_least(&[1, 2, 3, 4, 5, 6, 7, 8, 9, 10, 11, 12, 13, 14, 15], times as u64 / 1_000);
}

/// A chain through all 64 servers in one second, listed from its end; then with one transfer less, and as a cycle.
pub fn longest_chain<C: Calls>() {
    let mut met = Met::default();
    let log = Log { header: Header { class: 3, server_count: 64, home: 63, id: [0; 16] }, requests: vec![Request { second: 5, server: 0 }] };
    let file = log.bytes();
    for (second, held) in [(0, 0), (5, 63)] {
        let mut rows = vec![[0, held, 0, 5]];
        rows.extend((1..64).map(|source| [1, source, source - 1, second]));
        sort(&mut rows);
        assert!(check::<C>(None, None, &file, &rows.concat()).is_ok());
        for at in 1..rows.len() {
            let mut fewer = rows.clone();
            fewer.remove(at);
            let refused = check::<C>(None, None, &file, &fewer.concat());
            assert!(refused.is_err());
            met.count(&refused);
        }
        let mut more = rows.clone();
        more.push([1, 0, 63, second]);
        sort(&mut more);
        assert!(check::<C>(None, None, &file, &more.concat()).is_ok());
        more.retain(|row| row[0] == 1);
        met.count(&check::<C>(None, None, &file, &more.concat()));
    }
    met.exactly(&[17, 18], 1);
}

/// Plans of long logs and schedules of many rows, right and with one thing changed.
pub fn many_rows<C: Calls>(seed: u64, uploads: Uploads) {
    let mut random = Random::new(seed);
    let mut met = Met::default();
    for most in [300, 1_000, 2_048] {
        let table = random_table(&mut random);
        let log = random_log(&mut random, &table, most);
        let prices = table.of(log.header.class);
        let upload = uploads(&mut random, prices);
        let mut rows: Vec<[u32; 4]> = planner::plan(prices, upload, &log).rows.iter().map(|row| row.numbers()).collect();
        assert!(check::<C>(table.file(), upload, &log.bytes(), &rows.concat()).is_ok());
        spoil(&mut random, &log, &mut rows);
        met.count(&check::<C>(table.file(), upload, &log.bytes(), &rows.concat()));
    }
    let table = Table::of_pairs(&[(HIGHEST, HIGHEST)]);
    for server_count in [2, 5, 64] {
        let header = Header { class: 0, server_count, home: 1, id: [0; 16] };
        let log = Log { header, requests: vec![Request { second: 2_000, server: 0 }] };
        let upload = uploads(&mut random, table.of(0));
        let right: Vec<[u32; 4]> = feasible(&mut random, upload, &log).iter().map(|row| row.numbers()).collect();
        assert!(right.len() > 500);
        assert!(check::<C>(table.file(), upload, &log.bytes(), &right.concat()).is_ok());
        for _ in 0..60 {
            let mut rows = right.clone();
            spoil(&mut random, &log, &mut rows);
            met.count(&check::<C>(table.file(), upload, &log.bytes(), &rows.concat()));
        }
    }
    met.at_least(&[0, 15, 16, 17], 10);
}

/// The bounds of 01: 64 servers and the last second, reached and passed by one; and numbers far beyond. The prices are ordinary, and the highest. With
/// an upload price the copy comes to all servers by uploads.
pub fn bounds<C: Calls>(upload: Upload) {
    bounds_at::<C>(&Table::built_in(), 5, upload);
    bounds_at::<C>(&Table::of_pairs(&[(HIGHEST, HIGHEST)]), 0, upload);
}

fn bounds_at<C: Calls>(table: &Table, class: u8, upload: Upload) {
    let mut met = Met::default();
    for (server_count, last) in [(64, LAST_SECOND), (64, LAST_SECOND - 1), (63, LAST_SECOND), (1, LAST_SECOND)] {
        let header = Header { class, server_count, home: server_count - 1, id: [0; 16] };
        let home = header.home as u32;
        let log = Log { header, requests: vec![Request { second: 1, server: home as u16 }, Request { second: last, server: 0 }] };
        let file = log.bytes();
        let whole: Vec<[u32; 4]> = (0..server_count as u32).map(|server| [0, server, 0, last]).collect();
        let arrival = |target| if upload.is_some() { [2, target, 0, 0] } else { [1, home, target, 0] };
        let everywhere = [whole.clone(), (0..home).map(arrival).collect()].concat();
        let cost = check::<C>(table.file(), upload, &file, &everywhere.concat());
        let (held, arrivals) = (last as u64 * server_count as u64, home as u64);
        let right = upload.map_or(table.of(class).cost(held, arrivals), |price| table.of(class).cost(held, 0) + price as u64 * arrivals);
        assert_eq!(cost, Ok(right));
        for field in 0..4 {
            for number in [0, 1, 2, 62, 63, 64, 65, LAST_SECOND - 1, LAST_SECOND, LAST_SECOND + 1, 1 << 31, u32::MAX] {
                for at in [0, whole.len() - 1, everywhere.len() - 1] {
                    let mut rows = everywhere.clone();
                    rows[at][field] = number;
                    met.count(&check::<C>(table.file(), upload, &file, &rows.concat()));
                }
                let mut rows = everywhere.clone();
                let mut end = if upload.is_some() { [2, home, last, 0] } else { [1, home, 0, last] };
                end[field] = number;
                rows.push(end);
                met.count(&check::<C>(table.file(), upload, &file, &rows.concat()));
            }
        }
    }
    met.exactly(&[0, 15, 16, 17, 18], 10);
}
