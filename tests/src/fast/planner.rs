//! The planner in time requests × servers.
//!
//! Taken from the last request back, what later K spans cover is a stretch that begins at the latest request of some server
//! (the one after it, being later, is the K). So a state is a server; the last request's own server stands for nothing covered.
//! Where a request is not K, only the gap before it tells S from U: a transfer and, if nothing covers the gap, its holding, or an upload.

use super::log::accepted;
use super::prices::table;
use crate::log::{Header, Request, MOST_REQUESTS};
use crate::prices::{check_upload, PriceFile, Prices, Upload};
use crate::{refuse, Refusal};

const NEVER: u64 = u64::MAX / 2;
const POINTS: usize = MOST_REQUESTS + 1;

/// The points of a log: home at second 0, then the requests; the prices of its class, and that of an upload.
pub(super) struct Points {
    pub(super) prices: Prices,
    upload: u64,
    pub(super) header: Header,
    pub(super) count: usize,
    pub(super) second: [u32; POINTS],
    pub(super) server: [u8; POINTS],
}

// in its callers, as its lists would be copied
#[inline(always)]
pub(super) fn points(prices: PriceFile, upload: Upload, file: &[u8]) -> Result<Points, Refusal> {
    let table = table(prices)?;
    let mut second = [0; POINTS];
    let mut server = [0; POINTS];
    let (header, count) = accepted(table, file, |i, request: Request| {
        second[i + 1] = request.second;
        server[i + 1] = request.server as u8;
    })?;
    check_upload(upload)?;
    server[0] = header.home;
    let upload = upload.map_or(NEVER, |price| price as u64);
    Ok(Points { prices: table.of(header.class), upload, header, count, second, server })
}

impl Points {
    fn hold(&self, from: usize, to: usize) -> u64 {
        self.prices.cost((self.second[to] - self.second[from]) as u64, 0)
    }

    /// What S costs at a request, the gap before it covered or not.
    fn send(&self, i: usize, covered: bool) -> u64 {
        if self.server[i] == self.server[i - 1] {
            return NEVER;
        }
        let gap = if covered { 0 } else { self.hold(i - 1, i) };
        gap + self.prices.cost(0, 1)
    }
}

/// The least cost of the requests so far for each state, and each server's latest point.
pub(super) struct Costs {
    pub(super) cost: [u64; 64],
    latest: [i32; 64],
}

impl Costs {
    pub(super) fn new(home: u8) -> Costs {
        let mut costs = Costs { cost: [NEVER; 64], latest: [-1; 64] };
        costs.cost[home as usize] = 0;
        costs.latest[home as usize] = 0;
        costs
    }

    /// One request more; gives back the states in which it is K.
    pub(super) fn step(&mut self, points: &Points, i: usize) -> u64 {
        let (at, before) = (points.server[i] as usize, points.server[i - 1] as usize);
        let previous = self.latest[at];
        let keep = if previous < 0 { NEVER } else { points.hold(previous as usize, i) };
        // without K: the gap before it covered by later spans, and not
        let other = points.send(i, true).min(points.upload);
        let bare_other = points.send(i, false).min(points.upload) + self.cost[before];
        // K with nothing, or less than this span, covered by later spans
        let kept = if previous < 0 { NEVER } else { keep + self.cost[at] };
        let bare = kept.min(bare_other);
        let mut keeps = u64::from(kept <= bare_other) << at;
        for state in 0..points.header.server_count as usize {
            if state == at || self.latest[state] < 0 {
                continue;
            }
            let with_keep = if self.latest[state] < previous { keep + self.cost[state] } else { kept };
            let with_other = other + self.cost[state];
            keeps |= u64::from(with_keep <= with_other) << state;
            self.cost[state] = with_keep.min(with_other);
        }
        self.cost[at] = bare;
        self.latest[at] = i as i32;
        keeps
    }
}

pub fn least(prices: PriceFile, upload: Upload, file: &[u8], costs: &mut [u64]) -> Result<u32, Refusal> {
    let points = points(prices, upload, file)?;
    let n = points.count;
    if costs.len() < n + 1 {
        return refuse(31, n + 1);
    }
    let mut table = Costs::new(points.header.home);
    costs[0] = 0;
    for i in 1..=n {
        table.step(&points, i);
        costs[i] = table.cost[points.server[i] as usize];
    }
    costs[n + 1..].fill(0);
    Ok(n as u32 + 1)
}

/// The servers that hold over each gap, as words, and the marks, from the last request back.
fn choose(points: &Points, keeps: &[u64; POINTS], marks: &mut [u8; POINTS], holders: &mut [u64; POINTS]) {
    let mut previous = [0u16; POINTS];
    let mut latest = [0u16; 64];
    for i in 1..=points.count {
        let at = points.server[i] as usize;
        previous[i] = latest[at];
        latest[at] = i as u16;
    }
    let mut active = 0u64;
    let mut reach = points.count;
    let mut state = points.server[points.count];
    for i in (1..=points.count).rev() {
        let at = points.server[i];
        if reach >= i {
            state = at;
        }
        active &= !(1 << at);
        if keeps[i] >> state & 1 == 1 {
            marks[i] = b'K';
            active |= 1 << at;
            if (previous[i] as usize) < reach {
                reach = previous[i] as usize;
                state = at;
            }
        } else {
            marks[i] = if points.send(i, active != 0) <= points.upload { b'S' } else { b'U' };
        }
        holders[i] = if active == 0 && marks[i] == b'S' { 1 << points.server[i - 1] } else { active };
    }
}

pub fn plan(prices: PriceFile, upload: Upload, file: &[u8], marks: &mut [u8], rows: &mut [u32]) -> Result<(u64, u32), Refusal> {
    let points = points(prices, upload, file)?;
    let n = points.count;
    let mut table = Costs::new(points.header.home);
    let mut keeps = [0; POINTS];
    for i in 1..=n {
        keeps[i] = table.step(&points, i);
    }
    let (mut letters, mut holders) = ([0; POINTS], [0u64; POINTS]);
    choose(&points, &keeps, &mut letters, &mut holders);
    let mut starts = [0u32; 65];
    let (mut transfers, mut uploads) = (0, 0);
    for i in 1..=n {
        let mut begun = holders[i] & !holders[i - 1];
        while begun != 0 {
            starts[begun.trailing_zeros() as usize + 1] += 1;
            begun &= begun - 1;
        }
        transfers += u32::from(letters[i] == b'S');
        uploads += u32::from(letters[i] == b'U');
    }
    for server in 0..64 {
        starts[server + 1] += starts[server];
    }
    let count = starts[64] + transfers + uploads;
    if marks.len() < n {
        return refuse(31, n);
    }
    if rows.len() < 4 * count as usize {
        return refuse(31, 4 * count as usize);
    }
    marks[..n].copy_from_slice(&letters[1..=n]);
    marks[n..].fill(0);
    put_rows(&points, &letters, &holders, starts, transfers, rows);
    rows[4 * count as usize..].fill(0);
    Ok((table.cost[points.server[n] as usize], count))
}

/// Of the servers in a word that is not 0 the nearest to a target below 64, the lower of two equally near.
fn nearest(servers: u64, target: u32) -> u32 {
    let (below, from) = (servers & !(u64::MAX << target), servers >> target);
    let low = 63 - (below | 1).leading_zeros();
    let ahead = from.trailing_zeros();
    if below != 0 && target - low <= ahead { low } else { target + ahead }
}

/// Holds to where their server's begin, then transfers, then uploads.
fn put_rows(points: &Points, marks: &[u8; POINTS], holders: &[u64; POINTS], mut starts: [u32; 65], transfers: u32, rows: &mut [u32]) {
    let n = points.count;
    let mut transfer = 4 * starts[64] as usize;
    let mut upload = transfer + 4 * transfers as usize;
    for i in 1..=n {
        let mut begun = holders[i] & !holders[i - 1];
        while begun != 0 {
            let server = begun.trailing_zeros();
            let at = 4 * starts[server as usize] as usize;
            rows[at..at + 3].copy_from_slice(&[0, server, points.second[i - 1]]);
            begun &= begun - 1;
        }
        let mut ended = if i == n { holders[i] } else { holders[i] & !holders[i + 1] };
        while ended != 0 {
            let server = ended.trailing_zeros() as usize;
            rows[4 * starts[server] as usize + 3] = points.second[i];
            starts[server] += 1;
            ended &= ended - 1;
        }
        let target = points.server[i] as u32;
        if marks[i] == b'S' {
            let row = [1, nearest(holders[i], target), target, points.second[i]];
            rows[transfer..transfer + 4].copy_from_slice(&row);
            transfer += 4;
        } else if marks[i] == b'U' {
            rows[upload..upload + 4].copy_from_slice(&[2, target, points.second[i], 0]);
            upload += 4;
        }
    }
}
