//! The season from a reader, with the room of one log. The requests of a log are read once: each is judged, then taken into the least costs, then
//! served by a cache that knows of no wrong calls.

use super::log::{check_request, sum};
use super::online::serve;
use super::planner::{self, points};
use crate::log::{header_of, MOST_REQUESTS};
use crate::online::Cache;
use crate::prices::{Prices, BUILT_IN};
use crate::season::{self, Report, MOST_LOGS};
use crate::Refusal;
use std::io::{ErrorKind, Read};

const HEADER: usize = 40;
const ROOM: usize = HEADER + 6 * MOST_REQUESTS;

/// An input, and those of its bytes that were read and not yet used.
struct Room<R> {
    input: R,
    bytes: [u8; ROOM],
    from: usize,
    to: usize,
}

impl<R: Read> Room<R> {
    /// The next bytes, at most as many as there is room for, or all that are left where there are fewer. An input that can't be read has ended.
    fn next(&mut self, wanted: usize) -> &[u8] {
        if self.from + wanted > ROOM {
            self.bytes.copy_within(self.from..self.to, 0);
            self.to -= self.from;
            self.from = 0;
        }
        while self.to < self.from + wanted {
            match self.input.read(&mut self.bytes[self.to..]) {
                Ok(0) => break,
                Ok(length) => self.to += length,
                Err(error) if error.kind() == ErrorKind::Interrupted => {}
                Err(_) => break,
            }
        }
        &self.bytes[self.from..self.to.min(self.from + wanted)]
    }
}

/// The length of a log by its header's number of requests. Where that or another field is wrong the header is refused, whatever follows.
fn length(header: &[u8]) -> usize {
    match *header {
        [_, _, _, _, _, _, low, high, ..] => HEADER + 6 * (u16::from_le_bytes([low, high]) as usize).min(MOST_REQUESTS),
        _ => HEADER,
    }
}

/// Above every least cost by the built-in table: in class 7 all 64 servers held to the last second, with a transfer to each, come to 320,000,000; in
/// any other class one server held to the last second, with 2,048 transfers, comes to less than 30,000,000.
const NEVER: i32 = 1 << 30;

/// The least cost of the requests so far for each state, as the planner has it, but in 32 bits and without a choice in the loop, so that the compiler
/// takes several servers in one step.
struct Least {
    prices: Prices,
    cost: [i32; 64],
    /// the second of each server's latest request, below 0 where there is none
    latest: [i32; 64],
    second: i32,
    last: usize,
}

impl Least {
    fn new(prices: Prices, home: u8) -> Least {
        let home = home as usize;
        let mut least = Least { prices, cost: [NEVER; 64], latest: [-1; 64], second: 0, last: home };
        least.cost[home] = 0;
        least.latest[home] = 0;
        least
    }

    #[inline(always)]
    fn step(&mut self, second: u32, server: u16) {
        let (hold, transfer) = (self.prices.hold as i32, self.prices.transfer as i32);
        // it is below 64
        let (second, at) = (second as i32, server as usize & 63);
        let gap = hold * (second - self.second);
        if at == self.last {
            self.cost.iter_mut().for_each(|cost| *cost = (*cost + gap).min(NEVER));
        } else {
            let previous = self.latest[at];
            let (keep, kept) = match previous {
                -1 => (NEVER, NEVER),
                _ => (hold * (second - previous), hold * (second - previous) + self.cost[at]),
            };
            let bare = kept.min(self.cost[self.last] + gap + transfer);
            let less = keep.min(transfer);
            for (cost, latest) in self.cost.iter_mut().zip(&self.latest) {
                let (earlier, later) = (*cost + less, kept.min(*cost + transfer));
                *cost = if *latest < previous { earlier } else { later }.min(NEVER);
            }
            self.cost[at] = bare;
        }
        self.latest[at] = second;
        self.second = second;
        self.last = at;
    }
}

/// The cache, as far as its running cost needs it.
struct Live {
    window: u32,
    last_use: [u32; 64],
    holders: u64,
    last: usize,
    second: u32,
    /// no copy but the last request's ends before this second
    end: u32,
    held: u64,
    transfers: u64,
}

impl Live {
    fn new(prices: Prices, home: u8) -> Live {
        let window = prices.window() as u32;
        Live { window, last_use: [0; 64], holders: 1 << home, last: home as usize, second: 0, end: u32::MAX, held: 0, transfers: 0 }
    }

    #[inline(always)]
    fn step(&mut self, second: u32, server: u16) {
        let gap = (second - self.second) as u64;
        self.held += gap * self.holders.count_ones() as u64;
        if second > self.end {
            self.lapse(second);
        }
        // it is below 64
        let at = server as usize & 63;
        if self.holders >> at & 1 == 0 {
            self.transfers += 1;
            self.last_use[self.last] = second;
            self.holders |= 1 << at;
        }
        self.end = self.end.min(self.last_use[self.last] + self.window);
        self.last_use[at] = second;
        self.last = at;
        self.second = second;
    }

    /// Takes out the copies that have ended, and the seconds after their ends.
    fn lapse(&mut self, second: u32) {
        self.end = u32::MAX;
        let mut others = self.holders & !(1 << self.last);
        while others != 0 {
            let other = others.trailing_zeros() as usize;
            others &= others - 1;
            let end = self.last_use[other] + self.window;
            if end < second {
                self.held -= (second - end) as u64;
                self.holders &= !(1 << other);
            } else {
                self.end = self.end.min(end);
            }
        }
    }
}

/// The running cost and the least cost of a log, or none where it has no request.
type Costs = Option<(u64, u64)>;

fn costs(file: &[u8]) -> Result<Costs, Refusal> {
    let (header, count) = header_of(BUILT_IN.len(), file, sum)?;
    let prices = Prices::of(header.class);
    let (mut least, mut live) = (Least::new(prices, header.home), Live::new(prices, header.home));
    let mut earlier = 0;
    for (i, six) in file[HEADER..].chunks_exact(6).enumerate() {
        let second = u32::from_le_bytes([six[0], six[1], six[2], six[3]]);
        let server = u16::from_le_bytes([six[4], six[5]]);
        check_request(header.server_count, second, server, earlier, i)?;
        earlier = second;
        least.step(second, server);
        live.step(second, server);
    }
    Ok((count > 0).then(|| (prices.cost(live.held, live.transfers), least.cost[least.last] as u64)))
}

/// The same by the steps that the calls of the planner and of the cache take.
fn costs_by_calls(file: &[u8]) -> Result<Costs, Refusal> {
    let points = points(None, None, file)?;
    let mut least = planner::Costs::new(points.header.home);
    let mut cache = Cache::fresh(points.prices, &points.header);
    for i in 1..=points.count {
        least.step(&points, i);
        serve(&mut cache, points.second[i], points.server[i] as u16);
    }
    Ok((points.count > 0).then(|| (cache.cost(), least.cost[points.server[points.count] as usize])))
}

fn report_by(input: impl Read, costs: impl Fn(&[u8]) -> Result<Costs, Refusal>) -> Report {
    let mut room = Room { input, bytes: [0; ROOM], from: 0, to: 0 };
    let mut report = Report::default();
    for place in 1.. {
        let header = room.next(HEADER);
        if header.is_empty() {
            break;
        }
        if place > MOST_LOGS {
            report.refused.insert(45, 1);
            break;
        }
        let length = length(header);
        match costs(room.next(length)) {
            Ok(costs) => {
                report.accepted += 1;
                if let Some((running, least)) = costs {
                    report.running += running;
                    report.least += least;
                    // a running cost is at most three times a least one, so these products are below 2^60
                    if report.worst.is_none_or(|worst| running * worst.least > worst.running * least) {
                        report.worst = Some(season::Costs { place, running, least });
                    }
                }
            }
            Err(Refusal { number, .. }) => {
                *report.refused.entry(number).or_default() += 1;
                if number < 10 {
                    break;
                }
            }
        }
        room.from += length;
    }
    report
}

pub fn report(input: impl Read) -> Report {
    report_by(input, costs)
}

/// The same by the steps of the calls.
pub fn report_by_calls(input: impl Read) -> Report {
    report_by(input, costs_by_calls)
}
