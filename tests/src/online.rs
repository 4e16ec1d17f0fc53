//! 01, 'The live keeper', the refusals 11, 12, 32 to 35 and 39, and 02's requests 02, 05, 06 and 10.

use crate::log::{check_setup, Header, Request, LAST_SECOND, MOST_REQUESTS};
use crate::planner::Mark;
use crate::prices::{Prices, Table};
use crate::{refuse, Refusal};

/// The state, in the library's order of fields.
#[repr(C)]
#[derive(Clone, Copy, Debug, PartialEq, Eq)]
pub struct Cache {
    pub prices: Prices,
    /// of the file whose requests it takes (01: pass id)
    pub id: [u8; 16],
    pub server_count: u8,
    pub last: u16,
    pub second: u32,
    pub last_use: [u32; 64],
    pub holders: u64,
    pub requests: u32,
    pub transfers: u32,
    pub held: u32,
    pub closed: bool,
}

/// How a request was served: kept, or sent from a server; and the running cost after it.
#[derive(Clone, Copy, Debug, PartialEq, Eq)]
pub struct Served {
    pub source: Option<u16>,
    pub running: u64,
}

impl Served {
    pub fn mark(&self) -> Mark {
        if self.source.is_some() {
            Mark::S
        } else {
            Mark::K
        }
    }
}

pub const MOST_HELD: u32 = 256_000_000;

/// The state of a refused start.
pub const ZEROS: Cache = Cache {
    prices: Prices { hold: 0, transfer: 0 },
    id: [0; 16],
    server_count: 0,
    last: 0,
    second: 0,
    last_use: [0; 64],
    holders: 0,
    requests: 0,
    transfers: 0,
    held: 0,
    closed: false,
};

/// A new cache, or the first of 3, 43, 4 and 5 that holds; 43 is of one class, or of none.
fn started(table: &Table, unsold: Option<u8>, header: &Header) -> Result<Cache, Refusal> {
    check_setup(table.classes(), unsold, header)?;
    Ok(Cache::fresh(table.of(header.class), header))
}

/// The public start: the class that is no longer sold is refused.
pub fn start(table: &Table, header: &Header) -> Result<Cache, Refusal> {
    started(table, table.unsold(), header)
}

/// The start for a log that exists already, whether or not its class is sold.
pub fn start_for_log(table: &Table, header: &Header) -> Result<Cache, Refusal> {
    started(table, None, header)
}

/// The answer of a start, beside the state that it gives.
pub fn or_zeros(started: Result<Cache, Refusal>) -> (Cache, Result<(), Refusal>) {
    match started {
        Ok(cache) => (cache, Ok(())),
        Err(refusal) => (ZEROS, Err(refusal)),
    }
}

impl Cache {
    /// The header's id and servers, the copy at home, nothing used, held or sent.
    pub fn fresh(prices: Prices, header: &Header) -> Cache {
        let Header { server_count, home, id, .. } = *header;
        Cache { prices, id, server_count, last: home as u16, holders: 1 << home, ..ZEROS }
    }

    fn has(&self, server: usize) -> bool {
        self.holders >> server & 1 == 1
    }

    /// The last second of a copy that is not the last request's.
    fn end(&self, server: usize) -> u64 {
        self.last_use[server] as u64 + self.prices.window()
    }

    /// 32.
    pub fn is_unsound(&self) -> bool {
        if !self.prices.in_range() || self.server_count < 1 || self.server_count > 64 || self.second > LAST_SECOND {
            return true;
        }
        let last = self.last as usize;
        if last >= self.server_count as usize || !self.has(last) {
            return true;
        }
        for server in 0..64 {
            let used = self.last_use[server];
            let wrong = if self.has(server) {
                server >= self.server_count as usize || used > self.second || (server != last && self.end(server) < self.second as u64)
            } else {
                used != 0
            };
            if wrong {
                return true;
            }
        }
        self.last_use[last] != self.second
            || self.requests > MOST_REQUESTS as u32
            || self.transfers > self.requests
            || self.held > MOST_HELD
    }

    /// 11, 12, 32, 33, 39, 34, 35, by a way to tell an unsound state.
    pub fn scan_fault(&self, id: [u8; 16], second: u32, server: u16, unsound: impl Fn(&Cache) -> bool) -> Result<(), Refusal> {
        if server >= self.server_count as u16 {
            return refuse(11, 0);
        }
        if second == 0 || second > LAST_SECOND {
            return refuse(12, 0);
        }
        if unsound(self) {
            return refuse(32, 0);
        }
        if self.closed {
            return refuse(33, 0);
        }
        if id != self.id {
            return refuse(39, 0);
        }
        if self.requests == MOST_REQUESTS as u32 {
            return refuse(34, 0);
        }
        if second <= self.second {
            return refuse(35, 0);
        }
        Ok(())
    }

    /// The seconds that a server's copy is held from the last request up to second t.
    fn held_until(&self, server: usize, t: u64) -> u64 {
        let until = if server == self.last as usize { t } else { t.min(self.end(server)) };
        until - self.second as u64
    }

    pub fn scan(&self, id: [u8; 16], second: u32, server: u16) -> (Cache, Result<Served, Refusal>) {
        if let Err(refusal) = self.scan_fault(id, second, server, Cache::is_unsound) {
            return (*self, Err(refusal));
        }
        let t = second as u64;
        let at = server as usize;
        let mut next = *self;
        for other in 0..64 {
            if self.has(other) {
                next.held += self.held_until(other, t) as u32;
            }
        }
        let kept = server == self.last || (self.has(at) && t <= self.end(at));
        if !kept {
            next.transfers += 1;
            next.last_use[self.last as usize] = second;
        }
        next.holders |= 1 << server;
        next.last_use[at] = second;
        next.last = server;
        next.second = second;
        next.requests += 1;
        for other in 0..64 {
            if next.has(other) && next.end(other) < t {
                next.holders &= !(1 << other);
                next.last_use[other] = 0;
            }
        }
        let source = if kept { None } else { Some(self.last) };
        (next, Ok(Served { source, running: next.cost() }))
    }

    pub fn close(&self) -> (Cache, Result<u64, Refusal>) {
        if self.is_unsound() {
            return (*self, refuse(32, 0));
        }
        if self.closed {
            return (*self, refuse(33, 0));
        }
        (Cache { closed: true, ..*self }, Ok(self.closing_cost()))
    }

    /// The running cost, asked for without closing: a closed state is answered too.
    pub fn running(&self) -> Result<u64, Refusal> {
        if self.is_unsound() {
            return refuse(32, 0);
        }
        Ok(self.cost())
    }

    /// The running cost and, for each standing copy, the hold price for what is left of its window at the last request's second: the
    /// last server's copy was used then.
    fn closing_cost(&self) -> u64 {
        let now = self.second as u64;
        let left: u64 = (0..64).filter(|&server| self.has(server)).map(|server| self.end(server) - now).sum();
        self.cost() + self.prices.cost(left, 0)
    }

    /// The running cost, of a state that 32 lets pass.
    pub fn cost(&self) -> u64 {
        self.prices.cost(self.held as u64, self.transfers as u64)
    }
}

/// What the rules give for some requests, worked out second by second and without the state above.
#[derive(Debug, PartialEq, Eq)]
pub struct History {
    pub marks: Vec<Mark>,
    pub transfers: u32,
    pub held: u32,
    pub standing: u64,
    /// the seconds that the copies which stand are still held when no request follows
    pub left: u64,
}

impl History {
    /// Everything held and sent, to the end of the last window.
    pub fn closing_cost(&self, prices: Prices) -> u64 {
        prices.cost(self.held as u64 + self.left, self.transfers as u64)
    }
}

pub fn history(prices: Prices, home: u8, requests: &[Request]) -> History {
    let window = prices.window();
    // the use second of each copy that stands
    let mut uses: Vec<Option<u64>> = vec![None; 64];
    uses[home as usize] = Some(0);
    let mut last = home as usize;
    let mut history = History { marks: vec![], transfers: 0, held: 0, standing: 0, left: 0 };
    let mut second = 0u64;
    for request in requests {
        let server = request.server as usize;
        while second < request.second as u64 {
            // every copy that still stands is held from this second to the next; the others have gone
            for (other, used) in uses.iter_mut().enumerate() {
                if let Some(u) = *used {
                    if other == last || second < u + window {
                        history.held += 1;
                    } else {
                        *used = None;
                    }
                }
            }
            second += 1;
        }
        let kept = server == last || uses[server].is_some();
        history.marks.push(if kept { Mark::K } else { Mark::S });
        if !kept {
            history.transfers += 1;
            uses[last] = Some(second);
        }
        uses[server] = Some(second);
        last = server;
    }
    history.standing = (0..64).filter(|&server| uses[server].is_some()).map(|server| 1 << server).sum();
    history.left = uses.iter().flatten().map(|used| used + window - second).sum();
    history
}

#[cfg(test)]
mod tests {
    use super::*;
    use crate::planner;
    use crate::calls::{Calls, Simple};
    use crate::log::Log;
    use crate::prices::{BUILT_IN, HIGHEST, UNSOLD};
    use crate::random::{random_header, random_requests, random_table, Random};

    const ID: [u8; 16] = *b"0123456789abcdef";

    fn header(class: u8, server_count: u8, home: u8) -> Header {
        Header { class, server_count, home, id: ID }
    }

    #[test]
    fn state_and_history_agree_and_stay_within_three_times_the_least() {
        let mut random = Random::new(6);
        for _ in 0..3_000 {
            let table = random_table(&mut random);
            let header = random_header(&mut random, &table);
            let prices = table.of(header.class);
            let count = random.below(25) as usize;
            let mut requests = random_requests(&mut random, prices, &header, count);
            requests.retain(|request| request.second <= 20_000);
            let mut cache = start_for_log(&table, &header).unwrap();
            let mut marks = vec![];
            for request in &requests {
                let (next, served) = cache.scan(header.id, request.second, request.server);
                assert!(!next.is_unsound());
                marks.push(served.unwrap().mark());
                cache = next;
            }
            let history = history(prices, header.home, &requests);
            let closing = cache.close().1.unwrap();
            assert_eq!(closing, history.closing_cost(prices), "{prices:?} {header:?} {requests:?}");
            let state = History { marks, transfers: cache.transfers, held: cache.held, standing: cache.holders, left: history.left };
            assert_eq!(state, history, "{prices:?} {header:?} {requests:?}");
            let least = planner::plan(prices, None, &Log { header, requests }).cost;
            let running = cache.running().unwrap();
            assert!(least <= running && running <= 3 * least);
            assert!(running <= closing && closing <= 3 * least + prices.transfer as u64);
        }
    }

    #[test]
    fn refusals() {
        let start = |class, server_count, home| Simple::start(None, &header(class, server_count, home));
        let (cache, _) = start(0, 2, 0);
        assert_eq!(start(8, 2, 0), (ZEROS, refuse(3, 0)));
        assert_eq!(start(7, 2, 0), (ZEROS, refuse(43, 0)));
        assert_eq!(start(7, 0, 9), (ZEROS, refuse(43, 0)));
        assert_eq!(start(0, 0, 0), (ZEROS, refuse(4, 0)));
        assert_eq!(start(0, 65, 0), (ZEROS, refuse(4, 0)));
        assert_eq!(start(0, 2, 2), (ZEROS, refuse(5, 0)));
        assert_eq!(cache.scan(ID, 1, 2), (cache, refuse(11, 0)));
        assert_eq!(cache.scan(ID, 0, 1), (cache, refuse(12, 0)));
        assert_eq!(cache.scan(ID, LAST_SECOND + 1, 1), (cache, refuse(12, 0)));
        assert_eq!(ZEROS.scan(ID, 1, 0), (ZEROS, refuse(11, 0)));
        assert_eq!(ZEROS.scan(ZEROS.id, 1, 0), (ZEROS, refuse(11, 0)));
        assert_eq!(ZEROS.close(), (ZEROS, refuse(32, 0)));
        assert_eq!(ZEROS.running(), refuse(32, 0));
        let (closed, cost) = cache.close();
        assert_eq!((closed, cost), (Cache { closed: true, ..cache }, Ok(10)));
        assert_eq!(closed.scan(ID, 1, 1), (closed, refuse(33, 0)));
        assert_eq!(closed.close(), (closed, refuse(33, 0)));
        assert_eq!(closed.running(), Ok(0));
        let full = Cache { requests: 2048, ..cache };
        assert_eq!(full.scan(ID, 1, 1), (full, refuse(34, 0)));
        assert!(full.close().1.is_ok());
        let (later, _) = cache.scan(ID, 5, 1);
        assert_eq!(later.scan(ID, 5, 0), (later, refuse(35, 0)));
        let wrong = Cache { server_count: 200, ..cache };
        assert_eq!(wrong.scan(ID, 1, 100), (wrong, refuse(32, 0)));
    }

    /// 39 comes before 34 and 35, and after all others.
    #[test]
    fn refusals_of_another_id() {
        let (fresh, _) = Simple::start(None, &header(0, 2, 0));
        let (later, _) = fresh.scan(ID, 5, 1);
        assert_eq!((fresh.id, later.id), (ID, ID));
        let full = Cache { requests: 2048, ..later };
        let (closed, _) = later.close();
        assert_eq!(closed.id, ID);
        let wrong = Cache { held: MOST_HELD + 1, ..later };
        let scans = [
            (fresh, 6, 0, 39),
            (later, 6, 0, 39),
            (later, 5, 0, 39),
            (later, 4, 1, 39),
            (full, 6, 0, 39),
            (full, 5, 0, 39),
            (closed, 6, 0, 33),
            (Cache { closed: true, ..full }, 6, 0, 33),
            (wrong, 6, 0, 32),
            (Cache { closed: true, ..wrong }, 6, 0, 32),
            (later, 0, 0, 12),
            (later, LAST_SECOND + 1, 0, 12),
            (later, 6, 2, 11),
            (wrong, 0, 2, 11),
        ];
        for (state, second, server, number) in scans {
            for other in [*b"0123456789abcdeg", *b"1123456789abcdef", [0; 16]] {
                assert_eq!(state.scan(other, second, server), (state, refuse(number, 0)), "{state:?} {second} {server}");
            }
        }
    }

    /// They differ in 43 alone.
    #[test]
    fn both_starts() {
        let table = Table::built_in();
        for (class, server_count, home) in [(0, 2, 1), (6, 2, 1), (8, 2, 1), (8, 0, 0), (6, 0, 0), (6, 65, 0), (6, 2, 2)] {
            let header = header(class, server_count, home);
            assert_eq!(start_for_log(&table, &header), start(&table, &header));
        }
        let sold = Table::of_pairs(&BUILT_IN);
        for (server_count, home) in [(2, 1), (0, 0), (65, 0), (2, 2)] {
            let header = header(UNSOLD, server_count, home);
            assert_eq!(start_for_log(&table, &header), start(&sold, &header));
            assert_eq!(start(&table, &header), refuse(43, 0));
        }
        assert_eq!(start(&sold, &header(UNSOLD, 2, 1)).map(|cache| cache.id), Ok(ID));
    }

    #[test]
    fn each_condition_of_32() {
        let (cache, _) = Cache::fresh(Prices { hold: 1, transfer: 10 }, &header(0, 3, 0)).scan(ID, 5, 1);
        assert!(!cache.is_unsound());
        let with_use = |server: usize, second: u32| {
            let mut changed = cache;
            changed.last_use[server] = second;
            changed
        };
        let unsound = [
            Cache { prices: Prices { hold: 0, transfer: 10 }, ..cache },
            Cache { prices: Prices { hold: 1, transfer: 0 }, ..cache },
            Cache { prices: Prices { hold: HIGHEST + 1, transfer: 10 }, ..cache },
            Cache { prices: Prices { hold: 1, transfer: HIGHEST + 1 }, ..cache },
            Cache { prices: Prices { hold: 6, transfer: 25 }, ..with_use(0, 0) },
            Cache { server_count: 0, ..cache },
            Cache { server_count: 65, ..cache },
            Cache { second: LAST_SECOND + 1, ..cache },
            Cache { last: 3, ..cache },
            Cache { last: 2, ..cache },
            Cache { holders: cache.holders | 8, ..cache },
            with_use(0, 6),
            with_use(1, 4),
            with_use(2, 1),
            with_use(63, 1),
            Cache { second: 16, ..with_use(1, 16) },
            Cache { requests: 2049, ..cache },
            Cache { transfers: 2, ..cache },
            Cache { held: MOST_HELD + 1, ..cache },
        ];
        for state in unsound {
            assert!(state.is_unsound(), "{state:?}");
        }
        let sound = [
            Cache { prices: Prices { hold: HIGHEST, transfer: 1 }, ..cache },
            Cache { prices: Prices { hold: 1, transfer: HIGHEST }, ..cache },
            Cache { prices: Prices { hold: 5, transfer: 25 }, ..with_use(0, 0) },
            Cache { id: [0; 16], ..cache },
            Cache { id: [0xff; 16], ..cache },
            Cache { second: 15, ..with_use(1, 15) },
            Cache { requests: 2048, ..cache },
            Cache { held: MOST_HELD, ..cache },
        ];
        for state in sound {
            assert!(!state.is_unsound(), "{state:?}");
        }
    }
}
