//! The online cache, call by call and over lists of calls.

use super::log::round_trip;
use super::Met;
use crate::calls::{Calls, Simple};
use crate::log::{Header, Log, Request, LAST_SECOND, MOST_REQUESTS};
use crate::online::{history, Cache, Served, MOST_HELD, ZEROS};
use crate::planner::Mark;
use crate::prices::{each_class, encode, PriceFile, Prices, Table, BUILT_IN, EDGES, HIGHEST};
use crate::random::{another_id, random_gap, random_header, random_id, random_pair, random_table, Random};
use crate::{refuse, Refusal};

#[derive(Clone, Copy, Debug)]
pub(super) enum Call {
    /// of an id, at a second and a server
    Scan([u8; 16], u32, u16),
    Close,
}

impl Call {
    /// Whether it is of a file: a close is of any.
    fn is_of(self, file: [u8; 16]) -> bool {
        match self {
            Call::Scan(id, ..) => id == file,
            Call::Close => true,
        }
    }
}

/// What a call gave that was not refused.
#[derive(Debug, PartialEq, Eq)]
pub(super) enum Given {
    Scanned(Served),
    Closed(u64),
}

/// One call on a state, and its running cost, by both; what the call gave, and the state given back, whose id is the same.
pub(super) fn call<C: Calls>(cache: &Cache, call: Call, met: &mut Met) -> (Cache, Result<Given, Refusal>) {
    assert_eq!(C::running(cache), Simple::running(cache), "{cache:?}");
    let (next, given) = match call {
        Call::Scan(id, second, server) => {
            let a = Simple::scan(cache, id, second, server);
            assert_eq!(C::scan(cache, id, second, server), a, "{cache:?} {call:?}");
            (a.0, a.1.map(Given::Scanned))
        }
        Call::Close => {
            let a = Simple::close(cache);
            assert_eq!(C::close(cache), a, "{cache:?} {call:?}");
            (a.0, a.1.map(Given::Closed))
        }
    };
    assert_eq!(next.id, cache.id, "{cache:?} {call:?}");
    met.count(&given);
    (next, given)
}

/// A start by both. The state's id is the header's, or zeros if refused.
pub(super) fn start<C: Calls>(prices: PriceFile, header: &Header) -> Result<(), Refusal> {
    let (cache, outcome) = C::start(prices, header);
    assert_eq!((cache, outcome), Simple::start(prices, header), "{prices:?} {header:?}");
    assert_eq!(cache.id, if outcome.is_ok() { header.id } else { [0; 16] }, "{prices:?} {header:?}");
    outcome
}

/// Starts of every class, count and home about their bounds, with tables of several lengths, each with an id of its own.
pub fn starts<C: Calls>() {
    let mut random = Random::new(302);
    let of_length = |classes| Table::of_pairs(&vec![(3, 70); classes]);
    let of_eight = [Table::built_in(), Table::of_pairs(&BUILT_IN), Table::of_pairs(&EDGES)];
    for table in of_eight.into_iter().chain([1, 255, 256].map(of_length)) {
        let mut met = Met::default();
        for class in (0..12).chain([128, 254, 255]) {
            for server_count in 0..=255u8 {
                for home in (0..4).chain([62, 63, 64, 65, 254, 255]).chain([server_count.saturating_sub(1), server_count]) {
                    let header = Header { class, server_count, home, id: random_id(&mut random) };
                    met.count(&start::<C>(table.file(), &header));
                }
            }
        }
        // every class is below 256; 43 is of the built-in table alone
        let all: &[u8] = match (table.file(), table.classes()) {
            (None, _) => &[0, 3, 4, 5, 43],
            (_, 256) => &[0, 4, 5],
            _ => &[0, 3, 4, 5],
        };
        met.exactly(all, 100);
    }
}

/// A cache as a start gives it. The class that is no longer sold is refused, and started with its table as a price file.
pub(super) fn started<C: Calls>(table: &Table, header: &Header) -> Cache {
    let mut answer = C::start(table.file(), header);
    if table.unsold() == Some(header.class) {
        assert_eq!(answer, (ZEROS, refuse(43, 0)));
        answer = C::start(Some(&encode(&BUILT_IN)), header);
    }
    assert_eq!(answer, (Cache::fresh(table.of(header.class), header), Ok(())));
    answer.0
}

/// What 01 and 02 say of a call in a list from the start and the calls before it alone: its refusal, if any.
fn expected(header: &Header, taken: &[Request], closed: bool, call: Call) -> Option<u8> {
    if let Call::Scan(_, second, server) = call {
        if server >= header.server_count as u16 {
            return Some(11);
        }
        if second == 0 || second > LAST_SECOND {
            return Some(12);
        }
    }
    if closed {
        return Some(33);
    }
    match call {
        Call::Scan(id, ..) if id != header.id => Some(39),
        Call::Scan(..) if taken.len() == MOST_REQUESTS => Some(34),
        Call::Scan(_, second, _) if taken.last().map_or(false, |request| second <= request.second) => Some(35),
        _ => None,
    }
}

/// A list of calls in progress: the state last given back, and what the list alone says.
struct Run<'a> {
    table: &'a Table,
    header: Header,
    cache: Cache,
    calls: Vec<Call>,
    taken: Vec<Request>,
    marks: Vec<Mark>,
    /// the closing cost that a close gave
    closing: Option<u64>,
}

impl Run<'_> {
    fn start<C: Calls>(table: &Table, header: Header) -> Run<'_> {
        let cache = started::<C>(table, &header);
        Run { table, header, cache, calls: vec![], taken: vec![], marks: vec![], closing: None }
    }

    fn step<C: Calls>(&mut self, next: Call, met: &mut Met) {
        let (cache, outcome) = call::<C>(&self.cache, next, met);
        let refusal = expected(&self.header, &self.taken, self.closing.is_some(), next);
        let refused = outcome.as_ref().err();
        assert_eq!(refused.map(|refusal| (refusal.number, refusal.place)), refusal.map(|number| (number, 0)), "{next:?}");
        match (next, outcome) {
            (Call::Scan(id, second, server), Ok(Given::Scanned(served))) => {
                assert_eq!(id, self.header.id, "{next:?}");
                self.taken.push(Request { second, server });
                self.marks.push(served.mark());
            }
            (Call::Close, Ok(Given::Closed(cost))) => self.closing = Some(cost),
            _ => assert_eq!(cache, self.cache),
        }
        assert_eq!(cache.id, self.header.id, "{next:?}");
        self.calls.push(next);
        self.cache = cache;
    }

    /// Whether a scan of another file is in the list.
    fn is_mixed(&self) -> bool {
        self.calls.iter().any(|call| !call.is_of(self.header.id))
    }

    /// The list without the scans of other files: it takes the same requests in the same way and leads to the same state.
    fn without_others<C: Calls>(&self) {
        let mut own = Run::start::<C>(self.table, self.header);
        for &next in self.calls.iter().filter(|call| call.is_of(self.header.id)) {
            own.step::<C>(next, &mut Met::default());
        }
        let Run { cache, taken, marks, closing, .. } = own;
        assert_eq!((cache, &taken, &marks, closing), (self.cache, &self.taken, &self.marks, self.closing), "{:?}", self.calls);
    }

    /// Demand 3 at the end of a list: counts as the rules give them, and the running cost between least and three times it. The closing
    /// cost, of the close in the list or of one after it, is between the running cost and three times the least and one transfer.
    fn end<C: Calls>(&self) {
        if self.is_mixed() {
            self.without_others::<C>();
        }
        let prices = self.table.of(self.header.class);
        assert_eq!(self.cache.prices, prices);
        let closing = self.closing.unwrap_or_else(|| C::close(&self.cache).1.unwrap());
        assert_eq!(self.cache.requests as usize, self.taken.len());
        if self.taken.last().map_or(0, |request| request.second) <= 3_000 {
            let history = history(prices, self.header.home, &self.taken);
            assert_eq!((self.cache.transfers, self.cache.held, self.cache.holders), (history.transfers, history.held, history.standing));
            assert_eq!(self.marks, history.marks);
            assert_eq!(closing, history.closing_cost(prices));
        }
        let log = Log { header: self.header, requests: self.taken.clone() };
        let _ = round_trip::<C>(self.table, &log);
        let mut costs = vec![0; self.taken.len() + 1];
        C::least(self.table.file(), None, &log.bytes(), &mut costs).unwrap();
        let (least, running) = (costs[self.taken.len()], C::running(&self.cache).unwrap());
        assert!(least <= running && running <= 3 * least, "{prices:?} {log:?} {least} {running}");
        let most = 3 * least + prices.transfer as u64;
        assert!(running <= closing && closing <= most, "{prices:?} {log:?} {least} {running} {closing}");
    }
}

/// The requests of a log and a close, and their marks.
pub(super) fn served<C: Calls>(table: &Table, log: &Log, met: &mut Met) -> Vec<Mark> {
    let mut run = Run::start::<C>(table, log.header);
    for request in &log.requests {
        run.step::<C>(Call::Scan(log.header.id, request.second, request.server), met);
    }
    run.step::<C>(Call::Close, met);
    run.end::<C>();
    run.marks
}

/// All lists of a few calls, taken and refused: scans at up to three servers and one past them, after a gap of 0, 1, the window and
/// one more, of the start's id and of another, and closes.
pub fn every_small_list<C: Calls>(most: usize) {
    let mut random = Random::new(303);
    let mut met = Met::default();
    for (table, class) in each_class() {
        let window = table.of(class).window() as u32;
        let mut gaps = vec![0, 1, window.max(1), window + 1];
        gaps.dedup();
        for server_count in 1..=3 {
            let header = Header { class, server_count, home: server_count / 2, id: random_id(&mut random) };
            let other = another_id(&mut random, header.id);
            every_list::<C>(&started::<C>(&table, &header), other, &gaps, most, &mut met);
        }
    }
    met.exactly(&[0, 11, 12, 33, 35, 39], 10);
}

fn every_list<C: Calls>(cache: &Cache, other: [u8; 16], gaps: &[u32], left: usize, met: &mut Met) {
    if left == 0 {
        return;
    }
    let (next, _) = call::<C>(cache, Call::Close, met);
    every_list::<C>(&next, other, gaps, left - 1, met);
    for id in [cache.id, other] {
        for gap in gaps {
            for server in 0..=cache.server_count as u16 {
                let (next, _) = call::<C>(cache, Call::Scan(id, cache.second + gap, server), met);
                assert!(id == cache.id || next == *cache, "{cache:?} {next:?}");
                every_list::<C>(&next, other, gaps, left - 1, met);
            }
        }
    }
}

/// An id, or once in so many times another.
fn own_or_another(random: &mut Random, id: [u8; 16], times: u64) -> [u8; 16] {
    if random.once_in(times) {
        another_id(random, id)
    } else {
        id
    }
}

fn random_call(random: &mut Random, run: &Run, ends: u64) -> Call {
    let count = run.header.server_count as u64;
    let server = if random.once_in(4) { run.cache.last } else { random.below(count) as u16 };
    let later = run.cache.second + random_gap(random, run.cache.prices, LAST_SECOND);
    let id = own_or_another(random, run.header.id, 10);
    match random.below(30) {
        0 => Call::Scan(id, later, random.one_of(&[count as u16, count as u16 + 1, 64, 256, 0xffff])),
        1 => Call::Scan(id, random.one_of(&[0, LAST_SECOND + 1, u32::MAX]), server),
        2 => Call::Scan(id, run.cache.second - random.below(run.cache.second as u64 + 1) as u32, server),
        3 => Call::Scan(id, random.number(), random.word() as u16),
        4 if random.once_in(ends) => Call::Close,
        _ => Call::Scan(id, later, server),
    }
}

pub fn random_lists<C: Calls>(seed: u64, times: usize) {
    let mut random = Random::new(seed);
    let mut met = Met::default();
    let (mut without_window, mut at_bounds, mut unsold, mut mixed) = (0, 0, 0, 0);
    for _ in 0..times {
        let table = random_table(&mut random);
        let mut run = Run::start::<C>(&table, random_header(&mut random, &table));
        let Prices { hold, transfer } = run.cache.prices;
        unsold += usize::from(table.unsold() == Some(run.header.class));
        without_window += usize::from(hold > transfer);
        at_bounds += usize::from([1, HIGHEST].contains(&hold) && [1, HIGHEST].contains(&transfer));
        let length = random.one_of(&[0, 5, 20, 60, 120]);
        let ends = random.one_of(&[1, 1, 5, 1_000]);
        for _ in 0..random.between(0, length) {
            let next = random_call(&mut random, &run, ends);
            run.step::<C>(next, &mut met);
        }
        mixed += usize::from(run.is_mixed());
        run.end::<C>();
    }
    met.exactly(&[0, 11, 12, 33, 35, 39], times as u64 / 10);
    let often = without_window > times / 10 && at_bounds > times / 100 && unsold > times / 30 && mixed > times / 3;
    assert!(often, "{without_window} {at_bounds} {unsold} {mixed}");
}

/// A state that passes 32, whether or not calls lead to it.
fn sound(random: &mut Random) -> Cache {
    let table = random_table(random);
    let header = random_header(random, &table);
    let prices = table.of(header.class);
    let window = prices.window();
    let second = random.one_of(&[0, 1, 5, 40, 1_000, 3_999_999, LAST_SECOND]);
    let last = random.below(header.server_count as u64) as u16;
    let mut holders = random.word() & random.word() & (u64::MAX >> (64 - header.server_count as u32));
    holders |= 1 << last;
    let mut last_use = [0; 64];
    for server in (0..64).filter(|&server| holders >> server & 1 == 1) {
        let age = match random.below(4) {
            0 => window,
            1 => 0,
            _ => random.between(0, window),
        };
        last_use[server] = second - age.min(second as u64) as u32;
    }
    last_use[last as usize] = second;
    let requests = random.one_of(&[0, 1, 2, 100, 2_047, 2_048]);
    Cache {
        prices,
        id: header.id,
        server_count: header.server_count,
        last,
        second,
        last_use,
        holders,
        requests,
        transfers: random.between(0, requests as u64) as u32,
        held: random.one_of(&[0, 1, 77, 1_000_000, MOST_HELD - 1, MOST_HELD]),
        closed: random.once_in(6),
    }
}

/// A price about a bound, or any number.
fn random_price(random: &mut Random) -> u32 {
    let any = random.word() as u32;
    random.one_of(&[0, 0, 1, HIGHEST, HIGHEST + 1, HIGHEST + 1, u32::MAX, any])
}

/// One field changed: to a value about its bound, or to any.
fn spoil(random: &mut Random, cache: &mut Cache) {
    let server = random.below(64) as usize;
    match random.below(16) {
        0 => cache.prices.hold = random_price(random),
        13 => cache.prices.transfer = random_price(random),
        14 => (cache.prices.hold, cache.prices.transfer) = random_pair(random),
        1 => cache.server_count = random.one_of(&[0, 1, 64, 65, 200, 255]),
        2 => cache.last = random.one_of(&[0, 1, 63, 64, 65, 256, 0xffff, cache.server_count as u16]),
        3 => cache.second = cache.second.wrapping_add(random.one_of(&[1, 2, u32::MAX])),
        4 => cache.second = random.number(),
        5 => cache.last_use[server] = random.number(),
        6 => cache.last_use[server] = random.one_of(&[cache.second, cache.second.wrapping_add(1)]),
        7 if cache.last < 64 => cache.last_use[cache.last as usize] = cache.second.wrapping_sub(1),
        8 => cache.holders ^= 1 << server,
        9 => cache.holders = random.word(),
        10 => cache.requests = random.one_of(&[2_048, 2_049, u32::MAX, 0]),
        11 => cache.transfers = random.one_of(&[cache.requests, cache.requests.wrapping_add(1), u32::MAX]),
        12 => cache.held = random.one_of(&[MOST_HELD, MOST_HELD + 1, u32::MAX]),
        _ if cache.prices.in_range() => {
            // a copy at its last second, or one second past it
            let age = cache.prices.window() as u32 + random.below(2) as u32;
            if cache.holders >> server & 1 == 1 && age <= cache.second {
                cache.last_use[server] = cache.second - age;
            }
        }
        _ => {}
    }
}

/// Calls on states that nobody gave back, most of them with one field wrong; scans of the state's id, and of others.
pub fn made_up_states<C: Calls>(seed: u64, times: usize) {
    let mut random = Random::new(seed);
    let mut met = Met::default();
    for _ in 0..times {
        let mut cache = sound(&mut random);
        for _ in 0..random.one_of(&[0, 1, 1, 1, 2, 4]) {
            spoil(&mut random, &mut cache);
        }
        let second = match random.below(5) {
            0 => random.number(),
            1 => cache.second,
            _ => cache.second.saturating_add(random.between(1, 2_000) as u32).min(LAST_SECOND),
        };
        let any = random.below(66) as u16;
        let server = random.one_of(&[cache.last, 0, 1, 63, any]);
        let id = own_or_another(&mut random, cache.id, 5);
        let _ = call::<C>(&cache, Call::Scan(id, second, server), &mut met);
        let _ = call::<C>(&cache, Call::Close, &mut met);
    }
    met.exactly(&[0, 11, 12, 32, 33, 34, 35, 39], times as u64 / 100);
}

/// 32 for each pair of prices about the bounds, of a state whose copies were all used in its last second, so that no window matters.
pub fn price_bounds<C: Calls>() {
    let mut met = Met::default();
    let prices = [0, 1, 2, HIGHEST - 1, HIGHEST, HIGHEST + 1, 1 << 31, u32::MAX];
    for (hold, transfer) in prices.into_iter().flat_map(|hold| prices.map(|transfer| (hold, transfer))) {
        let fresh = Cache::fresh(Prices { hold, transfer }, &Header { class: 0, server_count: 3, home: 2, id: [5; 16] });
        let mut later = Cache { second: 50, holders: 5, requests: 9, transfers: 4, held: 70, ..fresh };
        (later.last_use[0], later.last_use[2]) = (50, 50);
        for cache in [fresh, later] {
            let sound = (1..=HIGHEST).contains(&hold) && (1..=HIGHEST).contains(&transfer);
            for next in [Call::Scan(cache.id, 51, 0), Call::Scan(cache.id, 51, 1), Call::Close] {
                let (_, outcome) = call::<C>(&cache, next, &mut met);
                assert_eq!(outcome.err(), refuse::<()>(32, 0).err().filter(|_| !sound), "{cache:?}");
            }
            assert_eq!(C::running(&cache).is_ok(), sound, "{cache:?}");
        }
    }
    met.exactly(&[0, 32], 90);
}

/// Lists of 2,048 requests taken, with scans of other files among them and more calls after them; two with as many held seconds as can be.
pub fn full<C: Calls>(seed: u64) {
    let mut random = Random::new(seed);
    let mut met = Met::default();
    let (built_in, own) = (Table::built_in(), Table::of_pairs(&[(HIGHEST, HIGHEST), (HIGHEST, 1), (7, HIGHEST)]));
    let ordinary = [(0, 64), (7, 64), (6, 3), (4, 8), (5, 1)].map(|(class, server_count)| (&built_in, class, server_count));
    let dear = [(0, 64), (1, 64), (2, 64)].map(|(class, server_count)| (&own, class, server_count));
    for (table, class, server_count) in ordinary.into_iter().chain(dear) {
        let id = random_id(&mut random);
        let mut run = Run::start::<C>(table, Header { class, server_count, home: 0, id });
        while run.taken.len() < MOST_REQUESTS {
            let gap = random_gap(&mut random, run.cache.prices, 1_900);
            let server = random.below(server_count as u64) as u16;
            let scanned = own_or_another(&mut random, id, 30);
            run.step::<C>(Call::Scan(scanned, run.cache.second + gap, server), &mut met);
        }
        let last = run.cache.second;
        let scans = |id| [(last + 1, 0), (last, 0), (1, 0), (1, 64), (0, 0)].map(|(second, server)| Call::Scan(id, second, server));
        let more = [scans(id), scans(another_id(&mut random, id))].concat();
        for next in [&more[..], &[Call::Close, Call::Close], &more[..]].concat() {
            run.step::<C>(next, &mut met);
        }
        run.end::<C>();
    }
    for (table, class) in [(&built_in, 7), (&own, 2)] {
        let id = random_id(&mut random);
        let mut run = Run::start::<C>(table, Header { class, server_count: 64, home: 0, id });
        for server in 1..64 {
            run.step::<C>(Call::Scan(id, server as u32, server), &mut met);
        }
        while run.taken.len() < MOST_REQUESTS - 1 {
            let next = run.cache.second + 2_000;
            let oldest = (0..64).min_by_key(|&server| run.cache.last_use[server]).unwrap() as u16;
            run.step::<C>(Call::Scan(id, next, oldest), &mut met);
        }
        run.step::<C>(Call::Scan(id, LAST_SECOND, 0), &mut met);
        assert!(run.cache.held > 200_000_000);
        run.end::<C>();
    }
    met.exactly(&[0, 11, 12, 33, 34, 39], 24);
}

/// Closes of the states with the largest closing costs: 64 copies with a whole window left, all seconds held and transfers that 32 lets pass. No
/// copy costs more than a transfer, so none is dearer than what 256,000,000 seconds and 2,112 transfers cost; where no rest is left, that is reached.
pub fn dearest<C: Calls>() {
    let mut met = Met::default();
    let mut costs = vec![];
    for (table, class) in each_class() {
        let prices = table.of(class);
        let second = LAST_SECOND;
        let most = Cache {
            prices,
            id: [0xff; 16],
            server_count: 64,
            last: 63,
            second,
            last_use: [second; 64],
            holders: u64::MAX,
            requests: 2_048,
            transfers: 2_048,
            held: MOST_HELD,
            closed: false,
        };
        let (_, closed) = call::<C>(&most, Call::Close, &mut met);
        let Ok(Given::Closed(cost)) = closed else { panic!("{prices:?}") };
        let bound = prices.cost(256_000_000, 2_112);
        assert!(cost <= bound);
        assert_eq!(cost == bound, prices.transfer % prices.hold == 0);
        costs.push(cost);
        let _ = call::<C>(&Cache { held: MOST_HELD + 1, ..most }, Call::Close, &mut met);
    }
    assert_eq!(
        costs[..8],
        [256_021_120, 256_052_800, 512_052_736, 768_063_360, 768_211_136, 1_281_267_200, 1_792_010_240, 2_368_000_000]
    );
    assert_eq!(costs.iter().max(), Some(&256_002_112_000_000));
    met.exactly(&[0, 32], 16);
}

/// A copy at each age up to a window, of a long window about its bounds: what is left of it, beside the last server's whole window.
pub fn each_age<C: Calls>() {
    for (table, class) in each_class() {
        let prices = table.of(class);
        let window = prices.window();
        let ages: Vec<u64> = if window > 1_000 { vec![0, 1, window - 1, window] } else { (0..=window).collect() };
        for age in ages {
            let header = Header { class, server_count: 2, home: 0, id: [5; 16] };
            let mut cache = Cache { last: 1, second: LAST_SECOND, holders: 3, ..started::<C>(&table, &header) };
            cache.last_use[0] = LAST_SECOND - age as u32;
            cache.last_use[1] = LAST_SECOND;
            assert_eq!(C::close(&cache).1, Ok(prices.cost(window - age + window, 0)), "{prices:?} {age}");
            cache.last_use[0] = LAST_SECOND - window as u32 - 1;
            assert_eq!(C::close(&cache), (cache, refuse(32, 0)), "{prices:?}");
        }
    }
}
