//! Seeded random inputs, valid and damaged.

use crate::log::{sum, Header, Log, Request, LAST_SECOND, MOST_REQUESTS};
use crate::prices::{encode, Prices, Table, Upload, HIGHEST, MOST_CLASSES};
use crate::week::{DAY, WEEK};

/// The generator of Steele, Lea and Flood, "Fast splittable pseudorandom number generators" (SplitMix64).
pub struct Random {
    state: u64,
}

impl Random {
    pub fn new(seed: u64) -> Random {
        Random { state: seed }
    }

    pub fn word(&mut self) -> u64 {
        self.state = self.state.wrapping_add(0x9e37_79b9_7f4a_7c15);
        let a = (self.state ^ (self.state >> 30)).wrapping_mul(0xbf58_476d_1ce4_e5b9);
        let b = (a ^ (a >> 27)).wrapping_mul(0x94d0_49bb_1331_11eb);
        b ^ (b >> 31)
    }

    /// A number from 0 to `end - 1`.
    pub fn below(&mut self, end: u64) -> u64 {
        self.word() % end
    }

    /// A number from `low` to `high`, both included.
    pub fn between(&mut self, low: u64, high: u64) -> u64 {
        low + self.below(high - low + 1)
    }

    /// True once in `times`.
    pub fn once_in(&mut self, times: u64) -> bool {
        self.below(times) == 0
    }

    pub fn one_of<T: Copy>(&mut self, list: &[T]) -> T {
        list[self.below(list.len() as u64) as usize]
    }

    pub fn bytes(&mut self, length: usize) -> Vec<u8> {
        (0..length).map(|_| self.word() as u8).collect()
    }

    /// A 32-bit number: small, near a bound of the format, or any.
    pub fn number(&mut self) -> u32 {
        match self.below(6) {
            0 => self.below(4) as u32,
            1 => self.below(70) as u32,
            2 => self.between(LAST_SECOND as u64 - 2, LAST_SECOND as u64 + 2) as u32,
            3 => self.word() as u32,
            4 => u32::MAX - self.below(3) as u32,
            _ => self.below(100) as u32,
        }
    }
}

/// Hold and transfer price: with a short window, with none, about the bounds, or any.
pub fn random_pair(random: &mut Random) -> (u32, u32) {
    let (hold, transfer) = match random.below(8) {
        0 | 1 => {
            let hold = random.between(1, 9);
            (hold, hold * random.between(1, 40) + random.below(hold))
        }
        2 => {
            let transfer = random.between(1, 30);
            (transfer + random.between(1, 30), transfer)
        }
        3 => (random.one_of(&[1, 2, HIGHEST as u64 - 1, HIGHEST as u64]), random.one_of(&[1, 2, HIGHEST as u64 - 1, HIGHEST as u64])),
        4 => (random.between(1, HIGHEST as u64), random.between(1, HIGHEST as u64)),
        5 => (random.between(HIGHEST as u64 / 40, HIGHEST as u64), HIGHEST as u64),
        _ => (random.between(1, 50), random.between(1, 3_000)),
    };
    (hold as u32, transfer as u32)
}

/// Prices for 1 to 256 classes.
fn random_pairs(random: &mut Random) -> Vec<(u32, u32)> {
    let count = match random.below(12) {
        0 => MOST_CLASSES as u64,
        1 => random.between(1, MOST_CLASSES as u64),
        2 | 3 => 1,
        _ => random.between(1, 12),
    };
    (0..count).map(|_| random_pair(random)).collect()
}

/// A table of a price file.
pub fn random_prices(random: &mut Random) -> Table {
    Table::of_pairs(&random_pairs(random))
}

/// The built-in table, or one of a price file.
pub fn random_table(random: &mut Random) -> Table {
    if random.once_in(2) {
        return Table::built_in();
    }
    random_prices(random)
}

/// How an upload price, or none, is drawn for a log's prices.
pub type Uploads = fn(&mut Random, Prices) -> Upload;

pub fn no_upload(_: &mut Random, _: Prices) -> Upload {
    None
}

/// An upload price: about a transfer, about some seconds of holding, about both together, below a transfer, at a bound, or any.
pub fn random_upload(random: &mut Random, prices: Prices) -> Upload {
    let (transfer, held) = (prices.transfer as u64, prices.cost(random.between(1, 12), 0));
    let price = match random.below(8) {
        0 | 1 => transfer + random.between(0, 2) - 1,
        2 => held + random.between(0, 2) - 1,
        3 | 4 => transfer + held + random.between(0, 2) - 1,
        5 => random.between(1, transfer),
        6 => random.one_of(&[1, 2, HIGHEST as u64 - 1, HIGHEST as u64]),
        _ => random.between(1, HIGHEST as u64),
    };
    Some(price.clamp(1, HIGHEST as u64) as u32)
}

/// An upload price that is refused.
pub fn wrong_upload(random: &mut Random) -> Upload {
    Some(random.one_of(&[0, HIGHEST + 1, 2 * HIGHEST, 1 << 31, u32::MAX]))
}

/// A price file with something wrong in it, most often one thing.
pub fn damaged_prices(random: &mut Random) -> Vec<u8> {
    let mut pairs = random_pairs(random);
    let prices = random.one_of(&[0, 0, 0, 1, 1, 2]);
    for _ in 0..prices {
        let ends = [0, pairs.len() - 1, random.below(pairs.len() as u64) as usize];
        let pair = &mut pairs[random.one_of(&ends)];
        let price = if random.once_in(2) { &mut pair.0 } else { &mut pair.1 };
        *price = random.one_of(&[0, HIGHEST + 1, 2 * HIGHEST, u32::MAX]);
    }
    let mut file = encode(&pairs);
    if prices > 0 && !random.once_in(6) {
        return file;
    }
    match random.below(8) {
        0 => file.truncate(random.below(4) as usize),
        1 => file.truncate(random.below(file.len() as u64) as usize),
        2 => file.truncate(file.len() - random.one_of(&[1, 4, 8])),
        3 => {
            let length = random.one_of(&[1, 4, 8]);
            file.extend(random.bytes(length));
        }
        4 => put(&mut file, 2, &random.one_of(&[0u16, 3, 5, 12, 0x0104, 0x0400, 0xffff]).to_le_bytes()),
        5 => put(&mut file, 0, &random.one_of(&[0u16, 257, 0xffff]).to_le_bytes()),
        6 => {
            let shift = random.one_of(&[1u16, 2, 256, 0xffff]);
            put(&mut file, 0, &(pairs.len() as u16).wrapping_add(shift).to_le_bytes());
        }
        _ => file = encode(&vec![pairs[0]; random.one_of(&[0, MOST_CLASSES + 1, MOST_CLASSES + 2])]),
    }
    file
}

/// A gap between two requests of at most `most` seconds; short ones and those about one window most often.
pub fn random_gap(random: &mut Random, prices: Prices, most: u32) -> u32 {
    let window = prices.window();
    let gap = match random.below(8) {
        0 | 1 => random.between(1, 3),
        2 => random.between(window.max(2) - 1, window + 1),
        3 => random.between(1, 2 * window + 3),
        4 => random.between(1, window / 2 + 1),
        5 => 1,
        6 => random.between(1, window + 2),
        _ => random.between(1, 12),
    };
    gap.min(most as u64) as u32
}

/// The id of a file (01: pass id), any sixteen bytes.
pub fn random_id(random: &mut Random) -> [u8; 16] {
    random.bytes(16).try_into().unwrap()
}

/// An id with one of its 128 bits changed.
pub fn one_bit_off(id: [u8; 16], bit: usize) -> [u8; 16] {
    let mut other = id;
    other[bit / 8] ^= 1 << (bit % 8);
    other
}

/// The id of another file: one bit off, or any.
pub fn another_id(random: &mut Random, id: [u8; 16]) -> [u8; 16] {
    if random.once_in(2) {
        return one_bit_off(id, random.below(128) as usize);
    }
    random_id(random)
}

/// A header of one of a table's classes.
pub fn random_header(random: &mut Random, table: &Table) -> Header {
    let server_count = match random.below(8) {
        0 => 1,
        1 | 2 => 2,
        3 => 3,
        4 => random.between(1, 64) as u8,
        5 => 64,
        _ => random.between(2, 8) as u8,
    };
    Header {
        class: random.below(table.classes() as u64) as u8,
        server_count,
        home: random.below(server_count as u64) as u8,
        id: random_id(random),
    }
}

/// A next server: any, the one just before, or one of a few.
fn random_server(random: &mut Random, header: &Header, before: u16, few: u64) -> u16 {
    match random.below(6) {
        0 => before,
        1 => header.home as u16,
        2 | 3 => random.below(few) as u16,
        _ => random.below(header.server_count as u64) as u16,
    }
}

/// Requests that fit a header, as many as asked for, with gaps that fit its prices.
pub fn random_requests(random: &mut Random, prices: Prices, header: &Header, count: usize) -> Vec<Request> {
    let few = random.between(1, header.server_count as u64);
    let (mut second, mut server) = (0, header.home as u16);
    let mut requests = Vec::new();
    let room = LAST_SECOND / count.max(1) as u32;
    for _ in 0..count {
        second += random_gap(random, prices, room);
        server = random_server(random, header, server, few);
        requests.push(Request { second, server });
    }
    if count > 0 && random.once_in(40) {
        requests[count - 1].second = LAST_SECOND;
    }
    requests
}

/// A log that reading with a table accepts, with at most `most` requests.
pub fn random_log(random: &mut Random, table: &Table, most: usize) -> Log {
    let header = random_header(random, table);
    log_with(random, table, header, most)
}

/// The same, of a class.
pub fn random_log_of(random: &mut Random, table: &Table, class: u8, most: usize) -> Log {
    let header = Header { class, ..random_header(random, table) };
    log_with(random, table, header, most)
}

fn log_with(random: &mut Random, table: &Table, header: Header, most: usize) -> Log {
    let count = match random.below(12) {
        0 => 0,
        1 => 1,
        2 => most,
        _ => random.between(0, most as u64) as usize,
    };
    let requests = random_requests(random, table.of(header.class), &header, count);
    Log { header, requests }
}

/// Requests that fit a header of the built-in table and end within the week, at most as many as asked for: short gaps and those about a window, and a
/// few that end about a midnight or after a day or two.
pub fn requests_of_week(random: &mut Random, header: &Header, most: usize) -> Vec<Request> {
    let few = random.between(1, header.server_count as u64);
    let (mut second, mut server) = (0, header.home as u16);
    let mut requests = Vec::new();
    let (room, rare) = (WEEK / most.max(1) as u32, most.max(12) as u64);
    for _ in 0..most {
        let midnight = (second / DAY + 1) * DAY;
        let next = match random.below(rare) {
            0..=2 => (midnight - 1 + random.below(3) as u32).max(second + 1),
            3 | 4 => second + random.between(1, 2 * DAY as u64) as u32,
            _ => second + random_gap(random, Prices::of(header.class), room),
        };
        if next > WEEK {
            break;
        }
        second = next;
        server = random_server(random, header, server, few);
        requests.push(Request { second, server });
    }
    match requests.last_mut() {
        Some(last) if random.once_in(8) => last.second = WEEK,
        _ => {}
    }
    requests
}

/// A log of a class of the built-in table that ends within the week, with at most `most` requests.
pub fn random_week(random: &mut Random, class: u8, most: usize) -> Log {
    let header = Header { class, ..random_header(random, &Table::built_in()) };
    let count = if random.once_in(12) { most } else { random.between(0, most as u64) as usize };
    Log { header, requests: requests_of_week(random, &header, count) }
}

/// A log in a file with something wrong in it, most often one thing and with the sum made to fit.
pub fn damaged_log(random: &mut Random, table: &Table) -> Vec<u8> {
    let most = random.one_of(&[1, 3, 6, 12]);
    let log = random_log(random, table, most);
    let mut file = log.bytes();
    let times = random.one_of(&[1, 1, 1, 2, 3]);
    for _ in 0..times {
        damage(random, table, &mut file);
    }
    if file.len() >= 24 && !random.once_in(6) {
        let s = sum(&file);
        file[20..24].copy_from_slice(&s.to_le_bytes());
    }
    file
}

/// A log in a file as long as its header says, refused with a number from 10 to 13.
pub fn wrong_log(random: &mut Random, number: u8) -> Vec<u8> {
    let mut log = random_log(random, &Table::built_in(), 8);
    let first = usize::from(number == 13);
    while log.requests.len() <= first {
        log.requests.push(Request { second: log.last_second() + 1, server: 0 });
    }
    let at = random.between(first as u64, log.requests.len() as u64 - 1) as usize;
    match number {
        11 => log.requests[at].server = random.one_of(&[log.header.server_count as u16, 64, 256, 0xffff]),
        12 => log.requests[at].second = random.one_of(&[0, LAST_SECOND + 1, u32::MAX]),
        13 => log.requests[at].second = random.between(1, log.requests[at - 1].second as u64) as u32,
        _ => {}
    }
    let mut file = log.bytes();
    if number == 10 {
        let at = random.between(20, file.len() as u64 - 1) as usize;
        file[at] ^= 1 << random.below(8);
    }
    file
}

/// The logs of a season, end to end, at most so many with at most so many requests: most of them right, some as long as they say and refused, a few
/// once more or once more in three times the prices, and now and then one wrong in any way. The end may be missing.
pub fn random_season(random: &mut Random, logs: usize, requests: usize) -> Vec<u8> {
    let table = Table::built_in();
    let mut input = vec![];
    let mut taken: Vec<Log> = vec![];
    for _ in 0..random.between(0, logs as u64) {
        match random.below(40) {
            0 => input.extend(damaged_log(random, &table)),
            number @ 1..=8 => input.extend(wrong_log(random, 10 + (number % 4) as u8)),
            9..=14 if !taken.is_empty() => {
                let mut log = taken[random.below(taken.len() as u64) as usize].clone();
                // class 3 has three times the prices of class 0
                if log.header.class % 3 == 0 && log.header.class < 6 {
                    log.header.class = 3 - log.header.class;
                }
                input.extend(log.bytes());
            }
            _ => {
                taken.push(random_log(random, &table, requests));
                input.extend(taken[taken.len() - 1].bytes());
            }
        }
    }
    if random.once_in(4) {
        input.truncate(input.len().saturating_sub(random.between(1, 60) as usize));
    }
    input
}

fn put(file: &mut [u8], at: usize, bytes: &[u8]) {
    if at + bytes.len() <= file.len() {
        file[at..at + bytes.len()].copy_from_slice(bytes);
    }
}

fn damage(random: &mut Random, table: &Table, file: &mut Vec<u8>) {
    let requests = file.len().saturating_sub(40) / 6;
    let request = 40 + 6 * random.below(requests.max(1) as u64) as usize;
    match random.below(16) {
        0 => file.truncate(random.below(file.len() as u64 + 1) as usize),
        1 => file.truncate(file.len().saturating_sub(random.between(1, 7) as usize)),
        2 => {
            let length = random.between(1, 8) as usize;
            file.extend(random.bytes(length));
        }
        3 => put(file, 0, &random.one_of(&[0u16, 2, 256, 257, 0xffff]).to_le_bytes()),
        4 => {
            let class = random.one_of(&[table.classes() as u8, table.classes() as u8, 128, 255]);
            put(file, 2, &[class]);
        }
        5 => {
            let count = random.one_of(&[0, 65, 66, 255]);
            put(file, 3, &[count]);
        }
        6 => {
            let home = random.between(1, 255) as u8;
            put(file, 4, &[home]);
        }
        7 => {
            let zero = random.between(1, 255) as u8;
            put(file, 5, &[zero]);
        }
        8 => {
            let count = random.one_of(&[2049, 2050, 4096, 0xffff, MOST_REQUESTS as u16, 1, 0]);
            put(file, 6, &count.to_le_bytes());
        }
        9 => {
            let at = random.one_of(&[8, 12, 16]);
            let number = random.number();
            put(file, at, &number.to_le_bytes());
        }
        10 => {
            let at = random.one_of(&[8, 12, 16]);
            let shift = random.between(1, 3) as u8;
            if at < file.len() {
                file[at] = file[at].wrapping_add(shift);
            }
        }
        11 => {
            let server = random.one_of(&[64u16, 65, 255, 256, 257, 0xffff, 3]);
            put(file, request + 4, &server.to_le_bytes());
        }
        12 => {
            let second = random.one_of(&[0, LAST_SECOND, LAST_SECOND + 1, u32::MAX]);
            put(file, request, &second.to_le_bytes());
        }
        13 if requests > 1 => {
            let second = file[40..44].to_vec();
            put(file, request, &second);
        }
        14 if requests > 1 => {
            let other = 40 + 6 * random.below(requests as u64) as usize;
            for k in 0..6 {
                file.swap(request + k, other + k);
            }
        }
        _ => {
            if !file.is_empty() {
                let at = random.below(file.len() as u64) as usize;
                file[at] ^= 1 << random.below(8);
            }
        }
    }
}
