//! Sum, reader and writer.

use super::{noise16, noise32, noise8, room, Met};
use crate::calls::{Calls, Simple};
use crate::log::{self, requests_of, Header, Log, Request, LAST_SECOND, MOST_REQUESTS};
use crate::prices::{encode, PriceFile, Prices, Table, BUILT_IN, UNSOLD};
use crate::random::{damaged_log, random_header, random_log, random_requests, random_table, Random};
use crate::{refuse, Refusal};

/// Every small length and some long ones, with random bytes and with the greatest.
pub fn sums<C: Calls>() {
    let mut random = Random::new(100);
    let long: Vec<usize> = (0..200).map(|_| random.below(50_000) as usize).collect();
    for length in (0..200).chain([12_328, 12_329, 12_330, 12_331, 100_000]).chain(long) {
        for _ in 0..3 {
            let file = random.bytes(length);
            assert_eq!(C::sum(&file), Simple::sum(&file), "{file:?}");
        }
        assert_eq!(C::sum(&vec![255; length]), Simple::sum(&vec![255; length]));
    }
}

/// One byte alone at each place of each small length, which shows the place's own factor.
pub fn factors<C: Calls>() {
    for length in 0..=64 {
        for at in 0..length {
            for byte in [1, 255] {
                let mut file = vec![0; length];
                file[at] = byte;
                assert_eq!(C::sum(&file), Simple::sum(&file), "{file:?}");
            }
        }
    }
}

/// One file read with outputs of the given lengths.
pub(super) fn read<C: Calls>(random: &mut Random, prices: PriceFile, file: &[u8], seconds: usize, servers: usize) -> Result<u16, Refusal> {
    let (seconds, servers) = (noise32(random, seconds), noise16(random, servers));
    let (mut seconds_a, mut servers_a) = (seconds.clone(), servers.clone());
    let (mut seconds_b, mut servers_b) = (seconds, servers);
    let a = Simple::read(prices, file, &mut seconds_a, &mut servers_a);
    let b = C::read(prices, file, &mut seconds_b, &mut servers_b);
    assert_eq!(b, a, "{prices:?} {file:?}");
    assert_eq!(seconds_b, seconds_a, "{prices:?} {file:?}");
    assert_eq!(servers_b, servers_a, "{prices:?} {file:?}");
    a.1
}

pub(super) fn read_with_any_room<C: Calls>(random: &mut Random, prices: PriceFile, file: &[u8]) -> Result<u16, Refusal> {
    let count = file.len().saturating_sub(40) / 6;
    let (seconds, servers) = (room(random, count), room(random, count));
    read::<C>(random, prices, file, seconds, servers)
}

pub fn reads<C: Calls>(seed: u64, times: usize) {
    let mut random = Random::new(seed);
    let mut met = Met::default();
    for i in 0..times {
        let table = random_table(&mut random);
        let file = match i % 3 {
            0 => random_log(&mut random, &table, 30).bytes(),
            _ => damaged_log(&mut random, &table),
        };
        met.count(&read_with_any_room::<C>(&mut random, table.file(), &file));
    }
    met.exactly(&[0, 1, 2, 3, 4, 5, 6, 7, 8, 9, 10, 11, 12, 13, 31], times as u64 / 1_000);
}

fn small() -> Log {
    let header = Header { class: 5, server_count: 3, home: 2, id: *b"0123456789abcdef" };
    let requests = vec![Request { second: 2, server: 1 }, Request { second: 258, server: 0 }];
    Log { header, requests }
}

pub(super) fn with_its_sum(mut file: Vec<u8>) -> Vec<u8> {
    let sum = log::sum(&file);
    file[20..24].copy_from_slice(&sum.to_le_bytes());
    file
}

/// Each byte of a small log at each value, with its sum as it was and made to fit.
pub(super) fn changed() -> Vec<[Vec<u8>; 2]> {
    let good = small().bytes();
    let mut files = vec![];
    for at in 0..good.len() {
        for byte in 0..=255 {
            let mut file = good.clone();
            file[at] = byte;
            files.push([file.clone(), with_its_sum(file)]);
        }
    }
    files
}

pub fn every_byte<C: Calls>() {
    let mut random = Random::new(101);
    let mut met = Met::default();
    for [file, summed] in changed() {
        met.count(&read::<C>(&mut random, None, &file, 2, 3));
        met.count(&read::<C>(&mut random, None, &summed, 3, 2));
    }
    met.exactly(&[0, 2, 3, 4, 5, 6, 7, 8, 10, 11, 12, 13], 2);
}

/// One byte changed in the setup, the sum itself, the id or the requests, so at places of every remainder by four: refused with 10 by every call.
pub fn wrong_sums<C: Calls>() {
    let mut random = Random::new(108);
    let mut met = Met::default();
    for count in 0..8 {
        let header = Header { class: 1, server_count: 64, home: 3, id: *b"0123456789abcdef" };
        let requests = random_requests(&mut random, Prices::of(1), &header, count);
        let good = Log { header, requests }.bytes();
        let flips = (20..good.len()).flat_map(|at| [1, 0x40, 0xff].map(|flip| (at, flip)));
        for (at, flip) in [(2, 1), (3, 0x7f), (4, 1)].into_iter().chain(flips) {
            let mut file = good.clone();
            file[at] ^= flip;
            met.count(&read::<C>(&mut random, None, &file, count, count));
            for upload in [None, Some(3), Some(0)] {
                assert_eq!(C::plan(None, upload, &file, &mut [0; 8], &mut [0; 128]), refuse(10, 0));
                assert_eq!(C::least(None, upload, &file, &mut [0; 9]), refuse(10, 0));
                assert_eq!(C::check(None, upload, &file, &[]), refuse(10, 0));
            }
            assert_eq!(C::quote(None, &file), refuse(10, 0));
            assert_eq!(C::page(&file, &mut [0; 4_420]), refuse(10, 0));
        }
    }
    met.exactly(&[10], 1_000);
}

/// A small log cut and lengthened to each length, its fields as they were or made to fit.
pub(super) fn lengths() -> Vec<Vec<u8>> {
    let good = small().bytes();
    let mut files = vec![];
    for length in 0..100 {
        let mut file = good.clone();
        file.resize(length, 0);
        files.push(file.clone());
        if length >= 24 {
            files.push(with_its_sum(file.clone()));
            file[16..20].copy_from_slice(&(length as u32).to_le_bytes());
            file[6..8].copy_from_slice(&((length as u16).saturating_sub(40) / 6).to_le_bytes());
            files.push(with_its_sum(file));
        }
    }
    files
}

pub fn every_length<C: Calls>() {
    let mut random = Random::new(102);
    let mut met = Met::default();
    for file in lengths() {
        met.count(&read::<C>(&mut random, None, &file, 20, 20));
    }
    met.exactly(&[0, 1, 8, 9, 12], 5);
}

/// One write into an output of the given length.
pub(super) fn write<C: Calls>(
    random: &mut Random,
    prices: PriceFile,
    header: &Header,
    seconds: &[u32],
    servers: &[u16],
    length: usize,
) -> Result<u64, Refusal> {
    let out = noise8(random, length);
    let (mut out_a, mut out_b) = (out.clone(), out);
    let a = Simple::write(prices, header, seconds, servers, &mut out_a);
    let b = C::write(prices, header, seconds, servers, &mut out_b);
    assert_eq!(b, a, "{prices:?} {header:?} {seconds:?} {servers:?}");
    assert_eq!(out_b, out_a, "{prices:?} {header:?} {seconds:?} {servers:?}");
    a
}

fn spoil(random: &mut Random, header: &mut Header, seconds: &mut Vec<u32>, servers: &mut Vec<u16>) {
    let at = random.below(seconds.len().max(1) as u64) as usize;
    match random.below(10) {
        0 => header.class = random.word() as u8,
        1 => header.server_count = random.one_of(&[0, 65, 255, 1]),
        2 => header.home = random.word() as u8,
        3 => drop(seconds.pop()),
        4 => drop(servers.pop()),
        5 if at < servers.len() => servers[at] = random.one_of(&[64, 256, 0xffff, header.server_count as u16]),
        6 if at < seconds.len() => seconds[at] = random.one_of(&[0, LAST_SECOND + 1, u32::MAX, LAST_SECOND]),
        7 if at < seconds.len() && at > 0 => seconds[at] = seconds[at - 1],
        8 if at < seconds.len() => seconds[at] = random.number(),
        9 => {
            let length = MOST_REQUESTS + random.below(3) as usize;
            seconds.resize(length, 1);
            servers.resize(length, 0);
        }
        _ => {}
    }
}

pub fn writes<C: Calls>(seed: u64, times: usize) {
    let mut random = Random::new(seed);
    let mut met = Met::default();
    for i in 0..times {
        let table = random_table(&mut random);
        let log = random_log(&mut random, &table, 30);
        let (mut header, mut seconds, mut servers) = (log.header, log.seconds(), log.servers());
        if i % 3 != 0 {
            for _ in 0..random.one_of(&[1, 1, 2]) {
                spoil(&mut random, &mut header, &mut seconds, &mut servers);
            }
        }
        let length = room(&mut random, 40 + 6 * seconds.len());
        met.count(&write::<C>(&mut random, table.file(), &header, &seconds, &servers, length));
    }
    met.exactly(&[0, 3, 4, 5, 7, 11, 12, 13, 31, 43], times as u64 / 1_000);
}

/// The bytes of a log read, and what was read written again: they are the same. Where the class is no longer sold the write is refused, and what it
/// was lent is as it was.
pub(super) fn round_trip<C: Calls>(table: &Table, log: &Log) -> Result<u64, Refusal> {
    let (file, count) = (log.bytes(), log.requests.len());
    let (mut seconds, mut servers, noise) = (vec![9; count], vec![9; count], vec![9; file.len()]);
    let (header, read) = C::read(table.file(), &file, &mut seconds, &mut servers);
    assert_eq!(read, Ok(count as u16));
    assert_eq!(Log { header, requests: requests_of(&seconds, &servers) }, *log);
    let mut out = noise.clone();
    let written = C::write(table.file(), &header, &seconds, &servers, &mut out);
    let unsold = table.unsold() == Some(header.class);
    assert_eq!((written, out), if unsold { (refuse(43, 0), noise) } else { (Ok(file.len() as u64), file) });
    written
}

/// Random logs, sold and not.
pub fn round_trips<C: Calls>(seed: u64, times: usize) {
    let mut random = Random::new(seed);
    let mut met = Met::default();
    for _ in 0..times {
        let table = random_table(&mut random);
        let log = random_log(&mut random, &table, 50);
        met.count(&round_trip::<C>(&table, &log));
    }
    met.exactly(&[0, 43], times as u64 / 30);
}

/// The largest logs, and one request more: of a class that is sold, of the one that is not, and of the same in a price file.
pub fn longest<C: Calls>() {
    let mut random = Random::new(103);
    let (mut reads, mut writes) = (Met::default(), Met::default());
    for count in [MOST_REQUESTS - 1, MOST_REQUESTS, MOST_REQUESTS + 1] {
        for (table, class) in [(Table::built_in(), 5), (Table::built_in(), UNSOLD), (Table::of_pairs(&BUILT_IN), UNSOLD)] {
            let header = Header { class, ..random_header(&mut random, &table) };
            let requests = random_requests(&mut random, table.of(class), &header, count);
            let log = Log { header, requests };
            let file = log.bytes();
            for length in [count - 1, count, count + 5] {
                reads.count(&read::<C>(&mut random, table.file(), &file, length, count));
                reads.count(&read::<C>(&mut random, table.file(), &file, count, length));
                writes.count(&write::<C>(&mut random, table.file(), &log.header, &log.seconds(), &log.servers(), 40 + 6 * length));
            }
        }
    }
    reads.exactly(&[0, 7, 31], 12);
    writes.exactly(&[0, 7, 31, 43], 4);
}

/// Server counts, homes, servers and seconds about their bounds.
pub(super) fn about_bounds(class: u8) -> Vec<Log> {
    let mut logs = vec![];
    for server_count in [0, 1, 63, 64, 65, 255] {
        for home in [0, 62, 63, 64, 255] {
            for server in [0, 62, 63, 64, 255, 256, 0xffff] {
                for second in [0, 1, LAST_SECOND - 1, LAST_SECOND, LAST_SECOND + 1, u32::MAX] {
                    let header = Header { class, server_count, home, id: [0xaa; 16] };
                    logs.push(Log { header, requests: vec![Request { second: 1, server: 0 }, Request { second, server }] });
                }
            }
        }
    }
    logs
}

/// All of them read and written; class 7 is written with its table as a price file.
pub fn bounds<C: Calls>() {
    bounds_at::<C>(6, None);
    bounds_at::<C>(UNSOLD, Some(&encode(&BUILT_IN)));
}

fn bounds_at<C: Calls>(class: u8, prices: PriceFile) {
    let mut random = Random::new(104);
    let mut met = Met::default();
    for log in about_bounds(class) {
        met.count(&read::<C>(&mut random, None, &log.bytes(), 2, 2));
        met.count(&write::<C>(&mut random, prices, &log.header, &log.seconds(), &log.servers(), 52));
    }
    met.exactly(&[0, 4, 5, 11, 12, 13], 10);
}
