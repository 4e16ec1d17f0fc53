//! 01, 'The log' and the refusals 1 to 13, and 43 of 02's request 10.

use crate::prices::Table;
use crate::{refuse, Refusal};

#[derive(Clone, Copy, Debug, PartialEq, Eq, Default)]
pub struct Header {
    pub class: u8,
    pub server_count: u8,
    pub home: u8,
    pub id: [u8; 16],
}

#[derive(Clone, Copy, Debug, PartialEq, Eq)]
pub struct Request {
    pub second: u32,
    pub server: u16,
}

#[derive(Clone, Debug, PartialEq, Eq)]
pub struct Log {
    pub header: Header,
    pub requests: Vec<Request>,
}

pub const MOST_REQUESTS: usize = 2048;
pub const LAST_SECOND: u32 = 4_000_000;

/// From 0, byte by byte, times 31 plus the byte, in 32 bits; the four bytes of the sum itself are left out.
pub fn sum(file: &[u8]) -> u32 {
    let mut sum: u64 = 0;
    for (place, byte) in file.iter().enumerate() {
        if !(20..=23).contains(&place) {
            sum = (31 * sum + *byte as u64) % (1 << 32);
        }
    }
    sum as u32
}

pub fn number16(file: &[u8], at: usize) -> u16 {
    u16::from_le_bytes(file[at..at + 2].try_into().unwrap())
}

pub fn number32(file: &[u8], at: usize) -> u32 {
    u32::from_le_bytes(file[at..at + 4].try_into().unwrap())
}

/// 3, 43, 4, 5, for a number of classes; 43 is of one class, or of none for a log that exists already.
pub fn check_setup(classes: usize, unsold: Option<u8>, header: &Header) -> Result<(), Refusal> {
    if header.class as usize >= classes {
        return refuse(3, 0);
    }
    if unsold == Some(header.class) {
        return refuse(43, 0);
    }
    if header.server_count < 1 || header.server_count > 64 {
        return refuse(4, 0);
    }
    if header.home >= header.server_count {
        return refuse(5, 0);
    }
    Ok(())
}

/// 11, 12, 13, request by request.
fn check_requests(server_count: u8, requests: &[Request]) -> Result<(), Refusal> {
    for (i, request) in requests.iter().enumerate() {
        if request.server >= server_count as u16 {
            return refuse(11, i + 1);
        }
        if request.second == 0 || request.second > LAST_SECOND {
            return refuse(12, i + 1);
        }
        if i > 0 && request.second <= requests[i - 1].second {
            return refuse(13, i + 1);
        }
    }
    Ok(())
}

/// The header and the number of requests, or the first of 1 to 10 that holds, by a way to take the sum. Every class is read, sold or not.
pub fn header_of(classes: usize, file: &[u8], sum: impl Fn(&[u8]) -> u32) -> Result<(Header, usize), Refusal> {
    if file.len() < 40 {
        return refuse(1, 0);
    }
    if number16(file, 0) != 1 {
        return refuse(2, 0);
    }
    let header = Header { class: file[2], server_count: file[3], home: file[4], id: file[24..40].try_into().unwrap() };
    check_setup(classes, None, &header)?;
    if file[5] != 0 {
        return refuse(6, 0);
    }
    let count = number16(file, 6) as usize;
    if count > MOST_REQUESTS {
        return refuse(7, 0);
    }
    let total = number32(file, 16) as usize;
    if number32(file, 8) != 40 || number32(file, 12) != 24 || total != 40 + 6 * count {
        return refuse(8, 0);
    }
    if file.len() != total {
        return refuse(9, 0);
    }
    if number32(file, 20) != sum(file) {
        return refuse(10, 0);
    }
    Ok((header, count))
}

/// The log in a file, or the first of 1 to 13 that holds.
pub fn read(classes: usize, file: &[u8]) -> Result<Log, Refusal> {
    let (header, count) = header_of(classes, file, sum)?;
    let mut requests = Vec::new();
    for i in 0..count {
        let at = 40 + 6 * i;
        requests.push(Request { second: number32(file, at), server: number16(file, at + 4) });
    }
    check_requests(header.server_count, &requests)?;
    Ok(Log { header, requests })
}

/// The bytes of a log, whatever it holds: count, length and sum are made to fit.
pub fn encode(header: &Header, requests: &[Request]) -> Vec<u8> {
    let mut file = Vec::new();
    file.extend(1u16.to_le_bytes());
    file.extend([header.class, header.server_count, header.home, 0]);
    file.extend((requests.len() as u16).to_le_bytes());
    file.extend(40u32.to_le_bytes());
    file.extend(24u32.to_le_bytes());
    file.extend((40 + 6 * requests.len() as u32).to_le_bytes());
    file.extend([0; 4]);
    file.extend(header.id);
    for request in requests {
        file.extend(request.second.to_le_bytes());
        file.extend(request.server.to_le_bytes());
    }
    let sum = sum(&file);
    file[20..24].copy_from_slice(&sum.to_le_bytes());
    file
}

/// Requests from two lists of one length.
pub fn requests_of(seconds: &[u32], servers: &[u16]) -> Vec<Request> {
    seconds.iter().zip(servers).map(|(&second, &server)| Request { second, server }).collect()
}

/// The file for a header and two lists, or the first of 3, 43, 4, 5, 7 and 11 to 13 that holds.
pub fn write(table: &Table, header: &Header, seconds: &[u32], servers: &[u16]) -> Result<Vec<u8>, Refusal> {
    check_setup(table.classes(), table.unsold(), header)?;
    if seconds.len() != servers.len() || seconds.len() > MOST_REQUESTS {
        return refuse(7, 0);
    }
    let requests = requests_of(seconds, servers);
    check_requests(header.server_count, &requests)?;
    Ok(encode(header, &requests))
}

impl Log {
    pub fn bytes(&self) -> Vec<u8> {
        encode(&self.header, &self.requests)
    }

    pub fn seconds(&self) -> Vec<u32> {
        self.requests.iter().map(|request| request.second).collect()
    }

    pub fn servers(&self) -> Vec<u16> {
        self.requests.iter().map(|request| request.server).collect()
    }

    /// Cut to its first requests.
    pub fn cut(&self, count: usize) -> Log {
        Log { header: self.header, requests: self.requests[..count].to_vec() }
    }

    /// The second of the last request, 0 where there is none.
    pub fn last_second(&self) -> u32 {
        self.requests.last().map_or(0, |request| request.second)
    }
}

#[cfg(test)]
mod tests {
    use super::*;
    use crate::random::{damaged_log, random_log, random_table, Random};

    #[test]
    fn layout_of_a_small_log() {
        let header = Header { class: 3, server_count: 5, home: 4, id: *b"abcdefghijklmnop" };
        let file = encode(&header, &[Request { second: 0x01020304, server: 0x0506 }]);
        assert_eq!(file.len(), 46);
        assert_eq!(file[..20], [1, 0, 3, 5, 4, 0, 1, 0, 40, 0, 0, 0, 24, 0, 0, 0, 46, 0, 0, 0]);
        assert_eq!(&file[24..40], b"abcdefghijklmnop");
        assert_eq!(file[40..], [4, 3, 2, 1, 6, 5]);
    }

    #[test]
    fn sum_by_hand() {
        assert_eq!(sum(&[]), 0);
        assert_eq!(sum(&[1]), 1);
        assert_eq!(sum(&[1, 2, 3]), 31 * 31 + 31 * 2 + 3);
        let mut bytes = [0u8; 26];
        bytes[19] = 1;
        bytes[20..24].fill(77);
        bytes[24] = 5;
        bytes[25] = 6;
        assert_eq!(sum(&bytes), 31 * 31 + 31 * 5 + 6);
        assert_eq!(sum(&bytes[..22]), 1);
        assert_eq!(sum(&[255; 20]), (0..20).fold(0u32, |s, _| s.wrapping_mul(31).wrapping_add(255)));
    }

    #[test]
    fn read_and_write_are_inverse_where_the_class_is_sold() {
        let mut random = Random::new(1);
        let mut refused = 0;
        for _ in 0..500 {
            let table = random_table(&mut random);
            let log = random_log(&mut random, &table, 40);
            let file = log.bytes();
            assert_eq!(read(table.classes(), &file), Ok(log.clone()));
            let unsold = table.unsold() == Some(log.header.class);
            refused += usize::from(unsold);
            let written = if unsold { refuse(43, 0) } else { Ok(file) };
            assert_eq!(write(&table, &log.header, &log.seconds(), &log.servers()), written);
        }
        assert!(refused > 10, "{refused}");
    }

    #[test]
    fn each_refusal_alone() {
        let header = Header { class: 0, server_count: 2, home: 0, id: [9; 16] };
        let good = encode(&header, &[Request { second: 3, server: 1 }, Request { second: 9, server: 0 }]);
        assert!(read(8, &good).is_ok());
        assert_eq!(read(8, &good[..39]), refuse(1, 0));
        let changed = |at: usize, byte: u8| {
            let mut file = good.clone();
            file[at] = byte;
            let s = sum(&file);
            file[20..24].copy_from_slice(&s.to_le_bytes());
            read(8, &file)
        };
        assert_eq!(changed(1, 1), refuse(2, 0));
        assert_eq!(changed(2, 8), refuse(3, 0));
        assert_eq!(changed(3, 0), refuse(4, 0));
        assert_eq!(changed(3, 65), refuse(4, 0));
        assert_eq!(changed(4, 2), refuse(5, 0));
        assert_eq!(changed(5, 1), refuse(6, 0));
        assert_eq!(changed(7, 9), refuse(7, 0));
        assert_eq!(changed(8, 41), refuse(8, 0));
        assert_eq!(changed(12, 25), refuse(8, 0));
        assert_eq!(changed(16, 53), refuse(8, 0));
        assert_eq!(changed(44, 2), refuse(11, 1));
        assert_eq!(changed(50, 2), refuse(11, 2));
        assert_eq!(changed(40, 0), refuse(12, 1));
        assert_eq!(changed(49, 1), refuse(12, 2));
        assert_eq!(changed(46, 3), refuse(13, 2));
        let longer: Vec<u8> = good.iter().copied().chain([0]).collect();
        assert_eq!(read(8, &longer), refuse(9, 0));
        assert_eq!(read(8, &good[..51]), refuse(9, 0));
        let mut summed = good.clone();
        summed[20] ^= 1;
        assert_eq!(read(8, &summed), refuse(10, 0));
    }

    #[test]
    fn classes() {
        for classes in [1, 2, 8, 255, 256] {
            let of_class = |class| read(classes, &encode(&Header { class, server_count: 1, home: 0, id: [0; 16] }, &[]));
            assert!(of_class((classes - 1) as u8).is_ok());
            assert!(of_class(classes as u8) == refuse(3, 0) || classes == 256);
            assert!(of_class(255) == refuse(3, 0) || classes == 256);
        }
    }

    #[test]
    fn damage_gives_every_number() {
        let mut random = Random::new(2);
        let mut met = [0u32; 14];
        for _ in 0..20_000 {
            if let Err(refusal) = read(8, &damaged_log(&mut random, &Table::built_in())) {
                met[refusal.number as usize] += 1;
            }
        }
        assert!(met[1..].iter().all(|&times| times >= 20), "{met:?}");
    }
}
