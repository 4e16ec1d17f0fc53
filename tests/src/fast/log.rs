//! Reader, writer and sum in one pass over the bytes, without memory of their own.

use super::prices::{table, Table};
use crate::log::{check_setup, header_of, Header, Request, LAST_SECOND, MOST_REQUESTS};
use crate::prices::PriceFile;
use crate::{refuse, Refusal};

/// The sum over some bytes, four at a time.
fn sum_from(start: u32, bytes: &[u8]) -> u32 {
    const P1: u32 = 31;
    const P2: u32 = P1 * 31;
    const P3: u32 = P2 * 31;
    const P4: u32 = P3 * 31;
    let mut sum = start;
    let mut fours = bytes.chunks_exact(4);
    for four in &mut fours {
        let part = four[0] as u32 * P3 + four[1] as u32 * P2 + four[2] as u32 * P1 + four[3] as u32;
        sum = sum.wrapping_mul(P4).wrapping_add(part);
    }
    for byte in fours.remainder() {
        sum = sum.wrapping_mul(P1).wrapping_add(*byte as u32);
    }
    sum
}

pub fn sum(file: &[u8]) -> u32 {
    let front = sum_from(0, &file[..file.len().min(20)]);
    sum_from(front, &file[file.len().min(24)..])
}

/// The header and all requests, 11 to 13 checked on the way.
pub(super) fn accepted(table: Table, file: &[u8], mut each: impl FnMut(usize, Request)) -> Result<(Header, usize), Refusal> {
    let (header, count) = header_of(table.classes(), file, sum)?;
    let mut earlier = 0;
    for (i, six) in file[40..].chunks_exact(6).enumerate() {
        let second = u32::from_le_bytes([six[0], six[1], six[2], six[3]]);
        let server = u16::from_le_bytes([six[4], six[5]]);
        check_request(header.server_count, second, server, earlier, i)?;
        earlier = second;
        each(i, Request { second, server });
    }
    Ok((header, count))
}

pub(super) fn check_request(server_count: u8, second: u32, server: u16, earlier: u32, i: usize) -> Result<(), Refusal> {
    if server >= server_count as u16 {
        return refuse(11, i + 1);
    }
    if second == 0 || second > LAST_SECOND {
        return refuse(12, i + 1);
    }
    if second <= earlier {
        return refuse(13, i + 1);
    }
    Ok(())
}

pub fn read(prices: PriceFile, file: &[u8], seconds: &mut [u32], servers: &mut [u16]) -> (Header, Result<u16, Refusal>) {
    let (header, count) = match table(prices).and_then(|table| accepted(table, file, |_, _| ())) {
        Ok(accepted) => accepted,
        Err(refusal) => return (Header::default(), Err(refusal)),
    };
    if seconds.len() < count || servers.len() < count {
        return (Header::default(), refuse(31, count));
    }
    for ((six, second), server) in file[40..].chunks_exact(6).zip(seconds.iter_mut()).zip(servers.iter_mut()) {
        *second = u32::from_le_bytes([six[0], six[1], six[2], six[3]]);
        *server = u16::from_le_bytes([six[4], six[5]]);
    }
    seconds[count..].fill(0);
    servers[count..].fill(0);
    (header, Ok(count as u16))
}

pub fn write(prices: PriceFile, header: &Header, seconds: &[u32], servers: &[u16], out: &mut [u8]) -> Result<u64, Refusal> {
    let table = table(prices)?;
    check_setup(table.classes(), table.unsold(), header)?;
    if seconds.len() != servers.len() || seconds.len() > MOST_REQUESTS {
        return refuse(7, 0);
    }
    let mut earlier = 0;
    for (i, (&second, &server)) in seconds.iter().zip(servers).enumerate() {
        check_request(header.server_count, second, server, earlier, i)?;
        earlier = second;
    }
    let total = 40 + 6 * seconds.len();
    if out.len() < total {
        return refuse(31, total);
    }
    out[0..6].copy_from_slice(&[1, 0, header.class, header.server_count, header.home, 0]);
    out[6..8].copy_from_slice(&(seconds.len() as u16).to_le_bytes());
    out[8..12].copy_from_slice(&40u32.to_le_bytes());
    out[12..16].copy_from_slice(&24u32.to_le_bytes());
    out[16..20].copy_from_slice(&(total as u32).to_le_bytes());
    out[24..40].copy_from_slice(&header.id);
    for (six, (second, server)) in out[40..].chunks_exact_mut(6).zip(seconds.iter().zip(servers)) {
        six[..4].copy_from_slice(&second.to_le_bytes());
        six[4..].copy_from_slice(&server.to_le_bytes());
    }
    out[total..].fill(0);
    let sum = sum(&out[..total]);
    out[20..24].copy_from_slice(&sum.to_le_bytes());
    Ok(total as u64)
}
