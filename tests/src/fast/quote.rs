//! The quote in one pass over the bytes of the requests, which judges them too, with a second for each server and no other memory.

use super::log::{check_request, sum};
use super::prices::table;
use crate::log::header_of;
use crate::prices::{PriceFile, Prices, HIGHEST};
use crate::Refusal;

/// So long before second 0 that no transfer costs more than holding since then.
const NEVER: u32 = 0u32.wrapping_sub(HIGHEST);

pub fn quote(prices: PriceFile, file: &[u8]) -> Result<u64, Refusal> {
    let table = table(prices)?;
    let (header, _) = header_of(table.classes(), file, sum)?;
    let Prices { hold, transfer } = table.of(header.class);
    let (hold, transfer) = (hold as u64, transfer as u64);
    let mut latest = [NEVER; 64];
    latest[header.home as usize] = 0;
    let (mut cost, mut last) = (0, 0);
    let mut add = |i, six: &[u8]| {
        let second = u32::from_le_bytes([six[0], six[1], six[2], six[3]]);
        let server = u16::from_le_bytes([six[4], six[5]]);
        check_request(header.server_count, second, server, last, i)?;
        // it is below 64
        let at = &mut latest[server as usize & 63];
        cost += transfer.min(hold * second.wrapping_sub(*at) as u64);
        *at = second;
        last = second;
        Ok(())
    };
    let mut pairs = file[40..].chunks_exact(12);
    let mut i = 0;
    for pair in &mut pairs {
        add(i, &pair[..6])?;
        add(i + 1, &pair[6..])?;
        i += 2;
    }
    if !pairs.remainder().is_empty() {
        add(i, pairs.remainder())?;
    }
    Ok(cost + hold * last as u64)
}
