//! Start; scan, running cost and close on a state in place, going through the copies that stand.

use super::prices::table;
use crate::log::{check_setup, Header, LAST_SECOND, MOST_REQUESTS};
use crate::online::{Cache, Served, MOST_HELD};
use crate::prices::PriceFile;
use crate::{refuse, Refusal};

pub fn start(prices: PriceFile, header: &Header) -> Result<Cache, Refusal> {
    let table = table(prices)?;
    check_setup(table.classes(), table.unsold(), header)?;
    Ok(Cache::fresh(table.of(header.class), header))
}

fn unsound(cache: &Cache) -> bool {
    if !cache.prices.in_range() || cache.server_count < 1 || cache.server_count > 64 || cache.second > LAST_SECOND {
        return true;
    }
    let last = cache.last as usize;
    if last >= cache.server_count as usize || cache.holders >> last & 1 == 0 || cache.last_use[last] != cache.second {
        return true;
    }
    if cache.holders & !(u64::MAX >> (64 - cache.server_count)) != 0 {
        return true;
    }
    if cache.requests > MOST_REQUESTS as u32 || cache.transfers > cache.requests || cache.held > MOST_HELD {
        return true;
    }
    let window = cache.prices.window() as u32;
    let mut wrong = false;
    for (server, &used) in cache.last_use.iter().enumerate() {
        let stands = cache.holders >> server & 1 == 1;
        wrong |= if stands { used > cache.second || used + window < cache.second && server != last } else { used != 0 };
    }
    wrong
}

pub fn scan(cache: &mut Cache, id: [u8; 16], second: u32, server: u16) -> Result<Served, Refusal> {
    cache.scan_fault(id, second, server, unsound)?;
    let source = serve(cache, second, server);
    Ok(Served { source, running: cache.cost() })
}

/// A request that nothing is wrong with; gives back the source of its transfer, if there is one.
#[inline(always)]
pub(super) fn serve(cache: &mut Cache, second: u32, server: u16) -> Option<u16> {
    let window = cache.prices.window() as u32;
    let (at, last) = (server as usize, cache.last as usize);
    let mut held = second - cache.second;
    let mut others = cache.holders & !(1 << last);
    while others != 0 {
        let other = others.trailing_zeros() as usize;
        others &= others - 1;
        let end = cache.last_use[other] + window;
        if end < second {
            held += end - cache.second;
            cache.holders &= !(1 << other);
            cache.last_use[other] = 0;
        } else {
            held += second - cache.second;
        }
    }
    let kept = cache.holders >> at & 1 == 1;
    if !kept {
        cache.transfers += 1;
        cache.last_use[last] = second;
        cache.holders |= 1 << at;
    }
    cache.last_use[at] = second;
    cache.last = server;
    cache.second = second;
    cache.requests += 1;
    cache.held += held;
    if kept { None } else { Some(last as u16) }
}

pub fn running(cache: &Cache) -> Result<u64, Refusal> {
    if unsound(cache) {
        return refuse(32, 0);
    }
    Ok(cache.cost())
}

pub fn close(cache: &mut Cache) -> Result<u64, Refusal> {
    if unsound(cache) {
        return refuse(32, 0);
    }
    if cache.closed {
        return refuse(33, 0);
    }
    cache.closed = true;
    let window = cache.prices.window();
    let mut left = 0;
    let mut copies = cache.holders;
    while copies != 0 {
        let at = copies.trailing_zeros() as usize;
        copies &= copies - 1;
        left += cache.last_use[at] as u64 + window - cache.second as u64;
    }
    Ok(cache.cost() + cache.prices.cost(left, 0))
}
