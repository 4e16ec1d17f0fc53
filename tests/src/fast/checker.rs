//! The checker in time close to the number of rows, with memory for one word a second that matters.

use super::log::accepted;
use super::prices::table;
use crate::prices::{check_upload, PriceFile, Prices, Upload};
use crate::{refuse, Refusal};

/// 15 and 16 for all rows; gives back how many there are of each kind, and the cost.
fn check_form(prices: Prices, upload: Upload, count: u32, last: Option<u32>, rows: &[u32]) -> Result<([usize; 3], u64), Refusal> {
    let mut kinds = [0; 3];
    let mut cost = 0;
    let mut before = [0; 4];
    for (i, row) in rows.chunks_exact(4).enumerate() {
        let (kind, a, b, c) = (row[0], row[1], row[2], row[3]);
        let Some(last) = last else { return refuse(15, i + 1) };
        let fine = match kind {
            0 => a < count && b < c && c <= last,
            1 => a < count && b < count && a != b && c <= last,
            2 => upload.is_some() && a < count && b <= last && c == 0,
            _ => false,
        };
        if !fine {
            return refuse(15, i + 1);
        }
        let [earlier, x, y, z] = before;
        let ordered = match (earlier, kind) {
            _ if i == 0 => true,
            (0, 0) => x < a || (x == a && z < b),
            (1, 1) => (z, x, y) < (c, a, b),
            (2, 2) => (y, x) < (b, a),
            _ => earlier < kind,
        };
        if !ordered {
            return refuse(16, i + 1);
        }
        kinds[kind as usize] += 1;
        cost += match kind {
            0 => prices.cost((c - b) as u64, 0),
            1 => prices.cost(0, 1),
            _ => upload.unwrap_or(0) as u64,
        };
        before = [kind, a, b, c];
    }
    Ok((kinds, cost))
}

/// Two lists of seconds as one, each second once and rising.
fn merged(ours: impl ExactSizeIterator<Item = u32>, others: impl ExactSizeIterator<Item = u32>) -> Vec<u32> {
    let mut seconds: Vec<u32> = Vec::with_capacity(ours.len() + others.len());
    let mut next = others.peekable();
    let mut push = |second: u32| {
        if seconds.last() != Some(&second) {
            seconds.push(second);
        }
    };
    for our in ours {
        while let Some(second) = next.next_if(|&second| second < our) {
            push(second);
        }
        push(our);
    }
    next.for_each(push);
    seconds
}

/// All servers that transfers of one second reach.
fn closed(mut standing: u64, transfers: &[u32]) -> u64 {
    loop {
        let before = standing;
        for row in transfers.chunks_exact(4) {
            if standing >> row[1] & 1 == 1 {
                standing |= 1 << row[2];
            }
        }
        if standing == before {
            return standing;
        }
    }
}

/// The first place from one on whose second is not before: by doubling steps, then by halving.
fn forward(seconds: &[u32], mut at: usize, before: impl Fn(u32) -> bool) -> usize {
    let mut step = 1;
    while at + step <= seconds.len() && before(seconds[at + step - 1]) {
        at += step;
        step *= 2;
    }
    let end = seconds.len().min(at + step);
    at + seconds[at..end].partition_point(|&second| before(second))
}

/// Where the copy stands in each of some seconds.
fn standing(home: u8, seconds: &[u32], holds: &[u32], transfers: &[u32], uploads: &[u32]) -> Vec<u64> {
    let mut words = vec![0u64; seconds.len() + 1];
    let (mut server, mut at) = (0, 0);
    for row in holds.chunks_exact(4) {
        if row[1] != server {
            (server, at) = (row[1], 0);
        }
        // a hold stands from the first second after its start to the last up to its end
        at = forward(seconds, at, |second| second <= row[2]);
        words[at] ^= 1 << server;
        at = forward(seconds, at, |second| second <= row[3]);
        words[at] ^= 1 << server;
    }
    let mut holding = 0;
    let mut first = 0;
    let mut upload = 0;
    for (i, &second) in seconds.iter().enumerate() {
        holding ^= words[i];
        let mut word = if second == 0 { holding | 1 << home } else { holding };
        while upload < uploads.len() && uploads[upload + 2] == second {
            word |= 1 << uploads[upload + 1];
            upload += 4;
        }
        let mut end = first;
        while end < transfers.len() && transfers[end + 3] == second {
            end += 4;
        }
        words[i] = if first == end { word } else { closed(word, &transfers[first..end]) };
        first = end;
    }
    words
}

pub fn check(prices: PriceFile, upload: Upload, file: &[u8], rows: &[u32]) -> Result<u64, Refusal> {
    let table = table(prices)?;
    let mut requests = Vec::new();
    let (header, _) = accepted(table, file, |_, request| requests.push((request.second, request.server)))?;
    check_upload(upload)?;
    if rows.len() % 4 != 0 {
        return refuse(14, 0);
    }
    let last = requests.last().map(|request| request.0);
    let ([count, sent, _], cost) = check_form(table.of(header.class), upload, header.server_count as u32, last, rows)?;
    let (holds, arrivals) = rows.split_at(4 * count);
    let (transfers, uploads) = arrivals.split_at(4 * sent);
    let of_requests = requests.iter().map(|request| request.0);
    let of_transfers = transfers.chunks_exact(4).map(|row| row[3]);
    let of_uploads = uploads.chunks_exact(4).map(|row| row[2]);
    let seconds = match uploads {
        [] => merged(of_transfers, of_requests),
        _ => merged(of_transfers, merged(of_uploads, of_requests).into_iter()),
    };
    let words = standing(header.home, &seconds, holds, transfers, uploads);
    let (mut server, mut at) = (0, 0);
    for (i, row) in holds.chunks_exact(4).enumerate() {
        if row[1] != server {
            (server, at) = (row[1], 0);
        }
        at = forward(&seconds, at, |second| second < row[2]);
        let at_home = row[2] == 0 && row[1] == header.home as u32;
        if !at_home && !(seconds.get(at) == Some(&row[2]) && words[at] >> row[1] & 1 == 1) {
            return refuse(17, i + 1);
        }
    }
    let mut at = 0;
    for (i, row) in transfers.chunks_exact(4).enumerate() {
        while seconds[at] < row[3] {
            at += 1;
        }
        if words[at] >> row[1] & 1 == 0 {
            return refuse(17, count + i + 1);
        }
    }
    let mut at = 0;
    for (i, &(second, server)) in requests.iter().enumerate() {
        at = forward(&seconds, at, |other| other < second);
        if words[at] >> server & 1 == 0 {
            return refuse(18, i + 1);
        }
    }
    Ok(cost)
}
