//! 01, 'Schedules', and the refusals 14 to 18, with the uploads of 02's request 11.

use crate::log::Log;
use crate::prices::{Prices, Upload};
use crate::{refuse, Refusal};
use std::collections::{BTreeSet, HashMap};

#[derive(Clone, Copy, Debug, PartialEq, Eq)]
pub enum Row {
    /// 01: stay
    Hold { server: u32, from: u32, to: u32 },
    /// 01: send
    Transfer { source: u32, target: u32, second: u32 },
    Upload { target: u32, second: u32 },
}

impl Row {
    pub fn numbers(self) -> [u32; 4] {
        match self {
            Row::Hold { server, from, to } => [0, server, from, to],
            Row::Transfer { source, target, second } => [1, source, target, second],
            Row::Upload { target, second } => [2, target, second, 0],
        }
    }

    /// The row of four numbers, or none: 15 by kind, server, span, transfer to itself, an upload's last number, or past the last request. Without an
    /// upload price there is no kind 2.
    fn of(upload: Upload, log: &Log, numbers: [u32; 4]) -> Option<Row> {
        let count = log.header.server_count as u32;
        let last = log.requests.last()?.second;
        let [kind, a, b, c] = numbers;
        match kind {
            0 if a < count && b < c && c <= last => Some(Row::Hold { server: a, from: b, to: c }),
            1 if a < count && b < count && a != b && c <= last => Some(Row::Transfer { source: a, target: b, second: c }),
            2 if upload.is_some() && a < count && b <= last && c == 0 => Some(Row::Upload { target: a, second: b }),
            _ => None,
        }
    }

    /// May this row stand anywhere before the other?
    fn may_precede(self, other: Row) -> bool {
        match (self, other) {
            (Row::Hold { server, to, .. }, Row::Hold { server: other, from, .. }) => server < other || (server == other && to < from),
            (Row::Transfer { source, target, second }, Row::Transfer { source: a, target: b, second: c }) => {
                (second, source, target) < (c, a, b)
            }
            (Row::Upload { target, second }, Row::Upload { target: a, second: b }) => (second, target) < (b, a),
            // holds come first, then transfers, then uploads
            _ => self.numbers()[0] < other.numbers()[0],
        }
    }
}

/// All numbers of some rows, as the library takes them.
pub fn flat(rows: &[Row]) -> Vec<u32> {
    rows.iter().flat_map(|row| row.numbers()).collect()
}

/// Hold price × seconds of all holds, plus transfer price × transfers, plus upload price × uploads.
pub fn cost_of(prices: Prices, upload: Upload, rows: &[Row]) -> u64 {
    rows.iter()
        .map(|row| match row {
            Row::Hold { from, to, .. } => prices.cost((to - from) as u64, 0),
            Row::Transfer { .. } => prices.cost(0, 1),
            Row::Upload { .. } => upload.unwrap() as u64,
        })
        .sum()
}

/// The servers where the copy stands at a second.
fn standing(home: u32, rows: &[Row], t: u32) -> BTreeSet<u32> {
    let mut servers = BTreeSet::new();
    if t == 0 {
        servers.insert(home);
    }
    for row in rows {
        match *row {
            Row::Hold { server, from, to } if from < t && t <= to => servers.insert(server),
            Row::Upload { target, second } if second == t => servers.insert(target),
            _ => false,
        };
    }
    loop {
        let before = servers.len();
        for row in rows {
            if let Row::Transfer { source, target, second } = *row {
                if second == t && servers.contains(&source) {
                    servers.insert(target);
                }
            }
        }
        if servers.len() == before {
            return servers;
        }
    }
}

/// The rows that some numbers stand for, or the first of 14 to 16.
pub fn rows_of(upload: Upload, log: &Log, numbers: &[u32]) -> Result<Vec<Row>, Refusal> {
    if numbers.len() % 4 != 0 {
        return refuse(14, 0);
    }
    let mut rows: Vec<Row> = Vec::new();
    for (i, four) in numbers.chunks(4).enumerate() {
        let Some(row) = Row::of(upload, log, four.try_into().unwrap()) else {
            return refuse(15, i + 1);
        };
        if !rows.iter().all(|earlier| earlier.may_precede(row)) {
            return refuse(16, i + 1);
        }
        rows.push(row);
    }
    Ok(rows)
}

/// The cost of a schedule for an accepted log, or the first of 14 to 18.
pub fn check(prices: Prices, upload: Upload, log: &Log, numbers: &[u32]) -> Result<u64, Refusal> {
    let rows = rows_of(upload, log, numbers)?;
    let mut known: HashMap<u32, BTreeSet<u32>> = HashMap::new();
    let mut stands = |server: u32, t: u32| {
        let servers = known.entry(t).or_insert_with(|| standing(log.header.home as u32, &rows, t));
        servers.contains(&server)
    };
    for (i, row) in rows.iter().enumerate() {
        let (server, second) = match *row {
            Row::Hold { server, from, .. } => (server, from),
            Row::Transfer { source, second, .. } => (source, second),
            Row::Upload { .. } => continue,
        };
        if !stands(server, second) {
            return refuse(17, i + 1);
        }
    }
    for (i, request) in log.requests.iter().enumerate() {
        if !stands(request.server as u32, request.second) {
            return refuse(18, i + 1);
        }
    }
    Ok(cost_of(prices, upload, &rows))
}

#[cfg(test)]
mod tests {
    use super::*;
    use crate::log::{Header, Request};

    fn log(server_count: u8, requests: &[(u32, u16)]) -> Log {
        let header = Header { class: 0, server_count, home: 0, id: [0; 16] };
        Log { header, requests: requests.iter().map(|&(second, server)| Request { second, server }).collect() }
    }

    fn verdict(log: &Log, rows: &[[u32; 4]]) -> Result<u64, Refusal> {
        check(Prices::of(0), None, log, &rows.concat())
    }

    /// The same where an upload costs 4.
    fn with_uploads(log: &Log, rows: &[[u32; 4]]) -> Result<u64, Refusal> {
        check(Prices::of(0), Some(4), log, &rows.concat())
    }

    #[test]
    fn form() {
        let week = log(3, &[(5, 1), (9, 1)]);
        assert_eq!(check(Prices::of(0), None, &week, &[0; 5]), refuse(14, 0));
        for row in [[2, 0, 0, 5], [0, 3, 0, 5], [0, 0, 5, 5], [0, 0, 0, 10], [1, 1, 1, 5], [1, 3, 1, 5], [1, 0, 3, 5], [1, 0, 1, 10]] {
            assert_eq!(verdict(&week, &[row]), refuse(15, 1), "{row:?}");
        }
        assert_eq!(verdict(&week, &[[0, 0, 0, 5], [0, 0, 5, 6]]), refuse(16, 2));
        assert_eq!(verdict(&week, &[[0, 0, 0, 5], [0, 0, 3, 6]]), refuse(16, 2));
        assert_eq!(verdict(&week, &[[0, 1, 0, 5], [0, 0, 0, 6]]), refuse(16, 2));
        assert_eq!(verdict(&week, &[[1, 0, 1, 5], [0, 0, 0, 6]]), refuse(16, 2));
        assert_eq!(verdict(&week, &[[1, 0, 1, 5], [1, 0, 1, 5]]), refuse(16, 2));
        assert_eq!(verdict(&week, &[[1, 1, 0, 5], [1, 0, 1, 5]]), refuse(16, 2));
        assert_eq!(verdict(&week, &[[1, 0, 2, 5], [1, 0, 1, 5]]), refuse(16, 2));
        // a later row's 15 does not come before an earlier row's 16
        assert_eq!(verdict(&week, &[[1, 1, 0, 5], [1, 0, 1, 5], [7, 0, 0, 0]]), refuse(16, 2));
    }

    #[test]
    fn second_zero() {
        let week = log(2, &[(5, 1)]);
        assert_eq!(verdict(&week, &[[0, 1, 0, 5], [1, 0, 1, 0]]), Ok(15));
        assert_eq!(verdict(&week, &[[0, 1, 0, 5]]), refuse(17, 1));
        assert_eq!(verdict(&log(2, &[]), &[[1, 0, 1, 0]]), refuse(15, 1));
        assert_eq!(verdict(&log(2, &[]), &[]), Ok(0));
    }

    #[test]
    fn chains_and_cycles() {
        let week = log(4, &[(3, 0)]);
        let backwards = [[0, 3, 0, 3], [1, 0, 3, 0], [1, 1, 0, 3], [1, 2, 1, 3], [1, 3, 2, 3]];
        assert_eq!(verdict(&week, &backwards), Ok(3 + 40));
        let cycle = [[0, 3, 0, 3], [1, 0, 3, 0], [1, 0, 1, 3], [1, 1, 0, 3]];
        assert_eq!(verdict(&week, &cycle), refuse(17, 3));
        let fed = [[0, 3, 0, 3], [1, 0, 3, 0], [1, 0, 1, 3], [1, 1, 0, 3], [1, 3, 1, 3]];
        assert_eq!(verdict(&week, &fed), Ok(3 + 40));
    }

    #[test]
    fn a_hold_without_a_start_still_gives_standing() {
        let week = log(2, &[(3, 0)]);
        assert_eq!(verdict(&week, &[[0, 0, 2, 3], [0, 1, 1, 2], [1, 1, 0, 2]]), refuse(17, 2));
    }

    #[test]
    fn unserved() {
        let week = log(2, &[(3, 0), (4, 1)]);
        assert_eq!(verdict(&week, &[]), refuse(18, 1));
        assert_eq!(verdict(&week, &[[0, 0, 0, 3]]), refuse(18, 2));
        assert_eq!(verdict(&week, &[[0, 0, 0, 4], [1, 0, 1, 4]]), Ok(14));
        assert_eq!(verdict(&week, &[[0, 0, 0, 3], [1, 0, 1, 3]]), refuse(18, 2));
    }

    #[test]
    fn form_of_uploads() {
        let week = log(3, &[(5, 1), (9, 1)]);
        let served = [[2, 1, 5, 0], [2, 1, 9, 0]];
        assert_eq!(with_uploads(&week, &served), Ok(8));
        assert_eq!(verdict(&week, &served), refuse(15, 1));
        for row in [[2, 3, 5, 0], [2, 1, 10, 0], [2, 1, 5, 1], [3, 1, 5, 0]] {
            assert_eq!(with_uploads(&week, &[row]), refuse(15, 1), "{row:?}");
        }
        assert_eq!(with_uploads(&week, &[[2, 1, 5, 0], [2, 1, 5, 0]]), refuse(16, 2));
        assert_eq!(with_uploads(&week, &[[2, 1, 9, 0], [2, 2, 5, 0]]), refuse(16, 2));
        assert_eq!(with_uploads(&week, &[[2, 1, 5, 0], [2, 0, 5, 0]]), refuse(16, 2));
        assert_eq!(with_uploads(&week, &[[2, 1, 5, 0], [1, 1, 0, 9]]), refuse(16, 2));
        assert_eq!(with_uploads(&week, &[[2, 1, 5, 0], [0, 1, 5, 9]]), refuse(16, 2));
    }

    #[test]
    fn an_upload_makes_a_copy_stand() {
        let week = log(3, &[(5, 1), (9, 2)]);
        // for a hold, for a transfer of its second though listed after it, and at second 0
        assert_eq!(with_uploads(&week, &[[0, 1, 5, 9], [1, 1, 2, 9], [2, 1, 5, 0]]), Ok(4 + 10 + 4));
        assert_eq!(with_uploads(&week, &[[1, 0, 1, 5], [2, 0, 5, 0], [2, 2, 9, 0]]), Ok(10 + 8));
        assert_eq!(with_uploads(&week, &[[0, 1, 0, 9], [1, 1, 2, 9], [2, 1, 0, 0]]), Ok(9 + 10 + 4));
        // in that second alone
        assert_eq!(with_uploads(&week, &[[0, 1, 6, 9], [2, 1, 5, 0], [2, 2, 9, 0]]), refuse(17, 1));
        assert_eq!(with_uploads(&week, &[[1, 1, 2, 9], [2, 1, 5, 0], [2, 2, 8, 0]]), refuse(17, 1));
        assert_eq!(with_uploads(&week, &[[2, 1, 5, 0], [2, 2, 8, 0]]), refuse(18, 2));
        assert_eq!(with_uploads(&log(3, &[]), &[[2, 0, 0, 0]]), refuse(15, 1));
    }
}
