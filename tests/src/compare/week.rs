//! 02's request 01: the week page, in a text of any length, its refusals in their order, and what its figures add up to.

use super::lifetime::unless;
use super::log::{about_bounds, changed, lengths, with_its_sum};
use super::planner::answers;
use super::weeks::{log_of, WEEKS};
use super::{noise8, room, Met};
use crate::calls::{Calls, Simple};
use crate::log::{self, Header, Log, Request, LAST_SECOND, MOST_REQUESTS};
use crate::prices::{Prices, Table, UNSOLD};
use crate::random::{damaged_log, random_log, random_week, Random};
use crate::search::lists_of_gaps;
use crate::week::{DAY, WEEK};
use crate::Refusal;
use std::collections::BTreeSet;

/// Logs of the samples, and their pages.
pub const SAMPLES: [(&[u8], &str); 2] = [
    (include_bytes!("../../../samples/week-b.log"), include_str!("../../../samples/week-b.page")),
    (include_bytes!("../../../samples/three-days.log"), include_str!("../../../samples/three-days.page")),
];

/// A sample whose requests are spread over the whole week.
const FULL_WEEK: &[u8] = include_bytes!("../../../samples/full-week.log");

/// The longest page, of 64 servers.
const LONGEST: usize = 4_420;

/// The length of the page of so many servers.
fn needed(server_count: u8) -> usize {
    68 * (server_count as usize + 1)
}

/// The page of a file, in a text of the given length.
pub(super) fn page<C: Calls>(random: &mut Random, file: &[u8], length: usize) -> Result<u64, Refusal> {
    let text = noise8(random, length);
    let (mut text_a, mut text_b) = (text.clone(), text);
    let a = Simple::page(file, &mut text_a);
    let b = C::page(file, &mut text_b);
    assert_eq!(b, a, "{file:?}");
    assert_eq!(text_b, text_a, "{file:?}");
    a
}

/// The page of a log, in a text that is just long enough.
fn text<C: Calls>(log: &Log) -> String {
    let length = needed(log.header.server_count);
    let mut text = vec![9; length];
    assert_eq!(C::page(&log.bytes(), &mut text), Ok(length as u64), "{log:?}");
    String::from_utf8(text).unwrap()
}

/// The number at the end of some columns, after spaces.
fn number(columns: &str) -> u64 {
    let number = columns.trim_start_matches(' ').parse().unwrap();
    assert_eq!(format!("{number:>0$}", columns.len()), columns);
    number
}

/// The figures of each line: seven days and their sum. A line has 67 characters and a newline; it is headed by its server, the last by spaces.
fn figures(server_count: u8, text: &str) -> Vec<[u64; 8]> {
    assert_eq!(text.len(), needed(server_count));
    let mut lines = vec![];
    for at in (0..text.len()).step_by(68) {
        let line = &text[at..at + 68];
        let head = if lines.len() == server_count as usize { "  ".to_string() } else { format!("{:>2}", lines.len()) };
        assert_eq!((&line[..2], &line[67..]), (&head[..], "\n"), "{text}");
        let mut figures = [0; 8];
        for (day, figure) in figures.iter_mut().enumerate() {
            let begins = 2 + 8 * day;
            *figure = number(&line[begins..if day < 7 { begins + 8 } else { 67 }]);
        }
        lines.push(figures);
    }
    lines
}

/// The figures of a log's page, and what they add up to: a line's sum is that of its days, the last line has the column sums, and the corner is what the
/// rows that the planner gives hold, which with their transfers costs what the plan costs. Gives back the figures and the rows.
fn claims<C: Calls>(log: &Log) -> (Vec<[u64; 8]>, Vec<u32>) {
    let text = text::<C>(log);
    let figures = figures(log.header.server_count, &text);
    let (last, lines) = figures.split_last().unwrap();
    for line in &figures {
        assert_eq!(line[..7].iter().sum::<u64>(), line[7], "{text}");
    }
    for column in 0..8 {
        assert_eq!(lines.iter().map(|line| line[column]).sum::<u64>(), last[column], "{text}");
    }
    assert!(lines.iter().all(|line| line[..7].iter().all(|&cell| cell <= DAY as u64)), "{text}");
    let (cost, _, rows, _) = answers::<C>(None, None, log);
    let (holds, transfers): (Vec<&[u32]>, Vec<&[u32]>) = rows.chunks(4).partition(|row| row[0] == 0);
    let held: u64 = holds.iter().map(|row| (row[3] - row[2]) as u64).sum();
    assert_eq!(last[7], held, "{text}");
    assert_eq!(Prices::of(log.header.class).cost(last[7], transfers.len() as u64), cost, "{text}");
    (figures, rows)
}

/// The same, and each cell is how many seconds of its day the rows' holds at its server cover, second by second.
fn claims_by_seconds<C: Calls>(log: &Log) {
    let (figures, rows) = claims::<C>(log);
    for server in 0..log.header.server_count as u32 {
        let mut covered = vec![false; WEEK as usize];
        for row in rows.chunks(4).filter(|row| row[0] == 0 && row[1] == server) {
            covered[row[2] as usize..row[3] as usize].fill(true);
        }
        for (day, seconds) in covered.chunks(DAY as usize).enumerate() {
            let count = seconds.iter().filter(|&&covered| covered).count();
            assert_eq!(figures[server as usize][day], count as u64, "{log:?} {server} {day}");
        }
    }
}

/// The samples, and 01's weeks A to F and each cut of them.
pub fn samples<C: Calls>() {
    let read = |file| log::read(8, file).unwrap();
    for (file, page) in SAMPLES {
        assert_eq!(text::<C>(&read(file)), page);
        claims_by_seconds::<C>(&read(file));
    }
    claims_by_seconds::<C>(&read(FULL_WEEK));
    for week in WEEKS {
        for count in 0..=week.requests.len() {
            claims::<C>(&week.log().cut(count));
        }
    }
}

/// Pages written out: case C; a copy held at home to a request of the third day, and the same where that request is elsewhere; the whole week; a hold to a
/// midnight, and one second more; two servers that hold over midnights.
pub fn literal<C: Calls>() {
    let is = |class, server_count, requests: &[(u32, u16)], lines: &[&str]| {
        assert_eq!(text::<C>(&log_of(class, server_count, requests)), lines.concat());
    };
    is(0, 3, &[(1, 1), (2, 2), (11, 1), (12, 0)], &[
        " 0      12       0       0       0       0       0       0       12\n",
        " 1      10       0       0       0       0       0       0       10\n",
        " 2       0       0       0       0       0       0       0        0\n",
        "        22       0       0       0       0       0       0       22\n",
    ]);
    for server in 0..2 {
        is(0, 2, &[(200_000, server)], &[
            " 0   86400   86400   27200       0       0       0       0   200000\n",
            " 1       0       0       0       0       0       0       0        0\n",
            "     86400   86400   27200       0       0       0       0   200000\n",
        ]);
    }
    is(6, 1, &[(604_800, 0)], &[
        " 0   86400   86400   86400   86400   86400   86400   86400   604800\n",
        "     86400   86400   86400   86400   86400   86400   86400   604800\n",
    ]);
    is(3, 1, &[(86_400, 0)], &[
        " 0   86400       0       0       0       0       0       0    86400\n",
        "     86400       0       0       0       0       0       0    86400\n",
    ]);
    is(3, 1, &[(86_401, 0)], &[
        " 0   86400       1       0       0       0       0       0    86401\n",
        "     86400       1       0       0       0       0       0    86401\n",
    ]);
    is(7, 2, &[(86_399, 1), (200_000, 0), (500_000, 1)], &[
        " 0   86400   86400   27200       0       0       0       0   200000\n",
        " 1       1   86400   86400   86400   86400   68000       0   413601\n",
        "     86401  172800  113600   86400   86400   68000       0   613601\n",
    ]);
}

/// No request: a page of zeros, whatever the class, the number of servers and the home.
pub fn empty<C: Calls>() {
    let mut random = Random::new(700);
    let zeros = "       0".repeat(7) + "        0\n";
    for class in 0..8 {
        for server_count in 1..=64 {
            let page: String = (0..server_count).map(|server| format!("{server:>2}{zeros}")).collect();
            for home in [0, server_count - 1] {
                let header = Header { class, server_count, home, id: random.bytes(16).try_into().unwrap() };
                let log = Log { header, requests: vec![] };
                assert_eq!(text::<C>(&log), format!("{page}  {zeros}"));
                claims::<C>(&log);
            }
        }
    }
}

/// How many of the seconds from one up to another, which is left out, are of each day, one by one.
fn days(from: u32, to: u32) -> Vec<u64> {
    let mut days = vec![0; 7];
    (from..to).for_each(|second| days[(second / DAY) as usize] += 1);
    days
}

/// Holds that begin and end about each midnight: at home up to a transfer, and at its target from there to the request after it.
pub fn midnights<C: Calls>() {
    let about: Vec<u32> = (1..=7).flat_map(|day| [day * DAY - 1, day * DAY, day * DAY + 1]).filter(|&second| second <= WEEK).collect();
    for &from in &about {
        for class in [0, 6, 7] {
            for home in [0, 1] {
                let other = 1 - home;
                let log = |requests: &[(u32, u16)]| {
                    let Log { header, requests } = log_of(class, 2, requests);
                    Log { header: Header { home: home as u8, ..header }, requests }
                };
                let (figures, _) = claims::<C>(&log(&[(from, home)]));
                assert_eq!((&figures[home as usize][..7], &figures[other as usize][..7]), (&days(0, from)[..], &[0; 7][..]));
                for &to in about.iter().filter(|&&to| to > from) {
                    let (figures, _) = claims::<C>(&log(&[(from, other), (to, other)]));
                    assert_eq!(figures[home as usize][..7], days(0, from));
                    assert_eq!(figures[other as usize][..7], days(from, to));
                }
            }
        }
    }
}

/// A log of three requests, the last in a given second, and the same with each of 1 to 13 at fault.
pub fn with_faults(last: u32) -> Vec<(Vec<u8>, Option<(u8, usize)>)> {
    let of = |class, requests: &[(u32, u16)]| log_of(class, 3, requests).bytes();
    let good = of(0, &[(5, 1), (9, 2), (last, 0)]);
    let changed = |at: usize, byte| {
        let mut file = good.clone();
        file[at] = byte;
        with_its_sum(file)
    };
    let mut summed = good.clone();
    summed[23] ^= 0x80;
    vec![
        (good.clone(), None),
        (vec![], Some((1, 0))),
        (good[..39].to_vec(), Some((1, 0))),
        (changed(0, 2), Some((2, 0))),
        (changed(2, 8), Some((3, 0))),
        (changed(3, 0), Some((4, 0))),
        (changed(3, 65), Some((4, 0))),
        (changed(4, 3), Some((5, 0))),
        (changed(5, 1), Some((6, 0))),
        (changed(7, 9), Some((7, 0))),
        (changed(8, 41), Some((8, 0))),
        (changed(12, 25), Some((8, 0))),
        (changed(16, 59), Some((8, 0))),
        (good[..57].to_vec(), Some((9, 0))),
        ([&good[..], &[0]].concat(), Some((9, 0))),
        (summed, Some((10, 0))),
        (of(0, &[(5, 1), (9, 2), (last, 3)]), Some((11, 3))),
        (of(0, &[(0, 1), (9, 2), (last, 0)]), Some((12, 1))),
        (of(0, &[(5, 1), (5, 2), (last, 0)]), Some((13, 2))),
        (of(0, &[(last, 1), (last, 2), (last, 0)]), Some((13, 2))),
    ]
}

/// Each fault of a log or none, with 36 and 31 or without: the first is given, and then the text is as it was; else it has the page and zeros.
pub fn order<C: Calls>() {
    let mut met = Met::default();
    for (last, of_week) in [(10, None), (WEEK - 1, None), (WEEK, None), (WEEK + 1, Some((36, 0))), (LAST_SECOND, Some((36, 0)))] {
        for (file, of_log) in with_faults(last) {
            let mut right = vec![9; 272];
            let _ = Simple::page(&file, &mut right);
            for length in [0, 1, 68, 271, 272, 273, 340, 5_000] {
                let fault = of_log.or(of_week).or((length < 272).then_some((31, 272)));
                let mut text = vec![9; length];
                let answer = C::page(&file, &mut text);
                assert_eq!(answer, unless(fault, || 272), "{last} {length} {file:?}");
                let mut expected = right.clone();
                expected.resize(length, 0);
                assert_eq!(text, unless(fault, || expected).unwrap_or(vec![9; length]), "{last} {file:?}");
                met.count(&answer);
            }
        }
    }
    met.exactly(&[0, 1, 2, 3, 4, 5, 6, 7, 8, 9, 10, 11, 12, 13, 31, 36], 12);
}

/// The last second of the week and one more, then that of any log and one more: by a request alone, by the last of two, of 64 and of 65, where
/// the library takes longer lists, and by the 2,048th.
pub fn last_seconds<C: Calls>() {
    let mut random = Random::new(701);
    for (second, number) in [(WEEK - 1, 0), (WEEK, 0), (WEEK + 1, 36), (1 << 20, 36), (LAST_SECOND, 36), (LAST_SECOND + 1, 12), (u32::MAX, 12)] {
        for count in [1, 2, 64, 65, MOST_REQUESTS as u32] {
            let requests: Vec<(u32, u16)> = (1..count).map(|i| (i, (i % 5) as u16)).chain([(second, 4)]).collect();
            for class in 0..8 {
                let file = log_of(class, 5, &requests).bytes();
                for length in [408, 407, 0] {
                    let fault = match number {
                        0 => (length < 408).then_some((31, 408)),
                        12 => Some((12, count as usize)),
                        _ => Some((number, 0)),
                    };
                    assert_eq!(page::<C>(&mut random, &file, length), unless(fault, || 408));
                }
            }
        }
    }
}

/// Texts of each kind of length for every number of servers.
pub fn rooms<C: Calls>() {
    let mut random = Random::new(702);
    for server_count in 1..=64 {
        let needed = needed(server_count);
        let header = Header { class: 7, server_count, home: server_count - 1, id: [0; 16] };
        let requests = [(5, 0), (DAY + 5, header.home as u16), (3 * DAY, 0)].map(|(second, server)| Request { second, server });
        let file = Log { header, requests: requests.to_vec() }.bytes();
        for length in [0, 1, 67, 68, needed - 68, needed - 1, needed, needed + 1, needed + 68, LONGEST, LONGEST + 1, 3 * LONGEST] {
            let fault = (length < needed).then_some((31, needed));
            assert_eq!(page::<C>(&mut random, &file, length), unless(fault, || needed as u64));
        }
    }
}

/// Logs of any kind, one of three damaged and one of three within the week, and texts of any length.
pub fn random_logs<C: Calls>(seed: u64, times: usize) {
    let mut random = Random::new(seed);
    let mut met = Met::default();
    for i in 0..times {
        let file = match i % 3 {
            0 => random_log(&mut random, &Table::built_in(), 30).bytes(),
            1 => damaged_log(&mut random, &Table::built_in()),
            _ => random_week(&mut random, (i / 3 % 8) as u8, 30).bytes(),
        };
        let servers = file.get(3).map_or(0, |count| count % 65);
        let length = room(&mut random, needed(servers));
        met.count(&page::<C>(&mut random, &file, length));
    }
    met.exactly(&[0, 1, 2, 3, 4, 5, 6, 7, 8, 9, 10, 11, 12, 13, 31, 36], times as u64 / 2_000);
}

/// A small log with each byte at each value, and at each length; logs about the bounds of 01.
pub fn every_damage<C: Calls>() {
    let mut random = Random::new(703);
    let mut met = Met::default();
    let bounds = [6, UNSOLD].into_iter().flat_map(about_bounds).map(|log| log.bytes());
    for file in changed().into_iter().flatten().chain(lengths()).chain(bounds) {
        met.count(&page::<C>(&mut random, &file, LONGEST));
    }
    met.exactly(&[0, 1, 2, 3, 4, 5, 6, 7, 8, 9, 10, 11, 12, 13, 36], 5);
}

/// Random logs within the week of every class, and what their figures add up to.
pub fn every_class<C: Calls>(seed: u64, times: usize) {
    let mut random = Random::new(seed);
    let mut over = [0; 8];
    for i in 0..8 * times {
        let most = random.one_of(&[3, 10, 30, 100]);
        let log = random_week(&mut random, (i % 8) as u8, most);
        assert_eq!(page::<C>(&mut random, &log.bytes(), LONGEST), Ok(needed(log.header.server_count) as u64));
        let (_, rows) = claims::<C>(&log);
        let crosses = |row: &[u32]| row[0] == 0 && row[2] / DAY < (row[3] - 1) / DAY;
        over[i % 8] += usize::from(rows.chunks(4).any(crosses));
    }
    // many have a hold over a midnight, whatever the class
    assert!(over.iter().all(|&logs| logs > times / 3), "{over:?}");
}

/// The same with each cell counted second by second.
pub fn by_seconds<C: Calls>(seed: u64, times: usize) {
    let mut random = Random::new(seed);
    for i in 0..8 * times {
        claims_by_seconds::<C>(&random_week(&mut random, (i % 8) as u8, 40));
    }
}

/// All logs of at most `most` requests at up to three servers whose gaps are a second, one less than a day, a day and one more.
pub fn every_small_log<C: Calls>(most: usize) {
    let mut random = Random::new(704);
    let mut met = Met::default();
    for class in [0, 6, 7] {
        for server_count in 1..=3 {
            let header = Header { class, server_count, home: server_count / 2, id: [0; 16] };
            for requests in lists_of_gaps(server_count, &[1, DAY - 1, DAY, DAY + 1], most) {
                let length = room(&mut random, needed(server_count));
                met.count(&page::<C>(&mut random, &Log { header, requests }.bytes(), length));
            }
        }
    }
    met.exactly(&[0, 31], 1_000);
}

/// So many seconds up to one that is among them, in their order.
fn seconds(random: &mut Random, count: usize, last: u32) -> Vec<u32> {
    let mut seconds = BTreeSet::from([last]);
    while seconds.len() < count {
        seconds.insert(random.between(1, last as u64) as u32);
    }
    seconds.into_iter().collect()
}

/// The longest logs over 1, 2, 8 and 64 servers, spread over the week, over a day and over few seconds.
pub fn long_logs<C: Calls>(seed: u64, times: usize) {
    let mut random = Random::new(seed);
    for server_count in [1, 2, 8, 64] {
        for last in [WEEK, 2 * DAY, 3_000] {
            for i in 0..times {
                let header = Header { class: (i % 8) as u8, server_count, home: random.below(server_count as u64) as u8, id: [5; 16] };
                let seconds = seconds(&mut random, MOST_REQUESTS, last);
                let requests = seconds.into_iter().map(|second| Request { second, server: random.below(server_count as u64) as u16 }).collect();
                let log = Log { header, requests };
                assert_eq!(page::<C>(&mut random, &log.bytes(), LONGEST), Ok(needed(server_count) as u64));
                claims::<C>(&log);
            }
        }
    }
}

/// Every server asked for as soon as it can be and again as late as it can be, where holding costs less than a transfer all week: at each second as many
/// servers hold as can, so no corner is greater.
pub fn largest<C: Calls>() {
    for server_count in [1, 2, 10, 64] {
        let first = (1..server_count).map(|server| (server as u32, server as u16));
        let last = (0..server_count).map(|server| (WEEK - server_count as u32 + 1 + server as u32, server as u16));
        let log = log_of(7, server_count, &first.chain(last).collect::<Vec<_>>());
        let (figures, _) = claims::<C>(&log);
        // at second t at most t + 1 servers have been asked for, home at second 0 included, and at most WEEK - t are still to be
        let most = (0..WEEK).map(|t| (server_count as u64).min(t as u64 + 1).min((WEEK - t) as u64)).sum::<u64>();
        assert_eq!(figures[server_count as usize][7], most);
        for server in 0..server_count as usize {
            assert_eq!(figures[server][7], WEEK as u64 - server_count as u64 + 1);
            assert_eq!(figures[server][1..6], [DAY as u64; 5]);
        }
        if server_count == 64 {
            let sums = "   5527584 5529600 5529600 5529600 5529600 5529600 5527584 38703168\n";
            assert!(text::<C>(&log).ends_with(sums), "{}", text::<C>(&log));
        }
    }
}

#[cfg(test)]
mod tests {
    use super::*;

    #[test]
    fn simple() {
        samples::<Simple>();
        literal::<Simple>();
        empty::<Simple>();
        midnights::<Simple>();
        order::<Simple>();
        last_seconds::<Simple>();
        rooms::<Simple>();
        by_seconds::<Simple>(1, 10);
        largest::<Simple>();
    }
}
