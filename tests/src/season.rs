//! 02's request 12: the report of a season's logs, which stand end to end, and what the program prints for any input.

use crate::log::{self, number32, Log};
use crate::online::start_for_log;
use crate::planner;
use crate::prices::Table;
use crate::{refuse, Refusal};
use std::collections::BTreeMap;
use std::fmt;

/// With one log more, that one is refused with 45.
pub const MOST_LOGS: u64 = 4_096;

/// An accepted log: its place in the input, from 1, and its costs.
#[derive(Clone, Copy, Debug, PartialEq, Eq)]
pub struct Costs {
    pub place: u64,
    pub running: u64,
    pub least: u64,
}

impl Costs {
    /// Whether the running cost is more times the least cost than another's.
    fn exceeds(&self, other: &Costs) -> bool {
        self.running as u128 * other.least as u128 > other.running as u128 * self.least as u128
    }
}

/// The figures of a season.
#[derive(Clone, Debug, Default, PartialEq, Eq)]
pub struct Report {
    pub accepted: u64,
    /// how often each number was met
    pub refused: BTreeMap<u8, u64>,
    /// the totals over the accepted logs
    pub least: u64,
    pub running: u64,
    pub worst: Option<Costs>,
}

/// The lines that the program prints.
impl fmt::Display for Report {
    fn fmt(&self, text: &mut fmt::Formatter) -> fmt::Result {
        writeln!(text, "accepted {}", self.accepted)?;
        for (number, count) in &self.refused {
            writeln!(text, "refused {number} {count}")?;
        }
        writeln!(text, "least {}", self.least)?;
        writeln!(text, "running {}", self.running)?;
        match self.worst {
            Some(Costs { place, running, least }) => writeln!(text, "worst {place} {running} {least}"),
            None => Ok(()),
        }
    }
}

/// How many of some bytes are of the log that they begin with: as many as its header says, or all where there are fewer. A header is
/// looked at whole, whatever it says.
fn length(rest: &[u8]) -> usize {
    if rest.len() < 40 {
        return rest.len();
    }
    (number32(rest, 16) as usize).clamp(40, rest.len())
}

/// The log at a place, in its bytes, or the first of 45 and 1 to 13 that holds.
fn read(place: u64, bytes: &[u8]) -> Result<Log, Refusal> {
    if place > MOST_LOGS {
        return refuse(45, 0);
    }
    log::read(Table::built_in().classes(), bytes)
}

/// The costs of a whole log, by the built-in table, class 7 with its old prices.
fn costs(place: u64, log: &Log) -> Costs {
    let table = Table::built_in();
    let least = planner::least(table.of(log.header.class), None, log)[log.requests.len()];
    let mut cache = start_for_log(&table, &log.header).unwrap();
    for request in &log.requests {
        let (next, served) = cache.scan(log.header.id, request.second, request.server);
        served.unwrap();
        cache = next;
    }
    Costs { place, running: cache.running().unwrap(), least }
}

/// The first whose ratio no other's exceeds.
fn worst(logs: &[Costs]) -> Option<Costs> {
    logs.iter().find(|log| !logs.iter().any(|other| other.exceeds(log))).copied()
}

pub fn report(input: &[u8]) -> Report {
    let mut report = Report::default();
    let mut with_ratio = vec![];
    let mut rest = input;
    let mut place = 0;
    while !rest.is_empty() {
        place += 1;
        let (bytes, after) = rest.split_at(length(rest));
        match read(place, bytes) {
            Ok(log) => {
                let costs = costs(place, &log);
                report.accepted += 1;
                report.least += costs.least;
                report.running += costs.running;
                if !log.requests.is_empty() {
                    with_ratio.push(costs);
                }
            }
            Err(refusal) => {
                *report.refused.entry(refusal.number).or_default() += 1;
                if !(10..=13).contains(&refusal.number) {
                    break;
                }
            }
        }
        rest = after;
    }
    report.worst = worst(&with_ratio);
    report
}

/// What the program prints for an input.
pub fn printed(input: &[u8]) -> String {
    report(input).to_string()
}

#[cfg(test)]
mod tests {
    use super::*;
    use crate::compare::weeks::{log_of, WEEKS};
    use crate::online::history;
    use crate::planner::plan_by_all_markings;
    use crate::random::{random_log, Random};

    #[test]
    fn lengths() {
        let file = log_of(0, 2, &[(5, 1), (9, 0)]).bytes();
        assert_eq!((length(&[]), length(&file[..1]), length(&file[..39]), length(&file[..40])), (0, 1, 39, 40));
        assert_eq!((length(&file[..51]), length(&file), length(&[&file[..], &[0; 100]].concat())), (51, 52, 52));
        for (said, expected) in [(0u32, 40), (39, 40), (41, 41), (152, 152), (153, 152), (u32::MAX, 152)] {
            let mut other = [&file[..], &[0; 100]].concat();
            other[16..20].copy_from_slice(&said.to_le_bytes());
            assert_eq!(length(&other), expected);
        }
    }

    #[test]
    fn lines() {
        let none = Report::default();
        assert_eq!(none.to_string(), "accepted 0\nleast 0\nrunning 0\n");
        let worst = Some(Costs { place: 9, running: 300, least: 200 });
        let all = Report { accepted: 7, refused: BTreeMap::from([(13, 1), (2, 1), (10, 65)]), least: 1_000, running: 2_000, worst };
        assert_eq!(all.to_string(), "accepted 7\nrefused 2 1\nrefused 10 65\nrefused 13 1\nleast 1000\nrunning 2000\nworst 9 300 200\n");
    }

    #[test]
    fn ratios() {
        let of = |pairs: &[(u64, u64)]| {
            let logs: Vec<Costs> = (1..).zip(pairs).map(|(place, &(running, least))| Costs { place, running, least }).collect();
            worst(&logs).map_or(0, |costs| costs.place)
        };
        assert_eq!(of(&[]), 0);
        assert_eq!(of(&[(1, 1)]), 1);
        assert_eq!(of(&[(62, 42), (31, 21)]), 1);
        assert_eq!(of(&[(31, 21), (62, 42)]), 1);
        assert_eq!(of(&[(5, 5), (31, 21), (62, 42), (7, 6)]), 2);
        assert_eq!(of(&[(136, 89), (42, 22)]), 2);
        assert_eq!(of(&[(42, 22), (136, 89)]), 1);
        // one number in 64 bits of floating point
        let (low, high) = ((281_968_864, 253_531_357), (277_591_221, 249_595_214));
        assert_eq!(low.0 as f64 / low.1 as f64, high.0 as f64 / high.1 as f64);
        assert_eq!((of(&[low, high]), of(&[high, low])), (2, 1));
    }

    #[test]
    fn costs_by_the_plainest_ways() {
        let mut random = Random::new(121);
        let table = Table::built_in();
        let weeks = WEEKS.iter().map(|week| week.log());
        let others: Vec<Log> = (0..400).map(|_| random_log(&mut random, &table, 9)).collect();
        for log in weeks.chain(others).filter(|log| log.last_second() < 100_000) {
            let prices = table.of(log.header.class);
            let history = history(prices, log.header.home, &log.requests);
            let running = prices.cost(history.held as u64, history.transfers as u64);
            let least = plan_by_all_markings(prices, None, &log).cost;
            assert_eq!(costs(3, &log), Costs { place: 3, running, least }, "{log:?}");
        }
    }
}
