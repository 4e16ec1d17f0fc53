//! 02's request 01: the week page, how long each server holds the file under the plan, day by day, and what the program prints for any input.

use crate::checker::Row;
use crate::log;
use crate::planner;
use crate::prices::Table;
use crate::sheet::refusal_line;
use crate::{refuse, Refusal};

/// The seconds of a day; the first day is from second 0.
pub const DAY: u32 = 86_400;

/// The last second that a request of a page may have.
pub const WEEK: u32 = 604_800;

/// How many of the seconds from one up to another, which is left out, are of a day; the first is day 0.
fn in_day(day: u32, from: u32, to: u32) -> u32 {
    let (begins, ends) = (DAY * day, DAY * (day + 1));
    to.min(ends).saturating_sub(from.max(begins))
}

/// The seconds of each day that the holds at a server cover. No two of a plan's holds at one server have a second in common.
fn days(rows: &[Row], server: u32) -> [u32; 7] {
    let mut days = [0; 7];
    for (day, cell) in (0..).zip(&mut days) {
        for row in rows {
            match *row {
                Row::Hold { server: at, from, to } if at == server => *cell += in_day(day, from, to),
                _ => {}
            }
        }
    }
    days
}

/// What a line is headed by in 2 columns, seven cells of 8 and a sum of 9.
fn line(head: &str, days: [u32; 7]) -> String {
    let cells: String = days.iter().map(|cell| format!("{cell:>8}")).collect();
    format!("{head:>2}{cells}{:>9}\n", days.iter().sum::<u32>())
}

/// The page of a plan's rows: a line for each server, then one of column sums.
fn page(rows: &[Row], server_count: u8) -> String {
    let lines: Vec<[u32; 7]> = (0..server_count).map(|server| days(rows, server as u32)).collect();
    let mut text: String = lines.iter().enumerate().map(|(server, days)| line(&server.to_string(), *days)).collect();
    let mut sums = [0; 7];
    for day in 0..7 {
        sums[day] = lines.iter().map(|days| days[day]).sum();
    }
    text += &line("", sums);
    text
}

/// The page of a log in a file, or the first of 1 to 13 and 36 that holds.
pub fn page_of(file: &[u8]) -> Result<String, Refusal> {
    let table = Table::built_in();
    let log = log::read(table.classes(), file)?;
    if log.last_second() > WEEK {
        return refuse(36, 0);
    }
    let plan = planner::plan(table.of(log.header.class), None, &log);
    Ok(page(&plan.rows, log.header.server_count))
}

/// What the program prints for an input.
pub fn printed(input: &[u8]) -> String {
    page_of(input).unwrap_or_else(refusal_line)
}

#[cfg(test)]
mod tests {
    use super::*;
    use crate::log::{Header, Log, Request};
    use crate::random::{random_week, Random};
    use std::collections::BTreeSet;

    fn log_of(class: u8, server_count: u8, requests: &[(u32, u16)]) -> Log {
        let header = Header { class, server_count, home: 0, id: [0; 16] };
        Log { header, requests: requests.iter().map(|&(second, server)| Request { second, server }).collect() }
    }

    #[test]
    fn seconds_of_a_day() {
        assert_eq!((0..7).map(|day| in_day(day, 0, 200_000)).collect::<Vec<_>>(), [86_400, 86_400, 27_200, 0, 0, 0, 0]);
        assert_eq!((0..7).map(|day| in_day(day, 86_399, 86_401)).collect::<Vec<_>>(), [1, 1, 0, 0, 0, 0, 0]);
        assert_eq!((0..7).map(|day| in_day(day, 0, 86_400)).collect::<Vec<_>>(), [86_400, 0, 0, 0, 0, 0, 0]);
        assert_eq!((0..7).map(|day| in_day(day, 86_400, 86_401)).collect::<Vec<_>>(), [0, 1, 0, 0, 0, 0, 0]);
        assert_eq!((0..7).map(|day| in_day(day, 604_799, 604_800)).collect::<Vec<_>>(), [0, 0, 0, 0, 0, 0, 1]);
        assert_eq!((0..7).map(|day| in_day(day, 5, 604_800)).sum::<u32>(), 604_795);
    }

    /// The seconds that holds at a server cover, as a set.
    fn days_by_seconds(rows: &[Row], server: u32) -> [u32; 7] {
        let mut seconds = BTreeSet::new();
        for row in rows {
            match *row {
                Row::Hold { server: at, from, to } if at == server => seconds.extend(from..to),
                _ => {}
            }
        }
        let mut days = [0; 7];
        seconds.iter().for_each(|second| days[(second / DAY) as usize] += 1);
        days
    }

    #[test]
    fn days_are_those_of_a_set_of_seconds() {
        let mut random = Random::new(7);
        for i in 0..24 {
            let log = random_week(&mut random, i % 8, 30);
            let rows = planner::plan(Table::built_in().of(log.header.class), None, &log).rows;
            for server in 0..log.header.server_count.min(8) as u32 {
                assert_eq!(days(&rows, server), days_by_seconds(&rows, server), "{log:?} {server}");
            }
        }
    }

    #[test]
    fn a_line() {
        assert_eq!(line("7", [1, 22, 333, 4_444, 55_555, 86_400, 0]), " 7       1      22     333    4444   55555   86400       0   146755\n");
        assert_eq!(line("63", [0; 7]), "63       0       0       0       0       0       0       0        0\n");
        assert_eq!(line("", [5_529_600; 7]), "   5529600 5529600 5529600 5529600 5529600 5529600 5529600 38707200\n");
    }

    #[test]
    fn week_b() {
        let log = log_of(0, 4, &[(5, 1), (8, 2), (11, 3), (14, 0), (26, 1), (32, 1), (40, 2)]);
        let lines = [
            " 0      14       0       0       0       0       0       0       14\n",
            " 1      35       0       0       0       0       0       0       35\n",
            " 2       0       0       0       0       0       0       0        0\n",
            " 3       0       0       0       0       0       0       0        0\n",
            "        49       0       0       0       0       0       0       49\n",
        ];
        assert_eq!(printed(&log.bytes()), lines.concat());
    }

    #[test]
    fn refusals() {
        assert_eq!(printed(b""), "refused input 1 place 0\n");
        assert_eq!(printed(&log_of(8, 2, &[]).bytes()), "refused input 3 place 0\n");
        assert_eq!(printed(&log_of(0, 2, &[(5, 0), (5, 1)]).bytes()), "refused input 13 place 2\n");
        assert_eq!(printed(&log_of(0, 2, &[(604_801, 1)]).bytes()), "refused input 36 place 0\n");
        assert_eq!(printed(&log_of(0, 2, &[(604_800, 1)]).bytes()).lines().count(), 3);
        assert_eq!(printed(&log_of(0, 2, &[(604_801, 1), (604_801, 1)]).bytes()), "refused input 13 place 2\n");
    }
}
