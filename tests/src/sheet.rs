//! 01, 'The sheet', with the last line of 02's request 02, the price file of its request 05 and the old logs of its request 10: what the program
//! prints for any input.

use crate::log::{self, Log};
use crate::online::start_for_log;
use crate::planner::{self, letter};
use crate::prices::{PriceFile, Table};
use crate::Refusal;

/// The sheet of a log.
pub fn sheet(table: &Table, log: &Log) -> String {
    let prices = table.of(log.header.class);
    let plan = planner::plan(prices, None, log);
    let least = planner::least(prices, None, log);
    let mut cache = start_for_log(table, &log.header).unwrap();
    let mut text = String::from("scan second station plan live least bill\n");
    for (i, request) in log.requests.iter().enumerate() {
        let (next, served) = cache.scan(log.header.id, request.second, request.server);
        let served = served.unwrap();
        let live = letter(served.mark()) as char;
        cache = next;
        let mark = letter(plan.marks[i]) as char;
        let (number, second, server) = (i + 1, request.second, request.server);
        text += &format!("{number} {second} {server} {mark} {live} {} {}\n", least[i + 1], served.running);
    }
    text + &format!("rows {}\nclose {}\n", plan.rows.len(), cache.close().1.unwrap())
}

/// The one line of a refusal.
pub fn refusal_line(refusal: Refusal) -> String {
    let list = match refusal.number {
        31..=35 => "state",
        _ => "input",
    };
    format!("refused {list} {} place {}\n", refusal.number, refusal.place)
}

fn sheet_of(prices: PriceFile, input: &[u8]) -> Result<String, Refusal> {
    let table = Table::read(prices)?;
    let log = log::read(table.classes(), input)?;
    Ok(sheet(&table, &log))
}

/// What the program prints for a price file, or none, and an input.
pub fn printed(prices: PriceFile, input: &[u8]) -> String {
    sheet_of(prices, input).unwrap_or_else(refusal_line)
}
