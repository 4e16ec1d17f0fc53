//! The public calls over lent outputs. An accepted call writes its answer and zeros each lent output beyond it;
//! a refused one leaves them all as they were.

use crate::checker::{self, flat};
use crate::game::{self, Game, Winner};
use crate::log::{self, Header, Log};
use crate::online::{self, Cache, Served};
use crate::planner::{self, letter};
use crate::prices::{check_upload, PriceFile, Prices, Table, Upload};
use crate::{quote, refuse, week, Refusal};

/// An implementation of the public calls. Those that need prices take a price file or none, and judge it at each call; those about schedules take an
/// upload price or none, and judge that after the log. The page takes neither.
pub trait Calls {
    fn sum(file: &[u8]) -> u32;

    /// A header, of zeros if refused, and the number of requests.
    fn read(prices: PriceFile, file: &[u8], seconds: &mut [u32], servers: &mut [u16]) -> (Header, Result<u16, Refusal>);

    /// The length of the log.
    fn write(prices: PriceFile, header: &Header, seconds: &[u32], servers: &[u16], out: &mut [u8]) -> Result<u64, Refusal>;

    /// The cost of the rows.
    fn check(prices: PriceFile, upload: Upload, file: &[u8], rows: &[u32]) -> Result<u64, Refusal>;

    /// The cost and the number of rows.
    fn plan(prices: PriceFile, upload: Upload, file: &[u8], marks: &mut [u8], rows: &mut [u32]) -> Result<(u64, u32), Refusal>;

    /// The number of least costs: one for none, one, .. and all requests.
    fn least(prices: PriceFile, upload: Upload, file: &[u8], costs: &mut [u64]) -> Result<u32, Refusal>;

    /// The quote.
    fn quote(prices: PriceFile, file: &[u8]) -> Result<u64, Refusal>;

    /// The length of the page, of a log of the built-in table.
    fn page(file: &[u8], text: &mut [u8]) -> Result<u64, Refusal>;

    /// A state for what a log's header says, of zeros if refused.
    fn start(prices: PriceFile, header: &Header) -> (Cache, Result<(), Refusal>);

    /// A request of the file that has an id.
    fn scan(cache: &Cache, id: [u8; 16], second: u32, server: u16) -> (Cache, Result<Served, Refusal>);

    /// The running cost, of a closed state too.
    fn running(cache: &Cache) -> Result<u64, Refusal>;

    /// The closing cost.
    fn close(cache: &Cache) -> (Cache, Result<u64, Refusal>);

    /// Who can force a win.
    fn play(game: &Game) -> Result<Winner, Refusal>;
}

/// The simple implementation.
pub struct Simple;

/// 31, for an output of a length and the length that is needed.
fn check_room(length: usize, needed: usize) -> Result<(), Refusal> {
    if length < needed {
        return refuse(31, needed);
    }
    Ok(())
}

fn put<T: Copy + Default>(out: &mut [T], answer: &[T]) {
    out.fill(T::default());
    out[..answer.len()].copy_from_slice(answer);
}

fn accepted(prices: PriceFile, file: &[u8]) -> Result<(Prices, Log), Refusal> {
    let table = Table::read(prices)?;
    let log = log::read(table.classes(), file)?;
    Ok((table.of(log.header.class), log))
}

fn read_accepted(prices: PriceFile, file: &[u8], seconds: &mut [u32], servers: &mut [u16]) -> Result<(Header, u16), Refusal> {
    let (_, log) = accepted(prices, file)?;
    check_room(seconds.len(), log.requests.len())?;
    check_room(servers.len(), log.requests.len())?;
    put(seconds, &log.seconds());
    put(servers, &log.servers());
    Ok((log.header, log.requests.len() as u16))
}

impl Calls for Simple {
    fn sum(file: &[u8]) -> u32 {
        log::sum(file)
    }

    fn read(prices: PriceFile, file: &[u8], seconds: &mut [u32], servers: &mut [u16]) -> (Header, Result<u16, Refusal>) {
        match read_accepted(prices, file, seconds, servers) {
            Ok((header, count)) => (header, Ok(count)),
            Err(refusal) => (Header::default(), Err(refusal)),
        }
    }

    fn write(prices: PriceFile, header: &Header, seconds: &[u32], servers: &[u16], out: &mut [u8]) -> Result<u64, Refusal> {
        let file = log::write(&Table::read(prices)?, header, seconds, servers)?;
        check_room(out.len(), file.len())?;
        put(out, &file);
        Ok(file.len() as u64)
    }

    fn check(prices: PriceFile, upload: Upload, file: &[u8], rows: &[u32]) -> Result<u64, Refusal> {
        let (prices, log) = accepted(prices, file)?;
        check_upload(upload)?;
        checker::check(prices, upload, &log, rows)
    }

    fn plan(prices: PriceFile, upload: Upload, file: &[u8], marks: &mut [u8], rows: &mut [u32]) -> Result<(u64, u32), Refusal> {
        let (prices, log) = accepted(prices, file)?;
        check_upload(upload)?;
        let plan = planner::plan(prices, upload, &log);
        check_room(marks.len(), plan.marks.len())?;
        check_room(rows.len(), 4 * plan.rows.len())?;
        put(marks, &plan.marks.iter().map(|&mark| letter(mark)).collect::<Vec<_>>());
        put(rows, &flat(&plan.rows));
        Ok((plan.cost, plan.rows.len() as u32))
    }

    fn least(prices: PriceFile, upload: Upload, file: &[u8], costs: &mut [u64]) -> Result<u32, Refusal> {
        let (prices, log) = accepted(prices, file)?;
        check_upload(upload)?;
        let least = planner::least(prices, upload, &log);
        check_room(costs.len(), least.len())?;
        put(costs, &least);
        Ok(least.len() as u32)
    }

    fn quote(prices: PriceFile, file: &[u8]) -> Result<u64, Refusal> {
        let (prices, log) = accepted(prices, file)?;
        Ok(quote::quote(prices, &log).total())
    }

    fn page(file: &[u8], text: &mut [u8]) -> Result<u64, Refusal> {
        let page = week::page_of(file)?;
        check_room(text.len(), page.len())?;
        put(text, page.as_bytes());
        Ok(page.len() as u64)
    }

    fn start(prices: PriceFile, header: &Header) -> (Cache, Result<(), Refusal>) {
        online::or_zeros(Table::read(prices).and_then(|table| online::start(&table, header)))
    }

    fn scan(cache: &Cache, id: [u8; 16], second: u32, server: u16) -> (Cache, Result<Served, Refusal>) {
        cache.scan(id, second, server)
    }

    fn running(cache: &Cache) -> Result<u64, Refusal> {
        cache.running()
    }

    fn close(cache: &Cache) -> (Cache, Result<u64, Refusal>) {
        cache.close()
    }

    fn play(game: &Game) -> Result<Winner, Refusal> {
        game::play(game)
    }
}
