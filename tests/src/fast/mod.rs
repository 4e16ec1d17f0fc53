//! The calls once more, as one would write them for speed: what the benchmark runs beside the library.
//! They go through the same comparison with the simple version as the library does.

pub mod checker;
pub mod game;
pub mod log;
pub mod online;
pub mod planner;
mod prices;
pub mod quote;
pub mod season;
pub mod week;

use crate::calls::Calls;
use crate::game::{Game, Winner};
use crate::log::Header;
use crate::online::{or_zeros, Cache, Served};
use crate::prices::{PriceFile, Upload};
use crate::Refusal;

/// The fast implementation.
pub struct Fast;

impl Calls for Fast {
    fn sum(file: &[u8]) -> u32 {
        log::sum(file)
    }

    fn read(prices: PriceFile, file: &[u8], seconds: &mut [u32], servers: &mut [u16]) -> (Header, Result<u16, Refusal>) {
        log::read(prices, file, seconds, servers)
    }

    fn write(prices: PriceFile, header: &Header, seconds: &[u32], servers: &[u16], out: &mut [u8]) -> Result<u64, Refusal> {
        log::write(prices, header, seconds, servers, out)
    }

    fn check(prices: PriceFile, upload: Upload, file: &[u8], rows: &[u32]) -> Result<u64, Refusal> {
        checker::check(prices, upload, file, rows)
    }

    fn plan(prices: PriceFile, upload: Upload, file: &[u8], marks: &mut [u8], rows: &mut [u32]) -> Result<(u64, u32), Refusal> {
        planner::plan(prices, upload, file, marks, rows)
    }

    fn least(prices: PriceFile, upload: Upload, file: &[u8], costs: &mut [u64]) -> Result<u32, Refusal> {
        planner::least(prices, upload, file, costs)
    }

    fn quote(prices: PriceFile, file: &[u8]) -> Result<u64, Refusal> {
        quote::quote(prices, file)
    }

    fn page(file: &[u8], text: &mut [u8]) -> Result<u64, Refusal> {
        week::page(file, text)
    }

    fn start(prices: PriceFile, header: &Header) -> (Cache, Result<(), Refusal>) {
        or_zeros(online::start(prices, header))
    }

    fn scan(cache: &Cache, id: [u8; 16], second: u32, server: u16) -> (Cache, Result<Served, Refusal>) {
        let mut next = *cache;
        let served = online::scan(&mut next, id, second, server);
        (next, served)
    }

    fn running(cache: &Cache) -> Result<u64, Refusal> {
        online::running(cache)
    }

    fn close(cache: &Cache) -> (Cache, Result<u64, Refusal>) {
        let mut next = *cache;
        let cost = online::close(&mut next);
        (next, cost)
    }

    fn play(game: &Game) -> Result<Winner, Refusal> {
        game::play(game)
    }
}
