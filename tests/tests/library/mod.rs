//! The proved library as an implementation of the calls: the static library of crate `exports`. With a price file a call has another name, and
//! so it has with an upload price.
//!
//! Nothing checks these declarations against crates/exports/src/lib.rt. A slice crosses as a pointer and a length of its own;
//! declared as `&[T]` it would go wrong where only one register is left, as Rust then puts both on the stack.

use reference::calls::Calls;
use reference::game::{Game, Winner};
use reference::log::Header;
use reference::online::{Cache, Served};
use reference::prices::{PriceFile, Upload};
use reference::Refusal;

#[cfg(no_exports)]
compile_error!("libexports.a is missing: run `rt lib` in crates/exports, or name its folder in EXPORTS_DIR");

/// An answer in numbers: a refusal's number and place, or number 0 and up to two values.
#[repr(C)]
struct Answer {
    number: u32,
    place: u64,
    value: u64,
    more: u64,
}

/// A file's id.
#[repr(C)]
struct Id {
    bytes: [u8; 16],
}

#[repr(C)]
struct FileHeader {
    class: u8,
    server_count: u8,
    home: u8,
    id: Id,
}

impl FileHeader {
    fn of(header: &Header) -> FileHeader {
        let Header { class, server_count, home, id } = *header;
        FileHeader { class, server_count, home, id: Id { bytes: id } }
    }
}

#[repr(C)]
struct ReadAnswer {
    header: FileHeader,
    answer: Answer,
}

#[repr(C)]
struct CacheAnswer {
    cache: Cache,
    answer: Answer,
}

#[repr(C)]
struct ScanAnswer {
    cache: Cache,
    answer: Answer,
    running: u64,
}

#[link(name = "exports", kind = "static")]
extern "C" {
    fn caching_sum(log: *const u8, log_length: usize) -> u32;
    fn caching_read(
        log: *const u8,
        log_length: usize,
        seconds: *mut u32,
        seconds_length: usize,
        servers: *mut u16,
        servers_length: usize,
    ) -> ReadAnswer;
    fn caching_read_with(
        prices: *const u8,
        prices_length: usize,
        log: *const u8,
        log_length: usize,
        seconds: *mut u32,
        seconds_length: usize,
        servers: *mut u16,
        servers_length: usize,
    ) -> ReadAnswer;
    fn caching_write(
        header: FileHeader,
        seconds: *const u32,
        seconds_length: usize,
        servers: *const u16,
        servers_length: usize,
        log: *mut u8,
        log_length: usize,
    ) -> Answer;
    fn caching_write_with(
        prices: *const u8,
        prices_length: usize,
        header: FileHeader,
        seconds: *const u32,
        seconds_length: usize,
        servers: *const u16,
        servers_length: usize,
        log: *mut u8,
        log_length: usize,
    ) -> Answer;
    fn caching_check(log: *const u8, log_length: usize, rows: *const u32, rows_length: usize) -> Answer;
    fn caching_check_with(
        prices: *const u8,
        prices_length: usize,
        log: *const u8,
        log_length: usize,
        rows: *const u32,
        rows_length: usize,
    ) -> Answer;
    fn caching_check_uploads(upload: u32, log: *const u8, log_length: usize, rows: *const u32, rows_length: usize) -> Answer;
    fn caching_check_uploads_with(
        prices: *const u8,
        prices_length: usize,
        upload: u32,
        log: *const u8,
        log_length: usize,
        rows: *const u32,
        rows_length: usize,
    ) -> Answer;
    fn caching_plan(
        log: *const u8,
        log_length: usize,
        marks: *mut u8,
        marks_length: usize,
        rows: *mut u32,
        rows_length: usize,
    ) -> Answer;
    fn caching_plan_with(
        prices: *const u8,
        prices_length: usize,
        log: *const u8,
        log_length: usize,
        marks: *mut u8,
        marks_length: usize,
        rows: *mut u32,
        rows_length: usize,
    ) -> Answer;
    fn caching_plan_uploads(
        upload: u32,
        log: *const u8,
        log_length: usize,
        marks: *mut u8,
        marks_length: usize,
        rows: *mut u32,
        rows_length: usize,
    ) -> Answer;
    fn caching_plan_uploads_with(
        prices: *const u8,
        prices_length: usize,
        upload: u32,
        log: *const u8,
        log_length: usize,
        marks: *mut u8,
        marks_length: usize,
        rows: *mut u32,
        rows_length: usize,
    ) -> Answer;
    fn caching_least(log: *const u8, log_length: usize, costs: *mut u64, costs_length: usize) -> Answer;
    fn caching_least_with(
        prices: *const u8,
        prices_length: usize,
        log: *const u8,
        log_length: usize,
        costs: *mut u64,
        costs_length: usize,
    ) -> Answer;
    fn caching_least_uploads(upload: u32, log: *const u8, log_length: usize, costs: *mut u64, costs_length: usize) -> Answer;
    fn caching_least_uploads_with(
        prices: *const u8,
        prices_length: usize,
        upload: u32,
        log: *const u8,
        log_length: usize,
        costs: *mut u64,
        costs_length: usize,
    ) -> Answer;
    fn caching_quote(log: *const u8, log_length: usize) -> Answer;
    fn caching_quote_with(prices: *const u8, prices_length: usize, log: *const u8, log_length: usize) -> Answer;
    fn caching_page(log: *const u8, log_length: usize, text: *mut u8, text_length: usize) -> Answer;
    fn caching_start(header: FileHeader) -> CacheAnswer;
    fn caching_start_with(prices: *const u8, prices_length: usize, header: FileHeader) -> CacheAnswer;
    fn caching_scan(cache: Cache, id: Id, second: u32, server: u16) -> ScanAnswer;
    fn caching_running(cache: Cache) -> Answer;
    fn caching_close(cache: Cache) -> CacheAnswer;
    fn caching_play(game: Game) -> Answer;
}

impl Answer {
    /// The two values, or the refusal. A refusal has values 0.
    fn outcome(self) -> Result<(u64, u64), Refusal> {
        if self.number == 0 {
            assert_eq!(self.place, 0);
            return Ok((self.value, self.more));
        }
        assert_eq!((self.value, self.more), (0, 0));
        Err(Refusal { number: self.number.try_into().unwrap(), place: self.place })
    }

    /// The first value, the second being 0.
    fn value(self) -> Result<u64, Refusal> {
        let (value, more) = self.outcome()?;
        assert_eq!(more, 0);
        Ok(value)
    }
}

pub struct Library;

// No exported function requires anything of its arguments. What is handed over are slices of ours, with their lengths.
impl Calls for Library {
    fn sum(file: &[u8]) -> u32 {
        unsafe { caching_sum(file.as_ptr(), file.len()) }
    }

    fn read(prices: PriceFile, file: &[u8], seconds: &mut [u32], servers: &mut [u16]) -> (Header, Result<u16, Refusal>) {
        let (log, length) = (file.as_ptr(), file.len());
        let (seconds, seconds_length) = (seconds.as_mut_ptr(), seconds.len());
        let (servers, servers_length) = (servers.as_mut_ptr(), servers.len());
        let ReadAnswer { header, answer } = match prices {
            None => unsafe { caching_read(log, length, seconds, seconds_length, servers, servers_length) },
            Some(file) => unsafe {
                caching_read_with(file.as_ptr(), file.len(), log, length, seconds, seconds_length, servers, servers_length)
            },
        };
        let header = Header { class: header.class, server_count: header.server_count, home: header.home, id: header.id.bytes };
        (header, answer.value().map(|count| count.try_into().unwrap()))
    }

    fn write(prices: PriceFile, header: &Header, seconds: &[u32], servers: &[u16], out: &mut [u8]) -> Result<u64, Refusal> {
        let header = FileHeader::of(header);
        let (seconds, seconds_length) = (seconds.as_ptr(), seconds.len());
        let (servers, servers_length) = (servers.as_ptr(), servers.len());
        let (out, length) = (out.as_mut_ptr(), out.len());
        let answer = match prices {
            None => unsafe { caching_write(header, seconds, seconds_length, servers, servers_length, out, length) },
            Some(file) => unsafe {
                caching_write_with(file.as_ptr(), file.len(), header, seconds, seconds_length, servers, servers_length, out, length)
            },
        };
        answer.value()
    }

    fn check(prices: PriceFile, upload: Upload, file: &[u8], rows: &[u32]) -> Result<u64, Refusal> {
        let (log, length) = (file.as_ptr(), file.len());
        let (rows, rows_length) = (rows.as_ptr(), rows.len());
        let answer = match (prices, upload) {
            (None, None) => unsafe { caching_check(log, length, rows, rows_length) },
            (None, Some(price)) => unsafe { caching_check_uploads(price, log, length, rows, rows_length) },
            (Some(file), None) => unsafe { caching_check_with(file.as_ptr(), file.len(), log, length, rows, rows_length) },
            (Some(file), Some(price)) => unsafe {
                caching_check_uploads_with(file.as_ptr(), file.len(), price, log, length, rows, rows_length)
            },
        };
        answer.value()
    }

    fn plan(prices: PriceFile, upload: Upload, file: &[u8], marks: &mut [u8], rows: &mut [u32]) -> Result<(u64, u32), Refusal> {
        let (log, length) = (file.as_ptr(), file.len());
        let (marks, marks_length) = (marks.as_mut_ptr(), marks.len());
        let (rows, rows_length) = (rows.as_mut_ptr(), rows.len());
        let answer = match (prices, upload) {
            (None, None) => unsafe { caching_plan(log, length, marks, marks_length, rows, rows_length) },
            (None, Some(price)) => unsafe { caching_plan_uploads(price, log, length, marks, marks_length, rows, rows_length) },
            (Some(file), None) => unsafe {
                caching_plan_with(file.as_ptr(), file.len(), log, length, marks, marks_length, rows, rows_length)
            },
            (Some(file), Some(price)) => unsafe {
                caching_plan_uploads_with(file.as_ptr(), file.len(), price, log, length, marks, marks_length, rows, rows_length)
            },
        };
        answer.outcome().map(|(cost, number)| (cost, number.try_into().unwrap()))
    }

    fn least(prices: PriceFile, upload: Upload, file: &[u8], costs: &mut [u64]) -> Result<u32, Refusal> {
        let (log, length) = (file.as_ptr(), file.len());
        let (costs, costs_length) = (costs.as_mut_ptr(), costs.len());
        let answer = match (prices, upload) {
            (None, None) => unsafe { caching_least(log, length, costs, costs_length) },
            (None, Some(price)) => unsafe { caching_least_uploads(price, log, length, costs, costs_length) },
            (Some(file), None) => unsafe { caching_least_with(file.as_ptr(), file.len(), log, length, costs, costs_length) },
            (Some(file), Some(price)) => unsafe {
                caching_least_uploads_with(file.as_ptr(), file.len(), price, log, length, costs, costs_length)
            },
        };
        answer.value().map(|count| count.try_into().unwrap())
    }

    fn quote(prices: PriceFile, file: &[u8]) -> Result<u64, Refusal> {
        let (log, length) = (file.as_ptr(), file.len());
        let answer = match prices {
            None => unsafe { caching_quote(log, length) },
            Some(file) => unsafe { caching_quote_with(file.as_ptr(), file.len(), log, length) },
        };
        answer.value()
    }

    fn page(file: &[u8], text: &mut [u8]) -> Result<u64, Refusal> {
        unsafe { caching_page(file.as_ptr(), file.len(), text.as_mut_ptr(), text.len()) }.value()
    }

    fn start(prices: PriceFile, header: &Header) -> (Cache, Result<(), Refusal>) {
        let header = FileHeader::of(header);
        let CacheAnswer { cache, answer } = match prices {
            None => unsafe { caching_start(header) },
            Some(file) => unsafe { caching_start_with(file.as_ptr(), file.len(), header) },
        };
        (cache, answer.value().map(|value| assert_eq!(value, 0)))
    }

    fn scan(cache: &Cache, id: [u8; 16], second: u32, server: u16) -> (Cache, Result<Served, Refusal>) {
        let ScanAnswer { cache, answer, running } = unsafe { caching_scan(*cache, Id { bytes: id }, second, server) };
        let outcome = answer.outcome();
        if outcome.is_err() {
            assert_eq!(running, 0);
        }
        let served = outcome.map(|(sent, source)| match sent {
            0 => {
                assert_eq!(source, 0);
                Served { source: None, running }
            }
            1 => Served { source: Some(source.try_into().unwrap()), running },
            _ => panic!("neither kept nor sent: {sent}"),
        });
        (cache, served)
    }

    fn running(cache: &Cache) -> Result<u64, Refusal> {
        unsafe { caching_running(*cache) }.value()
    }

    fn close(cache: &Cache) -> (Cache, Result<u64, Refusal>) {
        let CacheAnswer { cache, answer } = unsafe { caching_close(*cache) };
        (cache, answer.value())
    }

    fn play(game: &Game) -> Result<Winner, Refusal> {
        unsafe { caching_play(*game) }.value().map(|value| match value {
            0 => Winner::Guest,
            1 => Winner::Keeper,
            _ => panic!("neither wins: {value}"),
        })
    }
}
