//! How much stack the calls take, as include/caching.h says: each on a thread that has little more, without a price file and with the longest, those
//! about schedules without an upload price and with some.

mod library;

use library::Library;
use reference::calls::Calls;
use reference::game::{Game, Winner};
use reference::log::{Header, Log, Request};
use reference::prices::{encode, Upload, HIGHEST};
use reference::refuse;
use std::thread::Builder;

/// A call on a stack of so many bytes, those of the thread itself included: where they do not suffice, the system ends the test.
fn on(bytes: usize, call: fn()) {
    Builder::new().stack_size(bytes).spawn(call).unwrap().join().unwrap();
}

/// The longest log, of the most servers, with a gap before each request.
fn with_gap(gap: u32) -> Vec<u8> {
    let header = Header { class: 7, server_count: 64, home: 63, id: [7; 16] };
    let requests = (1..=2_048).map(|i| Request { second: gap * i, server: (29 * i % 64) as u16 }).collect();
    Log { header, requests }.bytes()
}

/// Over nearly all seconds. Its class is no longer sold without a price file, so what is written or started is of another.
fn longest() -> Vec<u8> {
    with_gap(1_953)
}

/// The longest price file.
fn prices() -> Vec<u8> {
    encode(&[(1, HIGHEST); 256])
}

/// No upload price, one at which all is uploaded, one at which copies are held too, and the highest, at which there are transfers.
const UPLOADS: [Upload; 4] = [None, Some(1), Some(200_000), Some(HIGHEST)];

#[test]
fn plan() {
    on(110_000, || {
        for prices in [None, Some(&prices()[..])] {
            for upload in UPLOADS {
                assert!(Library::plan(prices, upload, &longest(), &mut vec![0; 2_048], &mut vec![0; 16_384]).is_ok());
            }
        }
    });
}

#[test]
fn least() {
    on(60_000, || {
        for prices in [None, Some(&prices()[..])] {
            for upload in UPLOADS {
                assert_eq!(Library::least(prices, upload, &longest(), &mut vec![0; 2_049]), Ok(2_049));
            }
        }
    });
}

#[test]
fn check() {
    on(20_000, || {
        for prices in [None, Some(&prices()[..])] {
            for upload in UPLOADS {
                assert!(Library::check(prices, upload, &longest(), &[0, 63, 0, 3_999_744]).is_err());
            }
        }
    });
}

#[test]
fn quote() {
    on(20_000, || {
        for prices in [None, Some(&prices()[..])] {
            assert!(Library::quote(prices, &longest()).is_ok());
        }
    });
}

#[test]
fn page() {
    on(184_000, || {
        assert_eq!(Library::page(&with_gap(295), &mut vec![0; 4_420]), Ok(4_420));
        assert_eq!(Library::page(&longest(), &mut vec![0; 4_420]), refuse(36, 0));
    });
}

#[test]
fn read_and_write() {
    on(20_000, || {
        let (mut seconds, mut servers) = (vec![0; 2_048], vec![0; 2_048]);
        for prices in [None, Some(&prices()[..])] {
            let (header, count) = Library::read(prices, &longest(), &mut seconds, &mut servers);
            assert_eq!(count, Ok(2_048));
            let header = Header { class: 6, ..header };
            assert_eq!(Library::write(prices, &header, &seconds, &servers, &mut vec![0; 12_328]), Ok(12_328));
        }
    });
}

#[test]
fn play() {
    on(20_000, || {
        assert_eq!(Library::play(&Game::of([3, 3, 3, 3, 7, 45, 29])), Ok(Winner::Keeper));
        assert_eq!(Library::play(&Game::of([3, 3, 3, 3, 7, 31, 20])), Ok(Winner::Guest));
    });
}

#[test]
fn online() {
    on(20_000, || {
        for prices in [None, Some(&prices()[..])] {
            let header = Header { class: 6, server_count: 64, home: 63, id: [7; 16] };
            let (cache, _) = Library::start(prices, &header);
            let (cache, served) = Library::scan(&cache, header.id, 1, 0);
            assert!(served.is_ok());
            assert!(Library::close(&cache).1.is_ok());
        }
    });
}
