//! Document 01, with what has landed of 02, implemented a second time, from their words and from nothing else, to compare the proved library with.
//!
//! It is simple on purpose: it allocates, and takes the plain way where there is one. What the benchmark
//! runs beside the library is in `fast`, and is compared with the simple version here.
//!
//! Words are those of the repository: request (01: scan), server (station), hold (stay), transfer (send), cost (bill).

pub mod calls;
pub mod checker;
pub mod compare;
pub mod fast;
pub mod game;
pub mod log;
pub mod online;
pub mod planner;
pub mod prices;
pub mod quote;
pub mod random;
pub mod search;
pub mod season;
pub mod sheet;
pub mod week;

/// A refusal: 01's number and its place.
#[derive(Clone, Copy, Debug, PartialEq, Eq, Hash)]
pub struct Refusal {
    pub number: u8,
    pub place: u64,
}

/// A refusal of a given number and place.
pub fn refuse<T>(number: u8, place: usize) -> Result<T, Refusal> {
    Err(Refusal { number, place: place as u64 })
}
