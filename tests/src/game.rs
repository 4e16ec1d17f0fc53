//! 02's request 13: a keeper sets how long copies stay, a guest then picks the next request. Who can force a win is found by trying everything, and each
//! least cost by search over all sets of servers second by second.

use crate::log::{Header, Log, Request};
use crate::prices::{Prices, HIGHEST};
use crate::search::least_by_sets;
use crate::{refuse, Refusal};
use std::collections::{BTreeMap, BTreeSet};

/// A game, in the library's order of fields.
#[repr(C)]
#[derive(Clone, Copy, Debug, PartialEq, Eq)]
pub struct Game {
    /// how many; home is 0
    pub servers: u32,
    /// how many
    pub requests: u32,
    /// the largest gap, in seconds
    pub largest: u32,
    pub prices: Prices,
    /// the limit is p over q
    pub p: u32,
    pub q: u32,
}

#[derive(Clone, Copy, Debug, PartialEq, Eq)]
pub enum Winner {
    /// where q times the running cost is at most p times the least cost, after each request
    Keeper,
    Guest,
}

/// The most servers, the most requests, and the most that the largest gap may be.
pub const MOST: u32 = 3;
/// The highest p, and the highest q.
pub const HIGHEST_TERM: u32 = 1_000;

/// The highest that each of the seven numbers may be; the lowest is 1.
pub const BOUNDS: [u32; 7] = [MOST, MOST, MOST, HIGHEST, HIGHEST, HIGHEST_TERM, HIGHEST_TERM];

impl Game {
    pub fn of(numbers: [u32; 7]) -> Game {
        let [servers, requests, largest, hold, transfer, p, q] = numbers;
        Game { servers, requests, largest, prices: Prices { hold, transfer }, p, q }
    }

    pub fn numbers(&self) -> [u32; 7] {
        let Game { servers, requests, largest, prices, p, q } = *self;
        [servers, requests, largest, prices.hold, prices.transfer, p, q]
    }

    /// 46: one of the seven numbers is out of range.
    pub fn check(&self) -> Result<(), Refusal> {
        if self.numbers().iter().zip(BOUNDS).any(|(&number, highest)| number < 1 || number > highest) {
            return refuse(46, 0);
        }
        Ok(())
    }

    /// What the guest can pick: a gap and a server.
    fn moves(&self) -> Vec<(u32, u16)> {
        (1..=self.largest).flat_map(|gap| (0..self.servers as u16).map(move |server| (gap, server))).collect()
    }

    /// The least cost of some requests.
    fn least(&self, requests: &[Request]) -> u64 {
        let header = Header { class: 0, server_count: self.servers as u8, home: 0, id: [0; 16] };
        least_by_sets(self.prices, None, &Log { header, requests: requests.to_vec() })
    }

    /// Whether a running cost is within the limit of a least cost.
    fn within(&self, running: u64, least: u64) -> bool {
        self.q as u64 * running <= self.p as u64 * least
    }
}

/// How many seconds each standing copy stays but the last requested one, which stays to the next request.
type Stays = BTreeMap<u16, u32>;

/// A game after some requests.
#[derive(Clone, Debug, PartialEq, Eq)]
struct Play {
    requests: Vec<Request>,
    /// the servers where a copy stands at the last request's second, those that it was sent from and to among them
    standing: BTreeSet<u16>,
    /// the cost up to that second
    running: u64,
}

impl Play {
    fn start() -> Play {
        Play { requests: vec![], standing: BTreeSet::from([0]), running: 0 }
    }

    /// The last request; before any it is home's at second 0.
    fn last(&self) -> Request {
        self.requests.last().copied().unwrap_or(Request { second: 0, server: 0 })
    }

    /// All that the keeper can set.
    fn settings(&self, largest: u32) -> Vec<Stays> {
        let mut settings = vec![Stays::new()];
        for &server in self.standing.iter().filter(|&&server| server != self.last().server) {
            let with = |stays: &Stays, seconds| stays.iter().map(|(&server, &seconds)| (server, seconds)).chain([(server, seconds)]).collect();
            settings = settings.iter().flat_map(|stays| (0..=largest).map(move |seconds| with(stays, seconds))).collect();
        }
        settings
    }

    /// The game after one request more.
    fn after(&self, prices: Prices, stays: &Stays, gap: u32, server: u16) -> Play {
        let last = self.last();
        let mut standing = BTreeSet::from([last.server]);
        let mut held = gap;
        for (&copy, &seconds) in stays {
            held += seconds.min(gap);
            if seconds >= gap {
                standing.insert(copy);
            }
        }
        let sent = standing.insert(server);
        let mut requests = self.requests.clone();
        requests.push(Request { second: last.second + gap, server });
        Play { requests, standing, running: self.running + prices.cost(held as u64, sent as u64) }
    }
}

/// Whether the keeper can force a win from here: no request is left, or there is a setting that no move of the guest beats.
fn keeper_wins(game: &Game, play: &Play) -> bool {
    play.requests.len() == game.requests as usize || play.settings(game.largest).iter().any(|stays| !guest_wins(game, play, stays))
}

/// Whether the guest can force a win from here, the stays being set: a request breaks the limit, or the keeper cannot win after it.
fn guest_wins(game: &Game, play: &Play, stays: &Stays) -> bool {
    game.moves().into_iter().any(|(gap, server)| {
        let next = play.after(game.prices, stays, gap, server);
        !game.within(next.running, game.least(&next.requests)) || !keeper_wins(game, &next)
    })
}

pub fn play(game: &Game) -> Result<Winner, Refusal> {
    game.check()?;
    Ok(if keeper_wins(game, &Play::start()) { Winner::Keeper } else { Winner::Guest })
}

/// A running cost beside the least cost of the same requests.
#[derive(Clone, Copy, Debug)]
pub struct Ratio {
    pub running: u64,
    pub least: u64,
}

impl Ratio {
    /// The larger by their ratios.
    fn max(self, other: Ratio) -> Ratio {
        if self.running * other.least >= other.running * self.least { self } else { other }
    }

    /// The smaller.
    fn min(self, other: Ratio) -> Ratio {
        if self.running * other.least <= other.running * self.least { self } else { other }
    }
}

/// The largest ratio that the guest can force, whatever the game's limit, by trying everything to the end: the keeper wins exactly at this limit and above.
pub fn forced(game: &Game) -> Ratio {
    forced_from(game, &Play::start())
}

/// The same from here; 0 if no request is left.
fn forced_from(game: &Game, play: &Play) -> Ratio {
    let none = Ratio { running: 0, least: 1 };
    if play.requests.len() == game.requests as usize {
        return none;
    }
    let over_moves = |stays: &Stays| {
        let after = |(gap, server)| play.after(game.prices, stays, gap, server);
        let ratio = |next: Play| Ratio { running: next.running, least: game.least(&next.requests) }.max(forced_from(game, &next));
        game.moves().into_iter().map(after).map(ratio).fold(none, Ratio::max)
    };
    play.settings(game.largest).iter().map(over_moves).reduce(Ratio::min).unwrap()
}

#[cfg(test)]
mod tests {
    use super::*;

    const PRICES: Prices = Prices { hold: 3, transfer: 100 };

    fn request(second: u32, server: u16) -> Request {
        Request { second, server }
    }

    /// Requests at 1 and 2 after a second each, with home's copy kept at both: copies at 0, 1 and 2, the last at 2.
    fn three_copies() -> Play {
        let one = Play::start().after(PRICES, &Stays::new(), 1, 1);
        assert_eq!(one, Play { requests: vec![request(1, 1)], standing: BTreeSet::from([0, 1]), running: 103 });
        let two = one.after(PRICES, &Stays::from([(0, 1)]), 1, 2);
        assert_eq!(two, Play { requests: vec![request(1, 1), request(2, 2)], standing: BTreeSet::from([0, 1, 2]), running: 209 });
        two
    }

    #[test]
    fn numbers_of_choices() {
        let settings = |play: &Play, largest| play.settings(largest).len();
        assert_eq!(settings(&Play::start(), 3), 1);
        assert_eq!([1, 2, 3].map(|largest| settings(&three_copies(), largest)), [4, 9, 16]);
        assert_eq!(three_copies().settings(1)[2], Stays::from([(0, 1), (1, 0)]));
        assert_eq!(Game::of([2, 1, 3, 1, 1, 1, 1]).moves(), [(1, 0), (1, 1), (2, 0), (2, 1), (3, 0), (3, 1)]);
        assert_eq!(Game::of([3, 1, 3, 1, 1, 1, 1]).moves().len(), 9);
    }

    #[test]
    fn a_copy_stands_at_a_gap_of_its_stay() {
        let after = |stays: [u32; 2], gap, server| {
            let next = three_copies().after(PRICES, &Stays::from([(0, stays[0]), (1, stays[1])]), gap, server);
            (next.running - 209, next.standing.into_iter().collect::<Vec<_>>())
        };
        // kept at the last requested server, whatever the others do
        assert_eq!(after([0, 0], 2, 2), (6, vec![2]));
        assert_eq!(after([1, 0], 2, 2), (9, vec![2]));
        assert_eq!(after([2, 0], 2, 2), (12, vec![0, 2]));
        assert_eq!(after([3, 1], 2, 2), (15, vec![0, 2]));
        assert_eq!(after([3, 2], 2, 2), (18, vec![0, 1, 2]));
        // sent from there, or kept at another; the last requested copy stands on
        assert_eq!(after([0, 0], 2, 0), (106, vec![0, 2]));
        assert_eq!(after([1, 2], 2, 0), (115, vec![0, 1, 2]));
        assert_eq!(after([2, 0], 2, 0), (12, vec![0, 2]));
        assert_eq!(after([3, 3], 1, 1), (9, vec![0, 1, 2]));
    }

    #[test]
    fn ranges() {
        for (place, highest) in BOUNDS.into_iter().enumerate() {
            let with = |number| {
                let mut numbers = [1; 7];
                numbers[place] = number;
                Game::of(numbers).check()
            };
            assert_eq!([0, 1, highest, highest + 1].map(with), [refuse(46, 0), Ok(()), Ok(()), refuse(46, 0)]);
        }
    }

    /// Two servers, two requests, a largest gap of one second, prices of 1: a request at server 1 costs 2, as it must. Home's copy stays or not: then a
    /// request at home makes it 4 where 3 suffice, held for a second more or sent again.
    #[test]
    fn four_for_three() {
        let at = |p, q| play(&Game::of([2, 2, 1, 1, 1, p, q]));
        assert_eq!([at(4, 3), at(1_000, 750), at(2, 1)], [Ok(Winner::Keeper); 3]);
        assert_eq!([at(133, 100), at(1_000, 751), at(1, 1), at(999, 1_000)], [Ok(Winner::Guest); 4]);
        let Ratio { running, least } = forced(&Game::of([2, 2, 1, 1, 1, 1, 1]));
        assert_eq!((running, least), (4, 3));
    }

    #[test]
    fn no_choice_is_the_least_cost() {
        for numbers in [[1, 3, 3, 7, 5, 1, 1], [3, 1, 3, 7, 5, 1, 1], [3, 1, 2, 1, HIGHEST, 1_000, 1_000]] {
            assert_eq!(play(&Game::of(numbers)), Ok(Winner::Keeper));
            let Ratio { running, least } = forced(&Game::of(numbers));
            assert_eq!(running, least);
        }
        assert_eq!(play(&Game::of([1, 1, 1, 1, 1, 999, 1_000])), Ok(Winner::Guest));
    }
}
