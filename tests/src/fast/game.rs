//! The game by a search that ends at the first setting and at the first request that wins; each least cost comes from those of the requests before.
//!
//! Point 0 is home at second 0, point i is request i; gap i lies before point i.

use crate::game::{Game, Winner, MOST};
use crate::Refusal;

const SERVERS: usize = MOST as usize;
const POINTS: usize = MOST as usize + 1;

/// What stays the same: the game, and its prices and limit in 64 bits.
struct Rules<'a> {
    game: &'a Game,
    hold: u64,
    transfer: u64,
    p: u64,
    q: u64,
}

/// A game after some requests.
struct Play {
    count: usize,
    second: [u32; POINTS],
    /// each server's latest point, if it has one
    latest: [Option<usize>; SERVERS],
    /// the least cost of the requests so far where all gaps after a point are covered
    least: [u64; POINTS],
    last: usize,
    /// where a copy stands
    standing: [bool; SERVERS],
    running: u64,
}

impl Play {
    fn start() -> Play {
        Play {
            count: 0,
            second: [0; POINTS],
            latest: [Some(0), None, None],
            least: [0; POINTS],
            last: 0,
            standing: [true, false, false],
            running: 0,
        }
    }
}

impl Rules<'_> {
    /// The least cost with a request more at a server, where all gaps after a point are covered.
    fn least(&self, play: &Play, gap: u32, server: usize, covered: usize) -> u64 {
        let i = play.count;
        let bare = if covered > i { self.hold * gap as u64 } else { 0 };
        let sent = self.transfer + bare + play.least[covered.min(i)];
        let Some(j) = play.latest[server] else { return sent };
        let kept = self.hold * (play.second[i] + gap - play.second[j]) as u64 + play.least[covered.min(j)];
        if j == i { kept } else { kept.min(sent) }
    }

    /// Whether the keeper can force a win from here.
    fn keeper_wins(&self, play: &Play) -> bool {
        if play.count == self.game.requests as usize {
            return true;
        }
        let largest = self.game.largest;
        let most = |server: usize| if play.standing[server] && server != play.last { largest } else { 0 };
        for c in 0..=most(2) {
            for b in 0..=most(1) {
                for a in 0..=most(0) {
                    let mut stays = [a, b, c];
                    stays[play.last] = largest;
                    if !self.guest_wins(play, &stays) {
                        return true;
                    }
                }
            }
        }
        false
    }

    /// Whether the guest can force a win from here; a stay of 0 is no copy, and the last one's is to the largest gap.
    fn guest_wins(&self, play: &Play, stays: &[u32; SERVERS]) -> bool {
        let next = play.count + 1;
        for gap in 1..=self.game.largest {
            let standing = stays.map(|seconds| seconds >= gap);
            let held: u32 = stays.iter().map(|&seconds| seconds.min(gap)).sum();
            let running = play.running + self.hold * held as u64;
            for server in 0..self.game.servers as usize {
                let running = if standing[server] { running } else { running + self.transfer };
                if self.q * running > self.p * self.least(play, gap, server, next) {
                    return true;
                }
                if next < self.game.requests as usize && !self.keeper_wins(&self.after(play, gap, server, standing, running)) {
                    return true;
                }
            }
        }
        false
    }

    /// The game after one request more.
    fn after(&self, play: &Play, gap: u32, server: usize, mut standing: [bool; SERVERS], running: u64) -> Play {
        let count = play.count + 1;
        let mut least = [0; POINTS];
        for (covered, cost) in least.iter_mut().enumerate().take(count + 1) {
            *cost = self.least(play, gap, server, covered);
        }
        let (mut second, mut latest) = (play.second, play.latest);
        second[count] = play.second[play.count] + gap;
        latest[server] = Some(count);
        standing[server] = true;
        Play { count, second, latest, least, last: server, standing, running }
    }
}

pub fn play(game: &Game) -> Result<Winner, Refusal> {
    game.check()?;
    let (hold, transfer) = (game.prices.hold as u64, game.prices.transfer as u64);
    let rules = Rules { game, hold, transfer, p: game.p as u64, q: game.q as u64 };
    Ok(if rules.keeper_wins(&Play::start()) { Winner::Keeper } else { Winner::Guest })
}
