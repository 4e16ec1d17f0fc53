//! 02's request 13: games of every size, who wins being found by trying everything; what holds of all games; and the table of docs/GAME.md.

use super::Met;
use crate::calls::{Calls, Simple};
use crate::game::{forced, Game, Ratio, Winner, BOUNDS, HIGHEST_TERM, MOST};
use crate::prices::{Prices, BUILT_IN, EDGES, HIGHEST};
use crate::random::{random_pair, Random};
use crate::{refuse, Refusal};

/// A hold and a transfer price, or p and q.
type Pair = (u32, u32);

/// What says what the game is, and for some prices the least limit at which the keeper wins.
const PAGE: &str = include_str!("../../../docs/GAME.md");

/// Prices to try beside the classes and the edges; about the last two the guest forces the most.
const OTHERS: [Pair; 8] = [(1, 2), (1, 3), (3, 7), (2, 5), (HIGHEST, 2), (999_999, HIGHEST), (50, 111), (91, 202)];

const LIMITS: [Pair; 16] = [
    (1, 1_000),
    (1, 2),
    (999, 1_000),
    (1, 1),
    (1_000, 1_000),
    (1_000, 999),
    (6, 5),
    (4, 3),
    (3, 2),
    (45, 29),
    (8, 5),
    (2, 1),
    (1_000, 334),
    (3, 1),
    (1_000, 333),
    (1_000, 1),
];

/// The least limit at which the keeper wins whatever the prices, as far as was tried.
const FOR_ALL_PRICES: Pair = (601, 387);

impl Game {
    fn at(self, limit: Pair) -> Game {
        Game { p: limit.0, q: limit.1, ..self }
    }

    fn with(self, prices: Pair) -> Game {
        Game { prices: Prices { hold: prices.0, transfer: prices.1 }, ..self }
    }
}

/// A game of each size, its prices and limit all 1.
fn sizes() -> Vec<Game> {
    let each = || 1..=MOST;
    let of = |servers, requests| each().map(move |largest| Game::of([servers, requests, largest, 1, 1, 1, 1]));
    each().flat_map(|servers| each().flat_map(move |requests| of(servers, requests))).collect()
}

/// Of the largest size.
fn largest() -> Game {
    Game::of([MOST, MOST, MOST, 1, 1, 1, 1])
}

fn pairs() -> Vec<Pair> {
    BUILT_IN.into_iter().chain(EDGES).chain(OTHERS).collect()
}

/// Prices: with a window of at most 10 seconds, or as for any log.
fn random_prices(random: &mut Random) -> Pair {
    if random.once_in(2) {
        return random_pair(random);
    }
    let hold = random.one_of(&[1, 3, 10, 1_000, 90_000]);
    let transfer = random.between(1, 11 * hold - 1);
    (hold as u32, transfer as u32)
}

/// A limit: from 1/2 to about 7/2, most often from 1/1 to 2/1.
fn random_limit(random: &mut Random) -> Pair {
    let q = random.one_of(&[10, 30, 100, 500]);
    let q = random.between(1, q);
    let p = if random.once_in(4) { random.between(q.div_ceil(2), 7 * q / 2) } else { random.between(q, 2 * q) };
    (p.min(HIGHEST_TERM as u64) as u32, q as u32)
}

fn random_game(random: &mut Random) -> Game {
    let size = random.one_of(&sizes());
    let size = if random.once_in(3) { largest() } else { size };
    let prices = random_prices(random);
    size.with(prices).at(random_limit(random))
}

/// Who wins a game, or its refusal.
fn play<C: Calls>(game: &Game) -> Result<Winner, Refusal> {
    let a = Simple::play(game);
    assert_eq!(C::play(game), a, "{game:?}");
    a
}

/// How many games each won.
#[derive(Debug, Default)]
struct Won {
    keeper: usize,
    guest: usize,
}

impl Won {
    /// Each at least so often.
    fn at_least(&self, times: usize) {
        assert!(self.keeper >= times && self.guest >= times, "{self:?}");
    }

    fn count(&mut self, winner: Winner) {
        match winner {
            Winner::Keeper => self.keeper += 1,
            Winner::Guest => self.guest += 1,
        }
    }
}

/// The winner where the guest can force a ratio and no larger one.
fn winner(limit: Pair, forced: Ratio) -> Winner {
    let (p, q) = limit;
    if q as u64 * forced.running <= p as u64 * forced.least { Winner::Keeper } else { Winner::Guest }
}

/// The limit next below a ratio and the least from it on, in lowest terms.
fn beside(ratio: Ratio) -> [Pair; 2] {
    let terms = 1..=HIGHEST_TERM as u64;
    let in_range = |&(p, _): &(u64, u64)| (1..=HIGHEST_TERM as u64).contains(&p);
    let by_value = |a: &(u64, u64), b: &(u64, u64)| (a.0 * b.1).cmp(&(b.0 * a.1));
    let below = terms.clone().rev().map(|q| ((q * ratio.running - 1) / ratio.least, q)).filter(in_range).max_by(by_value);
    let above = terms.map(|q| ((q * ratio.running).div_ceil(ratio.least), q)).filter(in_range).min_by(by_value);
    [below, above].map(|limit| limit.map(|(p, q)| (p as u32, q as u32)).unwrap())
}

/// A limit near a ratio.
fn random_near(random: &mut Random, ratio: Ratio) -> Pair {
    let q = random.between(1, 500);
    let p = q * ratio.running / ratio.least + random.between(0, 3);
    (p.saturating_sub(1).clamp(1, HIGHEST_TERM as u64) as u32, q as u32)
}

/// Every size with prices of each kind, and `times` random ones; for each some limits, those beside what the guest can force, and some near it.
pub fn every_size<C: Calls>(seed: u64, times: usize) {
    let mut random = Random::new(seed);
    for size in sizes() {
        let mut won = Won::default();
        let drawn: Vec<Pair> = (0..times).map(|_| random_prices(&mut random)).collect();
        for prices in pairs().into_iter().chain(drawn) {
            let game = size.with(prices);
            let most = forced(&game);
            let near: Vec<Pair> = (0..4).map(|_| random_near(&mut random, most)).collect();
            for limit in LIMITS.into_iter().chain(beside(most)).chain(near) {
                let expected = winner(limit, most);
                assert_eq!(play::<C>(&game.at(limit)), Ok(expected), "{game:?} {limit:?} {most:?}");
                won.count(expected);
            }
        }
        won.at_least(100);
    }
}

/// Figures worked out by hand, but for the last: what the guest can force, and a limit a little less.
const FIGURES: [([u32; 5], Pair, Pair); 9] = [
    // one server, and one request: the keeper has no choice, and pays the least cost
    ([1, 3, 3, 7, 5], (1, 1), (999, 1_000)),
    ([3, 1, 3, 7, 5], (1, 1), (999, 1_000)),
    // a request at server 1, then one at home: held or sent again, 4 for 3
    ([2, 2, 1, 1, 1], (4, 3), (133, 100)),
    // held, wherever the next request is: 13 for 12
    ([2, 2, 1, 1, 10], (13, 12), (14, 13)),
    // sent again: 22 for 21
    ([2, 2, 1, 10, 1], (22, 21), (23, 22)),
    // home's copy stays for 2 seconds, 7 for 5; for 0 it would be 6 for 4, for 1 even 8 for 5
    ([2, 2, 2, 1, 2], (7, 5), (139, 100)),
    // for 3 seconds, 10 for 7; for 0 it would be 8 for 5, for 1 10 for 6, for 2 12 for 7
    ([2, 2, 3, 1, 3], (10, 7), (71, 50)),
    // a third server does not help the guest
    ([3, 2, 1, 1, 1], (4, 3), (133, 100)),
    ([3, 3, 3, 3, 7], (45, 29), (31, 20)),
];

pub fn figures<C: Calls>() {
    for ([servers, requests, largest, hold, transfer], most, less) in FIGURES {
        let at = |(p, q)| play::<C>(&Game::of([servers, requests, largest, hold, transfer, p, q]));
        assert_eq!((at(most), at(less)), (Ok(Winner::Keeper), Ok(Winner::Guest)), "{most:?}");
    }
}

/// 46: every set of 0, 1, the highest, one more and the highest of 32 bits for the seven numbers; and each alone at numbers that are in range in fewer
/// bits.
pub fn boundaries<C: Calls>() {
    let mut met = Met::default();
    let values = |highest| [0, 1, highest, highest + 1, u32::MAX];
    for set in 0..5usize.pow(7) {
        let mut rest = set;
        let game = Game::of(BOUNDS.map(|highest| {
            let value = values(highest)[rest % 5];
            rest /= 5;
            value
        }));
        let in_range = game.numbers().iter().zip(BOUNDS).all(|(&number, highest)| number == 1 || number == highest);
        let answer = play::<C>(&game);
        if in_range {
            assert!(answer.is_ok(), "{game:?} {answer:?}");
        } else {
            assert_eq!(answer, refuse(46, 0), "{game:?}");
        }
        met.count(&answer);
    }
    met.exactly(&[0, 46], 128);
    for game in [largest(), largest().with((3, 7)).at((3, 2)), Game::of([2, 2, 2, 1, 2, 7, 5])] {
        assert!(play::<C>(&game).is_ok());
        for place in 0..7 {
            for value in [1 << 31, u32::MAX - 1, (1 << 8) + 1, (1 << 16) + 1, (1 << 24) + 1, (1 << 31) + 1] {
                let mut numbers = game.numbers();
                numbers[place] = value;
                let answer = if value <= BOUNDS[place] { Ok(()) } else { refuse(46, 0) };
                assert_eq!(play::<C>(&Game::of(numbers)).map(|_| ()), answer, "{numbers:?}");
            }
        }
    }
}

/// Random games, one of five with some numbers out of range.
pub fn random_games<C: Calls>(seed: u64, times: usize) {
    let mut random = Random::new(seed);
    let (mut won, mut met) = (Won::default(), Met::default());
    for i in 0..times {
        let mut game = random_game(&mut random);
        if i % 5 == 0 {
            let mut numbers = game.numbers();
            for _ in 0..random.between(1, 2) {
                let place = random.below(7) as usize;
                let any = random.word() as u32 | 1 << 20;
                numbers[place] = random.one_of(&[0, BOUNDS[place] + 1, BOUNDS[place] + 256, any]);
            }
            game = Game::of(numbers);
        }
        let answer = play::<C>(&game);
        met.count(&answer);
        if let Ok(winner) = answer {
            won.count(winner);
        }
    }
    met.exactly(&[0, 46], times as u64 / 5);
    won.at_least(times / 10);
}

/// With p below q the guest wins, as no cost is below the least; at 3 over 1 and above the keeper does. Every size, prices of each kind and random ones.
pub fn outer_limits<C: Calls>(seed: u64, times: usize) {
    let mut random = Random::new(seed);
    for size in sizes() {
        let drawn: Vec<Pair> = (0..times).map(|_| random_prices(&mut random)).collect();
        for prices in pairs().into_iter().chain(drawn) {
            let game = size.with(prices);
            let q = random.between(2, HIGHEST_TERM as u64);
            let less = random.between(1, q - 1);
            for limit in [(1, 2), (1, 1_000), (999, 1_000), (q as u32 - 1, q as u32), (less as u32, q as u32)] {
                assert_eq!(C::play(&game.at(limit)), Ok(Winner::Guest), "{game:?} {limit:?}");
            }
            let q = random.between(1, HIGHEST_TERM as u64 / 3);
            let more = random.between(3 * q, HIGHEST_TERM as u64);
            for limit in [(3, 1), (999, 333), (3 * q as u32, q as u32), (more as u32, q as u32), (1_000, 1)] {
                assert_eq!(C::play(&game.at(limit)), Ok(Winner::Keeper), "{game:?} {limit:?}");
            }
        }
    }
}

/// What the keeper wins it wins with a larger limit too, with one request, one server or one second of the largest gap less, and with both prices a
/// number of times as high.
pub fn steps<C: Calls>(seed: u64, times: usize) {
    let mut random = Random::new(seed);
    let mut won = Won::default();
    let wins = |game: &Game| C::play(game).unwrap() == Winner::Keeper;
    for _ in 0..times {
        let game = random_game(&mut random);
        let keeper = wins(&game);
        won.count(if keeper { Winner::Keeper } else { Winner::Guest });
        let Game { servers, requests, largest, prices, p, q } = game;
        let factor = random.between(1, HIGHEST as u64 / prices.hold.max(prices.transfer) as u64) as u32;
        assert_eq!(wins(&game.with((factor * prices.hold, factor * prices.transfer))), keeper, "{game:?} {factor}");
        let easier = [
            Game { p: p + 1, ..game },
            Game { p: random.between(p as u64, HIGHEST_TERM as u64) as u32, ..game },
            Game { q: q - 1, ..game },
            Game { q: random.between(1, q as u64) as u32, ..game },
            Game { servers: servers - 1, ..game },
            Game { requests: requests - 1, ..game },
            Game { largest: largest - 1, ..game },
        ];
        for other in easier.iter().filter(|other| other.check().is_ok()) {
            assert!(wins(other) || !keeper, "{game:?} {other:?}");
        }
    }
    won.at_least(times / 5);
}

/// One limit at which the keeper wins the largest game with all pairs of prices up to `highest`, with random ones and with those about the worst; the limit
/// next below it is not enough for prices of 91 and 202.
pub fn for_all_prices<C: Calls>(seed: u64, highest: u32, times: usize) {
    let mut random = Random::new(seed);
    let wins = |prices: Pair| assert_eq!(C::play(&largest().with(prices).at(FOR_ALL_PRICES)), Ok(Winner::Keeper), "{prices:?}");
    (1..=highest).for_each(|hold| (1..=highest).for_each(|transfer| wins((hold, transfer))));
    for _ in 0..times {
        wins(random_prices(&mut random));
        let hold = random.between(1, 450_000);
        wins((hold as u32, (hold * 202 / 91 + random.below(4)) as u32));
    }
    let limits = limits();
    let at = limits.iter().position(|&limit| limit == FOR_ALL_PRICES).unwrap();
    assert_eq!(play::<C>(&largest().with((91, 202)).at(limits[at - 1])), Ok(Winner::Guest));
    assert_eq!(play::<C>(&largest().with((91, 202)).at(limits[at])), Ok(Winner::Keeper));
}

/// All limits from 1 over 1 to 3 over 1 in lowest terms, from the least up.
fn limits() -> Vec<Pair> {
    fn divisor(a: u32, b: u32) -> u32 {
        if b == 0 { a } else { divisor(b, a % b) }
    }
    let terms = (1..=HIGHEST_TERM).flat_map(|q| (q..=(3 * q).min(HIGHEST_TERM)).map(move |p| (p, q)));
    let mut limits: Vec<Pair> = terms.filter(|&(p, q)| divisor(p, q) == 1).collect();
    limits.sort_by(|a, b| (a.0 * b.1).cmp(&(b.0 * a.1)));
    limits
}

/// The numbers of a table's line, and its last two cells; none of the other lines of the page.
fn cells(line: &str) -> Option<(Vec<u32>, [&str; 2])> {
    let cells: Vec<&str> = line.strip_prefix('|')?.strip_suffix('|')?.split('|').map(str::trim).collect();
    let (numbers, texts) = cells.split_at(cells.len().checked_sub(2)?);
    let numbers = numbers.iter().map(|cell| cell.replace(',', "").parse()).collect::<Result<Vec<u32>, _>>().ok()?;
    Some((numbers, texts.try_into().unwrap()))
}

/// Each line of the tables of docs/GAME.md, of the eight classes and then of other prices: the least limit at which the keeper wins the largest game, by
/// halving the list of all limits; it is the least from what the guest can force.
pub fn table<C: Calls>() {
    let limits = limits();
    let mut classes = vec![];
    let mut others = 0;
    for (numbers, texts) in PAGE.lines().filter_map(cells) {
        let prices = match numbers[..] {
            [class, hold, transfer] => {
                assert_eq!(class as usize, classes.len());
                classes.push((hold, transfer));
                (hold, transfer)
            }
            [hold, transfer] => {
                others += 1;
                (hold, transfer)
            }
            _ => panic!("{numbers:?}"),
        };
        let game = largest().with(prices);
        let at = limits.partition_point(|&limit| C::play(&game.at(limit)) == Ok(Winner::Guest));
        let (p, q) = limits[at];
        assert_eq!(texts, [format!("{p}/{q}"), format!("{:.4}", p as f64 / q as f64)], "{prices:?}");
        assert_eq!(beside(forced(&game))[1], (p, q), "{prices:?}");
    }
    assert_eq!(classes, BUILT_IN);
    // two tables, each with a head of two lines
    assert_eq!(PAGE.lines().filter(|line| line.starts_with('|')).count(), 8 + others + 4);
    assert!(PAGE.contains(&format!("At {} over {} the keeper", FOR_ALL_PRICES.0, FOR_ALL_PRICES.1)));
}

#[cfg(test)]
mod tests {
    use super::*;

    #[test]
    fn simple() {
        figures::<Simple>();
        table::<Simple>();
    }

    #[test]
    fn beside_a_ratio() {
        let of = |running, least| beside(Ratio { running, least });
        assert_eq!(of(1, 1), [(999, 1_000), (1, 1)]);
        assert_eq!(of(6, 4), [(1_000, 667), (3, 2)]);
        assert_eq!(of(1_000_013, 1_000_007), [(1, 1), (1_000, 999)]);
    }

    #[test]
    fn limits_in_order() {
        let limits = limits();
        assert_eq!((limits.len(), limits[0], limits[1], limits[limits.len() - 1]), (202_793, (1, 1), (1_000, 999), (3, 1)));
    }
}
