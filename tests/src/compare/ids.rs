//! 02's request 06: a scan brings the id of its file, and one other than the state's is 39, after 33 and before 34.

use super::online::{call, started, Call};
use super::Met;
use crate::calls::Calls;
use crate::log::{Header, LAST_SECOND};
use crate::online::{Cache, MOST_HELD, ZEROS};
use crate::prices::{each_class, Prices, Table};
use crate::random::{one_bit_off, random_gap, random_id, Random};
use crate::{refuse, Refusal};

/// Eight ids: zeros, ones, sixteen bytes that differ, and random ones.
fn ids(random: &mut Random) -> Vec<[u8; 16]> {
    let mut ids = vec![[0; 16], [0xff; 16], *b"0123456789abcdef"];
    ids.extend((0..5).map(|_| random_id(random)));
    ids
}

/// A cache fresh, and after each of five requests.
fn states<C: Calls>(random: &mut Random, table: &Table, header: &Header) -> [Cache; 6] {
    let mut states = [started::<C>(table, header); 6];
    for i in 1..6 {
        let (second, server) = next_scan(random, &states[i - 1]);
        let (next, served) = C::scan(&states[i - 1], header.id, second, server);
        assert!(served.is_ok(), "{served:?}");
        states[i] = next;
    }
    states
}

/// A second and a server that a state takes.
fn next_scan(random: &mut Random, cache: &Cache) -> (u32, u16) {
    (cache.second + random_gap(random, cache.prices, 1_000), random.below(cache.server_count as u64) as u16)
}

/// Scans of other ids, each on the state that the one before gave back: 39, and the state as it was, which then takes its own.
fn refuses_others<C: Calls>(random: &mut Random, cache: &Cache, others: impl Iterator<Item = [u8; 16]>, met: &mut Met) {
    let (second, server) = next_scan(random, cache);
    let mut same = *cache;
    for other in others {
        let (next, outcome) = call::<C>(&same, Call::Scan(other, second, server), met);
        assert_eq!((next, outcome), (*cache, refuse(39, 0)), "{other:?}");
        same = next;
    }
    let (next, outcome) = call::<C>(&same, Call::Scan(cache.id, second, server), met);
    assert!(outcome.is_ok(), "{cache:?} {outcome:?}");
    assert_eq!((next.id, next.requests), (cache.id, cache.requests + 1));
}

/// All ids that differ from the state's in one bit, and the seven others.
pub fn every_bit<C: Calls>(seed: u64) {
    let mut random = Random::new(seed);
    let mut met = Met::default();
    let ids = ids(&mut random);
    for &id in &ids {
        for (table, class) in each_class() {
            let server_count = random.between(1, 64) as u8;
            let header = Header { class, server_count, home: random.below(server_count as u64) as u8, id };
            for cache in states::<C>(&mut random, &table, &header) {
                let others = (0..128).map(|bit| one_bit_off(id, bit)).chain(ids.iter().copied().filter(|&other| other != id));
                refuses_others::<C>(&mut random, &cache, others, &mut met);
            }
        }
    }
    met.exactly(&[0, 39], 8 * 16 * 6);
}

/// All ids that differ from the state's in two bits, and all with two of its bytes exchanged.
pub fn every_two<C: Calls>(seed: u64) {
    let mut random = Random::new(seed);
    let mut met = Met::default();
    for id in ids(&mut random) {
        let two_bits = (0..128).flat_map(|high| (0..high).map(move |low| one_bit_off(one_bit_off(id, low), high)));
        let exchanged = (0..16).flat_map(|high| (0..high).map(move |low| exchanged(id, low, high))).filter(|&other| other != id);
        let header = Header { class: 1, server_count: 3, home: 2, id };
        let cache = started::<C>(&Table::built_in(), &header);
        refuses_others::<C>(&mut random, &cache, two_bits.chain(exchanged), &mut met);
    }
    met.exactly(&[0, 39], 8);
}

/// An id with two of its bytes exchanged.
fn exchanged(id: [u8; 16], low: usize, high: usize) -> [u8; 16] {
    let mut other = id;
    other.swap(low, high);
    other
}

/// The number of a refusal, if any.
type Fault = Option<u8>;

/// A state made broken or not, closed or not, full or not; with its 32, 33 and 34.
fn faulty_states(cache: &Cache) -> Vec<(Cache, [Fault; 3])> {
    let broken = [
        (*cache, None),
        (Cache { prices: Prices { hold: 0, ..cache.prices }, ..*cache }, Some(32)),
        (Cache { last: cache.server_count as u16, ..*cache }, Some(32)),
        (Cache { held: MOST_HELD + 1, ..*cache }, Some(32)),
    ];
    let mut states = vec![];
    for (cache, of_state) in broken {
        for (closed, of_close) in [(false, None), (true, Some(33))] {
            for (requests, of_count) in [(cache.requests, None), (2_047, None), (2_048, Some(34))] {
                states.push((Cache { closed, requests, ..cache }, [of_state, of_close, of_count]));
            }
        }
    }
    states
}

/// Seconds and servers about the bounds of a state, with their 11, 12 and 35.
fn faulty_scans(cache: &Cache) -> Vec<(u32, u16, [Fault; 3])> {
    let (last, count) = (cache.second, cache.server_count as u16);
    let seconds = [
        (last + 1, None, None),
        (LAST_SECOND, None, None),
        (last, None, Some(35)),
        (1, None, Some(35)),
        (0, Some(12), Some(35)),
        (LAST_SECOND + 1, Some(12), None),
    ];
    let servers = [(0, None), (count - 1, None), (count, Some(11)), (0xffff, Some(11))];
    let with_each = |(second, of_range, of_second)| servers.map(|(server, of_server)| (second, server, [of_server, of_range, of_second]));
    seconds.into_iter().flat_map(with_each).collect()
}

/// Scans with every set of faults, and with none: the first of 11, 12, 32, 33, 39, 34 and 35, in this order, is given, and the state as it was. On the
/// state of a refused start it is 11, whatever the id.
pub fn order<C: Calls>(seed: u64) {
    let mut random = Random::new(seed);
    let mut met = Met::default();
    for id in ids(&mut random) {
        let header = Header { class: 1, server_count: 3, home: 1, id };
        let [.., served] = states::<C>(&mut random, &Table::built_in(), &header);
        for (cache, [of_state, of_close, of_count]) in faulty_states(&served) {
            for (second, server, [of_server, of_range, of_second]) in faulty_scans(&served) {
                for (scanned, of_id) in [(id, None), (one_bit_off(id, 0), Some(39)), (one_bit_off(id, 127), Some(39))] {
                    let faults = [of_server, of_range, of_state, of_close, of_id, of_count, of_second];
                    let first = faults.into_iter().flatten().next().map(|number| Refusal { number, place: 0 });
                    let (next, outcome) = call::<C>(&cache, Call::Scan(scanned, second, server), &mut met);
                    assert_eq!(outcome.err(), first, "{cache:?} {scanned:?} {second} {server}");
                    assert!(first.is_none() || next == cache, "{cache:?} {next:?}");
                }
            }
        }
        let (zeros, _) = C::start(None, &Header { class: 8, ..header });
        for scanned in [id, ZEROS.id] {
            assert_eq!(call::<C>(&zeros, Call::Scan(scanned, 1, 0), &mut met), (ZEROS, refuse(11, 0)));
        }
    }
    met.exactly(&[0, 11, 12, 32, 33, 34, 35, 39], 30);
}

#[cfg(test)]
mod tests {
    use super::*;
    use crate::calls::Simple;

    #[test]
    fn simple() {
        every_bit::<Simple>(1);
        every_two::<Simple>(2);
        order::<Simple>(3);
    }
}
