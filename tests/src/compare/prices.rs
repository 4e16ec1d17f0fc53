//! Price files, through every call that takes one.

use super::{checker, log, noise16, noise32, noise64, noise8, online, planner, quote, room, Met};
use crate::calls::Calls;
use crate::checker::flat;
use crate::log::{Header, Log, Request};
use crate::online::{Cache, ZEROS};
use crate::planner::plan;
use crate::prices::{check_upload, encode, PriceFile, Prices, Table, Upload, BUILT_IN, HIGHEST, MOST_CLASSES, UNSOLD};
use crate::random::{
    damaged_log, damaged_prices, random_header, random_log, random_pair, random_prices, random_upload, wrong_upload, Random,
};
use crate::{refuse, Refusal};

const READ: usize = 0;
const WRITE: usize = 1;
const CHECK: usize = 2;
const PLAN: usize = 3;
const LEAST: usize = 4;
const QUOTE: usize = 5;
const START: usize = 6;
const CHECK_UPLOADS: usize = 7;
const PLAN_UPLOADS: usize = 8;
const LEAST_UPLOADS: usize = 9;
const CALLS: usize = 10;

/// The calls that take a price file, each with what it came to.
type Outcomes = [Result<(), Refusal>; CALLS];

/// What a log is to the calls: its bytes, right or wrong, and what it holds, for those that take that.
struct Input {
    log: Log,
    file: Vec<u8>,
}

impl Input {
    fn of(log: Log) -> Input {
        Input { file: log.bytes(), log }
    }
}

/// The numbers of the plan's rows, none where the log or the upload price is refused.
fn planned(prices: PriceFile, upload: Upload, file: &[u8]) -> Vec<u32> {
    let rows = |prices| {
        let table = Table::read(prices)?;
        let log = crate::log::read(table.classes(), file)?;
        check_upload(upload)?;
        Ok::<_, Refusal>(flat(&plan(table.of(log.header.class), upload, &log).rows))
    };
    rows(prices).unwrap_or_default()
}

/// Check, plan and least costs of one input, their outputs of any length.
fn schedules<C: Calls>(random: &mut Random, prices: PriceFile, upload: Upload, input: &Input) -> [Result<(), Refusal>; 3] {
    let Input { log, file } = input;
    let count = log.requests.len();
    let mut rows = planned(prices, upload, file);
    let (marks, numbers, costs) = (room(random, count), room(random, rows.len()), room(random, count + 1));
    if rows.is_empty() || random.once_in(8) {
        rows = (0..random.below(9)).map(|_| random.number()).collect();
    }
    [
        checker::check::<C>(prices, upload, file, &rows).map(drop),
        planner::plan::<C>(random, prices, upload, file, marks, numbers).map(drop),
        planner::least::<C>(random, prices, upload, file, costs).map(drop),
    ]
}

/// Every call on one input, its outputs of any length; the upload price is in range or out of it.
fn every_call<C: Calls>(random: &mut Random, prices: PriceFile, input: &Input) -> Outcomes {
    let Input { log, file } = input;
    let out = room(random, 40 + 6 * log.requests.len());
    let (hold, transfer) = random_pair(random);
    let upload = if random.once_in(8) { wrong_upload(random) } else { random_upload(random, Prices { hold, transfer }) };
    let mut outcomes = [Ok(()); CALLS];
    outcomes[READ] = log::read_with_any_room::<C>(random, prices, file).map(drop);
    outcomes[WRITE] = log::write::<C>(random, prices, &log.header, &log.seconds(), &log.servers(), out).map(drop);
    [outcomes[CHECK], outcomes[PLAN], outcomes[LEAST]] = schedules::<C>(random, prices, None, input);
    [outcomes[CHECK_UPLOADS], outcomes[PLAN_UPLOADS], outcomes[LEAST_UPLOADS]] = schedules::<C>(random, prices, upload, input);
    outcomes[QUOTE] = quote::quote::<C>(prices, file).map(drop);
    outcomes[START] = online::start::<C>(prices, &log.header);
    outcomes
}

fn count(mets: &mut [Met; CALLS], outcomes: &Outcomes) {
    for (met, outcome) in mets.iter_mut().zip(outcomes) {
        met.count(outcome);
    }
}

/// Price files at each bound and past it, with the refusal's number and place, if any, as 02 has them.
pub fn boundary_files() -> Vec<(Vec<u8>, Option<(u8, u64)>)> {
    let mut files: Vec<(Vec<u8>, Option<(u8, u64)>)> = (0..4).map(|length| (vec![1, 0, 4, 0][..length].to_vec(), Some((37, 0)))).collect();
    for count in [1, 2, 8, 255, 256] {
        let pairs = vec![(3, 70); count];
        let good = encode(&pairs);
        files.push((good.clone(), None));
        for length in [4, good.len() - 8, good.len() - 1, good.len() + 1, good.len() + 8] {
            let mut file = good.clone();
            file.resize(length, 1);
            files.push((file, Some((37, 0))));
        }
        for said in [0, count - 1, count + 1, count + 256] {
            files.push(([&(said as u16).to_le_bytes(), &good[2..]].concat(), Some((37, 0))));
        }
        for offset in [0u16, 3, 5, 8, 0x0104, 0x0400, 0xffff] {
            files.push(([&good[..2], &offset.to_le_bytes(), &good[4..]].concat(), Some((37, 0))));
        }
        for class in [0, count / 2, count - 1] {
            let mut changed = pairs.clone();
            for price in [1, HIGHEST, 0, HIGHEST + 1, u32::MAX] {
                let refusal = if (1..=HIGHEST).contains(&price) { None } else { Some((38, class as u64)) };
                for pair in [(price, 70), (3, price)] {
                    changed[class] = pair;
                    files.push((encode(&changed), refusal));
                }
            }
            // of two wrong classes the first; and a wrong length comes before a wrong price
            changed[count - 1] = (0, 70);
            files.push((encode(&changed), Some((38, class as u64))));
            files.push(([encode(&changed), vec![0]].concat(), Some((37, 0))));
        }
    }
    for count in [0, 257, 258, 0xffff] {
        files.push((encode(&vec![(3, 70); count]), Some((37, 0))));
    }
    files
}

/// Logs about a number of classes: of the first, the last and one more; with no server; with a request too many; with two in one second; an empty
/// input; and a wrong sum.
fn inputs(classes: usize) -> Vec<Input> {
    let log = |class: usize, server_count| {
        let header = Header { class: class as u8, server_count, home: 1, id: [5; 16] };
        Log { header, requests: [(2, 0), (9, 1), (40, 0)].map(|(second, server)| Request { second, server }).to_vec() }
    };
    let setups = [(0, 2), (classes.max(1) - 1, 2), (classes, 2), (0, 0), (classes, 0)];
    let mut inputs: Vec<Input> = setups.into_iter().map(|(class, server_count)| Input::of(log(class, server_count))).collect();
    let (mut many, mut equal) = (log(0, 2), log(0, 2));
    many.requests.extend((41..2_087).map(|second| Request { second, server: 0 }));
    equal.requests[2].second = 9;
    inputs.extend([Input::of(many), Input::of(equal), Input { log: log(0, 2), file: vec![] }]);
    let mut wrong = Input::of(log(0, 2));
    wrong.file[20] ^= 1;
    inputs.push(wrong);
    inputs
}

/// Every call with each price file about a bound, on logs about its number of classes. What 02 refuses is refused by all of them, whatever the log.
pub fn boundaries<C: Calls>() {
    let mut random = Random::new(300);
    let mut mets: [Met; CALLS] = Default::default();
    for (file, refusal) in boundary_files() {
        let classes = file.len().saturating_sub(4) / 8;
        for input in inputs(classes) {
            let outcomes = every_call::<C>(&mut random, Some(&file), &input);
            if let Some((number, place)) = refusal {
                assert_eq!(outcomes, [Err(Refusal { number, place }); CALLS], "{file:?}");
            }
            count(&mut mets, &outcomes);
        }
    }
    for call in [READ, CHECK, PLAN, LEAST, QUOTE] {
        mets[call].at_least(&[0, 1, 3, 4, 7, 10, 13, 37, 38], 50);
    }
    for call in [CHECK_UPLOADS, PLAN_UPLOADS, LEAST_UPLOADS] {
        mets[call].at_least(&[0, 1, 3, 4, 7, 10, 13, 37, 38, 44], 10);
    }
    mets[WRITE].exactly(&[0, 3, 4, 7, 13, 31, 37, 38], 50);
    mets[START].exactly(&[0, 3, 4, 37, 38], 50);
}

/// Each byte of a file of two classes at each value.
pub fn every_byte<C: Calls>() {
    let mut random = Random::new(301);
    let mut met = Met::default();
    let good = encode(&[(3, 70), (999_999, 65_535)]);
    let input = &inputs(2)[1];
    let header = Header { home: 0, ..input.log.header };
    for at in 0..good.len() {
        for byte in 0..=255 {
            let mut file = good.clone();
            file[at] = byte;
            met.count(&online::start::<C>(Some(&file), &header));
            for upload in [None, Some(17)] {
                met.count(&planner::least::<C>(&mut random, Some(&file), upload, &input.file, 4));
            }
            met.count(&quote::quote::<C>(Some(&file), &input.file));
        }
    }
    met.exactly(&[0, 37, 38], 100);
}

/// Random price files, every second one damaged, and logs of any kind.
pub fn random_files<C: Calls>(seed: u64, times: usize) {
    let mut random = Random::new(seed);
    let mut mets: [Met; CALLS] = Default::default();
    for i in 0..times {
        let table = random_prices(&mut random);
        let damaged = if i % 2 == 0 { None } else { Some(damaged_prices(&mut random)) };
        let mut log = random_log(&mut random, &table, 12);
        match random.below(8) {
            0 => log.header.class = table.classes() as u8,
            1 => log.header.class = (table.classes() - 1) as u8,
            _ => {}
        }
        let mut input = Input::of(log);
        match random.below(8) {
            0 => input.file.clear(),
            1 | 2 => input.file = damaged_log(&mut random, &table),
            _ => {}
        }
        let outcomes = every_call::<C>(&mut random, damaged.as_deref().or(table.file()), &input);
        count(&mut mets, &outcomes);
    }
    let often = times as u64 / 1_000;
    mets[READ].exactly(&[0, 1, 2, 3, 4, 5, 6, 7, 8, 9, 10, 11, 12, 13, 31, 37, 38], often);
    mets[WRITE].exactly(&[0, 3, 31, 37, 38], often);
    mets[CHECK].at_least(&[0, 1, 2, 3, 4, 5, 6, 7, 8, 9, 10, 11, 12, 13, 14, 37, 38], often);
    mets[PLAN].exactly(&[0, 1, 2, 3, 4, 5, 6, 7, 8, 9, 10, 11, 12, 13, 31, 37, 38], often);
    mets[LEAST].exactly(&[0, 1, 2, 3, 4, 5, 6, 7, 8, 9, 10, 11, 12, 13, 31, 37, 38], often);
    mets[CHECK_UPLOADS].at_least(&[0, 1, 2, 3, 4, 5, 6, 7, 8, 9, 10, 11, 12, 13, 14, 37, 38, 44], often);
    mets[PLAN_UPLOADS].exactly(&[0, 1, 2, 3, 4, 5, 6, 7, 8, 9, 10, 11, 12, 13, 31, 37, 38, 44], often);
    mets[LEAST_UPLOADS].exactly(&[0, 1, 2, 3, 4, 5, 6, 7, 8, 9, 10, 11, 12, 13, 31, 37, 38, 44], often);
    mets[QUOTE].exactly(&[0, 1, 2, 3, 4, 5, 6, 7, 8, 9, 10, 11, 12, 13, 37, 38], often);
    mets[START].exactly(&[0, 3, 37, 38], often);
}

/// Each class of a full file, all of its prices differing: every call takes the right ones.
pub fn every_class<C: Calls>(seed: u64) {
    let mut random = Random::new(seed);
    let mut pairs: Vec<(u32, u32)> = Vec::new();
    while pairs.len() < MOST_CLASSES {
        let pair = random_pair(&mut random);
        if !pairs.contains(&pair) {
            pairs.push(pair);
        }
    }
    let table = Table::of_pairs(&pairs);
    let mut mets: [Met; CALLS] = Default::default();
    for class in 0..=255 {
        let header = Header { class, server_count: 2, home: 0, id: [class; 16] };
        let (cache, _) = C::start(table.file(), &header);
        assert_eq!(cache, Cache::fresh(table.of(class), &header));
        for _ in 0..4 {
            let mut log = random_log(&mut random, &table, 20);
            log.header.class = class;
            count(&mut mets, &every_call::<C>(&mut random, table.file(), &Input::of(log)));
        }
    }
    mets[START].exactly(&[0], 1_024);
    mets[LEAST].exactly(&[0, 31], 50);
    mets[LEAST_UPLOADS].exactly(&[0, 31, 44], 50);
    mets[QUOTE].exactly(&[0], 1_024);
}

/// All that the calls give for an upload price or none, the bytes of a log and some rows, and their outputs, which have the same noise before.
fn answers<C: Calls>(
    prices: PriceFile,
    upload: Upload,
    file: &[u8],
    rows: &[u32],
    seed: u64,
    lengths: [usize; 5],
) -> impl PartialEq + std::fmt::Debug {
    let random = &mut Random::new(seed);
    let [seconds, servers, marks, numbers, costs] = lengths;
    let (mut seconds, mut servers) = (noise32(random, seconds), noise16(random, servers));
    let (mut marks, mut numbers, mut costs) = (noise8(random, marks), noise32(random, numbers), noise64(random, costs));
    let read = C::read(prices, file, &mut seconds, &mut servers);
    let checked = C::check(prices, upload, file, rows);
    let planned = C::plan(prices, upload, file, &mut marks, &mut numbers);
    let least = C::least(prices, upload, file, &mut costs);
    let quoted = C::quote(prices, file);
    ((read, seconds, servers), (checked, planned, marks, numbers, least, costs), quoted)
}

/// What a new log and a new cache come to: the write and its output, which has some noise before, and the start.
type Made = ((Result<u64, Refusal>, Vec<u8>), (Cache, Result<(), Refusal>));

fn made<C: Calls>(prices: PriceFile, log: &Log, noise: &[u8]) -> Made {
    let mut out = noise.to_vec();
    let written = C::write(prices, &log.header, &log.seconds(), &log.servers(), &mut out);
    let started = C::start(prices, &log.header);
    ((written, out), started)
}

/// The built-in table written as a price file gives the same as no price file, but for writes and starts of the class that is no longer sold.
pub fn built_in_as_a_file<C: Calls>(seed: u64, times: usize) {
    let mut random = Random::new(seed);
    let mut mets: [Met; 2] = Default::default();
    let (table, file) = (Table::built_in(), encode(&BUILT_IN));
    for _ in 0..times {
        let mut input = Input::of(random_log(&mut random, &table, 30));
        match random.below(6) {
            0 => input.file = damaged_log(&mut random, &table),
            1 => input.log.header = Header { class: random.below(12) as u8, ..random_header(&mut random, &table) },
            _ => {}
        }
        let count = input.log.requests.len();
        let prices = table.of(random.below(8) as u8);
        for upload in [None, random_upload(&mut random, prices)] {
            let rows = planned(None, upload, &input.file);
            let lengths = [count, count, count, rows.len(), count + 1].map(|needed| room(&mut random, needed));
            let seed = random.word();
            let without = answers::<C>(None, upload, &input.file, &rows, seed, lengths);
            assert_eq!(answers::<C>(Some(&file), upload, &input.file, &rows, seed, lengths), without, "{upload:?} {:?}", input.file);
        }
        let length = room(&mut random, 40 + 6 * count);
        let noise = noise8(&mut random, length);
        let (without, with) = (made::<C>(None, &input.log, &noise), made::<C>(Some(&file), &input.log, &noise));
        for (met, (written, started)) in mets.iter_mut().zip([&without, &with]) {
            met.count(&written.0);
            met.count(&started.1);
        }
        let unsold = ((refuse(43, 0), noise), (ZEROS, refuse(43, 0)));
        assert_eq!(without, if input.log.header.class == UNSOLD { unsold } else { with }, "{:?}", input.log);
    }
    mets[0].exactly(&[0, 3, 11, 31, 43], times as u64 / 100);
    mets[1].exactly(&[0, 3, 11, 31], times as u64 / 100);
}
