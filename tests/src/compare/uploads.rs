//! 02's request 11: the upload price and 44, uploads among the rows of a schedule, and plans with uploads.

use super::checker::{check, sort};
use super::lifetime::{unless, Fault};
use super::planner::{answers, first_of_all_markings};
use super::weeks::{log_of, WEEKS};
use super::Met;
use crate::calls::Calls;
use crate::log::{Header, Log, Request, LAST_SECOND, MOST_REQUESTS};
use crate::prices::{each_class, encode, upload_edges, PriceFile, Prices, Table, Upload, HIGHEST};
use crate::random::{random_log, random_table, random_upload, Random};
use crate::search::{least_by_schedules, least_by_sets, lists_of_gaps};
use crate::{refuse, Refusal};

/// Cost, marks and rows of the plan for class 0, hold 1 and transfer 10; the checker accepts the rows at that cost.
fn planned<C: Calls>(server_count: u8, requests: &[(u32, u16)], upload: u32) -> (u64, String, Vec<u32>) {
    let log = log_of(0, server_count, requests);
    let (cost, marks, rows, costs) = answers::<C>(None, Some(upload), &log);
    assert_eq!((cost, C::check(None, Some(upload), &log.bytes(), &rows)), (costs[requests.len()], Ok(cost)), "{upload} {log:?}");
    (cost, String::from_utf8(marks).unwrap(), rows)
}

/// Week C at an upload price: cost, marks and rows.
pub fn week_c<C: Calls>() {
    let week = |upload, cost, marks: &str, rows: &[[u32; 4]]| {
        let requests = [(1, 1), (2, 2), (11, 1), (12, 0)];
        assert_eq!(planned::<C>(3, &requests, upload), (cost, marks.to_string(), rows.concat()), "{upload}");
    };
    week(1, 4, "UUUU", &[[2, 1, 1, 0], [2, 2, 2, 0], [2, 1, 11, 0], [2, 0, 12, 0]]);
    week(10, 40, "USKU", &[[0, 1, 1, 11], [1, 1, 2, 2], [2, 1, 1, 0], [2, 0, 12, 0]]);
    for upload in [11, 50, HIGHEST] {
        week(upload, 42, "SSKK", &[[0, 0, 0, 12], [0, 1, 1, 11], [1, 0, 1, 1], [1, 1, 2, 2]]);
    }
}

/// Weeks A to F and each cut of them, by all markings and by all sets of servers second by second.
pub fn weeks<C: Calls>() {
    let table = Table::built_in();
    for week in WEEKS {
        let (log, prices) = (week.log(), table.of(week.class));
        for price in upload_edges(prices).into_iter().chain(2..60) {
            let (_, _, _, costs) = answers::<C>(None, Some(price), &log);
            first_of_all_markings::<C>(&table, Some(price), &log);
            for (count, cost) in costs.into_iter().enumerate() {
                assert_eq!(cost, least_by_sets(prices, Some(price), &log.cut(count)), "{price} {log:?}");
            }
        }
    }
}

/// Upload prices at the bounds and past them; the lowest is taken, 0 is not, and none is no price of 0.
pub fn price_bounds<C: Calls>() {
    let file = encode(&[(1, 10)]);
    for prices in [None, Some(&file[..])] {
        for requests in [&[(1, 1), (2, 0)][..], &[]] {
            let log = log_of(0, 2, requests).bytes();
            let (count, uploaded) = (requests.len(), [2, 1, 1, 0, 2, 0, 2, 0]);
            let uploads = &uploaded[..4 * count];
            for price in [1, 2, HIGHEST - 1, HIGHEST] {
                assert_eq!(C::check(prices, Some(price), &log, uploads), Ok(price as u64 * count as u64));
                assert!(C::plan(prices, Some(price), &log, &mut [9; 2], &mut [9; 16]).is_ok());
                assert_eq!(C::least(prices, Some(price), &log, &mut [9; 3]), Ok(count as u32 + 1));
            }
            for price in [0, HIGHEST + 1, 1 << 31, u32::MAX] {
                let (mut marks, mut rows, mut costs) = ([9; 2], [9; 16], [9; 3]);
                assert_eq!(C::check(prices, Some(price), &log, uploads), refuse(44, 0));
                assert_eq!(C::plan(prices, Some(price), &log, &mut marks, &mut rows), refuse(44, 0));
                assert_eq!(C::least(prices, Some(price), &log, &mut costs), refuse(44, 0));
                assert_eq!((marks, rows, costs), ([9; 2], [9; 16], [9; 3]));
            }
            let without = if requests.is_empty() { Ok(0) } else { refuse(15, 1) };
            assert_eq!(C::check(prices, None, &log, uploads), without);
            assert!(C::plan(prices, None, &log, &mut [9; 2], &mut [9; 16]).is_ok());
            assert_eq!(C::least(prices, None, &log, &mut [9; 3]), Ok(count as u32 + 1));
        }
    }
}

/// Week C, and the same with one thing wrong.
fn week_c_with_faults() -> Vec<(Vec<u8>, Fault)> {
    let right = [(1, 1), (2, 2), (11, 1), (12, 0)];
    let with = |class, at: usize, request| {
        let mut requests = right;
        requests[at] = request;
        log_of(class, 3, &requests).bytes()
    };
    let good = log_of(0, 3, &right).bytes();
    let mut summed = good.clone();
    summed[20] ^= 1;
    vec![
        (good.clone(), None),
        (good[..39].to_vec(), Some((1, 0))),
        (with(8, 0, (1, 1)), Some((3, 0))),
        (summed, Some((10, 0))),
        (with(0, 1, (2, 3)), Some((11, 2))),
        (with(0, 0, (0, 1)), Some((12, 1))),
        (with(0, 3, (11, 0)), Some((13, 4))),
    ]
}

/// A price file, an upload price and a log, each right or wrong, and the first refusal of these, if any. Each call is handed a fault of its own inputs too, which comes after these.
struct Order<'a> {
    prices: PriceFile<'a>,
    upload: Upload,
    log: &'a [u8],
    fault: Fault,
}

impl Order<'_> {
    fn check<C: Calls>(&self, rows: &[u32], fault: Fault) -> Result<u64, Refusal> {
        let checked = check::<C>(self.prices, self.upload, self.log, rows);
        assert_eq!(checked.map(drop), unless(self.fault.or(fault), || ()), "{:?} {:?} {:?} {rows:?}", self.prices, self.upload, self.log);
        checked
    }

    /// A refused call leaves both outputs as they were.
    fn plan<C: Calls>(&self, marks: usize, rows: usize, fault: Fault) -> Result<(u64, u32), Refusal> {
        let (mut marks, mut rows) = (vec![9; marks], vec![9; rows]);
        let planned = C::plan(self.prices, self.upload, self.log, &mut marks, &mut rows);
        let fault = self.fault.or(fault);
        assert_eq!(planned.map(drop), unless(fault, || ()), "{:?} {:?} {:?}", self.prices, self.upload, self.log);
        assert!(fault.is_none() || marks.iter().all(|&mark| mark == 9) && rows.iter().all(|&number| number == 9));
        planned
    }

    fn least<C: Calls>(&self, costs: usize, fault: Fault) -> Result<u32, Refusal> {
        let mut costs = vec![9; costs];
        let least = C::least(self.prices, self.upload, self.log, &mut costs);
        let fault = self.fault.or(fault);
        assert_eq!(least.map(drop), unless(fault, || ()), "{:?} {:?} {:?}", self.prices, self.upload, self.log);
        assert!(fault.is_none() || costs.iter().all(|&cost| cost == 9));
        least
    }
}

/// Every set of faults: the first of 37, 38, the log's, 44, and then 14 and 15 of a check, 31 of the other two, is given.
pub fn order<C: Calls>() {
    let mut met = Met::default();
    let good = encode(&[(1, 10), (2, 25)]);
    let wrong = encode(&[(1, 10), (2, 0)]);
    let prices: [(PriceFile, Fault); 4] = [(None, None), (Some(&good), None), (Some(&good[..19]), Some((37, 0))), (Some(&wrong), Some((38, 1)))];
    let right = [None, Some(1), Some(10), Some(11), Some(HIGHEST)].map(|upload| (upload, None));
    let refused = [0, HIGHEST + 1, u32::MAX].map(|price| (Some(price), Some((44, 0))));
    for (prices, of_prices) in prices {
        for (log, of_log) in week_c_with_faults() {
            for (upload, of_upload) in right.into_iter().chain(refused) {
                let order = Order { prices, upload, log: &log, fault: of_prices.or(of_log).or(of_upload) };
                let kept = [[0, 0, 0, 12], [0, 1, 1, 11], [1, 0, 1, 1], [1, 0, 2, 2]].concat();
                met.count(&order.check::<C>(&kept, None));
                met.count(&order.check::<C>(&kept[..15], Some((14, 0))));
                met.count(&order.check::<C>(&[3, 0, 0, 0], Some((15, 1))));
                let of_kind = if upload.is_none() { Some((15, 1)) } else { Some((18, 2)) };
                met.count(&order.check::<C>(&[2, 1, 1, 0], of_kind));
                let short = |place: usize| Some((31, place));
                // all of these plans have four rows
                for (marks, rows) in [(4, 16), (5, 40), (4, 15), (3, 16), (3, 15), (0, 0)] {
                    let fault = if marks < 4 { short(4) } else if rows < 16 { short(16) } else { None };
                    met.count(&order.plan::<C>(marks, rows, fault));
                }
                for (costs, fault) in [(5, None), (9, None), (4, short(5)), (0, short(5))] {
                    met.count(&order.least::<C>(costs, fault));
                }
            }
        }
    }
    met.exactly(&[0, 1, 3, 10, 11, 12, 13, 14, 15, 18, 31, 37, 38, 44], 8);
}

/// What the checker says of rows for 3 servers, of the prices of class 0 and an upload price of 4.
fn verdict<C: Calls>(requests: &[(u32, u16)], rows: &[[u32; 4]]) -> Result<u64, Refusal> {
    check::<C>(None, Some(4), &log_of(0, 3, requests).bytes(), &rows.concat())
}

/// 15 and 16 of an upload, each at its bound, and their order.
pub fn form<C: Calls>() {
    let week = |rows: &[[u32; 4]]| verdict::<C>(&[(5, 1), (9, 2)], rows);
    let (first, last) = ([2, 1, 5, 0], [2, 2, 9, 0]);
    assert_eq!(week(&[first, last]), Ok(8));
    // the last server and the last second, and one more; the last number; the kind
    assert_eq!(week(&[[2, 2, 4, 0], first, last]), Ok(12));
    assert_eq!(week(&[[2, 3, 4, 0], first, last]), refuse(15, 1));
    assert_eq!(week(&[first, [2, 0, 9, 0], last]), Ok(12));
    assert_eq!(week(&[first, last, [2, 0, 10, 0]]), refuse(15, 3));
    for number in [1, 2, 9, 1 << 31, u32::MAX] {
        assert_eq!(week(&[first, [2, 2, 9, number]]), refuse(15, 2));
    }
    for far in [1 << 31, u32::MAX] {
        assert_eq!(week(&[[2, far, 5, 0], first, last]), refuse(15, 1));
        assert_eq!(week(&[first, last, [2, 2, far, 0]]), refuse(15, 3));
        assert_eq!(week(&[first, [far, 2, 9, 0]]), refuse(15, 2));
    }
    assert_eq!(week(&[first, [3, 2, 9, 0]]), refuse(15, 2));
    // equal, a second that falls, a target that falls or rises
    assert_eq!(week(&[first, first, last]), refuse(16, 2));
    assert_eq!(week(&[first, last, [2, 2, 8, 0]]), refuse(16, 3));
    assert_eq!(week(&[[2, 2, 5, 0], first, last]), refuse(16, 2));
    assert_eq!(week(&[first, [2, 2, 5, 0], last]), Ok(12));
    assert_eq!(week(&[first, [2, 0, 6, 0], last]), Ok(12));
    // before a transfer, a hold, a transfer and a hold
    assert_eq!(week(&[first, [1, 1, 0, 5], last]), refuse(16, 2));
    assert_eq!(week(&[first, [0, 1, 5, 9], last]), refuse(16, 2));
    assert_eq!(week(&[[1, 1, 0, 5], first, [0, 1, 5, 9]]), refuse(16, 3));
    assert_eq!(week(&[[0, 1, 5, 9], [1, 1, 0, 5], first, last]), Ok(4 + 10 + 8));
    // of one row 15 comes first, of two the first row's, and both before 17 and 18
    assert_eq!(week(&[first, [2, 1, 5, 1]]), refuse(15, 2));
    assert_eq!(week(&[first, first, [2, 3, 9, 0]]), refuse(16, 2));
    assert_eq!(week(&[first, [2, 3, 9, 0], first]), refuse(15, 2));
    assert_eq!(week(&[[0, 0, 1, 9], [2, 3, 9, 0]]), refuse(15, 2));
    assert_eq!(week(&[[0, 0, 1, 9], first, first]), refuse(16, 3));
    assert_eq!(week(&[[0, 0, 1, 9], first, last]), refuse(17, 1));
    // without a price there is no such kind
    let file = log_of(0, 3, &[(5, 1), (9, 2)]).bytes();
    let kept = [[0, 0, 0, 9], [1, 0, 1, 5], [1, 0, 2, 9]];
    assert_eq!(check::<C>(None, None, &file, &kept.concat()), Ok(29));
    assert_eq!(check::<C>(None, None, &file, &[kept[0], kept[1], kept[2], last].concat()), refuse(15, 4));
    assert_eq!(check::<C>(None, None, &file, &[first, [9, 9, 9, 9]].concat()), refuse(15, 1));
    assert_eq!(check::<C>(None, Some(4), &file, &[kept[0], kept[1], kept[2], last].concat()), Ok(33));
    // an empty log has only the empty schedule
    assert_eq!(verdict::<C>(&[], &[]), Ok(0));
    assert_eq!(verdict::<C>(&[], &[[2, 0, 0, 0]]), refuse(15, 1));
}

/// Where an upload makes a copy stand, and where not.
pub fn standing<C: Calls>() {
    let week = |rows: &[[u32; 4]]| verdict::<C>(&[(5, 1), (9, 2)], rows);
    // nothing is held between requests; what nobody needs is paid for, and so is an upload to where a copy stands
    assert_eq!(week(&[[2, 1, 5, 0], [2, 2, 9, 0]]), Ok(8));
    assert_eq!(week(&[[2, 0, 0, 0], [2, 1, 5, 0], [2, 2, 7, 0], [2, 2, 9, 0]]), Ok(16));
    assert_eq!(week(&[[0, 0, 0, 9], [1, 0, 1, 5], [1, 0, 2, 9], [2, 0, 3, 0], [2, 1, 5, 0]]), Ok(9 + 20 + 8));
    // a hold begins from it, in that second and in no other
    assert_eq!(week(&[[0, 1, 5, 9], [1, 1, 2, 9], [2, 1, 5, 0]]), Ok(4 + 10 + 4));
    assert_eq!(week(&[[0, 1, 4, 9], [1, 1, 2, 9], [2, 1, 5, 0]]), refuse(17, 1));
    assert_eq!(week(&[[0, 1, 6, 9], [1, 1, 2, 9], [2, 1, 5, 0]]), refuse(17, 1));
    assert_eq!(week(&[[0, 2, 5, 9], [2, 1, 5, 0]]), refuse(17, 1));
    assert_eq!(week(&[[0, 2, 3, 9], [2, 1, 5, 0], [2, 2, 9, 0]]), refuse(17, 1));
    assert_eq!(week(&[[0, 2, 3, 9], [2, 2, 3, 0], [2, 1, 5, 0]]), Ok(6 + 8));
    // a transfer of that second leaves from it, though it is listed before; so does a chain, and a circle is fed by it
    assert_eq!(week(&[[1, 0, 1, 5], [2, 0, 5, 0], [2, 2, 9, 0]]), Ok(10 + 8));
    assert_eq!(week(&[[1, 0, 1, 5], [2, 0, 4, 0], [2, 2, 9, 0]]), refuse(17, 1));
    assert_eq!(week(&[[1, 0, 1, 5], [2, 0, 6, 0], [2, 2, 9, 0]]), refuse(17, 1));
    assert_eq!(week(&[[1, 0, 1, 5], [1, 2, 0, 5], [2, 2, 5, 0], [2, 2, 9, 0]]), Ok(20 + 8));
    assert_eq!(week(&[[1, 0, 1, 5], [1, 1, 2, 5], [1, 2, 0, 5], [2, 2, 5, 0], [2, 2, 9, 0]]), Ok(30 + 8));
    assert_eq!(week(&[[1, 0, 1, 5], [1, 1, 2, 5], [1, 2, 0, 5], [2, 2, 9, 0]]), refuse(17, 1));
    // a hold from a transfer that is fed by it
    assert_eq!(week(&[[0, 2, 5, 9], [1, 1, 2, 5], [2, 1, 5, 0]]), Ok(4 + 10 + 4));
    // a request that is not served
    assert_eq!(week(&[[2, 1, 5, 0]]), refuse(18, 2));
    assert_eq!(week(&[[2, 1, 4, 0], [2, 2, 9, 0]]), refuse(18, 1));
    assert_eq!(week(&[[2, 0, 5, 0], [2, 2, 9, 0]]), refuse(18, 1));
    // second 0: for a hold, for a transfer, and at home, where the copy stands
    assert_eq!(week(&[[0, 1, 0, 9], [1, 1, 2, 9], [2, 1, 0, 0]]), Ok(9 + 10 + 4));
    assert_eq!(week(&[[0, 2, 0, 9], [1, 1, 2, 0], [1, 2, 1, 5], [2, 1, 0, 0]]), Ok(9 + 20 + 4));
    assert_eq!(week(&[[0, 0, 0, 9], [1, 0, 1, 5], [1, 0, 2, 9], [2, 0, 0, 0]]), Ok(9 + 20 + 4));
    assert_eq!(week(&[[0, 1, 0, 9], [1, 1, 2, 9], [2, 0, 0, 0]]), refuse(17, 1));
    // holds that touch in its second are not joined by it
    assert_eq!(week(&[[0, 1, 5, 7], [0, 1, 7, 9], [2, 1, 5, 0], [2, 1, 7, 0]]), refuse(16, 2));
}

/// A chain through all 64 servers in one second from an upload at its end, listed from the other; then with one row less, and as a cycle.
pub fn longest_chain<C: Calls>() {
    let mut met = Met::default();
    let log = Log { header: Header { class: 3, server_count: 64, home: 5, id: [0; 16] }, requests: vec![Request { second: 7, server: 0 }] };
    let (file, upload) = (log.bytes(), Some(HIGHEST));
    for second in [3, 7] {
        let mut rows: Vec<[u32; 4]> = (1..64).map(|source| [1, source, source - 1, second]).collect();
        rows.push([2, 63, second, 0]);
        if second < 7 {
            rows.insert(0, [0, 0, second, 7]);
        }
        let cost = Prices::of(3).cost(7 - second as u64, 63) + HIGHEST as u64;
        assert_eq!(check::<C>(None, upload, &file, &rows.concat()), Ok(cost));
        for at in 0..rows.len() {
            let mut fewer = rows.clone();
            fewer.remove(at);
            met.count(&check::<C>(None, upload, &file, &fewer.concat()));
        }
        rows.push([1, 0, 63, second]);
        sort(&mut rows);
        assert_eq!(check::<C>(None, upload, &file, &rows.concat()), Ok(cost + Prices::of(3).cost(0, 1)));
        rows.retain(|row| row[0] == 1);
        met.count(&check::<C>(None, upload, &file, &rows.concat()));
    }
    met.exactly(&[17, 18], 2);
}

/// An upload to each of 64 servers in each second, at the highest price: a request is served by the first upload of its second, or by the last.
pub fn many_uploads<C: Calls>() {
    let header = Header { class: 0, server_count: 64, home: 0, id: [0; 16] };
    let log = Log { header, requests: (1..=300).map(|second| Request { second, server: if second % 2 == 0 { 0 } else { 63 } }).collect() };
    let rows: Vec<[u32; 4]> = (0..=300).flat_map(|second| (0..64).map(move |target| [2, target, second, 0])).collect();
    let verdict = |rows: &[[u32; 4]]| C::check(None, Some(HIGHEST), &log.bytes(), &rows.concat());
    assert_eq!(verdict(&rows), Ok(301 * 64 * HIGHEST as u64));
    let without = |target, second| verdict(&rows.iter().copied().filter(|row| row[1..3] != [target, second]).collect::<Vec<_>>());
    for second in [1, 2, 149, 150, 299, 300] {
        let served = second % 2 * 63;
        assert_eq!(without(served, second), refuse(18, second as usize));
        assert_eq!(without(63 - served, second), Ok((301 * 64 - 1) * HIGHEST as u64));
    }
}

/// K, S and U at the price where two of them cost the same, and one off it.
pub fn ties<C: Calls>() {
    let marks = |server_count, requests: &[(u32, u16)], upload| planned::<C>(server_count, requests, upload).1;
    // a transfer and seven seconds of holding; the same while home is kept for the request after it
    assert_eq!([16, 17, 18].map(|upload| marks(2, &[(7, 1)], upload)), ["U", "S", "S"]);
    assert_eq!([9, 10, 11].map(|upload| marks(2, &[(7, 1), (8, 0)], upload)), ["UK", "SK", "SK"]);
    // nine seconds at home, and at the server of the request before
    assert_eq!([8, 9, 10].map(|upload| marks(1, &[(9, 0)], upload)), ["U", "K", "K"]);
    assert_eq!([8, 9, 10].map(|upload| marks(2, &[(1, 1), (10, 1)], upload)), ["UU", "UK", "UK"]);
    // a first request at home may be U, and so may every request at one server
    assert_eq!(planned::<C>(1, &[(3, 0), (5, 0), (8, 0)], 1), (3, "UUU".to_string(), vec![2, 0, 3, 0, 2, 0, 5, 0, 2, 0, 8, 0]));
    assert_eq!(planned::<C>(1, &[(3, 0), (5, 0), (8, 0)], 2), (6, "UKU".to_string(), vec![0, 0, 3, 5, 2, 0, 3, 0, 2, 0, 8, 0]));
    assert_eq!(planned::<C>(1, &[(3, 0), (5, 0), (8, 0)], 3), (8, "KKK".to_string(), vec![0, 0, 0, 8]));
    // the gap after a U is held at its server where the next is S
    assert_eq!(planned::<C>(3, &[(30, 1), (31, 2)], 12), (23, "US".to_string(), vec![0, 1, 30, 31, 1, 1, 2, 31, 2, 1, 30, 0]));
}

/// Servers asked for in turn, a second apart: at the price of a transfer and a second's holding each is S, with two rows; below it each is U, with one.
pub fn two_rows_a_request<C: Calls>() {
    for count in [1, 2, 20, 63] {
        let requests: Vec<(u32, u16)> = (1..=count).map(|i| (i, i as u16)).collect();
        let counted = |upload| {
            let (cost, marks, rows) = planned::<C>(64, &requests, upload);
            (cost, marks.matches('S').count(), rows.len() / 4)
        };
        let count = count as usize;
        assert_eq!(counted(11), (11 * count as u64, count, 2 * count));
        assert_eq!(counted(10), (10 * count as u64, 0, count));
    }
}

/// The longest log with the highest prices, its servers in turn and far apart: all are uploaded. Then with one request more, server or second.
pub fn largest<C: Calls>() {
    let table = Table::of_pairs(&[(HIGHEST, HIGHEST)]);
    let header = Header { class: 0, server_count: 64, home: 63, id: [1; 16] };
    let second = |i: u32| (LAST_SECOND as u64 * i as u64 / MOST_REQUESTS as u64) as u32;
    let mut log = Log { header, requests: (1..=MOST_REQUESTS as u32).map(|i| Request { second: second(i), server: (i % 64) as u16 }).collect() };
    for price in [1, HIGHEST] {
        let (cost, marks, rows, costs) = answers::<C>(table.file(), Some(price), &log);
        let uploads: Vec<u32> = log.requests.iter().flat_map(|request| [2, request.server as u32, request.second, 0]).collect();
        assert_eq!((cost, marks, rows), (price as u64 * MOST_REQUESTS as u64, vec![b'U'; MOST_REQUESTS], uploads));
        assert!((0..).map(|count| price as u64 * count).zip(costs).all(|(right, cost)| right == cost));
    }
    let refused = |log: &Log| {
        let (planned, least) = (
            C::plan(table.file(), Some(1), &log.bytes(), &mut vec![9; 3_000], &mut vec![9; 16_384]).map(drop),
            C::least(table.file(), Some(1), &log.bytes(), &mut vec![9; 3_000]).map(drop),
        );
        assert_eq!((planned, C::check(table.file(), Some(1), &log.bytes(), &[]).map(drop)), (least, least));
        least
    };
    log.requests[MOST_REQUESTS - 1].second += 1;
    assert_eq!(refused(&log), refuse(12, MOST_REQUESTS));
    log.requests[MOST_REQUESTS - 1] = Request { second: LAST_SECOND - 1, server: 64 };
    assert_eq!(refused(&log), refuse(11, MOST_REQUESTS));
    log.requests.push(Request { second: LAST_SECOND, server: 0 });
    assert_eq!(refused(&log), refuse(7, 0));
}

/// All logs of at most `most` requests at up to three servers whose gaps are 1, the window and the window and one more, at upload prices about their
/// transfer price and at the bounds: the plan is the first of all markings, and where windows are short it costs the least by sets, second by second.
pub fn every_small_log<C: Calls>(most: usize) {
    for (table, class) in each_class() {
        let prices = table.of(class);
        let window = prices.window() as u32;
        let mut gaps = vec![1, window.max(1), window + 1];
        gaps.dedup();
        for server_count in 1..=3 {
            let header = Header { class, server_count, home: server_count / 2, id: [0; 16] };
            for requests in lists_of_gaps(server_count, &gaps, most) {
                let log = Log { header, requests };
                for price in upload_edges(prices).into_iter().filter(|_| log.last_second() <= LAST_SECOND) {
                    first_of_all_markings::<C>(&table, Some(price), &log);
                    if window <= 12 {
                        let (cost, _, _, _) = answers::<C>(table.file(), Some(price), &log);
                        assert_eq!(cost, least_by_sets(prices, Some(price), &log), "{prices:?} {price} {log:?}");
                    }
                }
            }
        }
    }
}

/// No schedule that the checker accepts is cheaper: all lists of rows in order, for two servers and two seconds, and for one server and four. An upload
/// costs less than a transfer, the same and more.
pub fn all_schedules<C: Calls>() {
    let table = Table::of_pairs(&[(1, 10), (3, 2), (2, 7), (HIGHEST, HIGHEST - 1)]);
    for class in 0..4 {
        let prices = table.of(class);
        for (server_count, most) in [(1, 4), (2, 2)] {
            let header = Header { class, server_count, home: class % server_count, id: [0; 16] };
            for requests in lists_of_gaps(server_count, &[1, 2, 3, 4], most) {
                let log = Log { header, requests };
                if log.last_second() > most as u32 {
                    continue;
                }
                for upload in [prices.transfer / 2, prices.transfer, prices.transfer + 1].map(Some) {
                    let file = log.bytes();
                    let least = least_by_schedules(true, &log, |rows| C::check(table.file(), upload, &file, rows));
                    assert_eq!(answers::<C>(table.file(), upload, &log).0, least, "{prices:?} {upload:?} {log:?}");
                }
            }
        }
    }
}

/// A price so high that no upload pays: a transfer and the longest gap.
fn dear(prices: Prices, log: &Log) -> u64 {
    let seconds = log.seconds();
    let gaps = seconds.iter().zip([0].iter().chain(&seconds)).map(|(second, before)| second - before);
    prices.cost(gaps.max().unwrap_or(0) as u64, 1)
}

/// With uploads no least cost is above that without, nor above an upload for each request, and none falls as the price rises. A price that never pays
/// gives the answers without uploads, byte for byte. A plan with uploads is refused by a check without them, at its first upload.
pub fn beside_none<C: Calls>(seed: u64, times: usize) {
    let mut random = Random::new(seed);
    let (mut less, mut never, mut kinds) = (0, 0, Met::default());
    for _ in 0..times {
        let table = random_table(&mut random);
        let log = random_log(&mut random, &table, 20);
        let prices = table.of(log.header.class);
        let without = answers::<C>(table.file(), None, &log);
        let upload = random_upload(&mut random, prices);
        let with = answers::<C>(table.file(), upload, &log);
        let higher = answers::<C>(table.file(), upload.map(|price| random.between(price as u64, HIGHEST as u64) as u32), &log);
        for (count, cost) in with.3.iter().enumerate() {
            assert!(*cost <= without.3[count] && *cost <= higher.3[count], "{prices:?} {upload:?} {log:?}");
            assert!(*cost <= upload.unwrap() as u64 * count as u64, "{prices:?} {upload:?} {log:?}");
        }
        less += usize::from(with.0 < without.0);
        let dear = dear(prices, &log);
        if dear <= HIGHEST as u64 {
            never += 1;
            let price = random.one_of(&[dear, dear + 1, HIGHEST as u64]).min(HIGHEST as u64) as u32;
            assert_eq!(answers::<C>(table.file(), Some(price), &log), without, "{prices:?} {price} {log:?}");
        }
        let first = with.2.chunks(4).position(|row| row[0] == 2);
        let checked = C::check(table.file(), None, &log.bytes(), &with.2);
        assert_eq!(checked, first.map_or(Ok(with.0), |at| refuse(15, at + 1)), "{prices:?} {upload:?} {log:?}");
        kinds.count(&checked);
    }
    assert!(less > times / 5 && never > times / 5, "{less} {never}");
    kinds.exactly(&[0, 15], times as u64 / 10);
}

#[cfg(test)]
mod tests {
    use super::*;
    use crate::calls::Simple;

    #[test]
    fn simple() {
        week_c::<Simple>();
        weeks::<Simple>();
        price_bounds::<Simple>();
        order::<Simple>();
        form::<Simple>();
        standing::<Simple>();
        longest_chain::<Simple>();
        ties::<Simple>();
        two_rows_a_request::<Simple>();
        largest::<Simple>();
        beside_none::<Simple>(1, 500);
    }
}
