//! 01's worked weeks, A to I, with the rows of 02's request 03, the closing costs of its request 02 and the quotes of its request 07. Week B is 002's
//! running example times ten.

use crate::calls::Calls;
use crate::log::{Header, Log, Request};
use crate::online::Cache;
use crate::planner::letter;
use crate::{refuse, Refusal};

/// A week with home 0: what 01 says of it, as far as it does.
pub struct Week {
    pub class: u8,
    pub server_count: u8,
    pub requests: &'static [(u32, u16)],
    /// the last of the least costs so far
    pub least: &'static [u64],
    /// the last of the running costs so far
    pub running: &'static [u64],
    pub closing: u64,
    pub quote: u64,
    pub marks: Option<&'static str>,
    pub online_marks: Option<&'static str>,
    pub rows: Option<&'static [[u32; 4]]>,
}

const A: Week = Week {
    class: 0,
    server_count: 2,
    requests: &[],
    least: &[0],
    running: &[0],
    closing: 10,
    quote: 0,
    marks: Some(""),
    online_marks: Some(""),
    rows: Some(&[]),
};

const B: Week = Week {
    server_count: 4,
    requests: &[(5, 1), (8, 2), (11, 3), (14, 0), (26, 1), (32, 1), (40, 2)],
    least: &[15, 28, 41, 44, 65, 71, 89],
    running: &[15, 31, 50, 62, 102, 114, 136],
    closing: 156,
    quote: 106,
    marks: None,
    online_marks: None,
    rows: Some(&[[0, 0, 0, 14], [0, 1, 5, 40], [1, 0, 1, 5], [1, 1, 2, 8], [1, 1, 3, 11], [1, 1, 2, 40]]),
    ..A
};

const C: Week = Week {
    server_count: 3,
    requests: &[(1, 1), (2, 2), (11, 1), (12, 0)],
    least: &[11, 22, 31, 42],
    running: &[11, 23, 50, 62],
    closing: 82,
    quote: 52,
    marks: Some("SSKK"),
    online_marks: Some("SSKS"),
    rows: Some(&[[0, 0, 0, 12], [0, 1, 1, 11], [1, 0, 1, 1], [1, 1, 2, 2]]),
    ..A
};

const D: Week = Week {
    requests: &[(1, 1), (11, 0)],
    least: &[21],
    running: &[31],
    closing: 41,
    quote: 31,
    marks: None,
    online_marks: Some("SK"),
    rows: None,
    ..A
};

const E: Week = Week {
    requests: &[(1, 1), (12, 0)],
    least: &[22],
    running: &[42],
    closing: 62,
    quote: 32,
    marks: None,
    online_marks: Some("SS"),
    rows: None,
    ..A
};

const F: Week = Week {
    class: 6,
    requests: &[(1, 1), (2, 0)],
    least: &[19],
    running: &[24],
    closing: 24,
    quote: 24,
    marks: None,
    online_marks: None,
    rows: None,
    ..A
};

pub const WEEKS: [Week; 6] = [A, B, C, D, E, F];

pub fn log_of(class: u8, server_count: u8, requests: &[(u32, u16)]) -> Log {
    let header = Header { class, server_count, home: 0, id: [0; 16] };
    Log { header, requests: requests.iter().map(|&(second, server)| Request { second, server }).collect() }
}

impl Week {
    pub fn log(&self) -> Log {
        log_of(self.class, self.server_count, self.requests)
    }

    fn planned<C: Calls>(&self) {
        let file = self.log().bytes();
        let count = self.requests.len();
        let (mut marks, mut rows, mut costs) = (vec![1; count], vec![1; 8 * count], vec![1; count + 1]);
        let (cost, number) = C::plan(None, None, &file, &mut marks, &mut rows).unwrap();
        rows.truncate(4 * number as usize);
        assert_eq!(C::least(None, None, &file, &mut costs), Ok(count as u32 + 1));
        assert!(costs.ends_with(self.least) && cost == costs[count], "{costs:?}");
        assert_eq!(C::check(None, None, &file, &rows), Ok(cost));
        if let Some(expected) = self.marks {
            assert_eq!(marks, expected.as_bytes());
        }
        if let Some(expected) = self.rows {
            assert_eq!(rows, expected.concat());
        }
    }

    fn online<C: Calls>(&self) {
        let header = self.log().header;
        let (mut cache, _) = C::start(None, &header);
        let (mut running, mut marks) = (vec![0], String::new());
        for &(second, server) in self.requests {
            let (next, served) = C::scan(&cache, header.id, second, server);
            let served = served.unwrap();
            marks.push(letter(served.mark()) as char);
            running.push(served.running);
            assert_eq!(C::running(&next), Ok(served.running));
            cache = next;
        }
        assert_eq!(C::close(&cache), (Cache { closed: true, ..cache }, Ok(self.closing)));
        assert!(running.ends_with(self.running), "{running:?}");
        if let Some(expected) = self.online_marks {
            assert_eq!(marks, expected);
        }
    }
}

/// Weeks A to F.
pub fn a_to_f<C: Calls>() {
    for week in WEEKS {
        week.planned::<C>();
        week.online::<C>();
    }
}

/// Week G: a cycle of transfers with nothing behind it, and then with something.
pub fn g<C: Calls>() {
    let file = log_of(0, 2, &[(1, 0)]).bytes();
    assert_eq!(C::check(None, None, &file, &[1, 0, 1, 1, 1, 1, 0, 1]), refuse(17, 1));
    assert_eq!(C::check(None, None, &file, &[0, 0, 0, 1, 1, 0, 1, 1, 1, 1, 0, 1]), Ok(21));
}

fn read<C: Calls>(requests: &[(u32, u16)]) -> Result<u16, Refusal> {
    let file = log_of(0, 2, requests).bytes();
    C::read(None, &file, &mut [0; 2], &mut [0; 2]).1
}

/// Weeks H and I: the last second, and equal seconds.
pub fn h_and_i<C: Calls>() {
    assert_eq!(read::<C>(&[(4_000_000, 1)]), Ok(1));
    assert_eq!(read::<C>(&[(4_000_001, 1)]), refuse(12, 1));
    let header = log_of(0, 2, &[]).header;
    let (cache, _) = C::start(None, &header);
    assert!(C::scan(&cache, header.id, 4_000_000, 1).1.is_ok());
    assert_eq!(C::scan(&cache, header.id, 4_000_001, 1), (cache, refuse(12, 0)));
    assert_eq!(read::<C>(&[(7, 1), (7, 0)]), refuse(13, 2));
}

#[cfg(test)]
mod tests {
    use super::*;
    use crate::calls::Simple;
    use crate::fast::Fast;
    use crate::planner::{all_markings, least, plan_by_all_markings};
    use crate::prices::Prices;
    use crate::search::least_by_sets;

    #[test]
    fn simple() {
        a_to_f::<Simple>();
        g::<Simple>();
        h_and_i::<Simple>();
    }

    #[test]
    fn fast() {
        a_to_f::<Fast>();
        g::<Fast>();
        h_and_i::<Fast>();
    }

    #[test]
    fn least_costs_by_all_ways() {
        for week in WEEKS {
            let log = week.log();
            let prices = Prices::of(week.class);
            for (k, &cost) in least(prices, None, &log).iter().enumerate() {
                assert_eq!(plan_by_all_markings(prices, None, &log.cut(k)).cost, cost);
                assert_eq!(least_by_sets(prices, None, &log.cut(k)), cost);
            }
        }
    }

    #[test]
    fn three_markings_of_week_c_cost_42() {
        assert_eq!(all_markings(Prices::of(C.class), None, &C.log()).iter().filter(|plan| plan.cost == 42).count(), 3);
    }
}
