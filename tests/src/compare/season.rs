//! 02's request 12: what is printed of a season, by the program or by a version of it.

use super::lifetime::SAMPLE as LIFETIME;
use super::log::with_its_sum;
use super::weeks::{log_of, WEEKS};
use crate::log::{self, Header, Log, Request, LAST_SECOND, MOST_REQUESTS};
use crate::prices::{Prices, Table, UNSOLD};
use crate::random::{random_log, random_log_of, random_requests, random_season, wrong_log, Random};
use crate::season::{printed, report, Costs, Report, MOST_LOGS};

/// The sample season, and its report.
pub const SAMPLE: &[u8] = include_bytes!("../../../samples/season.log");
pub const SAMPLE_REPORT: &str = include_str!("../../../samples/season.txt");

/// How an input is printed.
pub type Print<'a> = &'a dyn Fn(&[u8]) -> String;

/// What is printed where there is no log.
pub const NOTHING: &str = "accepted 0\nleast 0\nrunning 0\n";

/// One of 01's weeks A to F.
fn week(letter: char) -> Vec<u8> {
    WEEKS[(letter as u8 - b'A') as usize].log().bytes()
}

/// Weeks by their letters, end to end.
pub fn weeks(letters: &str) -> Vec<u8> {
    letters.chars().flat_map(week).collect()
}

fn is(print: Print, input: &[u8], text: &str) {
    assert_eq!(print(input), text, "{input:?}");
}

/// The sample, and an old log of class 7 alone and beside others.
pub fn samples(print: Print) {
    is(print, SAMPLE, SAMPLE_REPORT);
    is(print, LIFETIME, "accepted 1\nleast 10400001\nrunning 17829998\nworst 1 17829998 10400001\n");
    let input = [LIFETIME, &week('E'), LIFETIME].concat();
    is(print, &input, "accepted 3\nleast 20800024\nrunning 35660038\nworst 2 42 22\n");
}

/// 01's weeks: their least costs are 0, 89, 42, 21, 22 and 19, their running costs 0, 136, 62, 31, 42 and 24.
pub fn literal(print: Print) {
    is(print, b"", NOTHING);
    is(print, &weeks("C"), "accepted 1\nleast 42\nrunning 62\nworst 1 62 42\n");
    is(print, &weeks("ABCDEF"), "accepted 6\nleast 193\nrunning 295\nworst 5 42 22\n");
    is(print, &weeks("FEDCBA"), "accepted 6\nleast 193\nrunning 295\nworst 2 42 22\n");
    is(print, &weeks("FF"), "accepted 2\nleast 38\nrunning 48\nworst 1 24 19\n");
}

/// An empty log counts, and has no ratio: alone, before others and after them.
pub fn empty(print: Print) {
    is(print, &weeks("A"), "accepted 1\nleast 0\nrunning 0\n");
    is(print, &weeks("AAA"), "accepted 3\nleast 0\nrunning 0\n");
    is(print, &weeks("AF"), "accepted 2\nleast 19\nrunning 24\nworst 2 24 19\n");
    is(print, &weeks("FA"), "accepted 2\nleast 19\nrunning 24\nworst 1 24 19\n");
    is(print, &weeks("AAFAEAA"), "accepted 7\nleast 41\nrunning 66\nworst 5 42 22\n");
    for class in 0..8 {
        for (server_count, home) in [(1, 0), (64, 0), (64, 63)] {
            let header = Header { class, server_count, home, id: [0xff; 16] };
            is(print, &Log { header, requests: vec![] }.bytes(), "accepted 1\nleast 0\nrunning 0\n");
        }
    }
}

/// A log whose ratio is 1 is the worst where there is no other; one of the same ratio is not.
pub fn least_ratio(print: Print) {
    let one = log_of(2, 1, &[(7, 0)]).bytes();
    is(print, &one, "accepted 1\nleast 14\nrunning 14\nworst 1 14 14\n");
    is(print, &[week('A'), one.clone(), log_of(0, 1, &[(3, 0)]).bytes()].concat(), "accepted 3\nleast 17\nrunning 17\nworst 2 14 14\n");
    is(print, &[one, week('F')].concat(), "accepted 2\nleast 33\nrunning 38\nworst 2 24 19\n");
}

/// 62 to 42 is 31 to 21, and three times the prices are three times the costs: of equal ratios the earlier stays.
pub fn equal_ratios(print: Print) {
    is(print, &weeks("CD"), "accepted 2\nleast 63\nrunning 93\nworst 1 62 42\n");
    is(print, &weeks("DC"), "accepted 2\nleast 63\nrunning 93\nworst 1 31 21\n");
    is(print, &weeks("AFDCD"), "accepted 5\nleast 103\nrunning 148\nworst 3 31 21\n");
    let [e, dearer] = [0, 3].map(|class| log_of(class, 2, &[(1, 1), (12, 0)]).bytes());
    is(print, &[&e[..], &dearer].concat(), "accepted 2\nleast 88\nrunning 168\nworst 1 42 22\n");
    is(print, &[&dearer[..], &e].concat(), "accepted 2\nleast 88\nrunning 168\nworst 1 126 66\n");
}

/// 42 to 22 is the larger ratio, 136 to 89 the larger difference; the other way round a small difference of small costs is not enough.
pub fn ratio_and_difference(print: Print) {
    is(print, &weeks("EB"), "accepted 2\nleast 111\nrunning 178\nworst 1 42 22\n");
    is(print, &weeks("BE"), "accepted 2\nleast 111\nrunning 178\nworst 2 42 22\n");
    is(print, &weeks("FB"), "accepted 2\nleast 108\nrunning 160\nworst 2 136 89\n");
    is(print, &weeks("BF"), "accepted 2\nleast 108\nrunning 160\nworst 1 136 89\n");
}

/// A dear log of class 7: so many servers are asked for from a second on, then three times more, and the last once more after a gap. Each is held in
/// between, and by the cache also over the gap.
fn dear(servers: u32, from: u32, gap: u32) -> Log {
    let round = |begins: u32, first: u32| (first..servers).map(move |server| Request { second: from + begins + server, server: server as u16 });
    let mut requests: Vec<Request> = round(0, 1).chain([990_000, 1_980_000, 2_970_000].into_iter().flat_map(|begins| round(begins, 0))).collect();
    let last = requests[requests.len() - 1];
    requests.push(Request { second: last.second + gap, ..last });
    Log { header: Header { class: UNSOLD, server_count: 64, home: 0, id: [0; 16] }, requests }
}

/// Two ratios that are one number in 64 bits of floating point: of the products 1 apart, the greater tells.
pub fn exact_ratios(print: Print) {
    let (low, high) = (dear(64, 0, 451_357).bytes(), dear(63, 33_697, 451_517).bytes());
    let [a, b, c, d] = [281_968_864u64, 253_531_357, 277_591_221, 249_595_214];
    assert_eq!((a as f64 / b as f64, a * d + 1), (c as f64 / d as f64, c * b));
    is(print, &low, "accepted 1\nleast 253531357\nrunning 281968864\nworst 1 281968864 253531357\n");
    is(print, &[&low[..], &high].concat(), "accepted 2\nleast 503126571\nrunning 559560085\nworst 2 277591221 249595214\n");
    is(print, &[&high[..], &low].concat(), "accepted 2\nleast 503126571\nrunning 559560085\nworst 1 277591221 249595214\n");
}

/// A log with one byte changed and its sum made to fit.
fn changed(at: usize, byte: u8) -> Vec<u8> {
    let mut file = week('C');
    file[at] = byte;
    with_its_sum(file)
}

/// Inputs refused with each number from 1 to 13. Those of 1 and 9 end too early, the others have the length of a log of four requests.
fn wrong() -> Vec<(u8, Vec<u8>)> {
    let of = |requests: &[(u32, u16)]| log_of(0, 3, requests).bytes();
    let mut summed = week('C');
    summed[23] ^= 0x80;
    let mut more = week('C');
    more[6..8].copy_from_slice(&2_048u16.to_le_bytes());
    more[16..20].copy_from_slice(&12_328u32.to_le_bytes());
    vec![
        (1, vec![1]),
        (1, week('C')[..39].to_vec()),
        (2, changed(0, 2)),
        (2, changed(1, 1)),
        (3, changed(2, 8)),
        (4, changed(3, 0)),
        (4, changed(3, 65)),
        (5, changed(4, 3)),
        (6, changed(5, 1)),
        (7, changed(7, 9)),
        (8, changed(8, 41)),
        (8, changed(12, 25)),
        (8, changed(16, 65)),
        (8, changed(16, 39)),
        (8, changed(19, 0xff)),
        (9, more),
        (10, summed),
        (11, of(&[(1, 1), (2, 2), (11, 1), (12, 3)])),
        (12, of(&[(0, 1), (2, 2), (11, 1), (12, 0)])),
        (12, of(&[(1, 1), (2, 2), (11, 1), (LAST_SECOND + 1, 0)])),
        (13, of(&[(1, 1), (1, 2), (11, 1), (12, 0)])),
    ]
}

/// The first of them with a number.
fn wrong_by(number: u8) -> Vec<u8> {
    wrong().into_iter().find(|wrong| wrong.0 == number).unwrap().1
}

/// Each refusal alone, at the end of a season and amid one: 1 to 9 end the report, after 10 to 13 the next log is looked at. What follows a
/// short header makes it longer, so 1 is only ever at the end.
pub fn every_refusal(print: Print) {
    let mut seen = [0; 14];
    for (number, file) in wrong() {
        seen[number as usize] += 1;
        is(print, &file, &format!("accepted 0\nrefused {number} 1\nleast 0\nrunning 0\n"));
        let end = [&weeks("CA")[..], &file].concat();
        is(print, &end, &format!("accepted 2\nrefused {number} 1\nleast 42\nrunning 62\nworst 1 62 42\n"));
        if number == 1 {
            continue;
        }
        for after in ["E", "EEE", "ABCDEF"] {
            let amid = [week('C'), file.clone(), weeks(after)].concat();
            let ended = format!("accepted 1\nrefused {number} 1\nleast 42\nrunning 62\nworst 1 62 42\n");
            let text = match after {
                _ if number < 10 => ended,
                "E" => format!("accepted 2\nrefused {number} 1\nleast 64\nrunning 104\nworst 3 42 22\n"),
                "EEE" => format!("accepted 4\nrefused {number} 1\nleast 108\nrunning 188\nworst 3 42 22\n"),
                _ => format!("accepted 7\nrefused {number} 1\nleast 235\nrunning 357\nworst 7 42 22\n"),
            };
            is(print, &amid, &text);
        }
    }
    assert!(seen[1..].iter().all(|&times| times > 0), "{seen:?}");
}

/// Numbers rise whatever the order of the logs, and each has one line; a refused log has a place too.
pub fn places(print: Print) {
    let season = |numbers: &[u8]| -> Vec<u8> { numbers.iter().flat_map(|&number| if number == 0 { week('E') } else { wrong_by(number) }).collect() };
    let refused = "refused 10 1\nrefused 11 1\nrefused 12 1\nrefused 13 1\n";
    is(print, &season(&[13, 12, 11, 10, 0]), &format!("accepted 1\n{refused}least 22\nrunning 42\nworst 5 42 22\n"));
    is(print, &season(&[12, 10, 12, 0, 12, 10, 0]), "accepted 2\nrefused 10 2\nrefused 12 3\nleast 44\nrunning 84\nworst 4 42 22\n");
    is(print, &season(&[11, 13, 11, 2]), "accepted 0\nrefused 2 1\nrefused 11 2\nrefused 13 1\nleast 0\nrunning 0\n");
    is(print, &season(&[13, 9]), "accepted 0\nrefused 9 1\nrefused 13 1\nleast 0\nrunning 0\n");
    is(print, &season(&[10, 1]), "accepted 0\nrefused 1 1\nrefused 10 1\nleast 0\nrunning 0\n");
}

/// A log cut at every byte: alone, after a whole log and after a refused one.
pub fn cuts(print: Print) {
    let log = week('C');
    let fronts = [
        (vec![], "accepted 0\n", "least 0\nrunning 0\n"),
        (week('E'), "accepted 1\n", "least 22\nrunning 42\nworst 1 42 22\n"),
        (wrong_by(10), "accepted 0\n", "refused 10 1\nleast 0\nrunning 0\n"),
    ];
    for (front, accepted, rest) in fronts {
        for length in 0..log.len() {
            let cut = match length {
                0 => "",
                1..=39 => "refused 1 1\n",
                _ => "refused 9 1\n",
            };
            is(print, &[&front[..], &log[..length]].concat(), &format!("{accepted}{cut}{rest}"));
        }
    }
}

/// A season of several logs cut at every byte, and with each byte changed.
pub fn every_damage(print: Print) {
    let season = [weeks("DA"), wrong_by(10), weeks("EC")].concat();
    for at in 0..season.len() {
        is(print, &season[..at], &printed(&season[..at]));
        let mut damaged = season.clone();
        damaged[at] ^= 1 << (at % 8);
        is(print, &damaged, &printed(&damaged));
    }
}

/// A log that lacks its header's last byte takes the next log's first, and what follows is out of place.
pub fn out_of_place(print: Print) {
    let input = [&week('A')[..39], &weeks("CC")].concat();
    is(print, &input, "accepted 0\nrefused 2 1\nrefused 10 1\nleast 0\nrunning 0\n");
    let input = [&weeks("EA")[..], &[0], &weeks("CC")].concat();
    is(print, &input, "accepted 2\nrefused 2 1\nleast 22\nrunning 42\nworst 1 42 22\n");
}

/// As many logs as there may be, and more: when one more begins, with a byte alone, it is refused before it is looked at, and nothing after it is.
pub fn counts(print: Print) {
    let most = MOST_LOGS as usize;
    let (empty, e) = (week('A'), week('E'));
    let [version, sum] = [2, 10].map(wrong_by);
    is(print, &empty.repeat(most - 1), "accepted 4095\nleast 0\nrunning 0\n");
    is(print, &empty.repeat(most), "accepted 4096\nleast 0\nrunning 0\n");
    let after: [&[u8]; 9] = [&[0], &[1], &e[..39], &e[..40], &e, &empty, &version, &sum, &e.repeat(100)];
    for after in after {
        is(print, &[&empty.repeat(most), after].concat(), "accepted 4096\nrefused 45 1\nleast 0\nrunning 0\n");
    }
    is(print, &e.repeat(most), "accepted 4096\nleast 90112\nrunning 172032\nworst 1 42 22\n");
    is(print, &e.repeat(most + 1), "accepted 4096\nrefused 45 1\nleast 90112\nrunning 172032\nworst 1 42 22\n");
    is(print, &[empty.repeat(most - 1), e.clone()].concat(), "accepted 4096\nleast 22\nrunning 42\nworst 4096 42 22\n");
    is(print, &[empty.repeat(most), e.clone()].concat(), "accepted 4096\nrefused 45 1\nleast 0\nrunning 0\n");
    is(print, &sum.repeat(most), "accepted 0\nrefused 10 4096\nleast 0\nrunning 0\n");
    is(print, &[sum.repeat(most), e.clone()].concat(), "accepted 0\nrefused 10 4096\nrefused 45 1\nleast 0\nrunning 0\n");
    is(print, &[sum.repeat(most - 1), e.clone()].concat(), "accepted 1\nrefused 10 4095\nleast 22\nrunning 42\nworst 4096 42 22\n");
    is(print, &[empty.repeat(most - 1), version, e.clone()].concat(), "accepted 4095\nrefused 2 1\nleast 0\nrunning 0\n");
    is(print, &[&empty.repeat(most - 1)[..], &e[..39]].concat(), "accepted 4095\nrefused 1 1\nleast 0\nrunning 0\n");
    is(print, &[&empty.repeat(most - 1)[..], &e[..41]].concat(), "accepted 4095\nrefused 9 1\nleast 0\nrunning 0\n");
}

/// Totals past 32 bits.
pub fn large_totals(print: Print) {
    let long = log_of(UNSOLD, 1, &[(LAST_SECOND, 0)]).bytes();
    is(print, &long.repeat(MOST_LOGS as usize), "accepted 4096\nleast 16384000000\nrunning 16384000000\nworst 1 4000000 4000000\n");
    let dear = dear(64, 0, 451_357).bytes();
    is(print, &dear.repeat(40), "accepted 40\nleast 10141254280\nrunning 11278754560\nworst 1 281968864 253531357\n");
}

/// The longest logs, alone and beside others; each input also without its last byte.
pub fn long_logs(print: Print, seed: u64) {
    let mut random = Random::new(seed);
    let mut longest = |class| {
        let header = Header { class, server_count: 64, home: 5, id: [class; 16] };
        Log { header, requests: random_requests(&mut random, Prices::of(class), &header, MOST_REQUESTS) }.bytes()
    };
    let (a, b) = (longest(5), longest(7));
    assert_eq!((a.len(), b.len()), (12_328, 12_328));
    let e = week('E');
    for logs in [vec![&a], vec![&a, &e], vec![&e, &a], vec![&a, &b], vec![&b, &e, &a, &e, &e, &b]] {
        let input: Vec<u8> = logs.into_iter().flatten().copied().collect();
        is(print, &input, &printed(&input));
        let cut = &input[..input.len() - 1];
        is(print, cut, &printed(cut));
    }
}

/// Old logs of class 7, all of which are accepted.
pub fn class_7(print: Print, seed: u64, times: usize) {
    let mut random = Random::new(seed);
    let table = Table::built_in();
    for _ in 0..times {
        let logs: Vec<Log> = (0..4)
            .map(|i| if i == 1 { random_log(&mut random, &table, 8) } else { random_log_of(&mut random, &table, UNSOLD, 8) })
            .collect();
        let input: Vec<u8> = logs.iter().flat_map(|log| log.bytes()).collect();
        let report = report(&input);
        assert_eq!((report.accepted, report.refused.len()), (4, 0));
        is(print, &input, &report.to_string());
    }
}

/// What holds of every report: a running cost is at most three times the least cost, in total and in the worst log; all but 10 to 13 come once.
fn claims(report: &Report) {
    let refused: u64 = report.refused.values().sum();
    assert!(report.least <= report.running && report.running <= 3 * report.least, "{report:?}");
    assert!(report.accepted + refused <= MOST_LOGS + 1, "{report:?}");
    assert!(report.refused.iter().all(|(number, &count)| count > 0 && ((10..=13).contains(number) || count == 1)), "{report:?}");
    assert!(report.refused.keys().filter(|number| !(10..=13).contains(*number)).count() <= 1, "{report:?}");
    if let Some(Costs { place, running, least }) = report.worst {
        assert!(0 < least && least <= running && running <= 3 * least, "{report:?}");
        assert!(1 <= place && place <= report.accepted + refused, "{report:?}");
        // no ratio of totals is above the largest of the parts
        assert!(report.running as u128 * least as u128 <= running as u128 * report.least as u128, "{report:?}");
    }
}

/// Random seasons; each number from 1 to 13 is met.
pub fn random_seasons(seed: u64, times: usize, print: &dyn Fn(&mut Random, &[u8]) -> String) {
    let mut random = Random::new(seed);
    let mut met = [0; 46];
    for i in 0..times {
        let (logs, requests) = random.one_of(&[(3, 12), (12, 12), (30, 6), (6, 40)]);
        // one of three ends with a log that is refused in a given way
        let mut input = random_season(&mut random, logs, requests);
        if i % 3 == 0 {
            input.extend(&wrong()[i / 3 % wrong().len()].1);
        }
        let report = report(&input);
        claims(&report);
        assert_eq!(print(&mut random, &input), report.to_string(), "{input:?}");
        report.refused.iter().for_each(|(&number, &count)| met[number as usize] += count);
        met[0] += report.accepted;
    }
    assert!(met[0] as usize > 2 * times, "{met:?}");
    assert!(met[1..10].iter().all(|&count| count as usize >= times / 300), "{met:?}");
    assert!(met[10..14].iter().all(|&count| count as usize > times / 10), "{met:?}");
}

/// Random logs that are refused with 10 to 13: the log after each is taken.
pub fn wrong_logs(print: Print, seed: u64, times: usize) {
    let mut random = Random::new(seed);
    for i in 0..times {
        let number = 10 + (i % 4) as u8;
        let file = wrong_log(&mut random, number);
        let refused = log::read(8, &file).map_err(|refusal| refusal.number);
        assert_eq!(refused.err(), Some(number), "{file:?}");
        let text = format!("accepted 1\nrefused {number} 1\nleast 22\nrunning 42\nworst 2 42 22\n");
        is(print, &[file, week('E')].concat(), &text);
    }
}

#[cfg(test)]
mod tests {
    use super::*;
    use crate::fast;

    /// All that has its text written out, or compared with the simple version.
    fn all(print: Print) {
        samples(print);
        literal(print);
        empty(print);
        least_ratio(print);
        equal_ratios(print);
        ratio_and_difference(print);
        exact_ratios(print);
        every_refusal(print);
        places(print);
        cuts(print);
        every_damage(print);
        out_of_place(print);
        counts(print);
        large_totals(print);
        long_logs(print, 120);
        class_7(print, 121, 200);
        wrong_logs(print, 122, 400);
    }

    #[test]
    fn simple() {
        all(&printed);
    }

    #[test]
    fn fast_season() {
        all(&|input| fast::season::report(input).to_string());
        random_seasons(123, 3_000, &|_, input| fast::season::report(input).to_string());
    }

    #[test]
    fn fast_season_by_calls() {
        all(&|input| fast::season::report_by_calls(input).to_string());
        random_seasons(124, 1_000, &|_, input| fast::season::report_by_calls(input).to_string());
    }
}
