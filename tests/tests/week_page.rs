//! The program `week_page`, run as a user would run it, compared with the simple version: crates/week_page/out/week_page.

mod one_log;
mod programs;

use one_log::{week_c, NO_LOG};
use programs::{file_with, given, Program};
use reference::compare::lifetime;
use reference::compare::week::{with_faults, SAMPLES};
use reference::compare::weeks::log_of;
use reference::log::{self, Header, Log, Request};
use reference::prices::{encode, Table, BUILT_IN};
use reference::random::{damaged_log, random_log, random_week, requests_of_week, Random};
use reference::week::{printed, DAY, WEEK};

const PAGE: Program = Program { name: "week_page", printed, nothing: NO_LOG };

/// A full week of the most requests and servers, whose page is longer than a short pipe holds.
fn long_week() -> Vec<u8> {
    let header = Header { class: 7, server_count: 64, home: 63, id: [7; 16] };
    let requests = (1..=2_048).map(|i| Request { second: 295 * i, server: (29 * i % 64) as u16 }).collect();
    let input = Log { header, requests }.bytes();
    assert_eq!(printed(&input).len(), 4_420);
    input
}

const WEEK_C: &str = concat!(
    " 0      12       0       0       0       0       0       0       12\n",
    " 1      10       0       0       0       0       0       0       10\n",
    " 2       0       0       0       0       0       0       0        0\n",
    "        22       0       0       0       0       0       0       22\n",
);

#[test]
fn case_c() {
    assert_eq!(PAGE.run(&week_c().bytes()), WEEK_C);
}

#[test]
fn samples() {
    for (log, page) in SAMPLES {
        assert_eq!(PAGE.run(log), page);
        assert_eq!(printed(log), page);
    }
}

#[test]
fn no_request() {
    let zeros = "       0".repeat(7) + "        0\n";
    for server_count in [1, 2, 10, 11, 64] {
        let lines: String = (0..server_count).map(|server| format!("{server:>2}{zeros}")).collect();
        assert_eq!(PAGE.run(&log_of(3, server_count, &[]).bytes()), format!("{lines}  {zeros}"));
    }
}

/// A hold to each midnight, and to a second before and after it; past the last the log is refused.
#[test]
fn midnights() {
    for second in (1..=7).flat_map(|day| [day * DAY - 1, day * DAY, day * DAY + 1]) {
        let text = PAGE.run(&log_of(0, 1, &[(second, 0)]).bytes());
        if second > WEEK {
            assert_eq!(text, "refused input 36 place 0\n");
            continue;
        }
        let days: String = (0..7).map(|day| format!("{:>8}", second.saturating_sub(day * DAY).min(DAY))).collect();
        assert_eq!(text, format!(" 0{days}{second:>9}\n  {days}{second:>9}\n"));
    }
}

#[test]
fn every_refusal() {
    let mut seen = [0; 37];
    for last in [10, WEEK, WEEK + 1] {
        for (input, fault) in with_faults(last) {
            let fault = fault.or((last > WEEK).then_some((36, 0)));
            if let Some((number, place)) = fault {
                assert_eq!(PAGE.run(&input), format!("refused input {number} place {place}\n"));
                PAGE.is_refused(&input);
                seen[number as usize] += 1;
            } else {
                assert_eq!(PAGE.run(&input).lines().count(), 4);
            }
        }
    }
    assert!((1..14).chain([36]).all(|number| seen[number] > 0), "{seen:?}");
}

#[test]
fn empty_input() {
    PAGE.is_refused(b"");
}

#[test]
fn a_directory() {
    PAGE.a_directory();
}

#[test]
fn truncated_at_every_length() {
    PAGE.truncated_at_every_length(&week_c().bytes());
}

#[test]
fn one_bit_flipped_in_every_byte() {
    PAGE.one_bit_flipped_in_every_byte(&week_c().bytes());
}

#[test]
fn longer_than_any_log() {
    PAGE.longer_than_any_log(&long_week());
}

#[test]
fn an_input_that_can_only_be_written() {
    PAGE.an_input_that_can_only_be_written(&week_c().bytes());
}

#[test]
fn a_closed_input() {
    PAGE.a_closed_input(&week_c().bytes());
}

#[test]
fn a_closed_output() {
    PAGE.a_closed_output(&week_c().bytes());
}

#[test]
fn an_output_that_is_full() {
    PAGE.an_output_that_is_full(&week_c().bytes());
}

#[test]
fn an_output_that_gets_full() {
    PAGE.an_output_that_gets_full(&long_week(), 4);
}

#[test]
fn a_reader_that_has_gone() {
    PAGE.a_reader_that_has_gone(&long_week());
}

#[test]
fn a_slow_reader() {
    PAGE.a_slow_reader(&long_week());
}

#[test]
fn an_input_in_small_pieces() {
    let mut cut = week_c().bytes();
    PAGE.in_pieces(&cut, 1);
    cut.pop();
    PAGE.in_pieces(&cut, 7);
    PAGE.in_pieces(&long_week(), 500);
}

/// Arguments change nothing, not even one that names a price file.
#[test]
fn arguments() {
    let long = "x".repeat(10_000);
    let prices = file_with("page.prices", &encode(&BUILT_IN));
    let wrong = file_with("page-wrong.prices", b"");
    let [prices, wrong] = [&prices, &wrong].map(|file| file.to_str().unwrap());
    for words in [vec![""], vec!["--help"], vec!["no such file"], vec![&long], vec![prices], vec![wrong], vec!["-", prices, "a"]] {
        for input in [week_c().bytes(), log_of(8, 3, &[]).bytes(), vec![]] {
            let mut command = PAGE.command();
            command.args(&words);
            assert_eq!(given(command, &input), printed(&input), "{words:?}");
        }
    }
    let after = format!("'{prices}' <&-");
    assert_eq!(given(PAGE.by_shell("", &after), b""), "refused input 1 place 0\n");
}

/// Old logs of class 7 print with their prices: each cut of the sample, up to the requests past the week.
#[test]
fn a_class_that_is_no_longer_sold() {
    let sample = log::read(8, lifetime::SAMPLE).unwrap();
    for count in 0..=sample.requests.len() {
        let cut = sample.cut(count);
        let text = PAGE.run(&cut.bytes());
        assert_eq!(text, printed(&cut.bytes()));
        assert_eq!(text == "refused input 36 place 0\n", cut.last_second() > WEEK, "{text}");
    }
}

#[test]
fn random_inputs() {
    let mut random = Random::new(10);
    let mut refused = [0; 37];
    for i in 0..1_500 {
        let input = match i % 3 {
            0 => damaged_log(&mut random, &Table::built_in()),
            1 => random_log(&mut random, &Table::built_in(), 60).bytes(),
            _ => random_week(&mut random, (i / 3 % 8) as u8, 60).bytes(),
        };
        let text = PAGE.run(&input);
        assert_eq!(text, printed(&input));
        let number = text.strip_prefix("refused input ").map_or("0", |rest| rest.split(' ').next().unwrap());
        refused[number.parse::<usize>().unwrap()] += 1;
    }
    assert!(refused[0] > 700 && refused[36] > 20 && refused[1..14].iter().sum::<i32>() > 300, "{refused:?}");
}

#[test]
fn full_weeks() {
    let mut random = Random::new(11);
    for i in 0..24 {
        let header = Header { class: i % 8, server_count: 64, home: 2 * i, id: [i; 16] };
        let input = Log { header, requests: requests_of_week(&mut random, &header, 2_048) }.bytes();
        let text = PAGE.run(&input);
        assert_eq!(text, printed(&input));
        assert_eq!(text.len(), 4_420);
    }
}
