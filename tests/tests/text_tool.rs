//! tools/log_from_text.py and tools/prices_from_text.py, run as a user would run them.

use reference::log::{requests_of, Header, Log};
use std::io::Write;
use std::path::{Path, PathBuf};
use std::process::{Command, Output, Stdio};

fn root() -> PathBuf {
    Path::new(env!("CARGO_MANIFEST_DIR")).join("..")
}

fn run(tool: &str, words: &[&str], text: &[u8]) -> Output {
    let mut child = Command::new("python3")
        .arg(root().join("tools").join(tool))
        .args(words)
        .stdin(Stdio::piped())
        .stdout(Stdio::piped())
        .stderr(Stdio::piped())
        .spawn()
        .unwrap();
    let mut stdin = child.stdin.take().unwrap();
    // a tool that has given up on its words reads nothing
    let _ = stdin.write_all(text);
    drop(stdin);
    child.wait_with_output().unwrap()
}

const LOGS: &str = "log_from_text.py";
const PRICES: &str = "prices_from_text.py";

fn written(tool: &str, words: &[&str], text: &[u8]) -> Vec<u8> {
    let output = run(tool, words, text);
    assert!(output.status.success() && output.stderr.is_empty(), "{output:?}");
    output.stdout
}

fn made(text: &[u8]) -> Vec<u8> {
    written(LOGS, &["0", "4", "0", "week-b"], text)
}

/// Nothing is written, and one line says what is wrong.
fn refused(tool: &str, words: &[&str], text: &[u8], message: &str) {
    let output = run(tool, words, text);
    assert_eq!(output.status.code(), Some(1));
    assert!(output.stdout.is_empty(), "{output:?}");
    assert_eq!(String::from_utf8(output.stderr).unwrap(), format!("{message}\n"));
}

#[test]
fn the_sample() {
    let text = std::fs::read(root().join("samples/week-b.txt")).unwrap();
    assert_eq!(made(&text), std::fs::read(root().join("samples/week-b.log")).unwrap());
}

#[test]
fn the_sample_of_three_days() {
    let text = std::fs::read(root().join("samples/three-days.txt")).unwrap();
    let log = std::fs::read(root().join("samples/three-days.log")).unwrap();
    assert_eq!(written(LOGS, &["5", "4", "0", "three-days"], &text), log);
}

/// The season's logs are the tool's, but for the second: a log whose last byte is another.
#[test]
fn the_sample_season() {
    let week_b = std::fs::read(root().join("samples/week-b.log")).unwrap();
    let week_e = |class, id| written(LOGS, &[class, "2", "0", id], b"1 1\n12 0\n");
    let logs = [
        written(LOGS, &["0", "2", "0", "empty"], b""),
        [&week_b[..week_b.len() - 1], &[1]].concat(),
        week_b.clone(),
        week_e("0", "week-e"),
        week_e("3", "week-e-dearer"),
    ];
    assert_eq!(logs.concat(), std::fs::read(root().join("samples/season.log")).unwrap());
}

#[test]
fn layouts_of_one_text() {
    let plain = made(b"5 1\n8 2\n");
    for text in [&b"5 1\r\n8 2\r\n"[..], b"5 1\n8 2", b"\n# two scans\n 5\t1 \n\n8 2\n", b"\xef\xbb\xbf5 1\n8 2\n", b"05 1\n8 002\n"] {
        assert_eq!(made(text), plain);
    }
}

#[test]
fn wrong_lines() {
    let two = "line 2: two numbers are wanted, a second and a station";
    let cases: [(&[u8], &str); 8] = [
        (b"5 1\n8\n", two),
        (b"5 1\n8 2 3\n", two),
        (b"5 1\n8 2 # late\n", two),
        (b"5 1\n-8 2\n", "line 2, second: a whole number is wanted, not '-8'"),
        (b"5 1\n8.0 2\n", "line 2, second: a whole number is wanted, not '8.0'"),
        (b"5 1\n8 two\n", "line 2, station: a whole number is wanted, not 'two'"),
        (b"5 1\n4294967296 2\n", "line 2, second: 4294967296 is above 4294967295"),
        (b"5 1\n8 65536\n", "line 2, station: 65536 is above 65535"),
    ];
    for (text, message) in cases {
        refused(LOGS, &["0", "4", "0"], text, message);
    }
}

#[test]
fn wrong_words() {
    refused(LOGS, &["256", "4", "0"], b"", "CLASS: 256 is above 255");
    refused(LOGS, &["0", "four", "0"], b"", "STATIONS: a whole number is wanted, not 'four'");
    refused(LOGS, &["0", "4", "-1"], b"", "HOME: a whole number is wanted, not '-1'");
    refused(LOGS, &["0", "4", "0", "seventeen letters"], b"", "ID: more than 16 bytes");
}

const UNSOLD: &str = "CLASS: 7 of the built-in table is no longer sold (43); --prices is for a log that goes with a price file";

/// Class 7 is refused, whatever else is wrong with the log, unless it is of a price file: then the bytes are those of the sample.
#[test]
fn class_7() {
    let text = std::fs::read(root().join("samples/lifetime.txt")).unwrap();
    let log = std::fs::read(root().join("samples/lifetime.log")).unwrap();
    for words in [["7", "4", "0", "lifetime"], ["007", "4", "0", ""], ["7", "0", "9", "lifetime"]] {
        refused(LOGS, &words, &text, UNSOLD);
        refused(LOGS, &words, b"5\n", UNSOLD);
    }
    assert_eq!(written(LOGS, &["--prices", "7", "4", "0", "lifetime"], &text), log);
    assert_eq!(written(LOGS, &["7", "4", "0", "lifetime", "--prices"], &text), log);
}

#[test]
fn other_classes() {
    for class in [6, 8, 17] {
        let header = Header { class, server_count: 4, home: 1, id: *b"0123456789abcdef" };
        let log = Log { header, requests: requests_of(&[5, 8], &[1, 2]) }.bytes();
        let class = class.to_string();
        assert_eq!(written(LOGS, &[&class, "4", "1", "0123456789abcdef"], b"5 1\n8 2\n"), log);
        assert_eq!(written(LOGS, &["--prices", &class, "4", "1", "0123456789abcdef"], b"5 1\n8 2\n"), log);
    }
}

/// Nothing is written, and the usage is given.
#[test]
fn wrong_use() {
    let counts = ["", "--prices", "0 4", "0 4 0 id more", "--prices 7 4", "--prices 7 4 0 id more"];
    let flags = ["--prices 7 4 0 --prices", "7 4 0 --price", "--prices=7 4 0", "--help", "0 4 0 --help", "--prices 7 4 0 --other", "-- 0 4 0"];
    for words in counts.into_iter().chain(flags) {
        let output = run(LOGS, &words.split_whitespace().collect::<Vec<_>>(), b"5 1\n");
        assert_eq!(output.status.code(), Some(1), "{words}");
        assert!(output.stdout.is_empty(), "{output:?}");
        let usage = "\nusage: log_from_text.py [--prices] CLASS STATIONS HOME [ID] < requests.txt > week.log\n";
        assert!(String::from_utf8(output.stderr).unwrap().contains(usage), "{words}");
    }
}

#[test]
fn the_sample_prices() {
    let text = std::fs::read(root().join("samples/prices.txt")).unwrap();
    let file = written(PRICES, &[], &text);
    assert_eq!(file, std::fs::read(root().join("samples/built-in.prices")).unwrap());
    assert_eq!(file.len(), 4 + 8 * 8);
    assert_eq!(&file[..12], &[8, 0, 4, 0, 1, 0, 0, 0, 10, 0, 0, 0]);
}

#[test]
fn wrong_prices() {
    let two = "line 1: two numbers are wanted, a keep price and a send price";
    let cases: [(&[u8], &str); 4] = [
        (b"5\n", two),
        (b"5 6 7\n", two),
        (b"5 six\n", "line 1, send price: a whole number is wanted, not 'six'"),
        (b"4294967296 1\n", "line 1, keep price: 4294967296 is above 4294967295"),
    ];
    for (text, message) in cases {
        refused(PRICES, &[], text, message);
    }
}
