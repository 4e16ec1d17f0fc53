//! The program `sheet`, run as a user would run it, compared with the simple version: crates/sheet/out/sheet.

mod one_log;
mod programs;

use one_log::{week_c, NO_LOG};
use programs::{file_with, given, Program};
use reference::compare::lifetime::{tables_with_class_7, SAMPLE, SAMPLE_SHEET};
use reference::compare::prices::boundary_files;
use reference::compare::weeks::log_of;
use reference::log::{self, Header, Log, Request};
use reference::prices::{encode, Table, BUILT_IN, HIGHEST, UNSOLD};
use reference::random::{damaged_log, damaged_prices, random_log, random_log_of, random_prices, Random};
use reference::sheet::printed;
use std::ffi::OsStr;
use std::fs::{self, File};
use std::os::unix::ffi::OsStrExt;
use std::path::{Path, PathBuf};
use std::process::{Command, Stdio};

const SHEET: Program = Program { name: "sheet", printed: |input| printed(None, input), nothing: NO_LOG };

fn run(input: &[u8]) -> String {
    SHEET.run(input)
}

/// A week whose sheet is longer than a pipe holds, 65,536 bytes, so that the program has to wait for its reader.
fn long_week() -> (Vec<u8>, String) {
    let header = Header { class: 7, server_count: 64, home: 63, id: [7; 16] };
    let requests = (1..=2_048).map(|i| Request { second: 1_953 * i, server: (29 * i % 64) as u16 }).collect();
    let input = Log { header, requests }.bytes();
    let sheet = printed(None, &input);
    assert!(sheet.len() > 65_536);
    (input, sheet)
}

const WEEK_C: &str = "\
scan second station plan live least bill
1 1 1 S S 11 11
2 2 2 S S 22 23
3 11 1 K K 31 50
4 12 0 K S 42 62
rows 4
close 82
";

#[test]
fn case_c() {
    assert_eq!(run(&week_c().bytes()), WEEK_C);
}

/// Whatever the id, the sheet is the same.
#[test]
fn any_id() {
    for id in [[0; 16], [0xff; 16], *b"0123456789abcdef"] {
        let Log { header, requests } = week_c();
        assert_eq!(run(&Log { header: Header { id, ..header }, requests }.bytes()), WEEK_C);
    }
}

#[test]
fn no_request() {
    for (class, closing) in [(0, 10), (2, 24), (6, 0)] {
        let text = format!("scan second station plan live least bill\nrows 0\nclose {closing}\n");
        assert_eq!(run(&log_of(class, 3, &[]).bytes()), text);
    }
}

#[test]
fn empty_input() {
    SHEET.is_refused(b"");
}

#[test]
fn a_directory() {
    SHEET.a_directory();
}

#[test]
fn truncated_at_every_length() {
    SHEET.truncated_at_every_length(&week_c().bytes());
}

#[test]
fn one_bit_flipped_in_every_byte() {
    SHEET.one_bit_flipped_in_every_byte(&week_c().bytes());
}

#[test]
fn longer_than_any_log() {
    SHEET.longer_than_any_log(&long_week().0);
}

#[test]
fn an_input_that_can_only_be_written() {
    SHEET.an_input_that_can_only_be_written(&week_c().bytes());
}

#[test]
fn a_closed_input() {
    SHEET.a_closed_input(&week_c().bytes());
}

#[test]
fn a_closed_output() {
    SHEET.a_closed_output(&week_c().bytes());
}

#[test]
fn an_output_that_is_full() {
    SHEET.an_output_that_is_full(&week_c().bytes());
}

#[test]
fn an_output_that_gets_full() {
    SHEET.an_output_that_gets_full(&long_week().0, 16);
}

#[test]
fn a_reader_that_has_gone() {
    SHEET.a_reader_that_has_gone(&long_week().0);
}

#[test]
fn a_slow_reader() {
    SHEET.a_slow_reader(&long_week().0);
}

#[test]
fn an_input_in_small_pieces() {
    let mut cut = week_c().bytes();
    SHEET.in_pieces(&cut, 1);
    cut.pop();
    SHEET.in_pieces(&cut, 7);
    SHEET.in_pieces(&long_week().0, 500);
}

/// A log, every third one damaged.
fn any_log(random: &mut Random, table: &Table, i: usize) -> Vec<u8> {
    if i % 3 == 0 {
        damaged_log(random, table)
    } else {
        random_log(random, table, 60).bytes()
    }
}

#[test]
fn random_inputs() {
    let mut random = Random::new(4);
    let mut refused = 0;
    for i in 0..1_500 {
        let input = any_log(&mut random, &Table::built_in(), i);
        let text = run(&input);
        assert_eq!(text, printed(None, &input));
        refused += text.starts_with("refused") as u32;
    }
    assert!((100..1_400).contains(&refused), "{refused}");
}

#[test]
fn full_weeks() {
    let mut random = Random::new(5);
    for _ in 0..20 {
        let input = random_log(&mut random, &Table::built_in(), 2048).bytes();
        assert_eq!(run(&input), printed(None, &input));
    }
}

/// The sheet of an old log as the program printed it when its class was sold; with the built-in table as a price file it is the same.
#[test]
fn the_sample_of_a_class_that_is_no_longer_sold() {
    assert_eq!(run(SAMPLE), SAMPLE_SHEET);
    assert_eq!(printed(None, SAMPLE), SAMPLE_SHEET);
    assert_eq!(given(with(file_with("sample.prices", &encode(&BUILT_IN))), SAMPLE), SAMPLE_SHEET);
}

/// What the program prints is the simple version's sheet, and a whole one.
fn is_a_sheet(text: String, expected: String) {
    assert_eq!(text, expected);
    assert!(text.lines().last().unwrap().starts_with("close "), "{text}");
}

#[test]
fn each_cut_of_logs_that_are_no_longer_sold() {
    let mut random = Random::new(8);
    let mut logs = vec![log::read(8, SAMPLE).unwrap()];
    logs.extend((0..40).map(|_| random_log_of(&mut random, &Table::built_in(), UNSOLD, 12)));
    for log in logs {
        for count in 0..=log.requests.len() {
            let input = log.cut(count).bytes();
            is_a_sheet(run(&input), printed(None, &input));
        }
    }
}

#[test]
fn class_7_of_a_price_file() {
    let mut random = Random::new(9);
    for _ in 0..20 {
        for table in tables_with_class_7(&mut random) {
            let prices = file_with("seven.prices", table.file().unwrap());
            let input = random_log_of(&mut random, &table, 7, 30).bytes();
            is_a_sheet(given(with(prices), &input), printed(table.file(), &input));
        }
    }
}

const WRONG_FILE: &str = "refused input 37 place 0\n";

/// The program with an argument.
fn with(prices: impl AsRef<OsStr>) -> Command {
    let mut command = SHEET.command();
    command.arg(prices);
    command
}

/// The same, ended where it takes too long.
fn with_in_time(prices: impl AsRef<OsStr>) -> Command {
    let mut command = Command::new("timeout");
    command.arg("20").arg(SHEET.path()).arg(prices);
    command
}

/// Inputs that are accepted with no price file, refused in several ways, and empty.
fn some_inputs() -> Vec<Vec<u8>> {
    let mut wrong = week_c().bytes();
    wrong[20] ^= 1;
    vec![week_c().bytes(), wrong, log_of(200, 3, &[]).bytes(), log_of(0, 0, &[]).bytes(), vec![]]
}

/// Whatever the input, an argument that is no good price file is 37.
fn is_wrong_file(prices: impl AsRef<OsStr>) {
    for input in some_inputs() {
        assert_eq!(given(with_in_time(&prices), &input), WRONG_FILE, "{:?}", prices.as_ref());
    }
}

#[test]
fn a_price_file() {
    let prices = file_with("good.prices", &encode(&[(1, 10), (2, 3)]));
    assert_eq!(given(with(&prices), &week_c().bytes()), WEEK_C);
    let header = Header { class: 1, ..week_c().header };
    let text = given(with(&prices), &Log { header, ..week_c() }.bytes());
    assert_eq!(
        text,
        "scan second station plan live least bill\n1 1 1 S S 5 5\n2 2 2 S S 10 12\n3 11 1 S S 28 35\n4 12 0 K S 33 42\nrows 4\nclose 46\n"
    );
    assert_eq!(given(with(&prices), &log_of(2, 3, &[]).bytes()), "refused input 3 place 0\n");
    assert_eq!(given(with(&prices), b""), "refused input 1 place 0\n");
}

#[test]
fn price_files_at_each_bound() {
    for (file, refusal) in boundary_files() {
        let prices = file_with("bound.prices", &file);
        let classes = file.len().saturating_sub(4) / 8;
        let of_class = |class: usize| log_of(class as u8, 3, &[(4, 1), (90, 0)]).bytes();
        for input in [of_class(classes.max(1) - 1), of_class(classes), vec![]] {
            let text = given(with(&prices), &input);
            assert_eq!(text, printed(Some(&file), &input));
            if let Some((number, place)) = refusal {
                assert_eq!(text, format!("refused input {number} place {place}\n"));
            }
        }
    }
}

#[test]
fn arguments_that_name_no_file() {
    let here = Path::new(env!("CARGO_TARGET_TMPDIR"));
    let long = "x".repeat(10_000);
    for name in ["", " ", "-", "--help", "no such file", "/dev/fd/77", "/no/such/folder/prices", &long] {
        is_wrong_file(name);
    }
    is_wrong_file(here.join("missing.prices"));
    is_wrong_file(here);
    is_wrong_file(file_with("a-file", b"").join("prices"));
    is_wrong_file(file_with("log.prices", &week_c().bytes()));
}

/// A good file beside an argument more, whatever that is, and no argument twice.
#[test]
fn more_than_one_argument() {
    let prices = file_with("first.prices", &encode(&BUILT_IN));
    for others in [vec![""], vec!["no such file"], vec![prices.to_str().unwrap()], vec!["a", "b", "c"]] {
        for input in some_inputs() {
            let mut after = with(&prices);
            after.args(&others);
            assert_eq!(given(after, &input), WRONG_FILE, "{others:?}");
            let mut before = with(others[0]);
            before.args(&others[1..]).arg(&prices);
            assert_eq!(given(before, &input), WRONG_FILE, "{others:?}");
        }
    }
}

/// Names are bytes to the system, and text to Rattle's std: a file whose name is no UTF-8 counts as one that can't be opened.
#[test]
fn names_of_price_files() {
    let content = encode(&[(2, 3), (1, 10)]);
    let names = [&b"with spaces and 'quotes'.prices"[..], b"--prices", b"\xc3\xa9.prices", b"\xff\xfe.prices"];
    for name in names {
        let expected = match std::str::from_utf8(name) {
            Ok(_) => printed(Some(&content), &week_c().bytes()),
            Err(_) => WRONG_FILE.to_string(),
        };
        let file = PathBuf::from(env!("CARGO_TARGET_TMPDIR")).join(OsStr::from_bytes(name));
        fs::write(&file, &content).unwrap();
        assert_eq!(given(with(&file), &week_c().bytes()), expected);
        let mut relative = with(OsStr::from_bytes(name));
        relative.current_dir(env!("CARGO_TARGET_TMPDIR"));
        assert_eq!(given(relative, &week_c().bytes()), expected);
    }
}

/// The longest price file; then longer, up to without end.
#[test]
fn longer_than_any_price_file() {
    let longest = encode(&[(3, HIGHEST); 256]);
    assert_eq!(longest.len(), 2_052);
    let input = log_of(255, 3, &[(4, 1), (90, 0)]).bytes();
    assert_eq!(given(with(file_with("longest.prices", &longest)), &input), printed(Some(&longest), &input));
    for length in [2_053, 2_060, 4_104, 65_536 + 2_052] {
        let mut longer = longest.clone();
        longer.resize(length, 1);
        is_wrong_file(file_with("longer.prices", &longer));
    }
    let large = file_with("large.prices", &longest);
    File::options().write(true).open(&large).unwrap().set_len(1 << 36).unwrap();
    is_wrong_file(&large);
    fs::remove_file(large).unwrap();
    is_wrong_file("/dev/zero");
    is_wrong_file("/dev/null");
}

/// What the program prints with a pipe of a name as its price file, which a script of the shell fills from a file, its `$0`.
fn by_pipe(name: &str, script: &str, content: &[u8], input: &[u8]) -> String {
    let pipe = PathBuf::from(env!("CARGO_TARGET_TMPDIR")).join(name);
    let _ = fs::remove_file(&pipe);
    assert!(Command::new("mkfifo").arg(&pipe).status().unwrap().success());
    let source = file_with(&format!("{name}.source"), content);
    let filling = format!("({script}) > '{}'", pipe.display());
    let mut writer = Command::new("sh").arg("-c").arg(filling).arg(source).stderr(Stdio::null()).spawn().unwrap();
    let text = given(with_in_time(&pipe), input);
    let _ = writer.kill();
    writer.wait().unwrap();
    text
}

#[test]
fn a_pipe_as_the_price_file() {
    let longest = encode(&[(2, 3); 256]);
    let input = log_of(7, 3, &[(4, 1), (90, 0)]).bytes();
    let sheet = printed(Some(&longest), &input);
    assert_eq!(by_pipe("pipe-whole", "cat \"$0\"", &longest, &input), sheet);
    let pieces = "head -c 1 \"$0\"; sleep 0.05; tail -c +2 \"$0\" | head -c 1000; sleep 0.05; tail -c +1002 \"$0\"";
    assert_eq!(by_pipe("pipe-pieces", pieces, &longest, &input), sheet);
    assert_eq!(by_pipe("pipe-nothing", "true", &longest, &input), WRONG_FILE);
    assert_eq!(by_pipe("pipe-short", "head -c 2051 \"$0\"", &longest, &input), WRONG_FILE);
    assert_eq!(by_pipe("pipe-longer", "cat \"$0\"; sleep 0.05; echo", &longest, &input), WRONG_FILE);
    assert_eq!(by_pipe("pipe-endless", "cat \"$0\" /dev/zero", &longest, &input), WRONG_FILE);
}

#[test]
fn a_price_file_that_is_open_already() {
    let content = encode(&[(2, 3), (1, 10)]);
    let after = format!("/dev/fd/3 3< '{}'", file_with("open.prices", &content).display());
    assert_eq!(given(SHEET.by_shell("", &after), &week_c().bytes()), printed(Some(&content), &week_c().bytes()));
    let piped = "printf '\\001\\000\\004\\000\\002\\000\\000\\000\\003\\000\\000\\000' | { exec 3<&0 < \"$1\"; exec \"$0\" /dev/fd/3; }";
    let log = file_with("open.log", &week_c().bytes());
    let mut shell = Command::new("sh");
    shell.arg("-c").arg(piped).arg(SHEET.path()).arg(log);
    assert_eq!(given(shell, b""), printed(Some(&encode(&[(2, 3)])), &week_c().bytes()));
}

/// Refusals of the price file come before the log is looked at; those of the log come where the price file is good.
#[test]
fn the_price_file_comes_first() {
    let cases = [(encode(&[]), WRONG_FILE), (encode(&[(1, 1), (0, 1)]), "refused input 38 place 1\n")];
    for (file, text) in cases {
        let prices = file_with("first-refused.prices", &file);
        for input in some_inputs() {
            assert_eq!(given(with(&prices), &input), text);
        }
        let after = format!("'{}' <&-", prices.display());
        assert_eq!(given(SHEET.by_shell("", &after), b""), text);
    }
    let prices = file_with("first-good.prices", &encode(&[(1, 10)]));
    for input in some_inputs() {
        assert_eq!(given(with(&prices), &input), printed(Some(&encode(&[(1, 10)])), &input));
    }
    assert_eq!(given(SHEET.by_shell("", &format!("'{}' <&-", prices.display())), b""), "refused input 1 place 0\n");
}

#[test]
fn the_built_in_table_as_a_price_file() {
    let prices = file_with("built-in.prices", &encode(&BUILT_IN));
    let mut random = Random::new(6);
    for i in 0..600 {
        let input = any_log(&mut random, &Table::built_in(), i);
        assert_eq!(given(with(&prices), &input), run(&input));
    }
    let (input, sheet) = long_week();
    assert_eq!(given(with(&prices), &input), sheet);
}

#[test]
fn random_price_files() {
    let mut random = Random::new(7);
    let mut refused = [0; 39];
    for i in 0..1_500 {
        let table = random_prices(&mut random);
        let file = if i % 4 == 0 { damaged_prices(&mut random) } else { table.file().unwrap().to_vec() };
        let input = any_log(&mut random, &table, i);
        let text = given(with(file_with("random.prices", &file)), &input);
        assert_eq!(text, printed(Some(&file), &input));
        let number = text.strip_prefix("refused input ").map_or("0", |rest| rest.split(' ').next().unwrap());
        refused[number.parse::<usize>().unwrap()] += 1;
    }
    assert!([0, 1, 3, 37, 38].iter().all(|&number| refused[number] > 10), "{refused:?}");
}
