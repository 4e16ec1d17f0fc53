//! The programs `season_report` and `season_cases`, run as a user would run them, compared with the simple version: crates/NAME/out/NAME.
//! The second feeds itself its input in pieces of the length that its first two bytes give.

mod programs;

use programs::{file_with, given, spawn, Program};
use reference::compare::season::{self, weeks, NOTHING};
use reference::log::{Header, Log, MOST_REQUESTS};
use reference::prices::{encode, Prices, BUILT_IN};
use reference::random::{random_requests, Random};
use reference::season::printed;
use std::fs;
use std::io::Write;
use std::os::unix::process::ExitStatusExt;
use std::process::Command;

const REPORT: Program = Program { name: "season_report", printed, nothing: NOTHING };
const CASES: Program = Program { name: "season_cases", printed, nothing: NOTHING };

/// A byte, a few, a header with one byte less and one more, and the longest log.
const PIECES: [u16; 6] = [1, 7, 39, 40, 41, 12_328];

fn run(input: &[u8]) -> String {
    REPORT.run(input)
}

/// What the program prints for an input in pieces of a length.
fn in_pieces(length: u16, input: &[u8]) -> String {
    CASES.run(&[&length.to_le_bytes()[..], input].concat())
}

/// Something checked with the input in pieces of each length.
fn in_each(check: impl Fn(season::Print)) {
    PIECES.into_iter().for_each(|length| check(&|input| in_pieces(length, input)));
}

#[test]
fn samples() {
    season::samples(&run);
    in_each(season::samples);
}

#[test]
fn literal() {
    season::literal(&run);
    in_each(season::literal);
}

#[test]
fn empty_logs() {
    season::empty(&run);
    in_each(season::empty);
}

#[test]
fn least_ratio() {
    season::least_ratio(&run);
}

#[test]
fn equal_ratios() {
    season::equal_ratios(&run);
    in_each(season::equal_ratios);
}

#[test]
fn ratio_and_difference() {
    season::ratio_and_difference(&run);
}

#[test]
fn exact_ratios() {
    season::exact_ratios(&run);
}

#[test]
fn every_refusal() {
    season::every_refusal(&run);
    in_each(season::every_refusal);
}

#[test]
fn places() {
    season::places(&run);
    in_each(season::places);
}

#[test]
fn cut_at_every_byte() {
    season::cuts(&run);
    in_each(season::cuts);
}

#[test]
fn every_damage() {
    season::every_damage(&run);
    season::every_damage(&|input| in_pieces(7, input));
}

#[test]
fn out_of_place() {
    season::out_of_place(&run);
    in_each(season::out_of_place);
}

#[test]
fn counts() {
    season::counts(&run);
    in_each(season::counts);
}

#[test]
fn large_totals() {
    season::large_totals(&run);
}

#[test]
fn long_logs() {
    season::long_logs(&run, 130);
    in_each(|print| season::long_logs(print, 131));
}

#[test]
fn a_class_that_is_no_longer_sold() {
    season::class_7(&run, 132, 200);
}

#[test]
fn logs_that_are_as_long_as_they_say() {
    season::wrong_logs(&run, 133, 200);
    season::wrong_logs(&|input| in_pieces(41, input), 134, 100);
}

#[test]
fn random_seasons() {
    season::random_seasons(135, 600, &|_, input| run(input));
}

/// Each season in one of the piece lengths above, or in any.
#[test]
fn random_seasons_in_pieces() {
    season::random_seasons(136, 900, &|random, input| {
        let any = match random.below(3) {
            0 => random.between(1, 64),
            1 => random.between(1, 12_328),
            _ => random.between(1, input.len() as u64 + 1).min(12_328),
        };
        let length = if random.once_in(2) { random.one_of(&PIECES) } else { any as u16 };
        in_pieces(length, input)
    });
}

/// A length of 0 counts as 1.
#[test]
fn pieces_of_no_length() {
    for letters in ["", "A", "C", "FEDCBA"] {
        assert_eq!(in_pieces(0, &weeks(letters)), printed(&weeks(letters)));
    }
}

/// The longest log of every class.
#[test]
fn full_seasons() {
    let mut random = Random::new(137);
    let mut input = vec![];
    for class in 0..8 {
        let header = Header { class, server_count: 64, home: 8 * class, id: [class; 16] };
        let requests = random_requests(&mut random, Prices::of(class), &header, MOST_REQUESTS);
        input.extend(Log { header, requests }.bytes());
    }
    let text = printed(&input);
    assert!(text.starts_with("accepted 8\n"), "{text}");
    assert_eq!(run(&input), text);
    in_each(|print| assert_eq!(print(&input), text));
}

/// The program with an input of a script of the shell, whose `$1` is a file; ended where it takes too long.
fn by_script(script: &str, content: &[u8]) -> String {
    let mut shell = Command::new("sh");
    shell.arg("-c").arg(format!("({script}) 2> /dev/null | timeout 20 \"$0\"")).arg(REPORT.path());
    shell.arg(file_with("season-script.log", content));
    given(shell, b"")
}

/// Inputs without an end: zeros are one log that is refused, at the start, after other logs and after as many as there may be; and logs again and again.
#[test]
fn an_endless_input() {
    let zeros = "cat \"$1\" /dev/zero";
    assert_eq!(by_script(zeros, b""), "accepted 0\nrefused 2 1\nleast 0\nrunning 0\n");
    assert_eq!(by_script(zeros, &weeks("CAE")), "accepted 3\nrefused 2 1\nleast 64\nrunning 104\nworst 3 42 22\n");
    assert_eq!(by_script(zeros, &weeks("E").repeat(4_095)), "accepted 4095\nrefused 2 1\nleast 90090\nrunning 171990\nworst 1 42 22\n");
    assert_eq!(by_script(zeros, &weeks("E").repeat(4_096)), "accepted 4096\nrefused 45 1\nleast 90112\nrunning 172032\nworst 1 42 22\n");
    let again = "while cat \"$1\"; do :; done";
    assert_eq!(by_script(again, &weeks("E").repeat(1_000)), "accepted 4096\nrefused 45 1\nleast 90112\nrunning 172032\nworst 1 42 22\n");
    let mut devices = Command::new("sh");
    devices.arg("-c").arg("timeout 20 \"$0\" < /dev/zero && timeout 20 \"$0\" < /dev/null").arg(REPORT.path());
    assert_eq!(given(devices, b""), format!("accepted 0\nrefused 2 1\nleast 0\nrunning 0\n{NOTHING}"));
}

#[test]
fn a_file_as_the_input() {
    for letters in ["", "C", "ABCDEF"] {
        let after = format!("< '{}'", file_with(&format!("season-file-{letters}.log"), &weeks(letters)).display());
        assert_eq!(given(REPORT.by_shell("", &after), b""), printed(&weeks(letters)));
    }
}

#[test]
fn a_directory() {
    REPORT.a_directory();
}

#[test]
fn an_input_that_can_only_be_written() {
    REPORT.an_input_that_can_only_be_written(&weeks("C"));
}

#[test]
fn a_closed_input() {
    REPORT.a_closed_input(&weeks("C"));
}

#[test]
fn a_closed_output() {
    REPORT.a_closed_output(&weeks("ABC"));
}

#[test]
fn an_output_that_is_full() {
    REPORT.an_output_that_is_full(&weeks("ABC"));
}

/// The output is a file that may have one block of the shell's, and has all of it but for some bytes: so many are written, and nothing else.
#[test]
fn an_output_that_gets_full() {
    let text = printed(&weeks("ABC"));
    for room in [0, 1, 11, 30] {
        let front = vec![b'.'; 512 - room];
        let file = file_with("season-nearly-full.txt", &front);
        let after = format!(">> '{}'", file.display());
        assert_eq!(given(REPORT.by_shell("trap '' XFSZ; ulimit -f 1;", &after), &weeks("ABC")), "");
        assert_eq!(fs::read(file).unwrap(), [&front, &text.as_bytes()[..room]].concat());
    }
}

/// The reader goes before the program has its input: it writes no more and ends as ever.
#[test]
fn a_reader_that_has_gone() {
    for input in [weeks("ABC"), weeks("E").repeat(4_096)] {
        let mut child = spawn(REPORT.command());
        drop(child.stdout.take());
        child.stdin.take().unwrap().write_all(&input).unwrap();
        let output = child.wait_with_output().unwrap();
        assert_eq!((output.status.signal(), output.status.code()), (None, Some(0)));
        assert!(output.stderr.is_empty(), "{output:?}");
    }
}

#[test]
fn an_input_in_small_pieces() {
    REPORT.in_pieces(&weeks("CE"), 1);
    REPORT.in_pieces(&weeks("ABCDEF"), 7);
    REPORT.in_pieces(&weeks("E").repeat(300), 500);
    let cut = weeks("ECC");
    REPORT.in_pieces(&cut[..cut.len() - 1], 7);
    REPORT.in_pieces(&cut[..cut.len() - 30], 7);
}

/// Arguments change nothing, not even one that names a price file.
#[test]
fn arguments() {
    let prices = file_with("season.prices", &encode(&BUILT_IN));
    let wrong = file_with("season-wrong.prices", b"");
    let [prices, wrong] = [&prices, &wrong].map(|file| file.to_str().unwrap());
    let long = "x".repeat(10_000);
    for words in [vec![""], vec!["--help"], vec!["no such file"], vec![&long], vec![prices], vec![wrong], vec!["-", prices, "a"]] {
        for letters in ["", "C", "ABCDEF"] {
            let mut command = REPORT.command();
            command.args(&words);
            assert_eq!(given(command, &weeks(letters)), printed(&weeks(letters)), "{words:?}");
        }
    }
}
