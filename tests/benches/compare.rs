//! The proved library beside the fast Rust version, in one run: `cargo bench` prints Markdown.
//!
//! Both are built for release and given the same inputs. Outputs are just as long as needed, so neither clears anything beyond
//! its answer. A time is processor time of this thread, so that it counts little who else is at work. It is the least of several
//! batches, the two versions taking turns, in several processes, as where a process has its stack can matter.

#[path = "../tests/library/mod.rs"]
mod library;

use library::Library;
use reference::calls::Calls;
use reference::fast::{self, Fast};
use reference::game::{Game, Winner};
use reference::log::{Header, Log, Request};
use reference::online::{Cache, Served};
use reference::prices::{encode, Prices, Upload, HIGHEST};
use reference::random::{random_requests, Random};
use reference::Refusal;
use std::fs::File;
use std::hint::black_box;
use std::io::Read;
use std::os::fd::FromRawFd;
use std::path::{Path, PathBuf};
use std::process::{Command, Stdio};

const REQUESTS: [usize; 4] = [0, 64, 512, 2_048];
const SERVERS: [u8; 3] = [1, 8, 64];
const CALLS: [&str; 15] = [
    "plan",
    "plan with uploads",
    "least",
    "least with uploads",
    "quote",
    "page",
    "check",
    "check with uploads",
    "read",
    "write",
    "scan",
    "scan in place",
    "close",
    "sum",
    "sum by bytes",
];
/// A little above the transfer price of class 1: plans have marks of all kinds.
const UPLOAD: Upload = Some(28);
const START: &str = "start with a file";
const CLASSES: [usize; 3] = [1, 8, 256];
const ROWS: [u32; 3] = [4_096, 100_000, 1_000_000];
const GAME: &str = "game";
const GAMES: usize = 100;
const SEASON: &str = "season";
const LOGS: usize = 4_096;
const SEASONS: usize = 5;
const PROCESSES: usize = 6;
const ROUNDS: usize = 2;
const BATCHES: usize = 4;
const BATCH: f64 = 0.001;

#[repr(C)]
struct Timespec {
    seconds: i64,
    nanoseconds: i64,
}

extern "C" {
    fn clock_gettime(clock: i32, time: *mut Timespec) -> i32;
}

/// The processor time of this thread, in seconds, by Linux on 64 bits.
fn now() -> f64 {
    const THREAD: i32 = 3;
    let mut time = Timespec { seconds: 0, nanoseconds: 0 };
    assert_eq!(unsafe { clock_gettime(THREAD, &mut time) }, 0);
    time.seconds as f64 + time.nanoseconds as f64 * 1e-9
}

/// Seconds for one call, from one batch of them.
fn batch(times: u32, call: &mut dyn FnMut()) -> f64 {
    let start = now();
    for _ in 0..times {
        call();
    }
    (now() - start) / times as f64
}

/// How many calls fill a batch.
fn many(call: &mut dyn FnMut()) -> u32 {
    let mut times = 1;
    while times < 1 << 20 && batch(times, call) * (times as f64) < BATCH {
        times *= 2;
    }
    times
}

/// The least seconds of a call, for the library and for Rust.
fn times(library: &mut dyn FnMut(), rust: &mut dyn FnMut()) -> Times {
    let (many_library, many_rust) = (many(library), many(rust));
    let mut least = Times::NONE;
    for _ in 0..BATCHES {
        let library = batch(many_library, library);
        // what takes long is less in need of repeating
        let again = library < 0.1;
        least = least.min(Times { library, rust: batch(many_rust, rust) });
        if !again {
            break;
        }
    }
    least
}

#[derive(Clone, Copy)]
struct Times {
    library: f64,
    rust: f64,
}

impl Times {
    const NONE: Times = Times { library: f64::MAX, rust: f64::MAX };

    fn min(self, other: Times) -> Times {
        Times { library: self.library.min(other.library), rust: self.rust.min(other.rust) }
    }

    fn ratio(self) -> f64 {
        self.library / self.rust
    }
}

/// A line of a table: what was measured, the least times, and the ratio's range over the processes.
struct Line {
    name: String,
    servers: u32,
    size: u32,
    least: Times,
    low: f64,
    high: f64,
}

impl Line {
    fn new(name: &str, servers: u32, size: u32, least: Times) -> Line {
        let ratio = least.ratio();
        Line { name: name.to_string(), servers, size, least, low: ratio, high: ratio }
    }

    /// For the process that gathers.
    fn raw(&self) -> String {
        format!("{}|{}|{}|{:e}|{:e}", self.name, self.servers, self.size, self.least.library, self.least.rust)
    }

    fn parsed(raw: &str) -> Line {
        let parts: Vec<&str> = raw.split('|').collect();
        let least = Times { library: parts[3].parse().unwrap(), rust: parts[4].parse().unwrap() };
        Line::new(parts[0], parts[1].parse().unwrap(), parts[2].parse().unwrap(), least)
    }

    fn join(&mut self, other: &Line) {
        assert_eq!((&self.name, self.servers, self.size), (&other.name, other.servers, other.size));
        self.least = self.least.min(other.least);
        self.low = self.low.min(other.low);
        self.high = self.high.max(other.high);
    }

    /// Both times, how each has grown from those of a smaller input, the ratio and its range, as columns.
    fn columns(&self, before: Option<&Line>) -> String {
        let grown = |now: f64, then: Option<f64>| then.map_or(String::new(), |then| format!("× {:.1}", now / then));
        format!(
            "{} | {} | {} | {} | {:.2} | {:.2} to {:.2}",
            show(self.least.library),
            grown(self.least.library, before.map(|line| line.least.library)),
            show(self.least.rust),
            grown(self.least.rust, before.map(|line| line.least.rust)),
            self.least.ratio(),
            self.low,
            self.high
        )
    }
}

fn show(seconds: f64) -> String {
    match seconds {
        s if s < 1e-6 => format!("{:.0} ns", s * 1e9),
        s if s < 1e-3 => format!("{:.1} µs", s * 1e6),
        s if s < 1.0 => format!("{:.2} ms", s * 1e3),
        s => format!("{s:.2} s"),
    }
}

/// Keeps a result from being left out.
fn used<T>(result: T) {
    let _ = black_box(result);
}

/// One log of the benchmark, with an upload price or none: its file, and the numbers of its plan's rows.
struct Case {
    upload: Upload,
    log: Log,
    file: Vec<u8>,
    rows: Vec<u32>,
}

fn case(upload: Upload, count: usize, server_count: u8) -> Case {
    let header = Header { class: 1, server_count, home: 0, id: [7; 16] };
    let mut random = Random::new(count as u64 * 100 + server_count as u64);
    let log = Log { header, requests: random_requests(&mut random, Prices::of(header.class), &header, count) };
    let file = log.bytes();
    let mut rows = vec![0; 8 * count];
    let (_, number) = Fast::plan(None, upload, &file, &mut vec![0; count], &mut rows).unwrap();
    rows.truncate(4 * number as usize);
    Case { upload, log, file, rows }
}

/// An output to lend. An empty one has memory too, as a caller's would.
fn output<T: Clone + Default>(length: usize) -> Vec<T> {
    let mut output = Vec::with_capacity(length + 1);
    output.resize(length, T::default());
    output
}

/// The answer of a scan.
type Answer = Result<Served, Refusal>;

/// A whole log given to a new cache, a state going in and coming back by value; and what is done with each answer.
fn online<C: Calls>(log: &Log, mut answered: impl FnMut(Answer)) -> Cache {
    let (mut cache, _) = C::start(None, &log.header);
    for request in &log.requests {
        let (next, served) = C::scan(&cache, log.header.id, request.second, request.server);
        answered(served);
        cache = next;
    }
    cache
}

/// The same in place, as Rust alone has it.
fn online_in_place(log: &Log, mut answered: impl FnMut(Answer)) -> Cache {
    let (mut cache, _) = Fast::start(None, &log.header);
    for request in &log.requests {
        answered(fast::online::scan(&mut cache, log.header.id, request.second, request.server));
    }
    cache
}

/// The sum one byte after the other, as the library takes it.
fn sum_by_bytes(file: &[u8]) -> u32 {
    let next = |sum: u32, byte: &u8| sum.wrapping_mul(31).wrapping_add(*byte as u32);
    let front = file[..file.len().min(20)].iter().fold(0, next);
    file[file.len().min(24)..].iter().fold(front, next)
}

/// The times of one call on a case. Both give the same answer and the same outputs.
fn measure(call: &str, case: &Case) -> Times {
    let Case { upload, log, file, rows } = case;
    let (upload, count) = (*upload, log.requests.len());
    match call {
        "plan" | "plan with uploads" => {
            let (mut marks_a, mut rows_a) = (output(count), output(rows.len()));
            let (mut marks_b, mut rows_b) = (output(count), output(rows.len()));
            let planned = Library::plan(None, upload, file, &mut marks_a, &mut rows_a);
            assert_eq!(planned, Fast::plan(None, upload, file, &mut marks_b, &mut rows_b));
            assert_eq!((&marks_a, &rows_a), (&marks_b, &rows_b));
            times(
                &mut || used(Library::plan(None, upload, black_box(file), &mut marks_a, &mut rows_a)),
                &mut || used(Fast::plan(None, upload, black_box(file), &mut marks_b, &mut rows_b)),
            )
        }
        "least" | "least with uploads" => {
            let (mut costs_a, mut costs_b) = (output(count + 1), output(count + 1));
            assert_eq!(Library::least(None, upload, file, &mut costs_a), Fast::least(None, upload, file, &mut costs_b));
            assert_eq!(costs_a, costs_b);
            times(
                &mut || used(Library::least(None, upload, black_box(file), &mut costs_a)),
                &mut || used(Fast::least(None, upload, black_box(file), &mut costs_b)),
            )
        }
        "quote" => {
            assert_eq!(Library::quote(None, file), Fast::quote(None, file));
            times(&mut || used(Library::quote(None, black_box(file))), &mut || used(Fast::quote(None, black_box(file))))
        }
        "page" => {
            let length = 68 * (log.header.server_count as usize + 1);
            let (mut text_a, mut text_b) = (output(length), output(length));
            let paged = Library::page(file, &mut text_a);
            assert_eq!(paged, Ok(length as u64));
            assert_eq!(paged, Fast::page(file, &mut text_b));
            assert_eq!(text_a, text_b);
            times(
                &mut || used(Library::page(black_box(file), &mut text_a)),
                &mut || used(Fast::page(black_box(file), &mut text_b)),
            )
        }
        "check" | "check with uploads" => {
            assert_eq!(Library::check(None, upload, file, rows), Fast::check(None, upload, file, rows));
            times(
                &mut || used(Library::check(None, upload, black_box(file), black_box(rows))),
                &mut || used(Fast::check(None, upload, black_box(file), black_box(rows))),
            )
        }
        "read" => {
            let (mut seconds_a, mut servers_a) = (output(count), output(count));
            let (mut seconds_b, mut servers_b) = (output(count), output(count));
            assert_eq!(Library::read(None, file, &mut seconds_a, &mut servers_a), Fast::read(None, file, &mut seconds_b, &mut servers_b));
            assert_eq!((&seconds_a, &servers_a), (&seconds_b, &servers_b));
            times(
                &mut || used(Library::read(None, black_box(file), &mut seconds_a, &mut servers_a)),
                &mut || used(Fast::read(None, black_box(file), &mut seconds_b, &mut servers_b)),
            )
        }
        "write" => {
            let (seconds, servers) = (log.seconds(), log.servers());
            let (mut file_a, mut file_b) = (output(file.len()), output(file.len()));
            assert_eq!(Library::write(None, &log.header, &seconds, &servers, &mut file_a), Fast::write(None, &log.header, &seconds, &servers, &mut file_b));
            assert_eq!(file_a, file_b);
            times(
                &mut || used(Library::write(None, &log.header, black_box(&seconds), &servers, &mut file_a)),
                &mut || used(Fast::write(None, &log.header, black_box(&seconds), &servers, &mut file_b)),
            )
        }
        "sum" => {
            assert_eq!(Library::sum(file), Fast::sum(file));
            times(&mut || used(Library::sum(black_box(file))), &mut || used(Fast::sum(black_box(file))))
        }
        "sum by bytes" => {
            assert_eq!(Library::sum(file), sum_by_bytes(file));
            times(&mut || used(Library::sum(black_box(file))), &mut || used(sum_by_bytes(black_box(file))))
        }
        "scan" => {
            let (mut answers_a, mut answers_b) = (vec![], vec![]);
            assert_eq!(online::<Library>(log, |answer| answers_a.push(answer)), online::<Fast>(log, |answer| answers_b.push(answer)));
            assert_eq!(answers_a, answers_b);
            times(&mut || used(online::<Library>(black_box(log), used)), &mut || used(online::<Fast>(black_box(log), used)))
        }
        "scan in place" => {
            let (mut answers_a, mut answers_b) = (vec![], vec![]);
            assert_eq!(online::<Library>(log, |answer| answers_a.push(answer)), online_in_place(log, |answer| answers_b.push(answer)));
            assert_eq!(answers_a, answers_b);
            times(&mut || used(online::<Library>(black_box(log), used)), &mut || used(online_in_place(black_box(log), used)))
        }
        "close" => {
            let cache = online::<Library>(log, used);
            assert_eq!(Library::close(&cache), Fast::close(&cache));
            times(&mut || used(Library::close(black_box(&cache))), &mut || used(Fast::close(black_box(&cache))))
        }
        _ => unreachable!(),
    }
}

/// Schedules of many rows that one could write, or be handed.
#[derive(Clone, Copy)]
enum Schedule {
    /// 8 servers: server 0 holds throughout, and each second one of the others is sent a copy.
    Each,
    /// 2 servers: the copy goes back and forth each second, held for one second in turn.
    Back,
    /// 8 servers: server 0 holds throughout; every second second all others are sent a copy and hold it for one second.
    Short,
    /// 64 servers: the last holds throughout; in each second a chain through all others, listed from its end.
    Chain,
    /// 8 servers: no server holds, and each second a copy is uploaded to one.
    Uploads,
    /// 8 servers: every second second a copy is uploaded, sent on to two servers and held there for one second.
    Fed,
}

impl Schedule {
    const ALL: [Schedule; 6] = [Schedule::Each, Schedule::Back, Schedule::Short, Schedule::Chain, Schedule::Uploads, Schedule::Fed];

    fn name(self) -> &'static str {
        match self {
            Schedule::Each => "a transfer each second",
            Schedule::Back => "back and forth each second",
            Schedule::Short => "short holds at 7 servers",
            Schedule::Chain => "a chain through 64 servers",
            Schedule::Uploads => "an upload each second",
            Schedule::Fed => "uploads, sent on and held",
        }
    }

    fn upload(self) -> Upload {
        match self {
            Schedule::Uploads | Schedule::Fed => UPLOAD,
            _ => None,
        }
    }

    /// A log and about so many rows. Their seconds go up to `last`.
    fn rows(self, rows: u32) -> (u8, u8, u32, Vec<u32>) {
        match self {
            Schedule::Each => {
                let mut numbers = vec![0, 0, 0, rows];
                numbers.extend((1..rows).flat_map(|second| [1, 0, 1 + second % 7, second]));
                (8, 0, rows, numbers)
            }
            Schedule::Back => {
                let last = rows / 4 * 2;
                let mut numbers = Vec::new();
                for server in 0..2 {
                    numbers.extend((0..last / 2).flat_map(|k| [0, server, 2 * k + server, 2 * k + server + 1]));
                }
                numbers.extend((1..=last).flat_map(|second| [1, (second + 1) % 2, second % 2, second]));
                (2, 0, last, numbers)
            }
            Schedule::Short => {
                let steps = rows / 14;
                let mut numbers = vec![0, 0, 0, 2 * steps];
                for server in 1..8 {
                    numbers.extend((0..steps).flat_map(|k| [0, server, 2 * k, 2 * k + 1]));
                }
                numbers.extend((0..steps).flat_map(|k| (1..8).flat_map(move |server| [1, 0, server, 2 * k])));
                (8, 0, 2 * steps, numbers)
            }
            Schedule::Chain => {
                let last = rows / 63;
                let mut numbers = vec![0, 63, 0, last];
                numbers.extend((1..=last).flat_map(|second| (1..64).flat_map(move |source| [1, source, source - 1, second])));
                (64, 63, last, numbers)
            }
            Schedule::Uploads => (8, 0, rows, (1..=rows).flat_map(|second| [2, second % 8, second, 0]).collect()),
            Schedule::Fed => {
                let steps = rows / 5;
                let mut numbers = Vec::new();
                for server in 1..3 {
                    numbers.extend((0..steps).flat_map(|k| [0, server, 2 * k, 2 * k + 1]));
                }
                numbers.extend((0..steps).flat_map(|k| [1, 1, 2, 2 * k, 1, 3, 1, 2 * k]));
                numbers.extend((0..steps).flat_map(|k| [2, 3, 2 * k, 0]));
                (8, 0, 2 * steps - 1, numbers)
            }
        }
    }

    /// The same with a full log, its requests spread over all seconds and at servers where a copy stands.
    fn case(self, rows: u32) -> (Vec<u8>, Vec<u32>) {
        let (server_count, home, last, numbers) = self.rows(rows);
        let header = Header { class: 0, server_count, home, id: [0; 16] };
        let count = last.min(2_048);
        let server = |second: u32| match self {
            Schedule::Each | Schedule::Short => 0,
            Schedule::Back => (second % 2) as u16,
            Schedule::Chain => (second % 64) as u16,
            Schedule::Uploads => (second % 8) as u16,
            Schedule::Fed => 2,
        };
        let second = |i: u32| (last as u64 * i as u64 / count as u64) as u32;
        let requests = (1..=count).map(|i| Request { second: second(i), server: server(second(i)) }).collect();
        (Log { header, requests }.bytes(), numbers)
    }
}

/// The checker on as many rows as a schedule may well have.
fn check_rows(schedule: Schedule, rows: u32) -> Line {
    let (file, numbers) = schedule.case(rows);
    let upload = schedule.upload();
    let answer = Fast::check(None, upload, &file, &numbers);
    assert!(answer.is_ok(), "{answer:?}");
    assert_eq!(Library::check(None, upload, &file, &numbers), answer);
    let mut least = Times::NONE;
    for _ in 0..ROUNDS {
        least = least.min(times(
            &mut || used(Library::check(None, upload, black_box(&file), black_box(&numbers))),
            &mut || used(Fast::check(None, upload, black_box(&file), black_box(&numbers))),
        ));
    }
    Line::new(schedule.name(), 0, numbers.len() as u32 / 4, least)
}

/// A start alone, of the last class of a price file.
fn start_with(classes: usize) -> Line {
    let file = encode(&vec![(3, HIGHEST); classes]);
    let header = Header { class: (classes - 1) as u8, server_count: 64, home: 0, id: [7; 16] };
    assert_eq!(Library::start(Some(&file), &header), Fast::start(Some(&file), &header));
    let mut least = Times::NONE;
    for _ in 0..ROUNDS {
        least = least.min(times(
            &mut || used(Library::start(Some(black_box(&file)), &header)),
            &mut || used(Fast::start(Some(black_box(&file)), &header)),
        ));
    }
    Line::new(START, 0, classes as u32, least)
}

/// The largest games, with limits from 1/1 to 2/1: prices that have a window of 0 to 10 seconds, and any, in turn.
fn games() -> Vec<Game> {
    let mut random = Random::new(13);
    let mut game = |i: usize| {
        let highest = HIGHEST as u64;
        let hold = random.between(1, if i % 2 == 0 { highest / 11 } else { highest });
        let transfer = random.between(1, if i % 2 == 0 { 11 * hold - 1 } else { highest });
        let q = random.between(1, 500);
        let p = random.between(q, 2 * q);
        Game::of([3, 3, 3, hold as u32, transfer as u32, p as u32, q as u32])
    };
    (0..GAMES).map(&mut game).collect()
}

/// All of them, one after the other.
fn play_games() -> Line {
    let games = games();
    games.iter().for_each(|game| assert_eq!(Library::play(game), Fast::play(game), "{game:?}"));
    let mut least = Times::NONE;
    for _ in 0..ROUNDS {
        least = least.min(times(
            &mut || black_box(&games).iter().for_each(|game| used(Library::play(game))),
            &mut || black_box(&games).iter().for_each(|game| used(Fast::play(game))),
        ));
    }
    Line::new(GAME, 0, GAMES as u32, least)
}

#[repr(C)]
#[derive(Default)]
struct Timeval {
    seconds: i64,
    microseconds: i64,
}

impl Timeval {
    fn seconds(&self) -> f64 {
        self.seconds as f64 + self.microseconds as f64 * 1e-6
    }
}

#[repr(C)]
#[derive(Default)]
struct Usage {
    user: Timeval,
    system: Timeval,
    others: [i64; 14],
}

extern "C" {
    fn wait4(process: i32, status: *mut i32, options: i32, usage: *mut Usage) -> i32;
}

/// What a process prints for a file as its standard input, and its processor time in seconds, its own and the system's for it.
fn process(command: &mut Command, input: &Path) -> (String, f64) {
    let mut child = command.stdin(File::open(input).unwrap()).stdout(Stdio::piped()).spawn().unwrap();
    let mut text = String::new();
    child.stdout.take().unwrap().read_to_string(&mut text).unwrap();
    let (mut status, mut usage) = (0, Usage::default());
    let number = child.id() as i32;
    assert_eq!(unsafe { wait4(number, &mut status, 0, &mut usage) }, number);
    assert_eq!(status, 0);
    (text, usage.user.seconds() + usage.system.seconds())
}

/// The two Rust versions of the season: words that have this program be one of them, and its name.
const RUST_SEASONS: [(&str, &str); 2] = [("--season", "Rust"), ("--season-by-calls", "Rust, by the steps of its calls")];

/// This program as a season's, if a word asks for it: the report of its standard input.
fn is_season() -> bool {
    let word = |wanted: &str| std::env::args().any(|word| word == wanted);
    let input = || unsafe { File::from_raw_fd(0) };
    let report = match RUST_SEASONS.map(|(name, _)| word(name)) {
        [true, _] => fast::season::report(input()),
        [_, true] => fast::season::report_by_calls(input()),
        _ => return false,
    };
    print!("{report}");
    true
}

/// The longest logs over 64 servers, two of each class, again and again.
fn season() -> Vec<u8> {
    let mut random = Random::new(12);
    let mut log = |i: u8| {
        let header = Header { class: i % 8, server_count: 64, home: 4 * i, id: [i; 16] };
        Log { header, requests: random_requests(&mut random, Prices::of(header.class), &header, 2_048) }.bytes()
    };
    let logs: Vec<u8> = (0..16).flat_map(&mut log).collect();
    logs.repeat(LOGS / 16)
}

/// The program beside both Rust versions, each a process that reads the same file, taking turns.
fn show_season() {
    println!("\n## A season of 4,096 logs, 64 servers and 2,048 requests each\n");
    let program = PathBuf::from(env!("CARGO_MANIFEST_DIR")).join("../crates/season_report/out/season_report");
    if !program.exists() {
        println!("Not measured: `season_report` is not built; `rt run` in crates/season_report makes it.");
        return;
    }
    let season = season();
    let file = PathBuf::from(env!("CARGO_TARGET_TMPDIR")).join("season.log");
    std::fs::write(&file, &season).unwrap();
    let report = fast::season::report(&season[..]);
    assert_eq!((report.accepted as usize, report.refused.len()), (LOGS, 0));
    let own = std::env::current_exe().unwrap();
    // seconds of each run: the program's, then those of the Rust versions
    let mut runs = vec![];
    for _ in 0..SEASONS {
        let times = |command: &mut Command| {
            let (text, seconds) = process(command, &file);
            assert_eq!(text, report.to_string());
            seconds
        };
        let library = times(&mut Command::new(&program));
        runs.push((library, RUST_SEASONS.map(|(word, _)| times(Command::new(&own).arg(word)))));
    }
    std::fs::remove_file(file).unwrap();
    println!("`season_report` and Rust, each a process with the same {} bytes from a file as its standard input and the room of one log in memory;", season.len());
    println!("two logs of each class, again and again. `Rust` has steps made for the season: costs in 32 bits, all servers alike, and a cache that judges no call;");
    println!("the other has those of its `least` and of its `scan in place`. A time is processor time of the process, with the system's for it, the least of");
    println!("{SEASONS}, in turn. The last column is the ratio in each turn.\n");
    println!("| version | time | logs a second | season_report / Rust | range |");
    println!("|---|---:|---:|---:|---:|");
    let least = |times: &dyn Fn(&(f64, [f64; 2])) -> f64| runs.iter().map(times).fold(f64::MAX, f64::min);
    let library = least(&|run| run.0);
    println!("| season_report | {} | {:.0} | | |", show(library), LOGS as f64 / library);
    for (i, (_, name)) in RUST_SEASONS.iter().enumerate() {
        let rust = least(&|run| run.1[i]);
        let ratios = runs.iter().map(|run| run.0 / run.1[i]);
        let (low, high) = ratios.fold((f64::MAX, 0.0f64), |(low, high), ratio| (low.min(ratio), high.max(ratio)));
        println!("| {name} | {} | {:.0} | {:.2} | {low:.2} to {high:.2} |", show(rust), LOGS as f64 / rust, library / rust);
    }
}

/// One process's times: of the calls on logs of each size, then of a start with a price file, then of games, then of the checker on many rows.
fn measured(wanted: &dyn Fn(&str) -> bool) -> Vec<Line> {
    let mut lines = Vec::new();
    for call in CALLS.into_iter().filter(|call| wanted(call)) {
        for server_count in SERVERS {
            for count in REQUESTS {
                let upload = if call.ends_with("with uploads") { UPLOAD } else { None };
                let case = case(upload, count, server_count);
                let least = (0..ROUNDS).fold(Times::NONE, |least, _| least.min(measure(call, &case)));
                lines.push(Line::new(call, server_count as u32, count as u32, least));
            }
        }
    }
    if wanted(START) {
        lines.extend(CLASSES.map(start_with));
    }
    if wanted(GAME) {
        lines.push(play_games());
    }
    if wanted("rows") {
        for schedule in Schedule::ALL {
            lines.extend(ROWS.map(|rows| check_rows(schedule, rows)));
        }
    }
    lines
}

/// The least of the times of several processes.
fn gathered(words: &[String]) -> Vec<Line> {
    let mut least: Vec<Line> = Vec::new();
    for _ in 0..PROCESSES {
        let own = std::env::current_exe().unwrap();
        let output = Command::new(own).arg("--raw").args(words).output().unwrap();
        assert!(output.status.success(), "{}", String::from_utf8_lossy(&output.stderr));
        let lines: Vec<Line> = String::from_utf8(output.stdout).unwrap().lines().map(Line::parsed).collect();
        if least.is_empty() {
            least = lines;
        } else {
            least.iter_mut().zip(&lines).for_each(|(line, other)| line.join(other));
        }
    }
    least
}

/// Names of calls on the command line choose these alone, those of several words in quotes, `game` the games, `rows` the checker on many rows, and
/// `season` the season.
fn main() {
    if is_season() {
        return;
    }
    let words: Vec<String> = std::env::args().skip(1).filter(|word| !word.starts_with('-')).collect();
    let wanted = |name: &str| words.is_empty() || words.iter().any(|word| word == name);
    if std::env::args().any(|word| word == "--raw") {
        measured(&wanted).iter().for_each(|line| println!("{}", line.raw()));
        return;
    }
    let lines = gathered(&words);
    let (calls, others): (Vec<Line>, Vec<Line>) = lines.into_iter().partition(|line| line.servers > 0);
    let (starts, others): (Vec<Line>, Vec<Line>) = others.into_iter().partition(|line| line.name == START);
    let (games, rows): (Vec<Line>, Vec<Line>) = others.into_iter().partition(|line| line.name == GAME);
    if !calls.is_empty() {
        show_summary(&calls);
        show_calls(&calls);
        show_beside(&calls, "The least cost beside the quote", "least", "quote");
        show_beside(&calls, "The page beside the plan of the same log", "page", "plan");
    }
    if !starts.is_empty() {
        show_starts(&starts);
    }
    games.iter().for_each(show_games);
    if !rows.is_empty() {
        show_rows(&rows);
    }
    if wanted(SEASON) {
        show_season();
    }
}

/// The ratios of the least times, over all numbers of servers.
fn show_summary(lines: &[Line]) {
    println!("## Library / Rust, the least and the greatest over 1, 8 and 64 servers\n");
    println!("| call | 0 requests | 64 | 512 | 2,048 |");
    println!("|---|---:|---:|---:|---:|");
    for call in CALLS {
        let mine: Vec<&Line> = lines.iter().filter(|line| line.name == call).collect();
        if mine.is_empty() {
            continue;
        }
        let cells = REQUESTS.map(|count| {
            let ratios = mine.iter().filter(|line| line.size as usize == count).map(|line| line.least.ratio());
            let (low, high) = ratios.fold((f64::MAX, 0.0f64), |(low, high), ratio| (low.min(ratio), high.max(ratio)));
            format!("{low:.2} to {high:.2}")
        });
        println!("| {call} | {} |", cells.join(" | "));
    }
}

fn show_calls(lines: &[Line]) {
    println!("\n## Times of one call\n");
    println!("`scan` is a start and then a scan for each request, the state going in and coming back by value in both; `scan in place`");
    println!("has Rust change its state where it is; `close` closes the state after them all. Rust's `sum` takes four bytes at a time, its `sum by bytes` one.");
    println!("With uploads there is an upload price of 28, where a transfer is 25 and a second's holding 1; `check` has the rows of the plan.");
    println!("`page` plans the log, as `plan` does, and then counts and prints; every log ends on the first day.");
    println!("Outputs are just as long as needed. Growth is against the line above. The last column is the ratio in each of {PROCESSES} processes.\n");
    println!("| call | servers | requests | library | growth | Rust | growth | library / Rust | range |");
    println!("|---|---:|---:|---:|---:|---:|---:|---:|---:|");
    for (i, line) in lines.iter().enumerate() {
        let before = if line.size == 0 { None } else { lines.get(i.wrapping_sub(1)) };
        println!("| {} | {} | {} | {} |", line.name, line.servers, line.size, line.columns(before));
    }
}

/// One call beside another on the longest log, where both were measured.
fn show_beside(lines: &[Line], title: &str, one: &str, other: &str) {
    let longest = |call: &str| lines.iter().find(|line| line.name == call && line.servers == 64 && line.size == 2_048);
    let (Some(a), Some(b)) = (longest(one), longest(other)) else { return };
    println!("\n## {title}, 64 servers and 2,048 requests\n");
    println!("| version | {one} | {other} | {one} / {other} |");
    println!("|---|---:|---:|---:|");
    for (version, a, b) in [("library", a.least.library, b.least.library), ("Rust", a.least.rust, b.least.rust)] {
        println!("| {version} | {} | {} | {:.2} |", show(a), show(b), a / b);
    }
}

fn show_starts(lines: &[Line]) {
    println!("\n## A start with a price file\n");
    println!("A start alone, of the file's last class. Growth is against the line above.\n");
    println!("| call | classes | library | growth | Rust | growth | library / Rust | range |");
    println!("|---|---:|---:|---:|---:|---:|---:|---:|");
    for (i, line) in lines.iter().enumerate() {
        println!("| {} | {} | {} |", line.name, line.size, line.columns(lines.get(i.wrapping_sub(1))));
    }
}

fn show_games(line: &Line) {
    let keeper = games().iter().filter(|game| Fast::play(game) == Ok(Winner::Keeper)).count();
    println!("\n## Games\n");
    println!("{GAMES} of the largest size: 3 servers, 3 requests and a largest gap of 3 seconds, limits from 1/1 to 2/1, prices with a window of 0 to 10");
    println!("seconds and any, in turn. The keeper wins {keeper}. A time is that of them all.\n");
    println!("| games | library | Rust | library / Rust | range |");
    println!("|---:|---:|---:|---:|---:|");
    let Line { size, least, low, high, .. } = line;
    println!("| {size} | {} | {} | {:.2} | {low:.2} to {high:.2} |", show(least.library), show(least.rust), least.ratio());
}

fn show_rows(lines: &[Line]) {
    println!("\n## The checker on many rows\n");
    println!("Schedules that are accepted, over logs of up to 2,048 requests; the last two with an upload price. Growth is against the line above.\n");
    println!("| schedule | rows | library | growth | Rust | growth | library / Rust | range |");
    println!("|---|---:|---:|---:|---:|---:|---:|---:|");
    for (i, line) in lines.iter().enumerate() {
        let before = lines.get(i.wrapping_sub(1)).filter(|before| before.name == line.name);
        println!("| {} | {} | {} |", line.name, line.size, line.columns(before));
    }
}
