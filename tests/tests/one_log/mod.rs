//! What is the same for the programs that take one log and print a line where it is refused.

use crate::programs::{given, spawn, text_of, Program};
use reference::log::{Header, Log, Request};
use std::fs;
use std::io::{Read, Write};
use std::os::fd::AsRawFd;
use std::os::unix::process::ExitStatusExt;
use std::path::PathBuf;
use std::process::{Child, Command};
use std::thread::sleep;
use std::time::Duration;

/// What is printed where there is no log.
pub const NO_LOG: &str = "refused input 1 place 0\n";

pub fn week_c() -> Log {
    let header = Header { class: 0, server_count: 3, home: 0, id: *b"case C of doc 01" };
    let requests = [(1, 1), (2, 2), (11, 1), (12, 0)].map(|(second, server)| Request { second, server });
    Log { header, requests: requests.to_vec() }
}

extern "C" {
    fn fcntl(file: i32, command: i32, ...) -> i32;
}

/// Makes the pipe of the program's output hold 4,096 bytes, the least that Linux gives where pages of memory have that size.
fn shorten(output: &impl AsRawFd) {
    const SIZE: i32 = 1_031;
    assert_eq!(unsafe { fcntl(output.as_raw_fd(), SIZE, 4_096) }, 4_096);
}

impl Program {
    /// One line of refusal and nothing else.
    pub fn is_refused(&self, input: &[u8]) {
        let text = self.run(input);
        assert_eq!(text, (self.printed)(input));
        assert!(text.starts_with("refused input ") && text.ends_with('\n') && text.lines().count() == 1, "{text}");
    }

    pub fn truncated_at_every_length(&self, log: &[u8]) {
        for length in 0..log.len() {
            self.is_refused(&log[..length]);
        }
    }

    pub fn one_bit_flipped_in_every_byte(&self, log: &[u8]) {
        for place in 0..log.len() {
            for bit in 0..8 {
                let mut damaged = log.to_vec();
                damaged[place] ^= 1 << bit;
                self.is_refused(&damaged);
            }
        }
    }

    /// The longest log with bytes after it, some or without end: the program reads past the log's end, so it refuses these, and does not read on and on.
    /// A lower number than 9 is found in a long input too.
    pub fn longer_than_any_log(&self, log: &[u8]) {
        assert_eq!(log.len(), 12_328);
        assert_eq!(self.run(log), (self.printed)(log));
        for length in [12_329, 12_330, 100_000] {
            let mut input = log.to_vec();
            input.resize(length, 0);
            assert_eq!(self.run(&input), "refused input 9 place 0\n");
            input[0] = 2;
            assert_eq!(self.run(&input), "refused input 2 place 0\n");
        }
        for (front, number) in [(self.file_with("endless.log", log), 9), (PathBuf::from("/dev/zero"), 2)] {
            let mut endless = Command::new("sh");
            endless.arg("-c").arg("cat \"$1\" /dev/zero 2> /dev/null | timeout 20 \"$0\"").arg(self.path()).arg(front);
            assert_eq!(given(endless, b""), format!("refused input {number} place 0\n"));
        }
    }

    /// The output takes a part of the text, so many blocks of the shell's: nothing but that part is written.
    pub fn an_output_that_gets_full(&self, log: &[u8], blocks: usize) {
        let text = (self.printed)(log);
        let file = self.file_with("short.txt", b"");
        let before = format!("trap '' XFSZ; ulimit -f {blocks};");
        assert_eq!(given(self.by_shell(&before, &format!("> '{}'", file.display())), log), "");
        let written = fs::read_to_string(file).unwrap();
        assert!(!written.is_empty() && written.len() < text.len(), "{}", written.len());
        assert!(text.starts_with(&written));
    }

    /// The program with a short pipe as its output, its input given.
    fn with_short_output(&self, log: &[u8]) -> Child {
        assert!((self.printed)(log).len() > 4_096);
        let mut child = spawn(self.command());
        shorten(child.stdout.as_ref().unwrap());
        child.stdin.take().unwrap().write_all(log).unwrap();
        child
    }

    /// The reader goes, having read nothing or a part of the text: the program writes no more and ends as ever, and the part is of the text.
    pub fn a_reader_that_has_gone(&self, log: &[u8]) {
        for length in [0, 1, 68, 4_000] {
            let mut child = self.with_short_output(log);
            let mut part = vec![0; length];
            child.stdout.take().unwrap().read_exact(&mut part).unwrap();
            let output = child.wait_with_output().unwrap();
            assert_eq!((output.status.signal(), output.status.code()), (None, Some(0)));
            assert!(output.stderr.is_empty(), "{output:?}");
            assert_eq!(part, (self.printed)(log).as_bytes()[..length]);
        }
    }

    pub fn a_slow_reader(&self, log: &[u8]) {
        let mut child = self.with_short_output(log);
        let mut stdout = child.stdout.take().unwrap();
        let (mut text, mut piece) = (vec![], [0; 1_000]);
        loop {
            sleep(Duration::from_millis(2));
            let length = stdout.read(&mut piece).unwrap();
            if length == 0 {
                break;
            }
            text.extend(&piece[..length]);
        }
        assert_eq!(text_of(child.wait_with_output().unwrap()), "");
        assert_eq!(String::from_utf8(text).unwrap(), (self.printed)(log));
    }
}
