//! The programs, crates/NAME/out/NAME, run as a user would run them: what the tests of each need, and what is the same for all of them.

use std::fs::{self, File};
use std::io::Write;
use std::path::PathBuf;
use std::process::{Child, Command, Output, Stdio};
use std::thread::sleep;
use std::time::Duration;

/// A program that takes a log, or logs, on its standard input.
pub struct Program {
    pub name: &'static str,
    /// what the simple version prints for an input
    pub printed: fn(&[u8]) -> String,
    /// what is printed for an input that is empty or can't be read
    pub nothing: &'static str,
}

pub fn spawn(mut command: Command) -> Child {
    let spawned = command.stdin(Stdio::piped()).stdout(Stdio::piped()).stderr(Stdio::piped()).spawn();
    spawned.unwrap_or_else(|error| panic!("{command:?}: {error}; `rt run` in its crate makes it"))
}

/// What a command prints for an input; it ends with status 0 and writes nothing else.
pub fn given(command: Command, input: &[u8]) -> String {
    let mut child = spawn(command);
    let mut stdin = child.stdin.take().unwrap();
    // a longer input than the program reads closes the pipe before all of it is written
    let _ = stdin.write_all(input);
    drop(stdin);
    text_of(child.wait_with_output().unwrap())
}

pub fn text_of(output: Output) -> String {
    assert!(output.status.success(), "{output:?}");
    assert!(output.stderr.is_empty(), "{output:?}");
    String::from_utf8(output.stdout).unwrap()
}

/// A file of a test's own.
pub fn file_with(name: &str, content: &[u8]) -> PathBuf {
    let file = PathBuf::from(env!("CARGO_TARGET_TMPDIR")).join(name);
    fs::write(&file, content).unwrap();
    file
}

impl Program {
    pub fn path(&self) -> PathBuf {
        PathBuf::from(env!("CARGO_MANIFEST_DIR")).join("../crates").join(self.name).join("out").join(self.name)
    }

    pub fn command(&self) -> Command {
        Command::new(self.path())
    }

    /// The program in the shell's place, with words before it and redirections after it.
    pub fn by_shell(&self, before: &str, after: &str) -> Command {
        let mut shell = Command::new("sh");
        shell.arg("-c").arg(format!("{before} exec \"$0\" {after}")).arg(self.path());
        shell
    }

    pub fn run(&self, input: &[u8]) -> String {
        given(self.command(), input)
    }

    /// A file of a test that several programs have.
    pub fn file_with(&self, name: &str, content: &[u8]) -> PathBuf {
        file_with(&format!("{}-{name}", self.name), content)
    }

    /// An open file as the input.
    fn run_on(&self, input: File) -> String {
        text_of(self.command().stdin(input).stdout(Stdio::piped()).stderr(Stdio::piped()).output().unwrap())
    }

    pub fn a_directory(&self) {
        assert_eq!(self.run_on(File::open(env!("CARGO_MANIFEST_DIR")).unwrap()), self.nothing);
    }

    pub fn an_input_that_can_only_be_written(&self, log: &[u8]) {
        let input = File::options().write(true).open(self.file_with("only-written.log", log)).unwrap();
        assert_eq!(self.run_on(input), self.nothing);
    }

    pub fn a_closed_input(&self, log: &[u8]) {
        assert_eq!(given(self.by_shell("", "<&-"), log), self.nothing);
    }

    pub fn a_closed_output(&self, log: &[u8]) {
        assert_eq!(given(self.by_shell("", ">&-"), log), "");
        assert_eq!(given(self.by_shell("", ">&-"), b""), "");
    }

    pub fn an_output_that_is_full(&self, log: &[u8]) {
        assert_eq!(given(self.by_shell("", "> /dev/full"), log), "");
        assert_eq!(given(self.by_shell("", "> /dev/full"), b""), "");
    }

    /// An input in pieces of a length, with a wait after each.
    pub fn in_pieces(&self, input: &[u8], length: usize) {
        let mut child = spawn(self.command());
        let mut stdin = child.stdin.take().unwrap();
        for piece in input.chunks(length) {
            stdin.write_all(piece).unwrap();
            sleep(Duration::from_millis(2));
        }
        drop(stdin);
        assert_eq!(text_of(child.wait_with_output().unwrap()), (self.printed)(input));
    }
}
