//! include/caching.h: a program that makes every call, compiled as C and as C++ over the library and run.

use std::path::{Path, PathBuf};
use std::process::Command;

const PRINTED: &str = "\
write: 0 0 64 0
write short: 31 64 0 0
sum as written: 1
read: 0 0 4 0
read back: 1 1 1
read nothing: 1 0 0 0
plan: 0 0 42 4
marks: SSKK
check: 0 0 42 0
check nothing: 18 1 0 0
least: 0 0 5 0
least 0: 0
least 1: 11
least 2: 22
least 3: 31
least 4: 42
plan uploads: 0 0 40 4
marks: USKU
check uploads: 0 0 40 0
check uploads dearer: 0 0 2000020 0
check no uploads: 15 3 0 0
least uploads: 0 0 5 0
least 0: 0
least 1: 10
least 2: 20
least 3: 30
least 4: 40
plan uploads for 0: 44 0 0 0
check uploads for 0: 44 0 0 0
least uploads for too much: 44 0 0 0
as it was: USKU 40
plan uploads nothing: 1 0 0 0
check uploads nothing: 18 1 0 0
least uploads short: 31 5 0 0
quote: 0 0 52 0
quote nothing: 1 0 0 0
page short: 31 272 0 0
as it was: ... ...
page: 0 0 272 0
 0      12       0       0       0       0       0       0       12
 1      10       0       0       0       0       0       0       10
 2       0       0       0       0       0       0       0        0
        22       0       0       0       0       0       0       22
..
page with more: 0 0 272 0
zeros after it: 1
page nothing: 1 0 0 0
page of the last second: 0 0 272 0
 0   86400   86400   86400   86400   86400   86400   86400   604800
 1       0       0       0       0       0       0       0        0
 2       0       0       0       0       0       0       0        0
     86400   86400   86400   86400   86400   86400   86400   604800
page of one more: 36 0 0 0
page of one more, short: 36 0 0 0
start: 0 0 0 0
id: 1
scan of another id: 39 0 0 0
scan: 0 0 1 0
running: 11
scan: 0 0 1 1
running: 23
scan: 0 0 0 0
running: 50
scan: 0 0 1 1
running: 62
scan of another id: 39 0 0 0
running: 0 0 62 0
close: 0 0 82 0
close again: 33 0 0 0
scan of another id after it: 33 0 0 0
running still: 0 0 62 0
write class 7: 43 0 0 0
as it was: 1
start class 7: 43 0 0 0
scan of zeros: 11 0 0 0
write with: 0 0 64 0
write with wrong: 38 1 0 0
read with: 0 0 4 0
read back: 1
read with short: 37 0 0 0
plan with: 0 0 84 4
marks: SSKK
plan with wrong: 38 1 0 0
check with: 0 0 84 0
check with nothing: 37 0 0 0
least with: 0 0 5 0
least 0: 0
least 1: 22
least 2: 44
least 3: 62
least 4: 84
least with wrong: 38 1 0 0
plan uploads with: 0 0 82 4
marks: USKU
plan uploads with wrong: 38 1 0 0
check uploads with: 0 0 82 0
check uploads with for 0: 44 0 0 0
check uploads with nothing: 37 0 0 0
least uploads with: 0 0 5 0
least 0: 0
least 1: 21
least 2: 42
least 3: 61
least 4: 82
least uploads with wrong: 38 1 0 0
quote with: 0 0 104 0
quote with wrong: 38 1 0 0
quote with nothing: 37 0 0 0
start with no such class: 3 0 0 0
start with: 0 0 0 0
prices: 2 20
scan: 0 0 1 0
running: 22
close: 0 0 62 0
close with a price above the highest: 32 0 0 0
play at 4/3: 0 0 1 0
play at 133/100: 0 0 0 0
play with a dearer transfer: 0 0 1 0
play: 0 0 1 0
play: 46 0 0 0
play: 46 0 0 0
play: 46 0 0 0
play: 46 0 0 0
play: 46 0 0 0
play: 46 0 0 0
play: 46 0 0 0
";

/// What c/calls.c prints, built by a compiler as a language and its standard.
fn printed(compiler: &str, language: &str, standard: &str) -> String {
    let here = Path::new(env!("CARGO_MANIFEST_DIR"));
    let library = std::env::var("EXPORTS_DIR").map_or(here.join("../crates/exports/out"), PathBuf::from);
    let program = Path::new(env!("CARGO_TARGET_TMPDIR")).join(format!("calls-{standard}"));
    let built = Command::new(compiler)
        .args([&format!("-std={standard}"), "-Wall", "-Wextra", "-Werror", "-O1", "-x", language])
        .arg(here.join("c/calls.c"))
        .args(["-x", "none"])
        .arg(library.join("libexports.a"))
        .arg("-o")
        .arg(&program)
        .output()
        .unwrap();
    assert!(built.status.success(), "{}", String::from_utf8_lossy(&built.stderr));
    let ran = Command::new(program).output().unwrap();
    assert!(ran.status.success(), "{ran:?}");
    String::from_utf8(ran.stdout).unwrap()
}

#[test]
fn every_call_from_c() {
    assert_eq!(printed("gcc", "c", "c11"), PRINTED);
}

#[test]
fn every_call_from_cpp() {
    assert_eq!(printed("g++", "c++", "c++17"), PRINTED);
}
