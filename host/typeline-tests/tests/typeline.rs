//! The program `typeline` as a process: what it prints, byte by byte, for the scope paper's example, for scripts at every limit
//! and for random ones, beside `judge::lines`.
//!
//! `tools/run typeline` makes the program, and `rt ci` too: crates/typeline/out/typeline of the repository; BRACEPUFFIN_TYPELINE
//! names another one. It is for x86-64: elsewhere the tests run it through the emulator that cargo runs them through.
//! BRACEPUFFIN_CASES sets how many random inputs are tried, where a million stands for 200.

use std::ffi::OsString;
use std::io::Write;
use std::path::{Path, PathBuf};
use std::process::{Command, Stdio};
use std::{env, thread};

use judge::line_cases::{any_bytes, any_script, forms, full_scripts};
use judge::lines::printed;
use judge::rng::Rng;
use judge::stored::{PAPER, RUN_INPUT, RUN_OUTPUT};

fn program() -> PathBuf {
    let made = || Path::new(env!("CARGO_MANIFEST_DIR")).join("../../crates/typeline/out/typeline");
    env::var_os("BRACEPUFFIN_TYPELINE").map_or_else(made, PathBuf::from)
}

/// The emulator and its arguments, if there is one, and the program.
fn command() -> Command {
    let runner = env::var("CARGO_TARGET_X86_64_UNKNOWN_LINUX_GNU_RUNNER").unwrap_or_default();
    let words = runner.split_whitespace().map(OsString::from);
    let mut words = words.chain([program().into_os_string()]);
    let mut command = Command::new(words.next().expect("at least the program"));
    command.args(words);
    command
}

/// What the program prints for an input that comes through a pipe.
fn run(input: &[u8]) -> Vec<u8> {
    let mut child = command()
        .stdin(Stdio::piped())
        .stdout(Stdio::piped())
        .spawn()
        .unwrap_or_else(|error| panic!("{}: {error}", program().display()));
    let mut pipe = child.stdin.take().expect("a pipe");
    let output = thread::scope(|scope| {
        // It prints before it has read everything, so both go on at once.
        scope.spawn(move || pipe.write_all(input).expect("it reads to the end"));
        child.wait_with_output().expect("it ends")
    });
    assert!(output.status.success(), "{}", output.status);
    output.stdout
}

/// Runs the program on an input, and stops at the first line that the judge has otherwise.
fn agree(what: &str, input: &[u8]) -> usize {
    let (found, expected) = (run(input), printed(input));
    if found != expected.as_bytes() {
        let found = String::from_utf8_lossy(&found);
        let mut pairs = found.lines().zip(expected.lines()).enumerate();
        let other = pairs.find(|(_, (found, expected))| found != expected);
        let shown = String::from_utf8_lossy(&input[..input.len().min(4000)]);
        match other {
            Some((place, (found, expected))) => panic!(
                "{what}, line {} of the output: {found}, and not {expected}, for\n{shown}",
                place + 1
            ),
            None => panic!(
                "{what}: {} bytes, and not {}, for\n{shown}",
                found.len(),
                expected.len()
            ),
        }
    }
    expected.lines().count()
}

fn cases(of_a_million: u64) -> u64 {
    let million = match env::var("BRACEPUFFIN_CASES") {
        Ok(number) => number.parse().expect("BRACEPUFFIN_CASES is a number"),
        Err(_) => 1_000_000,
    };
    (million * of_a_million).div_ceil(1_000_000)
}

#[test]
fn the_example_of_the_paper() {
    let expected = "V 0 0001000000000000\nV 1 0001000000000000\nR 1\nL 0\n";
    assert_eq!(String::from_utf8_lossy(&run(PAPER.as_bytes())), expected);
}

#[test]
fn the_stored_run() {
    assert!(run(RUN_INPUT) == RUN_OUTPUT.as_bytes());
    // A last line without its LF.
    let (_, whole) = RUN_INPUT.split_last().expect("lines");
    assert!(run(whole) == RUN_OUTPUT.as_bytes());
}

#[test]
fn the_form_of_lines() {
    for input in forms() {
        agree("a form", &input);
    }
}

#[test]
fn every_limit_from_both_sides() {
    for (what, input) in full_scripts() {
        agree(what, &input);
    }
}

#[test]
fn random_scripts() {
    let mut rng = Rng::new(1, "lines of the program");
    let mut lines = 0;
    for number in 0..cases(200) {
        lines += agree(&format!("script {number}"), &any_script(&mut rng));
    }
    assert!(lines as u64 > 10 * cases(200), "{lines}");
}

#[test]
fn bytes_that_are_no_lines() {
    let mut rng = Rng::new(1, "bytes");
    let mut lines = 0;
    for number in 0..cases(40) {
        lines += agree(&format!("bytes {number}"), &any_bytes(&mut rng));
    }
    assert!(lines > 0);
}
