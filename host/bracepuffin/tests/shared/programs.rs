//! Programs that tests make and run: those in C that link the archive, and `typeline`. On another machine than x86-64 they run
//! through the emulator that cargo runs the tests through.
#![allow(dead_code)]

use std::env;
use std::env::consts::ARCH;
use std::ffi::OsString;
use std::io::Write;
use std::path::{Path, PathBuf};
use std::process::{Command, Stdio};
use std::thread;

pub const WARNINGS: [&str; 4] = ["-Wall", "-Wextra", "-Werror", "-pedantic"];

/// A file of the repository.
pub fn file(path: &str) -> PathBuf {
    Path::new(env!("CARGO_MANIFEST_DIR"))
        .join("../..")
        .join(path)
}

/// The text of a file of the repository.
pub fn text(path: &str) -> String {
    let found = std::fs::read_to_string(file(path));
    found.unwrap_or_else(|error| panic!("{path}: {error}"))
}

pub fn include() -> PathBuf {
    file("host/include")
}

/// The first of these compilers that is there and whose programs are for the machine, if one is named.
pub fn compiler(names: &[&'static str], machine: &str) -> &'static str {
    let fits = |name: &&'static str| {
        let asked = Command::new(name).arg("-dumpmachine").output();
        asked.is_ok_and(|said| said.status.success() && said.stdout.starts_with(machine.as_bytes()))
    };
    let found = names.iter().copied().find(fits);
    found.unwrap_or_else(|| panic!("none of {names:?} is here, or none for {machine:?}"))
}

/// The compiler for C whose programs link the archive.
pub fn linking() -> &'static str {
    compiler(&["cc", "gcc", "x86_64-linux-gnu-gcc"], ARCH)
}

/// Runs a command, which must succeed; what it printed.
pub fn run(command: &mut Command) -> String {
    let output = command.output().expect("the command starts");
    let errors = String::from_utf8_lossy(&output.stderr);
    assert!(output.status.success(), "{command:?}\n{errors}");
    String::from_utf8(output.stdout).expect("text")
}

/// Through the emulator where cargo runs the tests through one.
pub fn emulated(program: &Path) -> Command {
    let runner = env::var("CARGO_TARGET_X86_64_UNKNOWN_LINUX_GNU_RUNNER").unwrap_or_default();
    let words = runner.split_whitespace().map(OsString::from);
    let mut words = words.chain([program.as_os_str().to_owned()]);
    let mut command = Command::new(words.next().expect("at least the program"));
    command.args(words);
    command
}

/// What a program in C prints that is made with these options.
pub fn prints(source: &Path, name: &str, options: &[&str]) -> String {
    let program = Path::new(env!("CARGO_TARGET_TMPDIR")).join(name);
    let mut command = Command::new(linking());
    command.args(options).args(WARNINGS);
    command.arg("-I").arg(include()).arg(source);
    command.arg(env!("BRACEPUFFIN_ARCHIVE"));
    run(command.arg("-o").arg(&program));
    run(&mut emulated(&program))
}

/// What `typeline` prints for an input. `tools/run typeline` makes it, and `rt ci` too; BRACEPUFFIN_TYPELINE names another one.
pub fn typeline(input: &str) -> String {
    let made = || file("crates/typeline/out/typeline");
    let program = env::var_os("BRACEPUFFIN_TYPELINE").map_or_else(made, PathBuf::from);
    let mut child = emulated(&program)
        .stdin(Stdio::piped())
        .stdout(Stdio::piped())
        .spawn()
        .unwrap_or_else(|error| panic!("{}: {error}", program.display()));
    let mut pipe = child.stdin.take().expect("a pipe");
    let output = thread::scope(|scope| {
        scope.spawn(move || pipe.write_all(input.as_bytes()).expect("it reads all"));
        child.wait_with_output().expect("it ends")
    });
    assert!(output.status.success(), "{}", output.status);
    String::from_utf8(output.stdout).expect("text")
}
