//! Nanoseconds a call of the Rust of docs/src, of the boundary over slices, and of the Rust wrapper over it, in one run.
//!
//!     cargo run --release --offline -p bench                     a table in Markdown
//!     cargo run --release --offline -p bench -- classes          a part of it: descriptors, classes, types, solves, layered,
//!                                                                 small, shares, hostile; and by name alone solve-growths
//!     cargo run --release --offline -p bench -- report           docs/PERFORMANCE.md, with plots beside it
//!     bench beside BEFORE.. AFTER..                              builds of this program, linked with two archives, in
//!                                                                 turns; `tools/beside` makes them and calls this
//!
//! A report is refused where its figures would say nothing: in a build for tests, and under an emulator; `--force` after
//! `report` writes one all the same, and another folder than docs may follow.
//!
//! Where the linker puts a loop can move a row by half, the same in every run of one build. A ratio near 1 needs a
//! second build, or a program with that row alone, before it says anything.

mod beside;
mod classes;
mod descriptors;
#[path = "../../bracepuffin/tests/shared/dressed.rs"]
mod dressed;
mod growth;
mod hostile;
mod layered;
mod measure;
mod plot;
mod problems;
mod processor;
mod report;
mod small;
mod solves;
mod types;

use std::io;
use std::path::{Path, PathBuf};
use std::process::ExitCode;

use measure::Effort;

fn main() -> ExitCode {
    let arguments: Vec<String> = std::env::args().skip(1).collect();
    match arguments.first().map(String::as_str) {
        Some("report") => write_report(&arguments[1..]),
        Some("serve") => ended(beside::serve(
            Effort::FULL,
            io::stdin().lock(),
            io::stdout(),
        )),
        Some("beside") => ended(compare(&arguments[1..])),
        part => {
            print!("{}", report::tables(Effort::FULL, part));
            ExitCode::SUCCESS
        }
    }
}

fn compare(programs: &[String]) -> io::Result<()> {
    print!("{}", beside::compare(Effort::FULL, programs)?);
    Ok(())
}

fn ended(result: io::Result<()>) -> ExitCode {
    match result {
        Ok(()) => ExitCode::SUCCESS,
        Err(error) => {
            eprintln!("{error}");
            ExitCode::FAILURE
        }
    }
}

fn write_report(arguments: &[String]) -> ExitCode {
    let forced = arguments.iter().any(|argument| argument == "--force");
    let named = arguments.iter().find(|argument| *argument != "--force");
    let folder = match named {
        Some(folder) => PathBuf::from(folder),
        None => Path::new(env!("CARGO_MANIFEST_DIR")).join("../../docs"),
    };
    if let (Some(reason), false) = (processor::unfit(), forced) {
        eprintln!("no report: {reason}");
        return ExitCode::FAILURE;
    }
    match report::write(Effort::FULL, &folder) {
        Ok(()) => ExitCode::SUCCESS,
        Err(error) => {
            eprintln!("{}: {error}", folder.display());
            ExitCode::FAILURE
        }
    }
}
