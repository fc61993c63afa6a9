//! `recorder leaves|descriptors|queries|solves SEED [SIZE [PATH]]` writes test vectors to a file or to standard output;
//! `recorder typeline SEED FOLDER` writes the files `stdin` and `stdout` of a run of the program that reads hex lines.

use std::io::{self, Write};
use std::path::Path;
use std::process::ExitCode;
use std::{env, fs};

use recorder::{File, FILES};

fn main() -> ExitCode {
    let arguments: Vec<String> = env::args().skip(1).collect();
    let written = match (read_run(&arguments), read(&arguments)) {
        (Some((seed, folder)), _) => write_run(seed, folder),
        (None, Some((file, seed, size, path))) => {
            let text = recorder::record(file, seed, size);
            match path {
                Some(path) => fs::write(path, text),
                None => io::stdout().write_all(text.as_bytes()),
            }
        }
        (None, None) => {
            eprintln!("usage: recorder leaves|descriptors|queries|solves SEED [SIZE [PATH]]");
            eprintln!("       recorder typeline SEED FOLDER");
            return ExitCode::from(2);
        }
    };
    match written {
        Ok(()) => ExitCode::SUCCESS,
        Err(error) => {
            eprintln!("recorder: {error}");
            ExitCode::FAILURE
        }
    }
}

fn write_run(seed: u64, folder: &Path) -> io::Result<()> {
    let (input, output) = recorder::run(seed);
    fs::write(folder.join("stdin"), input)?;
    fs::write(folder.join("stdout"), output)
}

fn read_run(arguments: &[String]) -> Option<(u64, &Path)> {
    match arguments {
        [what, seed, folder] if what == "typeline" => Some((seed.parse().ok()?, Path::new(folder))),
        _ => None,
    }
}

fn read(arguments: &[String]) -> Option<(&'static File, u64, u64, Option<&String>)> {
    let file = FILES
        .iter()
        .find(|file| Some(file.name) == arguments.first().map(String::as_str))?;
    let seed = arguments.get(1)?.parse().ok()?;
    let size = match arguments.get(2) {
        Some(size) => size.parse().ok()?,
        None => 1,
    };
    (arguments.len() <= 4).then_some((file, seed, size, arguments.get(3)))
}
