//! Two archives beside each other: this program is built with each, and one build asks all of them to take turns, call by
//! call, so that other work on the machine slows all. `tools/beside` builds them.

use std::fmt::Write as _;
use std::hint::black_box;
use std::io::{self, BufRead, BufReader, Lines, Write};
use std::process::{Child, ChildStdin, ChildStdout, Command, Stdio};
use std::rc::Rc;
use std::time::{Duration, Instant};

use bracepuffin::slices::{self, ClassColumns};
use bracepuffin::{ArgType, ClassTable, WORK};

use crate::classes::{ends, program, table};
use crate::measure::{repeated, Effort};
use crate::plot::duration;
use crate::problems::{Case, Lent};

/// A call of the boundary, that many times.
type Calls = Box<dyn FnMut(u64)>;

/// Every function over a table of one layer, over small and large ones; and solves.
fn calls(effort: Effort) -> Vec<(String, Calls)> {
    let mut calls = Vec::new();
    for count in [10].into_iter().chain(effort.sizes) {
        calls.extend(over_names(count));
    }
    for size in effort.problems {
        let case = Case::of(size);
        let what = format!(
            "{} names, a solve of {} components",
            case.classes.len(),
            case.columns.components
        );
        let mut lent = Lent::of(&case.columns);
        let solve = repeated(move || lent.solve(black_box(case.table.columns()), &case.columns));
        calls.push((what, Box::new(solve)));
    }
    calls
}

/// A question, as a number that its answer has.
type Ask = fn(ClassColumns, u64, u64, &mut [u64]) -> u64;

const OF_CLASSES: [(&str, Ask); 5] = [
    ("relation", |table, left, right, work| {
        slices::relation(table, left, right, work).relation
    }),
    ("distance", |table, left, right, work| {
        slices::distance(table, left, right, work).value
    }),
    ("ancestors", |table, class, _, work| {
        slices::ancestors(table, class, work).count
    }),
    ("supertype", |table, left, right, work| {
        slices::supertype(table, left, right, work).value
    }),
    ("cast", |table, left, right, work| {
        slices::cast(table, left, right, work).value
    }),
];

const OF_TYPES: [(&str, Ask); 2] = [
    ("join", |table, left, right, work| {
        slices::join(table, left, right, work).value
    }),
    ("assignable", |table, left, right, work| {
        slices::assignable(table, left, right, work).value
    }),
];

fn over_names(count: usize) -> Vec<(String, Calls)> {
    let classes = program(count);
    let table = Rc::new(table(&classes));
    let ends = ends(&classes);
    let numbers = ends.map(|name| table.class_number(name).expect("in the table").get());
    let word = |ty| table.word(ty).expect("in the table").bits();
    let classes = ends.map(|name| word(ArgType::object(name)));
    let primitives = [ArgType::BOOLEAN, ArgType::INT].map(word);
    let what = |call: &str| format!("{count} names, {call}");
    let made = Rc::clone(&table);
    let check = repeated(move || slices::check_table(black_box(made.columns())));
    let (_, relation) = OF_CLASSES[0];
    let mut calls: Vec<(String, Calls)> = vec![
        (what("the table checked"), Box::new(check)),
        (
            what("refused 22"),
            query(&table, numbers, WORK - 1, relation),
        ),
    ];
    for (name, ask) in OF_CLASSES {
        calls.push((what(name), query(&table, numbers, WORK, ask)));
    }
    for (of, words) in [("`Z`, `I`", primitives), ("two classes", classes)] {
        for (name, ask) in OF_TYPES {
            let what = what(&format!("{name} {of}"));
            calls.push((what, query(&table, words, WORK, ask)));
        }
    }
    calls
}

fn query(table: &Rc<ClassTable>, [left, right]: [u64; 2], words: usize, ask: Ask) -> Calls {
    let table = Rc::clone(table);
    let mut work = vec![0; words];
    Box::new(repeated(move || {
        ask(
            table.columns(),
            black_box(left),
            black_box(right),
            &mut work,
        )
    }))
}

/// Says what can be called, a line each and an empty one; then for each line with a place and a number calls it that many
/// times, once before the clock starts, and says the nanoseconds.
pub fn serve(effort: Effort, asked: impl BufRead, mut said: impl Write) -> io::Result<()> {
    let mut calls = calls(effort);
    for (what, _) in &calls {
        writeln!(said, "{what}")?;
    }
    writeln!(said)?;
    said.flush()?;
    for line in asked.lines() {
        let line = line?;
        let numbers = line.split(' ').map(|word| word.parse().ok());
        let numbers: Option<Vec<u64>> = numbers.collect();
        let asked = match numbers.as_deref() {
            Some([place, times]) => calls.get_mut(*place as usize).zip(Some(*times)),
            _ => None,
        };
        let Some(((_, call), times)) = asked else {
            return Err(io::Error::other(format!("no call and number: {line}")));
        };
        call(1);
        let start = Instant::now();
        call(times);
        writeln!(said, "{}", start.elapsed().as_nanos())?;
        said.flush()?;
    }
    Ok(())
}

/// A build that serves.
struct Build {
    child: Child,
    asked: ChildStdin,
    said: Lines<BufReader<ChildStdout>>,
    names: Vec<String>,
}

impl Build {
    fn start(program: &str) -> io::Result<Self> {
        let mut child = Command::new(program)
            .arg("serve")
            .stdin(Stdio::piped())
            .stdout(Stdio::piped())
            .spawn()?;
        let asked = child.stdin.take().expect("piped");
        let mut said = BufReader::new(child.stdout.take().expect("piped")).lines();
        let mut names = Vec::new();
        loop {
            let line = said.next().unwrap_or(Ok(String::new()))?;
            if line.is_empty() {
                break;
            }
            names.push(line);
        }
        Ok(Self {
            child,
            asked,
            said,
            names,
        })
    }

    /// The nanoseconds that so many calls of one place take together.
    fn time(&mut self, place: usize, times: u64) -> io::Result<f64> {
        writeln!(self.asked, "{place} {times}")?;
        let line = self.said.next().unwrap_or(Ok(String::new()))?;
        line.parse()
            .map_err(|_| io::Error::other(format!("no time: {line}")))
    }

    fn stop(self) -> io::Result<()> {
        let Self {
            mut child, asked, ..
        } = self;
        drop(asked);
        child.wait().map(drop)
    }
}

/// How long the turns of one call take together: more programs share it than in a report.
const ALL_TURNS: Duration = Duration::from_millis(2400);

/// A table of what each call takes. The first half of the programs have one archive, the second half another, each at as
/// many places in memory: a time is the mean of the best turns of each, with the shortest and the longest.
pub fn compare(effort: Effort, programs: &[String]) -> io::Result<String> {
    let started = programs.iter().map(|program| Build::start(program));
    let mut builds: Vec<Build> = started.collect::<io::Result<_>>()?;
    let Some(names) = builds.first().map(|build| build.names.clone()) else {
        return Err(io::Error::other("no program"));
    };
    if programs.len() % 2 != 0 || builds.iter().any(|build| build.names != names) {
        return Err(io::Error::other("not the same calls of two archives"));
    }
    let mut text = String::from("| call | before | after | after / before |\n|---|---|---|---|\n");
    for (place, name) in names.iter().enumerate() {
        let best = in_turns(effort, &mut builds, place)?;
        let (before, after) = best.split_at(best.len() / 2);
        let ratio = mean(after) / mean(before);
        _ = writeln!(
            text,
            "| {name} | {} | {} | {ratio:.2} |",
            span(before),
            span(after)
        );
    }
    let stopped = builds.into_iter().map(Build::stop);
    stopped.collect::<io::Result<()>>()?;
    Ok(text)
}

fn mean(times: &[f64]) -> f64 {
    times.iter().sum::<f64>() / times.len() as f64
}

/// The mean, the shortest and the longest.
fn span(times: &[f64]) -> String {
    let least = times.iter().copied().fold(f64::INFINITY, f64::min);
    let most = times.iter().copied().fold(0.0, f64::max);
    format!(
        "{} ({} to {})",
        duration(mean(times)),
        duration(least),
        duration(most)
    )
}

/// The best turn of each build; each is the first of a round in its turn.
fn in_turns(effort: Effort, builds: &mut [Build], place: usize) -> io::Result<Vec<f64>> {
    let mut times = 1;
    let mut took = builds[0].time(place, times)?;
    while took < effort.turn.as_nanos() as f64 {
        times *= 2;
        took = builds[0].time(place, times)?;
    }
    let count = builds.len();
    let fit = ALL_TURNS.as_nanos() as f64 / (count as f64 * took);
    let (most, least) = effort.turns;
    let mut best = vec![f64::INFINITY; count];
    for round in 0..(fit as usize).clamp(least, most) {
        for turn in 0..count {
            let build = (round + turn) % count;
            let turn = builds[build].time(place, times)? / times as f64;
            best[build] = best[build].min(turn);
        }
    }
    Ok(best)
}

#[cfg(test)]
mod tests {
    use super::*;

    /// Every call can be asked for, and what is said is a time.
    #[test]
    fn each_call_is_served() {
        let count = calls(Effort::LEAST).len();
        let asked: String = (0..count).map(|place| format!("{place} 1\n")).collect();
        let mut said = Vec::new();
        serve(Effort::LEAST, asked.as_bytes(), &mut said).expect("served");
        let said = String::from_utf8(said).expect("text");
        let (names, times) = said.split_once("\n\n").expect("names and times");
        assert_eq!(names.lines().count(), count);
        assert_eq!(
            times
                .lines()
                .filter_map(|time| time.parse::<u64>().ok())
                .count(),
            count
        );
    }

    #[test]
    fn what_is_no_request_ends_it() {
        for asked in ["0\n", "0 1 2\n", "x 1\n", "1000 1\n"] {
            assert!(serve(Effort::LEAST, asked.as_bytes(), io::sink()).is_err());
        }
        assert!(serve(Effort::LEAST, "0 1\n".as_bytes(), io::sink()).is_ok());
    }
}
