//! The report: tables of every row, plots, what a small question costs, and where the boundary is behind the Rust.

use std::fmt::Write;
use std::fs;
use std::io;
use std::path::Path;

use crate::growth::{self, Growth};
use crate::measure::{Effort, Row, Times};
use crate::plot::{duration, svg};
use crate::small::{self, Cost};
use crate::{classes, descriptors, hostile, layered, processor, solves, types};

/// A part: its name on the command line, its title, its rows, and a word on what stands behind the figures.
struct Part {
    name: &'static str,
    title: &'static str,
    rows: fn(Effort) -> Vec<Row>,
    why: &'static str,
}

const PARTS: [Part; 5] = [
    Part {
        name: "descriptors",
        title: "Descriptors",
        rows: descriptors::rows,
        why: "A write through the boundary checks all names that it is lent; the wrapper lends those that the words \
              use. A reader or writer of the wrapper that gives a `Vec` or a `String` asks for memory, as the Rust does.",
    },
    Part {
        name: "classes",
        title: "Class tables",
        rows: classes::rows,
        why: "A call keeps nothing, so each one checks its table and builds it anew, while the Rust keeps its index and \
              its distances between calls. Whoever asks much of one table asks the ancestors of each class once \
              (`Relations`). Of all pairs, the Rust is asked twenty rows, and its time scaled up to all.",
    },
    Part {
        name: "types",
        title: "Joins and assignability",
        rows: types::rows,
        why: "As with class tables; of two primitives nothing but the table is left to pay for.",
    },
    Part {
        name: "solves",
        title: "Solves",
        rows: solves::rows,
        why: "Problems as the variables of a method give them; the largest is near all limits. The Rust has its \
              constraints in its own form before the clock starts, as the wrapper has; the boundary has its columns. \
              Ours gives the final bounds and the turns too.\n\n\
              What stands between these ratios and a much higher one: a turn sends all that it has again, as the Rust's \
              does, and each thing sent is looked for by halving among all bounds; a new one moves those behind it, up to \
              32 KB; joins of classes that are not above each other still walk, parent by parent, as far as both sides \
              meet; what each class reaches is worked out anew in each call. In a profile of like problems, joins of classes \
              take a quarter to a third of the time, and sending bounds, looking for them and moving others a fifth to a \
              third.",
    },
    Part {
        name: "layered",
        title: "Tables of several layers",
        rows: layered::rows,
        why: "The classes of the rows before, in layers of equal size; each but the lowest records an eighth of the classes \
              below it again. The Rust has an index for each layer and looks through them from the topmost down; a call of \
              the boundary builds the one table that the layers show together, and asks that. What the topmost layer costs \
              over those below, which are there: the wrapper checks its records and all names, and gives all classes \
              their numbers anew.",
    },
];

/// A list of costs of the boundary alone.
struct Bill {
    name: &'static str,
    title: &'static str,
    costs: fn(Effort) -> Vec<Cost>,
    why: &'static str,
}

const BILLS: [Bill; 3] = [
    Bill {
        name: "shares",
        title: "What a solve pays for",
        costs: solves::shares,
        why: "A problem that is refused at its last row pays for the check of the table and of all rows, and for the \
              clearing of the slices. Without links, each component takes one turn and is answered from what it was given.",
    },
    Bill {
        name: "hostile",
        title: "Problems made to take long",
        costs: hostile::costs,
        why: "One call each. The Rust takes minutes to hours for some of them, and is not asked.",
    },
    Bill {
        name: "small",
        title: "What a small question costs",
        costs: small::costs,
        why: "Every query must leave its working slice of 64 KB zero, whatever it was asked: the last row is what that \
              alone costs, and no call can cost less.",
    },
];

/// The tables alone, or that of one part.
pub fn tables(effort: Effort, part: Option<&str>) -> String {
    let mut text = String::new();
    for Part {
        name, title, rows, ..
    } in PARTS
    {
        if part.map_or(true, |part| part == name) {
            text += &format!("## {title}\n\n{}\n", table(&rows(effort)));
        }
    }
    if part == Some("solve-growths") {
        for growth in solves::growths(effort) {
            text += &format!("## {}\n\n{}\n", growth.title, growth_table(&growth));
        }
    }
    for Bill {
        name, title, costs, ..
    } in BILLS
    {
        if part.map_or(true, |part| part == name) {
            text += &format!("## {title}\n\n{}\n", cost_table(&costs(effort)));
        }
    }
    text
}

/// Writes PERFORMANCE.md into a folder, and its plots into `performance` there.
pub fn write(effort: Effort, folder: &Path) -> io::Result<()> {
    let before = processor::load();
    let growths = growth::all(effort);
    fs::create_dir_all(folder.join("performance"))?;
    for growth in &growths {
        let file = folder.join("performance").join(growth.name);
        fs::write(file.with_extension("svg"), svg(growth))?;
    }
    let parts = PARTS.map(|part| (part.title, (part.rows)(effort), part.why));
    let bills = BILLS.map(|bill| (bill.title, (bill.costs)(effort), bill.why));
    let loads = before.zip(processor::load());
    let text = text(&parts, &growths, &bills, &beside(loads));
    fs::write(folder.join("PERFORMANCE.md"), text)
}

/// A part that was measured: its title, its rows, the word on them.
type Measured = (&'static str, Vec<Row>, &'static str);

/// The same of a list of costs.
type Billed = (&'static str, Vec<Cost>, &'static str);

/// Load and processors, before and after: what ran beside this, which alone takes one processor.
fn beside(loads: Option<((f64, usize), (f64, usize))>) -> String {
    match loads {
        Some(((before, _), (after, processors))) if before.max(after) > 1.5 => format!(
            "\nOther work ran beside it: the load of the machine's {processors} processors was {before:.1} at the start and \
             {after:.1} at the end. A best turn is one that was let alone; a middle one may not be, and threads share what is left.\n"
        ),
        _ => String::new(),
    }
}

fn text(parts: &[Measured], growths: &[Growth], bills: &[Billed], beside: &str) -> String {
    let mut text = format!(
        "# Performance\n\n\
         Written by `cargo run --release -p bench -- report` in `host/`, on {}.\n",
        processor::name()
    );
    if let Some(reason) = processor::unfit() {
        text += &format!("\n**These figures say nothing: {reason}.**\n");
    }
    if let Some(another) = processor::another() {
        text += &format!("\n{another}\n");
    }
    text += beside;
    text += "\nEach row is timed in turns in one run: the Rust of docs/src, the boundary over slices, the Rust wrapper. A \
             time is that of the best turn, with the middle one and the one that nine in ten stay below; a ratio is the \
             Rust's best time divided by ours, so above 1 is faster than the Rust. Where the linker puts a loop can move \
             a row by half.\n";
    for (title, rows, why) in parts {
        text += &format!("\n## {title}\n\n{}\n{why}\n", table(rows));
    }
    text += "\n## As work grows\n";
    for growth in growths {
        text += &format!("\n![{0}](performance/{1}.svg)\n", growth.title, growth.name);
        text += &format!("\n{}", growth_table(growth));
    }
    for (title, costs, why) in bills {
        text += &format!("\n## {title}\n\n{}\n{why}\n", cost_table(costs));
    }
    text + &behind(parts)
}

/// The rows in which the boundary or the wrapper needs more time than the Rust.
fn behind(parts: &[Measured]) -> String {
    let mut text = String::from("\n## Where the Rust is faster\n\n");
    let rows = parts.iter().flat_map(|(_, rows, _)| rows);
    let slower = rows.filter(|row| row.ratios().iter().any(|ratio| *ratio < 1.0));
    let mut none = true;
    for row in slower {
        let [boundary, wrapper] = row.ratios().map(ratio);
        _ = writeln!(
            text,
            "- {}: boundary {boundary}, wrapper {wrapper}",
            row.what
        );
        none = false;
    }
    if none {
        text += "Nowhere.\n";
    }
    text
}

fn table(rows: &[Row]) -> String {
    let mut text = String::from(
        "| what | Rust | boundary | Rust / boundary | wrapper | Rust / wrapper |\n|---|---|---|---|---|---|\n",
    );
    for row in rows {
        let [over_boundary, over_wrapper] = row.ratios().map(ratio);
        _ = writeln!(
            text,
            "| {} | {} | {} | {over_boundary} | {} | {over_wrapper} |",
            row.what,
            spread(row.rust),
            spread(row.boundary),
            spread(row.wrapper)
        );
    }
    text
}

/// The best times of each series, a row a size.
fn growth_table(growth: &Growth) -> String {
    let labels = growth.series.iter().map(|series| series.label);
    let labels: Vec<&str> = [growth.unit].into_iter().chain(labels).collect();
    let mut text = format!(
        "| {} |\n|{}\n",
        labels.join(" | "),
        "---|".repeat(labels.len())
    );
    let sizes = growth
        .series
        .first()
        .map_or(0, |series| series.points.len());
    for place in 0..sizes {
        let (size, _) = growth.series[0].points[place];
        let times = growth.series.iter().map(|series| series.points[place].1);
        let times: Vec<String> = times.map(|times| duration(times.best)).collect();
        _ = writeln!(text, "| {size} | {} |", times.join(" | "));
    }
    text
}

fn cost_table(costs: &[Cost]) -> String {
    let mut text = String::from("| what | time |\n|---|---|\n");
    for (what, times) in costs {
        _ = writeln!(text, "| {what} | {} |", spread(*times));
    }
    text
}

/// One time where all turns took the same, or there was one.
fn spread(times: Times) -> String {
    if times.best == times.most {
        return duration(times.best);
    }
    let [best, middle, most] = [times.best, times.middle, times.most].map(duration);
    format!("{best} ({middle}, {most})")
}

/// With a digit that says something.
fn ratio(ratio: f64) -> String {
    let digits = match ratio {
        ratio if ratio < 0.001 => 5,
        ratio if ratio < 0.1 => 3,
        _ => 1,
    };
    format!("{ratio:.digits$}")
}

#[cfg(test)]
mod tests {
    use super::*;
    use crate::growth::Series;

    fn times(best: f64) -> Times {
        Times {
            best,
            middle: best * 1.5,
            most: best * 2.0,
        }
    }

    fn row(what: &str, rust: f64, boundary: f64) -> Row {
        Row {
            what: what.to_string(),
            rust: times(rust),
            boundary: times(boundary),
            wrapper: times(boundary),
        }
    }

    #[test]
    fn what_is_written() {
        let parts = [(
            "Part",
            vec![row("fast", 40.0, 10.0), row("slow", 1.0, 5000.0)],
            "Why.",
        )];
        let growth = Growth {
            name: "size",
            title: "As it grows",
            unit: "things",
            series: vec![Series {
                label: "one",
                points: vec![(10.0, times(5.0)), (1000.0, times(50_000.0))],
            }],
        };
        let plot = svg(&growth);
        assert!(plot.starts_with("<svg ") && plot.ends_with("</svg>\n"));
        for tag in ["text", "polyline", "circle", "line", "rect"] {
            assert!(plot.contains(&format!("<{tag} ")), "{tag}");
        }
        assert_eq!(plot.matches("<circle").count(), 2);
        assert!(!plot.contains("NaN") && !plot.contains("inf"));
        let costs = vec![("nothing".to_string(), times(3.0))];
        let text = text(
            &parts,
            &[growth],
            &[("Bill", costs, "Because.")],
            "Beside.\n",
        );
        assert!(text.contains("Beside.\n"));
        assert!(text.contains("| fast | 40 ns (60 ns, 80 ns) | 10 ns (15 ns, 20 ns) | 4.0 |"));
        assert!(text.contains("![As it grows](performance/size.svg)"));
        assert!(text.contains("| things | one |\n|---|---|\n| 10 | 5.0 ns |\n| 1000 | 50 us |"));
        assert!(text.contains("- slow: boundary 0.00020, wrapper 0.00020"));
        assert!(!text.contains("- fast"));
    }

    #[test]
    fn other_work_is_told() {
        assert_eq!(beside(None), "");
        assert_eq!(beside(Some(((0.2, 2), (1.1, 2)))), "");
        let told = beside(Some(((0.2, 2), (4.25, 2))));
        assert!(told.contains("was 0.2 at the start and 4.2 at the end"));
    }

    /// The whole of it, with next to no effort.
    #[test]
    fn a_report_in_a_folder() {
        let folder = std::env::temp_dir().join(format!("bracepuffin-{}", std::process::id()));
        write(Effort::LEAST, &folder).expect("a folder that can be written");
        let text = fs::read_to_string(folder.join("PERFORMANCE.md")).expect("the report");
        assert!(text.contains("24 names, all pairs"));
        assert!(text.contains("24 names, 20 components,"));
        assert!(text.contains("24 names in 4 layers, relation |"));
        assert!(text.contains("that read themselves"));
        for name in [
            "names",
            "pairs",
            "layers",
            "threads",
            "components",
            "bounds",
            "solve-names",
        ] {
            let plot = folder.join("performance").join(name).with_extension("svg");
            assert!(fs::read_to_string(plot)
                .expect("a plot")
                .contains("<polyline"));
        }
        fs::remove_dir_all(&folder).expect("what was written");
    }
}
