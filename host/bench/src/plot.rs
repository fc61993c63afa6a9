//! Plots of growth as SVG: both axes logarithmic, a line for each series, and at each point how far the turns spread.

use std::fmt::Write;

use crate::growth::Growth;

const WIDTH: f64 = 720.0;
const HEIGHT: f64 = 400.0;
const LEFT: f64 = 70.0;
const RIGHT: f64 = 200.0;
const TOP: f64 = 40.0;
const BOTTOM: f64 = 50.0;
const COLOURS: [&str; 4] = ["#1b6ca8", "#c0392b", "#2e8b57", "#8e44ad"];

/// A range of an axis, and where it is drawn.
struct Axis {
    low: f64,
    high: f64,
    from: f64,
    to: f64,
}

impl Axis {
    fn over(values: impl Iterator<Item = f64>, from: f64, to: f64) -> Self {
        let (low, high) = values.fold((f64::MAX, 1.0), |(low, high): (f64, f64), value| {
            let value = value.max(1.0);
            (low.min(value), high.max(value))
        });
        let high = high.max(low * 1.1);
        Self {
            low,
            high,
            from,
            to,
        }
    }

    fn place(&self, value: f64) -> f64 {
        let part = (value.max(1.0) / self.low).ln() / (self.high / self.low).ln();
        self.from + part * (self.to - self.from)
    }

    /// 1, 2 and 5 times the powers of ten that lie in the range.
    fn ticks(&self) -> Vec<f64> {
        let powers = (0..12).map(|power| 10_f64.powi(power));
        let ticks = powers.flat_map(|power| [power, 2.0 * power, 5.0 * power]);
        ticks
            .filter(|tick| (self.low..=self.high).contains(tick))
            .collect()
    }
}

/// Nanoseconds with a unit that keeps them short.
pub fn duration(nanoseconds: f64) -> String {
    match nanoseconds {
        ns if ns < 10.0 => format!("{ns:.1} ns"),
        ns if ns < 1e3 => format!("{ns:.0} ns"),
        ns if ns < 1e4 => format!("{:.1} us", ns / 1e3),
        ns if ns < 1e6 => format!("{:.0} us", ns / 1e3),
        ns if ns < 1e7 => format!("{:.1} ms", ns / 1e6),
        ns => format!("{:.0} ms", ns / 1e6),
    }
}

pub fn svg(growth: &Growth) -> String {
    let points = || growth.series.iter().flat_map(|series| &series.points);
    let across = Axis::over(points().map(|(size, _)| *size), LEFT, WIDTH - RIGHT);
    let spread = points().flat_map(|(_, times)| [times.best, times.most]);
    let up = Axis::over(spread, HEIGHT - BOTTOM, TOP);
    let mut text = format!(
        "<svg xmlns=\"http://www.w3.org/2000/svg\" viewBox=\"0 0 {WIDTH} {HEIGHT}\" \
         font-family=\"sans-serif\" font-size=\"12\">\n\
         <rect width=\"{WIDTH}\" height=\"{HEIGHT}\" fill=\"white\"/>\n\
         <text x=\"{LEFT}\" y=\"22\" font-size=\"14\">{}</text>\n",
        growth.title
    );
    axes(&mut text, &across, &up, growth.unit);
    for (which, series) in growth.series.iter().enumerate() {
        let colour = COLOURS[which % COLOURS.len()];
        let mut line = String::new();
        for (size, times) in &series.points {
            let (x, y) = (across.place(*size), up.place(times.middle));
            let (low, high) = (up.place(times.best), up.place(times.most));
            _ = write!(line, "{x:.1},{y:.1} ");
            _ = writeln!(
                text,
                "<line x1=\"{x:.1}\" x2=\"{x:.1}\" y1=\"{low:.1}\" y2=\"{high:.1}\" stroke=\"{colour}\"/>\
                 <circle cx=\"{x:.1}\" cy=\"{y:.1}\" r=\"3\" fill=\"{colour}\"/>"
            );
        }
        let (x, y) = (WIDTH - RIGHT + 15.0, TOP + 20.0 * which as f64 + 10.0);
        _ = writeln!(
            text,
            "<polyline points=\"{}\" fill=\"none\" stroke=\"{colour}\" stroke-width=\"1.5\"/>\
             <text x=\"{x}\" y=\"{y}\" fill=\"{colour}\">{}</text>",
            line.trim_end(),
            series.label
        );
    }
    text + "</svg>\n"
}

fn axes(text: &mut String, across: &Axis, up: &Axis, unit: &str) {
    let (bottom, right) = (HEIGHT - BOTTOM, WIDTH - RIGHT);
    for tick in across.ticks() {
        let x = across.place(tick);
        _ = writeln!(
            text,
            "<line x1=\"{x:.1}\" x2=\"{x:.1}\" y1=\"{TOP}\" y2=\"{bottom}\" stroke=\"#ddd\"/>\
             <text x=\"{x:.1}\" y=\"{}\" text-anchor=\"middle\">{tick}</text>",
            bottom + 16.0
        );
    }
    for tick in up.ticks() {
        let y = up.place(tick);
        _ = writeln!(
            text,
            "<line x1=\"{LEFT}\" x2=\"{right}\" y1=\"{y:.1}\" y2=\"{y:.1}\" stroke=\"#ddd\"/>\
             <text x=\"{}\" y=\"{:.1}\" text-anchor=\"end\">{}</text>",
            LEFT - 6.0,
            y + 4.0,
            duration(tick)
        );
    }
    _ = writeln!(
        text,
        "<text x=\"{:.1}\" y=\"{}\" text-anchor=\"middle\">{unit}</text>",
        (LEFT + right) / 2.0,
        bottom + 36.0
    );
}
