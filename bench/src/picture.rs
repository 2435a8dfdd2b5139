//! What was measured as a picture in SVG: a bar for each contender, on a logarithmic axis of nanoseconds a call.

use crate::measure::{Measured, PLAIN, RUST};
use crate::table::NEEDED;

// Places and lengths in the picture's own units.
const WIDTH: f64 = 900.0;
const BARS_FROM: f64 = 190.0;
const BARS_TO: f64 = 830.0;
const TOP: f64 = 74.0;
const LIST_HEIGHT: f64 = 30.0;
const ROW_HEIGHT: f64 = 24.0;
const BAR_HEIGHT: f64 = 16.0;
const BOTTOM: f64 = 48.0;

const TEXT: &str = "#1f2328";
const FAINT: &str = "#d0d7de";
const RUST_BAR: &str = "#b7692f";
const OUR_BAR: &str = "#3f74b5";
const LIMIT: &str = "#c4314b";

/// The nanoseconds that each call has if there are as many as the machine needs.
const LIMIT_NS: f64 = 1e9 / NEEDED;

/// The decades that the axis goes over, as powers of ten nanoseconds.
struct Axis {
    first: f64,
    last: f64,
}

impl Axis {
    fn of(measured: &[Measured]) -> Axis {
        let powers = || measured.iter().map(|one| one.median).chain([LIMIT_NS]).map(f64::log10);
        let first = powers().fold(f64::INFINITY, f64::min).floor();
        // Room behind the longest bar for its number.
        let last = (powers().fold(f64::NEG_INFINITY, f64::max) + 0.25).ceil();
        Axis { first, last }
    }

    fn place(&self, nanos: f64) -> f64 {
        BARS_FROM + (nanos.log10() - self.first) / (self.last - self.first) * (BARS_TO - BARS_FROM)
    }
}

pub fn svg(measured: &[Measured], about: &str) -> String {
    let axis = Axis::of(measured);
    let (mut bars, mut labels) = (String::new(), String::new());
    let mut below = TOP;
    let mut list = "";
    for one in measured {
        if one.list != list {
            list = &one.list;
            below += LIST_HEIGHT;
            labels += &text(20.0, below - 9.0, "start", TEXT, &format!("<tspan font-weight=\"bold\">{list}</tspan>"));
        }
        bars += &bar(one, &axis, below);
        labels += &label(one, &axis, below);
        below += ROW_HEIGHT;
    }
    // What comes later lies above: the limit crosses the bars, and every label is readable.
    format!(
        "<svg xmlns=\"http://www.w3.org/2000/svg\" viewBox=\"0 0 {WIDTH} {height}\" \
         width=\"{WIDTH}\" height=\"{height}\" font-family=\"sans-serif\" font-size=\"13\" role=\"img\">\n\
         <title>Nanoseconds a call</title>\n\
         <rect width=\"{WIDTH}\" height=\"{height}\" fill=\"#ffffff\"/>\n{title}{decades}{bars}{limit}{labels}</svg>\n",
        height = below + BOTTOM,
        title = title(&about.replace('&', "&amp;").replace('<', "&lt;")),
        decades = decades(&axis, below),
        limit = limit(&axis, below),
    )
}

fn title(about: &str) -> String {
    let head = "<tspan font-size=\"16\" font-weight=\"bold\">Time of a call: the median, on a logarithmic axis</tspan>";
    text(20.0, 28.0, "start", TEXT, head) + &text(20.0, 48.0, "start", TEXT, about)
}

/// A line for every power of ten, with its time below.
fn decades(axis: &Axis, below: f64) -> String {
    let decade = |power: i32| {
        let nanos = 10f64.powi(power);
        let x = axis.place(nanos);
        line(x, below, FAINT, "") + &text(x, below + 20.0, "middle", TEXT, &time(nanos))
    };
    (axis.first as i32..=axis.last as i32).map(decade).collect()
}

/// The time that 128,000 calls a second leave for one.
fn limit(axis: &Axis, below: f64) -> String {
    let x = axis.place(LIMIT_NS);
    let label = format!("{}: 64 cores that report every 500 µs", time(LIMIT_NS));
    line(x, below, LIMIT, " stroke-dasharray=\"5 3\" stroke-width=\"1.5\"")
        + &text(x, below + 38.0, "middle", LIMIT, &label)
}

fn bar(one: &Measured, axis: &Axis, top: f64) -> String {
    let width = (axis.place(one.median) - BARS_FROM).max(1.0);
    let colour = if [RUST, PLAIN].contains(&one.name) { RUST_BAR } else { OUR_BAR };
    let size = format!("width=\"{width:.1}\" height=\"{BAR_HEIGHT}\"");
    format!("<rect x=\"{BARS_FROM}\" y=\"{top:.1}\" {size} fill=\"{colour}\"/>\n")
}

/// A contender's name before its bar, and its time behind it.
fn label(one: &Measured, axis: &Axis, top: f64) -> String {
    let baseline = top + BAR_HEIGHT - 3.5;
    let name = text(BARS_FROM - 8.0, baseline, "end", TEXT, one.name);
    name + &on_white(axis.place(one.median) + 6.0, baseline, &time(one.median))
}

fn text(x: f64, y: f64, anchor: &str, colour: &str, what: &str) -> String {
    format!("<text x=\"{x:.1}\" y=\"{y:.1}\" text-anchor=\"{anchor}\" fill=\"{colour}\">{what}</text>\n")
}

/// Text with a white edge, which stays readable where it stands on a line.
fn on_white(x: f64, y: f64, what: &str) -> String {
    let edge = "stroke=\"#ffffff\" stroke-width=\"4\" paint-order=\"stroke\"";
    format!("<text x=\"{x:.1}\" y=\"{y:.1}\" fill=\"{TEXT}\" {edge}>{what}</text>\n")
}

fn line(x: f64, below: f64, colour: &str, more: &str) -> String {
    format!("<line x1=\"{x:.1}\" y1=\"{TOP}\" x2=\"{x:.1}\" y2=\"{below:.1}\" stroke=\"{colour}\"{more}/>\n")
}

/// A time with the unit that it is read best in, and three digits at most.
fn time(nanos: f64) -> String {
    let (number, unit) = if nanos < 999.5 { (nanos, "ns") } else { (nanos / 1e3, "µs") };
    let places = if number.fract() < 1e-9 || number >= 99.5 { 0 } else { 1 };
    format!("{number:.places$} {unit}")
}
