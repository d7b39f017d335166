//! The growth as a picture: one panel a call, the proved call in a full line with dots, the second program in a broken one with squares.
use crate::growth::{Growth, Point};
use std::fmt::Write;

const PANEL: f64 = 340.0;
const WIDTH: f64 = 250.0;
const HEIGHT: f64 = 220.0;
const LEFT: f64 = 62.0;
const TOP: f64 = 64.0;
/// Marks on an axis, beside 0.
const MARKS: usize = 4;

/// One panel's axes: places of the picture for values.
struct Axes {
    left: f64,
    right_value: f64,
    top_value: f64,
}

impl Axes {
    fn x(&self, value: f64) -> f64 {
        self.left + WIDTH * value / self.right_value
    }

    fn y(&self, value: f64) -> f64 {
        TOP + HEIGHT - HEIGHT * value / self.top_value
    }
}

/// The least of a few round numbers that is the value or more: a quarter of it has few digits.
fn round_up(value: f64) -> f64 {
    let ten = 10f64.powf(value.log10().floor());
    [1.0, 1.2, 1.6, 2.0, 3.0, 4.0, 5.0, 6.0, 8.0, 10.0].into_iter().map(|times| times * ten).find(|&round| value <= round).unwrap_or(value)
}

pub fn svg(all: &[Growth]) -> String {
    let (width, height) = (PANEL * all.len() as f64, TOP + HEIGHT + 62.0);
    let mut svg = format!(
        "<svg xmlns=\"http://www.w3.org/2000/svg\" width=\"{width}\" height=\"{height}\" viewBox=\"0 0 {width} {height}\" \
         font-family=\"sans-serif\" font-size=\"12\">\n<rect width=\"{width}\" height=\"{height}\" fill=\"white\"/>\n"
    );
    for (i, growth) in all.iter().enumerate() {
        panel(&mut svg, growth, PANEL * i as f64 + LEFT);
    }
    svg.push_str("</svg>\n");
    svg
}

fn panel(svg: &mut String, growth: &Growth, left: f64) {
    let most = growth.points.iter().flat_map(|point| [point.contest.proved(), point.contest.second()]).fold(0.0, f64::max);
    let right_value = growth.points.last().map_or(1, |point| point.at) as f64;
    let axes = Axes { left, right_value, top_value: round_up(most) };
    text(svg, left + WIDTH / 2.0, 18.0, "middle", growth.name);
    text(svg, left - 6.0, TOP - 12.0, "end", "µs");
    text(svg, left + WIDTH / 2.0, TOP + HEIGHT + 38.0, "middle", growth.over);
    frame(svg, &axes);
    line(
        svg,
        &axes,
        &growth.points,
        |point| point.contest.proved(),
        "",
        |svg, x, y| {
            let _ = writeln!(svg, "<circle cx=\"{x:.1}\" cy=\"{y:.1}\" r=\"3\"/>");
        },
    );
    line(
        svg,
        &axes,
        &growth.points,
        |point| point.contest.second(),
        " stroke-dasharray=\"5 4\"",
        |svg, x, y| {
            let (x, y) = (x - 3.0, y - 3.0);
            let _ = writeln!(svg, "<rect x=\"{x:.1}\" y=\"{y:.1}\" width=\"6\" height=\"6\" fill=\"white\" stroke=\"black\"/>");
        },
    );
    legend(svg, left);
}

fn text(svg: &mut String, x: f64, y: f64, anchor: &str, words: &str) {
    let _ = writeln!(svg, "<text x=\"{x:.1}\" y=\"{y:.1}\" text-anchor=\"{anchor}\">{words}</text>");
}

fn frame(svg: &mut String, axes: &Axes) {
    let (left, bottom) = (axes.left, TOP + HEIGHT);
    let _ = writeln!(svg, "<path d=\"M{left} {TOP}V{bottom}h{WIDTH}\" fill=\"none\" stroke=\"black\"/>");
    for mark in 0..=MARKS {
        let part = mark as f64 / MARKS as f64;
        let (x, y) = (axes.x(part * axes.right_value), axes.y(part * axes.top_value));
        let _ = writeln!(svg, "<path d=\"M{left} {y:.1}h{WIDTH}\" stroke=\"#ccc\"/><path d=\"M{x:.1} {bottom}v4\" stroke=\"black\"/>");
        text(svg, left - 6.0, y + 4.0, "end", &format!("{}", part * axes.top_value));
        text(svg, x, bottom + 18.0, "middle", &format!("{}", part * axes.right_value));
    }
}

fn line(svg: &mut String, axes: &Axes, points: &[Point], of: fn(&Point) -> f64, dashes: &str, dot: fn(&mut String, f64, f64)) {
    let places: Vec<(f64, f64)> = points.iter().map(|point| (axes.x(point.at as f64), axes.y(of(point)))).collect();
    let path: Vec<String> = places.iter().map(|(x, y)| format!("{x:.1},{y:.1}")).collect();
    let _ = writeln!(svg, "<polyline points=\"{}\" fill=\"none\" stroke=\"black\"{dashes}/>", path.join(" "));
    places.iter().for_each(|&(x, y)| dot(svg, x, y));
}

fn legend(svg: &mut String, left: f64) {
    let y = 42.0;
    let _ = writeln!(svg, "<path d=\"M{left} {y}h30\" stroke=\"black\"/><circle cx=\"{}\" cy=\"{y}\" r=\"3\"/>", left + 15.0);
    text(svg, left + 36.0, y + 4.0, "start", "proved");
    let second = left + 110.0;
    let _ = writeln!(
        svg,
        "<path d=\"M{second} {y}h30\" stroke=\"black\" stroke-dasharray=\"5 4\"/><rect x=\"{}\" y=\"{}\" width=\"6\" height=\"6\" fill=\"white\" stroke=\"black\"/>",
        second + 12.0,
        y - 3.0
    );
    text(svg, second + 36.0, y + 4.0, "start", "second program");
}
