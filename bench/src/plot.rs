//! A plot as SVG: curves told apart by their marks and dashes and not by colour, on a ground of its own in light and in dark.

use std::fmt::Write;

pub struct Plot<'a> {
    pub title: &'a str,
    /// What the axes count.
    pub across: &'a str,
    pub up: &'a str,
    pub curves: Vec<Curve>,
}

pub struct Curve {
    pub name: String,
    pub points: Vec<(f64, f64)>,
    /// Marks of plain Rust are hollow, and its lines dashed.
    pub is_hollow: bool,
}

const LEFT: f64 = 70.0;
const TOP: f64 = 40.0;
const WIDTH: f64 = 560.0;
const HEIGHT: f64 = 300.0;
/// Between the axis and the first line of the key, and between two of these.
const KEY: f64 = 62.0;
const LINE: f64 = 18.0;

const STYLE: &str = "
text { font: 13px sans-serif; fill: #1b1b1b } .ground { fill: #ffffff } .grid { stroke: #d5d5d5 } .axis { stroke: #1b1b1b }
.curve { fill: none; stroke: #1b1b1b; stroke-width: 1.5 } .dashed { stroke-dasharray: 5 4 } .mark { stroke: #1b1b1b; fill: #1b1b1b } .hollow { fill: #ffffff }
@media (prefers-color-scheme: dark) {
text { fill: #e8e8e8 } .ground { fill: #16181c } .grid { stroke: #3a3d42 } .axis { stroke: #e8e8e8 }
.curve { stroke: #e8e8e8 } .mark { stroke: #e8e8e8; fill: #e8e8e8 } .hollow { fill: #16181c } }
";

/// Where a plot puts a point.
struct Scale {
    most: (f64, f64),
}

impl Scale {
    fn x(&self, value: f64) -> f64 {
        LEFT + WIDTH * value / self.most.0
    }

    fn y(&self, value: f64) -> f64 {
        TOP + HEIGHT * (1.0 - value / self.most.1)
    }
}

pub fn svg(plot: &Plot) -> String {
    let points = || plot.curves.iter().flat_map(|curve| &curve.points);
    let (across, up) = (
        step(points().map(|point| point.0).fold(0.0, f64::max)),
        step(points().map(|point| point.1).fold(0.0, f64::max)),
    );
    let scale = Scale {
        most: (
            across * steps(points().map(|p| p.0), across),
            up * steps(points().map(|p| p.1), up),
        ),
    };
    let height = TOP + HEIGHT + KEY + LINE * plot.curves.len() as f64;
    let mut out = String::new();
    head(&mut out, plot, height);
    grid(&mut out, &scale, across, up);
    for (place, curve) in plot.curves.iter().enumerate() {
        draw(&mut out, &scale, curve, place / 2);
        key(&mut out, curve, place);
    }
    out.push_str("</svg>\n");
    out
}

/// A step of 1, 2 or 5 and zeros, of which at most six reach so far.
fn step(most: f64) -> f64 {
    let ten = 10_f64.powf((most / 6.0).log10().floor());
    let found = [1.0, 2.0, 5.0, 10.0].into_iter().map(|part| part * ten);
    found.into_iter().find(|step| step * 6.0 >= most).unwrap_or(10.0 * ten)
}

fn steps(values: impl Iterator<Item = f64>, step: f64) -> f64 {
    (values.fold(0.0, f64::max) / step).ceil().max(1.0)
}

fn head(out: &mut String, plot: &Plot, height: f64) {
    let (width, middle, bottom) = (LEFT + WIDTH + 30.0, LEFT + WIDTH / 2.0, TOP + HEIGHT);
    let (title, across, up) = (plot.title, plot.across, plot.up);
    add(out, format!("<svg xmlns=\"http://www.w3.org/2000/svg\" viewBox=\"0 0 {width} {height}\" width=\"{width}\" height=\"{height}\" role=\"img\">"));
    add(out, format!("<title>{title}: {up} by {across}</title>\n<style>{STYLE}</style>"));
    add(out, format!("<rect class=\"ground\" width=\"{width}\" height=\"{height}\"/>"));
    add(out, format!("<text x=\"{middle}\" y=\"22\" text-anchor=\"middle\">{title}</text>"));
    let below = bottom + 38.0;
    add(out, format!("<text x=\"{middle}\" y=\"{below}\" text-anchor=\"middle\">{across}</text>"));
    let beside = TOP + HEIGHT / 2.0;
    add(out, format!("<text x=\"16\" y=\"{beside}\" text-anchor=\"middle\" transform=\"rotate(-90 16 {beside})\">{up}</text>"));
}

fn grid(out: &mut String, scale: &Scale, across: f64, up: f64) {
    let (bottom, right) = (TOP + HEIGHT, LEFT + WIDTH);
    for value in multiples(up, scale.most.1) {
        let (y, below) = (scale.y(value), scale.y(value) + 4.0);
        add(out, format!("<path class=\"grid\" d=\"M{LEFT} {y:.1}H{right}\"/>"));
        let left = LEFT - 8.0;
        add(
            out,
            format!(
                "<text x=\"{left}\" y=\"{below:.1}\" text-anchor=\"end\">{}</text>",
                number(value)
            ),
        );
    }
    for value in multiples(across, scale.most.0) {
        let (x, below, mark) = (scale.x(value), bottom + 18.0, bottom + 5.0);
        add(out, format!("<path class=\"axis\" d=\"M{x:.1} {bottom}V{mark}\"/>"));
        add(
            out,
            format!(
                "<text x=\"{x:.1}\" y=\"{below}\" text-anchor=\"middle\">{}</text>",
                number(value)
            ),
        );
    }
    add(out, format!("<path class=\"axis\" fill=\"none\" d=\"M{LEFT} {TOP}V{bottom}H{right}\"/>"));
}

fn multiples(step: f64, most: f64) -> impl Iterator<Item = f64> {
    (0..=(most / step).round() as u32).map(move |place| f64::from(place) * step)
}

/// With a comma for thousands.
fn number(value: f64) -> String {
    let whole = value.round() as u64;
    if (value - value.round()).abs() > 1e-9 {
        format!("{value:.1}")
    } else if whole < 1_000 {
        whole.to_string()
    } else {
        format!("{},{:03}", whole / 1_000, whole % 1_000)
    }
}

/// The archive's curve and plain Rust's of one call have one mark, full and hollow.
fn draw(out: &mut String, scale: &Scale, curve: &Curve, call: usize) {
    let places: Vec<(f64, f64)> =
        curve.points.iter().map(|&(across, up)| (scale.x(across), scale.y(up))).collect();
    let line: Vec<String> = places.iter().map(|(x, y)| format!("{x:.1},{y:.1}")).collect();
    add(out, format!("<polyline class=\"{}\" points=\"{}\"/>", line_class(curve), line.join(" ")));
    places.iter().for_each(|&(x, y)| mark(out, curve, call, x, y));
}

fn line_class(curve: &Curve) -> &'static str {
    if curve.is_hollow {
        "curve dashed"
    } else {
        "curve"
    }
}

fn mark(out: &mut String, curve: &Curve, call: usize, x: f64, y: f64) {
    let class = if curve.is_hollow { "mark hollow" } else { "mark" };
    let shape = match call % 4 {
        0 => format!("M{:.1} {y:.1}a4 4 0 1 0 8 0a4 4 0 1 0 -8 0z", x - 4.0),
        1 => format!("M{:.1} {:.1}h8v8h-8z", x - 4.0, y - 4.0),
        2 => format!("M{x:.1} {:.1}l5 9h-10z", y - 5.5),
        _ => format!("M{x:.1} {:.1}l5 5l-5 5l-5 -5z", y - 5.0),
    };
    add(out, format!("<path class=\"{class}\" d=\"{shape}\"/>"));
}

fn key(out: &mut String, curve: &Curve, place: usize) {
    let y = TOP + HEIGHT + KEY + LINE * place as f64;
    let (start, end, middle) = (LEFT, LEFT + 40.0, LEFT + 20.0);
    add(out, format!("<path class=\"{}\" d=\"M{start} {y}H{end}\"/>", line_class(curve)));
    mark(out, curve, place / 2, middle, y);
    let (beside, below) = (end + 10.0, y + 4.0);
    add(out, format!("<text x=\"{beside}\" y=\"{below}\">{}</text>", curve.name));
}

fn add(out: &mut String, line: String) {
    writeln!(out, "{line}").expect("a String takes all");
}

#[cfg(test)]
mod tests {
    use super::*;

    #[test]
    fn steps_reach_the_most() {
        for most in [0.7, 1.0, 9.0, 10.0, 61.0, 255.0, 8_192.0, 59_999.0, 60_001.0] {
            let step = step(most);
            assert!(step * 6.0 >= most && step * 2.0 < most * 1.3, "{most}: {step}");
        }
    }

    #[test]
    fn numbers() {
        assert_eq!(
            [0.0, 0.5, 999.0, 1_000.0, 12_034.0].map(number),
            ["0", "0.5", "999", "1,000", "12,034"]
        );
    }

    /// A point stands where its values are on the axes, and each curve has a mark for each point and one in the key.
    #[test]
    fn points_and_marks() {
        let scale = Scale { most: (100.0, 10.0) };
        assert_eq!((scale.x(0.0), scale.y(0.0)), (LEFT, TOP + HEIGHT));
        assert_eq!((scale.x(100.0), scale.y(10.0)), (LEFT + WIDTH, TOP));
        let curve = |is_hollow| Curve {
            name: "one".into(),
            points: vec![(0.0, 1.0), (50.0, 2.0)],
            is_hollow,
        };
        let plot =
            Plot { title: "t", across: "a", up: "u", curves: vec![curve(false), curve(true)] };
        let drawn = svg(&plot);
        assert_eq!(drawn.matches("class=\"mark\"").count(), 3);
        assert_eq!(drawn.matches("class=\"mark hollow\"").count(), 3);
    }
}
