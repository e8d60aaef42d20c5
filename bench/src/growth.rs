//! How the time of a call grows: by the bytes of a message, by the lines that are held, by the settings of a request, and by the requests that a desk keeps.

use crate::cases::{self, Case};
use crate::desk::keeping;
use crate::fit::{self, Order};
use crate::messages::growing;
use crate::plot::{self, Curve, Plot};
use crate::sides::{Call, Side};
use crate::timing::{batch, calls_in_a_batch, median};
use otap::Part;
use otap_reference::reference::limits::{Limits, HANDHELD, VEHICLE};
use std::path::Path;

/// How often the stores are made anew, and how often each is measured then.
const STANDS: usize = 3;
const ROUNDS: usize = 15;

/// What grows, and the calls that are measured by it.
struct Family {
    title: &'static str,
    /// What is counted on the axis.
    unit: &'static str,
    file: &'static str,
    growths: Vec<Growth>,
}

/// One call by how much there is.
struct Growth {
    name: String,
    points: Vec<(usize, Case)>,
    is_drawn: bool,
}

/// Median nanoseconds of the archive, of plain Rust and of plain Rust behind its check, at each point.
struct Measured {
    name: String,
    sizes: Vec<f64>,
    times: [Vec<f64>; 3],
    is_drawn: bool,
}

/// Prints the tables, and writes the plots to a folder if one is named.
pub fn tables(folder: Option<&str>) {
    println!("# How cost grows");
    println!();
    println!("Written by `bench growth`. Nanoseconds of one call on the processor, warm, the median of {STANDS} x {ROUNDS} batches: archive is the verified one through the face,");
    println!("plain the reference, checked the same behind its check of the store. All points of a call are measured in turn, batch by batch, on stores that are");
    println!("full but for what is said. An order is that of the curve a + b f(n) nearest to the figures by least squares, with b, and how far off these are in");
    println!("the mean: constant where the line rises by at most 5 % of the mean, and linear where that is off by at most 2 % or no other half as far. A desk");
    println!("has no store, so that checked is plain there.");
    for family in families() {
        let measured: Vec<Measured> = family.growths.iter().map(measure).collect();
        print(&family, &measured);
        if let Some(folder) = folder {
            let path = Path::new(folder).join(format!("growth-{}.svg", family.file));
            std::fs::write(&path, picture(&family, &measured)).expect("the folder can be written");
        }
    }
}

fn families() -> [Family; 4] {
    [by_bytes(), by_lines(), by_settings(), by_requests()]
}

fn begin(limits: Limits) -> &'static str {
    if limits == VEHICLE {
        "vehicle"
    } else {
        "hand-held"
    }
}

fn case(limits: Limits, call: Call, number: u8) -> Case {
    Case { limits, name: "growth".into(), call, number, before: vec![] }
}

/// Lines over those that are held, as many as fit.
fn by_bytes() -> Family {
    const SIZES: [usize; 10] = [256, 512, 1_024, 2_048, 3_072, 4_096, 5_120, 6_144, 7_168, 8_192];
    let commit = |limits: Limits| {
        let sizes = SIZES.into_iter().filter(|&size| size <= limits.message);
        let point = |size| {
            let message = growing::of_lines_over(limits, size);
            (message.len(), case(limits, Call::Commit(message), 0))
        };
        let name = format!("{}: commit of lines", begin(limits));
        Growth { name, points: sizes.map(point).collect(), is_drawn: true }
    };
    let growths = [HANDHELD, VEHICLE].map(commit).into();
    Family {
        title: "By the bytes of a message",
        unit: "bytes of the message",
        file: "bytes",
        growths,
    }
}

fn by_lines() -> Family {
    let growths = [(HANDHELD, 8, false), (VEHICLE, 16, true)]
        .into_iter()
        .flat_map(|(limits, step, is_drawn)| of_lines(limits, step, is_drawn))
        .collect();
    Family { title: "By the lines that are held", unit: "lines held", file: "lines", growths }
}

/// A name, the call where so many lines are held, and whether it is drawn.
type ByLines = (&'static str, fn(Limits, usize) -> Option<Call>, bool);

/// The check of the store, who calls from the last line, that line committed over itself, and the export of all.
fn of_lines(limits: Limits, step: usize, is_drawn: bool) -> Vec<Growth> {
    let calls: [ByLines; 4] = [
        ("counts, the check", |_, _| Some(Call::Counts), is_drawn),
        ("line-of the last", called, false),
        ("commit of one line", over_last, is_drawn),
        ("export of the lines", |_, _| Some(Call::Export(Part::Lines)), is_drawn),
    ];
    let growth = |(name, call, is_drawn): ByLines| {
        let point = |count| {
            let before = vec![growing::holding_lines(limits, count)];
            let call = call(limits, count)?;
            Some((count, Case { before, ..case(limits, call, 0) }))
        };
        let points = (0..=limits.lines).step_by(step).filter_map(point).collect();
        Growth { name: format!("{}: {name}", begin(limits)), points, is_drawn }
    };
    calls.into_iter().map(growth).collect()
}

fn called(_: Limits, count: usize) -> Option<Call> {
    let (digits, row) = growing::last_caller(count);
    Some(Call::LineOf { digits, row })
}

/// Nothing where no line is held.
fn over_last(limits: Limits, count: usize) -> Option<Call> {
    (count > 0).then(|| Call::Commit(growing::of_last_line(limits, count)))
}

fn by_settings() -> Family {
    const COUNTS: [usize; 9] = [1, 32, 64, 96, 128, 160, 192, 224, 255];
    let commit = |name: &str, limits: Limits, message: fn(usize) -> Vec<u8>| {
        let point = |count| (count, case(limits, Call::Commit(message(count)), 0));
        let name = format!("{}: commit of {name}", begin(limits));
        Growth { name, points: COUNTS.map(point).into(), is_drawn: true }
    };
    let growths = vec![
        commit("home numbers", HANDHELD, growing::of_home_numbers),
        commit("status texts", HANDHELD, growing::of_single_status_texts),
        commit("home numbers", VEHICLE, growing::of_home_numbers),
    ];
    Family { title: "By the settings of a request", unit: "settings", file: "settings", growths }
}

/// Requests of 63 quick texts each.
fn by_requests() -> Family {
    let growth = |name: &str, point: fn(usize) -> (usize, Case)| Growth {
        name: format!("desk: {name}"),
        points: (0..=10).step_by(2).map(point).collect(),
        is_drawn: true,
    };
    let growths = vec![
        growth("take of a query", |count| {
            (count, case(HANDHELD, Call::PlainTake(keeping(count)), 5))
        }),
        growth("the first quick text", |count| {
            let shown = if count == 0 { 17 } else { 46 };
            (count, case(HANDHELD, Call::PlainRow(keeping(count)), shown))
        }),
    ];
    let unit = "requests kept, of 63 quick texts each";
    Family { title: "By the requests that a desk keeps", unit, file: "desk", growths }
}

/// Times of all points in turn, so that a machine which slows down meanwhile slows all of them; and anew, since time goes by where a store comes to stand.
fn measure(growth: &Growth) -> Measured {
    let mut times = vec![Vec::new(); 3 * growth.points.len()];
    for _ in 0..STANDS {
        let batches = batches(growth);
        times.iter_mut().zip(batches).for_each(|(all, some)| all.extend(some));
    }
    let medians: Vec<f64> = times.into_iter().map(median).collect();
    let times = [0, 1, 2].map(|side| medians.iter().skip(side).step_by(3).copied().collect());
    let sizes = growth.points.iter().map(|(size, _)| *size as f64).collect();
    Measured { name: growth.name.clone(), sizes, times, is_drawn: growth.is_drawn }
}

/// For each point the times of the archive, of plain Rust and of checked plain Rust.
fn batches(growth: &Growth) -> Vec<Vec<f64>> {
    let sides = |case| -> [Box<dyn Side>; 3] {
        [cases::rattle(case), Box::new(cases::plain(case)), Box::new(cases::checked(case))]
    };
    let each = growth.points.iter().flat_map(|(_, case)| sides(case).map(|side| (case, side)));
    let mut runs: Vec<_> = each
        .map(|(case, mut side)| (case, calls_in_a_batch(&mut *side, case), side, Vec::new()))
        .collect();
    for _ in 0..ROUNDS {
        for (case, calls, side, times) in &mut runs {
            times.push(batch(&mut **side, case, *calls));
        }
    }
    runs.into_iter().map(|(_, _, _, times)| times).collect()
}

fn print(family: &Family, all: &[Measured]) {
    println!();
    println!("## {}", family.title);
    println!();
    println!("![Time {}](growth-{}.svg)", family.title.to_lowercase(), family.file);
    for measured in all {
        println!();
        println!("| {}; {} | archive ns | plain ns | checked ns |", measured.name, family.unit);
        println!("|---|---|---|---|");
        for (place, size) in measured.sizes.iter().enumerate() {
            let [archive, plain, checked] = [0, 1, 2].map(|side| measured.times[side][place]);
            println!("| {size} | {archive:.0} | {plain:.0} | {checked:.0} |");
        }
        let orders =
            measured.times.each_ref().map(|times| said(fit::order(&measured.sizes, times)));
        println!("| order | {} | {} | {} |", orders[0], orders[1], orders[2]);
    }
}

fn said(order: Order) -> String {
    let off = 100.0 * order.distance;
    let slope = match order.slope {
        slope if slope >= 100.0 => format!("{slope:.0}"),
        slope => format!("{slope:.2}"),
    };
    match order.name {
        "constant" => format!("constant, off by {off:.1} %"),
        "linear" => format!("linear, {slope} each, off by {off:.1} %"),
        name => format!("{name}, {slope} for each, off by {off:.1} %"),
    }
}

/// The archive and checked plain Rust; of a desk, which has no store, they are the archive and plain Rust.
fn picture(family: &Family, all: &[Measured]) -> String {
    let mut curves = Vec::new();
    for measured in all.iter().filter(|measured| measured.is_drawn) {
        for (side, times) in [("archive", &measured.times[0]), ("plain Rust", &measured.times[2])] {
            let name = format!("{}, {side}", measured.name);
            let points = measured.sizes.iter().copied().zip(times.iter().map(|ns| ns / 1e3));
            curves.push(Curve { name, points: points.collect(), is_hollow: side != "archive" });
        }
    }
    plot::svg(&Plot { title: family.title, across: family.unit, up: "microseconds", curves })
}
