//! The plot: the ratio of each call as a bar, then cost against size, a panel for each curve.

use crate::measure::Time;
use crate::report::duration;
use crate::work::Work;
use std::fmt::Write;

const WIDTH: f64 = 930.0;
/// Where the names end and the bars start.
const LEFT: f64 = 500.0;
const BAR: f64 = 18.0;
const PANEL: f64 = 260.0;
const RATTLE: &str = "#2166ac";
const RUST: &str = "#b2622b";

pub fn plot(timed: &[(Work, Time)]) -> String {
    let mut curves: Vec<&str> = Vec::new();
    for (work, _) in timed {
        if let Some(point) = &work.point {
            if !curves.contains(&point.curve) {
                curves.push(point.curve);
            }
        }
    }
    let bars = 50.0 + BAR * timed.len() as f64 + 20.0;
    let height = bars + (PANEL + 70.0) * curves.len() as f64;
    let mut svg = format!(
        "<svg xmlns=\"http://www.w3.org/2000/svg\" width=\"{WIDTH}\" height=\"{height}\" \
         font-family=\"sans-serif\" font-size=\"12\">\n\
         <rect width=\"100%\" height=\"100%\" fill=\"white\"/>\n"
    );
    ratios(&mut svg, timed);
    for (index, curve) in curves.iter().enumerate() {
        panel(
            &mut svg,
            timed,
            curve,
            bars + (PANEL + 70.0) * index as f64 + 30.0,
        );
    }
    svg.push_str("</svg>\n");
    svg
}

/// Words with a white edge, so that they can be read over a line.
fn text(svg: &mut String, x: f64, y: f64, anchor: &str, words: &str) {
    let words = words
        .replace('&', "&amp;")
        .replace('<', "&lt;")
        .replace('"', "&quot;");
    let _ = writeln!(
        svg,
        "<text x=\"{x:.1}\" y=\"{y:.1}\" text-anchor=\"{anchor}\" stroke=\"white\" stroke-width=\"3\" \
         paint-order=\"stroke\">{words}</text>"
    );
}

fn stroke(svg: &mut String, from: (f64, f64), to: (f64, f64), style: &str) {
    let _ = writeln!(
        svg,
        "<line x1=\"{:.1}\" y1=\"{:.1}\" x2=\"{:.1}\" y2=\"{:.1}\" {style}/>",
        from.0, from.1, to.0, to.1
    );
}

fn ratios(svg: &mut String, timed: &[(Work, Time)]) {
    let most = timed
        .iter()
        .map(|(_, time)| time.ratio())
        .fold(1.5, f64::max);
    let scale = (WIDTH - LEFT - 60.0) / most;
    let bottom = 46.0 + BAR * timed.len() as f64;
    text(svg, 10.0, 20.0, "start", "Time of Rattle over time of Rust");
    for (value, style) in [
        (1.0, "stroke=\"#444\""),
        (1.2, "stroke=\"#b30000\" stroke-dasharray=\"4 3\""),
    ] {
        let x = LEFT + value * scale;
        stroke(svg, (x, 36.0), (x, bottom), style);
        text(svg, x, 32.0, "middle", &format!("{value}"));
    }
    for (index, (work, time)) in timed.iter().enumerate() {
        let y = 44.0 + BAR * index as f64;
        let length = time.ratio() * scale;
        let _ = writeln!(
            svg,
            "<rect x=\"{LEFT}\" y=\"{:.1}\" width=\"{length:.1}\" height=\"{:.1}\" fill=\"{RATTLE}\" opacity=\"0.75\"/>",
            y,
            BAR - 6.0
        );
        text(svg, LEFT - 8.0, y + 10.0, "end", &work.name);
        text(
            svg,
            LEFT + length + 5.0,
            y + 10.0,
            "start",
            &format!("{:.2}", time.ratio()),
        );
    }
}

fn panel(svg: &mut String, timed: &[(Work, Time)], curve: &str, top: f64) {
    let points: Vec<_> = timed
        .iter()
        .filter_map(|(work, time)| {
            let point = work.point.as_ref().filter(|point| point.curve == curve)?;
            Some((point, time))
        })
        .collect();
    let Some((last, _)) = points.last() else {
        return;
    };
    let (left, right, bottom) = (80.0, WIDTH - 30.0, top + PANEL - 30.0);
    let size = points
        .iter()
        .map(|(point, _)| point.size)
        .max()
        .unwrap_or(1) as f64;
    let cost = points
        .iter()
        .map(|(_, time)| time.rattle.max(time.rust))
        .fold(0.0, f64::max);
    let place = |at: usize, nanoseconds: f64| {
        (
            left + (right - left) * at as f64 / size,
            bottom - (bottom - top - 10.0) * nanoseconds / cost,
        )
    };
    let title = format!("{curve}: cost against {}", last.unit);
    text(svg, 10.0, top - 10.0, "start", &title);
    stroke(svg, (left, bottom), (right, bottom), "stroke=\"#444\"");
    stroke(svg, (left, bottom), (left, top), "stroke=\"#444\"");
    for part in 1..=4 {
        let nanoseconds = cost * f64::from(part) / 4.0;
        let (x, y) = place(0, nanoseconds);
        stroke(svg, (x - 4.0, y), (right, y), "stroke=\"#ddd\"");
        text(svg, x - 8.0, y + 4.0, "end", &duration(nanoseconds));
    }
    for (point, _) in &points {
        let (x, _) = place(point.size, 0.0);
        stroke(svg, (x, bottom), (x, bottom + 4.0), "stroke=\"#444\"");
        // Small sizes stand too close for their numbers.
        if point.size as f64 >= size / 16.0 {
            text(svg, x, bottom + 18.0, "middle", &point.size.to_string());
        }
    }
    text(svg, right, bottom + 34.0, "end", last.unit);
    for (index, (name, colour)) in [("Rattle", RATTLE), ("Rust", RUST)].iter().enumerate() {
        let mut path = String::new();
        for (point, time) in &points {
            let nanoseconds = if index == 0 { time.rattle } else { time.rust };
            let (x, y) = place(point.size, nanoseconds);
            let _ = write!(path, "{x:.1},{y:.1} ");
            let _ = writeln!(
                svg,
                "<circle cx=\"{x:.1}\" cy=\"{y:.1}\" r=\"3\" fill=\"{colour}\"/>"
            );
        }
        let _ = writeln!(
            svg,
            "<polyline points=\"{}\" fill=\"none\" stroke=\"{colour}\" stroke-width=\"1.5\"/>",
            path.trim_end()
        );
        let y = top + 8.0 + 16.0 * index as f64;
        stroke(
            svg,
            (left + 20.0, y),
            (left + 50.0, y),
            &format!("stroke=\"{colour}\" stroke-width=\"2\""),
        );
        text(svg, left + 56.0, y + 4.0, "start", name);
    }
}
