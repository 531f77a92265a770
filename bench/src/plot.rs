//! Cost against plan size, both logarithmic, as SVG.
use crate::forms::NAMES;
use crate::sets::Set;
use std::fmt::Write;

const COLOURS: [&str; 4] = ["#b35900", "#e0a060", "#00508c", "#70a8d0"];
const LEFT: f64 = 80.0;
const TOP: f64 = 50.0;
const WIDTH: f64 = 480.0;
const HEIGHT: f64 = 320.0;

/// The sets that are of one form and differ in size.
pub fn svg(sets: &[Set], rows: &[[Option<f64>; 4]]) -> String {
    let point = |(s, r): (&Set, &[Option<f64>; 4])| (s.nodes as f64, r.map(|v| v.expect("every form is timed")));
    let points: Vec<(f64, [f64; 4])> = sets.iter().zip(rows).filter(|(s, _)| s.plotted).map(point).collect();
    let all = points.iter().flat_map(|p| p.1);
    let low = all.clone().fold(f64::INFINITY, f64::min).log10().floor();
    let high = all.fold(0.0, f64::max).log10().ceil();
    let (first, last) = (points[0].0.ln(), points[points.len() - 1].0.ln());
    let x = |n: f64| LEFT + WIDTH * (n.ln() - first) / (last - first);
    let y = |v: f64| TOP + HEIGHT * (high - v.log10()) / (high - low);
    let mut s = String::new();
    let right = LEFT + WIDTH;
    writeln!(
        s,
        r##"<svg xmlns="http://www.w3.org/2000/svg" width="780" height="430" font-family="sans-serif" font-size="13">"##
    )
    .unwrap();
    writeln!(s, r##"<rect width="780" height="430" fill="white"/><text x="{LEFT}" y="28" font-size="15">Time to prune a plan, by its size</text>"##).unwrap();
    for power in low as i32..=high as i32 {
        let v = 10f64.powi(power);
        let label = match power {
            9.. => format!("{} s", 10f64.powi(power - 9)),
            6.. => format!("{} ms", 10f64.powi(power - 6)),
            3.. => format!("{} µs", 10f64.powi(power - 3)),
            _ => format!("{v} ns"),
        };
        let y = y(v);
        writeln!(s, r##"<line x1="{LEFT}" x2="{right}" y1="{y:.1}" y2="{y:.1}" stroke="#ddd"/><text x="{:.0}" y="{:.1}" text-anchor="end">{label}</text>"##, LEFT - 8.0, y + 4.0).unwrap();
    }
    for (n, _) in &points {
        writeln!(s, r##"<text x="{:.1}" y="{:.0}" text-anchor="middle">{n}</text>"##, x(*n), TOP + HEIGHT + 20.0)
            .unwrap();
    }
    writeln!(
        s,
        r##"<text x="{:.0}" y="{:.0}" text-anchor="middle">nodes</text>"##,
        LEFT + WIDTH / 2.0,
        TOP + HEIGHT + 40.0
    )
    .unwrap();
    for (i, name) in NAMES.iter().enumerate() {
        let line: Vec<String> = points.iter().map(|(n, r)| format!("{:.1},{:.1}", x(*n), y(r[i]))).collect();
        let colour = COLOURS[i];
        writeln!(s, r##"<polyline points="{}" fill="none" stroke="{colour}" stroke-width="2"/>"##, line.join(" "))
            .unwrap();
        for (n, r) in &points {
            writeln!(s, r##"<circle cx="{:.1}" cy="{:.1}" r="3" fill="{colour}"/>"##, x(*n), y(r[i])).unwrap();
        }
        let (lx, ly) = (right + 14.0, TOP + 20.0 + 22.0 * i as f64);
        writeln!(s, r##"<line x1="{lx}" x2="{}" y1="{ly}" y2="{ly}" stroke="{colour}" stroke-width="2"/><text x="{}" y="{}">{name}</text>"##, lx + 20.0, lx + 26.0, ly + 4.0).unwrap();
    }
    writeln!(s, "</svg>").unwrap();
    s
}
