//! A plot as an SVG file: panels side by side, each with the proved replay and the checker over the same numbers.

use std::fmt::Write;

type Panel<'a> = (&'a str, &'a [(usize, (f64, f64))]);

const WIDE: f64 = 360.0;
const HIGH: f64 = 240.0;
const EDGE: f64 = 60.0;

fn line(out: &mut String, points: &[(f64, f64)], colour: &str) {
    let path: Vec<String> = points.iter().map(|(x, y)| format!("{x:.1},{y:.1}")).collect();
    let _ = writeln!(out, r#"<polyline fill="none" stroke="{colour}" stroke-width="2" points="{}"/>"#, path.join(" "));
}

fn text(out: &mut String, x: f64, y: f64, what: &str) {
    let _ = writeln!(out, r#"<text x="{x:.1}" y="{y:.1}" font-size="12" font-family="sans-serif">{what}</text>"#);
}

fn panel(out: &mut String, left: f64, (name, rows): Panel) {
    let most_x = rows.iter().map(|r| r.0).max().unwrap_or(1).max(1) as f64;
    let most_y = rows.iter().map(|r| r.1 .0.max(r.1 .1)).fold(1.0, f64::max);
    let place = |x: usize, y: f64| (left + WIDE * x as f64 / most_x, EDGE + HIGH * (1.0 - y / most_y));
    let _ = writeln!(out, r##"<rect x="{left}" y="{EDGE}" width="{WIDE}" height="{HIGH}" fill="none" stroke="#999"/>"##);
    line(out, &rows.iter().map(|r| place(r.0, r.1 .0)).collect::<Vec<_>>(), "#c0392b");
    line(out, &rows.iter().map(|r| place(r.0, r.1 .1)).collect::<Vec<_>>(), "#2980b9");
    text(out, left, EDGE - 10.0, &format!("µs against {name}"));
    text(out, left - 50.0, EDGE + 10.0, &format!("{most_y:.0}"));
    text(out, left + WIDE - 30.0, EDGE + HIGH + 18.0, &format!("{most_x:.0}"));
}

pub fn draw(path: &str, panels: &[Panel]) -> std::io::Result<()> {
    let width = EDGE + (WIDE + 2.0 * EDGE) * panels.len() as f64;
    let mut out = format!(r##"<svg xmlns="http://www.w3.org/2000/svg" width="{width}" height="{}"><rect width="100%" height="100%" fill="#fff"/>"##, HIGH + 2.0 * EDGE);
    for (k, &p) in panels.iter().enumerate() {
        panel(&mut out, EDGE + (WIDE + 2.0 * EDGE) * k as f64, p);
    }
    text(&mut out, EDGE, HIGH + 2.0 * EDGE - 15.0, "red: the proved replay; blue: the checker");
    out += "</svg>\n";
    std::fs::write(path, out)
}
