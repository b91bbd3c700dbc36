//! Costs by size, as tables and as one SVG.

use std::fmt::Write;

/// A cost, in nanoseconds a call, by some size: tables held, tables tested, the Rust kernel.
pub struct Curve {
    /// What is called.
    pub name: &'static str,
    /// What the size counts.
    pub unit: &'static str,
    /// The sizes and their costs.
    pub points: Vec<(usize, [f64; 3])>,
}

const SIDES: [(&str, &str); 3] = [
    ("proved, tables held", "#1b7837"),
    ("proved, tables tested", "#2166ac"),
    ("Rust kernel, tables tested", "#b2182b"),
];

impl Curve {
    /// The curve as a table.
    pub fn print(&self) {
        println!(
            "| {} | held | tested | Rust kernel | held / Rust | tested / Rust |",
            self.name
        );
        println!("|---:|---:|---:|---:|---:|---:|");
        for (size, [held, tested, rust]) in &self.points {
            println!(
                "| {size} {} | {held:.0} ns | {tested:.0} ns | {rust:.0} ns | {:.2} | {:.2} |",
                self.unit,
                held / rust,
                tested / rust
            );
        }
        println!();
    }

    fn most(&self) -> f64 {
        let times = self.points.iter().flat_map(|(_, times)| times);
        times.copied().fold(1.0, f64::max)
    }
}

const WIDTH: usize = 320;
const HEIGHT: usize = 220;
const EDGE: usize = 40;

/// All curves side by side; sizes step by step, costs from 0.
pub fn picture(curves: &[Curve]) -> String {
    let (width, height) = (curves.len() * WIDTH, HEIGHT + 60);
    let mut svg = format!(
        "<svg xmlns=\"http://www.w3.org/2000/svg\" viewBox=\"0 0 {width} {height}\" font-family=\"sans-serif\" font-size=\"11\">\n"
    );
    for (place, curve) in curves.iter().enumerate() {
        draw(&mut svg, curve, place * WIDTH);
    }
    for (place, (name, colour)) in SIDES.iter().enumerate() {
        let x = EDGE + place * 220;
        let _ = writeln!(svg, "<rect x=\"{x}\" y=\"{y}\" width=\"12\" height=\"4\" fill=\"{colour}\"/><text x=\"{tx}\" y=\"{ty}\">{name}</text>", y = HEIGHT + 36, tx = x + 18, ty = HEIGHT + 42);
    }
    svg.push_str("</svg>\n");
    svg
}

fn draw(svg: &mut String, curve: &Curve, left: usize) {
    let most = curve.most();
    let x = |place: usize| {
        let steps = (curve.points.len() - 1).max(1);
        left + EDGE + place * (WIDTH - 2 * EDGE) / steps
    };
    let y = |time: f64| HEIGHT as f64 - (HEIGHT - EDGE) as f64 * time.max(0.0) / most;
    let _ = writeln!(
        svg,
        "<text x=\"{}\" y=\"16\">{}, ns</text>",
        left + EDGE,
        curve.name
    );
    let _ = writeln!(svg, "<line x1=\"{0}\" y1=\"{EDGE}\" x2=\"{0}\" y2=\"{HEIGHT}\" stroke=\"#888\"/><text x=\"{1}\" y=\"{EDGE}\">{most:.0}</text>", left + EDGE, left + 4);
    for (place, (size, _)) in curve.points.iter().enumerate() {
        let _ = writeln!(
            svg,
            "<text x=\"{}\" y=\"{}\" text-anchor=\"middle\">{size}</text>",
            x(place),
            HEIGHT + 14
        );
    }
    for (side, (_, colour)) in SIDES.iter().enumerate() {
        let points: Vec<String> = curve
            .points
            .iter()
            .enumerate()
            .map(|(place, (_, times))| format!("{},{:.1}", x(place), y(times[side])))
            .collect();
        let _ = writeln!(
            svg,
            "<polyline points=\"{}\" fill=\"none\" stroke=\"{colour}\" stroke-width=\"2\"/>",
            points.join(" ")
        );
    }
}
