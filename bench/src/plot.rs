//! A picture of the speed: the ratio to the reference by table and by loop, and how the time of judging grows with the rows.

use crate::judging::{self, Growth};
use crate::running;
use std::fmt::Write;

const WIDTH: f64 = 860.0;
const MARGIN: f64 = 24.0;

const INK: &str = "#222222";
const GRID: &str = "#dddddd";
const BAR: &str = "#3b6fb6";
const PALE: &str = "#a9c3e6";
const LINES: [&str; 4] = ["#3b6fb6", "#c4541c", "#2f855a", "#7b4fa3"];

/// The text of an SVG file, without its first and last lines.
#[derive(Default)]
struct Picture(String);

#[derive(Clone, Copy)]
enum Anchor {
    Start,
    Middle,
    End,
}

impl Picture {
    fn add(&mut self, element: std::fmt::Arguments) {
        writeln!(self.0, "{element}").expect("a string takes all");
    }

    fn text(&mut self, x: f64, y: f64, anchor: Anchor, text: &str) {
        self.styled(x, y, anchor, &format!(r#"fill="{INK}""#), text);
    }

    fn heading(&mut self, y: f64, text: &str) {
        self.styled(MARGIN, y, Anchor::Start, &format!(r#"fill="{INK}" font-size="15" font-weight="bold""#), text);
    }

    fn styled(&mut self, x: f64, y: f64, anchor: Anchor, style: &str, text: &str) {
        let anchor = match anchor {
            Anchor::Start => "start",
            Anchor::Middle => "middle",
            Anchor::End => "end",
        };
        self.add(format_args!(r#"<text x="{x:.1}" y="{y:.1}" text-anchor="{anchor}" {style}>{text}</text>"#));
    }

    fn line(&mut self, (x1, y1): (f64, f64), (x2, y2): (f64, f64), colour: &str, width: f64) {
        self.add(format_args!(
            r#"<line x1="{x1:.1}" y1="{y1:.1}" x2="{x2:.1}" y2="{y2:.1}" stroke="{colour}" stroke-width="{width}"/>"#
        ));
    }

    fn rectangle(&mut self, (x, y): (f64, f64), width: f64, height: f64, colour: &str) {
        self.add(format_args!(r#"<rect x="{x:.1}" y="{y:.1}" width="{width:.1}" height="{height:.1}" fill="{colour}"/>"#));
    }

    fn dot(&mut self, (x, y): (f64, f64), colour: &str) {
        self.add(format_args!(r#"<circle cx="{x:.1}" cy="{y:.1}" r="4" fill="{colour}"/>"#));
    }
}

/// What a bar shows: one ratio, or the least and the most of several.
struct Bar {
    label: String,
    least: f64,
    most: f64,
}

impl Bar {
    fn value(&self) -> String {
        let (least, most) = (format!("{:.2}", self.least), format!("{:.2}", self.most));
        if least == most {
            least
        } else {
            format!("{least} to {most}")
        }
    }
}

/// Adds a ratio to the bar of this label.
fn add_ratio(bars: &mut Vec<Bar>, label: String, ratio: f64) {
    match bars.iter_mut().find(|bar| bar.label == label) {
        Some(bar) => (bar.least, bar.most) = (bar.least.min(ratio), bar.most.max(ratio)),
        None => bars.push(Bar { label, least: ratio, most: ratio }),
    }
}

/// A number with commas between thousands.
fn grouped(number: usize) -> String {
    if number < 1_000 {
        number.to_string()
    } else {
        format!("{},{:03}", grouped(number / 1_000), number % 1_000)
    }
}

/// Bars of judging: a table each without a rule file, and a rule file each over all its tables.
fn judging_bars() -> Vec<Bar> {
    let mut bars = Vec::new();
    for table in judging::measure_tables() {
        add_ratio(&mut bars, format!("{}, {} rows", table.family, grouped(table.rows)), table.times.ratio());
    }
    for under in judging::measure_rule_files() {
        add_ratio(&mut bars, format!("rule file, {}", under.name), under.times.ratio());
    }
    bars
}

/// Bars of running: a loop each, over all its settings.
fn running_bars() -> Vec<Bar> {
    let mut bars = Vec::new();
    for course in running::measure() {
        add_ratio(&mut bars, course.work.name().to_string(), course.times.ratio());
    }
    bars
}

/// Two panels of bars one below the other, on one scale.
struct Ratios {
    top: f64,
    judging: Vec<Bar>,
    running: Vec<Bar>,
}

impl Ratios {
    /// Where the scale starts and ends, and the ratio between two of its ticks.
    const LEFT: f64 = 270.0;
    const RIGHT: f64 = 730.0;
    const TICK: f64 = 0.5;
    /// How high a heading is, a bar with the gap to the next, and a bar; how wide a letter is at most.
    const HEADING: f64 = 40.0;
    const STEP: f64 = 23.0;
    const THICK: f64 = 16.0;
    const LETTER: f64 = 8.0;

    fn bars(&self) -> impl Iterator<Item = &Bar> {
        self.judging.iter().chain(&self.running)
    }

    /// Ticks of the scale, which is not shorter than to 1.5.
    fn ticks(&self) -> usize {
        self.bars().map(|bar| (bar.most / Self::TICK).ceil() as usize).fold(3, usize::max)
    }

    fn bottom(&self) -> f64 {
        self.top + 2.0 * Self::HEADING + Self::STEP * self.bars().count() as f64
    }

    fn x(&self, ratio: f64) -> f64 {
        Self::LEFT + (Self::RIGHT - Self::LEFT) * ratio / (Self::TICK * self.ticks() as f64)
    }

    fn draw(&self, picture: &mut Picture) {
        let running_top = self.top + Self::HEADING + Self::STEP * self.judging.len() as f64;
        self.draw_panel(picture, self.top, "Judging a table", &self.judging);
        self.draw_panel(picture, running_top, "Running: an instruction of a loop, or what stands in brackets", &self.running);
        for tick in 0..=self.ticks() {
            let ratio = Self::TICK * tick as f64;
            picture.text(self.x(ratio), self.bottom() + 18.0, Anchor::Middle, &format!("{ratio:.1}"));
        }
        let scale = "ratio (1.0: as fast as the Rust implementation)";
        picture.text((Self::LEFT + Self::RIGHT) / 2.0, self.bottom() + 38.0, Anchor::Middle, scale);
    }

    fn draw_panel(&self, picture: &mut Picture, top: f64, heading: &str, bars: &[Bar]) {
        picture.heading(top + 24.0, heading);
        let first = top + Self::HEADING;
        let end = first + Self::STEP * bars.len() as f64;
        let upright = |ratio: f64| ((self.x(ratio), first - 6.0), (self.x(ratio), end));
        for tick in 0..=self.ticks() {
            let (above, below) = upright(Self::TICK * tick as f64);
            picture.line(above, below, GRID, 1.0);
        }
        for (number, bar) in bars.iter().enumerate() {
            let y = first + Self::STEP * number as f64;
            picture.rectangle((Self::LEFT, y), self.x(bar.most) - Self::LEFT, Self::THICK, PALE);
            picture.rectangle((Self::LEFT, y), self.x(bar.least) - Self::LEFT, Self::THICK, BAR);
            picture.text(Self::LEFT - 10.0, y + 13.0, Anchor::End, &bar.label);
        }
        let (above, below) = upright(1.0);
        picture.line(above, below, INK, 1.5);
        // The values stand over the grid, and beyond the line where they would meet it.
        for (number, bar) in bars.iter().enumerate() {
            let (value, y) = (bar.value(), first + Self::STEP * number as f64);
            let width = Self::LETTER * value.len() as f64 + 8.0;
            let (after, line) = (self.x(bar.most) + 3.0, self.x(1.0));
            let x = if after < line + 3.0 && line < after + width { line + 3.0 } else { after };
            picture.rectangle((x, y), width, Self::THICK, "white");
            picture.text(x + 5.0, y + 13.0, Anchor::Start, &value);
        }
    }
}

/// The line through points with the least squares of what they are off: its height at 0, and its slope.
fn fit(points: &[(f64, f64)]) -> (f64, f64) {
    let count = points.len() as f64;
    let (x, y) = points.iter().fold((0.0, 0.0), |(x, y), point| (x + point.0 / count, y + point.1 / count));
    let along: f64 = points.iter().map(|point| (point.0 - x) * (point.1 - y)).sum();
    let spread: f64 = points.iter().map(|point| (point.0 - x) * (point.0 - x)).sum();
    (y - along / spread * x, along / spread)
}

/// The least of 1, 2 and 5 times a power of ten that goes into the number at most six times.
fn tick_for(most: f64) -> f64 {
    let power = 10f64.powf((most / 6.0).log10().floor());
    [1.0, 2.0, 5.0, 10.0].map(|digit| digit * power).into_iter().find(|tick| most <= 6.0 * tick).unwrap_or(10.0 * power)
}

/// The panel of judging time in microseconds over rows.
struct Over {
    top: f64,
    growths: Vec<Growth>,
}

impl Over {
    const LEFT: f64 = 70.0;
    const RIGHT: f64 = 580.0;
    const HEIGHT: f64 = 300.0;
    const HEADING: f64 = 62.0;
    const ROWS: usize = 2_048;
    /// The least distance of two labels.
    const LABEL: f64 = 18.0;

    fn most(&self) -> f64 {
        self.growths.iter().flat_map(|growth| &growth.points).map(|point| point.1 / 1_000.0).fold(0.0, f64::max)
    }

    fn bottom(&self) -> f64 {
        self.top + Self::HEADING + Self::HEIGHT
    }

    /// Where rows and microseconds stand.
    fn place(&self, (rows, time): (f64, f64)) -> (f64, f64) {
        let tick = tick_for(self.most());
        let highest = (self.most() / tick).ceil() * tick;
        let x = Self::LEFT + (Self::RIGHT - Self::LEFT) * rows / Self::ROWS as f64;
        (x, self.bottom() - Self::HEIGHT * time / highest)
    }

    fn draw(&self, picture: &mut Picture) {
        picture.heading(self.top + 24.0, "Judging time over the rows of a table");
        picture.text(MARGIN, self.top + 46.0, Anchor::Start, "µs a judgement");
        let tick = tick_for(self.most());
        for number in 0..=(self.most() / tick).ceil() as usize {
            let time = tick * number as f64;
            let (x, y) = self.place((0.0, time));
            picture.line((x, y), (Self::RIGHT, y), GRID, 1.0);
            picture.text(x - 10.0, y + 5.0, Anchor::End, &format!("{time}"));
        }
        for rows in (0..=Self::ROWS).step_by(Self::ROWS / 4) {
            let (x, y) = self.place((rows as f64, 0.0));
            picture.line((x, y), (x, y + 5.0), INK, 1.0);
            picture.text(x, y + 20.0, Anchor::Middle, &grouped(rows));
        }
        picture.line(self.place((0.0, 0.0)), self.place((Self::ROWS as f64, 0.0)), INK, 1.0);
        picture.text((Self::LEFT + Self::RIGHT) / 2.0, self.bottom() + 40.0, Anchor::Middle, "rows (at most 2,048)");
        self.draw_growths(picture);
    }

    /// Points and straight lines, with labels at their ends that keep their distance.
    fn draw_growths(&self, picture: &mut Picture) {
        let mut labels = Vec::new();
        for (growth, colour) in self.growths.iter().zip(LINES) {
            let points: Vec<_> = growth.points.iter().map(|&(rows, time)| (rows as f64, time / 1_000.0)).collect();
            let (start, slope) = fit(&points);
            let end = |rows: f64| self.place((rows, start + slope * rows));
            let (first, last) = (points[0].0, points[points.len() - 1].0);
            picture.line(end(first), end(last), colour, 1.5);
            for &point in &points {
                picture.dot(self.place(point), colour);
            }
            labels.push((end(last).1, colour, format!("{}, {:.0} ns a row", growth.family, 1_000.0 * slope)));
        }
        labels.sort_by(|a, b| b.0.total_cmp(&a.0));
        let mut lowest = f64::INFINITY;
        for (y, colour, label) in labels {
            lowest = (lowest - Self::LABEL).min(y);
            picture.styled(Self::RIGHT + 12.0, lowest + 5.0, Anchor::Start, &format!(r#"fill="{colour}""#), &label);
        }
    }
}

/// The text of the whole file.
fn drawn(judging: Vec<Bar>, running: Vec<Bar>, growths: Vec<Growth>) -> String {
    let title = "Speed of the proved judge and machine";
    let ratios = Ratios { top: 84.0, judging, running };
    let over = Over { top: ratios.bottom() + 60.0, growths };
    let height = over.bottom() + 60.0;
    let mut picture = Picture::default();
    picture.rectangle((0.0, 0.0), WIDTH, height, "white");
    let large = format!(r#"fill="{INK}" font-size="20" font-weight="bold""#);
    picture.styled(MARGIN, 36.0, Anchor::Start, &large, title);
    let bar = "A bar is the time of the proved code / time of the Rust implementation, less is faster;";
    let pale = "over several tables or settings it is dark up to the least ratio and pale up to the most.";
    picture.text(MARGIN, 60.0, Anchor::Start, bar);
    picture.text(MARGIN, 79.0, Anchor::Start, pale);
    ratios.draw(&mut picture);
    over.draw(&mut picture);
    let Picture(elements) = picture;
    format!(
        r#"<svg xmlns="http://www.w3.org/2000/svg" viewBox="0 0 {WIDTH} {height}" width="{WIDTH}" height="{height}" font-family="sans-serif" font-size="14">
<title>{title}</title>
{elements}</svg>
"#
    )
}

/// Measures as `speed` and `speed-runs` do, and writes the picture.
pub fn write(path: &str) {
    let picture = drawn(judging_bars(), running_bars(), judging::measure_growth());
    if let Err(error) = std::fs::write(path, picture) {
        eprintln!("bench: cannot write {path}: {error}");
        std::process::exit(1);
    }
}
