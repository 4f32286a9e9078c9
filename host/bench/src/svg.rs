//! Elements of an SVG, and a chart of lines.

use std::fmt::Write;

/// Where a text is anchored.
#[derive(Clone, Copy)]
pub enum Anchor {
    Start,
    Middle,
    End,
}

/// A picture in the making.
pub struct Svg {
    body: String,
    width: f64,
    height: f64,
}

impl Svg {
    pub fn new(width: f64, height: f64) -> Svg {
        let body = String::new();
        Svg {
            body,
            width,
            height,
        }
    }

    fn put(&mut self, element: std::fmt::Arguments) {
        writeln!(self.body, "{element}").expect("a string takes every text");
    }

    pub fn rect(&mut self, (x, y): (f64, f64), (width, height): (f64, f64), fill: &str) {
        self.put(format_args!(
            "<rect x='{x:.1}' y='{y:.1}' width='{width:.1}' height='{height:.1}' fill='{fill}'/>"
        ));
    }

    pub fn line(&mut self, (x, y): (f64, f64), (to_x, to_y): (f64, f64), style: &str) {
        self.put(format_args!(
            "<line x1='{x:.1}' y1='{y:.1}' x2='{to_x:.1}' y2='{to_y:.1}' {style}/>"
        ));
    }

    pub fn text(&mut self, (x, y): (f64, f64), anchor: Anchor, style: &str, text: &str) {
        let anchor = match anchor {
            Anchor::Start => "start",
            Anchor::Middle => "middle",
            Anchor::End => "end",
        };
        let text = text.replace('&', "&amp;").replace('<', "&lt;");
        self.put(format_args!(
            "<text x='{x:.1}' y='{y:.1}' text-anchor='{anchor}' {style}>{text}</text>"
        ));
    }

    pub fn path(&mut self, points: &[(f64, f64)], style: &str) {
        let points: Vec<_> = points
            .iter()
            .map(|(x, y)| format!("{x:.1},{y:.1}"))
            .collect();
        self.put(format_args!(
            "<polyline points='{}' fill='none' {style}/>",
            points.join(" ")
        ));
    }

    pub fn dot(&mut self, (x, y): (f64, f64), fill: &str) {
        self.put(format_args!(
            "<circle cx='{x:.1}' cy='{y:.1}' r='2.5' fill='{fill}'/>"
        ));
    }

    /// The whole picture, on white.
    pub fn finish(self) -> String {
        let (w, h) = (self.width, self.height);
        format!(
            "<svg xmlns='http://www.w3.org/2000/svg' width='{w}' height='{h}' viewBox='0 0 {w} {h}' font-family='DejaVu Sans, Helvetica, Arial, sans-serif' font-size='11' fill='#222'>\n<rect width='{w}' height='{h}' fill='white'/>\n{}</svg>\n",
            self.body
        )
    }
}

/// One kind of call in a chart: the library's figures, and what they are held to.
pub struct Series {
    pub name: String,
    pub library: Vec<f64>,
    pub held_to: Vec<f64>,
}

/// A chart of lines: the library's solid, what it is held to dashed; its y axis starts at 0 unless it is logarithmic.
pub struct Chart {
    pub title: &'static str,
    pub x_title: &'static str,
    pub x_labels: Vec<String>,
    pub held_to: &'static str,
    pub logarithmic: bool,
    pub series: Vec<Series>,
}

const COLOURS: [&str; 4] = ["#1f5fa8", "#c8501e", "#2b8a3e", "#7b3fa0"];
const DASHED: &str = "stroke-dasharray='5 3'";
const GRID: &str = "stroke='#ddd'";
const AXIS: &str = "stroke='#444'";

/// The width and height of what a chart's axes enclose.
const SIZE: (f64, f64) = (370.0, 190.0);

impl Chart {
    fn figures(&self) -> impl Iterator<Item = f64> + '_ {
        let both = |s: &Series| {
            s.library
                .iter()
                .chain(&s.held_to)
                .copied()
                .collect::<Vec<_>>()
        };
        self.series.iter().flat_map(both)
    }

    /// The ticks of the y axis; the first and the last are its ends.
    fn ticks(&self) -> Vec<f64> {
        let most = self.figures().fold(0.0, f64::max);
        if !self.logarithmic {
            let steps = [10.0, 20.0, 25.0, 50.0, 100.0, 200.0, 500.0, 1000.0, 5000.0];
            let fits = |step: &&f64| most / **step <= 6.0;
            let step = steps.iter().find(fits).copied().unwrap_or(most / 5.0);
            let count = (most / step).ceil() as usize;
            return (0..=count).map(|k| k as f64 * step).collect();
        }
        let least = self.figures().fold(f64::INFINITY, f64::min).max(1e-3);
        let decades = (least.log10().floor() as i32)..=(most.log10().ceil() as i32);
        let all = decades.flat_map(|d| [1.0, 2.0, 5.0].map(|m| m * 10f64.powi(d)));
        let all: Vec<f64> = all.collect();
        let first = all.iter().rposition(|&t| t <= least).unwrap_or(0);
        let last = all.iter().position(|&t| t >= most).unwrap_or(all.len() - 1);
        all[first..=last].to_vec()
    }

    /// The height of a figure above the x axis, from 0 to 1.
    fn height(&self, figure: f64, ticks: &[f64]) -> f64 {
        let (low, high) = (ticks[0], ticks[ticks.len() - 1]);
        if self.logarithmic {
            (figure / low).ln() / (high / low).ln()
        } else {
            (figure - low) / (high - low)
        }
    }

    /// Draws the chart with the left upper corner of its axes at a point, its legend to the right.
    pub fn draw(&self, svg: &mut Svg, (x, y): (f64, f64)) {
        let (ticks, style) = (self.ticks(), "font-size='13' font-weight='bold'");
        svg.text((x - 40.0, y - 16.0), Anchor::Start, style, self.title);
        self.draw_axes(svg, (x, y), &ticks);
        self.draw_lines(svg, (x, y), &ticks);
        self.draw_legend(svg, (x + SIZE.0 + 14.0, y + 8.0));
    }

    /// Where the figure at a place of the x axis stands, from the left upper corner.
    fn point(&self, k: usize, figure: f64, ticks: &[f64]) -> (f64, f64) {
        let across = (k as f64 + 0.5) / self.x_labels.len() as f64;
        let down = 1.0 - self.height(figure, ticks);
        (SIZE.0 * across, SIZE.1 * down)
    }

    fn draw_axes(&self, svg: &mut Svg, (x, y): (f64, f64), ticks: &[f64]) {
        let (right, bottom) = (x + SIZE.0, y + SIZE.1);
        for &tick in ticks {
            let at = y + self.point(0, tick, ticks).1;
            svg.line((x, at), (right, at), GRID);
            svg.text((x - 6.0, at + 4.0), Anchor::End, "", &format!("{tick}"));
        }
        svg.line((x, y), (x, bottom), AXIS);
        svg.line((x, bottom), (right, bottom), AXIS);
        for (k, label) in self.x_labels.iter().enumerate() {
            let at = x + self.point(k, ticks[0], ticks).0;
            svg.line((at, bottom), (at, bottom + 4.0), AXIS);
            svg.text((at, bottom + 16.0), Anchor::Middle, "", label);
        }
        let middle = (x + SIZE.0 / 2.0, bottom + 32.0);
        svg.text(middle, Anchor::Middle, "", self.x_title);
    }

    fn draw_lines(&self, svg: &mut Svg, (x, y): (f64, f64), ticks: &[f64]) {
        let points = |figures: &[f64]| -> Vec<(f64, f64)> {
            let places = figures.iter().enumerate();
            let places = places.map(|(k, &figure)| self.point(k, figure, ticks));
            places
                .map(|(across, down)| (x + across, y + down))
                .collect()
        };
        for (series, colour) in self.series.iter().zip(COLOURS) {
            let stroke = format!("stroke='{colour}' stroke-width='1.8'");
            svg.path(&points(&series.held_to), &format!("{stroke} {DASHED}"));
            svg.path(&points(&series.library), &stroke);
            for point in points(&series.library) {
                svg.dot(point, colour);
            }
        }
    }

    fn draw_legend(&self, svg: &mut Svg, (x, mut y): (f64, f64)) {
        let mut entry = |style: &str, name: &str| {
            svg.line(
                (x, y),
                (x + 24.0, y),
                &format!("stroke-width='1.8' {style}"),
            );
            svg.text((x + 30.0, y + 4.0), Anchor::Start, "", name);
            y += 18.0;
        };
        for (series, colour) in self.series.iter().zip(COLOURS) {
            entry(&format!("stroke='{colour}'"), &series.name);
        }
        entry("stroke='#444'", "solid: library");
        entry(&format!("stroke='#444' {DASHED}"), self.held_to);
    }
}
