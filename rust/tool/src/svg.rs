// SPDX-License-Identifier: Apache-2.0
//! Pictures as SVG text: shapes, and a frame with axes.
use std::fmt::Write;

pub const DARK: &str = "#222";
pub const GREY: &str = "#767676";
pub const PALE: &str = "#dedede";
pub const BLUE: &str = "#1f4e9c";
pub const TEAL: &str = "#1b8a7a";
pub const RED: &str = "#c0392b";
pub const GOLD: &str = "#b7791f";

/// A coordinate, to a tenth.
fn n(x: f64) -> String {
    let text = format!("{x:.1}");
    text.strip_suffix(".0").unwrap_or(&text).to_owned()
}

fn escape(text: &str) -> String {
    text.replace('&', "&amp;").replace('<', "&lt;")
}

pub struct Svg(String);

#[derive(Clone, Copy)]
pub enum Align {
    Start,
    Middle,
    End,
}

impl Svg {
    pub fn new(width: f64, height: f64) -> Self {
        let (w, h) = (n(width), n(height));
        Self(format!(
            "<svg xmlns=\"http://www.w3.org/2000/svg\" viewBox=\"0 0 {w} {h}\" font-family=\"DejaVu Sans, Verdana, sans-serif\" font-size=\"13\">\n\
             <rect width=\"{w}\" height=\"{h}\" fill=\"#fff\"/>\n"
        ))
    }

    pub fn title(&mut self, at: (f64, f64), text: &str) {
        let style = format!("fill=\"{DARK}\" font-size=\"17\"");
        self.styled(at, Align::Start, &style, text);
    }

    pub fn label(&mut self, at: (f64, f64), align: Align, text: &str) {
        self.coloured(at, align, DARK, text);
    }

    pub fn coloured(&mut self, at: (f64, f64), align: Align, colour: &str, text: &str) {
        self.styled(at, align, &format!("fill=\"{colour}\""), text);
    }

    /// What was measured, below a picture.
    pub fn caption(&mut self, at: (f64, f64), text: &str) {
        self.coloured(at, Align::Start, GREY, text);
    }

    /// On a white ground, over lines.
    pub fn backed(&mut self, at: (f64, f64), text: &str) {
        self.on_white(at, Align::Start, DARK, text);
    }

    pub fn on_white(&mut self, at: (f64, f64), align: Align, colour: &str, text: &str) {
        let ground = "stroke=\"#fff\" stroke-width=\"5\" paint-order=\"stroke\"";
        self.styled(at, align, &format!("fill=\"{colour}\" {ground}"), text);
    }

    fn styled(&mut self, at: (f64, f64), align: Align, style: &str, text: &str) {
        let anchor = match align {
            Align::Start => "start",
            Align::Middle => "middle",
            Align::End => "end",
        };
        let (x, y, text) = (n(at.0), n(at.1), escape(text));
        let _ = writeln!(
            self.0,
            "<text x=\"{x}\" y=\"{y}\" text-anchor=\"{anchor}\" {style}>{text}</text>"
        );
    }

    /// Upwards, its middle at a place.
    fn upright(&mut self, at: (f64, f64), text: &str) {
        let (x, y, text) = (n(at.0), n(at.1), escape(text));
        let _ = writeln!(
            self.0,
            "<text transform=\"translate({x} {y}) rotate(-90)\" text-anchor=\"middle\" fill=\"{DARK}\">{text}</text>"
        );
    }

    pub fn segment(&mut self, from: (f64, f64), to: (f64, f64), style: &str) {
        let d = format!("M{} {}L{} {}", n(from.0), n(from.1), n(to.0), n(to.1));
        self.path(&d, style);
    }

    pub fn outline(&mut self, area: Area) {
        let (x, y, w, h) = (n(area.x), n(area.y), n(area.width), n(area.height));
        let _ = writeln!(
            self.0,
            "<rect x=\"{x}\" y=\"{y}\" width=\"{w}\" height=\"{h}\" fill=\"none\" stroke=\"{GREY}\"/>"
        );
    }

    pub fn dot(&mut self, at: (f64, f64), radius: f64, style: &str) {
        let (x, y, r) = (n(at.0), n(at.1), n(radius));
        let _ = writeln!(self.0, "<circle cx=\"{x}\" cy=\"{y}\" r=\"{r}\" {style}/>");
    }

    pub fn path(&mut self, d: &str, style: &str) {
        let _ = writeln!(self.0, "<path d=\"{d}\" {style}/>");
    }

    /// Squares of `side`, drawn in whole numbers of it from a corner on.
    pub fn cells(&mut self, at: (f64, f64), side: f64, d: &str, colour: &str) {
        let (x, y) = (n(at.0), n(at.1));
        let _ = writeln!(
            self.0,
            "<path transform=\"translate({x} {y}) scale({side:.4})\" shape-rendering=\"crispEdges\" d=\"{d}\" fill=\"{colour}\"/>"
        );
    }

    pub fn finish(mut self) -> String {
        self.0.push_str("</svg>\n");
        self.0
    }
}

#[derive(Clone, Copy)]
pub enum Scale {
    Linear(f64, f64),
    Log(f64, f64),
}

impl Scale {
    /// From 0 to 1.
    fn at(self, v: f64) -> f64 {
        let part = match self {
            Self::Linear(a, b) => (v - a) / (b - a),
            Self::Log(a, b) => (v / a).ln() / (b / a).ln(),
        };
        part.clamp(0.0, 1.0)
    }
}

/// An axis: its scale, the numbers along it, and what it measures.
pub struct Axis<'a> {
    pub scale: Scale,
    pub ticks: &'a [f64],
    pub name: &'a str,
}

/// A rectangle, from its upper left corner on.
#[derive(Clone, Copy)]
pub struct Area {
    pub x: f64,
    pub y: f64,
    pub width: f64,
    pub height: f64,
}

impl Area {
    pub fn bottom(self) -> f64 {
        self.y + self.height
    }

    fn right(self) -> f64 {
        self.x + self.width
    }

    /// Whether another lies inside.
    pub fn holds(self, other: Self) -> bool {
        other.x >= self.x
            && other.right() <= self.right()
            && other.y >= self.y
            && other.bottom() <= self.bottom()
    }

    /// Whether they have a part in common.
    pub fn meets(self, other: Self) -> bool {
        other.x < self.right()
            && self.x < other.right()
            && other.y < self.bottom()
            && self.y < other.bottom()
    }
}

/// A frame in which curves are drawn.
pub struct Frame {
    area: Area,
    across: Scale,
    up: Scale,
}

impl Frame {
    /// Draws the frame, its grid and its numbers.
    pub fn new(svg: &mut Svg, area: Area, across: &Axis<'_>, up: &Axis<'_>) -> Self {
        let frame = Self {
            area,
            across: across.scale,
            up: up.scale,
        };
        let grid = format!("stroke=\"{PALE}\"");
        let (left, bottom) = (area.x, area.bottom());
        for v in across.ticks {
            let x = frame.px(*v);
            svg.segment((x, area.y), (x, bottom), &grid);
            svg.label((x, bottom + 18.0), Align::Middle, &tick(*v));
        }
        for v in up.ticks {
            let y = frame.py(*v);
            svg.segment((left, y), (area.right(), y), &grid);
            svg.label((left - 7.0, y + 4.5), Align::End, &tick(*v));
        }
        svg.outline(area);
        let middle = (left + area.width / 2.0, area.y + area.height / 2.0);
        if !across.name.is_empty() {
            svg.label((middle.0, bottom + 38.0), Align::Middle, across.name);
        }
        if !up.name.is_empty() {
            svg.upright((left - 46.0, middle.1), up.name);
        }
        frame
    }

    /// The place of a point of a curve.
    pub fn at(&self, x: f64, y: f64) -> (f64, f64) {
        (self.px(x), self.py(y))
    }

    pub fn px(&self, v: f64) -> f64 {
        self.area.x + self.area.width * self.across.at(v)
    }

    pub fn py(&self, v: f64) -> f64 {
        self.area.y + self.area.height * (1.0 - self.up.at(v))
    }

    fn points(&self, points: &[(f64, f64)]) -> String {
        let mut d = String::new();
        for (k, (x, y)) in points.iter().enumerate() {
            let letter = if k == 0 { 'M' } else { 'L' };
            let _ = write!(d, "{letter}{} {}", n(self.px(*x)), n(self.py(*y)));
        }
        d
    }

    pub fn curve(&self, svg: &mut Svg, points: &[(f64, f64)], colour: &str, width: f64) {
        self.styled(
            svg,
            points,
            &format!("stroke=\"{colour}\" stroke-width=\"{width}\""),
        );
    }

    pub fn styled(&self, svg: &mut Svg, points: &[(f64, f64)], style: &str) {
        let style = format!("fill=\"none\" stroke-linejoin=\"round\" {style}");
        svg.path(&self.points(points), &style);
    }

    /// Filled down to the frame's lower edge.
    pub fn filled(&self, svg: &mut Svg, points: &[(f64, f64)], colour: &str) {
        let (Some(first), Some(last)) = (points.first(), points.last()) else {
            return;
        };
        let foot = n(self.area.bottom());
        let d = format!(
            "{}L{} {foot}L{} {foot}Z",
            self.points(points),
            n(self.px(last.0)),
            n(self.px(first.0))
        );
        svg.path(&d, &format!("fill=\"{colour}\""));
    }

    /// A dashed line from side to side.
    pub fn level(&self, svg: &mut Svg, v: f64, colour: &str) {
        let py = self.py(v);
        svg.segment((self.area.x, py), (self.area.right(), py), &dashed(colour));
    }

    /// A dashed line from top to bottom.
    pub fn moment(&self, svg: &mut Svg, v: f64, colour: &str) {
        let px = self.px(v);
        svg.segment((px, self.area.y), (px, self.area.bottom()), &dashed(colour));
    }
}

pub fn dashed(colour: &str) -> String {
    format!("stroke=\"{colour}\" stroke-width=\"1.5\" stroke-dasharray=\"6 4\"")
}

/// A tick's number: 1000 as 1,000, and -3 with a true minus.
fn tick(v: f64) -> String {
    let text = if v.abs() >= 1000.0 {
        crate::numbers::grouped(v.abs() as u64)
    } else {
        format!("{}", v.abs())
    };
    if v < 0.0 {
        format!("\u{2212}{text}")
    } else {
        text
    }
}
