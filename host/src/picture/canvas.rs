//! Shapes of a picture on the day's time axis.

use std::fmt::Write;

/// Where the time axis begins, how wide it is, and how wide the picture.
pub const LEFT: f64 = 190.0;
pub const WIDE: f64 = 960.0;
pub const PAGE: f64 = 1200.0;

pub const CURVE: &str = "#e3d3b5";
pub const BROKEN: &str = "#b2182b";
pub const LINK: &str = "url(#link)";
pub const APART: &str = "url(#apart)";

/// Hatchings that no set's colour can be taken for.
const HATCHES: &str = "<defs>\
<pattern id='apart' width='6' height='6' patternUnits='userSpaceOnUse' patternTransform='rotate(45)'>\
<rect width='6' height='6' fill='white' fill-opacity='0.55'/>\
<rect width='2.2' height='6' fill='#b2182b'/></pattern>\
<pattern id='link' width='5' height='5' patternUnits='userSpaceOnUse'>\
<rect width='5' height='5' fill='#efe9f7'/><circle cx='2.5' cy='2.5' r='1.3' fill='#5e3c99'/></pattern>\
</defs>\n";

/// A part of the time axis: left edge and width.
#[derive(Clone, Copy)]
pub struct Span {
    pub left: f64,
    pub width: f64,
}

/// From top to bottom.
#[derive(Clone, Copy)]
pub struct Band {
    pub top: f64,
    pub height: f64,
}

pub struct Canvas {
    shapes: String,
    /// The minutes at which intervals start, and the day's end.
    pub moments: Vec<i64>,
}

impl Canvas {
    pub fn new(moments: Vec<i64>) -> Canvas {
        Canvas {
            shapes: String::new(),
            moments,
        }
    }

    pub fn intervals(&self) -> usize {
        self.moments.len() - 1
    }

    /// The minutes of the day.
    pub fn day(&self) -> i64 {
        self.moments.last().copied().unwrap_or(0).max(1)
    }

    pub fn x(&self, minute: i64) -> f64 {
        LEFT + WIDE * minute as f64 / self.day() as f64
    }

    /// Intervals from one to before another.
    pub fn span(&self, from: usize, until: usize) -> Span {
        let left = self.x(self.moments[from]);
        let width = self.x(self.moments[until]) - left;
        Span { left, width }
    }

    fn put(&mut self, shape: std::fmt::Arguments) {
        // Writing to a string does not fail.
        let _ = self.shapes.write_fmt(shape);
        self.shapes.push('\n');
    }

    pub fn text(&mut self, x: f64, y: f64, how: &str, words: &str) {
        let words = escaped(words);
        self.put(format_args!(
            "<text x='{x:.1}' y='{y:.1}' {how}>{words}</text>"
        ));
    }

    /// A rectangle; its title is shown under the pointer.
    pub fn rect(&mut self, span: Span, band: Band, how: &str, title: &str) {
        let title = match title {
            "" => String::new(),
            title => format!("<title>{}</title>", escaped(title)),
        };
        let Span { left, width } = span;
        let Band { top, height } = band;
        self.put(format_args!(
            "<rect x='{left:.1}' y='{top:.1}' width='{width:.1}' height='{height:.1}' {how}>{title}</rect>"
        ));
    }

    pub fn path(&mut self, d: &str, how: &str, title: &str) {
        let title = escaped(title);
        self.put(format_args!(
            "<path d='{d}' fill='none' {how}><title>{title}</title></path>"
        ));
    }

    /// What follows belongs together, under a class.
    pub fn open(&mut self, class: &str) {
        self.put(format_args!("<g class='{class}'>"));
    }

    pub fn close(&mut self) {
        self.put(format_args!("</g>"));
    }

    /// A line that goes level through each interval.
    pub fn steps(&self, height: impl Fn(usize) -> f64) -> String {
        let step = |t: usize| {
            let letter = if t == 0 { 'M' } else { 'L' };
            let (from, until) = (self.x(self.moments[t]), self.x(self.moments[t + 1]));
            format!("{letter}{from:.1} {:.1} H{until:.1}", height(t))
        };
        let steps: Vec<String> = (0..self.intervals()).map(step).collect();
        steps.join(" ")
    }

    /// The picture, so high.
    pub fn finish(self, high: f64) -> String {
        format!(
            "<svg xmlns='http://www.w3.org/2000/svg' viewBox='0 0 {PAGE} {high:.0}' \
             font-family='DejaVu Sans, Verdana, sans-serif' font-size='11'>\n\
             <rect width='{PAGE}' height='{high:.0}' fill='white'/>\n{HATCHES}{}</svg>\n",
            self.shapes
        )
    }
}

/// Letters that the picture's language would act on, or that it may not have.
pub fn escaped(text: &str) -> String {
    let mut out = String::with_capacity(text.len());
    for letter in text.chars() {
        match letter {
            '&' => out.push_str("&amp;"),
            '<' => out.push_str("&lt;"),
            '>' => out.push_str("&gt;"),
            '\'' => out.push_str("&#39;"),
            '"' => out.push_str("&quot;"),
            letter if letter.is_control() => out.push('\u{fffd}'),
            letter => out.push(letter),
        }
    }
    out
}

/// At most so many letters.
pub fn cut(text: &str, most: usize) -> String {
    if text.chars().count() <= most {
        return text.to_string();
    }
    text.chars().take(most - 1).chain(['…']).collect()
}

/// A round step of which a range has at most so many.
pub fn round_step(range: i64, most: i64) -> i64 {
    let mut ten = 1;
    loop {
        let steps = [1, 2, 5].map(|part| part * ten);
        if let Some(step) = steps.into_iter().find(|step| range / step <= most) {
            return step;
        }
        ten *= 10;
    }
}

#[cfg(test)]
mod tests {
    use super::{cut, escaped, round_step};

    #[test]
    fn letters_are_escaped() {
        assert_eq!(
            escaped("<a & 'b'>\u{1b}"),
            "&lt;a &amp; &#39;b&#39;&gt;\u{fffd}"
        );
        assert_eq!(cut("Diesel A", 8), "Diesel A");
        assert_eq!(cut("Diesel AB", 8), "Diesel …");
    }

    #[test]
    fn steps_are_round() {
        for (range, step) in [
            (1, 1),
            (5, 1),
            (9, 2),
            (30, 10),
            (100, 20),
            (101, 20),
            (6_400, 2_000),
        ] {
            assert_eq!(round_step(range, 5), step, "{range}");
        }
    }
}
