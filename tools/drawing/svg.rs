//! A small writer of SVG elements. Every text is escaped; numbers have one decimal at most.

use std::fmt::Write;

#[derive(Default)]
pub struct Svg {
    pub text: String,
}

/// A text as it stands between tags or in an attribute. What XML has no place for becomes a blank.
pub fn escaped(text: &str) -> String {
    let mut escaped = String::new();
    for c in text.chars() {
        match c {
            '&' => escaped += "&amp;",
            '<' => escaped += "&lt;",
            '>' => escaped += "&gt;",
            '"' => escaped += "&quot;",
            '\n' => escaped.push(c),
            c if c.is_control() || matches!(c, '\u{FFFE}' | '\u{FFFF}') => escaped.push(' '),
            c => escaped.push(c),
        }
    }
    escaped
}

/// A length in pixels.
pub fn pixels(value: f64) -> String {
    let text = format!("{value:.1}");
    let text = text.strip_suffix(".0").unwrap_or(&text);
    if text == "-0" {
        "0".into()
    } else {
        text.into()
    }
}

fn attributes(pairs: &[(&str, f64)]) -> String {
    pairs.iter().fold(String::new(), |mut text, (name, value)| {
        let _ = write!(text, " {name}=\"{}\"", pixels(*value));
        text
    })
}

fn list(points: &[(f64, f64)]) -> String {
    points.iter().map(|(x, y)| format!("{},{}", pixels(*x), pixels(*y))).collect::<Vec<_>>().join(" ")
}

impl Svg {
    fn element(&mut self, name: &str, class: &str, numbers: &[(&str, f64)]) {
        self.text += &format!("<{name} class=\"{class}\"{}/>\n", attributes(numbers));
    }

    pub fn rect(&mut self, class: &str, x: f64, y: f64, width: f64, height: f64) {
        self.element("rect", class, &[("x", x), ("y", y), ("width", width), ("height", height)]);
    }

    pub fn line(&mut self, class: &str, (x1, y1): (f64, f64), (x2, y2): (f64, f64)) {
        self.element("line", class, &[("x1", x1), ("y1", y1), ("x2", x2), ("y2", y2)]);
    }

    pub fn circle(&mut self, class: &str, x: f64, y: f64, radius: f64) {
        self.element("circle", class, &[("cx", x), ("cy", y), ("r", radius)]);
    }

    pub fn polyline(&mut self, class: &str, points: &[(f64, f64)]) {
        if points.len() < 2 {
            return;
        }
        self.text += &format!("<polyline class=\"{class}\" points=\"{}\"/>\n", list(points));
    }

    pub fn polygon(&mut self, class: &str, points: &[(f64, f64)]) {
        self.text += &format!("<polygon class=\"{class}\" points=\"{}\"/>\n", list(points));
    }

    pub fn text(&mut self, class: &str, x: f64, y: f64, text: &str) {
        let at = attributes(&[("x", x), ("y", y)]);
        self.text += &format!("<text class=\"{class}\"{at}>{}</text>\n", escaped(text));
    }

    /// A text that runs from below to above.
    pub fn upward(&mut self, class: &str, x: f64, y: f64, text: &str) {
        let turned = format!("translate({} {}) rotate(-90)", pixels(x), pixels(y));
        self.text += &format!("<text class=\"{class}\" transform=\"{turned}\">{}</text>\n", escaped(text));
    }

    /// What `inside` draws, told by `title` where the pointer rests on it.
    pub fn titled(&mut self, title: &str, inside: impl FnOnce(&mut Svg)) {
        self.text += &format!("<g><title>{}</title>\n", escaped(title));
        inside(self);
        self.text += "</g>\n";
    }

    /// The same with a name that a link may lead to.
    pub fn named(&mut self, name: &str, title: &str, inside: impl FnOnce(&mut Svg)) {
        self.text += &format!("<g id=\"{}\"><title>{}</title>\n", escaped(name), escaped(title));
        inside(self);
        self.text += "</g>\n";
    }

    pub fn linked(&mut self, to: &str, inside: impl FnOnce(&mut Svg)) {
        self.text += &format!("<a href=\"{}\">", escaped(to));
        inside(self);
        self.text += "</a>\n";
    }

    pub fn shifted(&mut self, x: f64, y: f64, part: &Svg) {
        self.text += &format!("<g transform=\"translate({} {})\">\n{}</g>\n", pixels(x), pixels(y), part.text);
    }
}
