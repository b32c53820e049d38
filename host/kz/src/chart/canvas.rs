//! The elements of a drawing in SVG 1.1, written one behind the other.

use std::fmt::Write;

use super::labels::Rise;

/// A drawing that is being written.
#[derive(Debug, Default)]
pub(super) struct Canvas {
    elements: String,
}

/// Where a text stands about its point.
#[derive(Clone, Copy, Debug)]
pub(super) enum Anchor {
    Start,
    Middle,
}

/// A rectangle by its left upper corner.
#[derive(Clone, Copy, Debug)]
pub(super) struct Area {
    pub x: f64,
    pub y: f64,
    pub width: f64,
    pub height: f64,
}

impl Canvas {
    /// Everything written so far.
    pub fn into_elements(self) -> String {
        self.elements
    }

    /// What is drawn inside belongs together under a class and, where one is given, a name that
    /// viewers show.
    pub fn group(&mut self, class: &str, name: &str, inside: impl FnOnce(&mut Canvas)) {
        self.put(format_args!("<g class=\"{class}\">"));
        if !name.is_empty() {
            self.put(format_args!("<title>{}</title>", escaped(name)));
        }
        inside(self);
        self.put(format_args!("</g>"));
    }

    pub fn area(&mut self, class: &str, area: Area) {
        let Area { x, y, width, height } = area;
        self.put(format_args!(
            "<rect class=\"{class}\" x=\"{x:.1}\" y=\"{y:.1}\" width=\"{width:.1}\" height=\"{height:.1}\"/>"
        ));
    }

    pub fn line(&mut self, class: &str, from: (f64, f64), to: (f64, f64)) {
        let ((x1, y1), (x2, y2)) = (from, to);
        self.put(format_args!(
            "<line class=\"{class}\" x1=\"{x1:.1}\" y1=\"{y1:.1}\" x2=\"{x2:.1}\" y2=\"{y2:.1}\"/>"
        ));
    }

    pub fn polygon(&mut self, class: &str, points: &[(f64, f64)]) {
        let points: Vec<String> = points.iter().map(|(x, y)| format!("{x:.1},{y:.1}")).collect();
        self.put(format_args!("<polygon class=\"{class}\" points=\"{}\"/>", points.join(" ")));
    }

    pub fn text(&mut self, class: &str, at: (f64, f64), anchor: Anchor, text: &str) {
        let (x, y) = at;
        let anchor = match anchor {
            Anchor::Start => "start",
            Anchor::Middle => "middle",
        };
        self.put(format_args!(
            "<text class=\"{class}\" x=\"{x:.1}\" y=\"{y:.1}\" text-anchor=\"{anchor}\">{}</text>",
            escaped(text)
        ));
    }

    /// A text that rises from its point.
    pub fn rising_text(&mut self, class: &str, at: (f64, f64), rise: Rise, text: &str) {
        let (x, y) = at;
        let Rise { degrees, size, .. } = rise;
        self.put(format_args!(
            "<text class=\"{class}\" transform=\"translate({x:.1} {y:.1}) rotate(-{degrees})\" \
             font-size=\"{size:.1}\">{}</text>",
            escaped(text)
        ));
    }

    fn put(&mut self, element: std::fmt::Arguments<'_>) {
        writeln!(self.elements, "{element}").expect("a string takes everything");
    }
}

/// A text as XML holds it. Characters that XML cannot hold become a question mark in a diamond.
pub(super) fn escaped(text: &str) -> String {
    let mut escaped = String::with_capacity(text.len());
    for character in text.chars() {
        match character {
            '&' => escaped.push_str("&amp;"),
            '<' => escaped.push_str("&lt;"),
            '>' => escaped.push_str("&gt;"),
            '"' => escaped.push_str("&quot;"),
            '\u{FFFE}' | '\u{FFFF}' => escaped.push(char::REPLACEMENT_CHARACTER),
            other if other.is_control() => escaped.push(char::REPLACEMENT_CHARACTER),
            other => escaped.push(other),
        }
    }
    escaped
}

#[cfg(test)]
mod tests {
    use super::escaped;

    #[test]
    fn what_xml_reads_as_marks_is_written_by_name() {
        assert_eq!(escaped("<A&B \"C\">"), "&lt;A&amp;B &quot;C&quot;&gt;");
        assert_eq!(escaped("caf\u{e9}\u{0}\u{FFFE}"), "caf\u{e9}\u{FFFD}\u{FFFD}");
    }
}
