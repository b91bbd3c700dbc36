//! The elements of an SVG document.

use std::fmt::{Arguments, Write};

/// The fills that are patterns: lines and dots that differ in grey too.
const PATTERNS: &str = r##"<defs>
<pattern id="pagezero" width="6" height="6" patternUnits="userSpaceOnUse"><rect width="6" height="6" fill="#e4e4e4"/><path d="M3 0V6" stroke="#707070" stroke-width="1"/></pattern>
<pattern id="free" width="8" height="8" patternUnits="userSpaceOnUse"><rect width="8" height="8" fill="#ffffff"/><circle cx="4" cy="4" r="1" fill="#808080"/></pattern>
<pattern id="user" width="8" height="8" patternUnits="userSpaceOnUse"><rect width="8" height="8" fill="#dcebf7"/><path d="M-2 6L2 10M-2 -2L10 10M6 -2L10 2" stroke="#4a6f8f" stroke-width="1.2"/></pattern>
<pattern id="device" width="8" height="8" patternUnits="userSpaceOnUse"><rect width="8" height="8" fill="#efe0f2"/><path d="M0 4H8M4 0V8" stroke="#6b4675" stroke-width="1.2"/></pattern>
<pattern id="linked" width="4" height="4" patternUnits="userSpaceOnUse"><rect width="4" height="4" fill="#ffffff"/><path d="M-1 1L1 -1M-1 5L5 -1M3 5L5 3" stroke="#303030" stroke-width="1"/></pattern>
<pattern id="above" width="6" height="6" patternUnits="userSpaceOnUse"><rect width="6" height="6" fill="#f0f0f0"/><path d="M0 3H6" stroke="#808080" stroke-width="1"/></pattern>
</defs>
"##;

/// The place and look of a text.
#[derive(Clone, Copy)]
pub(super) struct Text {
    x: f64,
    y: f64,
    size: u8,
    anchor: &'static str,
    weight: &'static str,
}

impl Text {
    pub(super) fn at(x: f64, y: f64, size: u8) -> Text {
        Text {
            x,
            y,
            size,
            anchor: "start",
            weight: "normal",
        }
    }

    pub(super) fn bold(self) -> Text {
        Text {
            weight: "bold",
            ..self
        }
    }

    /// The text ends at its place.
    pub(super) fn to_the_left(self) -> Text {
        Text {
            anchor: "end",
            ..self
        }
    }
}

/// The elements drawn so far.
#[derive(Default)]
pub(super) struct Drawing {
    elements: String,
}

impl Drawing {
    fn put(&mut self, element: Arguments) {
        // writing to a string does not fail
        let _ = writeln!(self.elements, "{element}");
    }

    pub(super) fn text(&mut self, text: Text, words: &str) {
        let Text { x, y, size, .. } = text;
        let Text { anchor, weight, .. } = text;
        let words = escaped(words);
        self.put(format_args!(
            r#"<text x="{x:.1}" y="{y:.1}" font-size="{size}" text-anchor="{anchor}" font-weight="{weight}">{words}</text>"#
        ));
    }

    /// A box with a thin edge.
    pub(super) fn rect(&mut self, x: f64, y: f64, width: f64, height: f64, fill: &str) {
        self.put(format_args!(
            r##"<rect x="{x:.1}" y="{y:.3}" width="{width:.1}" height="{height:.3}" fill="{fill}" stroke="#000000" stroke-width="0.5"/>"##
        ));
    }

    /// A thin line that goes on level and then turns to another height.
    pub(super) fn leader(&mut self, start: (f64, f64), turn: f64, end: (f64, f64)) {
        let ((x, y), (to_x, to_y)) = (start, end);
        self.put(format_args!(
            r##"<path d="M{x:.1} {y:.1}H{turn:.1}L{to_x:.1} {to_y:.1}" fill="none" stroke="#000000" stroke-width="0.6"/>"##
        ));
    }

    /// An arrow whose point is here, to the right.
    pub(super) fn arrow(&mut self, x: f64, y: f64) {
        self.put(format_args!(
            r##"<path d="M{x:.1} {y:.1}l-9 -4v8z" fill="#000000"/>"##
        ));
    }

    pub(super) fn document(self, title: &str, width: f64, height: f64) -> String {
        format!(
            r##"<?xml version="1.0" encoding="UTF-8"?>
<svg xmlns="http://www.w3.org/2000/svg" width="{width:.0}" height="{height:.0}" viewBox="0 0 {width:.0} {height:.0}" font-family="sans-serif">
<title>{}</title>
{PATTERNS}<rect width="100%" height="100%" fill="#ffffff"/>
{}</svg>
"##,
            escaped(title),
            self.elements
        )
    }
}

/// Text as XML takes it.
fn escaped(words: &str) -> String {
    let mut text = String::new();
    for c in words.chars() {
        match c {
            '&' => text.push_str("&amp;"),
            '<' => text.push_str("&lt;"),
            '>' => text.push_str("&gt;"),
            '"' => text.push_str("&quot;"),
            c => text.push(c),
        }
    }
    text
}

#[cfg(test)]
mod tests {
    use super::*;

    #[test]
    fn words_are_escaped() {
        assert_eq!(escaped("<\"&\">a"), "&lt;&quot;&amp;&quot;&gt;a");
    }

    #[test]
    fn a_document() {
        let mut drawing = Drawing::default();
        drawing.text(Text::at(1.0, 2.0, 3).bold(), "a<b");
        let document = drawing.document("x&y", 10.0, 20.0);
        assert!(document.contains("viewBox=\"0 0 10 20\""));
        assert!(document.contains("<title>x&amp;y</title>"));
        assert!(document.contains("<text x=\"1.0\" y=\"2.0\" font-size=\"3\" text-anchor=\"start\" font-weight=\"bold\">a&lt;b</text>\n</svg>\n"));
    }
}
