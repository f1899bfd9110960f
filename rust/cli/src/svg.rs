//! Drawings as SVG: boxes, lines, curves and words, with places in whole pixels.

use std::fmt::{Display, Write};

/// A drawing that grows as things are put on it.
#[derive(Default)]
pub struct Svg {
    body: String,
}

/// Where a text stands from its place.
#[derive(Clone, Copy)]
pub enum Anchor {
    /// The place is its beginning.
    Start,
    /// The place is its middle.
    Middle,
    /// The place is its end.
    End,
}

impl Svg {
    /// Puts a box, with the class that gives its colours.
    pub fn rect(&mut self, (x, y): (i32, i32), (width, height): (i32, i32), class: &str) {
        self.put(&format!(
            r#"<rect x="{x}" y="{y}" width="{width}" height="{height}" rx="3" class="{class}"/>"#
        ));
    }

    /// Puts a path, as SVG spells it.
    pub fn path(&mut self, path: &str, class: &str) {
        self.put(&format!(r#"<path d="{path}" class="{class}"/>"#));
    }

    /// Puts a straight line.
    pub fn line(&mut self, (x, y): (i32, i32), (to_x, to_y): (i32, i32), class: &str) {
        self.path(&format!("M{x} {y}L{to_x} {to_y}"), class);
    }

    /// Puts a dot.
    pub fn dot(&mut self, (x, y): (i32, i32), class: &str) {
        self.put(&format!(r#"<circle cx="{x}" cy="{y}" r="4" class="{class}"/>"#));
    }

    /// Puts a text.
    pub fn text(&mut self, (x, y): (i32, i32), anchor: Anchor, class: &str, text: impl Display) {
        let anchor = match anchor {
            Anchor::Start => "start",
            Anchor::Middle => "middle",
            Anchor::End => "end",
        };
        let text = escaped(&text.to_string());
        self.put(&format!(
            r#"<text x="{x}" y="{y}" text-anchor="{anchor}" class="{class}">{text}</text>"#
        ));
    }

    fn put(&mut self, element: &str) {
        self.body.push_str(element);
        self.body.push('\n');
    }

    /// The whole file: the drawing on white, with a title for those who cannot see it.
    pub fn finish(&self, (width, height): (i32, i32), title: &str, style: &str) -> String {
        let mut file = String::new();
        let title = escaped(title);
        write!(
            file,
            "<svg xmlns=\"http://www.w3.org/2000/svg\" width=\"{width}\" height=\"{height}\" \
             viewBox=\"0 0 {width} {height}\" role=\"img\">\n<title>{title}</title>\n\
             <style>\n{style}</style>\n<rect width=\"{width}\" height=\"{height}\" fill=\"#fff\"/>\n{}</svg>\n",
            self.body
        )
        .expect("a text takes all");
        file
    }
}

/// A text with the letters that mean something to XML written otherwise, and without those that it
/// does not allow.
fn escaped(text: &str) -> String {
    let mut safe = String::new();
    for letter in text.chars() {
        match letter {
            '&' => safe.push_str("&amp;"),
            '<' => safe.push_str("&lt;"),
            '>' => safe.push_str("&gt;"),
            '"' => safe.push_str("&quot;"),
            letter if letter.is_control() || matches!(letter, '\u{fffe}' | '\u{ffff}') => {
                safe.push('\u{fffd}')
            }
            letter => safe.push(letter),
        }
    }
    safe
}

#[cfg(test)]
mod tests {
    use super::*;

    #[test]
    fn texts_are_safe() {
        let mut svg = Svg::default();
        svg.text((1, 2), Anchor::End, "small", "<b> & \"\u{1}\"");
        let file = svg.finish((10, 20), "a < b", ".small { fill: red }\n");
        assert!(file.contains("&lt;b&gt; &amp; &quot;\u{fffd}&quot;</text>"), "{file}");
        assert!(file.contains("<title>a &lt; b</title>") && file.ends_with("</svg>\n"));
    }
}
