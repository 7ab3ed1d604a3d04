//! The elements that pictures and pages are made of, as text.

use std::fmt::Write as _;

/// A text in which nothing means anything to a browser.
pub fn escaped(text: &str) -> String {
    let mut out = String::with_capacity(text.len());
    for character in text.chars() {
        match character {
            '<' => out.push_str("&lt;"),
            '>' => out.push_str("&gt;"),
            '&' => out.push_str("&amp;"),
            '"' => out.push_str("&quot;"),
            '\'' => out.push_str("&#39;"),
            control if control.is_control() => out.push(' '),
            other => out.push(other),
        }
    }
    out
}

/// A picture that is being drawn.
pub struct Svg {
    out: String,
}

impl Svg {
    /// A picture so wide and high, with these rules of style on a white ground. What it is of stands in
    /// it as its title, for those who do not see it.
    pub fn new(width: u64, height: u64, title: &str, style: &str) -> Svg {
        let out = format!(
            "<svg xmlns=\"http://www.w3.org/2000/svg\" viewBox=\"0 0 {width} {height}\" \
             width=\"{width}\" height=\"{height}\" font-family=\"DejaVu Sans, Segoe UI, sans-serif\" \
             font-size=\"13\" role=\"img\">\n<title>{}</title>\n<style>{style}</style>\n<rect \
             width=\"100%\" height=\"100%\" style=\"fill:#fff\"/>\n",
            escaped(title)
        );
        Svg { out }
    }

    /// A text at this place, of a class.
    pub fn text(&mut self, class: &str, x: u64, y: u64, text: &str) {
        let class = if class.is_empty() { String::new() } else { format!(" class=\"{class}\"") };
        let _ = writeln!(self.out, "<text{class} x=\"{x}\" y=\"{y}\">{}</text>", escaped(text));
    }

    /// A rectangle of a class.
    pub fn rect(&mut self, class: &str, [x, y, width, height]: [u64; 4]) {
        let _ = writeln!(
            self.out,
            "<rect class=\"{class}\" x=\"{x}\" y=\"{y}\" width=\"{width}\" height=\"{height}\"/>"
        );
    }

    /// A path of a class; none where there is nothing in it.
    pub fn path(&mut self, class: &str, path: &str) {
        if !path.is_empty() {
            let _ = writeln!(self.out, "<path class=\"{class}\" d=\"{path}\"/>");
        }
    }

    /// The picture.
    pub fn end(mut self) -> String {
        self.out.push_str("</svg>\n");
        self.out
    }
}

#[cfg(test)]
mod tests {
    use super::*;

    #[test]
    fn nothing_of_a_name_is_markup() {
        assert_eq!(escaped("<b a='\"'>&\n"), "&lt;b a=&#39;&quot;&#39;&gt;&amp; ");
    }
}
