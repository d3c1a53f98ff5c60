//! The few elements of SVG 1.1 that the pictures are made of.

use std::fmt::Write;

const FONTS: &str = "Helvetica, Arial, 'DejaVu Sans', sans-serif";

/// A page that elements are put on, the later ones above.
pub struct Page {
    head: String,
    body: String,
}

impl Page {
    /// A white page of some width and height, with a title.
    pub fn new((width, height): (f64, f64), title: &str) -> Page {
        let (width, height) = (number(width), number(height));
        let head = format!(
            "<svg xmlns=\"http://www.w3.org/2000/svg\" version=\"1.1\" width=\"{width}\" \
             height=\"{height}\" viewBox=\"0 0 {width} {height}\" font-family=\"{FONTS}\" \
             font-size=\"12\" fill=\"#222\">\n<title>{}</title>\n\
             <rect width=\"{width}\" height=\"{height}\" fill=\"#fff\"/>\n",
            escaped(title)
        );
        let body = String::new();
        Page { head, body }
    }

    pub fn put(&mut self, element: &str) {
        self.body.push_str(element);
        self.body.push('\n');
    }

    /// A title and a line below it, at the top of the page.
    pub fn heading(&mut self, left: f64, title: &str, below: &str) {
        let large = "font-size=\"18\" font-weight=\"bold\"";
        self.text((left, 32.0), large, title);
        self.text((left, 52.0), "", below);
    }

    /// Words at a place, with more attributes.
    pub fn text(&mut self, (x, y): (f64, f64), attributes: &str, words: &str) {
        let (x, y, words) = (number(x), number(y), escaped(words));
        let space = if attributes.is_empty() { "" } else { " " };
        self.put(&format!(
            "<text x=\"{x}\" y=\"{y}\"{space}{attributes}>{words}</text>"
        ));
    }

    /// Words that are read from below, with their middle at a place.
    pub fn upright(&mut self, (x, y): (f64, f64), attributes: &str, words: &str) {
        let turn = format!("rotate(-90 {} {})", number(x), number(y));
        let space = if attributes.is_empty() { "" } else { " " };
        let all = format!("text-anchor=\"middle\" transform=\"{turn}\"{space}{attributes}");
        self.text((x, y), &all, words);
    }

    pub fn path(&mut self, path: &Path, attributes: &str) {
        self.put(&format!("<path d=\"{}\" {attributes}/>", path.data));
    }

    /// A path with the words that a browser shows while the pointer is on it.
    pub fn titled_path(&mut self, path: &Path, title: Option<&str>) {
        let data = &path.data;
        match title.map(escaped) {
            Some(title) => self.put(&format!("<path d=\"{data}\"><title>{title}</title></path>")),
            None => self.put(&format!("<path d=\"{data}\"/>")),
        }
    }

    /// The file's text.
    pub fn finish(self) -> String {
        format!("{}{}</svg>\n", self.head, self.body)
    }
}

/// The data of a path of straight lines.
#[derive(Default)]
pub struct Path {
    data: String,
}

impl Path {
    #[cfg(test)]
    pub fn data(&self) -> &str {
        &self.data
    }

    pub fn start(&mut self, x: f64, y: f64) {
        self.add(format_args!("M{} {}", number(x), number(y)));
    }

    pub fn across_to(&mut self, x: f64) {
        self.add(format_args!("H{}", number(x)));
    }

    pub fn across_by(&mut self, width: f64) {
        self.add(format_args!("h{}", number(width)));
    }

    pub fn down_to(&mut self, y: f64) {
        self.add(format_args!("V{}", number(y)));
    }

    fn add(&mut self, piece: std::fmt::Arguments) {
        self.data
            .write_fmt(piece)
            .expect("a string takes what is written");
    }
}

/// A dot around a place.
pub fn dot((x, y): (f64, f64), attributes: &str) -> String {
    let (x, y) = (number(x), number(y));
    format!("<circle cx=\"{x}\" cy=\"{y}\" r=\"2.5\" {attributes}/>")
}

/// A number of the picture: at most two digits after the point, and none that is not needed.
pub fn number(value: f64) -> String {
    trimmed(format!("{value:.2}"))
}

/// A number for readers: at most three digits after the point.
pub fn decimal(value: f64) -> String {
    trimmed(format!("{value:.3}"))
}

/// The same with its sign.
pub fn signed(value: f64) -> String {
    let digits = decimal(value);
    if digits == "0" {
        return digits;
    }
    match digits.strip_prefix('-') {
        Some(rest) => format!("\u{2212}{rest}"),
        None => format!("+{digits}"),
    }
}

/// The digits of a number with a point, without the needless ones.
fn trimmed(digits: String) -> String {
    let short = digits.trim_end_matches('0').trim_end_matches('.');
    match short {
        "-0" => "0".to_string(),
        _ => short.to_string(),
    }
}

/// A whole number with a comma before every three digits, for readers.
pub fn grouped(value: usize) -> String {
    if value < 1_000 {
        return value.to_string();
    }
    format!("{},{:03}", grouped(value / 1_000), value % 1_000)
}

/// A number and a word for that many, which ends in s but for one.
pub fn count(value: usize, word: &str) -> String {
    let ending = if value == 1 { "" } else { "s" };
    format!("{} {word}{ending}", grouped(value))
}

/// About the width of words that are one high, in the widest of the fonts.
pub fn width_of(words: &str) -> f64 {
    let width = |letter: char| match letter {
        'l' | ' ' | ',' => 0.32,
        '\u{2192}' => 0.84,
        _ => 0.64,
    };
    words.chars().map(width).sum()
}

fn escaped(words: &str) -> String {
    words
        .replace('&', "&amp;")
        .replace('<', "&lt;")
        .replace('>', "&gt;")
}

#[cfg(test)]
mod tests {
    use super::*;

    #[test]
    fn numbers_have_no_needless_digits() {
        let shown = [3.0, 0.1 + 0.2, -0.001, 10.0 / 3.0, 100.0, -2.5].map(number);
        assert_eq!(shown, ["3", "0.3", "0", "3.33", "100", "-2.5"]);
        let shown = [0.5, 0.0, -5.0 / 3.0].map(signed);
        assert_eq!(shown, ["+0.5", "0", "\u{2212}1.667"]);
        assert_eq!(count(1, "slot"), "1 slot");
        assert_eq!(count(1_024, "slot"), "1,024 slots");
    }

    #[test]
    fn words_are_escaped() {
        let mut page = Page::new((10.0, 20.0), "a < b & c");
        page.text((1.5, 2.0), "", "<>");
        let text = page.finish();
        assert!(text.contains("<title>a &lt; b &amp; c</title>"));
        assert!(text.contains("<text x=\"1.5\" y=\"2\">&lt;&gt;</text>"));
    }

    #[test]
    fn a_path_is_its_pieces() {
        let mut path = Path::default();
        path.start(1.0, 2.0);
        path.across_to(5.0);
        path.across_by(6.0);
        path.down_to(7.0);
        assert_eq!(path.data(), "M1 2H5h6V7");
    }
}
