//! Elements and text of an SVG file.

use std::collections::BTreeSet;

/// Lengths and places, in pixels.
pub type Px = i64;

/// Writes elements one after the other.
#[derive(Default)]
pub struct Svg {
    text: String,
    /// Every class that an element has.
    classes: BTreeSet<String>,
}

/// Where a text stands relative to its point.
#[derive(Debug, Clone, Copy, PartialEq, Eq)]
pub enum Anchor {
    Start,
    Middle,
    /// Begins at the point and goes up.
    Up,
}

impl Svg {
    /// Begins an element that has others in it. Attributes are pairs of a name and a value.
    pub fn open(&mut self, name: &str, class: &str, attributes: &[(&str, &str)]) {
        self.tag(name, class, attributes, ">\n");
    }

    /// Ends an element that was begun.
    pub fn close(&mut self, name: &str) {
        self.text.push_str(&format!("</{}>\n", name));
    }

    /// An element with nothing in it.
    pub fn element(&mut self, name: &str, class: &str, attributes: &[(&str, &str)]) {
        self.tag(name, class, attributes, "/>\n");
    }

    /// Whether an element with this class was written.
    pub fn has(&self, class: &str) -> bool {
        self.classes.contains(class)
    }

    /// An element that has nothing but a text in it, with a name for references.
    pub fn words(&mut self, name: &str, id: &str, words: &str) {
        let after = format!(">{}</{}>\n", escaped(words), name);
        self.tag(name, "", &[("id", id)], &after);
    }

    /// The words that the pointer shows over the element that is open.
    pub fn title(&mut self, words: &str) {
        self.text
            .push_str(&format!("<title>{}</title>\n", escaped(words)));
    }

    /// A text of this size at a point.
    pub fn text(&mut self, class: &str, x: Px, y: Px, size: Px, anchor: Anchor, words: &str) {
        let (x, y) = (x.to_string(), y.to_string());
        let size = size.to_string();
        let turned = format!("rotate(-90 {} {})", x, y);
        let mut attributes = vec![("x", &x[..]), ("y", &y[..]), ("font-size", &size[..])];
        match anchor {
            Anchor::Start => (),
            Anchor::Middle => attributes.push(("text-anchor", "middle")),
            Anchor::Up => attributes.push(("transform", &turned)),
        }
        let after = format!(">{}</text>\n", escaped(words));
        self.tag("text", class, &attributes, &after);
    }

    /// A rectangle.
    pub fn rectangle(&mut self, class: &str, x: Px, y: Px, width: Px, height: Px) {
        let attributes = rectangle(x, y, width, height);
        self.element("rect", class, &borrowed(&attributes));
    }

    /// A rectangle with words of its own.
    pub fn titled_rectangle(
        &mut self,
        class: &str,
        x: Px,
        y: Px,
        width: Px,
        height: Px,
        words: &str,
    ) {
        let attributes = rectangle(x, y, width, height);
        self.open("rect", class, &borrowed(&attributes));
        self.title(words);
        self.close("rect");
    }

    /// A path, given in SVG's own letters.
    pub fn path(&mut self, class: &str, path: &str) {
        self.element("path", class, &[("d", path)]);
    }

    /// A text that is an element's whole content and needs no escape, such as a style sheet.
    pub fn plain(&mut self, name: &str, content: &str) {
        self.text
            .push_str(&format!("<{}>\n{}</{}>\n", name, content, name));
    }

    /// All that was written.
    pub fn into_text(self) -> String {
        self.text
    }

    fn tag(&mut self, name: &str, class: &str, attributes: &[(&str, &str)], end: &str) {
        self.text.push_str(&format!("<{}", name));
        if !class.is_empty() {
            self.text.push_str(&format!(" class=\"{}\"", class));
            self.classes.extend(class.split(' ').map(String::from));
        }
        for (attribute, value) in attributes {
            self.text
                .push_str(&format!(" {}=\"{}\"", attribute, escaped(value)));
        }
        self.text.push_str(end);
    }
}

/// A rectangle's attributes.
fn rectangle(x: Px, y: Px, width: Px, height: Px) -> [(&'static str, String); 4] {
    [
        ("x", x.to_string()),
        ("y", y.to_string()),
        ("width", width.to_string()),
        ("height", height.to_string()),
    ]
}

/// The same attributes, lent.
fn borrowed<'a>(attributes: &'a [(&'a str, String)]) -> Vec<(&'a str, &'a str)> {
    attributes
        .iter()
        .map(|(name, value)| (*name, &value[..]))
        .collect()
}

/// A text as it stands in an SVG file. A character that no SVG file may have becomes the replacement character.
fn escaped(text: &str) -> String {
    let mut safe = String::new();
    for character in text.chars() {
        match character {
            '&' => safe.push_str("&amp;"),
            '<' => safe.push_str("&lt;"),
            '>' => safe.push_str("&gt;"),
            '"' => safe.push_str("&quot;"),
            '\n' => safe.push('\n'),
            '\u{fffe}' | '\u{ffff}' => safe.push('\u{fffd}'),
            control if control.is_control() => safe.push('\u{fffd}'),
            other => safe.push(other),
        }
    }
    safe
}

/// How wide this many characters of a monospaced type are.
pub fn text_width(characters: usize, size: Px) -> Px {
    (characters as Px * size * 602 + 999) / 1000
}

/// A text that is not wider than this: what is too long is cut and ends with three dots.
pub fn shortened(text: &str, size: Px, width: Px) -> String {
    if text_width(text.chars().count(), size) <= width {
        return text.to_string();
    }
    let mut short = text.to_string();
    while !short.is_empty() && text_width(short.chars().count() + 3, size) > width {
        short.pop();
    }
    short + "..."
}

/// A text in lines of at most this width, broken between words.
pub fn wrapped(text: &str, size: Px, width: Px) -> Vec<String> {
    let mut lines: Vec<String> = Vec::new();
    for word in text.split(' ') {
        match lines.last_mut() {
            Some(line)
                if text_width(line.chars().count() + 1 + word.chars().count(), size) <= width =>
            {
                line.push(' ');
                line.push_str(word);
            }
            _ => lines.push(word.to_string()),
        }
    }
    lines
}

#[cfg(test)]
mod tests {
    use super::*;

    #[test]
    fn text_is_escaped() {
        assert_eq!(
            escaped("a<b> & \"c\"\u{1}\u{ffff}→"),
            "a&lt;b&gt; &amp; &quot;c&quot;\u{fffd}\u{fffd}→"
        );
    }

    #[test]
    fn a_long_text_is_cut() {
        let width = text_width(8, 10);
        assert_eq!(shortened("12345678", 10, width), "12345678");
        assert_eq!(shortened("123456789", 10, width), "12345...");
    }

    #[test]
    fn lines_are_broken_between_words() {
        let lines = wrapped("one two three four", 10, text_width(9, 10));
        assert_eq!(lines, ["one two", "three", "four"]);
    }
}
