//! Reads an SVG file back: checks that it is well formed, and finds its elements and the places of its texts.

/// An element with what is in it.
#[derive(Debug, Clone)]
pub struct Element {
    pub name: String,
    pub attributes: Vec<(String, String)>,
    pub children: Vec<Element>,
    /// The text directly in it.
    pub text: String,
}

impl Element {
    /// An attribute's value; empty if it has none.
    pub fn attribute(&self, name: &str) -> &str {
        let found = self.attributes.iter().find(|(there, _)| there == name);
        found.map_or("", |(_, value)| value)
    }

    /// An attribute that is a whole number.
    pub fn number(&self, name: &str) -> i32 {
        let value = self.attribute(name);
        value
            .parse()
            .unwrap_or_else(|_| panic!("{} of {}: {}", name, self.name, value))
    }

    /// Whether a word is among its classes.
    pub fn has_class(&self, class: &str) -> bool {
        self.attribute("class").split(' ').any(|word| word == class)
    }

    /// The words that the pointer shows over it.
    pub fn title(&self) -> Option<&str> {
        let title = self.children.iter().find(|child| child.name == "title");
        title.map(|title| &title.text[..])
    }

    /// The element and all in it for which a test holds, in the file's order.
    pub fn find(&self, test: &dyn Fn(&Element) -> bool) -> Vec<&Element> {
        let mut found = Vec::new();
        if test(self) {
            found.push(self);
        }
        for child in &self.children {
            found.extend(child.find(test));
        }
        found
    }

    /// All with this class.
    pub fn with_class(&self, class: &str) -> Vec<&Element> {
        self.find(&|element| element.has_class(class))
    }

    /// The only one with this class.
    pub fn only(&self, class: &str) -> &Element {
        match &self.with_class(class)[..] {
            [element] => element,
            found => panic!("{} with class {}", found.len(), class),
        }
    }

    /// The first point of a path, or of the only path with this class in it.
    pub fn point(&self, class: &str) -> (i32, i32) {
        let path = self.only(class).attribute("d");
        let numbers: Vec<i32> = path
            .split(|letter: char| !letter.is_ascii_digit() && letter != '-')
            .filter(|word| !word.is_empty())
            .take(2)
            .map(|word| word.parse().expect("a number"))
            .collect();
        (numbers[0], numbers[1])
    }

    /// The picture without its places: a line for each element with its class, its words and its text.
    pub fn outline(&self) -> String {
        let mut text = String::new();
        self.outline_into(0, &mut text);
        text
    }

    fn outline_into(&self, depth: usize, text: &mut String) {
        let id = match self.attribute("id") {
            "" => String::new(),
            id => format!(" #{}", id),
        };
        text.push_str(&format!(
            "{:indent$}{} {}{} {:?}\n",
            "",
            self.name,
            self.attribute("class"),
            id,
            self.text.trim(),
            indent = 2 * depth
        ));
        for child in &self.children {
            child.outline_into(depth + 1, text);
        }
    }
}

/// The root of a well-formed file: one root, every tag closed in its order, attributes quoted and named once, no bare
/// `<` or `&`, no character that is not allowed.
pub fn read(file: &str) -> Result<Element, String> {
    if let Some(character) = file
        .chars()
        .find(|&character| character.is_control() && character != '\n')
    {
        return Err(format!("character {:?}", character));
    }
    let rest = file
        .strip_prefix("<?xml version=\"1.0\" encoding=\"UTF-8\"?>\n")
        .ok_or("no XML declaration")?;
    let mut open: Vec<Element> = Vec::new();
    let mut root = None;
    let mut rest = rest;
    while !rest.is_empty() {
        let (text, after) = rest.split_at(rest.find('<').unwrap_or(rest.len()));
        match open.last_mut() {
            Some(element) => element.text.push_str(&decoded(text)?),
            None if text.trim().is_empty() => (),
            None => return Err(format!("text outside: {}", text)),
        }
        if after.is_empty() {
            break;
        }
        let end = after.find('>').ok_or("a tag without end")?;
        let tag = &after[1..end];
        rest = &after[end + 1..];
        let closed = if let Some(name) = tag.strip_prefix('/') {
            let element = open.pop().ok_or(format!("</{}> closes nothing", name))?;
            if element.name != name {
                return Err(format!("<{}> closed by </{}>", element.name, name));
            }
            Some(element)
        } else if let Some(tag) = tag.strip_suffix('/') {
            Some(element(tag)?)
        } else {
            open.push(element(tag)?);
            None
        };
        match (closed, open.last_mut()) {
            (Some(element), Some(parent)) => parent.children.push(element),
            (Some(element), None) if root.is_none() => root = Some(element),
            (Some(element), None) => return Err(format!("a second root <{}>", element.name)),
            (None, _) => (),
        }
    }
    match open.last() {
        Some(element) => Err(format!("<{}> is not closed", element.name)),
        None => root.ok_or_else(|| "no root".to_string()),
    }
}

/// An element from the inside of its tag.
fn element(tag: &str) -> Result<Element, String> {
    let name_end = tag.find(' ').unwrap_or(tag.len());
    let (name, mut rest) = tag.split_at(name_end);
    if name.is_empty() || !name.bytes().all(|byte| byte.is_ascii_alphabetic()) {
        return Err(format!("not a name: {:?}", name));
    }
    let mut attributes: Vec<(String, String)> = Vec::new();
    while !rest.is_empty() {
        let bad = || format!("not an attribute: <{}>", tag);
        let (attribute, after) = rest.trim_start().split_once("=\"").ok_or_else(bad)?;
        let (value, after) = after.split_once('"').ok_or_else(bad)?;
        let named = attribute
            .bytes()
            .all(|byte| byte.is_ascii_alphabetic() || byte == b'-');
        if !named || attributes.iter().any(|(there, _)| there == attribute) {
            return Err(bad());
        }
        attributes.push((attribute.to_string(), decoded(value)?));
        rest = after;
    }
    Ok(Element {
        name: name.to_string(),
        attributes,
        children: Vec::new(),
        text: String::new(),
    })
}

/// A text without its escapes.
fn decoded(text: &str) -> Result<String, String> {
    let mut parts = text.split('&');
    let mut plain = parts.next().unwrap_or("").to_string();
    for part in parts {
        let (name, after) = part.split_once(';').ok_or("a bare &")?;
        plain.push(match name {
            "amp" => '&',
            "lt" => '<',
            "gt" => '>',
            "quot" => '"',
            _ => return Err(format!("unknown: &{};", name)),
        });
        plain.push_str(after);
    }
    Ok(plain)
}

/// The place that a text takes.
#[derive(Debug, Clone)]
pub struct Place {
    pub left: f64,
    pub right: f64,
    pub top: f64,
    pub bottom: f64,
    pub words: String,
}

/// The places of all texts. In a monospaced type a character is at most 0.602 of the size wide; letters rise to 0.73
/// above the line and fall to 0.2 below.
pub fn places(picture: &Element) -> Vec<Place> {
    let texts = picture.find(&|element| element.name == "text");
    texts.into_iter().map(place).collect()
}

fn place(text: &Element) -> Place {
    let (x, y) = (f64::from(text.number("x")), f64::from(text.number("y")));
    let size = f64::from(text.number("font-size"));
    let length = 0.602 * size * text.text.chars().count() as f64;
    let (up, down) = (0.73 * size, 0.2 * size);
    let (left, right, top, bottom) = match text.attribute("transform") {
        "" => {
            let left = match text.attribute("text-anchor") {
                "" => x,
                "middle" => x - length / 2.0,
                other => panic!("text-anchor {}", other),
            };
            (left, left + length, y - up, y + down)
        }
        turned => {
            assert_eq!(turned, format!("rotate(-90 {} {})", x, y));
            (x - up, x + down, y - length, y)
        }
    };
    Place {
        left,
        right,
        top,
        bottom,
        words: text.text.clone(),
    }
}

impl Place {
    /// Whether two texts cover each other.
    pub fn overlaps(&self, other: &Place) -> bool {
        self.left < other.right
            && other.left < self.right
            && self.top < other.bottom
            && other.top < self.bottom
    }
}
