//! A small reader of XML, strict about what it knows: elements, attributes, text, comments, the
//! declaration and the five named entities. Anything else is refused by a panic.

/// An element with all in it.
pub struct Element {
    pub name: String,
    pub attributes: Vec<(String, String)>,
    pub children: Vec<Element>,
    /// The text that stands directly in it.
    pub text: String,
}

impl Element {
    pub fn attribute(&self, name: &str) -> Option<&str> {
        let found = self.attributes.iter().find(|(of, _)| of == name);
        found.map(|(_, value)| value.as_str())
    }

    /// The first child with a name.
    pub fn child(&self, name: &str) -> Option<&Element> {
        self.children.iter().find(|child| child.name == name)
    }

    /// This element and all in it, in the order of their beginnings.
    pub fn all(&self) -> Vec<&Element> {
        let inner = self.children.iter().flat_map(Element::all);
        std::iter::once(self).chain(inner).collect()
    }
}

/// The root of a document.
pub fn parse(document: &str) -> Element {
    let mut reader = Reader { rest: document };
    if reader.rest.starts_with("<?xml ") {
        reader.until("?>");
    }
    reader.space_and_comments();
    let root = reader.element();
    reader.space_and_comments();
    assert_eq!(reader.rest, "", "after the root");
    root
}

struct Reader<'a> {
    rest: &'a str,
}

impl<'a> Reader<'a> {
    /// What stands before `end`; both are passed.
    fn until(&mut self, end: &str) -> &'a str {
        let found = self.rest.split_once(end);
        let (before, after) = found.unwrap_or_else(|| panic!("no {end:?} in {:?}", self.rest));
        self.rest = after;
        before
    }

    /// Passes a word, where it comes next.
    fn take(&mut self, word: &str) -> bool {
        let after = self.rest.strip_prefix(word);
        self.rest = after.unwrap_or(self.rest);
        after.is_some()
    }

    /// Passes white space, and tells whether there was some.
    fn space(&mut self) -> bool {
        let rest = self.rest.trim_start();
        let passed = rest.len() < self.rest.len();
        self.rest = rest;
        passed
    }

    fn space_and_comments(&mut self) {
        self.space();
        while self.take("<!--") {
            assert!(!self.until("-->").contains("--"));
            self.space();
        }
    }

    fn name(&mut self) -> String {
        let of_name = |c: char| c.is_alphanumeric() || "-_:.".contains(c);
        let end = self.rest.find(|c| !of_name(c)).unwrap_or(self.rest.len());
        let (name, rest) = self.rest.split_at(end);
        assert!(
            name.starts_with(char::is_alphabetic),
            "no name: {:?}",
            self.rest
        );
        self.rest = rest;
        name.to_owned()
    }

    fn attributes(&mut self) -> Vec<(String, String)> {
        let mut attributes: Vec<(String, String)> = Vec::new();
        while self.space() && !self.rest.starts_with(['/', '>']) {
            let name = self.name();
            assert!(
                attributes.iter().all(|(other, _)| *other != name),
                "{name} twice"
            );
            assert!(self.take("=\""), "no value of {name}");
            attributes.push((name, resolved(self.until("\""))));
        }
        attributes
    }

    fn element(&mut self) -> Element {
        assert!(self.take("<"), "no element: {:?}", self.rest);
        let (name, attributes) = (self.name(), self.attributes());
        let mut element = Element {
            name,
            attributes,
            children: Vec::new(),
            text: String::new(),
        };
        if self.take("/>") {
            return element;
        }
        assert!(
            self.take(">"),
            "an open tag of {}: {:?}",
            element.name,
            self.rest
        );
        loop {
            let end = self.rest.find('<').expect("an element that does not end");
            let (text, rest) = self.rest.split_at(end);
            element.text.push_str(&resolved(text));
            self.rest = rest;
            if self.take("<!--") {
                assert!(!self.until("-->").contains("--"));
            } else if self.take("</") {
                assert_eq!(self.name(), element.name, "the end of another element");
                self.space();
                assert!(self.take(">"));
                return element;
            } else {
                element.children.push(self.element());
            }
        }
    }
}

/// The text with its entities resolved.
fn resolved(text: &str) -> String {
    assert!(!text.contains('<'));
    let mut parts = text.split('&');
    let mut whole = parts.next().unwrap().to_owned();
    for part in parts {
        let (entity, after) = part.split_once(';').expect("an & that begins no entity");
        whole.push(match entity {
            "lt" => '<',
            "gt" => '>',
            "amp" => '&',
            "quot" => '"',
            "apos" => '\'',
            other => panic!("entity {other}"),
        });
        whole.push_str(after);
    }
    whole
}
