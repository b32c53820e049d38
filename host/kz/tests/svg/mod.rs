//! Reads a picture in SVG into its elements, and asks that it is well-formed XML.

use std::collections::HashMap;

/// An element, with what stands inside it.
#[derive(Debug, Default)]
pub struct Element {
    pub name: String,
    pub attributes: HashMap<String, String>,
    pub text: String,
    pub inside: Vec<Element>,
}

impl Element {
    /// The value of an attribute, or nothing.
    pub fn attribute(&self, name: &str) -> &str {
        self.attributes.get(name).map_or("", String::as_str)
    }

    /// The value of an attribute as a number.
    pub fn number(&self, name: &str) -> f64 {
        let value = self.attribute(name);
        value.parse().unwrap_or_else(|_| panic!("{name}={value} is no number"))
    }

    /// All elements of a class inside this one, at any depth, in order.
    pub fn of_class(&self, class: &str) -> Vec<&Element> {
        let mut found = Vec::new();
        for element in &self.inside {
            if element.attribute("class") == class {
                found.push(element);
            }
            found.extend(element.of_class(class));
        }
        found
    }
}

/// The outermost element.
///
/// # Panics
///
/// Where the text is no well-formed XML with one outermost element, as far as pictures use it:
/// no comments, no references but the five named ones.
pub fn read(text: &str) -> Element {
    let declared = text.strip_prefix("<?xml version=\"1.0\" encoding=\"UTF-8\"?>\n");
    let mut rest = declared.expect("an XML declaration");
    let mut open = vec![Element::default()];
    while let Some(start) = rest.find('<') {
        let parent = open.last_mut().expect("something is open");
        parent.text.push_str(&unescaped(&rest[..start]));
        rest = &rest[start + 1..];
        if let Some(data) = rest.strip_prefix("![CDATA[") {
            rest = data.split_once("]]>").expect("data that ends").1;
            continue;
        }
        let (tag, behind) = rest.split_once('>').expect("a tag that ends");
        rest = behind;
        if let Some(name) = tag.strip_prefix('/') {
            let closed = open.pop().expect("something is open");
            assert_eq!(closed.name, name, "tags close in order");
            open.last_mut().expect("an element is inside another").inside.push(closed);
        } else if let Some(tag) = tag.strip_suffix('/') {
            parent.inside.push(element(tag));
        } else {
            open.push(element(tag));
        }
    }
    assert_eq!((rest.trim(), open.len()), ("", 1), "everything is closed");
    let mut document = open.remove(0);
    assert_eq!((document.text.trim(), document.inside.len()), ("", 1), "one outermost element");
    document.inside.remove(0)
}

fn element(tag: &str) -> Element {
    let (name, mut rest) = tag.split_once(' ').unwrap_or((tag, ""));
    assert!(name.bytes().all(|byte| byte.is_ascii_alphanumeric()), "{tag}");
    let mut attributes = HashMap::new();
    while !rest.trim().is_empty() {
        let (attribute, behind) = rest.trim_start().split_once("=\"").expect("an attribute");
        let (value, behind) = behind.split_once('"').expect("a value that ends");
        let known = attributes.insert(attribute.to_string(), unescaped(value));
        assert!(known.is_none() && !attribute.contains(' '), "{tag}");
        rest = behind;
    }
    Element { name: name.to_string(), attributes, ..Element::default() }
}

fn unescaped(text: &str) -> String {
    let mut parts = text.split('&');
    let mut plain = parts.next().expect("a split has a part").to_string();
    for part in parts {
        let (name, behind) = part.split_once(';').expect("a reference that ends");
        plain.push(match name {
            "amp" => '&',
            "lt" => '<',
            "gt" => '>',
            "quot" => '"',
            other => panic!("&{other}; is not known"),
        });
        plain.push_str(behind);
    }
    plain
}
