//! Documents before they are spelt.

use super::outline::Part;

#[derive(Clone, Debug)]
pub enum Node {
    Element(Element),
    Text(String),
    /// Bytes to be written as they are.
    Raw(Vec<u8>),
}

#[derive(Clone, Debug)]
pub struct Element {
    pub name: String,
    pub part: Part,
    pub attributes: Vec<(String, String)>,
    /// Bytes to be written behind the attributes as they are.
    pub tag_end: Vec<u8>,
    pub content: Vec<Node>,
    /// Names that would mean something among its children.
    pub reserved: Vec<String>,
    /// Whether the speller is to say where it wrote it.
    pub watched: bool,
}

/// The way to an element: at each step the index among all nodes.
pub type Way = Vec<usize>;

impl Element {
    pub fn new(name: &str, part: Part) -> Element {
        Element {
            name: name.to_string(),
            part,
            attributes: Vec::new(),
            tag_end: Vec::new(),
            content: Vec::new(),
            reserved: Vec::new(),
            watched: false,
        }
    }

    pub fn holding(mut self, text: String) -> Element {
        self.content.push(Node::Text(text));
        self
    }

    pub fn is_field(&self) -> bool {
        matches!(self.part, Part::Field(_))
    }

    pub fn is_needed(&self) -> bool {
        self.part != Part::Other
    }

    /// The ways to all elements, this one included, of which something holds.
    pub fn ways(&self, holds: impl Fn(&Element) -> bool) -> Vec<Way> {
        let mut found = Vec::new();
        self.collect(&holds, &mut Vec::new(), &mut found);
        found
    }

    fn collect(&self, holds: &impl Fn(&Element) -> bool, way: &mut Way, found: &mut Vec<Way>) {
        if holds(self) {
            found.push(way.clone());
        }
        for (index, node) in self.content.iter().enumerate() {
            if let Node::Element(child) = node {
                way.push(index);
                child.collect(holds, way, found);
                way.pop();
            }
        }
    }

    pub fn at(&mut self, way: &[usize]) -> &mut Element {
        way.iter().fold(self, |element, index| match &mut element.content[*index] {
            Node::Element(child) => child,
            _ => unreachable!("a way leads over elements"),
        })
    }
}
