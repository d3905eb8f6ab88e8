//! Documents as trees of elements. What is not of the accepted form, or stands too deep, ends the reading there.

use super::cursor::{begins_name, wrong, Cursor};
use super::forms::Form;
use super::prolog::prolog;
use super::rows::form_at;
use super::tags::{attributes, plain, reference, section, SECTION};
use super::{ElementText, Read, Stop, DEEP, TOO_DEEP};

pub struct Element<'a> {
    /// Where its `<` stands.
    pub at: usize,
    pub name: &'a [u8],
    pub children: Vec<Element<'a>>,
    /// What its characters, sections and references stand for.
    pub text: Vec<u8>,
}

impl<'a> Element<'a> {
    /// The children that a step means.
    pub fn children_of(&self, step: &'static str) -> impl Iterator<Item = &Element<'a>> {
        self.children.iter().filter(move |child| super::rows::meant(step, child.name))
    }

    /// Its children and then itself, each with its text.
    pub fn told(self, to: &mut Vec<ElementText>) {
        self.children.into_iter().for_each(|child| child.told(to));
        to.push(ElementText { name: self.name.to_vec(), text: self.text });
    }
}

/// All documents of a text; there is one at least.
pub fn documents(text: &[u8]) -> Read<Vec<Element<'_>>> {
    let mut cursor = Cursor::new(text);
    prolog(&mut cursor)?;
    let mut reader = Reader { cursor, path: Vec::new() };
    let mut documents = Vec::new();
    loop {
        reader.cursor.spaces();
        if reader.cursor.peek().is_none() && !documents.is_empty() {
            return Ok(documents);
        }
        let at = reader.cursor.at;
        reader.cursor.word(b"<")?;
        documents.push(reader.element(at)?);
    }
}

struct Reader<'a> {
    cursor: Cursor<'a>,
    /// The names of the elements that are open.
    path: Vec<&'a [u8]>,
}

impl<'a> Reader<'a> {
    /// An element whose `<`, at the given place, has been read.
    fn element(&mut self, at: usize) -> Read<Element<'a>> {
        let begun = self.cursor.peek().is_some_and(begins_name);
        if begun && self.path.len() + 1 == TOO_DEEP {
            return Err(Stop { number: DEEP, at });
        }
        let name = self.cursor.name()?;
        self.path.push(name);
        let form = form_at(&self.path);
        let currency = attributes(&mut self.cursor)?;

        let end = self.cursor.at;
        let empty = self.cursor.skips(b"/");
        self.cursor.word(b">")?;
        // the tag is whole: only now what it says is looked at
        if form == Some(Form::Amount) && currency.as_deref() != Some(b"EUR") {
            return wrong(end);
        }
        let mut element = Element { at, name, children: Vec::new(), text: Vec::new() };
        if empty {
            fitting(form, &[], end)?;
        } else {
            self.content(form, &mut element)?;
        }
        self.path.pop();
        Ok(element)
    }

    /// Everything up to the end tag, and this.
    fn content(&mut self, form: Option<Form>, element: &mut Element<'a>) -> Read<()> {
        loop {
            let cursor = &mut self.cursor;
            match cursor.peek() {
                Some(b'<') if cursor.sees(SECTION) => section(cursor, &mut element.text)?,
                Some(b'<') => {
                    let at = cursor.at;
                    // a field's text ends here, whatever this begins
                    fitting(form, &element.text, at)?;
                    cursor.at += 1;
                    match cursor.peek() {
                        Some(b'/') => return end_tag(cursor, element.name),
                        // a field holds no element
                        _ if form.is_some() => return wrong(cursor.at),
                        _ => {
                            let child = self.element(at)?;
                            element.children.push(child);
                        }
                    }
                }
                Some(b'&') => reference(cursor, &mut element.text)?,
                Some(b']') if cursor.sees(b"]]>") => return wrong(cursor.at),
                _ => plain(cursor, &mut element.text)?,
            }
        }
    }
}

/// A field's text is wrong where it ends.
fn fitting(form: Option<Form>, text: &[u8], end: usize) -> Read<()> {
    if form.is_none_or(|form| form.fits(text)) {
        Ok(())
    } else {
        wrong(end)
    }
}

fn end_tag(cursor: &mut Cursor, name: &[u8]) -> Read<()> {
    cursor.word(b"/")?;
    cursor.word(name)?;
    cursor.spaces();
    cursor.word(b">")
}
