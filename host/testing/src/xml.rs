//! A small reader of XML, for pictures: elements, attributes and text; everything else is an error.

/// What stands in an element.
#[derive(Debug)]
enum Node {
    Text(String),
    Element(Element),
}

/// An element with its attributes and what stands in it.
#[derive(Debug)]
pub struct Element {
    name: String,
    attributes: Vec<(String, String)>,
    nodes: Vec<Node>,
}

impl Element {
    /// All elements of this name, this one and those within it.
    pub fn all<'a>(&'a self, name: &'a str) -> Box<dyn Iterator<Item = &'a Element> + 'a> {
        let within = self.nodes.iter().filter_map(|node| match node {
            Node::Element(element) => Some(element.all(name)),
            Node::Text(_) => None,
        });
        let this = Some(self).filter(|element| element.name == name);
        Box::new(this.into_iter().chain(within.flatten()))
    }

    /// All text in the element.
    pub fn text(&self) -> String {
        let text = |node: &Node| match node {
            Node::Text(text) => text.clone(),
            Node::Element(element) => element.text(),
        };
        self.nodes.iter().map(text).collect()
    }

    pub fn has(&self, name: &str) -> bool {
        self.attributes.iter().any(|(known, _)| known == name)
    }

    pub fn attribute(&self, name: &str) -> &str {
        let found = self.attributes.iter().find(|(known, _)| known == name);
        let (_, value) = found.unwrap_or_else(|| panic!("<{}> has no {name}", self.name));
        value
    }
}

/// The root element of a whole text, or the rest of the text where it is wrong, and why.
pub fn parse(text: &str) -> Result<Element, String> {
    let mut rest = text.trim_start();
    let root = take_element(&mut rest).map_err(|why| format!("{why} at '{}'", shown(rest)))?;
    match rest.trim() {
        "" => Ok(root),
        rest => Err(format!("more than one root: '{}'", shown(rest))),
    }
}

fn shown(rest: &str) -> String {
    rest.chars().take(60).collect()
}

fn expect(rest: &mut &str, due: &str) -> Result<(), String> {
    *rest = rest.strip_prefix(due).ok_or(format!("'{due}' is due"))?;
    Ok(())
}

fn take_name(rest: &mut &str) -> Result<String, String> {
    let is_name = |c: char| c.is_ascii_alphanumeric() || "-_:".contains(c);
    let end = rest.find(|c| !is_name(c)).unwrap_or(rest.len());
    let (name, behind) = rest.split_at(end);
    *rest = behind;
    match name.is_empty() {
        true => Err("a name is due".into()),
        false => Ok(name.into()),
    }
}

fn take_element(rest: &mut &str) -> Result<Element, String> {
    expect(rest, "<")?;
    let name = take_name(rest)?;
    let mut element = Element {
        name,
        attributes: Vec::new(),
        nodes: Vec::new(),
    };
    while rest.starts_with(' ') {
        *rest = rest.trim_start();
        let attribute = take_attribute(rest)?;
        if element.has(&attribute.0) {
            return Err(format!("'{}' stands twice", attribute.0));
        }
        element.attributes.push(attribute);
    }
    if rest.starts_with("/>") {
        expect(rest, "/>")?;
        return Ok(element);
    }
    expect(rest, ">")?;
    while !rest.starts_with("</") {
        let node = match rest.starts_with('<') {
            true => Node::Element(take_element(rest)?),
            false => Node::Text(take_text(rest, '<')?),
        };
        element.nodes.push(node);
    }
    expect(rest, &format!("</{}>", element.name))?;
    Ok(element)
}

fn take_attribute(rest: &mut &str) -> Result<(String, String), String> {
    let name = take_name(rest)?;
    expect(rest, "=\"")?;
    let value = take_text(rest, '"')?;
    expect(rest, "\"")?;
    Ok((name, value))
}

/// The text up to a character, with what stands for others replaced by them.
fn take_text(rest: &mut &str, until: char) -> Result<String, String> {
    let end = rest.find(until).ok_or(format!("'{until}' is due"))?;
    let (raw, behind) = rest.split_at(end);
    let is_bad = |c: char| (c.is_control() && c != '\n') || "<>".contains(c);
    // '>' is allowed in the style sheet, but no picture needs it there.
    if let Some(bad) = raw.chars().find(|&c| is_bad(c)) {
        return Err(format!("{bad:?} may not stand here"));
    }
    let mut text = String::new();
    let mut parts = raw.split('&');
    text.push_str(parts.next().unwrap_or_default());
    for part in parts {
        let (name, after) = part.split_once(';').ok_or("';' is due behind '&'")?;
        text.push(match name {
            "amp" => '&',
            "lt" => '<',
            "gt" => '>',
            "quot" => '"',
            other => return Err(format!("'&{other};' is unknown")),
        });
        text.push_str(after);
    }
    *rest = behind;
    Ok(text)
}
