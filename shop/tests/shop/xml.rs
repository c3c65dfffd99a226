// A small reader of XML that accepts only what is well formed: one root, elements that close in order, attributes in
// quotes and each once, known entities.

/// An element: its name and its attributes, in the order of the document.
#[derive(Clone, Debug, PartialEq, Eq)]
pub struct Element {
    pub name: String,
    pub attributes: Vec<(String, String)>,
}

impl Element {
    pub fn get(&self, name: &str) -> Option<&str> {
        self.attributes.iter().find(|(n, _)| n == name).map(|(_, value)| value.as_str())
    }
}

/// All elements of a document, or what is not well formed.
pub fn elements(text: &str) -> Result<Vec<Element>, String> {
    let (mut elements, mut open) = (Vec::new(), Vec::<String>::new());
    let mut rest = text;
    while let Some((before, tag)) = rest.split_once('<') {
        unescaped(before)?;
        if open.is_empty() && !before.trim().is_empty() {
            return Err(format!("text outside the root: {before}"));
        }
        let (tag, after) = tag.split_once('>').ok_or("a tag that does not end")?;
        rest = after;
        if let Some(name) = tag.strip_prefix('/') {
            let opened = open.pop();
            if opened.as_deref() != Some(name) {
                return Err(format!("{name} closes {opened:?}"));
            }
            continue;
        }
        if open.is_empty() && !elements.is_empty() {
            return Err("more than one root".to_string());
        }
        let element = element(tag.strip_suffix('/').unwrap_or(tag))?;
        if !tag.ends_with('/') {
            open.push(element.name.clone());
        }
        elements.push(element);
    }
    match open.is_empty() && rest.trim().is_empty() && !elements.is_empty() {
        true => Ok(elements),
        false => Err(format!("open at the end: {open:?}, left: {rest}")),
    }
}

fn element(tag: &str) -> Result<Element, String> {
    let (name, mut rest) = tag.split_once(' ').unwrap_or((tag, ""));
    if name.is_empty() || !name.chars().all(char::is_alphanumeric) {
        return Err(format!("no name of an element: {name}"));
    }
    let mut attributes = Vec::<(String, String)>::new();
    while !rest.trim().is_empty() {
        let (name, after) = rest.split_once("=\"").ok_or(format!("no attribute: {rest}"))?;
        let (value, after) = after.split_once('"').ok_or(format!("no closing quote: {after}"))?;
        let name = name.trim().to_string();
        if name.is_empty() || name.contains(char::is_whitespace) {
            return Err(format!("no name of an attribute: {name}"));
        }
        if attributes.iter().any(|(other, _)| *other == name) {
            return Err(format!("{name} stands twice"));
        }
        if !after.is_empty() && !after.starts_with(' ') {
            return Err(format!("no blank after {name}"));
        }
        attributes.push((name, unescaped(value)?));
        rest = after;
    }
    Ok(Element { name: name.to_string(), attributes })
}

/// Text with its entities resolved.
fn unescaped(text: &str) -> Result<String, String> {
    if let Some(control) = text.chars().find(|c| c.is_control() && !"\n\t\r".contains(*c)) {
        return Err(format!("{control:?} has no place in XML"));
    }
    let mut parts = text.split('&');
    let mut plain = parts.next().unwrap_or("").to_string();
    for part in parts {
        let (entity, after) = part.split_once(';').ok_or(format!("a bare &: {part}"))?;
        plain.push(match entity {
            "amp" => '&',
            "lt" => '<',
            "gt" => '>',
            "quot" => '"',
            _ => return Err(format!("no entity: {entity}")),
        });
        plain.push_str(after);
    }
    Ok(plain)
}

#[test]
fn only_what_is_well_formed_is_read() {
    let read = elements("<a x=\"1\" y=\"&lt;&amp;\"><b/>text<c></c></a>\n").expect("well formed");
    let names: Vec<_> = read.iter().map(|element| element.name.as_str()).collect();
    assert_eq!(names, ["a", "b", "c"]);
    assert_eq!(read[0].get("y"), Some("<&"));
    let wrong = ["", "a", "<a>", "<a></b>", "<a/><b/>", "<a/>b", "<a x=1/>", "<a x=\"1/>", "<a>&</a>"];
    let also = ["<a x=\"1\" x=\"2\"/>", "<a>&nbsp;</a>", "<a", "<a x=\"1\"y=\"2\"/>", "<a>\u{1}</a>", "</a>"];
    for text in wrong.into_iter().chain(also) {
        assert!(elements(text).is_err(), "{text}");
    }
}
