//! A reader of XML 1.0 that takes only what is well formed, as far as a picture needs it: elements, attributes, text, and the marks &amp; &lt; &gt;
//! &quot; &#N;. No comments, no declarations, no instructions, names of ASCII letters alone.
use Node::{Inside, Text};

pub struct Element {
    pub name: String,
    attributes: Vec<(String, String)>,
    nodes: Vec<Node>,
}

enum Node {
    Inside(Element),
    Text(String),
}

impl Element {
    /// The value of an attribute, where it has it.
    pub fn get(&self, key: &str) -> Option<&str> {
        self.attributes.iter().find(|(k, _)| k == key).map(|(_, value)| &value[..])
    }

    pub fn keys(&self) -> impl Iterator<Item = &str> {
        self.attributes.iter().map(|(key, _)| &key[..])
    }

    pub fn class(&self) -> &str {
        self.get("class").unwrap_or("")
    }

    /// The elements directly inside.
    pub fn elements(&self) -> impl Iterator<Item = &Element> {
        self.nodes.iter().filter_map(|node| match node {
            Inside(element) => Some(element),
            Text(_) => None,
        })
    }

    /// The text directly inside.
    pub fn text(&self) -> String {
        let texts = self.nodes.iter().filter_map(|node| match node {
            Inside(_) => None,
            Text(text) => Some(&text[..]),
        });
        texts.collect()
    }
}

/// The element that bytes are, all but for blanks behind it; or what is wrong, and before which bytes.
pub fn read(bytes: &[u8]) -> Result<Element, String> {
    let text = std::str::from_utf8(bytes).map_err(|_| "no UTF-8".to_string())?;
    let mut reader = Reader { left: text };
    let read = reader.document();
    read.ok_or_else(|| format!("not well formed before {:?}", reader.left.chars().take(60).collect::<String>()))
}

/// Whether it takes what is well formed, and nothing that is wrong in one way.
pub fn is_strict() -> bool {
    let good = "<a b='1' c=\"&lt;\" >x<d/>&#233;&amp;</a >\n";
    let wrong = "a;<a>;<a/><a/>;<a/>x;<a></b>;<a><b></a></b>;<a b='1' b='2'/>;<a b='1'c='2'/>;<a b=1/>;<a b/>;<a b='<'/>;<a b='1\"/>;\
        <a>&</a>;<a>\u{ffff}</a>;<a>\u{1}</a>;<a>]]></a>;< a/>;<1/>";
    let marks = ["amp", "other;", "#0;", "#x41;", "#65535;", "#55296;", "#;"].map(|mark| format!("<a>&{mark}</a>"));
    let mut all = wrong.split(';').chain(marks.iter().map(|text| &text[..]));
    let is_read = read(good.as_bytes()).is_ok_and(|a| a.text() == "x\u{e9}&" && a.get("c") == Some("<"));
    is_read && all.all(|text| read(text.as_bytes()).is_err()) && read(b"<a>\xff</a>").is_err()
}

/// Whether XML 1.0 has the character.
pub fn has(c: char) -> bool {
    !matches!(c, '\0'..='\u{8}' | '\u{b}' | '\u{c}' | '\u{e}'..='\u{1f}' | '\u{fffe}' | '\u{ffff}')
}

/// What a mark without its & and ; stands for.
pub fn marked(mark: &str) -> Option<char> {
    match mark {
        "amp" => Some('&'),
        "lt" => Some('<'),
        "gt" => Some('>'),
        "quot" => Some('"'),
        _ => {
            let digits = mark.strip_prefix('#').filter(|d| !d.is_empty() && d.bytes().all(|b| b.is_ascii_digit()))?;
            char::from_u32(digits.parse().ok()?).filter(|&c| has(c))
        }
    }
}

struct Reader<'a> {
    left: &'a str,
}

impl<'a> Reader<'a> {
    fn takes(&mut self, wanted: &str) -> bool {
        let rest = self.left.strip_prefix(wanted);
        self.left = rest.unwrap_or(self.left);
        rest.is_some()
    }

    /// Whether there were any.
    fn blanks(&mut self) -> bool {
        let before = self.left.len();
        self.left = self.left.trim_start_matches([' ', '\n', '\r', '\t']);
        self.left.len() < before
    }

    /// All up to one of these characters, which stays.
    fn until(&mut self, ends: &[char]) -> Option<&'a str> {
        let (taken, rest) = self.left.split_at(self.left.find(ends)?);
        self.left = rest;
        taken.chars().all(has).then_some(taken)
    }

    fn name(&mut self) -> Option<String> {
        let is_part = |c: char| c.is_ascii_alphanumeric() || ['-', '_', '.', ':'].contains(&c);
        let end =
            self.left.find(|c| !is_part(c)).filter(|_| self.left.starts_with(|c: char| c.is_ascii_alphabetic()))?;
        let (name, rest) = self.left.split_at(end);
        self.left = rest;
        Some(name.to_string())
    }

    /// Text up to one of two characters, with its marks resolved.
    fn characters(&mut self, ends: [char; 2]) -> Option<String> {
        let mut text = String::new();
        loop {
            let plain = self.until(&[ends[0], ends[1], '&'])?;
            // XML has this only as the end of what we don't take
            if plain.contains("]]>") {
                return None;
            }
            text += plain;
            if !self.takes("&") {
                return Some(text);
            }
            text.push(marked(self.until(&[';'])?)?);
            self.left = &self.left[1..];
        }
    }

    /// An attribute, which no other may be called like.
    fn attribute(&mut self, before: &[(String, String)]) -> Option<(String, String)> {
        let key = self.name().filter(|key| before.iter().all(|(other, _)| other != key))?;
        self.blanks();
        if !self.takes("=") {
            return None;
        }
        self.blanks();
        let quote = self.left.chars().next().filter(|c| ['"', '\''].contains(c))?;
        self.left = &self.left[1..];
        let value = self.characters([quote, '<'])?;
        self.left.starts_with(quote).then(|| self.left = &self.left[1..])?;
        Some((key, value))
    }

    /// An element whose < is taken.
    fn element(&mut self) -> Option<Element> {
        let mut element = Element { name: self.name()?, attributes: vec![], nodes: vec![] };
        loop {
            let apart = self.blanks();
            if self.takes("/>") {
                return Some(element);
            }
            if self.takes(">") {
                break;
            }
            let attribute = self.attribute(&element.attributes).filter(|_| apart)?;
            element.attributes.push(attribute);
        }
        loop {
            element.nodes.push(Text(self.characters(['<', '<'])?));
            if self.takes("</") {
                break;
            }
            self.takes("<");
            let inside = self.element()?;
            element.nodes.push(Inside(inside));
        }
        let closes = self.name()? == element.name;
        self.blanks();
        (closes && self.takes(">")).then_some(element)
    }

    fn document(&mut self) -> Option<Element> {
        let root = if self.takes("<") { self.element()? } else { return None };
        self.blanks();
        self.left.is_empty().then_some(root)
    }
}
