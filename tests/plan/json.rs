//! What `plan json` answers, by docs/JSON.md: read back by a reader that takes only what JSON is, and compared with the planner's reference.
use crate::reference::bounds::{bounds, least_path};
use crate::reference::gains::{gains_of, ranking};
use crate::reference::graph::{Graph, PARTS_IN_A_TICK};
use crate::reference::second::second;

/// A JSON value, as far as the page has them: no fractions, no signs, no truth values.
#[derive(Debug, PartialEq)]
pub enum Value {
    Null,
    Number(u64),
    Text(String),
    List(Vec<Value>),
    /// in the order in which they stand
    Object(Vec<(String, Value)>),
}

use Value::{List, Null, Number, Object, Text};

struct Reader<'a> {
    left: &'a str,
}

impl Reader<'_> {
    fn blanks(&mut self) {
        self.left = self.left.trim_start_matches([' ', '\n', '\r', '\t']);
    }

    /// Takes these characters, after any blanks, where they come next.
    fn takes(&mut self, wanted: &str) -> bool {
        self.blanks();
        let rest = self.left.strip_prefix(wanted);
        self.left = rest.unwrap_or(self.left);
        rest.is_some()
    }

    fn character(&mut self) -> Option<char> {
        let c = self.left.chars().next()?;
        self.left = &self.left[c.len_utf8()..];
        Some(c)
    }

    fn escaped(&mut self) -> Option<char> {
        match self.character()? {
            c @ ('"' | '\\' | '/') => Some(c),
            'u' => {
                let digits = self.left.get(..4).filter(|d| d.bytes().all(|b| b.is_ascii_hexdigit()))?;
                self.left = &self.left[4..];
                char::from_u32(u32::from_str_radix(digits, 16).ok()?)
            }
            _ => None,
        }
    }

    /// A string whose first quote is taken.
    fn text(&mut self) -> Option<String> {
        let mut text = String::new();
        loop {
            match self.character()? {
                '"' => return Some(text),
                '\\' => text.push(self.escaped()?),
                c if c < ' ' => return None,
                c => text.push(c),
            }
        }
    }

    /// Elements parted by commas, up to a bracket.
    fn elements<T>(&mut self, end: &str, one: impl Fn(&mut Self) -> Option<T>) -> Option<Vec<T>> {
        let mut list = vec![];
        if self.takes(end) {
            return Some(list);
        }
        loop {
            list.push(one(self)?);
            if self.takes(end) {
                return Some(list);
            }
            if !self.takes(",") {
                return None;
            }
        }
    }

    fn member(&mut self) -> Option<(String, Value)> {
        let key = if self.takes("\"") { self.text()? } else { return None };
        if self.takes(":") {
            Some((key, self.value()?))
        } else {
            None
        }
    }

    fn number(&mut self) -> Option<Value> {
        let n = self.left.bytes().take_while(u8::is_ascii_digit).count();
        let (digits, rest) = self.left.split_at(n);
        self.left = rest;
        if n > 1 && digits.starts_with('0') {
            return None;
        }
        digits.parse().ok().map(Number)
    }

    fn value(&mut self) -> Option<Value> {
        if self.takes("null") {
            Some(Null)
        } else if self.takes("\"") {
            self.text().map(Text)
        } else if self.takes("[") {
            self.elements("]", Self::value).map(List)
        } else if self.takes("{") {
            self.elements("}", Self::member).map(Object)
        } else {
            self.number()
        }
    }
}

/// The value that bytes are, all of them.
pub fn read(bytes: &[u8]) -> Option<Value> {
    let mut reader = Reader { left: std::str::from_utf8(bytes).ok()? };
    let value = reader.value()?;
    reader.blanks();
    reader.left.is_empty().then_some(value)
}

fn object<const N: usize>(members: [(&str, Value); N]) -> Value {
    Object(members.into_iter().map(|(key, value)| (key.to_string(), value)).collect())
}

fn count(n: usize) -> Value {
    Number(n as u64)
}

/// Of what is no UTF-8 each byte is the character of its number.
fn string(bytes: &[u8]) -> Value {
    Text(String::from_utf8(bytes.to_vec()).unwrap_or_else(|_| bytes.iter().map(|&b| b as char).collect()))
}

fn name(names: &[Vec<u8>], i: usize) -> Value {
    names.get(i).map_or(Null, |name| string(name))
}

fn amount(parts: u64) -> Value {
    object([("parts", Number(parts)), ("ticks", Number(parts / PARTS_IN_A_TICK))])
}

/// The answer for an accepted graph with these names, or with none.
pub fn answer(graph: &Graph, names: &[Vec<u8>], types: &[Vec<u8>]) -> Value {
    let (found, gains) = (bounds(graph), gains_of(graph));
    let stages = 0..graph.vertices();
    let on_path = |v: u8| object([("stage", count(v as usize)), ("name", name(names, v as usize))]);
    let gained = |v: usize| {
        let ticks = gains[v] / PARTS_IN_A_TICK;
        object([("stage", count(v)), ("name", name(names, v)), ("parts", Number(gains[v])), ("ticks", Number(ticks))])
    };
    let kind =
        |k: usize| object([("type", count(k)), ("name", name(types, k)), ("cores", count(graph.cores[k] as usize))]);
    let stage = |v: usize| {
        let (kind, wcet) = (count(graph.kinds[v] as usize), count(graph.wcets[v] as usize));
        object([("stage", count(v)), ("name", name(names, v)), ("type", kind), ("wcet", wcet)])
    };
    let counts =
        [("types", count(graph.cores.len())), ("stages", count(graph.vertices())), ("edges", count(graph.edges.len()))];
    let both = [("old", amount(found.old)), ("new", amount(found.new)), ("second", second(graph).map_or(Null, amount))];
    object([
        ("counts", object(counts)),
        ("bounds", object(both)),
        ("path", List(least_path(graph).into_iter().map(on_path).collect())),
        ("gains", List(ranking(&gains).into_iter().map(gained).collect())),
        ("types", List((0..graph.cores.len()).map(kind).collect())),
        ("stages", List(stages.map(stage).collect())),
    ])
}

/// What a text gets wrong, where another word says it in this line of standard input: no saying has quotes of its own, so that the outermost are the word's.
pub fn fault(said: &[u8]) -> Option<Value> {
    let rest = said.strip_prefix(b"-: line ")?.strip_suffix(b"\n")?;
    let digits = rest.iter().take_while(|b| b.is_ascii_digit()).count();
    let line = std::str::from_utf8(&rest[..digits]).ok()?.parse().ok()?;
    let says = rest[digits..].strip_prefix(b": ")?;
    let quotes = says.iter().position(|&b| b == b'"').zip(says.iter().rposition(|&b| b == b'"'));
    let (says, word) = match quotes {
        Some((first, last)) => ([&says[..first], b"*", &says[last + 1..]].concat(), string(&says[first + 1..last])),
        None => (says.to_vec(), Null),
    };
    Some(object([("fault", object([("line", Number(line)), ("says", string(&says)), ("word", word)]))]))
}

/// A refusal, where another word says it in these lines: by the first.
pub fn refused(said: &[u8]) -> Option<Value> {
    let line = std::str::from_utf8(said.split(|&b| b == b'\n').next()?).ok()?;
    let (number, place) = line.strip_prefix("refused ")?.split_once(" at ")?;
    Some(object([(
        "refused",
        object([("number", Number(number.parse().ok()?)), ("place", Number(place.parse().ok()?))]),
    )]))
}
