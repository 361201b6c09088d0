//! What `plan dot` writes, by docs/PICTURES.md: read back as graphviz reads it and compared with the planner's reference.
use crate::reference::bounds::least_path;
use crate::reference::gains::gains_of;
use crate::reference::graph::{Graph, PARTS_IN_A_TICK};
use crate::shown::called;
use crate::xml::marked;
use std::collections::BTreeSet;

/// What an attribute list says, in its order.
type Attributes = Vec<(String, String)>;

#[derive(Debug)]
struct Node {
    name: String,
    attributes: Attributes,
}

#[derive(Debug)]
struct Edge {
    ends: [String; 2],
    attributes: Attributes,
}

/// The nodes and the edges in their order, without what is said for all of them.
#[derive(Debug, Default)]
struct Read {
    nodes: Vec<Node>,
    edges: Vec<Edge>,
}

struct Reader<'a> {
    left: &'a str,
}

impl Reader<'_> {
    fn takes(&mut self, wanted: &str) -> bool {
        self.left = self.left.trim_start();
        let rest = self.left.strip_prefix(wanted);
        self.left = rest.unwrap_or(self.left);
        rest.is_some()
    }

    /// A word, or what stands between quotes: there a backslash keeps a quote, and itself.
    fn word(&mut self) -> Option<String> {
        if !self.takes("\"") {
            let end = self.left.find(|c: char| !c.is_ascii_alphanumeric()).filter(|&end| end > 0)?;
            let (word, rest) = self.left.split_at(end);
            self.left = rest;
            return Some(word.to_string());
        }
        let mut kept = false;
        let end = self.left.find(|c| {
            let ends = c == '"' && !kept;
            kept = c == '\\' && !kept;
            ends
        })?;
        let word = self.left[..end].to_string();
        self.left = &self.left[end + 1..];
        Some(word)
    }

    fn attributes(&mut self) -> Option<Attributes> {
        let mut list = vec![];
        if !self.takes("[") {
            return Some(list);
        }
        loop {
            let key = self.word()?;
            let value = if self.takes("=") { self.word()? } else { return None };
            if list.iter().any(|(other, _)| other == &key) {
                return None;
            }
            list.push((key, value));
            if self.takes("]") {
                return Some(list);
            }
            if !self.takes(",") {
                return None;
            }
        }
    }

    fn statement(&mut self, read: &mut Read) -> Option<()> {
        let name = self.word()?;
        if self.takes("=") {
            self.word()?;
        } else if self.takes("->") {
            let to = self.word()?;
            read.edges.push(Edge { ends: [name, to], attributes: self.attributes()? });
        } else {
            let attributes = self.attributes()?;
            if !["node", "edge", "graph"].contains(&&name[..]) {
                read.nodes.push(Node { name, attributes });
            }
        }
        self.takes(";").then_some(())
    }

    fn graph(&mut self) -> Option<Read> {
        let mut read = Read::default();
        if !self.takes("digraph") || self.word().is_none() || !self.takes("{") {
            return None;
        }
        while !self.takes("}") {
            self.statement(&mut read)?;
        }
        self.left.trim_start().is_empty().then_some(read)
    }
}

/// A label's lines, as graphviz resolves what stands between quotes.
fn lines(quoted: &str) -> Option<Vec<String>> {
    let (mut plain, mut left) = (vec![String::new()], quoted.chars());
    while let Some(c) = left.next() {
        match c {
            '\\' => match left.next()? {
                'n' => plain.push(String::new()),
                '\\' => plain.last_mut()?.push('\\'),
                _ => return None,
            },
            '\n' | '"' => return None,
            _ => plain.last_mut()?.push(c),
        }
    }
    plain.iter().map(|line| resolved(line)).collect()
}

/// The marks of XML, which graphviz reads too.
fn resolved(line: &str) -> Option<String> {
    let mut parts = line.split('&');
    let mut text = parts.next()?.to_string();
    for part in parts {
        let (mark, rest) = part.split_once(';')?;
        text.push(marked(mark)?);
        text += rest;
    }
    (!line.contains(['<', '>'])).then_some(text)
}

fn of<'a>(attributes: &'a Attributes, key: &str) -> Option<&'a str> {
    attributes.iter().find(|(k, _)| k == key).map(|(_, value)| &value[..])
}

/// Thick, thin, or neither.
fn is_thick(attributes: &Attributes) -> Option<bool> {
    match of(attributes, "penwidth") {
        None => Some(false),
        Some("4") => Some(true),
        _ => None,
    }
}

/// Whether the bytes are the graph's text, and where they aren't, why.
pub fn check(bytes: &[u8], graph: &Graph, names: &[Vec<u8>], types: &[Vec<u8>]) -> Result<(), String> {
    let text = std::str::from_utf8(bytes).map_err(|_| "no UTF-8".to_string())?;
    let mut reader = Reader { left: text };
    let read = reader.graph().ok_or_else(|| format!("no graph before {:?}", reader.left))?;
    let (path, gains) = (least_path(graph), gains_of(graph));
    if read.nodes.len() != graph.vertices() {
        return Err(format!("{} nodes", read.nodes.len()));
    }
    let mut colours: Vec<Option<&str>> = vec![None; graph.cores.len()];
    for (v, node) in read.nodes.iter().enumerate() {
        let kind = graph.kinds[v] as usize;
        let label = of(&node.attributes, "label").and_then(lines);
        let should = [
            called(names, 's', v),
            format!("{} {}", called(types, 't', kind), graph.wcets[v]),
            format!("gain {}", gains[v] / PARTS_IN_A_TICK),
        ];
        let tip = of(&node.attributes, "tooltip").and_then(lines);
        let colour = *colours[kind].get_or_insert(of(&node.attributes, "fillcolor").unwrap_or(""));
        let is_right = node.name == format!("n{v}")
            && label.is_some_and(|label| label == should)
            && tip.is_some_and(|tip| tip == [format!("gain {} parts", gains[v])])
            && of(&node.attributes, "fillcolor") == Some(colour)
            && is_thick(&node.attributes) == Some(path.contains(&(v as u8)))
            && node.attributes.len() == 3 + path.contains(&(v as u8)) as usize;
        if !is_right {
            return Err(format!("{node:?} for {should:?}, {} parts", gains[v]));
        }
    }
    let used: Vec<&str> = colours.into_iter().flatten().collect();
    if used.contains(&"") || used.iter().collect::<BTreeSet<_>>().len() != used.len() {
        return Err(format!("colours {used:?}"));
    }
    let is_on_path = |u: u8, v: u8| path.windows(2).any(|two| two == [u, v]);
    let wanted = graph.edges.iter().map(|&(u, v)| ([format!("n{u}"), format!("n{v}")], Some(is_on_path(u, v))));
    let edges = read.edges.iter().map(|edge| (edge.ends.clone(), is_thick(&edge.attributes)));
    if !edges.eq(wanted) {
        return Err(format!("other edges: {:?}", read.edges));
    }
    Ok(())
}
