//! Standard Task Graph texts: laid out in every way, and with a fault planted for each number that says no. And graphs that
//! have an entry and an exit, or lack one for each reason.

use super::graphs;
use super::random::Random;
use crate::reference::graph::{Graph, MOST_EDGES, MOST_WCET, RECORD};
use crate::reference::stg::{Task, LONGEST_TEXT, MOST_TASKS};
use std::collections::BTreeSet;

/// What is lent to the reader.
#[derive(Clone, Debug)]
pub struct Lent {
    pub text: Vec<u8>,
    pub cores: Vec<u8>,
    pub kinds: Vec<u8>,
}

/// A text as its lines, each with its line feed, and the task count that it was made with.
#[derive(Clone, Debug)]
pub struct Lines {
    pub lines: Vec<Vec<u8>>,
    pub n: usize,
}

/// As the writer has it; or with blanks and tabs anywhere, zeros in front and predecessors in any order.
#[derive(Clone, Copy, PartialEq)]
pub enum Manner {
    Canonical,
    Loose,
}

/// A third are good.
pub fn any(random: &mut Random) -> Lent {
    let graph = if random.one_in(3) { framed(random) } else { with_dummies(random) };
    let mut tasks = tasks_of(&graph);
    let (mut cores, mut kinds) = (graph.cores.clone(), graph.kinds.clone());
    let kind_of_fault = random.below(12);
    if (4..=6).contains(&kind_of_fault) {
        for _ in 0..random.pick(&[1, 1, 2]) {
            let number = random.pick(&[4, 5, 7, 7, 8, 9, 9, 11, 11, 13, 13]);
            plant(random, &mut tasks, &mut cores, &mut kinds, number);
        }
    }
    let manner = random.pick(&[Manner::Canonical, Manner::Loose, Manner::Loose]);
    let mut text = Lines::of(random, &tasks, manner);
    if random.one_in(2) {
        text.comment(random);
    }
    if (7..=10).contains(&kind_of_fault) {
        let way = random.below(WAYS);
        let at = text.any_place(random);
        text.spoil(random, way, at);
    }
    let mut text = text.bytes();
    if kind_of_fault == 11 {
        damage(random, &mut text);
    }
    if random.one_in(60) {
        let length = LONGEST_TEXT + random.pick(&[0, 0, 1, 1, 2]) - random.pick(&[0, 0, 1]);
        pad(random, &mut text, length);
    }
    Lent { text, cores, kinds }
}

/// A graph with an entry and an exit around another one: from the entry to each source, from each sink to the exit.
pub fn framed(random: &mut Random) -> Graph {
    let mut inner = inner(random);
    loop {
        let graph = around(random, &inner);
        if graph.edges.len() <= MOST_EDGES {
            return graph;
        }
        let fewer = inner.edges.len() - (graph.edges.len() - MOST_EDGES).min(inner.edges.len());
        inner.edges.truncate(fewer);
    }
}

pub fn around(random: &mut Random, inner: &Graph) -> Graph {
    let n = inner.vertices();
    let (before, after) = (inner.predecessors(), inner.successors());
    let mut edges: Vec<(u8, u8)> = inner.edges.iter().map(|&(from, to)| (from + 1, to + 1)).collect();
    edges.extend((0..n).filter(|&v| before[v].is_empty()).map(|v| (0, v as u8 + 1)));
    edges.extend((0..n).filter(|&v| after[v].is_empty()).map(|v| (v as u8 + 1, n as u8 + 1)));
    edges.sort_unstable();
    let mut kind = || random.below(inner.cores.len()) as u8;
    Graph {
        cores: inner.cores.clone(),
        kinds: [&[kind()], &inner.kinds[..], &[kind()]].concat(),
        wcets: [&[0], &inner.wcets[..], &[0]].concat(),
        edges,
    }
}

fn inner(random: &mut Random) -> Graph {
    let n = match random.below(20) {
        0 => MOST_TASKS,
        1 => random.between(60, MOST_TASKS),
        2 => random.between(13, 60),
        3..=4 => 1,
        _ => random.between(1, 12),
    };
    let wcet = random.pick(&[0, 1, 5, 20, 1_000, MOST_WCET, MOST_WCET]);
    graphs::of(random, n, wcet)
}

/// With any edges: the first vertex and the last take no time, and need not be source and sink.
fn with_dummies(random: &mut Random) -> Graph {
    let n = match random.below(20) {
        0 => MOST_TASKS + 2,
        1..=2 => random.between(13, MOST_TASKS + 2),
        _ => random.between(3, 14),
    };
    let wcet = random.pick(&[0, 1, 5, 20, 1_000, MOST_WCET, MOST_WCET]);
    let mut graph = graphs::of(random, n, wcet);
    graph.wcets[0] = 0;
    graph.wcets[n - 1] = 0;
    graph
}

/// A graph that has no text, for one reason or for two of them.
pub fn without_entry_or_exit(random: &mut Random) -> Graph {
    let mut graph = framed(random);
    for _ in 0..random.pick(&[1, 1, 1, 2]) {
        let last = graph.vertices() - 1;
        let any = random.between(1, last.saturating_sub(1).max(1)) as u8;
        let ticks = random.pick(&[1, 1, 2, 255, 256, 65_536, MOST_WCET]);
        match random.below(7) {
            0 => graph.wcets[0] = ticks,
            1 => graph.wcets[last] = ticks,
            // another source, another sink
            2 => graph.edges.retain(|&(_, to)| to != any),
            3 => graph.edges.retain(|&(from, _)| from != any),
            4 => graph.edges.clear(),
            // the entry and the exit change places
            5 => {
                let turned = |v: u8| match v as usize {
                    0 => last as u8,
                    v if v == last => 0,
                    v => v as u8,
                };
                graph.edges.iter_mut().for_each(|edge| *edge = (turned(edge.0), turned(edge.1)));
                graph.edges.sort_unstable();
            }
            _ => {
                let n = random.between(1, 2);
                graph.kinds.truncate(n);
                graph.wcets.truncate(n);
                graph.edges.retain(|&(from, to)| from.max(to) < n as u8);
                return graph;
            }
        }
    }
    graph
}

pub fn tasks_of(graph: &Graph) -> Vec<Task> {
    let before = graph.predecessors().into_iter();
    let task = |(before, &wcet): (Vec<usize>, &u32)| Task {
        time: wcet as u64,
        predecessors: before.into_iter().map(|u| u as u8).collect(),
    };
    before.zip(&graph.wcets).map(task).collect()
}

/// How many bytes the file of such a text has, where it has one.
pub fn file_length(tasks: &[Task], cores: usize) -> usize {
    let edges: usize = tasks.iter().map(|task| task.predecessors.len()).sum();
    (cores + tasks.len() + edges) * RECORD
}

/// Numbers 4, 5, 7, 8, 9, 11 and 13.
pub fn plant(random: &mut Random, tasks: &mut [Task], cores: &mut Vec<u8>, kinds: &mut Vec<u8>, number: u32) {
    let (k, all) = (cores.len(), tasks.len());
    let v = spot(random, all);
    match number {
        4 if random.one_in(2) => cores.clear(),
        4 => cores.resize(random.pick(&[11, 11, 12, 300]), random.pick(&[0, 2])),
        5 if k > 0 => cores[spot(random, k)] = random.pick(&[0, 17, 18, 255]),
        7 if random.one_in(2) && v < kinds.len() => kinds[v] = random.pick(&[k as u8, k as u8, 128, 255]),
        // above the limit, above what 24 and 32 bits hold, with ten digits; cut to 32 bits some of them are small
        7 => {
            let above = MOST_WCET as u64 + 1;
            let late =
                [above, above, above + 1, 1 << 24, 1 << 31, u32::MAX as u64, 1 << 32, (1 << 32) + 7, 9_999_999_999];
            tasks[random.between(1, all - 2)].time = random.pick(&late);
        }
        8 => {
            for (to, task) in tasks.iter_mut().enumerate() {
                task.predecessors = (0..to as u8).collect();
            }
        }
        9 if !tasks[v].predecessors.contains(&(v as u8)) => tasks[v].predecessors.push(v as u8),
        11 => {
            let (u, v) = (spot(random, all), spot(random, all));
            for (to, from) in [(u, v), (v, u)] {
                if u != v && !tasks[to].predecessors.contains(&(from as u8)) {
                    tasks[to].predecessors.push(from as u8);
                }
            }
        }
        13 if random.one_in(2) => kinds.push(0),
        13 => drop(kinds.pop()),
        _ => {}
    }
}

/// The first, the last, or any.
fn spot(random: &mut Random, n: usize) -> usize {
    match random.below(4) {
        0 => 0,
        1 => n - 1,
        _ => random.below(n),
    }
}

/// How many ways there are to put a text outside its layout.
pub const WAYS: usize = 24;

impl Lines {
    pub fn of(random: &mut Random, tasks: &[Task], manner: Manner) -> Lines {
        let n = tasks.len() - 2;
        let mut lines = vec![line_of(random, &[n as u64], manner)];
        for (number, task) in tasks.iter().enumerate() {
            let mut predecessors: Vec<u64> = task.predecessors.iter().map(|&p| p as u64).collect();
            if manner == Manner::Loose {
                random.shuffle(&mut predecessors);
            }
            let fields = [&[number as u64, task.time, predecessors.len() as u64], &predecessors[..]].concat();
            lines.push(line_of(random, &fields, manner));
        }
        Lines { lines, n }
    }

    /// Skipped lines behind the tasks.
    pub fn comment(&mut self, random: &mut Random) {
        for _ in 0..random.between(1, 4) {
            self.lines.push(comment(random));
        }
    }

    pub fn bytes(&self) -> Vec<u8> {
        self.lines.concat()
    }

    /// The count, the entry, the exit, the last line, or any.
    pub fn any_place(&self, random: &mut Random) -> usize {
        let last = self.lines.len() - 1;
        let any = random.between(0, last);
        random.pick(&[0, 1, self.n + 2, last, any, any, any])
    }

    /// Puts the text outside its layout at or behind this line; some ways do nothing at some lines.
    pub fn spoil(&mut self, random: &mut Random, way: usize, at: usize) {
        let is_task = (1..=self.n + 2).contains(&at);
        let n = self.n;
        match way {
            0 => self.insert(random, at, b"\r"),
            1 => self.insert_before_line_feed(at, b"\r"),
            2 => {
                let odd = random.pick(b"-+.,;:/'eExX_\0\x01\x0B\x0C\x1B\x1C\x7F\x80\xA0\xFF#@`\x2F\x3A");
                self.insert(random, at, &[odd]);
            }
            3 => self.lines[at] = random.pick(&[&b"\n"[..], b" \n", b"\t\n", b" \t \t\n"]).to_vec(),
            4 => drop(self.lines.remove(at)),
            5 => self.lines.insert(at, self.lines[at].clone()),
            // the text ends inside of this line, or before it
            6 => {
                self.lines.truncate(at + 1);
                self.lines[at].pop();
            }
            7 => {
                self.lines.truncate(at + 1);
                let kept = random.below(self.lines[at].len());
                self.lines[at].truncate(kept);
            }
            8 => self.lines.truncate(at),
            // two lines become one
            9 => drop(self.lines[at].pop()),
            10 => self.lines.insert(at, comment(random)),
            11 => self.lines.insert(at, random.pick(&[&b"\n"[..], b" \n", b"\t\t\n"]).to_vec()),
            12 => {
                let at_end = (at + 1).min(self.lines.len() - 1);
                self.lines.swap(at, at_end);
            }
            // eleven digits, all of them zeros but for the field's own
            13 => self.change(random, at, |random, fields| {
                let k = random.below(fields.len());
                fields[k] = format!("{:0>11}", fields[k]);
            }),
            14 => self.change(random, at, |random, fields| drop(fields.remove(random.below(fields.len())))),
            15 => self.change(random, at, |random, fields| {
                let k = random.between(0, fields.len());
                fields.insert(k, random.pick(&["0", "1", "2", "00"]).to_string());
            }),
            16 if at == 0 => {
                let other = [0, 0, 127, 127, 128, 255, 256 + n, 65_536 + n, (1 << 32) + n, 9_999_999_999, n + 1, n - 1];
                let other = random.pick(&other);
                self.change(random, at, |_, fields| fields[0] = other.to_string());
            }
            16 if is_task => {
                let other =
                    random.pick(&[at, at - 1 + 256, at - 1 + 65_536, 9_999_999_999, n + 2, at.saturating_sub(2)]);
                self.change(random, at, |_, fields| fields[0] = other.to_string());
            }
            // another count than there are predecessors
            17 if is_task => self.change(random, at, |random, fields| {
                let count = fields.len().saturating_sub(3);
                let other =
                    [count + 1, count + 1, count.saturating_sub(1), count + 256, count + 65_536, (1 << 32) + count];
                if let Some(field) = fields.get_mut(2) {
                    *field = random.pick(&other).to_string();
                }
            }),
            18 => {
                let dummy = random.pick(&[1, n + 2]);
                self.change(random, dummy, |random, fields| {
                    if let Some(field) = fields.get_mut(1) {
                        *field = random.pick(&["1", "1", "0000000001", "1000000", "1000001", "4294967296"]).to_string();
                    }
                });
            }
            19 if is_task => self.change(random, at, |random, fields| {
                let again = fields.get(3 + random.below(fields.len().max(4) - 3)).cloned();
                let again = again.unwrap_or("0".to_string());
                let again = random.pick(&[again.clone(), format!("0{again}")].each_ref()).clone();
                let first = if fields.len() == 3 { vec![again.clone()] } else { vec![] };
                add_predecessors(fields, &[&first[..], &[again]].concat());
            }),
            20 if is_task => {
                let above = random.pick(&[
                    n + 2,
                    n + 2,
                    n + 2,
                    n + 3,
                    255,
                    256,
                    256 + at,
                    65_536,
                    (1 << 32) + 1,
                    9_999_999_999,
                ]);
                self.change(random, at, |_, fields| add_predecessors(fields, &[above.to_string()]));
            }
            // behind the tasks: one too many, a number, an empty line, a blank in front of what is no comment
            21 => {
                let next = format!("{} 0 0\n", n + 2).into_bytes();
                self.lines.push(
                    random
                        .pick(&[&next[..], b"7\n", b"\n", b"   \n", b"\t0 # not first\n", b"\r#\n", b"\x0C#\n"])
                        .to_vec(),
                );
            }
            22 => self.lines.push(random.pick(&[&b"#"[..], b"# end", b" ", b"\t#", b"1", b"\r"]).to_vec()),
            _ => self.lines.push(b"\r\n".to_vec()),
        }
    }

    fn insert(&mut self, random: &mut Random, at: usize, bytes: &[u8]) {
        let line = &mut self.lines[at];
        let k = random.between(0, line.len().saturating_sub(1));
        line.splice(k..k, bytes.iter().copied());
    }

    fn insert_before_line_feed(&mut self, at: usize, bytes: &[u8]) {
        let line = &mut self.lines[at];
        let k = line.len().saturating_sub(1);
        line.splice(k..k, bytes.iter().copied());
    }

    /// The line's fields, where it is one of numbers, and then written again.
    fn change(&mut self, random: &mut Random, at: usize, change: impl Fn(&mut Random, &mut Vec<String>)) {
        let line = String::from_utf8_lossy(&self.lines[at]).into_owned();
        let mut fields: Vec<String> = line.split_whitespace().map(str::to_string).collect();
        if !fields.is_empty() && line.trim_start().starts_with(|c: char| c.is_ascii_digit()) {
            change(random, &mut fields);
            self.lines[at] = (fields.join(" ") + "\n").into_bytes();
        }
    }
}

/// With a count that is true again.
fn add_predecessors(fields: &mut Vec<String>, more: &[String]) {
    fields.extend_from_slice(more);
    if fields.len() > 3 {
        fields[2] = (fields.len() - 3).to_string();
    }
}

fn line_of(random: &mut Random, fields: &[u64], manner: Manner) -> Vec<u8> {
    let mut line = String::new();
    if manner == Manner::Canonical {
        line = fields.iter().map(u64::to_string).collect::<Vec<String>>().join(" ");
        return (line + "\n").into_bytes();
    }
    let blanks = |random: &mut Random, least: usize| -> String {
        let many = if random.one_in(3) { random.between(least, 5) } else { least };
        (0..many).map(|_| random.pick(&[' ', ' ', '\t'])).collect()
    };
    line += &blanks(random, 0);
    for (k, field) in fields.iter().enumerate() {
        if k > 0 {
            line += &blanks(random, 1);
        }
        let digits = if random.one_in(8) { random.pick(&[2, 3, 4, 9, 10, 10]) } else { 1 };
        line += &format!("{field:0>digits$}");
    }
    line += &blanks(random, 0);
    (line + "\n").into_bytes()
}

/// A skipped line: behind `#` any byte but a line feed may stand.
fn comment(random: &mut Random) -> Vec<u8> {
    let mut line = random.pick(&[&b"#"[..], b"#", b" #", b"\t#", b" \t  \t#"]).to_vec();
    match random.below(5) {
        0 => {}
        1 => line.extend(b" 3 0 0"),
        2 => line.extend((0..=255u8).filter(|&byte| byte != b'\n')),
        3 => line.extend(b" a comment\r"),
        _ => {
            let many = random.between(1, 20);
            line.extend((0..many).map(|_| random.byte()).filter(|&byte| byte != b'\n'));
        }
    }
    line.push(b'\n');
    line
}

/// Skipped lines until the text has so many bytes: one long line, or many short ones.
pub fn pad(random: &mut Random, text: &mut Vec<u8>, length: usize) {
    let short = random.one_in(3);
    while text.len() < length {
        let rest = length - text.len();
        if rest < 2 {
            // one byte is no line: it stands at the end of the last one
            text.insert(text.len().saturating_sub(1), b' ');
            continue;
        }
        let line = if short { rest.min(random.between(2, 40)) } else { rest };
        text.push(b'#');
        text.extend(vec![b'.'; line - 2]);
        text.push(b'\n');
    }
}

/// Blind damage, mostly with bytes that have a meaning.
fn damage(random: &mut Random, text: &mut Vec<u8>) {
    for _ in 0..random.pick(&[1, 1, 1, 2, 3]) {
        if text.is_empty() {
            return;
        }
        let at = random.below(text.len());
        let byte = if random.one_in(4) { random.byte() } else { random.pick(b" \t\n\r#0123456789") };
        match random.below(4) {
            0 => text.insert(at, byte),
            1 => drop(text.remove(at)),
            2 => {
                let next = (at + 1) % text.len();
                text.swap(at, next);
            }
            _ => text[at] = byte,
        }
    }
}

/// The graph whose text is the longest that is written: 126 tasks at the largest WCET, 1,024 edges, their predecessors as
/// long numbers as can be, and the counts of 99 tasks with two digits.
pub fn longest_text() -> Graph {
    let mut edges: BTreeSet<(u8, u8)> = BTreeSet::new();
    // what is numbered from 100 on comes first, one behind the other, then 1 to 99
    edges.insert((0, 100));
    edges.extend((101..127).map(|v| (v - 1, v)));
    edges.extend((2..100).map(|v| (v - 1, v)));
    edges.insert((99, 127));
    // each of 1 to 99 has ten predecessors at least; each of those that come first is one of somebody
    for v in 1..100 {
        let has = if v == 1 { 0 } else { 1 };
        edges.extend((has..10).map(|k| (100 + (v + 3 * k) % 27, v)));
    }
    let more = (1..100).flat_map(|v| (100..127).map(move |u| (u, v))).filter(|edge| !edges.contains(edge));
    let more: Vec<(u8, u8)> = more.take(MOST_EDGES - edges.len()).collect();
    edges.extend(more);
    let mut wcets = vec![MOST_WCET; 128];
    (wcets[0], wcets[127]) = (0, 0);
    Graph { cores: vec![16], kinds: vec![0; 128], wcets, edges: edges.into_iter().collect() }
}
