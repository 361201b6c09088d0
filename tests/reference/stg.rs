//! Standard Task Graph text: read into our file, and written from it. The text is cut into lines and a line into fields
//! before anything is judged, so that a line at fault is one that is none of the three kinds that its place asks for.

use super::graph::{Graph, MOST_VERTICES};
use super::judge::{judge, Declared, DeclaredKind, DeclaredVertex};
use super::refusal::{refuse_if, Refusal};
use super::writer::file_of;
use std::collections::BTreeSet;

pub const LONGEST_TEXT: usize = 65_536;
/// Between the entry and the exit.
pub const MOST_TASKS: usize = MOST_VERTICES - 2;
pub const MOST_DIGITS: usize = 10;

/// What a task's line says. A time may have more than 32 bits.
#[derive(Clone, Debug, PartialEq, Eq)]
pub struct Task {
    pub time: u64,
    pub predecessors: Vec<u8>,
}

/// The file of a text's graph, where `room` bytes are enough for it.
pub fn stg_read(text: &[u8], cores: &[u8], kinds: &[u8], room: usize) -> Result<Vec<u8>, Refusal> {
    let tasks = tasks_of(text)?;
    refuse_if(13, kinds.len() != tasks.len())?;
    let graph = judge(&declared(&tasks, cores, kinds))?;
    refuse_if(15, room < graph.file_length())?;
    Ok(file_of(&graph))
}

/// The tasks of a text in its layout; 23 has the first line that is at fault or missing.
pub fn tasks_of(text: &[u8]) -> Result<Vec<Task>, Refusal> {
    refuse_if(23, text.len() > LONGEST_TEXT)?;
    let mut lines = text.split_inclusive(|&byte| byte == b'\n').map(|line| line.strip_suffix(b"\n"));
    let at_fault = |place: usize| Refusal { number: 23, place };
    let n = lines.next().flatten().and_then(count_of).ok_or(at_fault(0))?;
    let mut tasks = Vec::new();
    for number in 0..n + 2 {
        let task = lines.next().flatten().and_then(|line| task_of(line, number, n));
        tasks.push(task.ok_or(at_fault(number + 1))?);
    }
    match lines.position(|line| !line.is_some_and(is_skipped)) {
        Some(place) => Err(at_fault(n + 3 + place)),
        None => Ok(tasks),
    }
}

/// The task count: a line of it alone.
fn count_of(line: &[u8]) -> Option<usize> {
    let [n] = fields_of(line)?[..] else {
        return None;
    };
    (1..=MOST_TASKS as u64).contains(&n).then_some(n as usize)
}

/// Number, time, predecessor count and so many predecessors. The number is its place, the entry and the exit have time 0.
fn task_of(line: &[u8], number: usize, n: usize) -> Option<Task> {
    let fields = fields_of(line)?;
    let [own, time, count, predecessors @ ..] = &fields[..] else {
        return None;
    };
    let different: BTreeSet<&u64> = predecessors.iter().collect();
    let is_good = *own == number as u64
        && (*time == 0 || (1..=n).contains(&number))
        && *count == predecessors.len() as u64
        && different.len() == predecessors.len()
        && predecessors.iter().all(|&task| task <= n as u64 + 1);
    is_good.then(|| Task { time: *time, predecessors: predecessors.iter().map(|&task| task as u8).collect() })
}

/// The numbers of a line, parted by blanks or tabs.
fn fields_of(line: &[u8]) -> Option<Vec<u64>> {
    let fields = line.split(|&byte| is_blank(byte)).filter(|field| !field.is_empty());
    fields.map(number_of).collect()
}

fn number_of(field: &[u8]) -> Option<u64> {
    let is_number = field.len() <= MOST_DIGITS && field.iter().all(u8::is_ascii_digit);
    is_number.then(|| std::str::from_utf8(field).ok()?.parse().ok())?
}

fn is_skipped(line: &[u8]) -> bool {
    line.iter().find(|&&byte| !is_blank(byte)) == Some(&b'#')
}

fn is_blank(byte: u8) -> bool {
    byte == b' ' || byte == b'\t'
}

/// A time that 32 bits can't hold is above every limit, as the largest that they can hold is.
fn declared(tasks: &[Task], cores: &[u8], kinds: &[u8]) -> Declared {
    let mut edges = Vec::new();
    for (to, task) in tasks.iter().enumerate() {
        edges.extend(task.predecessors.iter().map(|&from| (from, to as u8)));
    }
    edges.sort_unstable();
    let vertices = tasks.iter().zip(kinds).enumerate();
    Declared {
        kinds: (cores.iter().enumerate()).map(|(number, &cores)| DeclaredKind { number, cores }).collect(),
        vertices: vertices
            .map(|(number, (task, &kind))| {
                let wcet = u32::try_from(task.time).unwrap_or(u32::MAX);
                DeclaredVertex { number, kind, wcet }
            })
            .collect(),
        edges,
    }
}

/// The text of a graph, where `room` bytes are enough for it.
pub fn stg_write(graph: &Graph, room: usize) -> Result<Vec<u8>, Refusal> {
    refuse_if(24, !has_entry_and_exit(graph))?;
    let text = text_of(graph).into_bytes();
    refuse_if(15, room < text.len())?;
    Ok(text)
}

/// Three vertices at least, the first the only source and the last the only sink, both with time 0.
fn has_entry_and_exit(graph: &Graph) -> bool {
    let n = graph.vertices();
    let (before, after) = (graph.predecessors(), graph.successors());
    n >= 3
        && (0..n).all(|v| !before[v].is_empty() || v == 0)
        && (0..n).all(|v| !after[v].is_empty() || v == n - 1)
        && graph.wcets[0] == 0
        && graph.wcets[n - 1] == 0
}

/// One blank between fields, nothing at either end of a line, predecessors upwards. The graph has two vertices at least.
pub fn text_of(graph: &Graph) -> String {
    let mut text = format!("{}\n", graph.vertices() - 2);
    for (v, mut before) in graph.predecessors().into_iter().enumerate() {
        before.sort_unstable();
        let fields: String = before.iter().map(|u| format!(" {u}")).collect();
        text += &format!("{v} {} {}{fields}\n", graph.wcets[v], before.len());
    }
    text
}
