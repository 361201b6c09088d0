//! The kinds of texts that can be read wrongly, and of graphs that can be written wrongly: each has to be asked for.

use crate::answer::AskedText;
use crate::reference::graph::{Graph, LONGEST_FILE, MOST_EDGES, MOST_WCET};
use crate::reference::reader::read;
use crate::reference::refusal::Refusal;
use crate::reference::stg::{stg_read, stg_write, tasks_of, text_of, Task, LONGEST_TEXT, MOST_DIGITS, MOST_TASKS};
use crate::reference::writer::file_of;

/// A text that was asked for, and what it comes to: its tasks, and the file with the room that was lent.
pub struct Laid<'a> {
    asked: AskedText<'a>,
    tasks: Result<Vec<Task>, Refusal>,
    file: Result<Vec<u8>, Refusal>,
    graph: Option<Graph>,
}

pub const TEXTS: [(&str, fn(&Laid) -> bool); 36] = [
    ("65,536 bytes", |t| t.graph.is_some() && t.asked.text.len() == LONGEST_TEXT),
    ("65,537 bytes", |t| t.tasks.is_err() && t.asked.text.len() == LONGEST_TEXT + 1),
    ("65,537 bytes and a line at fault", |t| t.asked.text.len() > LONGEST_TEXT && t.has_fault_but_length()),
    ("1 task", |t| t.accepted(|g| g.vertices() == 3)),
    ("126 tasks", |t| t.accepted(|g| g.vertices() == MOST_TASKS + 2)),
    ("1,024 edges", |t| t.accepted(|g| g.edges.len() == MOST_EDGES)),
    ("9,296 bytes of file", |t| t.accepted(|g| g.file_length() == LONGEST_FILE)),
    ("ten digits", |t| t.accepted(|_| t.fields().any(|field| field.len() == MOST_DIGITS))),
    ("tabs", |t| t.accepted(|_| t.asked.text.contains(&b'\t'))),
    ("blanks at both ends", |t| {
        t.accepted(|_| t.lines().any(|line| line.starts_with(b" ") && line.ends_with(b"\t\n")))
    }),
    ("every byte behind #", |t| t.accepted(|_| t.comments().any(|line| (0..=255).all(|b| line.contains(&b))))),
    ("predecessors downwards", |t| t.tasks().any(|task| task.predecessors.windows(2).any(|two| two[1] < two[0]))),
    ("an entry that waits", |t| t.accepted(|g| !g.predecessors()[0].is_empty())),
    ("an exit waited for", |t| t.accepted(|g| !g.successors()[g.vertices() - 1].is_empty())),
    ("canonical", |t| t.accepted(|g| stg_write(g, LONGEST_TEXT).as_deref() == Ok(t.asked.text))),
    ("canonical, not written", |t| t.accepted(|g| stg_write(g, 0).is_err_and(|r| r.number == 24) && t.is_canonical(g))),
    ("23 before 13", |t| t.tasks.is_err() && t.asked.kinds.len() < 3),
    ("13 one short", |t| t.is_refused(13) && t.asked.kinds.len() + 1 == t.tasks().count()),
    ("13 one long", |t| t.is_refused(13) && t.asked.kinds.len() == t.tasks().count() + 1),
    ("13 before 4", |t| t.is_refused(13) && t.asked.cores.is_empty()),
    ("4 none", |t| t.is_refused(4) && t.asked.cores.is_empty()),
    ("4 of 11", |t| t.is_refused(4) && t.asked.cores.len() == 11),
    ("7 of 1,000,001", |t| t.is_refused(7) && t.time_at_fault() == Some(MOST_WCET as u64 + 1)),
    ("7 above 32 bits", |t| t.is_refused(7) && t.time_at_fault() > Some(u32::MAX as u64)),
    ("7 small in 32 bits", |t| t.is_refused(7) && t.time_at_fault().is_some_and(|time| is_small_in_32_bits(time))),
    ("7 of a type", |t| t.is_refused(7) && t.time_at_fault().is_some_and(|time| time <= MOST_WCET as u64)),
    ("7 of the entry's type", |t| t.is_refused(7) && t.place() == Some(t.asked.cores.len())),
    ("8 of 1,025", |t| t.is_refused(8) && t.edges() == MOST_EDGES + 1),
    ("8 of 8,128", |t| t.is_refused(8) && t.edges() >= 8_128),
    ("9 first", |t| t.is_refused(9) && t.place() == Some(t.records_before_edges())),
    ("9 between", |t| t.is_refused(9) && t.place().is_some_and(|place| t.is_between_edges(place))),
    ("9 last", |t| t.is_refused(9) && t.place() == Some(t.records_before_edges() + t.edges() - 1)),
    ("11", |t| t.is_refused(11)),
    ("15 one byte short", |t| t.is_refused(15) && t.accepted(|g| g.file_length() == t.asked.room + 1)),
    ("just room", |t| t.file.is_ok() && t.accepted(|g| g.file_length() == t.asked.room)),
    ("a byte more", |t| t.file.is_ok() && t.accepted(|g| g.file_length() + 1 == t.asked.room)),
];

fn is_small_in_32_bits(time: u64) -> bool {
    time > u32::MAX as u64 && time as u32 <= MOST_WCET
}

/// Which lines can be at fault in which way. A line that is at fault in several ways counts for the first of them.
const FAULTS: [(&str, &str); 21] = [
    ("missing", "count entry between exit"),
    ("without line feed", "count entry between exit behind"),
    ("empty", "count entry between exit behind"),
    ("a comment", "count entry between exit"),
    ("no comment", "behind"),
    ("with a carriage return", "count entry between exit behind"),
    ("with an odd byte", "count entry between exit behind"),
    ("of eleven digits", "count entry between exit"),
    ("of two fields", "count"),
    ("of no tasks", "count"),
    ("of 127 tasks", "count"),
    ("of more tasks", "count"),
    ("with fields missing", "entry between exit"),
    ("with another number", "entry between exit"),
    ("with predecessors missing", "entry between exit"),
    ("with predecessors too many", "entry between exit"),
    ("with a time", "entry exit"),
    ("with predecessor n + 2", "entry between exit"),
    ("with one far above", "entry between exit"),
    ("with a repeated one", "entry between exit"),
    ("with one repeated by value", "entry between exit"),
];

/// All that can be: each way with each kind of line.
pub fn faults() -> Vec<String> {
    let with_lines = |(way, lines): (&str, &str)| {
        let way = way.to_string();
        lines.split(' ').map(move |line| format!("{line} {way}")).collect::<Vec<String>>()
    };
    FAULTS.into_iter().flat_map(with_lines).collect()
}

impl Laid<'_> {
    pub fn of(asked: AskedText) -> Laid {
        let tasks = tasks_of(asked.text);
        let file = stg_read(asked.text, asked.cores, asked.kinds, asked.room);
        let whole = stg_read(asked.text, asked.cores, asked.kinds, LONGEST_FILE);
        let graph = whole.ok().and_then(|file| read(&file).ok());
        Laid { asked, tasks, file, graph }
    }

    fn accepted(&self, is: impl Fn(&Graph) -> bool) -> bool {
        self.graph.as_ref().is_some_and(is)
    }

    fn is_refused(&self, number: u32) -> bool {
        self.file.as_ref().is_err_and(|refusal| refusal.number == number)
    }

    fn place(&self) -> Option<usize> {
        self.file.as_ref().err().map(|refusal| refusal.place)
    }

    /// Each with its line feed, where it has one.
    fn lines(&self) -> impl Iterator<Item = &[u8]> {
        self.asked.text.split_inclusive(|&byte| byte == b'\n')
    }

    fn fields(&self) -> impl Iterator<Item = &[u8]> {
        let tasks = self.tasks().count();
        self.lines().take(tasks + 1).flat_map(|line| line.split(|byte| !byte.is_ascii_digit()))
    }

    fn comments(&self) -> impl Iterator<Item = &[u8]> {
        self.lines().skip(self.tasks().count() + 1)
    }

    fn tasks(&self) -> impl Iterator<Item = &Task> {
        self.tasks.iter().flatten()
    }

    fn is_canonical(&self, graph: &Graph) -> bool {
        text_of(graph).as_bytes() == self.asked.text
    }

    fn has_fault_but_length(&self) -> bool {
        let first: Vec<&[u8]> = self.lines().take(MOST_TASKS + 3).collect();
        tasks_of(&first.concat()).is_err()
    }

    fn edges(&self) -> usize {
        self.tasks().map(|task| task.predecessors.len()).sum()
    }

    fn records_before_edges(&self) -> usize {
        self.asked.cores.len() + self.tasks().count()
    }

    fn is_between_edges(&self, place: usize) -> bool {
        place > self.records_before_edges() && place + 1 < self.records_before_edges() + self.edges()
    }

    /// Of the vertex whose record is at fault.
    fn time_at_fault(&self) -> Option<u64> {
        let v = self.place()?.checked_sub(self.asked.cores.len())?;
        self.tasks().nth(v).map(|task| task.time)
    }

    /// Which line is at fault, and in which way; none where it is the text's length.
    pub fn fault(&self) -> Option<String> {
        let place = self.tasks.as_ref().err()?.place;
        if self.asked.text.len() > LONGEST_TEXT {
            return None;
        }
        let lines: Vec<&[u8]> = self.lines().collect();
        let n = if place == 0 { 0 } else { numbers_of(lines[0])[0] as usize };
        let spot = match place {
            0 => "count",
            1 => "entry",
            _ if place < n + 2 => "between",
            _ if place == n + 2 => "exit",
            _ => "behind",
        };
        let way = lines.get(place).map_or("missing", |line| way_of(line, spot, place, n));
        Some(format!("{spot} {way}"))
    }
}

fn numbers_of(line: &[u8]) -> Vec<u64> {
    let fields = line.split(|byte| b" \t\n".contains(byte)).filter(|field| !field.is_empty());
    fields.map(|field| std::str::from_utf8(field).unwrap().parse().unwrap_or(u64::MAX)).collect()
}

/// Of a line that is at fault.
fn way_of(line: &[u8], spot: &str, place: usize, n: usize) -> &'static str {
    let Some(line) = line.strip_suffix(b"\n") else {
        return "without line feed";
    };
    let is_behind = spot == "behind";
    let Some(first) = line.iter().find(|byte| !b" \t".contains(byte)) else {
        return "empty";
    };
    match first {
        b'#' => return "a comment",
        b'\r' if is_behind => return "with a carriage return",
        b'0'..=b'9' if is_behind => return "no comment",
        _ if is_behind => return "with an odd byte",
        _ => {}
    }
    if line.contains(&b'\r') {
        return "with a carriage return";
    }
    if line.iter().any(|byte| !b" \t0123456789".contains(byte)) {
        return "with an odd byte";
    }
    if line.split(|byte| b" \t".contains(byte)).any(|field| field.len() > MOST_DIGITS) {
        return "of eleven digits";
    }
    let numbers = numbers_of(line);
    if spot == "count" {
        return match numbers[..] {
            [0] => "of no tasks",
            [127] => "of 127 tasks",
            [_] => "of more tasks",
            _ => "of two fields",
        };
    }
    let [number, time, count, ref predecessors @ ..] = numbers[..] else {
        return "with fields missing";
    };
    let many = predecessors.len() as u64;
    let highest = predecessors.iter().copied().max().unwrap_or(0);
    match () {
        _ if number != place as u64 - 1 => "with another number",
        _ if count > many => "with predecessors missing",
        _ if count < many => "with predecessors too many",
        _ if time > 0 && spot != "between" => "with a time",
        _ if highest == n as u64 + 2 => "with predecessor n + 2",
        _ if highest > n as u64 + 2 => "with one far above",
        _ if has_double(line) => "with a repeated one",
        _ => "with one repeated by value",
    }
}

/// Whether a predecessor stands twice in the same digits.
fn has_double(line: &[u8]) -> bool {
    let fields: Vec<&[u8]> = line.split(|byte| b" \t".contains(byte)).filter(|field| !field.is_empty()).collect();
    fields[3..].iter().enumerate().any(|(k, field)| fields[3..][..k].contains(field))
}

/// A graph whose text was asked for, with the room.
pub struct Asked<'a> {
    graph: &'a Graph,
    room: usize,
    text: Result<Vec<u8>, Refusal>,
}

pub const WRITTEN: [(&str, fn(&Asked) -> bool); 18] = [
    ("three vertices", |w| w.text.is_ok() && w.n() == 3),
    ("128 vertices", |w| w.text.is_ok() && w.n() == MOST_TASKS + 2),
    ("1,024 edges", |w| w.text.is_ok() && w.graph.edges.len() == MOST_EDGES),
    ("9,296 bytes of file", |w| w.text.is_ok() && file_of(w.graph).len() == LONGEST_FILE),
    ("5,759 bytes", |w| w.text.as_ref().is_ok_and(|text| text.len() == 5_759)),
    ("15 one byte short", |w| w.is_refused(15) && w.needed() == Some(w.room + 1)),
    ("just room", |w| w.text.is_ok() && w.needed() == Some(w.room)),
    ("a byte more", |w| w.text.is_ok() && w.needed() == Some(w.room - 1)),
    ("24 one vertex", |w| w.is_refused(24) && w.n() == 1),
    ("24 two vertices", |w| w.is_refused(24) && w.n() == 2 && w.has_ends(0, 1)),
    ("24 another source alone", |w| w.is_24_by([true, false, false, false])),
    ("24 another sink alone", |w| w.is_24_by([false, true, false, false])),
    ("24 an entry with a time alone", |w| w.is_24_by([false, false, true, false])),
    ("24 an exit with a time alone", |w| w.is_24_by([false, false, false, true])),
    ("24 the last source, the first sink", |w| w.is_refused(24) && w.n() > 2 && w.has_ends(w.n() - 1, 0)),
    ("24 the first and another source", |w| w.is_refused(24) && w.sources().len() > 1 && w.sources()[0] == 0),
    ("24 the last and another sink", |w| w.is_refused(24) && w.sinks().len() > 1 && w.sinks().contains(&(w.n() - 1))),
    ("24 in no room", |w| w.is_refused(24) && w.room == 0),
];

impl Asked<'_> {
    pub fn of(graph: &Graph, room: usize) -> Asked<'_> {
        Asked { graph, room, text: stg_write(graph, room) }
    }

    fn is_refused(&self, number: u32) -> bool {
        self.text.as_ref().is_err_and(|refusal| refusal.number == number)
    }

    fn n(&self) -> usize {
        self.graph.vertices()
    }

    fn needed(&self) -> Option<usize> {
        stg_write(self.graph, LONGEST_TEXT).ok().map(|text| text.len())
    }

    fn sources(&self) -> Vec<usize> {
        let before = self.graph.predecessors();
        (0..self.n()).filter(|&v| before[v].is_empty()).collect()
    }

    fn sinks(&self) -> Vec<usize> {
        let after = self.graph.successors();
        (0..self.n()).filter(|&v| after[v].is_empty()).collect()
    }

    fn has_ends(&self, source: usize, sink: usize) -> bool {
        self.sources() == [source] && self.sinks() == [sink]
    }

    /// Refused for just these reasons: another source, another sink, a time of the first vertex, a time of the last.
    fn is_24_by(&self, reasons: [bool; 4]) -> bool {
        let last = self.n() - 1;
        let given =
            [self.sources() != [0], self.sinks() != [last], self.graph.wcets[0] > 0, self.graph.wcets[last] > 0];
        self.is_refused(24) && self.n() > 2 && given == reasons
    }
}
