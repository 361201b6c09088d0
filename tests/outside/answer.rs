//! The reference's line for a request.

use crate::generate::request::{Request, LARGEST_ROOM, LONGEST_PAYLOAD};
use crate::reference::bounds::{bounds, path};
use crate::reference::enough::enough;
use crate::reference::gains::{gains, gains_altered};
use crate::reference::late::late;
use crate::reference::log::log;
use crate::reference::mend::mend;
use crate::reference::reader::read;
use crate::reference::record::RunRecord;
use crate::reference::refusal::Refusal;
use crate::reference::replay::replay;
use crate::reference::schedule::{run, start, tick, Ticked};
use crate::reference::second::second;
use crate::reference::stg::{stg_read, stg_write};
use crate::reference::writer::{write, Lists};
use std::fmt::Display;
use std::io::{Read, Write};

/// What each byte of a lent list holds before the call.
const PRESET: u8 = 0xA5;
const BAD: &str = "bad request";

/// The line, without its line feed.
pub fn answer(request: &Request) -> String {
    if request.payload.len() > LONGEST_PAYLOAD {
        return BAD.to_string();
    }
    let fields = Fields(&request.payload);
    let line = match request.letter {
        b'R' => answer_read(fields),
        b'W' => answer_write(fields),
        b'B' => answer_bounds(fields),
        b'P' => answer_path(fields),
        b'S' => answer_start(fields),
        b'T' | b'I' => answer_tick(fields),
        b'X' => answer_run(fields),
        b'G' => answer_gains(fields),
        b'A' => answer_gains_altered(fields),
        b'N' => answer_second(fields),
        b'D' => answer_late(fields),
        b'L' => answer_replay(fields),
        b'O' => answer_log(fields),
        b'U' => answer_stg_read(fields),
        b'V' => answer_stg_write(fields),
        b'M' => answer_mend(fields),
        b'C' => answer_enough(fields),
        _ => None,
    };
    line.unwrap_or(BAD.to_string())
}

/// All lines for an input, which may end inside a request.
pub fn answers(mut input: &[u8]) -> String {
    let mut lines = String::new();
    while !input.is_empty() {
        let Some(length) = input.get(1..5) else {
            return lines + BAD + "\n";
        };
        let length = u32::from_le_bytes(length.try_into().unwrap()) as usize;
        let Some(payload) = input[5..].get(..length) else {
            return lines + BAD + "\n";
        };
        lines += &answer(&Request { letter: input[0], payload: payload.to_vec() });
        lines += "\n";
        input = &input[5 + length..];
    }
    lines
}

/// Answers standard input as the probe would.
pub fn answer_input() -> bool {
    let mut input = Vec::new();
    std::io::stdin().read_to_end(&mut input).expect("standard input can be read");
    std::io::stdout().write_all(answers(&input).as_bytes()).is_ok()
}

/// The fields of a payload, taken from its front; None where the request isn't of its form.
struct Fields<'a>(&'a [u8]);

impl<'a> Fields<'a> {
    fn take(&mut self, length: usize) -> Option<&'a [u8]> {
        let (front, rest) = self.0.split_at_checked(length)?;
        self.0 = rest;
        Some(front)
    }

    fn list(&mut self) -> Option<&'a [u8]> {
        let length = u32::from_le_bytes(self.take(4)?.try_into().ok()?);
        self.take(length as usize)
    }

    fn list_of_words(&mut self) -> Option<Vec<u32>> {
        let words = self.list()?.chunks(4).map(|w| Some(u32::from_le_bytes(w.try_into().ok()?)));
        words.collect()
    }

    fn list_of_edges(&mut self) -> Option<Vec<u16>> {
        let edges = self.list()?.chunks(2).map(|e| Some(u16::from_le_bytes(e.try_into().ok()?)));
        edges.collect()
    }

    fn number(&mut self) -> Option<u64> {
        Some(u64::from_le_bytes(self.take(8)?.try_into().ok()?))
    }

    /// A number that an entry takes in 32 bits.
    fn word(&mut self) -> Option<u32> {
        u32::try_from(self.number()?).ok()
    }

    fn room(&mut self) -> Option<usize> {
        let room = self.number()?;
        (room <= LARGEST_ROOM as u64).then_some(room as usize)
    }

    fn of_tick(mut self) -> Option<(&'a [u8], RunRecord)> {
        let (file, record) = (self.list()?, RunRecord::from_bytes(self.list()?)?);
        self.end()?;
        Some((file, record))
    }

    fn of_late(mut self) -> Option<(&'a [u8], Vec<u32>, u32)> {
        let (file, times, d) = (self.list()?, self.list_of_words()?, self.word()?);
        self.end()?;
        Some((file, times, d))
    }

    fn of_replay(mut self) -> Option<(&'a [u8], &'a [u8], usize)> {
        let (file, log, room) = (self.list()?, self.list()?, self.room()?);
        self.end()?;
        Some((file, log, room))
    }

    fn of_stg_read(mut self) -> Option<AskedText<'a>> {
        let asked = AskedText { text: self.list()?, cores: self.list()?, kinds: self.list()?, room: self.room()? };
        self.end()?;
        Some(asked)
    }

    fn of_stg_write(mut self) -> Option<(&'a [u8], usize)> {
        let (file, room) = (self.list()?, self.room()?);
        self.end()?;
        Some((file, room))
    }

    fn of_mend(mut self) -> Option<(&'a [u8], usize, usize)> {
        let (file, room, list_room) = (self.list()?, self.room()?, self.room()?);
        self.end()?;
        Some((file, room, list_room))
    }

    fn of_enough(mut self) -> Option<(&'a [u8], u32, u32)> {
        let (file, kind, limit) = (self.list()?, self.word()?, self.word()?);
        self.end()?;
        Some((file, kind, limit))
    }

    fn end(self) -> Option<()> {
        self.0.is_empty().then_some(())
    }
}

fn answer_read(mut fields: Fields) -> Option<String> {
    let file = fields.list()?;
    fields.end()?;
    Some(match read(file) {
        Err(refusal) => format!("{} clean", refused(refusal)),
        Ok(graph) => {
            let (k, n, e) = (graph.cores.len(), graph.vertices(), graph.edges.len());
            let edges = graph.edges.iter().map(|&(from, to)| from as u16 * 256 + to as u16);
            let lists = [joined(&graph.cores), joined(&graph.kinds), joined(&graph.wcets), joined(edges)];
            format!("graph {k} {n} {e}{} clean", lists.concat())
        }
    })
}

fn answer_write(mut fields: Fields) -> Option<String> {
    let cores = fields.list()?.to_vec();
    let kinds = fields.list()?.to_vec();
    let wcets = fields.list_of_words()?;
    let edges = fields.list_of_edges()?;
    let room = fields.room()?;
    fields.end()?;
    let outcome = write(&Lists { cores, kinds, wcets, edges }, room);
    Some(lent("wrote", outcome.map(|file| (file.len(), file)), room, PRESET))
}

fn answer_bounds(mut fields: Fields) -> Option<String> {
    let file = fields.list()?;
    fields.end()?;
    Some(match read(file).map(|graph| bounds(&graph)) {
        Err(refusal) => format!("{} old 0 new 0 ticks 0", refused(refusal)),
        Ok(b) => format!("old {} new {} ticks {}", b.old, b.new, b.ticks),
    })
}

fn answer_path(mut fields: Fields) -> Option<String> {
    let file = fields.list()?;
    let room = fields.room()?;
    fields.end()?;
    let outcome = read(file).and_then(|graph| path(&graph, room));
    Some(lent("path", outcome.map(|path| (path.len(), path)), room, PRESET))
}

fn answer_start(mut fields: Fields) -> Option<String> {
    let file = fields.list()?;
    let times = fields.list_of_words()?;
    fields.end()?;
    Some(match read(file).and_then(|graph| start(&graph, &times)) {
        Err(refusal) => format!("{} :{}", refused(refusal), shown(&RunRecord::zero())),
        Ok(record) => format!("started :{}", shown(&record)),
    })
}

/// What a request for a tick asks about: file and record.
pub fn asked_tick(request: &Request) -> Option<(&[u8], RunRecord)> {
    Fields(&request.payload).of_tick()
}

fn answer_tick(fields: Fields) -> Option<String> {
    let (file, record) = fields.of_tick()?;
    Some(match read(file).and_then(|graph| tick(&graph, &record)) {
        Err(refusal) => format!("{} :{}", refused(refusal), shown(&record)),
        Ok((Ticked::Moved, next)) => format!("moved :{}", shown(&next)),
        Ok((Ticked::Done, same)) => format!("done :{}", shown(&same)),
    })
}

fn answer_run(mut fields: Fields) -> Option<String> {
    let file = fields.list()?;
    let times = fields.list_of_words()?;
    let room = fields.room()?;
    fields.end()?;
    let outcome = read(file).and_then(|graph| run(&graph, &times, room));
    let with_finish = outcome.map(|finishes| (finishes.iter().max().copied().unwrap_or(0) as usize, finishes));
    Some(lent("finish", with_finish, room, u32::from_le_bytes([PRESET; 4])))
}

fn answer_gains(mut fields: Fields) -> Option<String> {
    let file = fields.list()?;
    let room = fields.room()?;
    fields.end()?;
    Some(told_gains(read(file).and_then(|graph| gains(&graph, room)), room))
}

fn answer_gains_altered(mut fields: Fields) -> Option<String> {
    let file = fields.list()?;
    let vertex = fields.word()?;
    let wcet = fields.word()?;
    let room = fields.room()?;
    fields.end()?;
    Some(told_gains(read(file).and_then(|graph| gains_altered(&graph, vertex, wcet, room)), room))
}

fn answer_second(mut fields: Fields) -> Option<String> {
    let file = fields.list()?;
    fields.end()?;
    Some(match read(file).and_then(|graph| second(&graph)) {
        Err(refusal) => format!("{} second 0", refused(refusal)),
        Ok(parts) => format!("second {parts}"),
    })
}

fn answer_late(fields: Fields) -> Option<String> {
    let (file, times, d) = fields.of_late()?;
    Some(match read(file).and_then(|graph| late(&graph, &times, d)) {
        Err(refusal) => format!("{} no played 0", refused(refusal)),
        Ok(answer) => format!("{} played {}", if answer.yes { "yes" } else { "no" }, answer.played),
    })
}

/// What a request whether a run is late asks about: file, times and tick.
pub fn asked_late(request: &Request) -> Option<(&[u8], Vec<u32>, u32)> {
    Fields(&request.payload).of_late()
}

fn answer_replay(fields: Fields) -> Option<String> {
    let (file, log, room) = fields.of_replay()?;
    let outcome = read(file).and_then(|graph| replay(&graph, log, room));
    let with_finish = outcome.map(|replayed| (replayed.finish as usize, replayed.times));
    Some(lent("replayed", with_finish, room, u32::from_le_bytes([PRESET; 4])))
}

/// What a request for a replay asks about: file and log.
pub fn asked_replay(request: &Request) -> Option<(&[u8], &[u8])> {
    Fields(&request.payload).of_replay().map(|(file, log, _)| (file, log))
}

fn answer_log(mut fields: Fields) -> Option<String> {
    let file = fields.list()?;
    let times = fields.list_of_words()?;
    let room = fields.room()?;
    fields.end()?;
    let outcome = read(file).and_then(|graph| log(&graph, &times, room));
    Some(lent("log", outcome.map(|log| (log.len(), log)), room, PRESET))
}

/// What a request to read a text asks about.
pub struct AskedText<'a> {
    pub text: &'a [u8],
    pub cores: &'a [u8],
    pub kinds: &'a [u8],
    pub room: usize,
}

fn answer_stg_read(fields: Fields) -> Option<String> {
    let asked = fields.of_stg_read()?;
    let outcome = stg_read(asked.text, asked.cores, asked.kinds, asked.room);
    Some(lent("read", outcome.map(|file| (file.len(), file)), asked.room, PRESET))
}

pub fn asked_stg_read(request: &Request) -> Option<AskedText<'_>> {
    Fields(&request.payload).of_stg_read()
}

fn answer_stg_write(fields: Fields) -> Option<String> {
    let (file, room) = fields.of_stg_write()?;
    let outcome = read(file).and_then(|graph| stg_write(&graph, room));
    Some(lent("text", outcome.map(|text| (text.len(), text)), room, PRESET))
}

/// What a request to write a text asks about: file and room.
pub fn asked_stg_write(request: &Request) -> Option<(&[u8], usize)> {
    Fields(&request.payload).of_stg_write()
}

fn answer_mend(fields: Fields) -> Option<String> {
    let (file, room, list_room) = fields.of_mend()?;
    let outcome = mend(file, room, list_room);
    let head = match &outcome {
        Err(refusal) => refused(*refusal),
        Ok(mended) => format!("mended {} {}", mended.file.len(), mended.list.len()),
    };
    let mended = outcome.unwrap_or_default();
    let (file, list) = (held(&mended.file, room, PRESET), held(&mended.list, list_room, PRESET));
    Some(format!("{head} :{} :{}", joined(file), joined(list)))
}

/// What a request to mend asks about: file and both rooms.
pub fn asked_mend(request: &Request) -> Option<(&[u8], usize, usize)> {
    Fields(&request.payload).of_mend()
}

fn answer_enough(fields: Fields) -> Option<String> {
    let (file, kind, limit) = fields.of_enough()?;
    Some(match read(file).and_then(|graph| enough(&graph, kind, limit)) {
        Err(refusal) => format!("{} cores 0", refused(refusal)),
        Ok(cores) => format!("cores {cores}"),
    })
}

/// What a request for the cores that are enough asks about: file, type and limit.
pub fn asked_enough(request: &Request) -> Option<(&[u8], u32, u32)> {
    Fields(&request.payload).of_enough()
}

fn told_gains(outcome: Result<Vec<u64>, Refusal>, room: usize) -> String {
    lent("gains", outcome.map(|gains| (gains.len(), gains)), room, u64::from_le_bytes([PRESET; 8]))
}

/// A word with its number, or a refusal, and all the lent places.
fn lent<T: Copy + Display>(word: &str, outcome: Result<(usize, Vec<T>), Refusal>, room: usize, preset: T) -> String {
    let (head, list) = match outcome {
        Err(refusal) => (refused(refusal), vec![]),
        Ok((number, list)) => (format!("{word} {number}"), list),
    };
    format!("{head} :{}", joined(held(&list, room, preset)))
}

/// What a lent list of so many places holds: the answer's first, the others as they were.
fn held<T: Copy>(list: &[T], room: usize, preset: T) -> Vec<T> {
    [list, &vec![preset; room - list.len()]].concat()
}

fn refused(refusal: Refusal) -> String {
    format!("refused {} at {}", refusal.number, refusal.place)
}

/// The record, with a blank before each number.
fn shown(record: &RunRecord) -> String {
    let [begin, left] = [joined([record.n, record.instant]), joined(record.remaining)];
    [begin, left, joined(record.ran), joined(record.waiting)].concat()
}

fn joined<T: Display>(list: impl IntoIterator<Item = T>) -> String {
    list.into_iter().map(|item| format!(" {item}")).collect()
}
