//! The kinds of files that can be mended wrongly: each has to be asked for.

use crate::reference::graph::{LONGEST_FILE, MOST_EDGES, MOST_KINDS, MOST_VERTICES, RECORD};
use crate::reference::mend::{mend, Mend, Mended, MENDS};
use crate::reference::reader::{read, spare, EDGE, KIND, VERTEX};
use crate::reference::refusal::Refusal;
use std::collections::BTreeSet;

/// A file that was to be mended with these rooms, and what comes of it. One that is broken off has no records here.
pub struct Edited<'a> {
    file: &'a [u8],
    rooms: (usize, usize),
    records: Vec<&'a [u8]>,
    outcome: Result<Mended, Refusal>,
    /// the entries of the list that there would be with room enough
    done: BTreeSet<(usize, Mend)>,
    /// the number that the file gets from the reader, and what the mended one would get; 0 is none
    numbers: (u32, u32),
}

use Mend::{Clear, DropDouble, DropLoop, Move};

pub const EDITED: [(&str, fn(&Edited) -> bool); 71] = [
    ("an empty file", |e| e.is_mended() && e.file.is_empty() && e.rooms == (0, 0)),
    ("nothing to mend", |e| e.has([]) && e.numbers.0 == 0),
    ("nothing to mend, refused by the reader", |e| e.has([]) && e.numbers.0 > 3),
    ("C alone", |e| e.has([Clear])),
    ("D alone", |e| e.has([DropLoop])),
    ("X alone", |e| e.has([DropDouble])),
    ("M alone", |e| e.has([Move])),
    ("C and D", |e| e.has([Clear, DropLoop])),
    ("C and X", |e| e.has([Clear, DropDouble])),
    ("C and M", |e| e.has([Clear, Move])),
    ("D and X", |e| e.has([DropLoop, DropDouble])),
    ("D and M", |e| e.has([DropLoop, Move])),
    ("X and M", |e| e.has([DropDouble, Move])),
    ("all but C", |e| e.has([DropLoop, DropDouble, Move])),
    ("all but D", |e| e.has([Clear, DropDouble, Move])),
    ("all but X", |e| e.has([Clear, DropLoop, Move])),
    ("all but M", |e| e.has([Clear, DropLoop, DropDouble])),
    ("all four", |e| e.has(MENDS)),
    ("C of a type", |e| e.some_done(|k, m| m == Clear && e.is(k, KIND))),
    ("C of a vertex", |e| e.some_done(|k, m| m == Clear && e.is(k, VERTEX))),
    ("C of an edge", |e| e.some_done(|k, m| m == Clear && e.is(k, EDGE))),
    ("C of each record", |e| e.records.len() > 1 && e.given(Clear).count() == e.records.len()),
    ("byte 3 alone", |e| e.some_done(|k, m| m == Clear && e.strays(k) == [3])),
    ("byte 4 alone", |e| e.some_done(|k, m| m == Clear && e.strays(k) == [4])),
    ("byte 7 alone", |e| e.some_done(|k, m| m == Clear && e.strays(k) == [7])),
    ("five bytes of a record", |e| e.some_done(|k, m| m == Clear && e.strays(k).len() == 5)),
    ("a vertex whose WCET has four bytes", |e| {
        e.has([]) && e.some(|k| e.is(k, VERTEX) && !e.records[k][4..].contains(&0))
    }),
    ("C and D of one record", |e| e.given(DropLoop).any(|k| e.is_done(k, Clear))),
    ("C and X of one record", |e| e.given(DropDouble).any(|k| e.is_done(k, Clear))),
    ("C and M of one record", |e| e.given(Move).any(|k| e.is_done(k, Clear))),
    ("D twice of one vertex", |e| {
        e.given(DropLoop).any(|k| e.given(DropLoop).any(|j| j < k && e.ends(j) == e.ends(k)))
    }),
    ("D of an undeclared vertex", |e| e.given(DropLoop).any(|k| e.is_undeclared(k))),
    ("D of each edge", |e| e.edges() > 1 && e.given(DropLoop).count() == e.edges()),
    ("X beside", |e| e.given(DropDouble).any(|k| e.first(k) + 1 == k)),
    ("X far away", |e| e.given(DropDouble).any(|k| e.first(k) + 1 < k)),
    ("X twice of one edge", |e| {
        e.given(DropDouble).any(|k| e.given(DropDouble).any(|j| j < k && e.ends(j) == e.ends(k)))
    }),
    ("X of one that moves", |e| e.given(DropDouble).any(|k| e.is_done(e.first(k), Move))),
    ("X where the double stood right", |e| e.given(DropDouble).any(|k| e.is_done(e.first(k), Move) && e.would_stay(k))),
    ("X with stray bytes, the first without", |e| {
        e.given(DropDouble).any(|k| e.is_done(k, Clear) && !e.is_done(e.first(k), Clear))
    }),
    ("X without stray bytes, the first with", |e| {
        e.given(DropDouble).any(|k| !e.is_done(k, Clear) && e.is_done(e.first(k), Clear))
    }),
    ("slid past a dropped one, not moved", |e| e.has([DropLoop]) && e.is_kept_behind_a_drop()),
    ("one that stays among moved ones", |e| e.some(|k| e.is_kept(k) && !e.is_done(k, Move) && e.move_around(k))),
    ("every edge moves", |e| e.edges() > 1 && e.given(Move).count() == e.edges()),
    ("1,024 move", |e| e.given(Move).count() == MOST_EDGES),
    ("1,023 downwards", |e| e.edges() + 1 == MOST_EDGES && e.given(Move).count() + 1 == e.edges()),
    ("record 256 and above", |e| e.some_done(|k, _| k >= 256)),
    ("record 1,161", |e| e.some_done(|k, _| k == 1_161)),
    ("two entries of each record", |e| e.records.len() > 1_000 && e.done.len() == 2 * e.records.len()),
    ("undeclared ends are kept", |e| e.some(|k| e.is_kept(k) && e.is_undeclared(k))),
    ("an end of 255 is kept", |e| e.some(|k| e.is_kept(k) && e.ends(k).contains(&255))),
    ("a cycle is kept", |e| e.numbers.1 == 11),
    ("a wrong type is kept", |e| e.numbers.1 == 5),
    ("a wrong vertex is kept", |e| e.numbers.1 == 7),
    ("11 types and more", |e| e.is_mended() && e.count(KIND) > MOST_KINDS),
    ("129 vertices and more", |e| e.is_mended() && e.count(VERTEX) > MOST_VERTICES),
    ("1,025 edges and more are kept", |e| {
        e.is_mended() && (0..e.records.len()).filter(|&k| e.is_kept(k)).count() > MOST_EDGES
    }),
    ("1,025 edges, mended to fewer", |e| e.numbers.0 > 3 && e.edges() > MOST_EDGES && e.numbers.1 != 8),
    ("mended, and accepted", |e| e.numbers.0 > 0 && e.is_mended() && e.numbers.1 == 0),
    ("9,296 bytes", |e| e.is_mended() && e.file.len() == LONGEST_FILE),
    ("1 of 9,304 bytes", |e| e.is_refused(1) && e.file.len() == LONGEST_FILE + RECORD),
    ("1 broken off", |e| e.is_refused(1) && e.file.len() < LONGEST_FILE),
    ("2 behind a stray byte", |e| e.is_refused(2) && (0..e.place()).any(|k| !e.strays(k).is_empty())),
    ("2 before 3", |e| e.is_refused(2) && e.is_late_before(e.place())),
    ("3 of a type", |e| e.is_refused(3) && e.is(e.place(), KIND)),
    ("3 of a vertex", |e| e.is_refused(3) && e.is(e.place(), VERTEX)),
    ("3 behind stray bytes", |e| e.is_refused(3) && (0..e.place()).any(|k| !e.strays(k).is_empty())),
    ("15 one byte short of the file", |e| e.is_refused(15) && e.rooms == (e.file.len() - 1, 2 * e.file.len())),
    ("15 one byte short of the list", |e| e.is_refused(15) && e.rooms == (e.file.len(), 2 * e.file.len() - 1)),
    ("15 where both answers would fit", |e| e.is_refused(15) && e.would_fit()),
    ("just room", |e| e.is_mended() && !e.file.is_empty() && e.rooms == (e.file.len(), 2 * e.file.len())),
    ("more room", |e| e.is_mended() && e.rooms.0 > e.file.len() && e.rooms.1 > 2 * e.file.len()),
];

impl Edited<'_> {
    pub fn of(file: &[u8], rooms: (usize, usize)) -> Edited<'_> {
        let whole = mend(file, file.len(), 2 * file.len());
        let number_of = |file: &[u8]| read(file).err().map_or(0, |refusal| refusal.number);
        let numbers = (number_of(file), whole.as_ref().map_or(0, |mended| number_of(&mended.file)));
        let list = whole.map_or(vec![], |mended| mended.list);
        let records = if file.len() % RECORD == 0 { file.chunks(RECORD).collect() } else { vec![] };
        let entry = |entry: &[u8]| {
            let mend = MENDS.into_iter().find(|mend| mend.letter() == entry[0]).expect("a letter");
            (entry[1] as usize + 256 * entry[2] as usize, mend)
        };
        let done = list.chunks(RECORD).map(entry).collect();
        Edited { file, rooms, records, outcome: mend(file, rooms.0, rooms.1), done, numbers }
    }

    fn is_mended(&self) -> bool {
        self.outcome.is_ok()
    }

    fn is_refused(&self, number: u32) -> bool {
        self.outcome.as_ref().is_err_and(|refusal| refusal.number == number)
    }

    fn place(&self) -> usize {
        self.outcome.as_ref().map_or_else(|refusal| refusal.place, |_| 0)
    }

    /// Just these mends are done, to whichever records.
    fn has<const N: usize>(&self, mends: [Mend; N]) -> bool {
        self.is_mended() && MENDS.iter().all(|&mend| self.given(mend).next().is_some() == mends.contains(&mend))
    }

    /// The records to which it is done.
    fn given(&self, mend: Mend) -> impl Iterator<Item = usize> + '_ {
        self.done.iter().filter(move |(_, done)| *done == mend).map(|(k, _)| *k)
    }

    fn is_done(&self, k: usize, mend: Mend) -> bool {
        self.done.contains(&(k, mend))
    }

    fn some_done(&self, is: impl Fn(usize, Mend) -> bool) -> bool {
        self.done.iter().any(|&(k, mend)| is(k, mend))
    }

    fn some(&self, is: impl Fn(usize) -> bool) -> bool {
        self.is_mended() && (0..self.records.len()).any(is)
    }

    fn is(&self, k: usize, kind: u8) -> bool {
        self.records[k][0] == kind
    }

    fn count(&self, kind: u8) -> usize {
        self.records.iter().filter(|record| record[0] == kind).count()
    }

    fn edges(&self) -> usize {
        self.count(EDGE)
    }

    fn ends(&self, k: usize) -> &[u8] {
        &self.records[k][1..3]
    }

    fn is_undeclared(&self, k: usize) -> bool {
        self.ends(k).iter().any(|&end| end as usize >= self.count(VERTEX))
    }

    /// The first edge with the ends of k.
    fn first(&self, k: usize) -> usize {
        (0..k).find(|&j| self.is(j, EDGE) && self.ends(j) == self.ends(k)).unwrap_or(k)
    }

    /// The bytes that must be 0 and aren't.
    fn strays(&self, k: usize) -> Vec<usize> {
        let record = self.records[k];
        spare(record).map_or(vec![], |bytes| bytes.filter(|&at| record[at] != 0).collect())
    }

    fn is_kept(&self, k: usize) -> bool {
        self.is(k, EDGE) && !self.is_done(k, DropLoop) && !self.is_done(k, DropDouble)
    }

    fn kept(&self) -> Vec<usize> {
        (0..self.records.len()).filter(|&k| self.is_kept(k)).collect()
    }

    /// Were the double kept in place of the first, it would not move.
    fn would_stay(&self, k: usize) -> bool {
        let others: Vec<usize> = self.kept().into_iter().filter(|&j| j != self.first(k)).collect();
        let stood = others.iter().filter(|&&j| j < k).count();
        stood == others.iter().filter(|&&j| self.ends(j) < self.ends(k)).count()
    }

    fn is_kept_behind_a_drop(&self) -> bool {
        self.given(DropLoop).any(|k| self.kept().last() > Some(&k))
    }

    /// Some edge before it moves, and some behind it.
    fn move_around(&self, k: usize) -> bool {
        self.given(Move).any(|j| j < k) && self.given(Move).any(|j| j > k)
    }

    /// A type or a vertex stands behind what it must not follow, before record k.
    fn is_late_before(&self, k: usize) -> bool {
        let rank = |j: usize| [KIND, VERTEX, EDGE].iter().position(|&kind| self.is(j, kind));
        (1..k).any(|j| (0..j).any(|i| rank(i) > rank(j)))
    }

    fn would_fit(&self) -> bool {
        let mended = mend(self.file, self.file.len(), 2 * self.file.len());
        mended.is_ok_and(|mended| mended.file.len() <= self.rooms.0 && mended.list.len() <= self.rooms.1)
    }
}
