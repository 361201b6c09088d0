//! The planner once more, in plain Rust, written from the documents alone.
//!
//! It is the witness that the proved planner is compared with, so it takes other ways wherever there are any: a
//! search in depth for the cycle, sums in topological order, whole paths compared as lists, complete paths by their
//! numbers, a run as a queue of finishes, a log by the instants that it tells of, edges in order by a tree of their ends,
//! every number of cores in turn. Read in this order:
//!
//!   refusal   a number and a place
//!   graph     an accepted graph
//!   judge     numbers 4 to 11, over what a file or the writer's lists declare
//!   reader    numbers 1 to 3, then judge; writer   number 13, then judge, then 15
//!   order     cycle and topological order
//!   bounds    OLD-B, NEW-B-1 and the least path
//!   second    NEW-B-2, and the number of complete paths (17)
//!   gains     what a rewrite of each vertex would gain, and their ranking
//!   record    the run record with its numbers of unfinished predecessors, and which of them suit a graph (16)
//!   schedule  start, tick, whole run
//!   late      whether a run ends by a tick, and the ticks played to tell
//!   log       what the log of a frame says, and the log of a list schedule
//!   replay    which logs are work-conserving schedules (18 to 22)
//!   stg       Standard Task Graph text, read (23) and written (24)
//!   mend      a hand-edited file mended, and the list of what was done
//!   enough    the smallest number of cores with which a limit is met (25, 26)
//!   sheet     the program's text

pub mod bounds;
pub mod enough;
pub mod gains;
pub mod graph;
pub mod judge;
pub mod late;
pub mod log;
pub mod mend;
pub mod order;
pub mod reader;
pub mod record;
pub mod refusal;
pub mod replay;
pub mod schedule;
pub mod second;
pub mod sheet;
pub mod stg;
pub mod writer;
