//! The frames kept in samples/: of the graph on standard input, as another scheduler than ours ran it.

use crate::generate::conserving::{schedule, Choice, Manner};
use crate::generate::random::Random;
use crate::options::Options;
use crate::reference::log::bytes_of;
use crate::reference::reader::read;
use std::io::{Read, Write};

/// Which time that cores are given one is left out.
pub const IDLE: usize = 60;

/// The log of a frame in which each vertex takes from half its WCET to all of it. Where a core idles, the frame is the same
/// until then.
pub fn frame_of_input(options: &Options, idle: Option<usize>) -> bool {
    let mut file = Vec::new();
    std::io::stdin().read_to_end(&mut file).expect("standard input can be read");
    let Ok(graph) = read(&file) else {
        eprintln!("standard input is no graph file");
        return false;
    };
    let random = &mut Random::new(options.seed, 0);
    let times: Vec<u32> = graph.wcets.iter().map(|&c| random.between(c as usize / 2, c as usize) as u32).collect();
    let manner = Manner { choice: Choice::MostlyKept, more: 60, restarts: false, idle };
    let log = bytes_of(&schedule(random, &graph, &times, manner));
    std::io::stdout().write_all(&log).is_ok()
}
