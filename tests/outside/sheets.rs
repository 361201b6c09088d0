//! The sheet program's text against the reference's.

use crate::generate::request::Request;
use crate::generate::stream::Stream;
use crate::options::Options;
use crate::probe::{Probe, BAD_END};
use crate::reference::graph::LONGEST_FILE;
use crate::reference::sheet::sheet;
use std::io::{Read, Write};

/// The sheet of standard input.
pub fn sheet_of_input() -> bool {
    let mut file = Vec::new();
    std::io::stdin().read_to_end(&mut file).expect("standard input can be read");
    std::io::stdout().write_all(sheet(&file).as_bytes()).is_ok()
}

pub fn sheets(options: &Options) -> bool {
    let stream = Stream::new(options.seed);
    let mut files = long_inputs();
    let mut place = 0;
    while (files.len() as u64) < options.count {
        files.extend(file_of_bounds(&stream.request(place)));
        place += 1;
    }
    let differences = files.iter().filter(|file| !text_agrees(&options.command, file)).count();
    println!("{} sheets, {differences} differences", files.len());
    differences == 0
}

/// Inputs far above the longest file, one of them with a good graph in front: each is 1 at 0.
fn long_inputs() -> Vec<Vec<u8>> {
    let good = include_bytes!("../../samples/board.graph").to_vec();
    let padded = [good, vec![0; LONGEST_FILE]].concat();
    vec![padded, vec![0x54; LONGEST_FILE + 1], vec![0; 100_000], vec![0x56; 1_000_000]]
}

/// The file of a request for bounds: there is one for each file of the catalogue, and later ones are good for the most
/// part, so that most sheets have all their lines.
fn file_of_bounds(request: &Request) -> Option<Vec<u8>> {
    request.first_list().filter(|_| request.letter == b'B').map(<[u8]>::to_vec)
}

fn text_agrees(command: &[String], file: &[u8]) -> bool {
    let mut program = Probe::start(command, std::iter::once(file.to_vec()));
    let got = program.rest();
    let want = sheet(file);
    if got != want {
        let begin: String = file.iter().take(400).map(|b| format!("{b:02x}")).collect();
        eprintln!("an input of {} bytes, {begin}\nexpected {want}got      {got}", file.len());
    }
    let ended_well = program.end();
    if !ended_well {
        eprintln!("{BAD_END}");
    }
    got == want && ended_well
}
