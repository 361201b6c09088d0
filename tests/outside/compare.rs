//! The probe's answers against the reference's, line by line.

use crate::answer::{answer, answers};
use crate::generate::random::Random;
use crate::generate::request::{Request, LONGEST_PAYLOAD};
use crate::generate::stream::Stream;
use crate::options::Options;
use crate::probe::{Probe, BAD_END};
use std::io::{BufWriter, Write};

/// How many differences are shown; all are counted.
const SHOWN: u64 = 5;
/// How many inputs that end inside a request; each takes a process of its own.
const CUT_INPUTS: u64 = 24;

pub fn compare(options: &Options) -> bool {
    let (count, seed) = (options.count, options.seed);
    let sent = Stream::new(seed);
    let pieces = (0..count).map(move |place| sent.request(place).bytes());
    let mut probe = Probe::start(&options.command, pieces);
    let expected = Stream::new(seed);
    let mut differences = 0;
    for place in 0..count {
        let request = expected.request(place);
        let want = answer(&request);
        let Some(got) = probe.line() else {
            eprintln!("the probe ended before its answer to request {place}:\n{}", described(&request));
            differences += count - place;
            break;
        };
        if got != want {
            if differences < SHOWN {
                eprintln!("request {place}: {}\n{}", described(&request), difference(&want, &got));
            }
            differences += 1;
        }
    }
    let rest = probe.rest();
    if !rest.is_empty() {
        eprintln!("more than one line for a request: {}", excerpt(rest.trim_end(), 0));
        differences += 1;
    }
    if !probe.end() {
        eprintln!("{BAD_END}");
        differences += 1;
    }
    let cut = (0..CUT_INPUTS).filter(|&place| !cut_input_agrees(options, place)).count() as u64;
    println!("{} requests, {} differences", count + CUT_INPUTS, differences + cut);
    differences + cut == 0
}

/// Some requests and then one that the input ends inside of: an answer for each and `bad request` last.
fn cut_input_agrees(options: &Options, place: u64) -> bool {
    let input = cut_input(options.seed, place);
    let want = answers(&input);
    let mut probe = Probe::start(&options.command, std::iter::once(input.clone()));
    let got = probe.rest();
    if got != want {
        eprintln!("an input that ends inside a request: {}\n{}", hex(&input), difference(&want, &got));
    }
    let ended_well = probe.end();
    if !ended_well {
        eprintln!("{BAD_END}");
    }
    got == want && ended_well
}

pub fn cut_input(seed: u64, place: u64) -> Vec<u8> {
    let random = &mut Random::new(seed ^ 0xC07, place);
    let stream = Stream::new(seed);
    let mut input = stream.request(100 + place).bytes();
    let mut last = stream.request(200 + place).bytes();
    if place % 8 == 7 {
        // an input that ends inside a payload that is too long anyway
        let longer = LONGEST_PAYLOAD as u32 + random.pick(&[1, 1 << 20, u32::MAX - LONGEST_PAYLOAD as u32]);
        last[1..5].copy_from_slice(&longer.to_le_bytes());
    }
    let kept = match place % 4 {
        0 => random.between(1, 4),
        1 => 5.min(last.len() - 1),
        2 => last.len() - 1,
        _ => random.between(5.min(last.len() - 1), last.len() - 1),
    };
    last.truncate(kept);
    input.extend(last);
    input
}

/// The requests that a probe would be sent, for whoever wants to see what a program does with them.
pub fn requests(options: &Options) -> bool {
    let stream = Stream::new(options.seed);
    let mut out = BufWriter::new(std::io::stdout().lock());
    let all_written = (0..options.count).all(|place| out.write_all(&stream.request(place).bytes()).is_ok());
    all_written && out.flush().is_ok()
}

/// One request in full.
pub fn show(options: &Options) -> bool {
    let request = Stream::new(options.seed).request(options.count);
    println!("letter {}\npayload {}", request.letter.escape_ascii(), hex(&request.payload));
    println!("expected {}", answer(&request));
    true
}

fn described(request: &Request) -> String {
    let payload = hex(&request.payload);
    let length = request.payload.len();
    let cut = if payload.len() > 2_000 { format!("{}.. (--show has all)", &payload[..2_000]) } else { payload };
    format!("letter {}, {length} bytes of payload {cut}", request.letter.escape_ascii())
}

fn difference(want: &str, got: &str) -> String {
    let same = want.bytes().zip(got.bytes()).take_while(|(w, g)| w == g).count();
    format!("  expected {}\n  got      {}\n  from column {same} on", excerpt(want, same), excerpt(got, same))
}

/// The line, or its begin and what stands around the place where a long one differs.
fn excerpt(line: &str, at: usize) -> String {
    let line: Vec<char> = line.chars().collect();
    let part = |from: usize, to: usize| line[from.min(line.len())..to.min(line.len())].iter().collect::<String>();
    if line.len() <= 400 {
        return part(0, line.len());
    }
    format!("{} .. {} ..", part(0, 60), part(at.saturating_sub(60), at + 160))
}

pub fn hex(bytes: &[u8]) -> String {
    bytes.iter().map(|b| format!("{b:02x}")).collect()
}
