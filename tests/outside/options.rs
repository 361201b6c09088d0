//! The command line: our own words, then a program to run with its own arguments, which may begin with dashes too.
//! `--count` and `--seed` are ours wherever they stand.

pub const USAGE: &str = "\
outside PROBE-COMMAND.. [--count N] [--seed S]      compare the probe's answers with the reference's
outside --self [--count N] [--seed S]               the reference alone: all answers occur, other ways agree
outside --schedules N [--seed S] [PROBE-COMMAND..]  random work-conserving schedules against the bounds
outside --pairs N [--seed S] [PROBE-COMMAND..]      pairs of boards, one better than the other, against order 11
outside --sheets N [--seed S] SHEET-COMMAND..       compare the sheet program's text, a process for each file
outside --sheet                                     the reference's sheet of standard input
outside --frame [--seed S]                          a log of the graph on standard input, of a frame that is no list schedule
outside --idle-frame [--seed S]                     the same, where a core idles once while a vertex waits for it
outside --requests N [--seed S]                     the requests alone, to standard output
outside --answer                                    the reference as a probe: tries the pipes
outside --show PLACE [--seed S]                     the request of that place in full, with the answer expected";

#[derive(Clone, Copy, PartialEq)]
pub enum Mode {
    Compare,
    OwnRequests,
    Schedules,
    Pairs,
    Sheets,
    Sheet,
    Frame,
    IdleFrame,
    Requests,
    Show,
    Answer,
}

pub struct Options {
    pub mode: Mode,
    /// how many requests, schedules, pairs or files; in `--show` the place
    pub count: u64,
    pub seed: u64,
    pub command: Vec<String>,
}

impl Options {
    pub fn from(words: impl Iterator<Item = String>) -> Result<Options, String> {
        let mut options = Options { mode: Mode::Compare, count: 48_000, seed: 1, command: Vec::new() };
        let mut words = words;
        while let Some(word) = words.next() {
            let mut number = || {
                let value = words.next().and_then(|n| n.replace('_', "").parse().ok());
                value.ok_or(format!("{word} wants a number"))
            };
            match word.as_str() {
                "--count" => options.count = number()?,
                "--seed" => options.seed = number()?,
                // behind a program a word is that program's, so that this one can be its own probe
                _ if !options.command.is_empty() => options.command.push(word),
                "--self" => options.mode = Mode::OwnRequests,
                "--sheet" => options.mode = Mode::Sheet,
                "--frame" => options.mode = Mode::Frame,
                "--idle-frame" => options.mode = Mode::IdleFrame,
                "--answer" => options.mode = Mode::Answer,
                "--schedules" => (options.mode, options.count) = (Mode::Schedules, number()?),
                "--pairs" => (options.mode, options.count) = (Mode::Pairs, number()?),
                "--sheets" => (options.mode, options.count) = (Mode::Sheets, number()?),
                "--requests" => (options.mode, options.count) = (Mode::Requests, number()?),
                "--show" => (options.mode, options.count) = (Mode::Show, number()?),
                _ => options.command.push(word),
            }
        }
        let wants_command = [Mode::Compare, Mode::Sheets].contains(&options.mode);
        if wants_command && options.command.is_empty() {
            return Err("no program to run is given".to_string());
        }
        Ok(options)
    }
}
