//! A program on two pipes. A thread of its own writes, so that neither side waits for the other's full pipe.

use std::io::{BufRead, BufReader, BufWriter, Read, Write};
use std::process::{Child, ChildStdout, Command, Stdio};
use std::thread::JoinHandle;

const LONGEST_REST: u64 = 1 << 24;

/// What is said of a program that ended with another status than 0.
pub const BAD_END: &str = "the program didn't end well";

pub struct Probe {
    child: Child,
    feed: JoinHandle<()>,
    lines: BufReader<ChildStdout>,
}

impl Probe {
    /// Starts the program and writes each of the pieces to its standard input, then ends that.
    pub fn start(command: &[String], pieces: impl Iterator<Item = Vec<u8>> + Send + 'static) -> Probe {
        let mut child = Command::new(&command[0])
            .args(&command[1..])
            .stdin(Stdio::piped())
            .stdout(Stdio::piped())
            .spawn()
            .unwrap_or_else(|fault| panic!("{} doesn't start: {fault}", command[0]));
        let mut input = BufWriter::new(child.stdin.take().expect("a pipe to it"));
        let lines = BufReader::new(child.stdout.take().expect("a pipe from it"));
        let feed = std::thread::spawn(move || {
            for piece in pieces {
                // a program that ended early is seen by its missing lines
                if input.write_all(&piece).is_err() {
                    return;
                }
            }
            let _ = input.flush();
        });
        Probe { child, feed, lines }
    }

    /// The next line without its line feed; None when there is no whole line any more.
    pub fn line(&mut self) -> Option<String> {
        let mut line = Vec::new();
        self.lines.read_until(b'\n', &mut line).ok()?;
        (line.pop() == Some(b'\n')).then(|| String::from_utf8_lossy(&line).into_owned())
    }

    /// All that is left of its output, as it is; of an endless output no more than anyone could want.
    pub fn rest(&mut self) -> String {
        let mut rest = Vec::new();
        let _ = (&mut self.lines).take(LONGEST_REST).read_to_end(&mut rest);
        String::from_utf8_lossy(&rest).into_owned()
    }

    /// True when it ended well. Its output is closed first, so that it can't wait for a reader.
    pub fn end(mut self) -> bool {
        drop(self.lines);
        let status = self.child.wait().expect("it was started");
        let _ = self.feed.join();
        status.success()
    }
}
