//! What a board text gives, written from docs/BOARD.md alone: a graph file, or the lines that say what is wrong.
use std::collections::HashMap;

/// The file's bytes, the stages' names and the types'; or what is printed, with the row of docs/BOARD.md that it is.
pub enum Given {
    File { bytes: Vec<u8>, names: Vec<Vec<u8>>, types: Vec<Vec<u8>> },
    No { row: &'static str, said: String },
}

struct Fault {
    row: &'static str,
    line: usize,
    says: String,
}

type Judged<T> = Result<T, Fault>;

fn fault<T>(row: &'static str, line: usize, says: String) -> Judged<T> {
    Err(Fault { row, line, says })
}

fn quoted(word: &[u8]) -> String {
    // bytes as they are: one char for each, written out again as one byte
    format!("\"{}\"", word.iter().map(|&b| b as char).collect::<String>())
}

struct Kind {
    line: usize,
    name: Vec<u8>,
    cores: u64,
}

struct Stage {
    line: usize,
    name: Vec<u8>,
    kind: Vec<u8>,
    wcet: u64,
    waits: Vec<Vec<u8>>,
}

fn number(word: &[u8], most: u64, line: usize) -> Judged<u64> {
    if !word.iter().all(u8::is_ascii_digit) {
        return fault("no number", line, format!("{} is no number", quoted(word)));
    }
    let digits: Vec<u8> = word.iter().copied().skip_while(|&b| b == b'0').collect();
    let large = digits.len() > 10;
    let value = if large { 0 } else { digits.iter().fold(0, |n, &b| 10 * n + u64::from(b - b'0')) };
    if large || value > most {
        return fault("large", line, format!("{} is too large a number", quoted(word)));
    }
    Ok(value)
}

fn name(word: &[u8], taken: bool, full: bool, what: &'static str, most: usize, line: usize) -> Judged<Vec<u8>> {
    if word.len() > 64 {
        return fault("long name", line, format!("the name {} has more than 64 bytes", quoted(word)));
    }
    if taken {
        return fault("twice", line, format!("a second {what} is called {}", quoted(word)));
    }
    if full {
        return fault("many", line, format!("{what} {} is one too many: {most} are the most", quoted(word)));
    }
    Ok(word.to_vec())
}

fn missing<T>(after: &[u8], line: usize) -> Judged<T> {
    fault("missing", line, format!("a word is missing after {}", quoted(after)))
}

pub fn words(line: &[u8]) -> Vec<&[u8]> {
    let said = line.split(|&b| b == b'#').next().unwrap_or(&[]);
    said.split(|&b| b == b' ' || b == b'\t' || b == b'\r').filter(|w| !w.is_empty()).collect()
}

/// What is wrong with a text as such.
fn as_text(text: &[u8]) -> Judged<()> {
    if text.len() > 65536 {
        let line = 1 + text[..65536].iter().filter(|&&b| b == b'\n').count();
        return fault("long text", line, "the text has more than 65536 bytes".into());
    }
    let mut line = 1;
    for &b in text {
        if b == b'\n' {
            line += 1;
        } else if (b < 32 && b != 9 && b != 13) || b == 127 {
            return fault("byte", line, format!("\"{b}\" is a byte that is no text"));
        }
    }
    for (i, line) in text.split(|&b| b == b'\n').enumerate() {
        if line.len() > 4096 {
            return fault("long line", i + 1, "the line has more than 4096 bytes".into());
        }
    }
    Ok(())
}

fn lines(text: &[u8]) -> Judged<(Vec<Kind>, Vec<Stage>)> {
    let (mut kinds, mut stages): (Vec<Kind>, Vec<Stage>) = (vec![], vec![]);
    for (i, bytes) in text.split(|&b| b == b'\n').enumerate() {
        let (line, w) = (i + 1, words(bytes));
        if w.is_empty() {
            continue;
        }
        if w[0] == b"cores" {
            if w.len() < 2 {
                return missing(w[0], line);
            }
            let taken = kinds.iter().any(|k| k.name == w[1]);
            let name = name(w[1], taken, kinds.len() == 10, "type", 10, line)?;
            if w.len() < 3 {
                return missing(w[1], line);
            }
            let cores = number(w[2], 255, line)?;
            if w.len() > 3 {
                return fault("extra", line, format!("{} is one word too many", quoted(w[3])));
            }
            kinds.push(Kind { line, name, cores });
        } else {
            let taken = stages.iter().any(|s| s.name == w[0]);
            let name = name(w[0], taken, stages.len() == 128, "stage", 128, line)?;
            if w.len() < 3 {
                return missing(w[w.len() - 1], line);
            }
            let wcet = number(w[2], 4294967295, line)?;
            let waits = w[3..].iter().map(|x| x.to_vec()).collect();
            stages.push(Stage { line, name, kind: w[1].to_vec(), wcet, waits });
        }
    }
    Ok((kinds, stages))
}

type Edges = Vec<(usize, usize)>;

/// The type of each stage and the edges, in ascending order.
fn looked_up(kinds: &[Kind], stages: &[Stage]) -> Judged<(Vec<usize>, Edges)> {
    let kind: HashMap<&[u8], usize> = kinds.iter().enumerate().map(|(i, k)| (&k.name[..], i)).collect();
    let stage: HashMap<&[u8], usize> = stages.iter().enumerate().map(|(i, s)| (&s.name[..], i)).collect();
    let (mut types, mut edges) = (vec![], Edges::new());
    for (v, s) in stages.iter().enumerate() {
        match kind.get(&s.kind[..]) {
            None => return fault("no type", s.line, format!("no type is called {}", quoted(&s.kind))),
            Some(&k) => types.push(k),
        }
        for w in &s.waits {
            let Some(&u) = stage.get(&w[..]) else {
                return fault("no stage", s.line, format!("no stage is called {}", quoted(w)));
            };
            if edges.contains(&(u, v)) {
                return fault("waits twice", s.line, format!("{} is waited for twice", quoted(w)));
            }
            if edges.len() == 1024 {
                return fault("many waits", s.line, format!("{} is one wait too many: 1024 are the most", quoted(w)));
            }
            edges.push((u, v));
        }
    }
    edges.sort();
    Ok((types, edges))
}

fn returns_to(v: usize, edges: &Edges) -> bool {
    let mut open = vec![v];
    let mut seen = [false; 128];
    while let Some(u) = open.pop() {
        for &(from, to) in edges {
            if from == u && !seen[to] {
                seen[to] = true;
                open.push(to);
            }
        }
    }
    seen[v]
}

struct No {
    number: usize,
    place: usize,
    row: &'static str,
    line: usize,
    says: String,
}

/// The planner's refusal of the lists, with the line of the text that it is about.
fn refused(text: &[u8], kinds: &[Kind], stages: &[Stage], edges: &Edges) -> Option<No> {
    let last = 1 + text.iter().filter(|&&b| b == b'\n').count();
    let (k, n) = (kinds.len(), stages.len());
    let no = |number, place, row, line, says: String| Some(No { number, place, row, line, says });
    let stage = |v: usize| quoted(&stages[v].name);
    if k == 0 {
        return no(4, 0, "4", last, "no type is declared".into());
    }
    if let Some(i) = kinds.iter().position(|k| k.cores < 1 || k.cores > 16) {
        return no(5, i, "5", kinds[i].line, format!("type {} has not 1 to 16 cores", quoted(&kinds[i].name)));
    }
    if n == 0 {
        return no(6, 0, "6", last, "no stage is declared".into());
    }
    if let Some(v) = stages.iter().position(|s| s.wcet > 1_000_000) {
        return no(7, k + v, "7", stages[v].line, format!("stage {} has a WCET above 1000000", stage(v)));
    }
    if let Some(i) = edges.iter().position(|e| e.0 == e.1) {
        let v = edges[i].1;
        return no(9, k + n + i, "9", stages[v].line, format!("stage {} waits for itself", stage(v)));
    }
    if let Some(v) = (0..n).find(|&v| returns_to(v, edges)) {
        return no(11, 0, "11", stages[v].line, format!("stage {} waits for itself by way of others", stage(v)));
    }
    None
}

fn record(kind: u8, a: usize, b: usize, wcet: u64) -> [u8; 8] {
    let w = (wcet as u32).to_le_bytes();
    [kind, a as u8, b as u8, 0, w[0], w[1], w[2], w[3]]
}

/// What `plan graph` answers for a text of this name.
pub fn given(name: &str, text: &[u8]) -> Given {
    let judged = as_text(text).and_then(|()| lines(text)).and_then(|(k, s)| looked_up(&k, &s).map(|l| (k, s, l)));
    let (kinds, stages, (types, edges)) = match judged {
        Err(f) => return Given::No { row: f.row, said: format!("{name}: line {}: {}\n", f.line, f.says) },
        Ok(parts) => parts,
    };
    if let Some(r) = refused(text, &kinds, &stages, &edges) {
        let said = format!("refused {} at {}\n{name}: line {}: {}\n", r.number, r.place, r.line, r.says);
        return Given::No { row: r.row, said };
    }
    let mut bytes = vec![];
    for (i, k) in kinds.iter().enumerate() {
        bytes.extend(record(0x54, i, k.cores as usize, 0));
    }
    for (v, s) in stages.iter().enumerate() {
        bytes.extend(record(0x56, v, types[v], s.wcet));
    }
    for &(u, v) in &edges {
        bytes.extend(record(0x45, u, v, 0));
    }
    Given::File {
        bytes,
        names: stages.into_iter().map(|s| s.name).collect(),
        types: kinds.into_iter().map(|k| k.name).collect(),
    }
}
