//! Board texts for the comparison: good ones in every layout, and ones that are damaged in every way.

/// Numbers from a seed: splitmix64.
pub struct Random(pub u64);

impl Random {
    fn next(&mut self) -> u64 {
        self.0 = self.0.wrapping_add(0x9E3779B97F4A7C15);
        let mut z = self.0;
        z = (z ^ (z >> 30)).wrapping_mul(0xBF58476D1CE4E5B9);
        z = (z ^ (z >> 27)).wrapping_mul(0x94D049BB133111EB);
        z ^ (z >> 31)
    }

    pub fn below(&mut self, n: usize) -> usize {
        (self.next() % n as u64) as usize
    }

    fn chance(&mut self, one_in: usize) -> bool {
        self.below(one_in) == 0
    }

    pub fn one<'a, T>(&mut self, list: &'a [T]) -> &'a T {
        &list[self.below(list.len())]
    }
}

const LETTERS: &[&str] = &["a", "b", "infer", "x9", "7", "tile-3", "\u{e9}t\u{e9}", "\"q\"", "cores-", "Cores", "=", "%*", "\\", "<b>&amp;", "'&\"\\n", "]]>"];

/// Characters of three and four bytes, two that XML has not among them, and the limits of both.
const WIDE: &[&str] = &["\u{6c34}", "\u{1f34e}", "\u{800}", "\u{fffd}", "\u{fffe}", "\u{ffff}", "\u{10000}", "\u{10ffff}"];

/// The bytes at the limits of what is UTF-8.
const HIGH: &[u8] = b"\x80\x8f\x90\x9f\xa0\xbf\xc0\xc1\xc2\xdf\xe0\xe1\xec\xed\xee\xef\xf0\xf1\xf3\xf4\xf5\xff";

fn name(r: &mut Random, i: usize) -> Vec<u8> {
    let mut word = r.one(LETTERS).as_bytes().to_vec();
    word.extend(format!("{i}").bytes());
    if r.chance(4) {
        let first = *r.one(HIGH);
        word.push(first);
        // more often than not as many as such a first byte wants
        let more = if r.chance(3) { r.below(4) } else { first.leading_ones() as usize % 5 - 1 };
        for _ in 0..more {
            let among = if r.chance(6) { HIGH } else { &HIGH[..6] };
            word.push(*r.one(among));
        }
    }
    if r.chance(6) {
        for _ in 0..1 + r.below(12) {
            word.extend(r.one(WIDE).bytes());
        }
    }
    if r.chance(40) {
        word.resize(64, b'n');
        word[0] = b'0' + (i % 10) as u8;
        word[1] = b'0' + (i / 10 % 10) as u8;
        word[2] = b'0' + (i / 100) as u8;
    }
    word
}

fn blanks(r: &mut Random) -> &'static str {
    const EACH: [&str; 7] = [" ", " ", " ", "  ", "\t", " \t ", "\r "];
    EACH[r.below(EACH.len())]
}

fn put(line: &mut Vec<u8>, r: &mut Random, word: &[u8]) {
    if !line.is_empty() {
        line.extend(blanks(r).bytes());
    }
    line.extend(word);
}

/// A text whose graph is accepted more often than not.
pub fn board(r: &mut Random) -> Vec<u8> {
    let kinds: Vec<Vec<u8>> = (0..1 + r.below(10)).map(|i| name(r, i)).collect();
    let most = *r.one(&[1, 3, 8, 20, 20, 128]);
    let n = 1 + r.below(most);
    let stages: Vec<Vec<u8>> = (0..n).map(|i| name(r, i)).collect();
    let mut waits: Vec<Vec<usize>> = vec![vec![]; n];
    // half of them have one first stage and one last, the others any number
    let joined = r.chance(2);
    for v in 1..n {
        if !joined && r.chance(3) {
            continue;
        }
        waits[v].push(r.below(v));
        for _ in 0..r.below(4) {
            let u = r.below(v);
            if !waits[v].contains(&u) {
                waits[v].push(u);
            }
        }
    }
    if joined && n > 1 {
        // one last stage for all that none waits for
        for u in 0..n - 1 {
            if !waits.iter().any(|w| w.contains(&u)) {
                waits[n - 1].push(u);
            }
        }
    }
    let mut lines: Vec<Vec<u8>> = vec![];
    for k in &kinds {
        let mut line = vec![];
        put(&mut line, r, b"cores");
        put(&mut line, r, k);
        let cores = 1 + r.below(16);
        put(&mut line, r, format!("{cores}").as_bytes());
        lines.push(line);
    }
    // a new order of the stages: they are numbered as they stand, so that most graphs stay good
    let mut order: Vec<usize> = (0..n).collect();
    if r.chance(3) {
        for i in 0..n {
            let j = r.below(n);
            order.swap(i, j);
        }
    }
    for &v in &order {
        let mut line = vec![];
        put(&mut line, r, &stages[v]);
        let k = r.below(kinds.len());
        put(&mut line, r, &kinds[k]);
        let wcet = *r.one(&[0, 1, 7, 950, 1_000_000, 123_456]);
        let number = format!("{}{wcet}", r.one(&["", "", "", "00"]));
        put(&mut line, r, number.as_bytes());
        for &u in &waits[v] {
            put(&mut line, r, &stages[u]);
        }
        lines.push(line);
    }
    if r.chance(4) {
        let i = r.below(lines.len());
        let j = r.below(lines.len());
        lines.swap(i, j);
    }
    laid(r, &lines)
}

fn laid(r: &mut Random, lines: &[Vec<u8>]) -> Vec<u8> {
    let end = *r.one(&["\n", "\n", "\r\n"]);
    let mut text = vec![];
    for line in lines {
        if r.chance(12) {
            text.extend(r.one(&["\n", "# a comment\n", "   \t\n", " # cores x 1\n"]).bytes());
        }
        text.extend(r.one(&["", "", "", " ", "\t"]).bytes());
        text.extend(line);
        text.extend(r.one(&["", "", "", " ", "# said", " # \u{fc}ber 3 x"]).bytes());
        text.extend(end.bytes());
    }
    if r.chance(10) {
        text.pop();
    }
    text
}

fn some_line(r: &mut Random, text: &[u8]) -> (usize, usize) {
    let starts: Vec<usize> = (0..text.len()).filter(|&i| i == 0 || text[i - 1] == b'\n').collect();
    if starts.is_empty() {
        return (0, 0);
    }
    let start = *r.one(&starts);
    let end = text[start..].iter().position(|&b| b == b'\n').map_or(text.len(), |n| start + n + 1);
    (start, end)
}

fn word_place(r: &mut Random, text: &[u8]) -> (usize, usize) {
    let (start, end) = some_line(r, text);
    let words = crate::board::words(&text[start..end]);
    if words.is_empty() {
        return (start, start);
    }
    let word = *r.one(&words);
    let at = word.as_ptr() as usize - text.as_ptr() as usize;
    let size = word.len() - usize::from(word.ends_with(b"\n"));
    (at, at + size)
}

/// The text with one thing changed.
pub fn damaged(r: &mut Random, mut text: Vec<u8>) -> Vec<u8> {
    match r.below(14) {
        0 => {
            let at = r.below(text.len() + 1);
            text.insert(at, *r.one(&[b'\n', b' ', b'#', b'x', b'0', 0x1b, 0x7f, 0xff, b'\t', 1]));
        }
        1 => {
            if !text.is_empty() {
                let at = r.below(text.len());
                text.remove(at);
            }
        }
        2 => {
            let (a, b) = some_line(r, &text);
            text.drain(a..b);
        }
        3 => {
            let (a, b) = some_line(r, &text);
            let line = text[a..b].to_vec();
            text.splice(b..b, line);
        }
        4 => {
            let (a, b) = word_place(r, &text);
            text.drain(a..b);
        }
        5 => {
            let (a, b) = word_place(r, &text);
            let (c, d) = word_place(r, &text);
            let word = text[c..d].to_vec();
            text.splice(a..b, word);
        }
        6 => {
            let (a, b) = word_place(r, &text);
            let number = *r.one(&["17", "0", "255", "256", "1000001", "4294967295", "4294967296", "99999999999999999999999", "-1", "1e3", "3.5", "0x10"]);
            text.splice(a..b, number.bytes());
        }
        7 => {
            let (_, b) = word_place(r, &text);
            let (c, d) = word_place(r, &text);
            let mut word = vec![b' '];
            word.extend(&text[c..d]);
            text.splice(b..b, word);
        }
        8 => {
            let (a, b) = word_place(r, &text);
            text.splice(a..b, vec![b'w'; 60 + r.below(10)]);
        }
        9 => {
            let (_, b) = some_line(r, &text);
            let size = *r.one(&[4080, 4096, 4097, 4200]);
            text.splice(b..b, [vec![b'#'; size], vec![b'\n']].concat());
        }
        10 => {
            let size = *r.one(&[65536, 65537, 65600, 70000]);
            while text.len() < size {
                text.push(if text.len() % 61 == 60 { b'\n' } else { b' ' });
            }
        }
        11 => {
            for i in 0..1 + r.below(12) {
                text.extend(format!("cores more{i} 2\n").bytes());
            }
        }
        12 => {
            let cut = r.below(text.len() + 1);
            text.truncate(cut);
        }
        _ => {
            for b in text.iter_mut() {
                if r.chance(60) {
                    *b = 1 + (r.below(255) as u8);
                }
            }
        }
    }
    text
}

/// Texts with too many of something, and the empty ones.
pub fn large(r: &mut Random) -> Vec<u8> {
    let mut text = String::from("cores t 3\n");
    match r.below(8) {
        0 => {
            for i in 0..126 + r.below(6) {
                text += &format!("s{i} t 5{}\n", if i > 0 { " s0" } else { "" });
            }
        }
        1 => {
            // 1,024 waits, or one fewer or more
            let most = 1023 + r.below(3);
            let mut edges = 0;
            for v in 0..64 {
                text += &format!("s{v} t 5");
                for u in 0..v {
                    if edges < most {
                        text += &format!(" s{u}");
                        edges += 1;
                    }
                }
                text += "\n";
            }
        }
        2 => {
            let n = 2 + r.below(40);
            for i in 0..n {
                text += &format!("s{i} t 5 s{}\n", (i + 1) % n);
            }
        }
        3 => {
            for i in 0..2 + r.below(3) {
                text += &format!("s{i} t 5\n");
            }
        }
        4 => {
            let itself = r.below(9);
            for i in 0..9 {
                text += &format!("s{i} t 5{}{}\n", if i > 0 { " s0" } else { "" }, if i == itself { format!(" s{i}") } else { String::new() });
            }
        }
        5 => text += *r.one::<&str>(&["a t 1\nb t 1 a a\n", "b t 1 a  a\na t 1", "a t 1\nb t 1 a\nc t 1 b a b\n"]),
        6 => {
            let cores = *r.one(&[0, 1, 16, 17, 255, 256]);
            let wcet = *r.one(&[0, 1_000_000, 1_000_001, 4_294_967_295_u64, 4_294_967_296]);
            text += &format!("cores u {cores}\na t 1\nb u {wcet} a\n");
        }
        _ => return r.one(&["", "\n", "#", "cores", "cores a", "a", "a b", "a b 1", "cores a 1", "cores a 1 1", "cores cores 1\ncores"]).bytes().collect(),
    }
    text.into_bytes()
}
