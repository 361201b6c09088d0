//! The recorded frames of docs/orders/07.md, each with a name. A word is `S` or `P`, which are the two kinds of records, a
//! vertex, `@` and an instant.

use super::catalogue::{case_a, case_d, two_cores};
use crate::reference::log::Event;
use crate::reference::writer::Lists;

const OF_CASE_A: [(&str, &str); 32] = [
    ("as planned", "S0@0 P0@4 S1@4 S2@4 P2@10 P1@13 S3@13 P3@16"),
    ("nothing ran", ""),
    ("2 took no time", "S0@0 P0@4 S1@4 P1@13 S3@13 P3@16"),
    ("3 alone took time", "S3@0 P3@3"),
    ("1 stopped and started at 7", "S0@0 P0@4 S1@4 S2@4 P1@7 S1@7 P2@10 P1@13 S3@13 P3@16"),
    ("another kind", "S0@0 P0@4 T1@4 S2@4 P2@10 P1@13 S3@13 P3@16"),
    ("vertex 4", "S0@0 P0@4 S1@4 S4@4 P4@10 P1@13 S3@13 P3@16"),
    ("2 before 1", "S0@0 P0@4 S2@4 S1@4 P2@10 P1@13 S3@13 P3@16"),
    ("start before stop", "S0@0 S1@4 P0@4 S2@4 P2@10 P1@13 S3@13 P3@16"),
    ("back in time", "S0@0 P0@4 S1@4 S2@4 P1@13 P2@10 S3@13 P3@16"),
    ("0 starts twice", "S0@0 S0@2 P0@4 S1@4 S2@4 P2@10 P1@13 S3@13 P3@16"),
    ("2 stops twice", "S0@0 P0@4 S1@4 S2@4 P2@10 P2@11 P1@13 S3@13 P3@16"),
    ("3 runs on", "S0@0 P0@4 S1@4 S2@4 P2@10 P1@13 S3@13"),
    ("stops at 128,000,001", "S0@0 P0@4 S1@4 S2@4 P2@10 P1@13 S3@13 P3@128000001"),
    ("stops at 128,000,000", "S0@0 P0@4 S1@4 S2@4 P2@10 P1@13 S3@13 P3@128000000"),
    ("3 before 1 is finished", "S0@0 P0@4 S1@4 S2@4 P2@10 S3@10 P1@13 P3@13"),
    ("3 past absent ones", "S0@0 S3@0 P3@3 P0@4"),
    ("0 comes back", "S0@0 P0@2 S1@2 P1@4 S0@4 P0@6"),
    ("0 took 5", "S0@0 P0@5 S1@5 S2@5 P2@12 P1@14 S3@14 P3@17"),
    ("2 took 7", "S0@0 P0@4 S1@4 S2@4 P2@11 P1@13 S3@13 P3@16"),
    ("3 took 4", "S0@0 P0@4 S1@4 S2@4 P2@10 P1@13 S3@13 P3@17"),
    ("begins at 1", "S0@1 P0@5 S1@5 S2@5 P2@11 P1@14 S3@14 P3@17"),
    ("2 a tick late", "S0@0 P0@4 S1@4 S2@5 P2@11 P1@13 S3@13 P3@16"),
    ("2 rests at 8", "S0@0 P0@4 S1@4 S2@4 P2@8 S2@9 P2@11 P1@13 S3@13 P3@16"),
    ("3 a tick late", "S0@0 P0@4 S1@4 S2@4 P2@10 P1@13 S3@14 P3@17"),
    ("3 rests at 15", "S0@0 P0@4 S1@4 S2@4 P2@10 P1@13 S3@13 P3@15 S3@16 P3@17"),
    ("2 and 3 a tick late", "S0@0 P0@4 S1@4 S2@5 P2@11 P1@13 S3@14 P3@17"),
    ("begins at 1, 0 took 5", "S0@1 P0@6"),
    ("0 took 5, 3 too early", "S0@0 S3@2 P0@5 P3@5"),
    ("all of it, and 3 runs on", "S0@1 S3@2 P0@6"),
    ("a stop first", "P0@0 S0@0 P0@4"),
    ("3 before 0", "S3@0 P3@3 S0@3 P0@7"),
];

const ON_TWO_CORES: [(&str, &str); 13] = [
    ("as planned", "S0@0 S1@0 P0@4 P1@4 S2@4 S3@4 P3@6 P2@8"),
    ("0 set aside at 1", "S0@0 S1@0 P0@1 S2@1 P1@4 S0@4 P2@5 P0@7 S3@7 P3@9"),
    ("0 last", "S1@0 S2@0 P1@4 P2@4 S0@4 P0@8 S3@8 P3@10"),
    ("0 stopped and started at 1", "S0@0 S1@0 P0@1 S0@1 P0@4 P1@4 S2@4 S3@4 P3@6 P2@8"),
    (
        "every tick another two",
        "S0@0 S1@0 P0@1 P1@1 S1@1 S2@1 P1@2 P2@2 S0@2 S2@2 P0@3 P2@3 S0@3 S1@3 \
         P0@4 P1@4 S1@4 S2@4 P1@5 P2@5 S0@5 S2@5 P0@6 P2@6 S3@6 P3@8",
    ),
    ("three at once", "S0@0 S1@0 S2@0 P0@4 P1@4 P2@4 S3@4 P3@6"),
    ("0 resumed too early", "S0@0 S1@0 P0@1 S2@1 S0@3 P1@4 P2@5 P0@6 S3@6 P3@8"),
    ("2 a tick early", "S0@0 S1@0 S2@3 P0@4 P1@4 P2@7"),
    ("3 while 0 is set aside", "S0@0 S1@0 P0@1 S2@1 P1@4 S3@4 P2@5 S0@5 P3@6 P0@8"),
    ("three at once, 3 too early", "S0@0 S1@0 S2@0 S3@3 P0@4 P1@4 P2@4 P3@5"),
    ("0 took 5, three at once", "S0@0 S1@0 S2@0 P1@4 P2@4 P0@5 S3@5 P3@7"),
    ("2 a tick late", "S0@0 S1@0 P0@1 S2@2 P1@4 S0@4 P2@6 P0@7 S3@7 P3@9"),
    ("0 resumed late", "S0@0 S1@0 P0@1 S2@1 P1@4 P2@5 S0@5 P0@8 S3@8 P3@10"),
];

const OF_CASE_D: [(&str, &str); 4] = [
    ("D as planned", "S1@0 S2@0 P2@2 S4@2 P1@3 P4@3 S3@3 S5@3 P3@8 P5@9"),
    ("E as planned", "S1@0 S2@0 P1@2 P2@2 S3@2 P3@7 S4@7 P4@8 S5@8 P5@14"),
    ("E, 4 before 3", "S1@0 S2@0 P1@2 P2@2 S4@2 P4@3 S3@3 S5@3 P3@8 P5@9"),
    ("2 and 3 on one core", "S2@0 S3@0 P2@2 S4@2 P4@3 S5@3 P3@5 P5@9"),
];

/// All of them, with their graphs.
pub fn frames() -> Vec<(&'static str, Lists, Vec<u8>)> {
    let mut all = Vec::new();
    for (lists, frames) in [(case_a(), &OF_CASE_A[..]), (two_cores(), &ON_TWO_CORES), (case_d(), &OF_CASE_D)] {
        all.extend(frames.iter().map(|(name, words)| (*name, lists.clone(), written(words))));
    }
    all
}

/// The log that these words say, whether it is one or not.
pub fn written(words: &str) -> Vec<u8> {
    let record = |word: &str| {
        let (vertex, instant) = word[1..].split_once('@').expect("a vertex and an instant");
        let mut record = Event::start(instant.parse().unwrap(), vertex.parse().unwrap()).record();
        record[0] = word.as_bytes()[0];
        record
    };
    words.split_whitespace().flat_map(record).collect()
}
