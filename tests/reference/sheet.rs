//! What the sheet program prints.

use super::bounds::{bounds, least_path};
use super::gains::{gains_of, ranking};
use super::reader::read;
use super::second::second;

pub fn sheet(file: &[u8]) -> String {
    let graph = match read(file) {
        Ok(graph) => graph,
        Err(refusal) => return format!("refused {} at {}\n", refusal.number, refusal.place),
    };
    let bounds = bounds(&graph);
    let second = second(&graph).map_or("none".to_string(), |parts| parts.to_string());
    let path: String = least_path(&graph).iter().map(|v| format!(" {v}")).collect();
    let gains: String = ranking(&gains_of(&graph)).iter().map(|v| format!(" {v}")).collect();
    format!(
        "graph {} {} {}\nold {}\nnew {}\nsecond {}\nticks {}\npath{}\ngains{}\n",
        graph.cores.len(),
        graph.vertices(),
        graph.edges.len(),
        bounds.old,
        bounds.new,
        second,
        bounds.ticks,
        path,
        gains
    )
}
