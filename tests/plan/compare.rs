//! What `plan compare` answers for an accepted graph and an altered one: the numbers from the planner's reference, and the first point in which the
//! altered one is not as good, looked for anew from docs/orders/11.md.
use crate::generate::Random;
use crate::reference::bounds::bounds;
use crate::reference::graph::{Graph, MOST_CORES, MOST_EDGES, MOST_KINDS, MOST_VERTICES, MOST_WCET};
use crate::reference::order::topological;
use crate::reference::second::second;

/// The same, or with some things changed for the better or the worse.
pub fn altered(r: &mut Random, graph: &Graph) -> Graph {
    let mut after = graph.clone();
    for _ in 0..r.below(4) {
        alter(r, &mut after);
    }
    after
}

fn alter(r: &mut Random, graph: &mut Graph) {
    let (kind, v) = (r.below(graph.cores.len()), r.below(graph.vertices()));
    match r.below(20) {
        0..=5 => graph.cores[kind] += r.below((MOST_CORES - graph.cores[kind] + 1) as usize) as u8,
        6 => graph.cores[kind] = 1 + r.below(MOST_CORES as usize) as u8,
        7..=11 => graph.wcets[v] -= r.below(graph.wcets[v] as usize + 1) as u32,
        12 => graph.wcets[v] = (graph.wcets[v] + r.below(2) as u32).min(MOST_WCET),
        13..=15 if !graph.edges.is_empty() => {
            graph.edges.remove(r.below(graph.edges.len()));
        }
        16..=17 if graph.edges.len() < MOST_EDGES && graph.vertices() > 1 => {
            let order = topological(graph);
            let last = 1 + r.below(order.len() - 1);
            graph.edges.push((order[r.below(last)] as u8, order[last] as u8));
            graph.edges.sort();
            graph.edges.dedup();
        }
        18 => graph.kinds[v] = kind as u8,
        19 if r.below(2) == 0 && graph.vertices() < MOST_VERTICES => {
            graph.kinds.push(kind as u8);
            graph.wcets.push(1);
        }
        19 if graph.cores.len() < MOST_KINDS => graph.cores.push(1),
        _ => {}
    }
}

/// Which row of the answers it is, and all that is printed. Where a type is at fault there is no name for it here, and the last line ends before it.
pub fn compared(g: &Graph, h: &Graph, names: &[Vec<u8>]) -> (&'static str, Vec<u8>) {
    let (a, b) = (bounds(g), bounds(h));
    let seconds = [second(g), second(h)].map(|s| s.map_or("none".to_string(), |parts| parts.to_string()));
    let both = seconds.iter().all(|s| s != "none");
    let mut said = format!(
        "types {} {}\nstages {} {}\nedges {} {}\nold {} {}\nnew {} {}\nsecond {} {}\nticks {} {}\ncompare new {}ticks\n",
        g.cores.len(),
        h.cores.len(),
        g.vertices(),
        h.vertices(),
        g.edges.len(),
        h.edges.len(),
        a.old,
        b.old,
        a.new,
        b.new,
        seconds[0],
        seconds[1],
        a.ticks,
        b.ticks,
        if both { "second " } else { "" }
    )
    .into_bytes();
    let (row, last) = last_line(g, h, names, both);
    said.extend(last);
    (row, said)
}

fn last_line(g: &Graph, h: &Graph, names: &[Vec<u8>], both: bool) -> (&'static str, Vec<u8>) {
    let stage = |v: usize| match names.get(v) {
        Some(name) => [b"stage \"", &name[..], b"\""].concat(),
        None => format!("stage {v}").into_bytes(),
    };
    let no = |row, point: Vec<u8>| (row, [b"no promise: ", &point[..], b"\n"].concat());
    if g.cores.len() != h.cores.len() {
        return no("other types", b"another number of types".to_vec());
    }
    if g.vertices() != h.vertices() {
        return no("other stages", b"another number of stages".to_vec());
    }
    if let Some(s) = (0..g.cores.len()).find(|&s| h.cores[s] < g.cores[s]) {
        return if names.is_empty() {
            no("fewer cores", format!("type {s} has fewer cores").into_bytes())
        } else {
            ("fewer cores", b"no promise: type \"".to_vec())
        };
    }
    if let Some(v) = (0..g.vertices()).find(|&v| h.kinds[v] != g.kinds[v]) {
        return no("another type", [&stage(v)[..], b" has another type"].concat());
    }
    if let Some(v) = (0..g.vertices()).find(|&v| h.wcets[v] > g.wcets[v]) {
        return no("a larger WCET", [&stage(v)[..], b" has a larger WCET"].concat());
    }
    if let Some(&(u, v)) = h.edges.iter().find(|edge| !g.edges.contains(edge)) {
        return no("a new edge", [&stage(v as usize)[..], b" waits for ", &stage(u as usize)].concat());
    }
    match (both, h.edges == g.edges) {
        (false, _) => ("no second", b"promise: new and ticks do not rise\n".to_vec()),
        (true, true) => ("promise", b"promise: new, second and ticks do not rise\n".to_vec()),
        (true, false) => {
            ("fewer edges", b"promise: new and ticks do not rise; second may, as there are fewer edges\n".to_vec())
        }
    }
}
