//! Numbers 4 to 11. A number is tested over everything before the next one is looked at, so each is one line here.

use super::graph::{Graph, MOST_CORES, MOST_EDGES, MOST_KINDS, MOST_VERTICES, MOST_WCET};
use super::order::has_cycle;
use super::refusal::{refuse_first, refuse_if, Refusal};

/// What the records say, before anyone has believed it. The numbers come from the file; in the writer's lists a
/// number is the place itself.
#[derive(Default)]
pub struct Declared {
    pub kinds: Vec<DeclaredKind>,
    pub vertices: Vec<DeclaredVertex>,
    pub edges: Vec<(u8, u8)>,
}

pub struct DeclaredKind {
    pub number: usize,
    pub cores: u8,
}

pub struct DeclaredVertex {
    pub number: usize,
    pub kind: u8,
    pub wcet: u32,
}

pub fn judge(declared: &Declared) -> Result<Graph, Refusal> {
    let Declared { kinds, vertices, edges } = declared;
    let (k, n) = (kinds.len(), vertices.len());
    let is_kind_wrong =
        |(place, kind): (usize, &DeclaredKind)| kind.number != place || !(1..=MOST_CORES).contains(&kind.cores);
    let is_vertex_wrong = |(place, vertex): (usize, &DeclaredVertex)| {
        vertex.number != place || vertex.kind as usize >= k || vertex.wcet > MOST_WCET
    };
    let is_edge_wrong = |&(from, to): &(u8, u8)| from as usize >= n || to as usize >= n || from == to;

    refuse_if(4, k == 0 || k > MOST_KINDS)?;
    refuse_first(5, 0, kinds.iter().enumerate().map(is_kind_wrong))?;
    refuse_if(6, n == 0 || n > MOST_VERTICES)?;
    refuse_first(7, k, vertices.iter().enumerate().map(is_vertex_wrong))?;
    refuse_if(8, edges.len() > MOST_EDGES)?;
    refuse_first(9, k + n, edges.iter().map(is_edge_wrong))?;
    // the later of two edges is at fault, so the places begin with the second edge
    refuse_first(10, k + n + 1, edges.windows(2).map(|e| e[1] <= e[0]))?;

    let graph = Graph {
        cores: kinds.iter().map(|kind| kind.cores).collect(),
        kinds: vertices.iter().map(|vertex| vertex.kind).collect(),
        wcets: vertices.iter().map(|vertex| vertex.wcet).collect(),
        edges: edges.clone(),
    };
    refuse_if(11, has_cycle(&graph))?;
    Ok(graph)
}
