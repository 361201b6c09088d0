//! Cycle and topological order, both by a search in depth.

use super::graph::Graph;

#[derive(Clone, Copy, PartialEq)]
enum Seen {
    Never,
    OnTheWay,
    Left,
}

/// The search begins at every vertex in turn, not at sources only: a cycle that no source reaches counts too.
pub fn has_cycle(graph: &Graph) -> bool {
    order_of(graph).is_none()
}

/// The vertices, each behind all its predecessors. The graph has no cycle.
pub fn topological(graph: &Graph) -> Vec<usize> {
    order_of(graph).expect("an accepted graph has no cycle")
}

fn order_of(graph: &Graph) -> Option<Vec<usize>> {
    let after = graph.successors();
    let mut seen = vec![Seen::Never; graph.vertices()];
    let mut left = Vec::new();
    for v in 0..graph.vertices() {
        if !leave(v, &after, &mut seen, &mut left) {
            return None;
        }
    }
    // a vertex is left after all that can be reached from it
    left.reverse();
    Some(left)
}

/// False when a way from `v` comes back to a vertex that it is still on.
fn leave(v: usize, after: &[Vec<usize>], seen: &mut [Seen], left: &mut Vec<usize>) -> bool {
    match seen[v] {
        Seen::Left => return true,
        Seen::OnTheWay => return false,
        Seen::Never => seen[v] = Seen::OnTheWay,
    }
    if !after[v].iter().all(|&w| leave(w, after, seen, left)) {
        return false;
    }
    seen[v] = Seen::Left;
    left.push(v);
    true
}
