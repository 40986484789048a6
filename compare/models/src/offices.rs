//! What a body and an edge are for a drawing office (W-206), from the request's words. The Rust has no offices and removes nothing, so that what does not exist for an
//! office is asked about as the id behind the last.

use gensolid_topo::Model;

use crate::original::Names;
use crate::plain::Plain;

/// "a body of the other office is answered as if it did not exist"
pub fn body_for(plain: &Plain, office: u32, body: usize) -> usize {
    match plain.bodies.get(body) {
        Some(r) if r.office != office => plain.bodies.len(),
        _ => body,
    }
}

/// "refused if the edge is in a walk of the other office's bodies"; "where the other office's edge walk fails, its bodies count as not having the edge": each
/// body by its own walk.
pub fn edge_for(model: &Model, names: &Names, plain: &Plain, office: u32, edge: usize) -> usize {
    let has = |body: usize| match model.body_edges(names.bodies[body]) {
        Ok(edges) => edges.contains(&names.edges[edge]),
        Err(_) => false,
    };
    let mut others = (0..plain.bodies.len()).filter(|&b| plain.bodies[b].office != office);
    if others.any(has) {
        plain.edges.len()
    } else {
        edge
    }
}
