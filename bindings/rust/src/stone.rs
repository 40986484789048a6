//! A box, laid out as the trial stone is: for examples and tests.

use crate::{BodyKind, Carrier, Edge, Face, Fin, List, Model, Refusal, Region, Sense, Vertex};

/// The start and the end of each edge, by corners; four edges run along each axis. Corner i has the greater x where i has bit 0, the
/// greater y for bit 1, the greater z for bit 2.
const EDGES: [[usize; 2]; 12] = [
    [0, 1],
    [2, 3],
    [4, 5],
    [6, 7],
    [0, 2],
    [1, 3],
    [4, 6],
    [5, 7],
    [0, 4],
    [1, 5],
    [2, 6],
    [3, 7],
];

/// The edges of each face's loop; the first two are used in their direction, the others against it.
const LOOPS: [[usize; 4]; 6] = [
    [4, 1, 5, 0],
    [2, 7, 3, 6],
    [0, 9, 2, 8],
    [10, 3, 11, 1],
    [8, 6, 10, 4],
    [5, 11, 7, 9],
];

/// Three corners of each face, anticlockwise as seen from outside.
const PLANES: [[usize; 3]; 6] = [[0, 2, 1], [4, 5, 6], [0, 1, 4], [2, 6, 3], [0, 4, 2], [1, 3, 5]];

impl Model {
    /// Puts a box between the origin and the corner as a new body, and gives its id: whole, or not at all. Sides that are not finite and
    /// positive are a [`Refusal::BadArgument`], one that is not longer than the precision is [`Refusal::Degenerate`].
    pub fn insert_box(&mut self, sides: [f64; 3]) -> Result<u32, Refusal> {
        if !sides.iter().all(|side| side.is_finite() && *side > 0.0) {
            return Err(Refusal::BadArgument);
        }
        // Its parts are put into a copy, which takes the model's place when it has all of them.
        let mut whole = self.clone();
        let body = whole.lay_out(sides)?;
        *self = whole;
        Ok(body)
    }

    /// The parts of the box one by one; where one is refused, those before it stay.
    fn lay_out(&mut self, [x, y, z]: [f64; 3]) -> Result<u32, Refusal> {
        let precision = self.precision()?;
        let body = self.insert_body(BodyKind::Solid)?;
        let mut shells = [0; 2];
        for (shell, solid) in shells.iter_mut().zip([false, true]) {
            let region = self.insert_region(Region { body, solid })?;
            self.append(List::RegionsOfBody, body, region)?;
            *shell = self.insert_shell(region)?;
            self.append(List::ShellsOfRegion, region, *shell)?;
        }
        let corner = |i: usize| [[0.0, x][i & 1], [0.0, y][i >> 1 & 1], [0.0, z][i >> 2]];
        let mut corners = Vec::new();
        for i in 0..8 {
            corners.push(self.insert_vertex(Vertex {
                point: corner(i),
                tolerance: None,
            })?);
        }
        let mut edges = Vec::new();
        for [start, end] in EDGES {
            let curve = self.insert_curve(Carrier::line_through(corner(start), corner(end), precision)?)?;
            edges.push(self.insert_edge(Edge {
                start: Some(corners[start]),
                end: Some(corners[end]),
                curve: Some(curve),
                tolerance: None,
            })?);
        }
        for (uses, points) in LOOPS.into_iter().zip(PLANES) {
            let surface = self.insert_surface(Carrier::plane_through(points.map(corner), precision)?)?;
            let face = self.insert_face(Face {
                front: Some(shells[0]),
                back: Some(shells[1]),
                surface: Some(surface),
                sense: Sense::Positive,
            })?;
            for shell in shells {
                self.append(List::FacesOfShell, shell, face)?;
            }
            let owner = self.insert_loop(face)?;
            self.append(List::LoopsOfFace, face, owner)?;
            for (k, edge) in uses.into_iter().enumerate() {
                let edge = edges[edge];
                let sense = if k < 2 { Sense::Positive } else { Sense::Negative };
                let fin = self.insert_fin(Fin {
                    owner,
                    edge,
                    sense,
                    pcurve: false,
                })?;
                self.append(List::FinsOfLoop, owner, fin)?;
                self.append(List::FinsOfEdge, edge, fin)?;
            }
        }
        Ok(body)
    }
}

#[cfg(test)]
mod tests {
    use super::*;

    /// What a box takes of each table.
    const BOX: [usize; 10] = [1, 2, 2, 6, 6, 24, 12, 8, 12, 6];

    const SIDES: [f64; 3] = [4.0, 3.0, 2.0];

    /// All words, and the bits of all floats.
    fn memory(model: &Model) -> (Vec<u32>, Vec<u64>) {
        (model.words.clone(), model.reals.iter().map(|x| x.to_bits()).collect())
    }

    /// Refused, with nothing written.
    fn refused(model: &mut Model, sides: [f64; 3], refusal: Refusal) {
        let before = memory(model);
        assert_eq!(model.insert_box(sides), Err(refusal));
        assert_eq!(memory(model), before);
    }

    #[test]
    fn a_box_takes_just_this_room() {
        let mut model = Model::new(BOX, 0.001).unwrap();
        assert_eq!(model.insert_box(SIDES), Ok(0));
        assert_eq!(model.words[..10], BOX.map(|n| n as u32));
    }

    /// One slot too few, of each table, in an empty model and in one that has a box.
    #[test]
    fn a_box_without_room_leaves_nothing() {
        for table in 0..10 {
            let mut room = BOX;
            room[table] -= 1;
            refused(&mut Model::new(room, 0.001).unwrap(), SIDES, Refusal::NoRoom);
            let mut room = BOX.map(|n| 2 * n);
            room[table] -= 1;
            let mut model = Model::new(room, 0.001).unwrap();
            let first = model.insert_box(SIDES).unwrap();
            refused(&mut model, SIDES, Refusal::NoRoom);
            assert_eq!(model.fit_to_saw(first), Ok(true));
        }
    }

    #[test]
    fn a_box_that_is_none_leaves_nothing() {
        let mut model = Model::new(BOX, 0.001).unwrap();
        for axis in 0..3 {
            for (side, refusal) in [
                (0.0, Refusal::BadArgument),
                (-1.0, Refusal::BadArgument),
                (f64::NAN, Refusal::BadArgument),
                (f64::INFINITY, Refusal::BadArgument),
                (0.001, Refusal::Degenerate),
            ] {
                let mut sides = SIDES;
                sides[axis] = side;
                refused(&mut model, sides, refusal);
            }
        }
    }
}
