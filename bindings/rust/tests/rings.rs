//! Edges with neither end: nothing of them is measured, so that a curve that is there and no line, or a surface that is there and no plane, counts
//! as unchecked. The Rust has no plane for a curve and no line for a surface.

use brunskerl::{BodyKind, Carrier, Edge, Face, Fin, List, Model, Refusal, Region, Sense};

/// A sheet of one face around which one edge runs, and its body.
fn ring(curve: Carrier, surface: Carrier) -> Result<(Model, u32), Refusal> {
    let mut model = Model::new([1; 10], 0.001)?;
    let body = model.insert_body(BodyKind::Sheet)?;
    let region = model.insert_region(Region { body, solid: false })?;
    let shell = model.insert_shell(region)?;
    let surface = Some(model.insert_surface(surface)?);
    let face = model.insert_face(Face {
        front: Some(shell),
        back: None,
        surface,
        sense: Sense::Positive,
    })?;
    let owner = model.insert_loop(face)?;
    let curve = Some(model.insert_curve(curve)?);
    let edge = model.insert_edge(Edge {
        start: None,
        end: None,
        curve,
        tolerance: None,
    })?;
    let fin = model.insert_fin(Fin {
        owner,
        edge,
        sense: Sense::Positive,
        pcurve: false,
    })?;
    for (list, id, entry) in [
        (List::RegionsOfBody, body, region),
        (List::ShellsOfRegion, region, shell),
        (List::FacesOfShell, shell, face),
        (List::LoopsOfFace, face, owner),
        (List::FinsOfLoop, owner, fin),
        (List::FinsOfEdge, edge, fin),
    ] {
        model.append(list, id, entry)?;
    }
    Ok((model, body))
}

#[test]
fn what_is_no_line_or_no_plane_is_unchecked() {
    let line = Carrier::line([0.0; 3], [1.0, 0.0, 0.0], 0.001).unwrap();
    let plane = Carrier::plane([0.0; 3], [0.0, 0.0, 1.0], 0.001).unwrap();
    for curve in [line, plane, Carrier::Other] {
        for surface in [line, plane, Carrier::Other] {
            let (model, body) = ring(curve, surface).unwrap();
            let measurable = curve == line && surface == plane;
            let report = model.check_body(body, Some(3)).unwrap();
            assert!(report.faults.is_empty());
            assert_eq!(report.unchecked, usize::from(!measurable), "{curve:?} {surface:?}");
            assert_eq!(report.is_valid(), measurable);
        }
    }
}
