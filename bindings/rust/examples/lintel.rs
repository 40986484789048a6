//! Builds a box, checks it, splits an edge where a blade pass ends, takes it in on a sheet, and prints the report.

use brunskerl::{LARGEST, Model, Profile, Refusal, Sheet};

fn report(model: &Model, body: u32) -> Result<(), Refusal> {
    let report = model.check_body(body, Some(3))?;
    println!(
        "{} faces, {} edges, {} vertices, volume {}: {} faults, {} unchecked, {}",
        model.body_faces(body)?.len(),
        model.body_edges(body)?.len(),
        model.body_vertices(body)?.len(),
        model.body_volume(body)?,
        report.faults.len(),
        report.unchecked,
        if model.fit_to_saw(body)? { "fit to saw" } else { "not fit to saw" },
    );
    for fault in &report.faults {
        println!("  {}", model.describe(fault));
    }
    Ok(())
}

fn main() -> Result<(), Refusal> {
    let mut model = Model::new(LARGEST, 0.001)?;
    let body = model.insert_box([4.0, 3.0, 2.0])?;
    report(&model, body)?;

    let split = model.split_line_edge(0, 0.25)?;
    println!("edge 0 is split: new edge {}, new vertex {}", split.edge, split.vertex);
    report(&model, body)?;

    // In whole numbers, for the yard's price: six times the volume in cubic sixteenths of a millimetre.
    let mut sheet = Sheet::new();
    model.take(body, &mut sheet)?;
    println!("the sheet: {} stones, {} in all", sheet.stones(), sheet.total());
    match model.slab_profile(body)? {
        Profile::Accepted { areas, total } => println!("a slab: {total} square sixteenths in all, face by face {areas:?}"),
        Profile::Broken { rule, entity } => println!("no slab: {entity}: {rule}"),
    }

    // A second pass too near the first is refused, not swallowed.
    match model.split_line_edge(0, 0.999_9) {
        Ok(split) => println!("edge 0 is split: new edge {}", split.edge),
        Err(refusal) => println!("edge 0: {refusal}"),
    }

    // A corner that was measured a little high.
    let mut corner = model.vertex(7)?;
    corner.point[2] += 0.01;
    model.set_vertex(7, corner)?;
    report(&model, body)
}
