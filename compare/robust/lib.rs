//! Stands in for the crate `robust`, which is not among the published files. Only the makers of
//! polyhedra and extrusions ask it, and no comparison calls them.

pub struct Coord<T> {
    pub x: T,
    pub y: T,
}

pub struct Coord3D<T> {
    pub x: T,
    pub y: T,
    pub z: T,
}

pub fn orient2d(_: Coord<f64>, _: Coord<f64>, _: Coord<f64>) -> f64 {
    unreachable!("no comparison asks for an orientation")
}

pub fn orient3d(_: Coord3D<f64>, _: Coord3D<f64>, _: Coord3D<f64>, _: Coord3D<f64>) -> f64 {
    unreachable!("no comparison asks for an orientation")
}
