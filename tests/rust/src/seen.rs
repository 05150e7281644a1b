//! What is read of the original, in the port's columns.

/// A drawing's columns, as long as their counts, and the open point's index.
#[derive(Clone, Debug, Default, PartialEq)]
pub struct Store {
    pub x: Vec<f32>,
    pub y: Vec<f32>,
    pub weight: Vec<f32>,
    pub commands: Vec<u8>,
    pub opening: usize,
}

/// The quad table, a row of 15 numbers for each quad, and the spline table.
#[derive(Clone, Debug, Default, PartialEq)]
pub struct Tables {
    pub rows: Vec<f32>,
    pub partial_splines: Vec<u32>,
    pub curvature: Vec<f32>,
    pub p0x: Vec<f32>,
    pub p0y: Vec<f32>,
    pub p2x: Vec<f32>,
    pub p2y: Vec<f32>,
    pub contour: Vec<u8>,
    /// where its quads begin in the quad table, and how many there are
    pub first_quad: Vec<usize>,
    pub quad_count: Vec<u32>,
}

/// Tables, words and points of a flattened drawing. `steps` and `quads` are the original's work columns beside the words.
#[derive(Clone, Debug, Default, PartialEq)]
pub struct Seen {
    pub tables: Tables,
    pub words: Vec<u32>,
    pub steps: Vec<usize>,
    pub quads: Vec<usize>,
    pub x: Vec<f32>,
    pub y: Vec<f32>,
    pub end: Vec<u8>,
}
