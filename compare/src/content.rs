//! What a sheet says (document 01, section Sheet). Written from that document, apart from the library.

use crate::stand_ins::Point;

/// n vertices, as x and y of each in turn; three vertex numbers and three neighbours for each of T triangles; n tags; settings.
#[derive(Clone, Default, Debug)]
pub struct Content {
    pub vertices: Vec<f64>,
    pub triangles: Vec<u32>,
    pub neighbours: Vec<i32>,
    pub tags: Vec<u8>,
    pub settings: Settings,
}

/// The six settings, present or absent.
#[derive(Clone, Copy, Default, Debug)]
pub struct Settings {
    pub limit: Option<u64>,
    pub tolerance: Option<f64>,
    pub step: Option<f64>,
    pub x: Option<f64>,
    pub y: Option<f64>,
    pub room: Option<u64>,
}

pub const MAX_VERTICES: usize = 4096;
pub const MAX_TRIANGLES: usize = 8192;
pub const MAX_SETTINGS: usize = 6;
pub const MAX_LIMIT: u64 = 100_000;
pub const MAX_ROOM: u64 = 1_000_000;
/// The greatest coordinate.
pub const REACH: f64 = 1048576.0;

/// The crossings that a triangle allows for.
pub const FACTOR: usize = 20;

impl Content {
    /// How many vertices there are.
    pub fn n(&self) -> usize {
        self.vertices.len() / 2
    }

    /// How many triangles there are.
    pub fn t(&self) -> usize {
        self.triangles.len() / 3
    }

    pub fn vertex(&self, i: usize) -> Point {
        Point::new(self.vertices[2 * i], self.vertices[2 * i + 1])
    }

    /// The vertex numbers of a triangle.
    pub fn corners(&self, t: usize) -> [usize; 3] {
        [0, 1, 2].map(|e| self.triangles[3 * t + e] as usize)
    }

    /// The corners themselves.
    pub fn triangle(&self, t: usize) -> [Point; 3] {
        self.corners(t).map(|i| self.vertex(i))
    }
}

impl Settings {
    pub fn limit(&self) -> usize {
        self.limit.unwrap_or(1000) as usize
    }

    pub fn tolerance(&self) -> f64 {
        self.tolerance.unwrap_or(1e-8)
    }

    pub fn start(&self) -> Option<Point> {
        Some(Point::new(self.x?, self.y?))
    }

    /// Each setting's kind and the pattern of its value, where it is present.
    pub fn present(&self) -> Vec<(u8, u64)> {
        let whole = |kind: u8, v: Option<u64>| v.map(|v| (kind, v));
        let real = |kind: u8, v: Option<f64>| v.map(|v| (kind, v.to_bits()));
        [whole(1, self.limit), real(2, self.tolerance), real(3, self.step), real(4, self.x), real(5, self.y), whole(6, self.room)]
            .into_iter()
            .flatten()
            .collect()
    }
}
