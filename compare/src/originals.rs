//! The original functions and types, their text unchanged. compare/run takes it from the folder of the original Rust when it builds this program.

use crate::content::Content;

/// Where each of them stood.
pub const TAKEN: &str = include_str!(concat!(env!("CINTROK_ORIGINALS"), "/taken"));

/// The path by which the original names a point.
pub mod geo {
    pub mod types {
        pub use crate::stand_ins::Point;
    }
}

pub mod intersect {
    use crate::stand_ins::{DVec2, Point};
    include!(concat!(env!("CINTROK_ORIGINALS"), "/intersect.rs"));
}

pub mod interp {
    use crate::stand_ins::Point;
    include!(concat!(env!("CINTROK_ORIGINALS"), "/interp.rs"));
}

pub mod types {
    include!(concat!(env!("CINTROK_ORIGINALS"), "/types.rs"));
}

pub mod laplace {
    use super::types::{BoundaryTag, TriangleMesh};
    use crate::stand_ins::{CooMatrix, CsrMatrix, DVector};
    include!(concat!(env!("CINTROK_ORIGINALS"), "/laplace.rs"));
}

pub mod gradient {
    use super::types::TriangleMesh;
    use crate::stand_ins::DVec2;
    include!(concat!(env!("CINTROK_ORIGINALS"), "/gradient.rs"));
}

pub mod pde {
    use super::gradient::compute_gradient_field;
    use super::interp::barycentric_interpolate;
    use super::intersect::get_ray_line_intersection;
    use super::types::{BoundaryTag, TriangleMesh};
    use crate::stand_ins::{Point, Point3D};
    include!(concat!(env!("CINTROK_ORIGINALS"), "/pde.rs"));

    /// What the original keeps to its file.
    pub mod private {
        use crate::stand_ins::Point;

        pub fn point_in_triangle(p: Point, a: Point, b: Point, c: Point) -> bool {
            super::point_in_triangle(p, a, b, c)
        }

        pub fn sign(p: Point, a: Point, b: Point) -> f64 {
            super::sign(p, a, b)
        }
    }
}

/// A sheet's mesh as the original has it.
pub fn mesh(content: &Content) -> types::TriangleMesh {
    let tag = |tag: &u8| match tag {
        1 => types::BoundaryTag::Outer,
        2 => types::BoundaryTag::Inner,
        _ => types::BoundaryTag::None,
    };
    types::TriangleMesh {
        vertices: (0..content.n()).map(|i| content.vertex(i)).collect(),
        triangles: (0..content.t()).map(|t| content.corners(t)).collect(),
        adjacency: content.neighbours.iter().map(|k| *k as isize).collect(),
        boundary_tags: content.tags.iter().map(tag).collect(),
    }
}
