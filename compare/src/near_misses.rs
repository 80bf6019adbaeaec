//! Sheets on which a program that is wrong in one small way gives another path. The field is 0 or 1 at held vertices, so that a ray runs straight up or down
//! where it is level in y; numbers that had to be searched for stand here as bit patterns.

use crate::content::{Content, Settings};
use crate::floats::power;

/// Held vertices, each as x, y and its tag.
fn held(vertices: &[(f64, f64, u8)], triangles: &[[u32; 3]], neighbours: &[i32], start: (f64, f64)) -> Content {
    Content {
        vertices: vertices.iter().flat_map(|(x, y, _)| [*x, *y]).collect(),
        triangles: triangles.concat(),
        neighbours: neighbours.to_vec(),
        tags: vertices.iter().map(|v| v.2).collect(),
        settings: Settings { step: Some(power(-1000)), x: Some(start.0), y: Some(start.1), room: Some(100), ..Settings::default() },
    }
}

/// The triangle (0, 0), (2, 0), (0, 2), the field rising along x: a ray goes up to the third edge.
const UP: [(f64, f64, u8); 3] = [(0.0, 0.0, 2), (2.0, 0.0, 1), (0.0, 2.0, 2)];

/// A crossing of length 1.4000000000000001: 7 pieces by a division by 0.2, 8 by a product with 5.
pub fn seven_pieces() -> Content {
    held(&UP, &[[0, 1, 2]], &[-1; 3], (0.5, f64::from_bits(SEVEN_PIECES)))
}

/// Over the cut edge stands a triangle without area first: it is taken, and its gradient ends the path.
pub fn skipped_match() -> Content {
    let more = [UP[0], UP[1], UP[2], (2.0, 2.0, 1)];
    held(&more, &[[0, 1, 2], [2, 1, 1], [2, 1, 3]], &[-1; 9], (0.5, 0.5))
}

/// The triangle beyond the exit is the same one: the path is in it again, and finds no exit.
pub fn own_neighbour() -> Content {
    held(&UP, &[[0, 1, 2]], &[-1, 0, -1], (0.5, 0.5))
}

/// The triangle beyond the exit has the corners reversed but no neighbour: end 4.
pub fn not_named_back() -> Content {
    let more = [UP[0], UP[1], UP[2], (2.0, 2.0, 1)];
    held(&more, &[[0, 1, 2], [2, 1, 3]], &[-1, 1, -1, -1, -1, -1], (0.5, 0.5))
}

/// The ray goes to the corner between the second and the third edge: the second counts, which has a neighbour that does not name it back.
pub fn equally_far() -> Content {
    held(&[(0.0, 0.0, 2), (2.0, 0.0, 1), (1.0, 0.5, 0)], &[[0, 1, 2], [0, 1, 2]], &[-1, 1, -1, -1, -1, -1], (1.0, 0.25))
}

/// The ray meets the first edge at t = 1e-12 just so, farther away than 1e-12 for the slant that the step gives it.
pub fn ray_at_threshold() -> Content {
    let mut c = held(&[(0.0, 0.0, 2), (2.0, 0.0, 1), (0.0, -2.0, 2)], &[[0, 1, 2]], &[-1; 3], (0.5, -1e-12));
    c.settings.step = Some(8.0);
    c
}

/// The exit is 1e-12 away just so, and t a little more.
pub fn exit_at_threshold() -> Content {
    let [y, x] = EXIT_AT_THRESHOLD.map(f64::from_bits);
    held(&[(0.0, -1.0, 1), (0.0, 1.0, 2), (-2.0, y, 2)], &[[0, 1, 2]], &[-1; 3], (x, 0.0))
}

/// A second triangle lies elsewhere, so that the ray meets the line of its first edge at −1e-12 of its length, which counts.
pub fn before_the_edge() -> Content {
    let vertices = [(-2.0, -1.0, 2), (2.0, -1.0, 1), (-2.0, -3.0, 2), (0.0, 0.0, 2), (2.0, 0.0, 1), (0.0, -2.0, 2)];
    held(&vertices, &[[0, 1, 2], [3, 4, 5]], &[1, -1, -1, -1, 0, -1], (-2e-12, -1.5))
}

/// The same at 1 + 1e-12 of the length, with rays that go down.
pub fn behind_the_edge() -> Content {
    let vertices = [(0.0, 1.0, 1), (4.0, 1.0, 2), (4.0, 3.0, 2), (0.0, 0.0, 1), (2.0, 0.0, 2), (2.0, 2.0, 2)];
    held(&vertices, &[[0, 1, 2], [3, 4, 5]], &[1, -1, -1, -1, 0, -1], (2.0 * (1.0 + 1e-12), 1.5))
}

/// A second triangle lies elsewhere, so that the ray would leave it by the edge that it came in by: there is no exit.
pub fn entry_ahead() -> Content {
    let vertices = [(-2.0, -1.0, 2), (2.0, -1.0, 1), (-2.0, -3.0, 2), (0.0, 0.0, 2), (2.0, 0.0, 1), (0.0, -2.0, 2)];
    held(&vertices, &[[0, 1, 2], [3, 4, 5]], &[1, -1, -1, 0, -1, -1], (0.5, -1.5))
}

/// The field becomes NaN on its way: vertex 0 counts as the least, no magnitude is below a threshold, and no exit is found.
pub fn not_a_number() -> Content {
    Content {
        vertices: NOT_A_NUMBER.iter().map(|x| f64::from_bits(*x)).collect(),
        triangles: vec![1, 1, 3, 3, 0, 2, 0, 2, 1],
        neighbours: vec![-1; 9],
        tags: vec![0, 0, 1, 1],
        settings: Settings { tolerance: Some(0.0), step: Some(1.0), room: Some(9), ..Settings::default() },
    }
}

const SEVEN_PIECES: u64 = 0x3fb9_9999_9999_9989;
const EXIT_AT_THRESHOLD: [u64; 2] = [0x3fe0_860a_931f_16f7, 0xbd71_196e_0f36_f419];

const NOT_A_NUMBER: [u64; 8] = [
    0x3cd3_b06e_5c35_92f2,
    0xbd04_00f9_adae_58e0,
    0x3c6c_629e_917b_e010,
    0xbc23_feb0_7586_85ba,
    0x40bf_713e_3f5d_1b30,
    0x410d_dc01_c949_c780,
    0x40e4_e533_6aaf_72f0,
    0x4106_ccc9_0561_b00c,
];

/// All of them.
pub const ALL: [fn() -> Content; 11] = [
    seven_pieces,
    skipped_match,
    own_neighbour,
    not_named_back,
    equally_far,
    ray_at_threshold,
    exit_at_threshold,
    before_the_edge,
    behind_the_edge,
    entry_ahead,
    not_a_number,
];
