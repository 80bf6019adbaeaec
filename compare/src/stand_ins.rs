//! Document 01's stand-ins for what the original functions take from other crates.
//! Its stand-ins for methods of `f64` (`abs`, `clamp`, `max`, `ceil`, `sqrt`) are Rust's own.

use std::cell::RefCell;
use std::ops::{Add, Index, IndexMut, Mul, Sub};
use std::rc::Rc;

// ---- for glam

/// A point of the plane; `glam::DVec2` in the original, under both names.
#[derive(Clone, Copy, Debug)]
pub struct DVec2 {
    pub x: f64,
    pub y: f64,
}

pub type Point = DVec2;

impl DVec2 {
    pub const ZERO: DVec2 = DVec2::new(0.0, 0.0);

    pub const fn new(x: f64, y: f64) -> DVec2 {
        DVec2 { x, y }
    }

    pub fn dot(self, other: DVec2) -> f64 {
        self.x * other.x + self.y * other.y
    }

    pub fn length_squared(self) -> f64 {
        self.dot(self)
    }
}

impl Sub for DVec2 {
    type Output = DVec2;

    fn sub(self, other: DVec2) -> DVec2 {
        DVec2::new(self.x - other.x, self.y - other.y)
    }
}

impl Index<usize> for DVec2 {
    type Output = f64;

    fn index(&self, i: usize) -> &f64 {
        [&self.x, &self.y][i]
    }
}

/// `glam::DVec3` in the original.
#[derive(Clone, Copy, Debug)]
pub struct Point3D {
    pub x: f64,
    pub y: f64,
    pub z: f64,
}

impl Point3D {
    pub const fn new(x: f64, y: f64, z: f64) -> Point3D {
        Point3D { x, y, z }
    }
}

// ---- for nalgebra: vectors go element by element, a dot product runs left to right from +0

#[derive(Clone)]
pub struct DVector<T>(Vec<T>);

impl DVector<f64> {
    pub fn from_element(n: usize, x: f64) -> DVector<f64> {
        DVector(vec![x; n])
    }

    pub fn len(&self) -> usize {
        self.0.len()
    }

    pub fn as_slice(&self) -> &[f64] {
        &self.0
    }

    pub fn dot(&self, other: &DVector<f64>) -> f64 {
        let mut sum = 0.0;
        for (a, b) in self.0.iter().zip(&other.0) {
            sum += a * b;
        }
        sum
    }
}

impl Index<usize> for DVector<f64> {
    type Output = f64;

    fn index(&self, i: usize) -> &f64 {
        &self.0[i]
    }
}

impl IndexMut<usize> for DVector<f64> {
    fn index_mut(&mut self, i: usize) -> &mut f64 {
        &mut self.0[i]
    }
}

impl Add<DVector<f64>> for &DVector<f64> {
    type Output = DVector<f64>;

    fn add(self, other: DVector<f64>) -> DVector<f64> {
        DVector(self.0.iter().zip(other.0).map(|(a, b)| a + b).collect())
    }
}

impl Sub<DVector<f64>> for &DVector<f64> {
    type Output = DVector<f64>;

    fn sub(self, other: DVector<f64>) -> DVector<f64> {
        DVector(self.0.iter().zip(other.0).map(|(a, b)| a - b).collect())
    }
}

impl Mul<&DVector<f64>> for f64 {
    type Output = DVector<f64>;

    fn mul(self, v: &DVector<f64>) -> DVector<f64> {
        DVector(v.0.iter().map(|x| self * x).collect())
    }
}

// ---- for nalgebra-sparse: each row's entries by rising column, repeats of a place summed left to right in push order, the first taken as it is

pub struct CooMatrix<T> {
    rows: usize,
    pushed: Vec<(usize, usize, T)>,
}

impl CooMatrix<f64> {
    pub fn new(rows: usize, _columns: usize) -> CooMatrix<f64> {
        CooMatrix { rows, pushed: Vec::new() }
    }

    pub fn push(&mut self, i: usize, j: usize, v: f64) {
        self.pushed.push((i, j, v));
    }
}

#[derive(Default)]
pub struct Stored<T> {
    pub offsets: Vec<usize>,
    pub columns: Vec<usize>,
    pub values: Vec<T>,
}

pub struct CsrMatrix<T>(Rc<Stored<T>>);

impl From<&CooMatrix<f64>> for CsrMatrix<f64> {
    fn from(coo: &CooMatrix<f64>) -> CsrMatrix<f64> {
        let mut by_row: Vec<Vec<(usize, f64)>> = vec![Vec::new(); coo.rows];
        for &(i, j, v) in &coo.pushed {
            by_row[i].push((j, v));
        }
        let mut all = Stored { offsets: vec![0], ..Stored::default() };
        for mut row in by_row {
            row.sort_by_key(|(j, _)| *j);
            for (k, &(j, v)) in row.iter().enumerate() {
                if k > 0 && row[k - 1].0 == j {
                    *all.values.last_mut().unwrap() += v;
                } else {
                    all.columns.push(j);
                    all.values.push(v);
                }
            }
            all.offsets.push(all.columns.len());
        }
        let matrix = CsrMatrix(Rc::new(all));
        LAST.with_borrow_mut(|last| *last = matrix.0.clone());
        matrix
    }
}

impl CsrMatrix<f64> {
    pub fn nrows(&self) -> usize {
        self.0.offsets.len() - 1
    }

    pub fn row_offsets(&self) -> &[usize] {
        &self.0.offsets
    }

    pub fn col_indices(&self) -> &[usize] {
        &self.0.columns
    }

    pub fn values(&self) -> &[f64] {
        &self.0.values
    }
}

thread_local! {
    static LAST: RefCell<Rc<Stored<f64>>> = RefCell::default();
}

/// The matrix that this thread made last, since the original keeps it to itself.
pub fn last_matrix() -> Rc<Stored<f64>> {
    LAST.with_borrow(|last| last.clone())
}
