// The stand-in for the source's `DMatrix` and `DVector`: only the operations that it uses, each
// with document 01's meaning. Sums start at +0.0 and run in rising index, matrices row by row.

use crate::leaves::{amax, amax_column, larger, smaller, sqrt, sum, sum_column, sum_of};
use std::ops::{Add, Div, Index, IndexMut, Mul, Sub};

#[derive(Clone)]
pub struct Matrix {
    rows: usize,
    cols: usize,
    /// Row by row.
    entries: Vec<f64>,
}

impl Matrix {
    pub fn from_row_slice(rows: usize, cols: usize, entries: &[f64]) -> Self {
        assert_eq!(entries.len(), rows * cols);
        Matrix {
            rows,
            cols,
            entries: entries.to_vec(),
        }
    }

    pub fn from_fn(rows: usize, cols: usize, entry: impl Fn(usize, usize) -> f64) -> Self {
        let entry = &entry;
        Matrix {
            rows,
            cols,
            entries: (0..rows)
                .flat_map(|i| (0..cols).map(move |j| entry(i, j)))
                .collect(),
        }
    }

    pub fn zeros(rows: usize, cols: usize) -> Self {
        Matrix::from_fn(rows, cols, |_, _| 0.0)
    }

    pub fn identity(n: usize) -> Self {
        Matrix::from_fn(n, n, |i, j| if i == j { 1.0 } else { 0.0 })
    }

    pub fn nrows(&self) -> usize {
        self.rows
    }

    pub fn ncols(&self) -> usize {
        self.cols
    }

    /// All entries, row by row.
    pub fn entries(&self) -> &[f64] {
        &self.entries
    }

    pub fn row_iter(&self) -> impl Iterator<Item = &[f64]> {
        self.entries.chunks_exact(self.cols)
    }

    pub fn column(&self, j: usize) -> Vec<f64> {
        (0..self.rows).map(|i| self[(i, j)]).collect()
    }

    pub fn column_amax(&self, j: usize) -> f64 {
        amax_column(&self.entries, self.cols, j)
    }

    pub fn diagonal(&self) -> Vec<f64> {
        (0..self.rows).map(|i| self[(i, i)]).collect()
    }

    pub fn map(&self, f: impl Fn(f64) -> f64) -> Self {
        Matrix::from_fn(self.rows, self.cols, |i, j| f(self[(i, j)]))
    }

    pub fn transpose(&self) -> Self {
        Matrix::from_fn(self.cols, self.rows, |i, j| self[(j, i)])
    }

    /// The transpose times `other`.
    pub fn tr_mul(&self, other: &Matrix) -> Self {
        Matrix::from_fn(self.cols, other.cols, |i, j| {
            sum_of((0..self.rows).map(|t| self[(t, i)] * other[(t, j)]))
        })
    }

    /// The mean of each column: its sum, then one division.
    pub fn row_mean(&self) -> Vec<f64> {
        (0..self.cols)
            .map(|j| sum_column(&self.entries, self.cols, j) / self.rows as f64)
            .collect()
    }

    pub fn sum(&self) -> f64 {
        sum(&self.entries)
    }

    pub fn trace(&self) -> f64 {
        sum(&self.diagonal())
    }

    pub fn norm_squared(&self) -> f64 {
        norm_squared(&self.entries)
    }

    pub fn norm(&self) -> f64 {
        sqrt(self.norm_squared())
    }

    pub fn amax(&self) -> f64 {
        amax(&self.entries)
    }
}

impl Index<(usize, usize)> for Matrix {
    type Output = f64;

    fn index(&self, (i, j): (usize, usize)) -> &f64 {
        &self.entries[i * self.cols + j]
    }
}

impl IndexMut<(usize, usize)> for Matrix {
    fn index_mut(&mut self, (i, j): (usize, usize)) -> &mut f64 {
        &mut self.entries[i * self.cols + j]
    }
}

impl Add for &Matrix {
    type Output = Matrix;

    fn add(self, other: &Matrix) -> Matrix {
        Matrix::from_fn(self.rows, self.cols, |i, j| self[(i, j)] + other[(i, j)])
    }
}

impl Sub for &Matrix {
    type Output = Matrix;

    fn sub(self, other: &Matrix) -> Matrix {
        Matrix::from_fn(self.rows, self.cols, |i, j| self[(i, j)] - other[(i, j)])
    }
}

impl Mul for &Matrix {
    type Output = Matrix;

    fn mul(self, other: &Matrix) -> Matrix {
        Matrix::from_fn(self.rows, other.cols, |i, j| {
            sum_of((0..self.cols).map(|k| self[(i, k)] * other[(k, j)]))
        })
    }
}

impl Mul<&Matrix> for f64 {
    type Output = Matrix;

    fn mul(self, matrix: &Matrix) -> Matrix {
        matrix.map(|x| self * x)
    }
}

impl Div<f64> for &Matrix {
    type Output = Matrix;

    fn div(self, divisor: f64) -> Matrix {
        self.map(|x| x / divisor)
    }
}

pub fn dot(xs: &[f64], ys: &[f64]) -> f64 {
    sum_of(xs.iter().zip(ys).map(|(x, y)| x * y))
}

pub fn norm_squared(xs: &[f64]) -> f64 {
    dot(xs, xs)
}

/// The first number, replaced by each strictly smaller one. There is at least one.
pub fn min(xs: &[f64]) -> f64 {
    xs[1..].iter().fold(xs[0], |least, &x| smaller(least, x))
}

/// The first number, replaced by each strictly larger one. There is at least one.
pub fn max(xs: &[f64]) -> f64 {
    xs[1..].iter().fold(xs[0], |most, &x| larger(most, x))
}
