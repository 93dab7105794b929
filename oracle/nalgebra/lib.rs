// A stand-in for the crate nalgebra: the operations that kalman_filter.rs, strack.rs, rect.rs and assoc.rs
// use, on plain arrays, each operation rounded once. A product sums its terms in ascending order of the
// inner index, from the first term on, which gives the scope document's formulas; nothing is fused.
use std::ops::{Add, AddAssign, Index, IndexMut, Mul, MulAssign, Sub};

// Column by column, as nalgebra stores it.
#[derive(Debug, Clone, Copy, PartialEq, Eq)]
pub struct SMatrix<T, const R: usize, const C: usize> {
    columns: [[T; R]; C],
}

pub type Matrix1x4<T> = SMatrix<T, 1, 4>;

impl<T: Copy> SMatrix<T, 1, 4> {
    pub fn new(a: T, b: T, c: T, d: T) -> Self {
        SMatrix {
            columns: [[a], [b], [c], [d]],
        }
    }
}

impl<T, const R: usize, const C: usize> Index<(usize, usize)> for SMatrix<T, R, C> {
    type Output = T;
    fn index(&self, (i, j): (usize, usize)) -> &T {
        &self.columns[j][i]
    }
}

impl<T, const R: usize, const C: usize> IndexMut<(usize, usize)> for SMatrix<T, R, C> {
    fn index_mut(&mut self, (i, j): (usize, usize)) -> &mut T {
        &mut self.columns[j][i]
    }
}

impl<T, const R: usize, const C: usize> Index<usize> for SMatrix<T, R, C> {
    type Output = T;
    fn index(&self, i: usize) -> &T {
        &self.as_slice()[i]
    }
}

impl<T, const R: usize, const C: usize> SMatrix<T, R, C> {
    pub fn as_slice(&self) -> &[T] {
        self.columns.as_flattened()
    }

    pub fn as_mut_slice(&mut self) -> &mut [T] {
        self.columns.as_flattened_mut()
    }

    pub fn iter(&self) -> std::slice::Iter<'_, T> {
        self.as_slice().iter()
    }
}

impl<const R: usize, const C: usize> SMatrix<f32, R, C> {
    fn from_fn(f: impl Fn(usize, usize) -> f32) -> Self {
        let mut m = Self::zeros();
        for j in 0..C {
            for i in 0..R {
                m[(i, j)] = f(i, j);
            }
        }
        m
    }

    pub fn zeros() -> Self {
        SMatrix {
            columns: [[0.0; R]; C],
        }
    }

    pub fn identity() -> Self {
        Self::from_fn(|i, j| if i == j { 1.0 } else { 0.0 })
    }

    pub fn from_iterator(values: impl IntoIterator<Item = f32>) -> Self {
        let mut m = Self::zeros();
        let mut filled = 0;
        for (cell, value) in m.as_mut_slice().iter_mut().zip(values) {
            *cell = value;
            filled += 1;
        }
        assert!(filled == R * C);
        m
    }

    pub fn transpose(&self) -> SMatrix<f32, C, R> {
        SMatrix::from_fn(|i, j| self[(j, i)])
    }
}

impl<const N: usize> SMatrix<f32, N, N> {
    pub fn from_diagonal(d: &SMatrix<f32, N, 1>) -> Self {
        Self::from_fn(|i, j| if i == j { d[i] } else { 0.0 })
    }

    pub fn diagonal(&self) -> SMatrix<f32, N, 1> {
        SMatrix::from_fn(|i, _| self[(i, i)])
    }

    // The lower factor l with l times its transpose the matrix, column by column. None where a pivot
    // has no root above zero.
    pub fn cholesky(mut self) -> Option<Cholesky<N>> {
        for j in 0..N {
            for k in 0..j {
                let factor = -self[(j, k)];
                for i in j..N {
                    self[(i, j)] = factor * self[(i, k)] + self[(i, j)];
                }
            }
            let pivot = self[(j, j)];
            if !(pivot > 0.0) {
                return None;
            }
            // the scope document's root, which is IEEE 754's, as is Rust's sqrt
            let l = floats::sqrt(pivot);
            self[(j, j)] = l;
            for i in j + 1..N {
                self[(i, j)] = self[(i, j)] / l;
            }
        }
        Some(Cholesky { l: self })
    }
}

pub struct Cholesky<const N: usize> {
    l: SMatrix<f32, N, N>,
}

impl<const N: usize> Cholesky<N> {
    // By the factor, then by its transpose: a division by the pivot each.
    pub fn solve<const C: usize>(&self, b: &SMatrix<f32, N, C>) -> SMatrix<f32, N, C> {
        let mut x = *b;
        for c in 0..C {
            for i in 0..N {
                let coefficient = x[(i, c)] / self.l[(i, i)];
                x[(i, c)] = coefficient;
                for k in i + 1..N {
                    x[(k, c)] = -coefficient * self.l[(k, i)] + x[(k, c)];
                }
            }
            for i in (0..N).rev() {
                let mut dot = 0.0;
                for k in i + 1..N {
                    dot += self.l[(k, i)] * x[(k, c)];
                }
                x[(i, c)] = (x[(i, c)] - dot) / self.l[(i, i)];
            }
        }
        x
    }
}

impl<const R: usize, const K: usize, const C: usize> Mul<SMatrix<f32, K, C>> for SMatrix<f32, R, K> {
    type Output = SMatrix<f32, R, C>;
    fn mul(self, other: SMatrix<f32, K, C>) -> SMatrix<f32, R, C> {
        SMatrix::from_fn(|i, j| {
            let mut sum = self[(i, 0)] * other[(0, j)];
            for k in 1..K {
                sum += self[(i, k)] * other[(k, j)];
            }
            sum
        })
    }
}

impl<const R: usize, const K: usize, const C: usize> Mul<SMatrix<f32, K, C>> for &SMatrix<f32, R, K> {
    type Output = SMatrix<f32, R, C>;
    fn mul(self, other: SMatrix<f32, K, C>) -> SMatrix<f32, R, C> {
        *self * other
    }
}

impl<const R: usize, const C: usize> Add for SMatrix<f32, R, C> {
    type Output = Self;
    fn add(self, other: Self) -> Self {
        Self::from_fn(|i, j| self[(i, j)] + other[(i, j)])
    }
}

impl<const R: usize, const C: usize> AddAssign for SMatrix<f32, R, C> {
    fn add_assign(&mut self, other: Self) {
        *self = *self + other;
    }
}

impl<const R: usize, const C: usize> Sub for SMatrix<f32, R, C> {
    type Output = Self;
    fn sub(self, other: Self) -> Self {
        Self::from_fn(|i, j| self[(i, j)] - other[(i, j)])
    }
}

impl<const R: usize, const C: usize> Sub<SMatrix<f32, R, C>> for &SMatrix<f32, R, C> {
    type Output = SMatrix<f32, R, C>;
    fn sub(self, other: SMatrix<f32, R, C>) -> SMatrix<f32, R, C> {
        *self - other
    }
}

impl<const R: usize, const C: usize> MulAssign<f32> for SMatrix<f32, R, C> {
    fn mul_assign(&mut self, factor: f32) {
        *self = Self::from_fn(|i, j| self[(i, j)] * factor);
    }
}

// A matrix whose sides are known at run time, column by column as nalgebra stores it.
#[derive(Debug, Clone, PartialEq)]
pub struct DMatrix<T> {
    rows: usize,
    columns: usize,
    cells: Vec<T>,
}

impl<T: Copy + Default> DMatrix<T> {
    pub fn zeros(rows: usize, columns: usize) -> Self {
        DMatrix {
            rows,
            columns,
            cells: vec![T::default(); rows * columns],
        }
    }
}

impl<T> DMatrix<T> {
    pub fn nrows(&self) -> usize {
        self.rows
    }

    pub fn ncols(&self) -> usize {
        self.columns
    }

    fn place(&self, (i, j): (usize, usize)) -> usize {
        assert!(i < self.rows && j < self.columns);
        j * self.rows + i
    }
}

impl<T> Index<(usize, usize)> for DMatrix<T> {
    type Output = T;
    fn index(&self, at: (usize, usize)) -> &T {
        &self.cells[self.place(at)]
    }
}

impl<T> IndexMut<(usize, usize)> for DMatrix<T> {
    fn index_mut(&mut self, at: (usize, usize)) -> &mut T {
        let place = self.place(at);
        &mut self.cells[place]
    }
}

impl DMatrix<f32> {
    pub fn component_mul(&self, other: &Self) -> Self {
        assert!((self.rows, self.columns) == (other.rows, other.columns));
        let cells = self.cells.iter().zip(&other.cells).map(|(a, b)| a * b).collect();
        DMatrix { cells, ..*self }
    }
}
