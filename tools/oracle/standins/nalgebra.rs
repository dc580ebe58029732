//! Stands in for the crate `nalgebra`: as much of it as the Rust uses,
//! in the order of operations of document 01, section "Model".

/// A number of rows or columns known only when the program runs.
pub struct Dyn;

/// A matrix, row after row.
pub struct DMatrix<T> {
    rows: usize,
    columns: usize,
    elements: Vec<T>,
}

impl<T: Copy> DMatrix<T> {
    pub fn from_fn(rows: usize, columns: usize, mut f: impl FnMut(usize, usize) -> T) -> Self {
        let mut elements = Vec::with_capacity(rows * columns);
        for i in 0..rows {
            for j in 0..columns {
                elements.push(f(i, j));
            }
        }
        Self { rows, columns, elements }
    }

    fn at(&self, i: usize, j: usize) -> T {
        self.elements[i * self.columns + j]
    }
}

/// A column vector.
pub struct DVector<T> {
    elements: Vec<T>,
}

impl<T: Copy> DVector<T> {
    pub fn from_fn(len: usize, mut f: impl FnMut(usize, usize) -> T) -> Self {
        Self { elements: (0..len).map(|i| f(i, 0)).collect() }
    }

    pub fn from_column_slice(elements: &[T]) -> Self {
        Self { elements: elements.to_vec() }
    }

    pub fn as_slice(&self) -> &[T] {
        &self.elements
    }
}

impl DVector<f64> {
    pub fn dot(&self, other: &Self) -> f64 {
        arithmetic::float::dot(&self.elements, &other.elements)
    }
}

pub mod linalg {
    use super::{DMatrix, DVector, Dyn};
    use arithmetic::float::sqrt;
    use std::marker::PhantomData;

    /// The factor L of a positive definite matrix L * L^T.
    pub struct Cholesky<T, D> {
        diagonal: Vec<T>,
        /// Column j below the diagonal.
        columns: Vec<Vec<T>>,
        dimension: PhantomData<D>,
    }

    impl Cholesky<f64, Dyn> {
        /// Column by column; none where a pivot is not above 0.
        pub fn new(matrix: DMatrix<f64>) -> Option<Self> {
            let n = matrix.rows;
            let mut rows = vec![Vec::with_capacity(n); n];
            for j in 0..n {
                let pivot = subtract_products(matrix.at(j, j), &rows[j], &rows[j]);
                if pivot.is_nan() || pivot <= 0.0 {
                    return None;
                }
                let root = sqrt(pivot);
                for i in j + 1..n {
                    let element = subtract_products(matrix.at(i, j), &rows[i], &rows[j]) / root;
                    rows[i].push(element);
                }
                rows[j].push(root);
            }
            Some(Self::from_rows(&rows))
        }

        fn from_rows(rows: &[Vec<f64>]) -> Self {
            let below = |j: usize| rows[j + 1..].iter().map(|row| row[j]).collect();
            Self {
                diagonal: rows.iter().enumerate().map(|(i, row)| row[i]).collect(),
                columns: (0..rows.len()).map(below).collect(),
                dimension: PhantomData,
            }
        }

        /// The rows of L up to the diagonal, one after the other: for the program `leaf`, which
        /// answers them. The crate `nalgebra` has no such method.
        pub fn l_rows(&self) -> Vec<f64> {
            let row = |i: usize| {
                let left = self.columns[..i].iter().enumerate().map(move |(j, c)| c[i - j - 1]);
                left.chain([self.diagonal[i]])
            };
            (0..self.diagonal.len()).flat_map(row).collect()
        }

        /// x with L * L^T * x = b.
        pub fn solve(&self, b: &DVector<f64>) -> DVector<f64> {
            let mut x = b.elements.clone();
            self.solve_forward(&mut x);
            self.solve_backward(&mut x);
            DVector { elements: x }
        }

        /// Replaces b by y with L * y = b. Goes by columns, which is faster; each element still
        /// subtracts its products by rising index and then divides.
        fn solve_forward(&self, b: &mut [f64]) {
            for (k, column) in self.columns.iter().enumerate() {
                let (solved, open) = b.split_at_mut(k + 1);
                solved[k] /= self.diagonal[k];
                for (element, factor) in open.iter_mut().zip(column) {
                    *element -= factor * solved[k];
                }
            }
        }

        /// Replaces y by x with L^T * x = y.
        fn solve_backward(&self, y: &mut [f64]) {
            for (i, column) in self.columns.iter().enumerate().rev() {
                let (open, solved) = y.split_at_mut(i + 1);
                open[i] = subtract_products(open[i], column, solved) / self.diagonal[i];
            }
        }
    }

    /// `start` less the products of the two lists, one by one by rising index.
    fn subtract_products(start: f64, a: &[f64], b: &[f64]) -> f64 {
        a.iter().zip(b).fold(start, |rest, (x, y)| rest - x * y)
    }
}
