//! Matrices whose sizes are constants of their types: products, powers, transposed ones, turns in space, and ways in a graph.
#[macro_use]
mod program;

use std::ops::{Add, Index, IndexMut, Mul};

#[derive(Clone, Copy, PartialEq)]
struct Matrix<T, const R: usize, const C: usize>([[T; C]; R]);

impl<T: Copy + Default, const R: usize, const C: usize> Matrix<T, R, C> {
    fn made(entry: impl Fn(usize, usize) -> T) -> Self {
        let mut out = Matrix([[T::default(); C]; R]);
        (0..R).for_each(|row| (0..C).for_each(|column| out[(row, column)] = entry(row, column)));
        out
    }
    fn transposed(&self) -> Matrix<T, C, R> {
        Matrix::made(|row, column| self[(column, row)])
    }
}

impl<T, const R: usize, const C: usize> Index<(usize, usize)> for Matrix<T, R, C> {
    type Output = T;
    fn index(&self, (row, column): (usize, usize)) -> &T {
        &self.0[row][column]
    }
}

impl<T, const R: usize, const C: usize> IndexMut<(usize, usize)> for Matrix<T, R, C> {
    fn index_mut(&mut self, (row, column): (usize, usize)) -> &mut T {
        &mut self.0[row][column]
    }
}

impl<T, const R: usize, const K: usize, const C: usize> Mul<Matrix<T, K, C>> for Matrix<T, R, K>
where
    T: Copy + Default + Add<Output = T> + Mul<Output = T>,
{
    type Output = Matrix<T, R, C>;
    fn mul(self, other: Matrix<T, K, C>) -> Matrix<T, R, C> {
        Matrix::made(|row, column| (0..K).fold(T::default(), |sum, k| sum + self[(row, k)] * other[(k, column)]))
    }
}

/// A number modulo 7919.
#[derive(Clone, Copy, Default, PartialEq)]
struct Rest(u32);

impl Add for Rest {
    type Output = Rest;
    fn add(self, other: Rest) -> Rest {
        Rest((self.0 + other.0) % 7919)
    }
}

impl Mul for Rest {
    type Output = Rest;
    fn mul(self, other: Rest) -> Rest {
        Rest(self.0 * other.0 % 7919)
    }
}

fn power<const N: usize>(mut base: Matrix<Rest, N, N>, mut exponent: u32) -> Matrix<Rest, N, N> {
    let mut out = Matrix::made(|row, column| Rest((row == column) as u32));
    while exponent > 0 {
        if exponent % 2 == 1 {
            out = out * base;
        }
        base = base * base;
        exponent /= 2;
    }
    out
}

fn run(rounds: u32) -> u32 {
    let mut sum = 0u32;
    let turn = Matrix::<i64, 3, 3>([[36, -48, 25], [48, 36, 0], [-25, 7, 60]]);
    for round in 0..rounds {
        let graph = Matrix::<Rest, 8, 8>::made(|row, column| Rest(((row * 5 + column * 3 + round as usize) % 4 == 0) as u32));
        let ways = power(graph, 60 + round % 9);
        let steps = power(Matrix::<Rest, 2, 2>([[Rest(1), Rest(1)], [Rest(1), Rest(0)]]), round * 977);
        let points = Matrix::<i64, 3, 20>::made(|row, column| (row * 17 + column * column + round as usize % 31) as i64 - 60);
        let seen = (turn * turn * points).transposed() * turn;
        sum = sum.wrapping_mul(31) ^ ways[(1, 6)].0 ^ steps[(0, 1)].0 << 16 ^ (ways == ways.transposed()) as u32;
        sum = sum.wrapping_add((0..20).map(|row| seen[(row, row % 3)] >> 6).sum::<i64>() as u32);
    }
    sum
}

program!(run(600));
