//! A stand-in for the crate `nalgebra_sparse`: the part of `CsrMatrix` that the Rust uses. Document 01's questions 3
//! and 5 say what a right matrix is; the transpose has, for each column, its rows rising.

pub mod csr;

pub use csr::CsrMatrix;
