//! Four linear programs over one matrix, solved together by the proved solver in libipm_c.a.
//!
//! Lane l, from 0 to 3, asks to maximise c·x where A·x + w = b, x ≥ 0, and w ≥ 0 in the first rows (the inequalities)
//! and absent in the others. The lanes share A; each has its own b, c and tolerances. A [`Solution`] has each lane's x
//! and the prices of its rows, y.
//!
//! [`Solver`] sizes and owns the memory that the library is lent. Every answer is the library's own, a refusal too:
//! see [`Refusal`]. A [`Plan`] is written to bytes and read from them. A caller with memory of its own calls
//! [`library`].

mod extern_c;
pub mod library;
mod plan;
mod refusal;
mod solver;

pub use plan::Plan;
pub use refusal::Refusal;
pub use solver::{Lane, Solution, Solver, Tolerances};

/// The lanes of one solve.
pub const LANES: usize = 4;

/// The centring of a solve that is given none, that of the Rust. A step aims at one product, mu, of each x with its
/// reduced cost and of each w with its y. mu is centring times the mean of these products: near 1 a step stays central,
/// near 0 it goes straight for the optimum.
pub const CENTRING: f64 = 0.1;

/// The damping of a solve that is given none, that of the Rust: the part of the way to the nearest bound that a step
/// goes.
pub const DAMPING: f64 = 0.9995;

/// The bits of the IEEE 754 square root of the number with these bits. NaN and anything below zero give
/// 7FF8000000000000.
pub fn root_bits(bits: u64) -> u64 {
    library::root_bits(bits)
}
