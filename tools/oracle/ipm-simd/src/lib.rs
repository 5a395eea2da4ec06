//! The Rust's crate as it stands, and one module more that looks at what it keeps to itself.

include!("../../../../target/oracle/source/ipm-simd/src/lib.rs");

/// A module inside the crate may read private fields; the Rust's own files stay as they are.
pub mod inside {
    use super::{PathFollowingDirectSimdSolver, f64x4};

    /// x, z, y and w as the last test or step left them.
    pub fn numbers(solver: &PathFollowingDirectSimdSolver) -> [&[f64x4]; 4] {
        let path = &solver.buffers.path_buffers;
        [&path.x, &path.z, &path.y, &path.w]
    }
}
