//! A stand-in for the crate `wide`: the operations of `f64x4` that the Rust uses, with the meaning that document 01
//! gives them. Each operation works lane by lane, rounds once and is never fused.
//!
//! Speed: the four numbers are a plain array, aligned to 32 bytes. At opt-level 3 LLVM turns the loops over it into
//! SSE2 instructions (addpd, mulpd, divpd, sqrtpd, maxpd), two for each operation, as the real crate does on x86-64
//! unless more is asked for. So times taken with this stand-in are fair to the Rust.

#[cfg(feature = "watch")]
pub mod watch;

use std::array::from_fn;
use std::iter::Sum;
use std::ops::{Add, AddAssign, BitAnd, Div, DivAssign, Mul, Neg, Sub, SubAssign};

const SIGN: u64 = 1 << 63;

/// Four lanes. A mask is a value whose lanes have all bits set (yes) or none (no).
#[allow(non_camel_case_types)]
#[derive(Copy, Clone, PartialEq, Debug, Default)]
#[repr(C, align(32))]
pub struct f64x4 {
    lanes: [f64; 4],
}

impl f64x4 {
    #[inline(always)]
    pub const fn new(lanes: [f64; 4]) -> Self {
        Self { lanes }
    }

    #[inline(always)]
    pub const fn splat(number: f64) -> Self {
        Self { lanes: [number; 4] }
    }

    #[inline(always)]
    pub const fn to_array(self) -> [f64; 4] {
        self.lanes
    }

    #[inline(always)]
    fn each(self, f: impl Fn(f64) -> f64) -> Self {
        Self::new(from_fn(|l| f(self.lanes[l])))
    }

    #[inline(always)]
    fn both(self, other: Self, f: impl Fn(f64, f64) -> f64) -> Self {
        Self::new(from_fn(|l| f(self.lanes[l], other.lanes[l])))
    }

    #[inline(always)]
    pub fn abs(self) -> Self {
        self.each(f64::abs)
    }

    /// IEEE 754 squareRoot.
    #[inline(always)]
    pub fn sqrt(self) -> Self {
        self.each(f64::sqrt)
    }

    /// larger(p, q): q where q > p, else p.
    #[inline(always)]
    pub fn max(self, other: Self) -> Self {
        self.both(other, |p, q| if q > p { q } else { p })
    }

    /// smaller(p, q): q where q < p, else p.
    #[inline(always)]
    pub fn min(self, other: Self) -> Self {
        self.both(other, |p, q| if q < p { q } else { p })
    }

    #[inline(always)]
    pub fn simd_lt(self, other: Self) -> Self {
        self.both(other, |p, q| mask(p < q))
    }

    /// The Rust asks this once a test, so here the test and its spoilt lanes are noted.
    #[inline(always)]
    pub fn is_nan(self) -> Self {
        let answer = self.each(|p| mask(p.is_nan()));
        #[cfg(feature = "watch")]
        watch::note_nan(answer.yeses());
        answer
    }

    #[inline(always)]
    fn yeses(self) -> [bool; 4] {
        self.lanes.map(|p| p.to_bits() & SIGN != 0)
    }

    #[inline(always)]
    pub fn any(self) -> bool {
        self.yeses().contains(&true)
    }

    /// The Rust asks this of the lanes that are done, so here they are noted.
    #[inline(always)]
    pub fn all(self) -> bool {
        #[cfg(feature = "watch")]
        watch::note_done(self.yeses());
        self.yeses() == [true; 4]
    }

    /// `yes` in the lanes where this mask says yes, else `no`.
    #[inline(always)]
    pub fn select(self, yes: Self, no: Self) -> Self {
        let chosen = self.yeses();
        Self::new(from_fn(|l| if chosen[l] { yes.lanes[l] } else { no.lanes[l] }))
    }
}

#[inline(always)]
fn mask(yes: bool) -> f64 {
    f64::from_bits(if yes { u64::MAX } else { 0 })
}

macro_rules! lane_by_lane {
    ($($name:ident $method:ident),*) => {$(
        impl $name for f64x4 {
            type Output = f64x4;
            #[inline(always)]
            fn $method(self, other: f64x4) -> f64x4 {
                self.both(other, |p, q| $name::$method(p, q))
            }
        }
        impl $name<f64> for f64x4 {
            type Output = f64x4;
            #[inline(always)]
            fn $method(self, other: f64) -> f64x4 {
                $name::$method(self, f64x4::splat(other))
            }
        }
        impl $name<f64x4> for f64 {
            type Output = f64x4;
            #[inline(always)]
            fn $method(self, other: f64x4) -> f64x4 {
                $name::$method(f64x4::splat(self), other)
            }
        }
    )*};
}

lane_by_lane!(Add add, Sub sub, Mul mul, Div div);

macro_rules! in_place {
    ($($name:ident $method:ident $plain:ident),*) => {$(
        impl $name for f64x4 {
            #[inline(always)]
            fn $method(&mut self, other: f64x4) {
                *self = (*self).$plain(other);
            }
        }
    )*};
}

in_place!(AddAssign add_assign add, SubAssign sub_assign sub, DivAssign div_assign div);

impl Neg for f64x4 {
    type Output = f64x4;
    #[inline(always)]
    fn neg(self) -> f64x4 {
        self.each(|p| -p)
    }
}

impl BitAnd for f64x4 {
    type Output = f64x4;
    #[inline(always)]
    fn bitand(self, other: f64x4) -> f64x4 {
        self.both(other, |p, q| f64::from_bits(p.to_bits() & q.to_bits()))
    }
}

/// From +0.0, index rising.
impl Sum for f64x4 {
    #[inline(always)]
    fn sum<I: Iterator<Item = f64x4>>(terms: I) -> f64x4 {
        terms.fold(f64x4::splat(0.0), |total, term| total + term)
    }
}
