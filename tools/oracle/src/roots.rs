//! Square roots: the static library's, from pattern to pattern, beside the hardware's.

use std::num::FpCategory;

use crate::compare::Comparison;
use crate::extern_c::ipm_root_bits;
use crate::problem::settled_bits;
use crate::random::Random;

/// The digits of a pattern, and the weight of the exponent's field above them.
const DIGITS: usize = 52;
const LEAD: u64 = 1 << DIGITS;
/// The first of the digits. A quiet NaN has it, a signaling NaN has not.
const FIRST: u64 = LEAD / 2;
/// What a pattern has above its digits: both signs with every exponent field.
const TOPS: u64 = 1 << 12;
/// How many of the exponent fields are odd, or even, and neither 0 nor 2047.
const HALF_FIELDS: usize = 1023;

/// Digits at the ends and about the middle, and how many random ones go with them.
const EDGE_DIGITS: [u64; 8] = [0, 1, 2, FIRST - 1, FIRST, FIRST + 1, LEAD - 2, LEAD - 1];
const OTHER_DIGITS: usize = 4;

/// For each one of the scale.
const SQUARES: usize = 100;
const PATTERNS: usize = 1000;

/// The class of IEEE 754 that a pattern is of.
fn class(bits: u64) -> String {
    let number = f64::from_bits(bits);
    let sign = if number.is_sign_negative() { "negative" } else { "positive" };
    match number.classify() {
        FpCategory::Nan if bits & FIRST == 0 => "signaling NaN".into(),
        FpCategory::Nan => "quiet NaN".into(),
        FpCategory::Infinite => format!("{sign} infinity"),
        FpCategory::Normal => format!("{sign} normal"),
        FpCategory::Subnormal => format!("{sign} subnormal"),
        FpCategory::Zero => format!("{sign} zero"),
    }
}

fn compare_one(comparison: &mut Comparison, kind: &str, bits: u64) {
    comparison.count(format!("roots, kind: {kind}"));
    comparison.count(format!("roots, class: {}", class(bits)));
    let (given, wanted) = (ipm_root_bits(bits), settled_bits(f64::from_bits(bits).sqrt()));
    if given != wanted {
        comparison.differ(format!("static library {given:016x}, wanted {wanted:016x}: the root of {bits:016x}"));
    }
}

fn compare_exponents(comparison: &mut Comparison, random: &mut Random) {
    for top in 0..TOPS {
        let other: [u64; OTHER_DIGITS] = std::array::from_fn(|_| random.next() % LEAD);
        for digits in EDGE_DIGITS.into_iter().chain(other) {
            compare_one(comparison, "every sign and exponent", top * LEAD + digits);
        }
    }
}

/// The leading digit at every place, random digits below it.
fn compare_subnormals(comparison: &mut Comparison, random: &mut Random) {
    for place in 0..DIGITS {
        let lead = 1 << place;
        compare_one(comparison, "subnormal, every leading digit", lead + random.next() % lead);
    }
}

/// A number of 53 digits. Half of them end in zeros, so that a square is exact at times.
fn whole(random: &mut Random) -> u64 {
    let zeros = if random.once_in(2) { random.below(DIGITS + 1) } else { 0 };
    (LEAD + random.next() % LEAD) >> zeros << zeros
}

/// The double nearest to the square of a number and its two neighbours, all times a random power of four, which leaves
/// the digits of their roots.
fn compare_square(comparison: &mut Comparison, random: &mut Random, kind: &str, number: u64) {
    let square = u128::from(number) * u128::from(number);
    let bits = (square as f64).to_bits();
    let odd = (bits >> DIGITS) % 2;
    let field = 2 * (random.below(HALF_FIELDS) as u64 + 1) - odd;
    let nearest = field * LEAD + bits % LEAD;
    for near in [nearest - 1, nearest, nearest + 1] {
        compare_one(comparison, kind, near);
    }
}

/// A number of 54 digits, like `start` modulo 4, whose square is `square` modulo 2^54. `start` is 1 or 3, and `square`
/// is 1 modulo 8. A turn sets right one digit of the square.
fn number_with_square(start: u64, square: u64) -> u64 {
    let turn = |number: u64, place: usize| {
        let wrong = number.wrapping_mul(number).wrapping_sub(square) >> place & 1;
        number + (wrong << (place - 1))
    };
    (3..DIGITS + 2).fold(start, turn) + 2 * LEAD
}

/// Roots closest to the middle between two doubles. Such a middle is an odd number of 54 digits. Here each square is at
/// most `8 * count + 1` from a multiple of 2^54, which is a double, or the middle between two and then less close.
fn compare_closest(comparison: &mut Comparison, random: &mut Random, count: i64) {
    for eighth in -count..=count {
        for start in [1, 3] {
            let middle = number_with_square(start, (8 * eighth + 1) as u64);
            compare_square(comparison, random, "closest to a middle", middle);
        }
    }
}

pub fn compare(comparison: &mut Comparison, random: &mut Random, scale: usize) {
    compare_exponents(comparison, random);
    for _ in 0..scale {
        compare_subnormals(comparison, random);
    }
    for _ in 0..SQUARES * scale {
        let number = whole(random);
        compare_square(comparison, random, "near a square", number);
        compare_square(comparison, random, "near the square of a middle", 2 * number + 1);
    }
    compare_closest(comparison, random, scale as i64);
    for _ in 0..PATTERNS * scale {
        compare_one(comparison, "random pattern", random.next());
    }
}
