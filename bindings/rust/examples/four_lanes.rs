//! Four problems over one matrix: maximise 2 x0 + x1 where x0 + x1 ≤ b0, x0 ≤ b1, x1 ≤ b2, with right sides of its
//! own in each lane. A row's price is what one more unit of its right side would add.

use std::num::NonZeroUsize;

use ipm::{Lane, Refusal, Solver, Tolerances};

fn listed(numbers: impl Iterator<Item = f64>) -> String {
    numbers.map(|number| format!("{number:.6}")).collect::<Vec<_>>().join("  ")
}

fn main() -> Result<(), Refusal> {
    let mut solver = Solver::from_data(3, 2, vec![0, 2, 3, 4], vec![0, 1, 0, 1], vec![1.0; 4], 3)?;
    let c = [2.0, 1.0];
    let right_sides = [[4.0, 3.0, 2.0], [5.0, 3.0, 2.0], [2.0, 3.0, 2.0], [10.0, 1.0, 1.0]];
    let lanes = right_sides.each_ref().map(|b| Lane { b, c: &c });
    let limit = NonZeroUsize::new(100).expect("not 0");

    let solution = solver.solve_lanes(lanes, &Tolerances::default(), limit)?;
    println!("done at test {}", solution.test);
    for lane in 0..ipm::LANES {
        println!("lane {lane}: {}", listed(solution.lane(lane)));
        println!("  prices: {}", listed(solution.lane_prices(lane)));
    }

    // A limit that is too low is an answer, not a panic.
    let too_few = NonZeroUsize::new(3).expect("not 0");
    match solver.solve_lanes(lanes, &Tolerances::default(), too_few) {
        Ok(solution) => println!("done at test {}", solution.test),
        Err(refusal) => println!("refused at question {}: {refusal}", refusal.question()),
    }
    Ok(())
}
