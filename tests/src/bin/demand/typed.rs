//! Plans that are typed here.

use comparison::model::bench::Call;
use comparison::model::choices::Choices;
use comparison::model::program;

/// Lines with the times that each is run; the first holds n and k, and the lag where it is 1.
pub type Plan = &'static [(u32, &'static str)];

/// The choices and the calls of the other lines; there are no jobs.
pub fn calls(plan: Plan) -> (Choices, Vec<Call>) {
    let mut lines = plan.iter().flat_map(|&(times, line)| vec![line; times as usize]);
    let numbers: Vec<u32> =
        lines.next().expect("line one").split(' ').map(|number| number.parse().expect("a number")).collect();
    let (n, k, lag) = (numbers[0], numbers[1], numbers.get(2).copied().unwrap_or(0));
    let calls = lines.map(|line| program::call(n, line.as_bytes()).expect("a line")).collect();
    (Choices::of(n, k, 0, lag), calls)
}
