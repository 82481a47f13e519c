//! The proved program by num-rational.

mod operands;

use num_rational::Ratio;
use operands::mixed_in;

type Number = Ratio<i128>;

fn with_number(sum: i64, number: Number) -> i64 {
    mixed_in(
        mixed_in(sum, *number.numer() as i64),
        *number.denom() as i64,
    )
}

fn with_results(before: i64, left: Number, right: Number) -> i64 {
    let mut sum = mixed_in(before, left.cmp(&right) as i64);
    sum = with_number(sum, left + right);
    sum = with_number(sum, left - right);
    sum = with_number(sum, left * right);
    match *right.numer() {
        0 => mixed_in(sum, 0),
        _ => with_number(sum, left / right),
    }
}

fn main() {
    let (mix, rounds) = operands::words();
    let operands: Vec<Number> = operands::operands(&mix)
        .into_iter()
        .map(|(num, den)| Ratio::new(num as i128, den as i128))
        .collect();
    let mut sum = 0i64;
    for _ in 0..rounds {
        for left in &operands {
            for right in &operands {
                sum = with_results(sum, *left, *right);
            }
        }
    }
    println!("{sum}");
}
