//! The proved program in plain Rust.

#[path = "../fractions.rs"]
mod fractions;
mod operands;

use fractions::{reduce, Frac};
use operands::mixed_in;

fn with_number(sum: i64, number: Option<Frac>) -> i64 {
    match number {
        Some(number) => mixed_in(mixed_in(sum, number.num), number.den),
        None => mixed_in(sum, 0),
    }
}

fn with_results(before: i64, left: Frac, right: Frac) -> i64 {
    let mut sum = mixed_in(before, left.cmp(right) as i64);
    sum = with_number(sum, left.add(right));
    sum = with_number(sum, left.sub(right));
    sum = with_number(sum, left.mul(right));
    with_number(sum, left.div(right))
}

fn main() {
    let (mix, rounds) = operands::words();
    let operands: Vec<Frac> = operands::operands(&mix)
        .into_iter()
        .filter_map(|(num, den)| reduce(num as i128, den as i128))
        .collect();
    let mut sum = 0i64;
    for _ in 0..rounds {
        for left in &operands {
            for right in &operands {
                sum = with_results(sum, *left, *right);
            }
        }
    }
    println!("{sum}");
}
