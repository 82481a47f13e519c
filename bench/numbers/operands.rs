//! What the two programs share with the proved one: the words, the operands, drawn by a linear
//! congruential generator, and the checksum.

/// The mix and the number of rounds.
pub fn words() -> (String, u64) {
    let mut words = std::env::args().skip(1);
    let mix = words.next().unwrap();
    (mix, words.next().unwrap().parse().unwrap())
}

/// The numerators and denominators, not reduced.
pub fn operands(mix: &str) -> Vec<(i64, i64)> {
    let mut state = 1u64;
    let mut draw = |below: u64| {
        state = state
            .wrapping_mul(6364136223846793005)
            .wrapping_add(1442695040888963407);
        ((state >> 33) % below) as i64
    };
    let mut operand = || {
        let numerator = draw(2_000_001) - 1_000_000;
        match mix {
            "whole" => (numerator, 1),
            "equal" => (numerator, 1_000_003),
            _ => (numerator, draw(10_000) + 1),
        }
    };
    (0..400).map(|_| operand()).collect()
}

/// The checksum depends on the order of what is mixed in, so that no two results cancel.
pub fn mixed_in(sum: i64, part: i64) -> i64 {
    sum.wrapping_mul(31).wrapping_add(part)
}
