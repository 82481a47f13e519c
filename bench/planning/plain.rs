//! The ruled dual simplex method in plain Rust, with the same rule, tableau and fractions: of the rows whose basic
//! value is off its range the first leaves, of the columns that may enter the one of least raised ratio enters, and
//! a pivot with a number that doesn't fit leaves the tableau as it was.

#[path = "../fractions.rs"]
mod fractions;

use fractions::{reduce, Frac};
use std::cmp::Ordering;

const ZERO: Frac = Frac { num: 0, den: 1 };
const ONE: Frac = Frac { num: 1, den: 1 };

type Terms = Vec<(usize, Frac)>;

struct Row {
    terms: Terms,
    bound: Frac,
    is_equation: bool,
}

struct Problem {
    boxes: Vec<(Frac, Frac)>,
    rows: Vec<Row>,
    cost: Terms,
    constant: Frac,
}

fn number(text: &str) -> Frac {
    let (num, den) = text.split_once('/').unwrap_or((text, "1"));
    reduce(num.parse().unwrap(), den.parse().unwrap()).unwrap()
}

fn terms(words: &[&str]) -> Terms {
    words
        .chunks(2)
        .map(|pair| (pair[0].parse().unwrap(), number(pair[1])))
        .collect()
}

impl Problem {
    fn read(text: &str) -> Problem {
        let mut problem = Problem {
            boxes: Vec::new(),
            rows: Vec::new(),
            cost: Vec::new(),
            constant: ZERO,
        };
        for line in text.lines() {
            let words: Vec<&str> = line.split(' ').collect();
            match words.as_slice() {
                ["box", low, high] => problem.boxes.push((number(low), number(high))),
                [kind @ ("row" | "equation"), bound, rest @ ..] => problem.rows.push(Row {
                    terms: terms(rest),
                    bound: number(bound),
                    is_equation: *kind == "equation",
                }),
                ["cost", constant, rest @ ..] => {
                    problem.cost = terms(rest);
                    problem.constant = number(constant);
                }
                _ => {}
            }
        }
        problem
    }

    fn low(&self, variable: usize) -> Frac {
        self.boxes.get(variable).map_or(ZERO, |range| range.0)
    }

    fn high(&self, variable: usize) -> Option<Frac> {
        match self.boxes.get(variable) {
            Some(range) => Some(range.1),
            None => self.rows[variable - self.boxes.len()]
                .is_equation
                .then_some(ZERO),
        }
    }
}

impl Frac {
    fn neg(self) -> Frac {
        Frac {
            num: -self.num,
            den: self.den,
        }
    }

    fn is_zero(self) -> bool {
        self.num == 0
    }

    /// The number less factor times number.
    fn less_product(self, factor: Frac, number: Frac) -> Option<Frac> {
        if factor.is_zero() || number.is_zero() {
            return Some(self);
        }
        self.sub(factor.mul(number)?)
    }

    fn plus_product(self, factor: Frac, number: Frac) -> Option<Frac> {
        if number.is_zero() {
            return Some(self);
        }
        self.add(factor.mul(number)?)
    }

    /// The number times a factor over a divisor, whose product needn't fit.
    fn mul_div(self, by: Frac, divisor: Frac) -> Option<Frac> {
        let (above, below) = (
            self.num as i128 * by.num as i128,
            self.den as i128 * by.den as i128,
        );
        if above == 0 {
            return Some(ZERO);
        }
        let common = gcd(above.unsigned_abs(), below as u128) as i128;
        let (above, below) = (above / common, below / common);
        let (up, down) = (divisor.den as i128, divisor.num as i128);
        let left = gcd(above.unsigned_abs(), down.unsigned_abs()) as i128;
        let right = gcd(up as u128, below as u128) as i128;
        let num = (above / left).checked_mul(up / right)?;
        let den = (below / right).checked_mul(down / left)?;
        let sign = den.signum();
        Some(Frac {
            num: i64::try_from(num * sign).ok()?,
            den: i64::try_from(den * sign).ok()?,
        })
    }

    /// The order of the quotients a / b and c / d, whose parts may need 256 bits.
    fn cmp_quotient(a: Frac, b: Frac, c: Frac, d: Frac) -> Ordering {
        let above =
            |x: Frac, y: Frac| (x.num as i128 * y.den as i128, x.den as i128 * y.num as i128);
        let turned = |(num, den): (i128, i128)| if den < 0 { (-num, -den) } else { (num, den) };
        let (x, y) = turned(above(a, b));
        let (z, w) = turned(above(c, d));
        match (x < 0, z < 0) {
            (true, true) => cmp_ratios((-z, w), (-x, y)),
            (true, false) => Ordering::Less,
            (false, true) => Ordering::Greater,
            (false, false) => cmp_ratios((x, y), (z, w)),
        }
    }
}

fn cmp_ratios(mut left: (i128, i128), mut right: (i128, i128)) -> Ordering {
    loop {
        let (whole, other) = (left.0 / left.1, right.0 / right.1);
        if whole != other {
            return whole.cmp(&other);
        }
        let (rest, other_rest) = (left.0 % left.1, right.0 % right.1);
        if rest == 0 || other_rest == 0 {
            return rest.cmp(&other_rest);
        }
        (left, right) = ((right.1, other_rest), (left.1, rest));
    }
}

fn gcd(mut a: u128, mut b: u128) -> u128 {
    while b > u64::MAX as u128 {
        (a, b) = (b, a % b);
    }
    if b == 0 {
        return a;
    }
    let (mut a, mut b) = (b as u64, (a % b) as u64);
    while b != 0 {
        (a, b) = (b, a % b);
    }
    a as u128
}

#[derive(Clone)]
struct Tableau {
    cells: Vec<Frac>,
    width: usize,
    basic: Vec<usize>,
    outside: Vec<usize>,
}

impl Tableau {
    fn new(problem: &Problem) -> Tableau {
        let (rows, columns) = (problem.rows.len(), problem.boxes.len());
        let width = columns + 1;
        let mut cells = vec![ZERO; (rows + 1) * width];
        for (row, cells) in problem.rows.iter().zip(cells.chunks_mut(width)) {
            for (column, factor) in &row.terms {
                cells[*column] = *factor;
            }
            cells[columns] = row.bound;
        }
        for (column, factor) in &problem.cost {
            cells[rows * width + column] = factor.neg();
        }
        cells[rows * width + columns] = problem.constant;
        Tableau {
            cells,
            width,
            basic: (columns..columns + rows).collect(),
            outside: (0..columns).collect(),
        }
    }

    fn row(&self, row: usize) -> &[Frac] {
        &self.cells[row * self.width..(row + 1) * self.width]
    }

    fn cell(&self, row: usize, column: usize) -> Frac {
        self.cells[row * self.width + column]
    }

    fn new_cell(&self, row: usize, column: usize, i: usize, j: usize) -> Option<Frac> {
        let divisor = self.cell(row, column);
        let old = self.cell(i, j);
        if i == row {
            return if j == column {
                ONE.div(divisor)
            } else {
                old.div(divisor)
            };
        }
        if j == column {
            return old.div(divisor.neg());
        }
        let across = self.cell(row, j);
        if across.is_zero() {
            return Some(old);
        }
        old.sub(self.cell(i, column).mul_div(across, divisor)?)
    }

    fn is_kept(&self, row: usize, column: usize, i: usize) -> bool {
        i != row && self.cell(i, column).is_zero()
    }

    /// Whether the pivot was made: every new number fits.
    fn pivot(&mut self, row: usize, column: usize) -> bool {
        let height = self.basic.len() + 1;
        for i in 0..height {
            if !self.is_kept(row, column, i)
                && (0..self.width).any(|j| self.new_cell(row, column, i, j).is_none())
            {
                return false;
            }
        }
        for i in (0..height).filter(|i| *i != row).chain([row]) {
            if self.is_kept(row, column, i) {
                continue;
            }
            for j in (0..self.width).filter(|j| *j != column).chain([column]) {
                if let Some(cell) = self.new_cell(row, column, i, j) {
                    self.cells[i * self.width + j] = cell;
                }
            }
        }
        std::mem::swap(&mut self.basic[row], &mut self.outside[column]);
        true
    }
}

#[derive(Clone, Copy)]
enum Stand {
    Basic(usize),
    Outside(usize),
}

/// A status: where each variable stands, and the ends of those outside the basis.
struct Status<'a> {
    problem: &'a Problem,
    tableau: &'a Tableau,
    stands: Vec<Stand>,
    ends: Vec<(bool, Frac)>,
}

impl<'a> Status<'a> {
    fn new(problem: &'a Problem, tableau: &'a Tableau) -> Status<'a> {
        let (rows, columns) = (tableau.basic.len(), tableau.outside.len());
        let mut stands = vec![Stand::Basic(0); rows + columns];
        for (row, variable) in tableau.basic.iter().enumerate() {
            stands[*variable] = Stand::Basic(row);
        }
        for (column, variable) in tableau.outside.iter().enumerate() {
            stands[*variable] = Stand::Outside(column);
        }
        let mut status = Status {
            problem,
            tableau,
            stands,
            ends: Vec::new(),
        };
        status.ends = (0..columns).map(|column| status.end(column)).collect();
        status
    }

    fn raised(&self, column: usize, place: usize) -> Frac {
        if place == 0 {
            return self.tableau.cell(self.tableau.basic.len(), column);
        }
        match self.stands[place - 1] {
            Stand::Basic(row) => self.tableau.cell(row, column),
            Stand::Outside(other) if other == column => ONE.neg(),
            Stand::Outside(_) => ZERO,
        }
    }

    fn end(&self, column: usize) -> (bool, Frac) {
        let places = 0..self.tableau.outside.len() + 1;
        let above = places
            .map(|place| self.raised(column, place).num.signum())
            .find(|sign| *sign != 0)
            == Some(1);
        let variable = self.tableau.outside[column];
        let low = self.problem.low(variable);
        (
            above,
            if above {
                self.problem.high(variable).unwrap_or(low)
            } else {
                low
            },
        )
    }

    fn basic_value(&self, row: usize) -> Option<Frac> {
        let cells = self.tableau.row(row);
        let sum = cells[cells.len() - 1];
        cells
            .iter()
            .zip(&self.ends)
            .try_fold(sum, |sum, (cell, end)| sum.less_product(*cell, end.1))
    }

    /// The first row that is off its range, and whether below it; the error is a number that doesn't fit.
    fn first_off(&self) -> Result<Option<(usize, bool)>, ()> {
        for (row, variable) in self.tableau.basic.iter().enumerate() {
            let value = self.basic_value(row).ok_or(())?;
            if value.cmp(self.problem.low(*variable)) == Ordering::Less {
                return Ok(Some((row, true)));
            }
            if let Some(high) = self.problem.high(*variable) {
                if high.cmp(value) == Ordering::Less {
                    return Ok(Some((row, false)));
                }
            }
        }
        Ok(None)
    }

    fn may_enter(&self, row: usize, under: bool, column: usize) -> bool {
        let cell = self.tableau.cell(row, column);
        let toward = if under == self.ends[column].0 {
            cell.num > 0
        } else {
            cell.num < 0
        };
        let variable = self.tableau.outside[column];
        toward && self.problem.high(variable) != Some(self.problem.low(variable))
    }

    fn is_less(&self, row: usize, under: bool, first: usize, second: usize) -> bool {
        let (b, d) = (
            self.tableau.cell(row, first),
            self.tableau.cell(row, second),
        );
        for place in 0..self.tableau.outside.len() + 1 {
            let (a, c) = (self.raised(first, place), self.raised(second, place));
            let order = if under {
                Frac::cmp_quotient(a, b, c, d)
            } else {
                Frac::cmp_quotient(c, d, a, b)
            };
            if order != Ordering::Equal {
                return order == Ordering::Less;
            }
        }
        false
    }

    fn entering(&self, row: usize, under: bool) -> Option<usize> {
        let columns =
            (0..self.tableau.outside.len()).filter(|column| self.may_enter(row, under, *column));
        columns.reduce(|best, column| {
            if self.is_less(row, under, column, best) {
                column
            } else {
                best
            }
        })
    }

    fn point(&self) -> Option<Vec<Frac>> {
        let values = self.stands[..self.problem.boxes.len()]
            .iter()
            .map(|stand| match stand {
                Stand::Basic(row) => self.basic_value(*row),
                Stand::Outside(column) => Some(self.ends[*column].1),
            });
        values.collect()
    }

    /// The multipliers that are read off the cost row.
    fn cost_multipliers(&self) -> Vec<Frac> {
        let (rows, columns) = (self.tableau.basic.len(), self.tableau.outside.len());
        self.stands[columns..]
            .iter()
            .map(|stand| match stand {
                Stand::Basic(_) => ZERO,
                Stand::Outside(column) => self.tableau.cell(rows, *column).neg(),
            })
            .collect()
    }

    fn row_multipliers(&self, row: usize, under: bool) -> Vec<Frac> {
        self.stands[self.tableau.outside.len()..]
            .iter()
            .map(|stand| {
                let cell = match stand {
                    Stand::Basic(other) if *other == row => ONE,
                    Stand::Basic(_) => ZERO,
                    Stand::Outside(column) => self.tableau.cell(row, *column),
                };
                if under {
                    cell
                } else {
                    cell.neg()
                }
            })
            .collect()
    }
}

/// The bound of multipliers over the boxes, where every number of its sum fits.
fn bound(problem: &Problem, cost: &Terms, constant: Frac, multipliers: &[Frac]) -> Option<Frac> {
    let mut sums = vec![ZERO; problem.boxes.len()];
    for (column, factor) in cost {
        sums[*column] = *factor;
    }
    let mut bound = constant;
    for (row, multiplier) in problem
        .rows
        .iter()
        .zip(multipliers)
        .filter(|(_, multiplier)| !multiplier.is_zero())
    {
        for (column, factor) in &row.terms {
            sums[*column] = sums[*column].plus_product(*multiplier, *factor)?;
        }
        bound = bound.less_product(*multiplier, row.bound)?;
    }
    for (sum, (low, high)) in sums.iter().zip(&problem.boxes) {
        bound = bound.plus_product(*sum, if sum.num < 0 { *high } else { *low })?;
    }
    Some(bound)
}

fn dot(start: Frac, terms: &Terms, point: &[Frac]) -> Option<Frac> {
    terms.iter().try_fold(start, |sum, (column, factor)| {
        sum.add(factor.mul(point[*column])?)
    })
}

enum End {
    Least(Vec<Frac>),
    Never,
    Stuck,
}

fn least(problem: &Problem, status: &Status) -> End {
    let fits = || {
        bound(
            problem,
            &problem.cost,
            problem.constant,
            &status.cost_multipliers(),
        )?;
        let point = status.point()?;
        for row in &problem.rows {
            dot(ZERO, &row.terms, &point)?;
        }
        dot(problem.constant, &problem.cost, &point)?;
        Some(point)
    };
    fits().map_or(End::Stuck, End::Least)
}

/// The end of the relaxation from the tableau, with its pivots.
fn relax(problem: &Problem, tableau: &mut Tableau) -> (End, Vec<(usize, usize)>) {
    let mut path = Vec::new();
    loop {
        let status = Status::new(problem, tableau);
        let (row, under) = match status.first_off() {
            Err(()) => return (End::Stuck, path),
            Ok(None) => return (least(problem, &status), path),
            Ok(Some(off)) => off,
        };
        let Some(column) = status.entering(row, under) else {
            let multipliers = status.row_multipliers(row, under);
            let end =
                bound(problem, &Vec::new(), ZERO, &multipliers).map_or(End::Stuck, |_| End::Never);
            return (end, path);
        };
        if !tableau.pivot(row, column) {
            return (End::Stuck, path);
        }
        path.push((row, column));
    }
}

fn checksum(numbers: &[Frac]) -> i64 {
    numbers.iter().fold(0i64, |sum, number| {
        sum.wrapping_mul(31)
            .wrapping_add(number.num)
            .wrapping_mul(31)
            .wrapping_add(number.den)
    })
}

fn main() {
    let words: Vec<String> = std::env::args().skip(1).collect();
    let problem = Problem::read(&std::fs::read_to_string(&words[0]).unwrap());
    let rounds: u64 = words[2].parse().unwrap();
    let mut text = String::new();
    match words[1].as_str() {
        "pivots" => {
            let (_, path) = relax(&problem, &mut Tableau::new(&problem));
            for _ in 0..rounds {
                let mut tableau = Tableau::new(&problem);
                let made = path
                    .iter()
                    .filter(|(row, column)| tableau.pivot(*row, *column))
                    .count();
                text = format!("{made}");
            }
        }
        _ => {
            for _ in 0..rounds {
                let first = Tableau::new(&problem);
                let (end, path) = relax(&problem, &mut first.clone());
                text = match end {
                    End::Least(point) => format!("least {} {}", path.len(), checksum(&point)),
                    End::Never => format!("never {}", path.len()),
                    End::Stuck => format!("stuck {}", path.len()),
                };
            }
        }
    }
    println!("{text}");
}
