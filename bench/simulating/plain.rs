//! The simulator in plain Rust, for one plant that is held as data: the same checks of the tables, the same exact
//! numbers and the same table of the run.

#[path = "../fractions.rs"]
mod fractions;

use csv::{ByteRecord, ReaderBuilder};
use fractions::{reduce, Frac};
use std::cmp::Ordering;
use std::io::Write;

const STATES: usize = 4;
const INPUTS: usize = 2;

/// A sum of names with factors, and a constant.
struct Form {
    terms: Vec<(usize, Frac)>,
    constant: Frac,
}

enum Formula {
    Name(usize),
    Not(Box<Formula>),
    And(Box<Formula>, Box<Formula>),
}

enum Definition {
    Guard {
        number: Form,
        eps: Frac,
    },
    Choice {
        when: Formula,
        hit: Form,
        other: Form,
    },
}

/// Names are places in the list of values: states, inputs, auxiliaries.
struct Plant {
    names: Vec<&'static str>,
    is_bool: Vec<bool>,
    bounds: Vec<(Frac, Frac)>,
    definitions: Vec<(usize, Definition)>,
    demands: Vec<Form>,
    next: Vec<Form>,
    outputs: Vec<Form>,
}

fn number(num: i64, den: i64) -> Frac {
    reduce(num as i128, den as i128).unwrap()
}

fn form(terms: &[(usize, i64, i64)], constant: (i64, i64)) -> Form {
    Form {
        terms: terms
            .iter()
            .map(|(name, num, den)| (*name, number(*num, *den)))
            .collect(),
        constant: number(constant.0, constant.1),
    }
}

fn plant() -> Plant {
    let wide = (number(-10, 1), number(10, 1));
    Plant {
        names: "a b c d u on high gain y".split(' ').collect(),
        is_bool: vec![false, false, false, false, false, true],
        bounds: vec![
            wide,
            wide,
            wide,
            wide,
            (number(-1, 1), number(1, 1)),
            (number(0, 1), number(1, 1)),
        ],
        definitions: vec![
            (
                6,
                Definition::Guard {
                    number: form(&[(1, -1, 1)], (1, 2)),
                    eps: number(1, 1000),
                },
            ),
            (
                7,
                Definition::Choice {
                    when: Formula::And(
                        Box::new(Formula::Name(5)),
                        Box::new(Formula::Not(Box::new(Formula::Name(6)))),
                    ),
                    hit: form(&[(0, 1, 1), (1, 1, 1)], (0, 1)),
                    other: form(&[(0, 1, 2)], (0, 1)),
                },
            ),
        ],
        demands: vec![form(&[(0, 1, 1), (1, 1, 1)], (-15, 1))],
        next: vec![
            form(&[(4, 3, 2)], (0, 1)),
            form(&[(0, 1, 2), (4, 1, 4)], (0, 1)),
            form(&[(0, -1, 4), (1, 1, 1)], (1, 1)),
            form(&[(2, 1, 4), (7, 1, 2)], (0, 1)),
        ],
        outputs: vec![form(&[(0, 1, 1), (3, 2, 1)], (0, 1))],
    }
}

impl Form {
    fn value(&self, values: &[Frac]) -> Option<Frac> {
        let mut sum = number(0, 1);
        for (name, factor) in &self.terms {
            sum = sum.add(factor.mul(values[*name])?)?;
        }
        sum.add(self.constant)
    }
}

impl Formula {
    fn truth(&self, values: &[Frac]) -> bool {
        match self {
            Formula::Name(name) => values[*name].num != 0,
            Formula::Not(formula) => !formula.truth(values),
            Formula::And(left, right) => left.truth(values) && right.truth(values),
        }
    }
}

impl Definition {
    /// The value, or none in a gap or where a number doesn't fit.
    fn value(&self, values: &[Frac]) -> Option<Frac> {
        match self {
            Definition::Guard { number: form, eps } => {
                let found = form.value(values)?;
                if found.num <= 0 {
                    Some(number(1, 1))
                } else if found.cmp(*eps) == Ordering::Less {
                    None
                } else {
                    Some(number(0, 1))
                }
            }
            Definition::Choice { when, hit, other } => {
                if when.truth(values) {
                    hit.value(values)
                } else {
                    other.value(values)
                }
            }
        }
    }
}

/// The auxiliaries, the outputs and the next state, or none where the step isn't legal.
fn step(
    plant: &Plant,
    state: &[Frac],
    input: &[Frac],
) -> Option<(Vec<Frac>, Vec<Frac>, Vec<Frac>)> {
    let mut values: Vec<Frac> = state.iter().chain(input).copied().collect();
    for (value, (low, high)) in values.iter().zip(&plant.bounds) {
        if value.cmp(*low) == Ordering::Less || high.cmp(*value) == Ordering::Less {
            return None;
        }
    }
    values.resize(values.len() + plant.definitions.len(), number(0, 1));
    for (name, definition) in &plant.definitions {
        values[*name] = definition.value(&values)?;
    }
    for demand in &plant.demands {
        if demand.value(&values)?.num > 0 {
            return None;
        }
    }
    let next = plant
        .next
        .iter()
        .map(|form| form.value(&values))
        .collect::<Option<_>>()?;
    let outputs = plant
        .outputs
        .iter()
        .map(|form| form.value(&values))
        .collect::<Option<_>>()?;
    Some((values[STATES + INPUTS..].to_vec(), outputs, next))
}

fn digits(text: &[u8]) -> Option<i128> {
    if text.is_empty() || text.len() > 32 {
        return None;
    }
    text.iter().try_fold(0i128, |sum, byte| match byte {
        b'0'..=b'9' => sum.checked_mul(10)?.checked_add((byte - b'0') as i128),
        _ => None,
    })
}

/// The value of a literal: digits with a point or none, and an exponent or none.
fn literal(text: &[u8]) -> Option<Frac> {
    if text.len() > 32 {
        return None;
    }
    let front = text
        .iter()
        .position(|byte| matches!(byte, b'e' | b'E'))
        .unwrap_or(text.len());
    let exponent = match text.get(front + 1..) {
        Some([b'-', digit @ ..]) => -digits(digit)?,
        Some([b'+', digit @ ..]) => digits(digit)?,
        Some(digit) => digits(digit)?,
        None => 0,
    };
    let (mut sum, mut places, mut count, mut pointed) = (0i128, 0i128, 0, false);
    for byte in &text[..front] {
        match byte {
            b'0'..=b'9' => {
                sum = sum.checked_mul(10)?.checked_add((byte - b'0') as i128)?;
                places += pointed as i128;
                count += 1;
            }
            b'.' if !pointed => pointed = true,
            _ => return None,
        }
    }
    if count == 0 {
        return None;
    }
    let power = u32::try_from((exponent - places).unsigned_abs()).ok()?;
    let ten = 10i128.checked_pow(power)?;
    if exponent >= places {
        reduce(sum.checked_mul(ten)?, 1)
    } else {
        reduce(sum, ten)
    }
}

fn read(text: &[u8]) -> Option<Frac> {
    let (negative, text) = match text {
        [b'-', rest @ ..] => (true, rest),
        [b'+', rest @ ..] => (false, rest),
        _ => (false, text),
    };
    let value = match text.iter().position(|byte| *byte == b'/') {
        Some(place) => reduce(digits(&text[..place])?, digits(&text[place + 1..])?)?,
        None => literal(text)?,
    };
    Some(Frac {
        num: if negative { -value.num } else { value.num },
        den: value.den,
    })
}

fn stripped(mut field: &[u8]) -> &[u8] {
    while let [b' ' | b'\t', rest @ ..] = field {
        field = rest;
    }
    while let [rest @ .., b' ' | b'\t'] = field {
        field = rest;
    }
    field
}

/// The values of the records of a table under the names, or none where something is wrong in it.
fn table(plant: &Plant, names: std::ops::Range<usize>, text: &[u8]) -> Option<Vec<Frac>> {
    let mut reader = ReaderBuilder::new()
        .has_headers(false)
        .flexible(true)
        .from_reader(text);
    let mut row = ByteRecord::new();
    if !reader.read_byte_record(&mut row).ok()? {
        return None;
    }
    let header: Vec<String> = row
        .iter()
        .map(|it| String::from_utf8(stripped(it).to_vec()).ok())
        .collect::<Option<_>>()?;
    if header.first()? != "step" || header.len() != names.len() + 1 {
        return None;
    }
    let places: Vec<usize> = names
        .clone()
        .map(|name| header.iter().position(|it| it == plant.names[name]))
        .collect::<Option<_>>()?;
    let mut values = Vec::new();
    let mut count = 0;
    while reader.read_byte_record(&mut row).ok()? {
        if row.len() != header.len() || read(stripped(&row[0]))? != number(count, 1) {
            return None;
        }
        for (name, place) in names.clone().zip(&places) {
            let value = read(stripped(&row[*place]))?;
            if plant.is_bool[name] && value != number(0, 1) && value != number(1, 1) {
                return None;
            }
            values.push(value);
        }
        count += 1;
    }
    Some(values)
}

fn write_values(out: &mut Vec<u8>, values: &[Frac]) {
    for value in values {
        if value.den == 1 {
            write!(out, ",{}", value.num).unwrap();
        } else {
            write!(out, ",{}/{}", value.num, value.den).unwrap();
        }
    }
}

/// The steps and the table of a run.
fn simulate(plant: &Plant, start: &[u8], inputs: &[u8]) -> Option<(u32, Vec<u8>)> {
    let mut state = table(plant, 0..STATES, start)?;
    let inputs = table(plant, STATES..STATES + INPUTS, inputs)?;
    let mut out = b"step".to_vec();
    for name in &plant.names {
        write!(out, ",{name}").unwrap();
    }
    out.push(b'\n');
    let mut steps = 0;
    for input in inputs.chunks(INPUTS) {
        let Some((auxiliaries, outputs, next)) = step(plant, &state, input) else {
            break;
        };
        write!(out, "{steps}").unwrap();
        write_values(&mut out, &state);
        write_values(&mut out, input);
        write_values(&mut out, &auxiliaries);
        write_values(&mut out, &outputs);
        out.push(b'\n');
        state = next;
        steps += 1;
    }
    write!(out, "{steps}").unwrap();
    write_values(&mut out, &state);
    out.extend(vec![b','; plant.names.len() - STATES]);
    out.push(b'\n');
    Some((steps, out))
}

fn checksum(table: &[u8]) -> u64 {
    table.iter().fold(0u64, |sum, byte| {
        sum.wrapping_mul(31).wrapping_add(*byte as u64)
    })
}

fn main() {
    let words: Vec<String> = std::env::args().skip(1).collect();
    let start = std::fs::read(&words[1]).unwrap();
    let inputs = std::fs::read(&words[2]).unwrap();
    let rounds: u64 = words[3].parse().unwrap();
    let plant = plant();
    let mut last = (0, 0);
    for _ in 0..rounds {
        let (steps, table) = simulate(&plant, &start, &inputs).unwrap();
        last = (steps, checksum(&table));
    }
    println!("{} {}", last.0, last.1);
}
