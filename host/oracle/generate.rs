//! The seeded generator: its arguments, and the lines for start rounds and exact rounds.

use crate::chance::Chance;
use crate::script::number;
use crate::{generate_calls, generate_sheets, shapes};

/// Where generated lines go.
pub type Out<'a> = dyn FnMut(&str) -> Result<(), String> + 'a;

/// Ranges for the number of stops and for budgets, both ends included.
#[derive(Clone, Copy)]
pub struct Ranges {
    pub n: (usize, usize),
    pub budget: (usize, usize),
}

/// `KIND SEED COUNT [--n LO HI] [--budget LO HI]`.
pub fn generate(words: &[&str], out: &mut Out<'_>) -> Result<(), String> {
    let (kind, seed, count, options) = match words {
        [kind, seed, count, options @ ..] => (*kind, number(seed)?, number(count)?, options),
        _ => return Err("generate wants a kind, a seed and a count".to_string()),
    };
    // The most stops a kind may have, and what it has by itself.
    let (least, most, usual) = match kind {
        "sheets" => (2, 128, (2, 128)),
        "damaged" => (2, 128, (2, 12)),
        "calls" => (2, 4096, (2, 40)),
        "matrices" => (1, 4096, (1, 140)),
        "tables" => (1, 25, (1, 9)),
        _ => return Err(format!("nothing to generate is called {kind}")),
    };
    let mut ranges = Ranges {
        n: usual,
        budget: (0, if kind == "sheets" { 3000 } else { 60 }),
    };
    for option in options.chunks(3) {
        match option {
            ["--n", low, high] => ranges.n = (number(low)?, number(high)?),
            ["--budget", low, high] => ranges.budget = (number(low)?, number(high)?),
            _ => return Err("options are --n LO HI and --budget LO HI".to_string()),
        }
    }
    let Ranges { n, budget } = ranges;
    if n.0 < least || n.1 > most || n.0 > n.1 {
        return Err(format!("--n goes from {least} to {most} here"));
    }
    if budget.1 > u32::MAX as usize || budget.0 > budget.1 {
        return Err("--budget goes from 0 to 4294967295".to_string());
    }

    let mut chance = Chance::new(seed);
    for item in 0..count {
        match kind {
            "sheets" => generate_sheets::valid(&mut chance, item, ranges, out)?,
            "damaged" => generate_sheets::damaged(&mut chance, item, ranges, out)?,
            "calls" => generate_calls::script(&mut chance, item, ranges, out)?,
            "matrices" => out(&start_line(&mut chance, item, ranges))?,
            _ => out(&exact_line(&mut chance, item, ranges))?,
        }
    }
    Ok(())
}

/// A line for the start rounds, now and then one that is refused.
fn start_line(chance: &mut Chance, item: usize, ranges: Ranges) -> String {
    let (n, matrix) = shapes::with_slow_legs(chance, item, ranges.n);
    match chance.below(20) {
        0 => format!("{}{}", chance.one_of(&[0, 4097, n + 1]), words(&matrix)),
        1 => format!("{n}{}", words(&matrix[1..])),
        _ => format!("{n}{}", words(&matrix)),
    }
}

/// A line for the exact solver, its table exact, larger or, now and then, too small.
fn exact_line(chance: &mut Chance, item: usize, ranges: Ranges) -> String {
    let (n, matrix) = shapes::with_slow_legs(chance, item, ranges.n);
    let least = (1 << (n - 1)) * (n - 1);
    let larger = least + chance.below(100);
    match chance.below(20) {
        0 => format!(
            "{} {larger}{}",
            chance.one_of(&[0, 26, n + 1]),
            words(&matrix)
        ),
        1 => format!("{n} {larger}{}", words(&matrix[1..])),
        2 if n > 1 => format!("{n} {}{}", chance.below(least), words(&matrix)),
        3..=10 => format!("{n} {larger}{}", words(&matrix)),
        _ => format!("{n} {least}{}", words(&matrix)),
    }
}

/// Numbers, each after a space.
pub fn words<N: std::fmt::Display>(numbers: &[N]) -> String {
    numbers.iter().map(|number| format!(" {number}")).collect()
}
