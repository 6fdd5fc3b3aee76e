//! The harness's commands. Status 0: nothing differs; 1: something does; 2: bad arguments.
// An emulated program has a C main: see make.
#![cfg_attr(emulated, no_main)]
#![allow(unknown_lints, unexpected_cfgs)]

// The oracle's.
mod chance;
#[allow(dead_code)]
mod checks;
#[allow(dead_code)]
mod generate;
#[allow(dead_code)]
mod generate_calls;
#[allow(dead_code)]
mod generate_sheets;
#[allow(dead_code)]
mod lent;
#[allow(dead_code)]
mod script;
#[allow(dead_code)]
mod shapes;
#[allow(dead_code)]
mod sheet;
#[allow(dead_code)]
mod tsp;
// Ours.
mod calls;
mod exact;
mod found;
mod probe;
mod speed;
mod start;

const USAGE: &str =
    "usage: harness start SEED COUNT [--n LO HI]    1 to 4096 stops, by itself 1 to 140
       harness exact SEED COUNT [--n LO HI]    1 to 25 stops, by itself 1 to 12
       harness kicks SEED COUNT [--n LO HI]    2 to 4096 stops, by itself 2 to 140
       harness descents SEED COUNT [--n LO HI] 2 to 4096 stops, by itself 2 to 140
       harness calls SEED COUNT [--n LO HI]    2 to 4096 stops, by itself 2 to 40
       harness speed [descents]";

#[cfg(not(emulated))]
fn main() {
    std::process::exit(status());
}

#[cfg(emulated)]
#[no_mangle]
pub extern "C" fn main(_: i32, _: *const *const u8) -> i32 {
    status()
}

fn status() -> i32 {
    let words: Vec<String> = std::env::args().skip(1).collect();
    let words: Vec<&str> = words.iter().map(String::as_str).collect();
    match run(&words) {
        Ok(alike) => i32::from(!alike),
        Err(message) => {
            eprintln!("harness: {message}\n{USAGE}");
            2
        }
    }
}

fn run(words: &[&str]) -> Result<bool, String> {
    match words {
        ["start", rest @ ..] => compared("start", rest, (1, 140), 4096, start::compare),
        ["exact", rest @ ..] => compared("exact", rest, (1, 12), 25, exact::compare),
        ["kicks", rest @ ..] => compared("kicks", rest, (2, 140), 4096, calls::kicks),
        ["descents", rest @ ..] => compared("descents", rest, (2, 140), 4096, calls::descents),
        ["calls", rest @ ..] => compared("calls", rest, (2, 40), 4096, calls::scripts),
        ["speed"] => Ok(speed::measure()),
        ["speed", "descents"] => Ok(speed::descents()),
        _ => Err("no such command".to_string()),
    }
}

/// `SEED COUNT [--n LO HI]`: runs a comparison and prints what it met.
fn compared(
    name: &str,
    words: &[&str],
    usual: (usize, usize),
    most: usize,
    compare: fn(u64, usize, (usize, usize)) -> found::Found,
) -> Result<bool, String> {
    let (seed, count, range) = match words {
        [seed, count] => (number(seed)?, number(count)?, usual),
        [seed, count, "--n", low, high] => {
            (number(seed)?, number(count)?, (number(low)?, number(high)?))
        }
        _ => return Err(format!("{name} wants a seed and a count")),
    };
    if range.0 < 1 || range.1 > most || range.0 > range.1 {
        return Err(format!("--n goes from 1 to {most} here"));
    }
    let found = compare(seed, count, range);
    println!(
        "{name}: seed {seed}, {count} matrices of {} to {} stops: {} {}, {} refusals, {} differences",
        range.0,
        range.1,
        found.rounds,
        if ["kicks", "descents", "calls"].contains(&name) { "calls" } else { "rounds" },
        found.refusals,
        found.differences
    );
    Ok(found.differences == 0)
}

fn number<N: std::str::FromStr>(word: &str) -> Result<N, String> {
    word.parse()
        .map_err(|_| format!("{word} is no number that fits"))
}
