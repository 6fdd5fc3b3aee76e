//! The oracle's commands. Bad arguments and unparsable input end with a message and status 2.

mod chance;
mod checks;
mod generate;
mod generate_calls;
mod generate_sheets;
mod lent;
mod margin;
mod rounds;
mod script;
mod shapes;
mod sheet;
mod tsp;

use std::io::{self, BufRead, BufWriter, Read, Write};
use std::process::exit;

use script::Session;

const USAGE: &str = "usage: oracle sheet | sheets | calls | start | exact | margin
       oracle generate sheets|damaged|calls|matrices|tables SEED COUNT [--n LO HI] [--budget LO HI]";

fn main() {
    let words: Vec<String> = std::env::args().skip(1).collect();
    let words: Vec<&str> = words.iter().map(String::as_str).collect();
    let mut out = BufWriter::new(io::stdout());
    let mut done = run(&words, &mut out);
    let flushed = out.flush().map_err(|error| error.to_string());
    done = done.and(flushed);
    if let Err(message) = done {
        eprintln!("oracle: {message}");
        exit(2);
    }
}

fn run(words: &[&str], out: &mut impl Write) -> Result<(), String> {
    match words {
        ["sheet"] => one_sheet(out),
        ["sheets"] => each_line(out, sheets),
        ["calls"] => {
            let mut session = Session::new();
            each_line(out, |line| call(&mut session, line))
        }
        ["start"] => each_line(out, |line| rounds::start(line).map(Some)),
        ["exact"] => each_line(out, |line| rounds::exact(line).map(Some)),
        ["margin"] => print(out, &margin::compare()),
        ["generate", rest @ ..] => generate::generate(rest, &mut |line| print(out, line)),
        _ => Err(format!("no such command\n{USAGE}")),
    }
}

/// A sheet's bytes give the answer's bytes, or one byte with the refusal number.
fn one_sheet(out: &mut impl Write) -> Result<(), String> {
    let mut bytes = Vec::new();
    io::stdin()
        .read_to_end(&mut bytes)
        .map_err(|error| error.to_string())?;
    let answer = sheet::answer(&bytes, usize::MAX).unwrap_or_else(|number| vec![number]);
    out.write_all(&answer).map_err(|error| error.to_string())
}

/// `HEX ROOM` gives `NUMBER HEX`: the lent bytes afterwards, filled with AA before.
fn sheets(line: &str) -> Result<Option<String>, String> {
    let words: Vec<&str> = line.split_whitespace().collect();
    let (bytes, room) = match words.as_slice() {
        [hex, room] => (from_hex(hex)?, script::number::<u32>(room)? as usize),
        _ => return Err("a line holds a sheet in hex and the number of answer bytes".to_string()),
    };
    let mut lent = vec![0xAA; room];
    let number = match sheet::answer(&bytes, room) {
        Ok(answer) => {
            lent[..answer.len()].copy_from_slice(&answer);
            0
        }
        Err(number) => number,
    };
    Ok(Some(format!("{number} {}", sheet::to_hex(&lent))))
}

/// A line of a call script; a separator starts anew.
fn call(session: &mut Session, line: &str) -> Result<Option<String>, String> {
    if line.trim() == "---" {
        *session = Session::new();
        return Ok(Some("---".to_string()));
    }
    if line.trim().is_empty() || line.trim_start().starts_with('#') {
        return Ok(None);
    }
    let answer = session.run(line)?;
    Ok(answer.map(|answer| session.show(line, answer)))
}

/// Gives each line of stdin to `answer` and prints what it gives.
fn each_line(
    out: &mut impl Write,
    mut answer: impl FnMut(&str) -> Result<Option<String>, String>,
) -> Result<(), String> {
    for (i, line) in io::stdin().lock().lines().enumerate() {
        let line = line.map_err(|error| error.to_string())?;
        match answer(&line) {
            // At once, so that what is shown can decide the next line.
            Ok(Some(text)) => {
                print(out, &text)?;
                out.flush().map_err(|error| error.to_string())?
            }
            Ok(None) => {}
            Err(message) => return Err(format!("line {}: {message}", i + 1)),
        }
    }
    Ok(())
}

fn print(out: &mut impl Write, line: &str) -> Result<(), String> {
    writeln!(out, "{line}").map_err(|error| error.to_string())
}

fn from_hex(hex: &str) -> Result<Vec<u8>, String> {
    if hex == "-" {
        return Ok(Vec::new());
    }
    if hex.len() % 2 != 0 || !hex.bytes().all(|digit| digit.is_ascii_hexdigit()) {
        return Err("a sheet is an even number of hex digits, or -".to_string());
    }
    (0..hex.len())
        .step_by(2)
        .map(|i| u8::from_str_radix(&hex[i..i + 2], 16).map_err(|error| error.to_string()))
        .collect()
}
