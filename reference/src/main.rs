//! Reference program: judges books and makes the case books.

mod cases;
mod encode;
mod format;
mod hex;
mod model;
mod random;
mod rules;

use std::io::{self, BufRead, BufWriter, Write};
use std::process::ExitCode;

fn main() -> ExitCode {
    let arguments: Vec<String> = std::env::args().skip(1).collect();
    let names: Vec<&str> = arguments.iter().map(String::as_str).collect();
    let result = match names[..] {
        ["judge"] => judge_lines(),
        ["cases"] => print_cases(),
        ["check"] => check_known(),
        _ => {
            eprintln!("usage: reference judge | cases | check");
            return ExitCode::from(2);
        }
    };
    match result {
        Ok(()) => ExitCode::SUCCESS,
        Err(error) => {
            eprintln!("reference: {error}");
            ExitCode::FAILURE
        }
    }
}

/// Judges the books on standard input, one per line in hexadecimal.
fn judge_lines() -> io::Result<()> {
    let mut out = BufWriter::new(io::stdout().lock());
    for line in io::stdin().lock().lines() {
        let bytes =
            hex::decode(&line?).ok_or_else(|| io::Error::other("a line is not hexadecimal"))?;
        writeln!(out, "{}", rules::judge(&bytes))?;
    }
    out.flush()
}

/// Prints the case books, one per line in hexadecimal.
fn print_cases() -> io::Result<()> {
    let mut out = BufWriter::new(io::stdout().lock());
    for bytes in cases::all() {
        writeln!(out, "{}", hex::encode(&bytes))?;
    }
    out.flush()
}

/// Compares the judge with the books whose judgement was worked out by hand.
fn check_known() -> io::Result<()> {
    let differences = cases::differences();
    if differences.is_empty() {
        return Ok(());
    }
    Err(io::Error::other(differences.join("\n")))
}
