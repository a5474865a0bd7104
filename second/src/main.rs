//! A reader for DVI files and PK fonts that answers lines from standard input.

#![forbid(unsafe_code)]

mod check;
mod commands;
mod cutting;
mod fonts;
mod lines;
mod numbers;
mod packed;
mod placing;
mod refusal;
mod units;
mod widening;
mod widths;

#[cfg(test)]
mod chance;
#[cfg(test)]
mod cutting_examples;
#[cfg(test)]
mod examples;
#[cfg(test)]
mod named_examples;
#[cfg(test)]
mod packed_examples;

use std::io::{self, BufRead, Write};

fn main() -> io::Result<()> {
    let arguments: Vec<_> = std::env::args_os().skip(1).collect();
    let limits = match &arguments[..] {
        [] => lines::DESK,
        [only] if only == "--long" => lines::LONG,
        _ => {
            eprintln!("use: second [--long]");
            std::process::exit(2);
        }
    };
    let mut output = io::stdout().lock();
    for line in io::stdin().lock().split(b'\n') {
        let mut answer = lines::answer(&line?, limits);
        answer.push('\n');
        output.write_all(answer.as_bytes())?;
        output.flush()?;
    }
    Ok(())
}
