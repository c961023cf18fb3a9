//! Speed side by side: this finder, tuned Rust and plain Rust answer the same sheets on the same image in one run.
//! docs/SPEED.md explains what is printed.

mod check;
mod evaluators;
mod make;
mod measure;
mod plain;
mod report;
mod sheet;
mod tuned;

use std::process::ExitCode;

const USAGE: &str = "\
usage: bench [WORD..]              the table of times, of the sheets whose names hold all these words
       bench --growth              cost against list length, number of terms, k and image size
       bench --callgrind [WORD..]  instructions, of the sheets whose names hold all these words
       bench --one-call EVALUATOR IMAGE NUMBER..
                                   one call of one evaluator: what callgrind is run on
       bench --check               compares all answers on a small image; times nothing";

fn main() -> ExitCode {
    let arguments: Vec<String> = std::env::args().skip(1).collect();
    let words: Vec<&str> = arguments.iter().map(String::as_str).collect();
    let done = match &words[..] {
        ["--growth"] => report::growth(),
        ["--callgrind", words @ ..] => report::instructions(words),
        ["--one-call", words @ ..] => report::one_call(words),
        ["--check"] => check::check(),
        words if !words.iter().any(|word| word.starts_with("--")) => report::times(words),
        _ => Err(USAGE.into()),
    };
    match done {
        Ok(said) => {
            println!("{said}");
            ExitCode::SUCCESS
        }
        Err(told) => {
            eprintln!("{told}");
            ExitCode::FAILURE
        }
    }
}
