//! Opens an index image, asks one query and prints its rows.
//!
//! `cargo run --release --example ask -- index.bin pruned 10 100000 4:3 17:1`
//! asks for the best 10 clips by term 4 with weight 3 and term 17 with weight 1, scoring at most 100000 postings.

use clipfinder::{Answer, Mode, Query, Sheet, ask};
use std::error::Error;
use std::process::ExitCode;

fn main() -> ExitCode {
    let arguments: Vec<String> = std::env::args().skip(1).collect();
    match run(&arguments) {
        Ok(answers) => {
            answers.iter().for_each(print);
            ExitCode::SUCCESS
        }
        Err(error) => {
            eprintln!("{error}");
            ExitCode::FAILURE
        }
    }
}

fn run(arguments: &[String]) -> Result<Vec<Answer>, Box<dyn Error>> {
    let [image, mode, k, budget, mentions @ ..] = arguments else {
        return Err("usage: ask IMAGE plain|pruned|all K BUDGET TERM:WEIGHT ...".into());
    };
    let image = std::fs::read(image)?;
    let mode = match mode.as_str() {
        "plain" => Mode::Plain,
        "pruned" => Mode::Pruned,
        "all" => Mode::All,
        _ => return Err("the mode is plain, pruned or all".into()),
    };
    let mut query = Query::new(mode, k.parse()?, budget.parse()?);
    for mention in mentions {
        let (term, weight) = mention.split_once(':').ok_or("a mention is TERM:WEIGHT")?;
        query = query.mention(term.parse()?, weight.parse()?);
    }
    let mut sheet = Sheet::new();
    sheet.push(&query);
    Ok(ask(&image, &sheet)?)
}

fn print(answer: &Answer) {
    let end = if answer.finished { "finished" } else { "stopped by the budget" };
    println!("{end} at place {}, {} postings scored", answer.place, answer.postings_scored);
    for row in &answer.rows {
        println!("clip {} with score {}", row.document, row.score);
    }
}
