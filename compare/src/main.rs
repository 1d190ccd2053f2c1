//! Holds the library against the Rust, on cases made from a seed. `compare/run` builds it and runs it.
mod border_lines;
mod borders;
mod encode;
mod files;
#[path = "../../host/src/hit.rs"]
mod hit;
mod leaves;
mod many;
mod ours;
mod phases;
mod random;
mod record;
mod recorded;
mod rooms;
mod rust;
mod shrink;
mod tally;
mod writer;
mod writings;

use ours::Program;
use phases::Run;

struct Options {
    seed: u64,
    files: u64,
    borders: u64,
    leaves: u64,
    writes: u64,
    many: u64,
    replay: Vec<String>,
    vectors: Vec<String>,
    recorded: Vec<String>,
}

fn options() -> Result<Options, String> {
    let mut o = Options {
        seed: 1, files: 20_000, borders: 10_000, leaves: 10_000, writes: 10_000, many: 10_000, replay: Vec::new(), vectors: Vec::new(), recorded: Vec::new(),
    };
    let mut words = std::env::args().skip(1);
    while let Some(word) = words.next() {
        let value = words.next().ok_or_else(|| format!("{word}: a value is missing"))?;
        let number = || value.replace('_', "").parse::<u64>().map_err(|_| format!("{word} {value}: no number"));
        let command = || value.split(' ').map(String::from).collect();
        match word.as_str() {
            "--seed" => o.seed = number()?,
            "--files" => o.files = number()?,
            "--borders" => o.borders = number()?,
            "--leaves" => o.leaves = number()?,
            "--writes" => o.writes = number()?,
            "--many" => o.many = number()?,
            "--replay" => o.replay = command(),
            "--vectors" => o.vectors = command(),
            "--recorded" => o.recorded.push(value),
            _ => return Err(format!("{word}: not known")),
        }
    }
    Ok(o)
}

fn run(o: Options) -> Result<bool, String> {
    let mut run = Run::new(o.seed, Program { command: o.replay }, Program { command: o.vectors })?;
    println!("seed {}: {} files, {} borders, {} writings, {} calls of many fixes, {} leaves of each kind", o.seed, o.files, o.borders, o.writes, o.many, o.leaves);
    // the harness itself, against recorded cases
    for path in &o.recorded {
        let (count, wrong) = recorded::compare(&std::fs::read(path).map_err(|e| format!("{path}: {e}"))?);
        if count == 0 {
            continue; // of ops that the Rust has no words for
        }
        println!("{path}: {count} recorded cases, {} expected otherwise {wrong:?}", wrong.len());
        run.wrong += wrong.len() as u64;
    }
    run.files(o.files)?;
    run.writes(o.writes)?;
    run.many(o.many)?;
    run.strings(o.leaves)?;
    run.borders(o.borders)?;
    run.leaves(o.leaves)?;
    Ok(run.report())
}

fn main() {
    rust::listen();
    match options().and_then(run) {
        Ok(true) => {}
        Ok(false) => std::process::exit(1),
        Err(why) => {
            eprintln!("compare: {why}");
            std::process::exit(2);
        }
    }
}
