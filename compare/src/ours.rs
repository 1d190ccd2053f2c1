//! The library's programs, run on what they read from standard input.
use std::io::{Read, Write};
use std::process::{Command, Stdio};

pub struct Program {
    /// The command and its arguments.
    pub command: Vec<String>,
}

impl Program {
    /// All that it prints; a program that does not end well is an error.
    pub fn run(&self, input: &[u8]) -> Result<String, String> {
        let mut child = Command::new(&self.command[0]).args(&self.command[1..])
            .stdin(Stdio::piped()).stdout(Stdio::piped()).spawn().map_err(|e| format!("{:?}: {e}", self.command))?;
        let (mut to, mut from) = (child.stdin.take().unwrap(), child.stdout.take().unwrap());
        let mut said = Vec::new();
        std::thread::scope(|scope| {
            scope.spawn(move || to.write_all(input).ok());
            from.read_to_end(&mut said).ok();
        });
        let status = child.wait().map_err(|e| e.to_string())?;
        if !status.success() {
            return Err(format!("{:?}: {status}", self.command));
        }
        Ok(String::from_utf8_lossy(&said).into_owned())
    }
}

/// What replay said of a batch of records: which ids were wrong, with its lines, and how many it skipped.
pub struct Replayed {
    pub wrong: Vec<(usize, String)>,
    pub skipped: usize,
}

fn number_after(line: &str, word: &str) -> Option<usize> {
    let mut words = line.split(' ');
    words.find(|w| *w == word)?;
    words.next()?.parse().ok()
}

pub fn replay(program: &Program, records: &[Vec<u8>]) -> Result<Replayed, String> {
    let said = program.run(&records.concat())?;
    let mut replayed = Replayed { wrong: Vec::new(), skipped: 0 };
    let mut count = None;
    for line in said.lines() {
        if line.starts_with("wrong ") {
            replayed.wrong.push((number_after(line, "id").unwrap(), line.to_string()));
        }
        if let Some(rest) = line.strip_prefix("replay: ") {
            count = rest.split(' ').next().unwrap().parse().ok();
            replayed.skipped = rest.rsplit(' ').nth(1).unwrap().parse().unwrap();
        }
    }
    if count != Some(records.len()) {
        return Err(format!("replay read {count:?} of {} records", records.len()));
    }
    Ok(replayed)
}

/// As much as vectors reads in one run.
const MOST: usize = 131_072;

/// The lines, of one kind all, that come out wrong.
pub fn vectors(program: &Program, kind: &str, lines: &[String]) -> Result<Vec<usize>, String> {
    let (mut wrong, mut at) = (Vec::new(), 0);
    while at < lines.len() {
        let (mut input, mut end) = (String::new(), at);
        while end < lines.len() && input.len() + lines[end].len() < MOST {
            input.push_str(&lines[end]);
            input.push('\n');
            end += 1;
        }
        let said = program.run(input.as_bytes())?;
        let told = said.lines().find_map(|l| l.strip_prefix(kind)?.strip_prefix(' ')?.strip_suffix(" wrong")).unwrap_or("");
        let compared: Option<usize> = told.split(' ').next().and_then(|n| n.parse().ok());
        if compared != Some(end - at) {
            return Err(format!("vectors compared {compared:?} of {} lines of kind {kind}", end - at));
        }
        if !told.ends_with(", 0") {
            let bad: std::collections::HashSet<&str> = said.lines().filter_map(|l| l.strip_prefix("wrong: ")).collect();
            wrong.extend((at..end).filter(|&i| bad.contains(lines[i].as_str())));
        }
        at = end;
    }
    Ok(wrong)
}
