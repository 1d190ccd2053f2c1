//! The comparisons, each over as many cases as asked.
use crate::border_lines::{self, Border};
use crate::files::{self, Case};
use crate::leaves::{self, hex, Leaf};
use crate::ours::{replay, vectors, Program};
use crate::random::Random;
use crate::record::*;
use crate::rooms::{names_need, room, slots_need, text_need};
use crate::rust::{caught, Refusal};
use crate::shrink::{parts, smallest};
use crate::tally::Tally;
use crate::writer::written;
use crate::writings;

/// Records of a batch, in bytes.
const BATCH: usize = 8 << 20;

/// Disagreements that are made smaller and printed, of each op.
const SHOWN: usize = 10;

/// One more than the last op.
const OPS: usize = STRICT_LOOKUP as usize + 1;

pub struct Run {
    pub seed: u64,
    pub replay: Program,
    vectors: Program,
    /// Ops that this replay knows.
    known: [bool; OPS],
    pub tally: Tally,
    shown: [usize; OPS],
    pub wrong: u64,
    pub compared: u64,
}

/// One call, its reply, and the number of the case it came from.
struct Asked {
    call: Call,
    reply: Reply,
    case: u64,
}

fn op_name(op: u8, ask: bool) -> &'static str {
    match op {
        OPEN => "open",
        LOOKUP if ask => "lookup with safezone",
        LOOKUP => "lookup without safezone",
        STRICT_OPEN => "strict open",
        STRICT_LOOKUP if ask => "strict lookup with safezone",
        STRICT_LOOKUP => "strict lookup without safezone",
        SIMPLE => "simple lookup",
        WRITE => "write border",
        STRING => "string",
        _ => "UTF-8",
    }
}

fn outcome(op: u8, reply: &Reply) -> String {
    let why = &reply.refusal;
    match (op, reply.outcome) {
        (_, 1) if why.cause != 0 => format!("refused {:>2} cause {}", why.number, why.cause),
        (_, 1) => format!("refused {:>2}", why.number),
        (SIMPLE, 0) => "text".into(),
        (SIMPLE, _) => "none".into(),
        (STRING, 2) => "fails".into(),
        (UTF8, _) => if reply.words[0] == 1 { "good" } else { "bad" }.into(),
        _ => "answered".into(),
    }
}

/// Opening, lookups and simple lookup are answered from one run of the Rust on the file, plain and strict.
fn reply_to(call: &mut Call) -> Result<Reply, Refusal> {
    match call.op {
        STRING => Ok(leaves::reply_string(call)),
        UTF8 => Ok(leaves::reply_utf8(call)),
        _ => caught(|| reply(call, &readings(&call.file, call.lat, call.lon))),
    }
}

/// The seven calls on one file, within what replay has room for.
fn calls(r: &mut Random, case: &Case, read: &Readings) -> Vec<Call> {
    let Readings { plain, strict } = read;
    let description = plain.simple.as_ref().map_or(0, Vec::len);
    let lookup = |op, ask, looked| (op, ask, slots_need(looked), text_need(looked));
    let needs = [(OPEN, false, 0, names_need(plain)), lookup(LOOKUP, true, &plain.full), lookup(LOOKUP, false, &plain.plain),
        (SIMPLE, false, slots_need(&plain.plain), description), (STRICT_OPEN, false, 0, names_need(strict)),
        lookup(STRICT_LOOKUP, true, &strict.full), lookup(STRICT_LOOKUP, false, &strict.plain)];
    needs.map(|(op, ask, slots, text)| {
        let slots = if [OPEN, STRICT_OPEN].contains(&op) { 0 } else { room(r, slots).min(4096) };
        Call { op, lat: case.lat, lon: case.lon, ask, slots, room: room(r, text).min(16384), file: case.file.clone() }
    }).into()
}

fn smaller_calls(call: &Call) -> Vec<Call> {
    let mut out = Vec::new();
    for (from, to) in parts(call.file.len()) {
        let mut file = call.file.clone();
        file.drain(from..to);
        out.push(Call { file, ..call.clone() });
        if let Some(file) = files::replaced(&call.file, from, to, &[]) {
            if file.len() < call.file.len() {
                out.push(Call { file, ..call.clone() });
            }
        }
    }
    if call.ask {
        out.push(Call { ask: false, ..call.clone() });
    }
    for (slots, room) in [(0, call.room), (call.slots / 2, call.room), (call.slots, 0), (call.slots, call.room / 2)] {
        if (slots, room) != (call.slots, call.room) && ![WRITE, STRING, UTF8].contains(&call.op) {
            out.push(Call { slots, room, ..call.clone() });
        }
    }
    out
}

fn call_line(call: &Call) -> String {
    format!("lat {:08X} lon {:08X} slots {} room {} file {}", call.lat, call.lon, call.slots, call.room, hex(&call.file))
}

fn written_line(w: &Writing) -> String {
    let pieces: Vec<String> = w.pieces.iter().map(|p| format!("{}:{}:{}:{}:{}", p.start, p.bytes, p.direction, p.first, p.count)).collect();
    format!("version {} lats {:?} lons {:?} pieces {} earlier {} room {}", w.version, w.lats, w.lons, pieces.join(";"), hex(&w.earlier), w.room)
}

impl Run {
    pub fn new(seed: u64, replay: Program, vectors: Program) -> Result<Run, String> {
        let mut run = Run { seed, replay, vectors, known: [false; OPS], tally: Tally::default(), shown: [0; OPS], wrong: 0, compared: 0 };
        for op in [OPEN, LOOKUP, SIMPLE, WRITE, STRING, UTF8, STRICT_OPEN, STRICT_LOOKUP] {
            let call = Call { op, lat: 0, lon: 0, ask: false, slots: 0, room: 0, file: Vec::new() };
            let record = if op == WRITE {
                write_record(&Writing::default(), 0, &reply_written(0, written(&Writing::default())))
            } else {
                record(&call, 0, &reply_to(&mut call.clone()).unwrap())
            };
            run.known[op as usize] = crate::ours::replay(&run.replay, &[record])?.skipped == 0;
        }
        Ok(run)
    }

    fn count(&mut self, call: &Call, reply: &Reply) {
        let group = op_name(call.op, call.ask);
        self.tally.add(group, outcome(call.op, reply));
        if !reply.refusal.place.is_empty() {
            self.tally.add("panics of the Rust", reply.refusal.place.clone());
        }
        if matches!(call.op, LOOKUP | SIMPLE | STRICT_LOOKUP) && reply.outcome != 1 {
            self.tally.add(group, format!("end mark {}", reply.words[1]));
            self.tally.add(group, format!("matches {}", if reply.words[0] > 3 { "4 or more".into() } else { reply.words[0].to_string() }));
            for zone in reply.slots.chunks(ZONE_WORDS).take(reply.words[0] as usize) {
                self.tally.add(group, format!("kind {}", zone[2]));
            }
        }
    }

    fn first_wrong(&self, calls: &[Call]) -> Option<usize> {
        let mut which = Vec::new();
        let mut records = Vec::new();
        for (i, call) in calls.iter().enumerate() {
            let mut call = call.clone();
            if let Ok(reply) = reply_to(&mut call) {
                records.push(record(&call, records.len() as u32, &reply));
                which.push(i);
            }
        }
        let replayed = replay(&self.replay, &records).ok()?;
        replayed.wrong.iter().map(|w| which[w.0]).min()
    }

    fn show(&mut self, asked: &Asked, said: &str) {
        let op = asked.call.op as usize;
        self.wrong += 1;
        self.shown[op] += 1;
        if self.shown[op] > SHOWN {
            return;
        }
        println!("DISAGREES {} case {}: {said}", op_name(asked.call.op, asked.call.ask), asked.case);
        let mut least = smallest(asked.call.clone(), smaller_calls, |calls| self.first_wrong(calls));
        println!("  smallest: {}", call_line(&least));
        if let Ok(reply) = reply_to(&mut least) {
            println!("  expected: {} words {:?} {:?} slots {:?} text {}", outcome(least.op, &reply), reply.words, reply.refusal, reply.slots, hex(&reply.text));
            let records = [record(&least, 0, &reply)];
            println!("  ours: {}", replay(&self.replay, &records).map_or_else(|e| e, |r| r.wrong.into_iter().map(|w| w.1).collect()));
        }
    }

    fn flush(&mut self, batch: &mut Vec<Asked>) -> Result<(), String> {
        let records: Vec<Vec<u8>> = batch.iter().enumerate().map(|(i, a)| record(&a.call, i as u32, &a.reply)).collect();
        let replayed = replay(&self.replay, &records)?;
        if replayed.skipped != 0 {
            return Err(format!("replay skipped {} records that it should know", replayed.skipped));
        }
        self.compared += records.len() as u64;
        for (id, said) in replayed.wrong {
            self.show(&batch[id], &said);
        }
        batch.clear();
        Ok(())
    }

    fn push(&mut self, batch: &mut Vec<Asked>, size: &mut usize, asked: Asked) -> Result<(), String> {
        self.count(&asked.call, &asked.reply);
        *size += asked.call.file.len() + 4 * asked.call.slots + asked.call.room + 64;
        batch.push(asked);
        if *size > BATCH {
            *size = 0;
            self.flush(batch)?;
        }
        Ok(())
    }

    pub fn files(&mut self, many: u64) -> Result<(), String> {
        let (mut batch, mut size) = (Vec::new(), 0);
        for index in 0..many {
            if index % 100_000 == 0 && index > 0 {
                eprintln!("{index} files, {} wrong so far", self.wrong);
            }
            let case = files::case(self.seed, index);
            if case.file.len() > 65536 {
                self.tally.add("files", "too large for replay, not run");
                continue;
            }
            self.tally.add("files", case.made);
            let read = match caught(|| readings(&case.file, case.lat, case.lon)) {
                Ok(read) => read,
                Err(why) => {
                    self.wrong += 1;
                    println!("HARNESS case {index}: {} lat {:08X} lon {:08X} file {}", why.place, case.lat, case.lon, hex(&case.file));
                    continue;
                }
            };
            for call in calls(&mut Random::new(self.seed, 5, index), &case, &read) {
                if self.known[call.op as usize] {
                    let reply = reply(&call, &read);
                    self.push(&mut batch, &mut size, Asked { call, reply, case: index })?;
                } else {
                    self.tally.add("not run, replay does not know it", op_name(call.op, call.ask));
                }
            }
        }
        self.flush(&mut batch)
    }

    pub fn strings(&mut self, many: u64) -> Result<(), String> {
        let (mut batch, mut size) = (Vec::new(), 0);
        for index in 0..many {
            let r = &mut Random::new(self.seed, 6, index);
            for mut call in [leaves::string(r), leaves::utf8(r)] {
                let reply = reply_to(&mut call).unwrap();
                self.push(&mut batch, &mut size, Asked { call, reply, case: index })?;
            }
        }
        self.flush(&mut batch)
    }

    fn first_wrong_writing(&self, writings: &[Writing]) -> Option<usize> {
        let records: Vec<Vec<u8>> = writings.iter().enumerate()
            .map(|(i, w)| write_record(w, i as u32, &reply_written(w.room, written(w)))).collect();
        replay(&self.replay, &records).ok()?.wrong.iter().map(|w| w.0).min()
    }

    fn flush_writes(&mut self, batch: &mut Vec<(Writing, Reply)>) -> Result<(), String> {
        let records: Vec<Vec<u8>> = batch.iter().enumerate().map(|(i, (w, reply))| write_record(w, i as u32, reply)).collect();
        let replayed = replay(&self.replay, &records)?;
        if replayed.skipped != 0 {
            return Err(format!("replay skipped {} writings", replayed.skipped));
        }
        self.compared += records.len() as u64;
        self.wrong += replayed.wrong.len() as u64;
        for (id, said) in replayed.wrong {
            self.shown[WRITE as usize] += 1;
            if self.shown[WRITE as usize] <= SHOWN {
                let least = smallest(batch[id].0.clone(), writings::smaller, |writings| self.first_wrong_writing(writings));
                let reply = reply_written(least.room, written(&least));
                println!("DISAGREES write border: {said}\n  smallest: {}\n  expected: {:?} {}", written_line(&least), reply.refusal, hex(&reply.text));
            }
        }
        batch.clear();
        Ok(())
    }

    pub fn writes(&mut self, many: u64) -> Result<(), String> {
        let mut batch = Vec::new();
        for index in 0..many {
            let mut writing = writings::case(self.seed, index);
            writing.room = 65536;
            let need = written(&writing).map_or(0, |out| out.len());
            writing.room = room(&mut Random::new(self.seed, 7, index), need);
            let reply = reply_written(writing.room, written(&writing));
            if !self.known[WRITE as usize] {
                self.tally.add("not run, replay does not know it", op_name(WRITE, false));
                continue;
            }
            self.tally.add(op_name(WRITE, false), outcome(WRITE, &reply));
            if reply.outcome == 0 {
                let pieces = match writing.pieces.len() { 0 => "0", 1 => "1", 2..=7 => "2 to 7", 8..=15 => "8 to 15", _ => "16" };
                self.tally.add(op_name(WRITE, false), format!("version {}, pieces {pieces}", writing.version));
            }
            batch.push((writing, reply));
            if batch.len() == 20_000 {
                self.flush_writes(&mut batch)?;
            }
        }
        self.flush_writes(&mut batch)
    }

    fn first_wrong_border(&self, borders: &[Border]) -> Option<usize> {
        let told: Vec<(usize, String)> = borders.iter().enumerate().filter_map(|(i, b)| Some((i, border_lines::told(b)?.line))).collect();
        let lines: Vec<String> = told.iter().map(|t| t.1.clone()).collect();
        vectors(&self.vectors, "border", &lines).ok()?.first().map(|&k| told[k].0)
    }

    fn flush_borders(&mut self, batch: &mut Vec<(Border, String)>) -> Result<(), String> {
        let lines: Vec<String> = batch.iter().map(|b| b.1.clone()).collect();
        let wrong = vectors(&self.vectors, "border", &lines)?;
        self.compared += lines.len() as u64;
        self.wrong += wrong.len() as u64;
        for id in wrong {
            self.shown[0] += 1;
            if self.shown[0] <= SHOWN {
                println!("DISAGREES {}", lines[id]);
                let least = smallest(batch[id].0.clone(), border_lines::smaller, |borders| self.first_wrong_border(borders));
                println!("  smallest: {}", border_lines::told(&least).map_or(String::new(), |t| t.line));
            }
        }
        batch.clear();
        Ok(())
    }

    /// Whether this vectors compares borders.
    fn knows_borders(&self) -> Result<bool, String> {
        Ok(self.vectors.run(b"")?.lines().any(|l| l.starts_with("border ")))
    }

    pub fn borders(&mut self, many: u64) -> Result<(), String> {
        if !self.knows_borders()? {
            self.tally.add("not run, vectors does not know it", "border");
            return Ok(());
        }
        let mut batch = Vec::new();
        for index in 0..many {
            let border = border_lines::case(self.seed, index);
            let told = border_lines::told(&border).unwrap();
            self.tally.add("border", format!("version {} {}", border.version, told.end));
            self.tally.add("border", format!("{}{}", told.verdict.rsplit_once(' ').unwrap().0, if border.ask { ", distance asked" } else { "" }));
            self.tally.add("border", format!("points {}", match told.points { 0 => "0", 1 => "1", 2..=9 => "2 to 9", 10..=49 => "10 to 49", _ => "50 or more" }));
            for place in told.panics {
                self.tally.add("panics of the Rust", place);
            }
            batch.push((border, told.line));
            if batch.len() == 20_000 {
                self.flush_borders(&mut batch)?;
            }
        }
        self.flush_borders(&mut batch)
    }

    fn first_wrong_leaf(&self, kind: &str, leaves: &[Leaf]) -> Option<usize> {
        let lines: Vec<String> = leaves.iter().map(|l| leaves::told(l).0).collect();
        vectors(&self.vectors, kind, &lines).ok()?.first().copied()
    }

    fn leaf_batch(&mut self, kind: &'static str, batch: &[Leaf]) -> Result<(), String> {
        let mut lines = Vec::new();
        for leaf in batch {
            let (line, sort) = leaves::told(leaf);
            self.tally.add(kind, sort);
            lines.push(line);
        }
        let wrong = vectors(&self.vectors, kind, &lines)?;
        self.compared += lines.len() as u64;
        self.wrong += wrong.len() as u64;
        for id in wrong.iter().take(SHOWN) {
            let least = smallest(batch[*id].clone(), leaves::smaller, |leaves| self.first_wrong_leaf(kind, leaves));
            println!("DISAGREES {}\n  smallest: {}", lines[*id], leaves::told(&least).0);
        }
        Ok(())
    }

    pub fn leaves(&mut self, many: u64) -> Result<(), String> {
        for (k, kind) in leaves::KINDS.iter().enumerate() {
            for from in (0..many).step_by(50_000) {
                let cases = from..many.min(from + 50_000);
                let batch: Vec<Leaf> = cases.map(|index| leaves::case(kind, &mut Random::new(self.seed, 100 + k as u64, index))).collect();
                self.leaf_batch(kind, &batch)?;
            }
        }
        Ok(())
    }

    /// Whether nothing disagreed.
    pub fn report(&self) -> bool {
        self.tally.print();
        println!("\ncompare: seed {}, {} compared, {} wrong", self.seed, self.compared, self.wrong);
        self.wrong == 0
    }
}
