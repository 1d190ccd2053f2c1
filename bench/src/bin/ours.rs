//! The library's archive, with buffers as firmware lends them.

use bench::hit::HIT_WORDS;
use bench::{Checksum, Question, Task, Way};
use std::fs;

const WORDS: usize = 16 * HIT_WORDS;
const BYTES: usize = 1024;

/// The crate's own declarations.
#[allow(dead_code)]
#[path = "../../../host/src/library.rs"]
mod library;

#[link(name = "uskelzar", kind = "static")]
#[link(name = "uskelzar-office", kind = "static")]
extern "C" {}

/// What builds words beside a file, and what says that they go with it.
#[derive(Clone, Copy)]
struct Beside {
    build: fn(&[u8], &mut [u32], &mut [u64; 5]) -> u8,
    goes: fn(&[u8], &[u32], &mut [u64; 5]) -> u8,
}

const INDEX: Beside = Beside { build: library::uskelzar_build_index, goes: library::uskelzar_index_tied };
const ATLAS: Beside = Beside { build: library::uskelzar_build_atlas, goes: library::uskelzar_is_atlas };

impl Beside {
    /// Builds them and answers how many are used.
    fn build(self, file: &[u8], words: &mut [u32]) -> usize {
        let mut reply = [0; 5];
        assert_eq!((self.build)(file, words, &mut reply), 0, "not built");
        reply[0] as usize
    }

    /// No more words than it takes.
    fn of(self, file: &[u8]) -> Vec<u32> {
        let mut words = vec![0; 1 << 24];
        let used = self.build(file, &mut words);
        words.truncate(used);
        words
    }

    fn check(self, file: &[u8], words: &[u32]) {
        assert_eq!((self.goes)(file, words, &mut [0; 5]), 0, "the words do not go with their file");
    }
}

/// Builds the index or the atlas so many times, or holds it against its file, and prints how many words it takes.
fn run_beside(task: &Task, file: &[u8]) {
    let beside = if matches!(task.way, Way::Atlas) { ATLAS } else { INDEX };
    let mut words = beside.of(file);
    for _ in 0..task.rounds {
        match task.question {
            Question::Check => beside.check(file, &words),
            _ => assert_eq!(beside.build(file, &mut words), words.len()),
        }
    }
    println!("{}", words.len());
}

struct Ours<'a> {
    file: &'a [u8],
    index: &'a [u32],
    question: Question,
    way: Way,
    hits: [u32; WORDS],
    text: [u8; BYTES],
    reply: [u64; 5],
}

impl Ours<'_> {
    fn ask(&mut self, lat: f32, lon: f32) {
        let Ours { file, index, hits, text, reply, .. } = self;
        let refusal = match self.question {
            Question::Simple => library::uskelzar_simple_lookup(file, lat, lon, hits, text, reply),
            question => {
                let asked = matches!(question, Question::WithSafezone);
                match self.way {
                    Way::Through => library::uskelzar_lookup_through(file, index, lat, lon, asked, hits, text, reply),
                    Way::Atlas => library::uskelzar_lookup_atlas(file, index, lat, lon, asked, hits, text, reply),
                    Way::Indexed => library::uskelzar_lookup_indexed(file, index, lat, lon, asked, hits, text, reply),
                    _ => library::uskelzar_lookup(file, lat, lon, asked, hits, text, reply),
                }
            }
        };
        assert_eq!(refusal, 0, "refused at {lat} {lon}");
    }

    fn fold(&self, sum: &mut Checksum) {
        match self.question {
            Question::Simple => self.fold_description(sum),
            Question::WithSafezone => {
                self.fold_matches(sum);
                sum.number(self.reply[2]);
            }
            _ => self.fold_matches(sum),
        }
    }

    fn fold_description(&self, sum: &mut Checksum) {
        sum.number(self.reply[2]);
        sum.bytes(&self.text[..self.reply[3] as usize]);
    }

    fn fold_matches(&self, sum: &mut Checksum) {
        let hits = &self.hits[..HIT_WORDS * self.reply[0] as usize];
        fold_zones(sum, hits, &mut &self.text[..self.reply[3] as usize], self.file[6]);
    }
}

/// The matches of one fix, and so many fields of each, which are taken off the front of the text.
fn fold_zones(sum: &mut Checksum, hits: &[u32], text: &mut &[u8], fields: u8) {
    let matches = hits.len() / HIT_WORDS;
    sum.number(matches as u64);
    for hit in hits.chunks_exact(HIT_WORDS) {
        // the Rust has no place
        for &word in &hit[..HIT_WORDS - 1] {
            sum.number(u64::from(word));
        }
    }
    for _ in 0..matches * usize::from(fields) {
        // a field: tag, length in two bytes, bytes
        let (head, rest) = text.split_at(3);
        let (field, after) = rest.split_at(usize::from(u16::from_be_bytes([head[1], head[2]])));
        sum.number(u64::from(head[0]));
        sum.bytes(field);
        *text = after;
    }
}

/// So many fixes a call, with as much room for each as a single lookup has; through an atlas where there are words.
struct Together<'a> {
    file: &'a [u8],
    atlas: &'a [u32],
    asked: bool,
    hits: Vec<u32>,
    text: Vec<u8>,
    answers: Vec<u32>,
}

impl Together<'_> {
    fn ask(&mut self, lats: &[f32], lons: &[f32]) {
        let Together { file, atlas, asked, hits, text, answers } = self;
        let mut reply = [0; 5];
        let refusal = match atlas {
            [] => library::uskelzar_lookup_many(file, lats, lons, *asked, hits, text, answers, &mut reply),
            words => library::uskelzar_many_atlas(file, words, lats, lons, *asked, hits, text, answers, &mut reply),
        };
        assert_eq!(refusal, 0, "refused at fix {}", reply[2]);
    }

    fn fold(&self, fixes: usize, sum: &mut Checksum) {
        let (mut hits, mut text) = (&self.hits[..], &self.text[..]);
        for answer in self.answers.chunks_exact(3).take(fixes) {
            let (front, rest) = hits.split_at(HIT_WORDS * answer[0] as usize);
            fold_zones(sum, front, &mut text, self.file[6]);
            hits = rest;
            if self.asked {
                sum.number(u64::from(answer[2]));
            }
        }
    }
}

fn run_together(task: &Task, file: &[u8], atlas: &[u32], size: usize) {
    let mut together = Together {
        file,
        atlas,
        asked: matches!(task.question, Question::WithSafezone),
        hits: vec![0; WORDS * size],
        text: vec![0; BYTES * size],
        answers: vec![0; 3 * size],
    };
    let (mut lats, mut lons) = (vec![0.0; size], vec![0.0; size]);
    task.run_together(size, file, atlas, |fixes, sum| {
        for (i, fix) in fixes.iter().enumerate() {
            (lats[i], lons[i]) = *fix;
        }
        together.ask(&lats[..fixes.len()], &lons[..fixes.len()]);
        if let Some(sum) = sum {
            together.fold(fixes.len(), sum);
        }
    });
}

fn main() {
    let task = Task::from_args();
    let file = fs::read(&task.map).expect("map");
    let index = match (task.question, task.way) {
        (Question::Build | Question::Check, _) => return run_beside(&task, &file),
        (_, Way::Plain | Way::Together { atlas: false, .. }) => vec![],
        (_, Way::Through | Way::Indexed) => INDEX.of(&file),
        (_, Way::Atlas | Way::Together { atlas: true, .. }) => ATLAS.of(&file),
    };
    if let Way::Together { size, .. } = task.way {
        return run_together(&task, &file, &index, size);
    }
    let mut ours = Ours {
        file: &file,
        index: &index,
        question: task.question,
        way: task.way,
        hits: [0; WORDS],
        text: [0; BYTES],
        reply: [0; 5],
    };
    task.run(&file, &index, |lat, lon, sum| {
        ours.ask(lat, lon);
        if let Some(sum) = sum {
            ours.fold(sum);
        }
    });
}
