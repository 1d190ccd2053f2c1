//! What both programs share: the words they are run with, the rounds, and the checksum.

#[path = "../../host/src/hit.rs"]
pub mod hit;
pub mod leaves;

use std::{env, fs};

/// What is asked of each city.
#[derive(Clone, Copy)]
pub enum Question {
    WithSafezone,
    WithoutSafezone,
    Simple,
    /// No city: the map's index or atlas is built, or held against the map.
    Build,
    Check,
}

/// By which call, where a program has several.
#[derive(Clone, Copy)]
pub enum Way {
    Plain,
    /// So many fixes a call, through an atlas or none.
    Together { size: usize, atlas: bool },
    /// Through an index, without a comparison and with one.
    Through,
    Indexed,
    /// Through an atlas.
    Atlas,
}

/// The words `MAP CITIES QUESTION ROUNDS`. A question may end in `:N`, so many fixes a call, in `:through`, in `:indexed`, in `:atlas` or in `:atlas:N`. In 0 rounds each
/// city is looked up once, with what a call reads of the map, and of the words beside it, watched.
pub struct Task {
    pub map: String,
    pub question: Question,
    pub way: Way,
    pub rounds: u32,
    cities: Vec<(f32, f32)>,
}

extern "C" {
    fn write(file: i32, bytes: *const u8, length: usize) -> isize;
    fn clock_gettime(clock: i32, time: *mut [i64; 2]) -> i32;
}

/// Makes a call and has `reads.so` count what it reads of a file, and of words beside it; without that plugin it is a plain call.
pub fn watched<T>(file: &[u8], beside: &[u32], call: impl FnOnce() -> T) -> T {
    // SAFETY: no file has these numbers, so that nothing is written.
    let tell = |number, start: *const u8, length| unsafe { write(number, start, length) };
    tell(1000, file.as_ptr(), file.len());
    tell(1002, beside.as_ptr().cast(), 4 * beside.len());
    let answer = call();
    tell(1001, file.as_ptr(), file.len());
    answer
}

/// The processor time of this program so far, in nanoseconds: what runs beside it is not in it.
pub fn time_spent() -> i64 {
    const CLOCK_PROCESS_CPUTIME_ID: i32 = 2;
    let mut time = [0; 2];
    // SAFETY: a `timespec` of 64-bit Linux: seconds and nanoseconds.
    unsafe { clock_gettime(CLOCK_PROCESS_CPUTIME_ID, &mut time) };
    1_000_000_000 * time[0] + time[1]
}

/// Where BENCH_TIME is set: the nanoseconds of a round, on standard error. What is counted is the same without it.
pub fn tell_time(from: i64, rounds: u32) {
    let spent = time_spent() - from;
    if rounds > 0 && env::var_os("BENCH_TIME").is_some() {
        eprintln!("{}", spent / i64::from(rounds));
    }
}

impl Task {
    pub fn from_args() -> Task {
        let words: Vec<String> = env::args().skip(1).collect();
        let [map, cities, question, rounds] = &words[..] else {
            panic!("words: MAP CITIES with|without|simple|build|check[:N|:through|:indexed|:atlas|:atlas:N] ROUNDS");
        };
        let (question, way) = match question.split_once(':') {
            Some((question, "through")) => (question, Way::Through),
            Some((question, "indexed")) => (question, Way::Indexed),
            Some((question, "atlas")) => (question, Way::Atlas),
            Some((question, fixes)) => {
                let through = fixes.strip_prefix("atlas:");
                let size = through.unwrap_or(fixes).parse().expect("fixes");
                (question, Way::Together { size, atlas: through.is_some() })
            }
            None => (&question[..], Way::Plain),
        };
        let question = match question {
            "with" => Question::WithSafezone,
            "without" => Question::WithoutSafezone,
            "simple" => Question::Simple,
            "build" => Question::Build,
            "check" => Question::Check,
            other => panic!("no such question: {other}"),
        };
        Task {
            map: map.clone(),
            question,
            way,
            rounds: rounds.parse().expect("rounds"),
            cities: read_cities(cities),
        }
    }

    /// Looks every city up in each round and prints the checksum. Only the first round has the answers folded into it: a count is
    /// taken of the others, so that no program's way of handing out its answer is in it.
    pub fn run(&self, file: &[u8], beside: &[u32], mut ask: impl FnMut(f32, f32, Option<&mut Checksum>)) {
        self.run_together(1, file, beside, |fixes, sum| ask(fixes[0].0, fixes[0].1, sum));
    }

    /// The same, so many cities a call.
    pub fn run_together(&self, size: usize, file: &[u8], beside: &[u32], mut ask: impl FnMut(&[(f32, f32)], Option<&mut Checksum>)) {
        if self.rounds == 0 {
            for fixes in self.cities.chunks(size) {
                watched(file, beside, || ask(fixes, None));
            }
            return;
        }
        let mut sum = Checksum::new();
        for fixes in self.cities.chunks(size) {
            ask(fixes, Some(&mut sum));
        }
        let from = time_spent();
        for _ in 1..self.rounds {
            for fixes in self.cities.chunks(size) {
                ask(fixes, None);
            }
        }
        tell_time(from, self.rounds - 1);
        println!("{:016x}", sum.0);
    }
}

/// Latitude and longitude at the beginning of each line.
fn read_cities(path: &str) -> Vec<(f32, f32)> {
    let text = fs::read_to_string(path).expect("cities");
    text.lines()
        .map(|line| {
            let mut words = line.split('\t').map(|word| word.parse().expect("degrees"));
            let mut degrees = || words.next().expect("two numbers");
            (degrees(), degrees())
        })
        .collect()
}

/// FNV-1a over all that an answer holds.
pub struct Checksum(u64);

impl Checksum {
    fn new() -> Checksum {
        Checksum(0xcbf2_9ce4_8422_2325)
    }

    /// The length goes first, so that no two answers run together.
    pub fn bytes(&mut self, bytes: &[u8]) {
        self.number(bytes.len() as u64);
        for &byte in bytes {
            self.byte(byte);
        }
    }

    pub fn number(&mut self, number: u64) {
        for byte in number.to_le_bytes() {
            self.byte(byte);
        }
    }

    fn byte(&mut self, byte: u8) {
        self.word(u64::from(byte));
    }

    /// A whole word at once, where folding byte by byte would be counted.
    fn word(&mut self, word: u64) {
        self.0 = (self.0 ^ word).wrapping_mul(0x0100_0000_01b3);
    }
}
