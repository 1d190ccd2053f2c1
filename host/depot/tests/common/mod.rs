//! What the tests of depot share: running the program, and folders that go away.
#![allow(dead_code)] // each test uses some of it

use depot::build::file_of;
use depot::geojson;
use depot::grid::Point;
use depot::plan::{plan, Form, Plan};
use std::fs;
use std::io::Write;
use std::path::{Path, PathBuf};
use std::process::{Command, Stdio};
use uskelzar::Zones;

pub const WORLD: &str = concat!(env!("CARGO_MANIFEST_DIR"), "/../../examples/world-9.plb");
pub const YARDS: &str = concat!(env!("CARGO_MANIFEST_DIR"), "/../../examples/yards.geojson");
pub const DAY: &str = concat!(env!("CARGO_MANIFEST_DIR"), "/../../examples/day.csv");
pub const YARD_DAY: &str = concat!(env!("CARGO_MANIFEST_DIR"), "/../../examples/yard-day.csv");
pub const ZONEINFO: &str = "/usr/share/zoneinfo";

/// A folder that goes away with the test.
pub struct Folder(pub PathBuf);

impl Folder {
    pub fn new(name: &str) -> Folder {
        let path = std::env::temp_dir().join(format!("depot-{name}-{}", std::process::id()));
        fs::create_dir_all(&path).unwrap();
        Folder(path)
    }

    pub fn path(&self, name: &str) -> String {
        self.0.join(name).to_str().unwrap().to_string()
    }

    pub fn with(&self, name: &str, bytes: impl AsRef<[u8]>) -> String {
        fs::write(self.0.join(name), bytes).unwrap();
        self.path(name)
    }

    pub fn names(&self) -> Vec<String> {
        let mut names: Vec<String> = fs::read_dir(&self.0).unwrap().map(|entry| entry.unwrap().file_name().into_string().unwrap()).collect();
        names.sort();
        names
    }
}

impl Drop for Folder {
    fn drop(&mut self) {
        fs::remove_dir_all(&self.0).unwrap();
    }
}

/// What the program said.
#[derive(Debug, PartialEq)]
pub struct Ran {
    pub status: i32,
    pub out: String,
    pub err: String,
}

/// Runs the program, as cargo runs the tests.
pub fn depot(words: &[&str]) -> Ran {
    depot_of(words, &[])
}

/// The program with these words, not run yet.
pub fn call(words: &[&str]) -> Command {
    let runner = std::env::var("CARGO_TARGET_X86_64_UNKNOWN_LINUX_GNU_RUNNER").unwrap_or_default();
    let mut all = runner.split_whitespace().chain([env!("CARGO_BIN_EXE_depot")]).chain(words.iter().copied());
    let mut command = Command::new(all.next().unwrap());
    command.args(all);
    command
}

/// Runs it with this standard input.
pub fn depot_of(words: &[&str], input: &[u8]) -> Ran {
    let mut running = call(words).stdin(Stdio::piped()).stdout(Stdio::piped()).stderr(Stdio::piped()).spawn().unwrap();
    // it may end without reading
    let _ = running.stdin.take().unwrap().write_all(input);
    let ran = running.wait_with_output().unwrap();
    let text = |bytes| String::from_utf8(bytes).unwrap();
    Ran { status: ran.status.code().unwrap(), out: text(ran.stdout), err: text(ran.stderr) }
}

pub fn form(version: u8, precision: u8) -> Form {
    Form { table: 'T', version, precision, notice: "a notice".into(), leave_out: true }
}

pub fn plan_of(path: &str, form: Form) -> Plan {
    plan(geojson::read(Path::new(path)).unwrap(), form).unwrap()
}

pub fn bounds(points: &[Point]) -> [i32; 4] {
    let lats = || points.iter().map(|point| point.0);
    let lons = || points.iter().map(|point| point.1);
    [lats().min(), lons().min(), lats().max(), lons().max()].map(Option::unwrap)
}

pub fn built(plan: &Plan) -> Vec<u8> {
    file_of(plan).unwrap()
}

/// The same plan without its pieces.
pub fn unborrowed(mut plan: Plan) -> Plan {
    plan.yards.iter_mut().for_each(|yard| yard.pieces.clear());
    plan
}

/// What a lookup says, but for places in the file.
pub fn seen(zones: &Zones) -> String {
    let kinds: Vec<_> = zones.matches.iter().map(|zone| (zone.polygon, zone.kind, &zone.fields)).collect();
    format!("{kinds:?} {:?} {}", zones.end, zones.safezone)
}

/// Numbers from 0 to 1 that are the same each time.
pub struct Random(pub u64);

impl Random {
    pub fn next(&mut self) -> f64 {
        self.0 = self.0.wrapping_mul(6_364_136_223_846_793_005).wrapping_add(1_442_695_040_888_963_407);
        (self.0 >> 11) as f64 / (1u64 << 53) as f64
    }

    pub fn between(&mut self, low: f64, high: f64) -> f64 {
        low + (high - low) * self.next()
    }
}
