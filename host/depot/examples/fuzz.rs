//! fuzz TARGET SECONDS [SEED]: what depot reads, made at random and damaged. TARGET is geojson, csv, nmea, map or evidence.
//! The last line is "TARGET: N tried, M taken, 0 wrong". What is wrong is kept in fuzz-TARGET-N in the folder that it runs in; exit status 1.

use arbitrary::{Arbitrary, Unstructured};
use depot::build::file_of;
use depot::day::{day_of, log_of, Cells};
use depot::evidence::request_of;
use depot::geojson::collect;
use depot::plan::{plan, Form};
use serde_json::Value;
use std::fmt::Write;
use std::panic::{catch_unwind, AssertUnwindSafe};
use std::process::ExitCode;
use std::time::{Duration, Instant};
use uskelzar::{Builder, Index, Map, Number, Request, Table};

/// Numbers that are the same each time.
struct Random(u64);

impl Random {
    fn next(&mut self) -> u64 {
        self.0 = self.0.wrapping_add(0x9E37_79B9_7F4A_7C15);
        let mut x = self.0;
        x = (x ^ (x >> 30)).wrapping_mul(0xBF58_476D_1CE4_E5B9);
        x = (x ^ (x >> 27)).wrapping_mul(0x94D0_49BB_1331_11EB);
        x ^ (x >> 31)
    }

    fn bytes(&mut self, most: u64) -> Vec<u8> {
        let length = self.next() % most;
        (0..length).map(|_| self.next() as u8).collect()
    }
}

/// What is done to bytes before they are read.
#[derive(Arbitrary, Debug)]
enum Damage {
    None,
    Cut(u16),
    Set(Vec<(u16, u8)>),
    Put(u16, Vec<u8>),
    Twice(u16, u16),
}

impl Damage {
    fn done(&self, mut bytes: Vec<u8>) -> Vec<u8> {
        let at = |place: u16, bytes: &[u8]| usize::from(place) % (bytes.len() + 1);
        match self {
            Damage::None => (),
            Damage::Cut(place) => bytes.truncate(at(*place, &bytes)),
            Damage::Set(places) => places.iter().take(4).for_each(|(place, byte)| {
                let at = at(*place, &bytes);
                bytes.iter_mut().skip(at).take(1).for_each(|old| *old = *byte);
            }),
            Damage::Put(place, some) => {
                let at = at(*place, &bytes);
                bytes.splice(at..at, some.iter().copied());
            }
            Damage::Twice(from, to) => {
                let (from, to) = (at(*from, &bytes), at(*to, &bytes));
                let some = bytes[from.min(to)..from.max(to)].to_vec();
                bytes.extend(some);
            }
        }
        bytes
    }
}

#[derive(Arbitrary, Debug)]
enum Cell {
    Degrees(i8, u8),
    Comma(i8, u8),
    Seconds(i64),
    Date { month: u8, day: u8, hour: u8, offset: i8, fraction: bool },
    Text(String),
    Quoted(String),
    Empty,
}

impl Cell {
    fn text(&self) -> String {
        match self {
            Cell::Degrees(whole, part) => format!("{whole}.{part}"),
            Cell::Comma(whole, part) => format!("{whole},{part}"),
            Cell::Seconds(seconds) => seconds.to_string(),
            Cell::Date { month, day, hour, offset, fraction } => {
                let part = if *fraction { ".5" } else { "" };
                let offset = if *offset == 0 { "Z".into() } else { format!("{:+03}:00", offset % 24) };
                format!("2026-{:02}-{:02}T{:02}:59:59{part}{offset}", month % 13, day % 32, hour % 25)
            }
            Cell::Text(text) => text.clone(),
            Cell::Quoted(text) => format!("\"{}\"", text.replace('"', "\"\"")),
            Cell::Empty => String::new(),
        }
    }
}

#[derive(Arbitrary, Debug)]
struct Rows {
    separator: u8,
    ends: u8,
    marked: bool,
    named: bool,
    rows: Vec<(i8, i16, Cell, Vec<Cell>)>,
    damage: Damage,
}

impl Rows {
    fn bytes(&self) -> Vec<u8> {
        let separator = [",", ";", "\t"][usize::from(self.separator) % 3];
        let end = ["\n", "\r\n", "\n\n"][usize::from(self.ends) % 3];
        let mut text = if self.marked { "\u{feff}".to_string() } else { String::new() };
        if self.named {
            let _ = write!(text, "lat{separator}lon{separator}time{separator}a{separator}a{end}");
        }
        for (lat, lon, instant, more) in &self.rows {
            let cells: Vec<String> = [lat.to_string(), lon.to_string(), instant.text()].into_iter().chain(more.iter().take(2).map(Cell::text)).collect();
            text.push_str(&cells.join(separator));
            text.push_str(end);
        }
        self.damage.done(text.into_bytes())
    }
}

/// Every request, read again, is what its cells are.
fn csv(bytes: &[u8]) -> bool {
    let Ok(day) = day_of(bytes) else { return false };
    assert_eq!(day.requests.len(), day.lines.len());
    assert!(day.requests.windows(2).all(|two| two[0].number < two[1].number), "lines do not rise");
    for (line, asked) in day.requests.iter().zip(day.asked()) {
        assert!(line.text.is_empty() || bytes.windows(line.text.len()).any(|some| some == line.text), "no such line: {line:?}");
        assert_eq!(day.reading.asked(line), asked, "{line:?}");
    }
    true
}

#[derive(Arbitrary, Debug)]
struct Sentences {
    lines: Vec<(u8, u32, u32, u32, u8)>,
    ends: u8,
    damage: Damage,
}

impl Sentences {
    fn bytes(&self) -> Vec<u8> {
        let end = ["\n", "\r\n", "\r\r\n"][usize::from(self.ends) % 3];
        let mut text = String::new();
        for (kind, a, b, c, d) in self.lines.iter().take(20) {
            let (side, east) = (if d % 2 == 0 { 'N' } else { 'S' }, if d % 4 < 2 { 'E' } else { 'W' });
            let body = match kind % 4 {
                0 => format!("GPGGA,{a},{b}"),
                1 => format!("GNRMC,{:06},A,{:04}.{},{side},{:05}.{b},{east},,,{:06},,,A", a % 300_000, b % 10_000, c % 1000, c % 20_000, a % 320_000),
                2 => format!("GPRMC,{:06}.{d},V,,,,,,,{c:06},,,N", b % 300_000),
                _ => {
                    let _ = write!(text, "{}.{} -{}.{} {c}{end}", d, a % 1000, c % 200, b % 1000);
                    continue;
                }
            };
            let sum = body.bytes().fold(0, |sum, byte| sum ^ byte);
            let _ = write!(text, "${body}*{sum:02X}{end}");
        }
        self.damage.done(text.into_bytes())
    }
}

/// No line of a log is lost: each is a request or was passed over; what it means is in its cells, from which the same is read.
fn nmea(bytes: &[u8]) -> bool {
    let Ok(day) = log_of(bytes) else { return false };
    let lines: Vec<&[u8]> = bytes.strip_suffix(b"\n").unwrap_or(bytes).split(|byte| *byte == b'\n').collect();
    let mut left = day.requests.iter().zip(&day.lines);
    for (i, line) in lines.iter().enumerate() {
        let read = Request::read(line);
        if matches!(read, Err(why) if why.number == Number::OtherSentence) {
            continue;
        }
        let (request, cells) = left.next().expect("a line that is not passed over");
        assert_eq!((request.number, request.text.as_slice()), (i + 1, *line));
        let again = Cells { separator: b',', columns: [0, 1, 2] }.request(cells);
        assert_eq!(again.ok(), read.ok(), "{cells:?}");
    }
    assert!(left.next().is_none());
    true
}

/// A corner, steps from it, and more of them.
type Ring = ((i8, i16), [(i8, i8); 3], Vec<(i8, i8)>);

#[derive(Arbitrary, Debug)]
struct Drawn {
    outer: Ring,
    holes: Vec<Ring>,
    properties: Vec<(String, Option<String>)>,
    kind: u8,
}

#[derive(Arbitrary, Debug)]
struct Drawing {
    first: Drawn,
    features: Vec<Drawn>,
    closed: bool,
    precision: u8,
    damage: Damage,
}

impl Drawing {
    fn bytes(&self) -> Vec<u8> {
        let feature = |Drawn { outer, holes, properties, kind }: &Drawn| {
            let ring = |((lat, lon), three, more): &Ring| {
                let corner = (f64::from(*lat) * 0.7, f64::from(*lon) / 183.0);
                let points: Vec<(f64, f64)> = three.iter().chain(more.iter().take(9)).map(|(up, right)| (corner.0 + f64::from(*up) / 300.0, corner.1 + f64::from(*right) / 200.0)).collect();
                points.iter().chain(points.first().filter(|_| self.closed)).map(|(lat, lon)| serde_json::json!([lon, lat])).collect::<Value>()
            };
            let rings: Value = [outer].into_iter().chain(holes.iter().take(2)).map(ring).collect();
            let geometry = match kind % 3 {
                0 => serde_json::json!({"type": "Polygon", "coordinates": rings}),
                1 => serde_json::json!({"type": "MultiPolygon", "coordinates": [rings]}),
                _ => serde_json::json!({"type": "GeometryCollection", "geometries": [{"type": "Polygon", "coordinates": rings}]}),
            };
            let properties: serde_json::Map<String, Value> = properties.iter().map(|(name, value)| (name.clone(), serde_json::json!(value))).collect();
            serde_json::json!({"type": "Feature", "properties": properties, "geometry": geometry})
        };
        let features: Value = [&self.first].into_iter().chain(self.features.iter().take(5)).map(feature).collect();
        let all = serde_json::json!({"type": "FeatureCollection", "features": features});
        self.damage.done(all.to_string().into_bytes())
    }
}

/// What is built is read back strictly, border by border.
fn geojson(bytes: &[u8], precision: u8) -> bool {
    let Ok(value) = serde_json::from_slice::<Value>(bytes) else { return false };
    let Ok(collection) = collect(&value) else { return false };
    let form = Form { table: 'T', version: precision % 2, precision: 1 + precision % 31, notice: String::new(), leave_out: true };
    let Ok(plan) = plan(collection, form) else { return false };
    let Ok(file) = file_of(&plan) else { return false };
    let map = Map::open_strict(file).expect("a built file");
    let entries: Vec<_> = map.entries().expect("its sections").map(|entry| entry.expect("its entries")).collect();
    assert_eq!(entries.len(), plan.yards.len());
    let mut borders: Vec<_> = entries.iter().map(|entry| map.border(entry).expect("its borders")).collect();
    let mut drawn: Vec<_> = plan.yards.iter().map(|yard| yard.points.clone()).collect();
    borders.sort();
    drawn.sort();
    assert_eq!(borders, drawn);
    true
}

#[derive(Arbitrary, Debug)]
struct Damaged {
    which: u8,
    fixes: [(f32, f32); 4],
    damage: Damage,
}

/// What a damaged map answers is the same by every way; what is salvaged is read strictly.
fn map(bytes: &[u8], fixes: &[(f32, f32)]) -> bool {
    if let Ok(salvaged) = uskelzar::salvage(bytes) {
        let again = Map::open_strict(salvaged.file.clone()).expect("a salvaged file");
        let read = again.entries().expect("its sections").filter(Result::is_ok).count();
        assert_eq!(read, salvaged.kept);
    }
    let Ok(map) = Map::open(bytes) else { return false };
    let index = Index::build(&map).ok();
    for &(lat, lon) in fixes.iter().chain(&[(52.52, 13.40), (0.0035, 109.338)]) {
        let plain = map.lookup(lat, lon);
        let shown = |found: &Result<uskelzar::Zones, uskelzar::Error>| format!("{found:?}");
        if let Ok(strict) = map.lookup_strict(lat, lon) {
            assert_eq!(shown(&Ok(strict)), shown(&plain));
        }
        if let Some(index) = &index {
            assert_eq!(shown(&map.lookup_through(index, lat, lon)), shown(&plain));
        }
    }
    if let Ok(entries) = map.entries() {
        for entry in entries.flatten() {
            let _ = (map.border(&entry), map.fields(entry.metadata));
        }
    }
    true
}

/// A line of evidence with other numbers and texts: its request is read, or what is wrong is said.
fn evidence(bytes: &[u8]) -> bool {
    let Ok(value) = serde_json::from_slice::<Value>(bytes) else { return false };
    let Ok((line, reading)) = request_of(&value) else { return false };
    let _ = reading.asked(&line);
    true
}

fn kept() -> Vec<u8> {
    br#"{"evidence":2,"number":2,"request":"52.52,13.40,\"x\n\",2026-07-01T11:59:59Z","separator":",","columns":[0,1,3],"library":"0"}"#.to_vec()
}

fn files() -> Vec<Vec<u8>> {
    let yards = [(2, 2), (10, 2), (10, 10), (2, 10)];
    let small = |version| Builder::new(Table::TimeZones, 16, &["TimezoneIdPrefix", "TimezoneId"]).version(version).yard(&yards, &["Etc/", "UTC"]).yard(&yards, &["Europe/", "Berlin"]).build();
    let example = |name: &str| std::fs::read(format!("{}/../../examples/{name}", env!("CARGO_MANIFEST_DIR"))).expect("an example");
    let drawn = collect(&serde_json::from_slice(&example("yards.geojson")).expect("the example's yards")).expect("its polygons");
    let form = Form { table: 'T', version: 1, precision: 25, notice: String::new(), leave_out: true };
    let yards = file_of(&plan(drawn, form).expect("a plan")).expect("a file");
    vec![yards, small(0).expect("a file"), small(1).expect("a file"), example("world-9.plb")]
}

/// Bytes, and a call that says whether they were taken.
type Input = (Vec<u8>, Box<dyn FnOnce() -> bool>);

/// One input of a target.
fn one(target: &str, random: &[u8], files: &[Vec<u8>]) -> Option<Input> {
    let mut source = Unstructured::new(random);
    match target {
        "csv" => {
            let bytes = Rows::arbitrary(&mut source).ok()?.bytes();
            Some((bytes.clone(), Box::new(move || csv(&bytes))))
        }
        "nmea" => {
            let bytes = Sentences::arbitrary(&mut source).ok()?.bytes();
            Some((bytes.clone(), Box::new(move || nmea(&bytes))))
        }
        "geojson" => {
            let drawing = Drawing::arbitrary(&mut source).ok()?;
            let (bytes, precision) = (drawing.bytes(), drawing.precision);
            Some((bytes.clone(), Box::new(move || geojson(&bytes, precision))))
        }
        "map" => {
            let Damaged { which, fixes, damage } = Damaged::arbitrary(&mut source).ok()?;
            // the large one seldom: it takes as long as a thousand of the others
            let which = if which == 0 { files.len() - 1 } else { usize::from(which) % (files.len() - 1) };
            let bytes = damage.done(files[which].clone());
            Some((bytes.clone(), Box::new(move || map(&bytes, &fixes))))
        }
        "evidence" => {
            let bytes = Damage::arbitrary(&mut source).ok()?.done(kept());
            Some((bytes.clone(), Box::new(move || evidence(&bytes))))
        }
        _ => None,
    }
}

fn main() -> ExitCode {
    let words: Vec<String> = std::env::args().skip(1).collect();
    let (Some(target), Some(Ok(seconds))) = (words.first(), words.get(1).map(|word| word.parse())) else {
        eprintln!("usage: fuzz geojson|csv|nmea|map|evidence SECONDS [SEED]");
        return ExitCode::from(2);
    };
    let mut random = Random(words.get(2).and_then(|word| word.parse().ok()).unwrap_or(1));
    let (begun, files) = (Instant::now(), files());
    let (mut tried, mut taken, mut wrong) = (0u64, 0u64, 0u64);
    while begun.elapsed() < Duration::from_secs(seconds) {
        let bytes = random.bytes(2000);
        let Some((input, call)) = one(target, &bytes, &files) else { continue };
        tried += 1;
        match catch_unwind(AssertUnwindSafe(call)) {
            Ok(good) => taken += u64::from(good),
            Err(_) => {
                wrong += 1;
                let name = format!("fuzz-{target}-{tried}");
                println!("wrong: {name}, {} bytes", input.len());
                let _ = std::fs::write(name, input);
            }
        }
    }
    println!("{target}: {tried} tried, {taken} taken, {wrong} wrong");
    ExitCode::from(u8::from(wrong > 0 || tried == 0))
}
