//! built FIXES: what host/depot/examples/sets.rs writes, held against the unmodified Rust. Each file is opened by it and looked up at so many fixes; what is expected comes from the yards alone: the
//! Rust's own verdict on each border, written plainly in version 0 in a file of nothing else, in the order of lower latitude and arrival, merged by document 01's rule.

#[allow(dead_code)] // of its functions this uses two
#[path = "../../../host/tests/common/encode.rs"]
mod encode;

use encode::{signed, varint};
use std::collections::HashMap;
use std::io::Read;
use zone_detect::{Database, Location, TableType, ZoneMatchKind};
use zone_detect_hooked::hooks;

struct Yard {
    points: Vec<(i32, i32)>,
    values: Vec<String>,
    /// Its border, in version 0 and alone.
    border: zone_detect_hooked::Database,
}

struct Set {
    kind: u8,
    version: u8,
    precision: u8,
    names: Vec<String>,
    notice: String,
    /// In the order of the table.
    yards: Vec<Yard>,
    file: Vec<u8>,
}

struct Reader<'a>(&'a [u8]);

impl Reader<'_> {
    fn bytes(&mut self, n: usize) -> Vec<u8> {
        let (front, rest) = self.0.split_at(n);
        self.0 = rest;
        front.to_vec()
    }

    fn byte(&mut self) -> u8 {
        self.bytes(1)[0]
    }

    fn word(&mut self) -> i32 {
        i32::from_le_bytes(self.bytes(4).try_into().unwrap())
    }

    fn text(&mut self) -> String {
        let n = self.byte() as usize;
        String::from_utf8(self.bytes(n)).unwrap()
    }

    fn set(&mut self) -> Set {
        let [kind, version, precision, count] = [(); 4].map(|()| self.byte());
        let names: Vec<String> = (0..count).map(|_| self.text()).collect();
        let notice = self.text();
        let yards = (0..self.word()).map(|_| self.yard(names.len())).collect::<Vec<_>>();
        let length = self.word() as usize;
        let mut set = Set { kind, version, precision, names, notice, yards, file: self.bytes(length) };
        // stable: those of one latitude as they came
        set.yards.sort_by_key(|yard| bounds(yard)[0]);
        set
    }

    fn yard(&mut self, names: usize) -> Yard {
        let points: Vec<(i32, i32)> = (0..self.word()).map(|_| (self.word(), self.word())).collect();
        let values = (0..names).map(|_| self.text()).collect();
        let border = hooks::raw(plain(&points), 0, 0, 0);
        Yard { points, values, border }
    }
}

/// Version 0: the number of points, the moves, odd only where they are negative, and two bytes.
fn plain(points: &[(i32, i32)]) -> Vec<u8> {
    let mut out = varint(points.len() as u64);
    let mut last = (0, 0);
    for &(lat, lon) in points {
        for step in [lat as i64 - last.0 as i64, lon as i64 - last.1 as i64] {
            out.extend(signed(step));
        }
        last = (lat, lon);
    }
    out.extend([2, 2]);
    out
}

fn bounds(yard: &Yard) -> [i32; 4] {
    let lats = || yard.points.iter().map(|point| point.0);
    let lons = || yard.points.iter().map(|point| point.1);
    [lats().min(), lons().min(), lats().max(), lons().max()].map(Option::unwrap)
}

/// A match: table entry, kind, fields.
type Match = (u32, u8, HashMap<String, String>);

fn kind(kind: ZoneMatchKind) -> u8 {
    match kind {
        ZoneMatchKind::InZone => 1,
        ZoneMatchKind::InExcludedZone => 2,
        ZoneMatchKind::OnBorderVertex => 3,
        ZoneMatchKind::OnBorderSegment => 4,
    }
}

/// What the yards alone say of a fix: matches, and the bits of the safezone.
fn expected(set: &Set, lat: f32, lon: f32) -> (Vec<Match>, u32) {
    let precision = u32::from(set.precision);
    let fix = (hooks::fixed(lat, 90.0, precision), hooks::fixed(lon, 180.0, precision));
    let mut least = -1i32 as u64;
    // first entry, values, inside less excluded, last border
    let mut groups: Vec<(u32, &Vec<String>, i64, u8)> = vec![];
    for (entry, yard) in set.yards.iter().enumerate() {
        let [south, west, north, east] = bounds(yard);
        if !(south..=north).contains(&fix.0) || !(west..=east).contains(&fix.1) {
            continue;
        }
        let (verdict, nearer) = hooks::verdict(&yard.border, 0, fix.0, fix.1, true, least);
        least = nearer;
        assert_ne!(verdict, 0, "a border that can't be read");
        if verdict == 1 {
            continue;
        }
        let at = groups.iter().position(|group| *group.1 == yard.values).unwrap_or_else(|| {
            groups.push((entry as u32, &yard.values, 0, 0));
            groups.len() - 1
        });
        match verdict {
            2 => groups[at].2 += 1,
            3 => groups[at].2 -= 1,
            border => groups[at].3 = border - 1,
        }
    }
    let fields = |values: &Vec<String>| set.names.iter().cloned().zip(values.iter().cloned()).collect();
    let matches = groups.iter().filter(|group| group.2 != 0 || group.3 != 0);
    let matches = matches.map(|group| (group.0, if group.3 == 0 { 1 } else { group.3 }, fields(group.1))).collect();
    let degrees = (least as f32).sqrt() * 90.0 / (1i32 << (precision - 1)) as f32;
    (matches, degrees.to_bits())
}

/// Whether the Rust opens the file as it was asked for.
fn opens(set: &Set, rust: &Database) -> bool {
    let table = match rust.table_type {
        TableType::Timezone => b'T',
        TableType::Country => b'C',
    };
    (table, rust.version, rust.precision) == (set.kind, set.version, set.precision) && rust.field_names == set.names && rust.notice == set.notice
}

/// At or about a point of a yard, or anywhere.
fn fix(set: &Set, random: &mut u64) -> (f32, f32) {
    let mut below = |n: usize| {
        *random = random.wrapping_mul(6_364_136_223_846_793_005).wrapping_add(1_442_695_040_888_963_407);
        (*random >> 33) as usize % n
    };
    if below(16) == 0 {
        return (below(181) as f32 - 90.0, below(361) as f32 - 180.0);
    }
    let step = (1u64 << (set.precision - 1)) as f64;
    let yard = &set.yards[below(set.yards.len())];
    let [a, b] = [(); 2].map(|()| yard.points[below(yard.points.len())]);
    let part = below(5) as f64 / 4.0;
    let near = |a: i32, b: i32, off: usize| a as f64 + (b as f64 - a as f64) * part + (off as f64 - 4.0) / 2.0;
    let (lat, lon) = (near(a.0, b.0, below(9)), near(a.1, b.1, below(9)));
    ((lat * 90.0 / step) as f32, (lon * 180.0 / step) as f32)
}

fn main() {
    let fixes: usize = std::env::args().nth(1).and_then(|word| word.parse().ok()).expect("usage: built FIXES");
    let mut bytes = vec![];
    std::io::stdin().read_to_end(&mut bytes).expect("sets");
    let (mut reader, mut random) = (Reader(&bytes), 1);
    let (mut sets, mut asked, mut met, mut wrong, mut refused) = (0, 0, 0, 0, 0);
    std::panic::set_hook(Box::new(|_| ()));
    while !reader.0.is_empty() {
        let set = reader.set();
        let rust = Database::from_vec(set.file.clone());
        let Some(rust) = rust.ok().filter(|rust| opens(&set, rust)) else {
            println!("WRONG set {sets}: not opened as it was asked for");
            wrong += 1;
            sets += 1;
            continue;
        };
        for _ in 0..fixes {
            let (lat, lon) = fix(&set, &mut random);
            let want = std::panic::catch_unwind(|| expected(&set, lat, lon));
            let got = std::panic::catch_unwind(|| rust.lookup(Location::new(lat, lon)));
            asked += 1;
            let same = match (want, got) {
                (Ok((want, safezone)), Ok(looked)) => {
                    met += usize::from(!want.is_empty());
                    let got: Vec<Match> = looked.matches.into_iter().map(|found| (found.zone.polygon_id, kind(found.kind), found.zone.fields)).collect();
                    got == want && looked.safezone.to_bits() == safezone
                }
                (Err(_), Err(_)) => {
                    refused += 1;
                    true
                }
                _ => false,
            };
            if !same {
                println!("WRONG set {sets} at {lat} {lon}");
                wrong += 1;
            }
        }
        sets += 1;
    }
    println!("{sets} sets, {asked} fixes, {met} in a yard, {refused} on which the Rust panics alike");
    println!("{sets} sets, {wrong} wrong");
    std::process::exit(i32::from(wrong > 0 || sets == 0));
}
