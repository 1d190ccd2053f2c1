//! Polygons that become yards: the answers are those of the polygons, in version 0, in version 1 and with pieces.

mod common;

use common::{bounds, built, form, plan_of, seen, unborrowed, Folder, Random, WORLD, YARDS};
use depot::geojson::{self, Collection};
use depot::grid::{side, Point};
use depot::plan::{plan, Plan};
use depot::show;
use std::fs;
use std::path::Path;
use uskelzar::{End, Kind, Map, Match, Zones};

/// As the library cuts a fix to the grid.
fn on_grid(lat: f32, lon: f32, precision: u8) -> Point {
    let steps = (1u32 << (precision - 1)) as f32;
    ((lat / 90.0 * steps) as i32, (lon / 180.0 * steps) as i32)
}

/// The records that hold a point by the even-odd rule over their rings; none where it is on a ring.
fn held(plan: &Plan, point: Point) -> Option<Vec<&Vec<String>>> {
    let mut odd = vec![false; plan.records.len()];
    for yard in &plan.yards {
        let [south, west, north, east] = bounds(&yard.points);
        if (south..=north).contains(&point.0) && (west..=east).contains(&point.1) {
            odd[yard.record] ^= side(point, &yard.points)?;
        }
    }
    let mut records: Vec<&Vec<String>> = odd.iter().zip(&plan.records).filter(|(odd, _)| **odd).map(|(_, record)| record).collect();
    records.sort();
    records.dedup();
    Some(records)
}

/// A part of the map: south, west, north, east.
type Part = (f64, f64, f64, f64);

/// The same polygons three ways: one answer at each fix, that of the even-odd rule. Gives how many fixes a yard holds, and the three sizes.
fn compare(name: &str, polygons: &Collection, precision: u8, fixes: usize, (south, west, north, east): Part) -> (usize, [usize; 3]) {
    let drawn = |version| plan(polygons.clone(), form(version, precision)).unwrap();
    let borrowing = drawn(1);
    let files = [built(&drawn(0)), built(&unborrowed(drawn(1))), built(&borrowing)];
    let sizes = [0, 1, 2].map(|i| files[i].len());
    let mut kept = Kept::new(name, &files);
    let maps = files.map(|file| Map::open_strict(file).unwrap());
    let (mut random, mut met) = (Random(7), 0);
    for _ in 0..fixes {
        let (lat, lon) = (random.between(south, north) as f32, random.between(west, east) as f32);
        let zones = [0, 1, 2].map(|i| maps[i].lookup(lat, lon).unwrap());
        let answers = [0, 1, 2].map(|i| seen(&zones[i]));
        assert!(answers[0] == answers[1] && answers[1] == answers[2], "{lat} {lon}: {answers:?}");
        met += usize::from(agrees(&borrowing, &zones[2], (lat, lon)));
        kept.line(lat, lon, &zones[2]);
    }
    kept.write();
    (met, sizes)
}

/// The files and the answers, for compare/yards, in the folder that DEPOT_KEEP names; without it nothing is kept.
struct Kept {
    path: Option<String>,
    lines: String,
}

impl Kept {
    fn new(name: &str, files: &[Vec<u8>; 3]) -> Kept {
        let path = std::env::var("DEPOT_KEEP").ok().map(|folder| format!("{folder}/{name}"));
        if let Some(path) = &path {
            for (way, file) in ["version-0", "version-1", "pieces"].iter().zip(files) {
                fs::write(format!("{path}.{way}.plb"), file).unwrap();
            }
        }
        Kept { path, lines: String::new() }
    }

    /// Bits of latitude, longitude and safezone, then each match: entry, zone, kind and values.
    fn line(&mut self, lat: f32, lon: f32, zones: &Zones) {
        let [lat, lon, safezone] = [lat, lon, zones.safezone].map(f32::to_bits);
        let values = |zone: &Match| zone.fields.iter().map(|field| field.value.clone()).collect::<Vec<_>>();
        let one = |zone: &Match| format!("{} {} {:?} {:?}", zone.polygon, zone.metadata, zone.kind, values(zone));
        let all: Vec<String> = zones.matches.iter().map(one).collect();
        self.lines += &format!("{lat} {lon} {safezone} {}\n", all.join("|"));
    }

    fn write(self) {
        if let Some(path) = self.path {
            fs::write(format!("{path}.txt"), self.lines).unwrap();
        }
    }
}

/// Holds an answer against the even-odd rule, points on a border aside; gives whether a yard holds the fix.
fn agrees(plan: &Plan, zones: &Zones, (lat, lon): (f32, f32)) -> bool {
    assert_eq!(zones.end, End::Whole);
    let precision = plan.form.precision;
    let step = 90.0 / f64::from(1u32 << (precision - 1));
    // slopes are floats: close to a border the rule may see another side
    let near = f64::from(zones.safezone) < 2.0 * step || zones.matches.iter().any(|zone| zone.kind != Kind::InZone);
    let Some(want) = held(plan, on_grid(lat, lon, precision)).filter(|_| !near) else { return false };
    let values = |zone: &Match| zone.fields.iter().map(|field| field.value.clone()).collect();
    let mut got: Vec<Vec<String>> = zones.matches.iter().map(values).collect();
    got.sort();
    assert_eq!(got.iter().collect::<Vec<_>>(), want, "{lat} {lon}");
    !want.is_empty()
}

/// A file's borders, by way of GeoJSON; of more rings than a file may hold the first.
fn polygons_of(map: &str, folder: &Folder) -> Collection {
    let path = folder.path("world.geojson");
    show::geojson(Path::new(map), Some(Path::new(&path))).unwrap();
    let mut all = geojson::read(Path::new(&path)).unwrap();
    let mut left = 4096;
    for feature in &mut all.features {
        feature.polygons.retain(|rings| {
            left = usize::saturating_sub(left, rings.len());
            left > 0
        });
    }
    all.features.retain(|feature| !feature.polygons.is_empty());
    all
}

#[test]
fn the_example_yards() {
    let (met, [plain, packed, borrowed]) = compare("yards", &geojson::read(Path::new(YARDS)).unwrap(), 25, 2000, (-0.003, 109.335, 0.007, 109.348));
    assert!(met > 700, "{met}");
    assert!(packed > borrowed + 40, "{plain} {packed} {borrowed}");
}

/// The small world's zones as polygons, built again.
#[test]
fn the_small_world() {
    let folder = Folder::new("small-world");
    let (met, [plain, packed, borrowed]) = compare("small-world", &polygons_of(WORLD, &folder), 9, 1000, (-90.0, -180.0, 90.0, 180.0));
    assert!(met > 200, "{met}");
    println!("small world: version 0 {plain} bytes, version 1 {packed}, with pieces {borrowed}");
    assert!(plain > packed && packed > borrowed + 3000, "{plain} {packed} {borrowed}");
}

/// What is built of a file's GeoJSON is that file again.
#[test]
fn there_and_back() {
    let folder = Folder::new("there-and-back");
    let file = built(&plan_of(YARDS, form(1, 25)));
    let path = folder.with("yards.plb", &file);
    let again = folder.path("yards.geojson");
    show::geojson(Path::new(&path), Some(Path::new(&again))).unwrap();
    assert!(built(&plan_of(&again, form(1, 25))) == file);
}

#[test]
#[ignore = "needs the map that host/run makes"]
fn the_real_map() {
    let folder = Folder::new("real-map");
    let polygons = polygons_of(&std::env::var("USKELZAR_MAP").unwrap(), &folder);
    // compare/yards asks for more
    let fixes = std::env::var("DEPOT_FIXES").map_or(1000, |fixes| fixes.parse().unwrap());
    let (met, [plain, packed, borrowed]) = compare("real-map", &polygons, 21, fixes, (-90.0, -180.0, 90.0, 180.0));
    assert!(met > fixes / 5, "{met}");
    println!("real map: version 0 {plain} bytes, version 1 {packed}, with pieces {borrowed}");
    assert!(plain > packed && packed > borrowed, "{plain} {packed} {borrowed}");
}
