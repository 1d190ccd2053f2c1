//! Pages: what stands in them is what the file and the library say, and nothing of it can do more than be read.

mod common;

use common::{built, depot, form, plan_of, Folder, Ran, Random, WORLD, YARDS, YARD_DAY, ZONEINFO};
use depot::plan::plan;
use serde_json::{json, Value};
use sha2::{Digest, Sha256};
use std::fs;
use uskelzar::Map;

/// A page as it was written: its text, and the data of its script.
struct Page {
    text: String,
    data: Value,
}

impl Page {
    /// Of a file, with few points so that it is quick.
    fn of(folder: &Folder, file: &str, more: &[&str]) -> (Page, Ran) {
        let out = folder.path("page.html");
        let ran = depot(&[&["page", file, "-o", &out, "--columns", "120"], more].concat());
        assert_eq!(ran.status, 0, "{ran:?}");
        let text = fs::read_to_string(&out).unwrap();
        let data = serde_json::from_str(between(&text, "id=\"data\">", "</script>")).unwrap();
        (Page { text, data }, ran)
    }

    fn frame(&self) -> [f64; 4] {
        [0, 1, 2, 3].map(|i| self.data["frame"][i].as_f64().unwrap())
    }

    /// Every answer of the raster by its number, and its fix.
    fn raster(&self) -> Vec<(usize, (f32, f32))> {
        let size = |name: &str| self.data["raster"][name].as_u64().unwrap() as usize;
        let (columns, rows) = (size("columns"), size("rows"));
        let [south, west, north, east] = self.frame();
        let numbers = unpacked(self.data["raster"]["runs"].as_str().unwrap());
        let answers: Vec<usize> = numbers.chunks(2).flat_map(|run| vec![run[1] as usize; run[0] as usize]).collect();
        assert_eq!(answers.len(), columns * rows);
        let part = |place: usize, of: usize| (place as f64 + 0.5) / of as f64;
        let fix = |i: usize| ((north - (north - south) * part(i / columns, rows)) as f32, (west + (east - west) * part(i % columns, columns)) as f32);
        answers.into_iter().enumerate().map(|(i, answer)| (answer, fix(i))).collect()
    }

    /// An answer: end mark, then titles and kinds.
    fn answer(&self, number: usize) -> (u64, Vec<(String, u64)>) {
        let answer = &self.data["answers"][number];
        let zone = |zone: &Value| (self.data["yards"][zone[0].as_u64().unwrap() as usize]["title"].as_str().unwrap().to_string(), zone[1].as_u64().unwrap());
        (answer[0].as_u64().unwrap(), answer[1].as_array().unwrap().iter().map(zone).collect())
    }

    /// The points of each yard's rings on the grid.
    fn rings(&self) -> Vec<Vec<(i32, i32)>> {
        let numbers = unpacked(self.data["points"].as_str().unwrap());
        let signed = |number: u64| if number % 2 == 0 { (number / 2) as i64 } else { -(number as i64 + 1) / 2 };
        let mut here = (0, 0);
        let mut points = numbers.chunks(2).map(|step| {
            here = (here.0 + signed(step[0]), here.1 + signed(step[1]));
            (here.0 as i32, here.1 as i32)
        });
        let rings = self.data["yards"].as_array().unwrap().iter().flat_map(|yard| yard["rings"].as_array().unwrap());
        let rings: Vec<Vec<_>> = rings.map(|ring| points.by_ref().take(ring[0].as_u64().unwrap() as usize).collect()).collect();
        assert_eq!(points.next(), None);
        rings
    }
}

fn between<'a>(text: &'a str, before: &str, behind: &str) -> &'a str {
    let rest = &text[text.find(before).unwrap() + before.len()..];
    &rest[..rest.find(behind).unwrap()]
}

fn unpacked(text: &str) -> Vec<u64> {
    let (mut numbers, mut shift) = (vec![0], 0);
    for byte in base64::decode(text).unwrap() {
        *numbers.last_mut().unwrap() |= u64::from(byte & 0x7F) << shift;
        shift += 7;
        if byte < 0x80 {
            numbers.push(0);
            shift = 0;
        }
    }
    numbers.pop();
    numbers
}

fn said(ran: &Ran, words: &[&str]) {
    for words in words {
        assert!(ran.out.contains(words), "no {words:?} in {ran:?}");
    }
}

fn yards(folder: &Folder) -> String {
    folder.with("yards.plb", built(&plan_of(YARDS, form(1, 25))))
}

/// What a page says of a fix, as `Map::lookup` says it.
fn looked_up(map: &Map<Vec<u8>>, (lat, lon): (f32, f32), title: impl Fn(u32) -> String) -> (u64, Vec<(String, u64)>) {
    let zones = map.lookup(lat, lon).unwrap();
    (zones.end as u64, zones.matches.iter().map(|zone| (title(zone.metadata), zone.kind as u64)).collect())
}

/// A feature of square rings: south, west and side of each.
fn squares(name: &str, rings: &[(f64, f64, f64)]) -> Value {
    let ring = |&(lat, lon, side): &(f64, f64, f64)| json!([[lon, lat], [lon + side, lat], [lon + side, lat + side], [lon, lat + side], [lon, lat]]);
    feature(name, json!(rings.iter().map(ring).collect::<Vec<_>>()))
}

fn feature(name: &str, rings: Value) -> Value {
    json!({"type": "Feature", "properties": {"Name": name}, "geometry": {"type": "Polygon", "coordinates": rings}})
}

/// A file of features, at precision 20.
fn file_of(folder: &Folder, features: Value) -> String {
    let collection = depot::geojson::collect(&json!({"type": "FeatureCollection", "features": features})).unwrap();
    folder.with("made.plb", built(&plan(collection, form(1, 20)).unwrap()))
}

#[test]
fn the_example_with_its_day() {
    let folder = Folder::new("page-day");
    let (file, slips) = (yards(&folder), folder.path("slips.csv"));
    assert_eq!(depot(&["stamp", YARD_DAY, "-o", &slips, &file, ZONEINFO]).status, 1);
    let (page, ran) = Page::of(&folder, &file, &["--day", &slips, "--drawn", YARDS]);
    said(&ran, &["10 yards, 12 borders, 94 points", "at 11,280 points of the picture, 10 centres, 6 slips", "no faults"]);
    assert_eq!(folder.names(), ["page.html", "slips.csv", "yards.plb"]);
    let slips = page.data["slips"].as_array().unwrap();
    assert_eq!(slips.iter().map(|slip| slip[3].as_u64().unwrap()).collect::<Vec<_>>(), [1, 1, 1, 1, 0, 0]);
    let first = &slips[0];
    assert_eq!((first[0].as_f64(), first[1].as_f64()), (Some(0.0035), Some(109.338)));
    assert_eq!(page.answer(first[2].as_u64().unwrap() as usize), (1, vec![("Asia/Pontianak, Tank farm".into(), 1)]));
    assert_eq!(page.answer(slips[4][2].as_u64().unwrap() as usize), (1, vec![]));
    for words in ["2026-07-01 08:12:40 +07:00 WIB Asia&#x2F;Pontianak", "<b>no zone</b>", "hours differ: 1", "Of 9 points drawn 0 fell on the one before", "1 hole"] {
        assert!(page.text.contains(words), "{words}");
    }
    assert!(!page.text.contains("not by this file") && !page.text.contains("build it again"));
    // another day's slips: the file answers otherwise now
    let other = fs::read_to_string(folder.path("slips.csv")).unwrap().replace("0.0035,109.338", "0.0020,109.3455");
    let (page, _) = Page::of(&folder, &file, &["--day", &folder.with("slips.csv", other)]);
    assert_eq!(page.text.matches("not by this file").count(), 1);
}

/// Borders, raster and centres are the file's and the library's.
fn hold(file: &str, page: &Page, asked: usize) {
    let map = Map::open(fs::read(file).unwrap()).unwrap();
    let mut want: Vec<Vec<(i32, i32)>> = map.entries().unwrap().map(|entry| map.border(&entry.unwrap()).unwrap()).collect();
    let mut got = page.rings();
    want.sort();
    got.sort();
    assert!(want == got);
    let title = |zone: u32| depot::zone::title(map.header().table, &map.fields(zone).unwrap(), zone);
    let (raster, mut random) = (page.raster(), Random(5));
    for _ in 0..asked {
        let (answer, fix) = raster[random.between(0.0, raster.len() as f64) as usize];
        assert_eq!(page.answer(answer), looked_up(&map, fix, title), "{fix:?}");
    }
    for yard in page.data["yards"].as_array().unwrap().iter().filter(|yard| !yard["centre"].is_null()).take(asked) {
        let place = [0, 1].map(|i| yard["centre"][i].as_f64().unwrap() as f32);
        let answer = page.answer(yard["centre"][2].as_u64().unwrap() as usize);
        assert_eq!(answer, looked_up(&map, (place[0], place[1]), title), "{place:?}");
    }
}

#[test]
fn borders_and_answers_are_those_of_the_file() {
    let folder = Folder::new("page-holds");
    let file = yards(&folder);
    let (page, _) = Page::of(&folder, &file, &[]);
    hold(&file, &page, 400);
    for yard in page.data["yards"].as_array().unwrap() {
        let (_, zones) = page.answer(yard["centre"][2].as_u64().unwrap() as usize);
        assert_eq!(zones, [(yard["title"].as_str().unwrap().to_string(), 1)]);
    }
    let (page, ran) = Page::of(&folder, WORLD, &[]);
    said(&ran, &["279 yards, 868 borders, 27,699 points"]);
    hold(WORLD, &page, 300);
}

/// One script and one style run, by their hashes; nothing is fetched.
#[test]
fn a_page_stands_alone() {
    let folder = Folder::new("page-alone");
    let (page, _) = Page::of(&folder, &yards(&folder), &[]);
    let policy = between(&page.text, "Content-Security-Policy\" content=\"", "\"").replace("&#x27;", "'").replace("&#x2F;", "/");
    let hash = |text: &str| format!("'sha256-{}'", base64::encode(Sha256::digest(text)));
    let (style, script) = (between(&page.text, "<style>", "</style>"), between(&page.text, "<script>", "</script>"));
    assert_eq!(policy, format!("default-src 'none'; script-src {}; style-src {}; base-uri 'none'; form-action 'none'", hash(script), hash(style)));
    assert_eq!(page.text.matches("<script").count(), 2);
    for words in ["http:", "https:", " src=", "@import", "url(", " style=", "javascript:", "eval(", "innerHTML"] {
        assert!(!page.text.contains(words), "{words}");
    }
    assert!(page.text.matches("href=\"").count() == page.text.matches("href=\"#").count());
}

#[test]
fn texts_are_only_read() {
    let folder = Folder::new("page-hostile");
    let name = "<script>alert(1)</script>";
    let hostile = [name, "\"><img src=x onerror=alert(1)>", "{{ 7 * 6 }}{% include \"x\" %}", "\u{2028}</style><!--", "&lt;b&gt;' onclick='x"];
    let features: Vec<Value> = hostile.iter().enumerate().map(|(i, text)| squares(text, &[(1.0, 2.0 * i as f64 + 1.0, 1.0)])).collect();
    let file = file_of(&folder, json!(features));
    let day = ["latitude,longitude,instant,<b>note", "1.5,1.5,0,</script><script>alert(2)</script>", "x,y,0,\"=1+1\""].join("\n");
    let slips = folder.path("slips.csv");
    assert_eq!(depot(&["stamp", &folder.with("day.csv", day), "-o", &slips, &file, ZONEINFO]).status, 1);
    let (page, _) = Page::of(&folder, &file, &["--day", &slips]);
    assert_eq!(page.text.matches("<script").count(), 2);
    assert_eq!(page.text.matches("</script>").count(), 2);
    for words in ["<img", "onerror=alert(1)>", "{{ 7", "</style><!--", "<b>note", "42{%"] {
        let kept = page.text.replace("{{ 7 * 6 }}{% include", "");
        assert!(!kept.contains(words), "{words}");
    }
    assert!(page.text.contains("&lt;script&gt;alert(1)&lt;&#x2F;script&gt;"));
    let names: Vec<&str> = page.data["yards"].as_array().unwrap().iter().map(|yard| yard["name"].as_str().unwrap()).collect();
    assert!(hostile.iter().all(|text| names.contains(text)), "{names:?}");
}

#[test]
fn faults_are_seen_at_their_places() {
    let folder = Folder::new("page-faults");
    let bowtie = feature("Bowtie", json!([[[11, 1], [13, 3], [13, 1], [11, 2], [11, 1]]]));
    let features = json!([
        bowtie,
        squares("Whole", &[(1.0, 1.0, 4.0), (2.0, 2.0, 1.0)]),
        squares("Over", &[(10.0, 1.0, 4.0), (11.0, 4.0, 2.0)]),
        squares("Twice", &[(20.0, 1.0, 4.0)]),
        squares("Twice", &[(21.0, 2.0, 1.0)]),
        squares("First", &[(30.0, 1.0, 4.0)]),
        squares("Second", &[(33.0, 4.0, 4.0)]),
        squares("Third", &[(33.99, -1.0, 2.01)]),
    ]);
    let (page, ran) = Page::of(&folder, &file_of(&folder, features), &[]);
    said(&ran, &["A border crosses itself (1)", "A hole reaches over its edge (1)", "A yard inside another of the same name (1)", "Two yards overlap (2)"]);
    said(&ran, &["Bowtie: the border of entry", "Over: the hole of entry", "Twice: the border of entry"]);
    let place = |i: usize| [0, 1].map(|k| (page.data["faults"][i][k].as_f64().unwrap() * 10.0).round() / 10.0);
    let faults = page.data["faults"].as_array().unwrap();
    assert_eq!(faults.len(), 5, "{ran:?}");
    let inside = |i: usize, south: f64, west: f64, side: f64| {
        let [lat, lon] = place(i);
        lat >= south && lat <= south + side && lon >= west && lon <= west + side
    };
    assert!((inside(0, 33.0, 4.0, 1.0) && inside(1, 33.9, 1.0, 0.2)) || (inside(1, 33.0, 4.0, 1.0) && inside(0, 33.9, 1.0, 0.2)), "{faults:?}");
    // where the bowtie's lines cross, where the hole leaves its yard, at the inner border
    assert_eq!((place(2), place(4)), ([1.7, 11.7], [21.0, 2.0]), "{faults:?}");
    assert!(place(3)[1] == 5.0, "{faults:?}");
    for i in [0, 1] {
        assert_eq!(page.answer(faults[i][2].as_u64().unwrap() as usize).1.len(), 2);
    }
    let (_, ran) = Page::of(&folder, &file_of(&folder, json!([squares("Whole", &[(1.0, 1.0, 4.0), (2.0, 2.0, 1.0)]), squares("Beside", &[(1.0, 5.0, 4.0)])])), &[]);
    said(&ran, &["no faults"]);
}

#[test]
fn damaged_files_have_pages() {
    let folder = Folder::new("page-damaged");
    let good = fs::read(yards(&folder)).unwrap();
    let mut bad = good.clone();
    let end = bad.len() - 2;
    bad[end..].fill(0x81);
    let cut = folder.with("cut.plb", &bad);
    let (page, ran) = Page::of(&folder, &cut, &[]);
    said(&ran, &["Not read (1)", "end cuts the number at byte"]);
    assert!(page.text.contains("end cuts the number at byte"));
    let mut random = Random(3);
    for _ in 0..6 {
        let mut bad = good.clone();
        for _ in 0..3 {
            let place = random.between(7.0, bad.len() as f64) as usize;
            bad[place] = random.between(0.0, 256.0) as u8;
        }
        let path = folder.with("bad.plb", &bad);
        assert!(depot(&["page", &path, "-o", &folder.path("bad.html"), "--columns", "30"]).status < 2);
    }
}

#[test]
fn pages_that_are_not_written() {
    let folder = Folder::new("page-not-written");
    let out = folder.path("page.html");
    let refused = |words: &[&str], status: i32, said: &str| {
        let ran = depot(&[&["page"], words].concat());
        assert_eq!(ran.status, status, "{ran:?}");
        assert!(ran.err.contains(said), "{ran:?}");
    };
    refused(&[&folder.path("none.plb"), "-o", &out], 2, "No such file");
    refused(&[WORLD, "-o", &folder.path("none/page.html"), "--columns", "20"], 2, "this file was not written");
    refused(&[WORLD, "-o", &out, "--day", YARD_DAY], 2, "depot stamp");
    refused(&[WORLD, "-o", &out, "--day", &folder.path("none.csv")], 2, "none.csv");
    refused(&[WORLD, "-o", &out, "--drawn", &folder.with("x.geojson", "{}")], 2, "is no GeoJSON");
    refused(&[&folder.with("gif.plb", "GIF89a.."), "-o", &out], 1, "refusal 3");
    refused(&[WORLD], 2, "--output");
    assert_eq!(folder.names(), ["gif.plb", "x.geojson"]);
}

/// A drawing that the file was not built of.
#[test]
fn drawings_are_held_against_the_file() {
    let folder = Folder::new("page-drawn");
    let file = file_of(&folder, json!([squares("A", &[(1.0, 1.0, 2.0)]), squares("B", &[(1.0, 5.0, 2.0)])]));
    let drawn = json!({"type": "FeatureCollection", "features": [squares("A", &[(1.0, 1.0, 2.5)]), squares("C", &[(1.0, 5.0, 2.0)])]});
    let (page, _) = Page::of(&folder, &file, &["--drawn", &folder.with("drawn.geojson", drawn.to_string())]);
    for words in ["borders are not those that the drawing gives", "It is not in the drawing", "1 yard of the drawing is not in the file"] {
        assert!(page.text.contains(words), "{words}");
    }
}

#[test]
#[ignore = "needs the map that host/run makes"]
fn the_real_map() {
    let folder = Folder::new("page-real-map");
    let file = std::env::var("USKELZAR_MAP").unwrap();
    let (page, _) = Page::of(&folder, &file, &[]);
    hold(&file, &page, 100);
    assert!(page.text.len() < 6_000_000, "{}", page.text.len());
}
