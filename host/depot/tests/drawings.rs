//! Drawings with faults: each is refused at its place, mended, or said; and what fixes can tell apart.

mod common;

use common::{depot, Folder, Ran, YARDS};
use std::fs;

/// A drawing of features, each its properties and its rings.
fn drawing(features: &[(&str, &str)]) -> String {
    let feature = |(properties, rings): &(&str, &str)| format!(r#"{{"type": "Feature", "properties": {{{properties}}}, "geometry": {{"type": "Polygon", "coordinates": {rings}}}}}"#);
    let features: Vec<String> = features.iter().map(feature).collect();
    format!(r#"{{"type": "FeatureCollection", "features": [{}]}}"#, features.join(", "))
}

fn said(ran: &Ran, status: i32, words: &[&str]) {
    assert_eq!(ran.status, status, "{ran:?}");
    for words in words {
        assert!(ran.out.contains(words) || ran.err.contains(words), "no {words:?} in {ran:?}");
    }
}

const GATE: &str = r#""Name": "Gate""#;
const SQUARE: &str = "[[1, 1], [6, 1], [6, 6], [1, 6], [1, 1]]";

/// Tries a build of one feature's rings: nothing is written where it has faults.
fn try_rings(folder: &str, rings: &str, status: i32, words: &[&str]) {
    let folder = Folder::new(folder);
    let input = folder.with("in.geojson", drawing(&[(GATE, rings)]));
    let ran = depot(&["build", &input, "-o", &folder.path("out.plb"), "--type", "C"]);
    said(&ran, status, words);
    assert_eq!(folder.names().len(), if status == 0 { 2 } else { 1 });
}

#[test]
fn rings_that_cross() {
    let bow_tie = "[[[5, 1], [7, 3], [7, 1], [5, 3], [5, 1]]]";
    try_rings("cross", bow_tie, 1, &["in.geojson: 1 fault in the drawing", "feature 1 (Gate), ring 1: it crosses itself at 2.0000000 6.0000000: the edge from point 1 to 2 and that from 3 to 4", "--as-drawn"]);
    // one whose halves differ is not small at all
    try_rings("cross", "[[[5, 1], [7, 3], [7, 1], [5, 2.5], [5, 1]]]", 1, &["ring 1: it crosses itself at"]);
    let over = format!("[{SQUARE}, [[2, 2], [2, 8], [3, 8], [3, 2], [2, 2]]]");
    try_rings("cross", &over, 1, &["feature 1 (Gate), ring 1: it crosses ring 2 at 6.0000000", "the edge from point 3 to 4 and that from", " of ring 2"]);
    try_rings("cross", "[[[1, 1], [5, 1], [9, 1], [5, 1], [5, 5], [1, 5], [1, 1]]]", 1, &["it folds back on itself at 1.0000000", "the edge from point 2 to 3 and that from 3 to 4 lie on one another"]);
}

#[test]
fn holes_that_are_none() {
    try_rings("holes", &format!("[{SQUARE}, [[7, 7], [7, 8], [8, 8], [8, 7], [7, 7]]]"), 1, &["feature 1 (Gate), ring 2: the hole is not inside ring 1", "7.0000000 7.0000000 is outside"]);
    try_rings("holes", &format!("[[[2, 2], [3, 2], [3, 3], [2, 3], [2, 2]], {SQUARE}]"), 1, &["ring 2: the hole is larger than ring 1 and around it", "the outer ring comes first"]);
    try_rings("holes", &format!("[{SQUARE}, [[2, 2], [2, 5], [5, 5], [5, 2], [2, 2]], [[3, 3], [3, 4], [4, 4], [3, 3]]]"), 1, &["ring 3: the hole lies in another hole at 3.0000000 3.0000000"]);
    // one that touches its ring is in order
    try_rings("holes", &format!("[{SQUARE}, [[1, 3], [2, 4], [2, 2], [1, 3]]]"), 0, &["1 of holes"]);
}

#[test]
fn polygons_of_one_feature() {
    let folder = Folder::new("parts");
    let parts = |other: &str| {
        let drawing = format!(r#"{{"type": "MultiPolygon", "coordinates": [[{SQUARE}], [{other}]]}}"#);
        depot(&["build", &folder.with("in.geojson", drawing), "--dry-run", "--type", "C"])
    };
    said(&parts("[[3, 3], [8, 3], [8, 8], [3, 8], [3, 3]]"), 1, &["feature 1, polygon 1, ring 1: it crosses polygon 2, ring 1 at ", "the edge from point "]);
    said(&parts("[[3, 3], [4, 3], [4, 4], [3, 3]]"), 1, &["feature 1, polygon 2, ring 1: it and polygon 1 lie over one another at 3."]);
    // beside it, with a line in common
    said(&parts("[[6, 1], [9, 1], [9, 6], [6, 6], [6, 1]]"), 0, &["2 borders"]);
}

#[test]
fn every_fault_is_told_at_once() {
    let folder = Folder::new("all-faults");
    let bow_tie = "[[[5, 1], [7, 3], [7, 1], [5, 3], [5, 1]]]";
    let square = format!("[{SQUARE}]");
    let input = folder.with("in.geojson", drawing(&[(GATE, bow_tie), (r#""Name": "B""#, &square), (r#""Name": "C""#, bow_tie)]));
    let ran = depot(&["build", &input, "--dry-run", "--type", "C"]);
    said(&ran, 1, &["2 faults in the drawing", "feature 1 (Gate), ring 1: it crosses", "feature 3 (C), ring 1: it crosses"]);
    // as it is drawn, on demand; and each fault is said
    let out = folder.path("out.plb");
    said(&depot(&["build", &input, "-o", &out, "--type", "C", "--as-drawn", "--leave-out"]), 0, &["note: feature 1 (Gate), ring 1: it crosses itself", "out.plb: "]);
}

#[test]
fn rings_that_fold_on_the_grid() {
    let folder = Folder::new("folds");
    let neck = "[[[10, 10], [20, 10], [20, 14.9], [12, 14.9], [12, 15.1], [20, 15.1], [20, 20], [10, 20], [10, 10]]]";
    let input = folder.with("in.geojson", drawing(&[(GATE, neck)]));
    let ran = depot(&["build", &input, "--dry-run", "--type", "C", "--precision", "7"]);
    said(&ran, 0, &["note: on the grid, feature 1 (Gate), ring 1: it folds back on itself at 15.46875", "the edge from point 3 to 4 and that from 4 to 6 lie on one another", "a higher --precision keeps lines apart"]);
    assert!(!depot(&["build", &input, "--dry-run", "--type", "C"]).out.contains("on the grid, "));
}

#[test]
fn what_is_mended_without_choice() {
    let folder = Folder::new("mend");
    let rings = "[[[1, 1], [1, 6], [6, 6], [6, 6], [6, 1], [1, 1]], [[2, 2], [2, 3], [3, 3], [3, 2]]]";
    let input = folder.with("in.geojson", drawing(&[(r#""Name": "Gate", "n": 7"#, rings)]));
    let (plain, mended, out, again) = (folder.path("plain.plb"), folder.path("mended.geojson"), folder.path("out.plb"), folder.path("again.plb"));
    let summary = "note: 1 ring wound the other way, 1 point twice in a row, 1 ring without the last point: taken as they are meant; --mend";
    said(&depot(&["build", &input, "-o", &plain, "--type", "C"]), 0, &[summary]);
    let ran = depot(&["build", &input, "-o", &out, "--type", "C", "--mend", &mended]);
    said(&ran, 0, &["mended: feature 1 (Gate), ring 1: 1 point taken out that stood twice in a row; turned counterclockwise", "mended: feature 1 (Gate), ring 2: its last point added", "mended.geojson: the drawing, mended"]);
    let value: serde_json::Value = serde_json::from_slice(&fs::read(&mended).unwrap()).unwrap();
    let feature = &value["features"][0];
    assert_eq!(feature["geometry"]["coordinates"][0], serde_json::json!([[1, 1], [6, 1], [6, 6], [1, 6], [1, 1]]));
    assert_eq!(feature["geometry"]["coordinates"][1].as_array().unwrap().len(), 5);
    assert_eq!(feature["properties"]["n"], 7);
    // the drawing that was mended gives the same file, and needs no more
    assert!(!depot(&["build", &mended, "-o", &again, "--type", "C"]).out.contains("--mend"));
    assert_eq!(fs::read(&plain).unwrap(), fs::read(&again).unwrap());
    assert_eq!(fs::read(&out).unwrap(), fs::read(&again).unwrap());
    said(&depot(&["build", &mended, "--type", "C", "--mend", &folder.path("twice.geojson")]), 0, &["nothing was to mend"]);
    // never over the drawing itself, nor where the file goes
    said(&depot(&["build", &input, "--type", "C", "--mend", &input]), 2, &["which is read"]);
    said(&depot(&["build", &input, "--type", "C", "-o", &out, "--mend", &out]), 2, &["name one file"]);
    let bow_tie = folder.with("bow.geojson", drawing(&[(GATE, "[[[5, 1], [7, 3], [7, 1], [5, 3]]]")]));
    said(&depot(&["build", &bow_tie, "--type", "C", "--mend", &folder.path("none.geojson")]), 1, &["crosses itself", "nothing was written"]);
    assert!(!folder.names().contains(&"none.geojson".to_string()));
}

#[test]
fn names_of_zones() {
    let folder = Folder::new("zones");
    let (a, b, c) = ("[[[1, 1], [2, 1], [2, 2], [1, 1]]]", "[[[3, 1], [4, 1], [4, 2], [3, 1]]]", "[[[5, 1], [6, 1], [6, 2], [5, 1]]]");
    let tried = |features: &[(&str, &str)], words: &[&str]| {
        let input = folder.with("in.geojson", drawing(features));
        depot(&[&["build", &input, "--dry-run"], words].concat())
    };
    let misspelt = [(r#""tzid": "Europe/Berln""#, a), (r#""tzid": 5"#, b), (r#""tzid": "Europe/Berlin""#, c)];
    said(&tried(&misspelt, &[]), 1, &["2 faults", "feature 1 (Europe/Berln): \"Europe/Berln\" is no zone of /usr/share/zoneinfo; nearest: Europe/Berlin", "feature 2 (5): \"5\" is no zone"]);
    said(&tried(&misspelt, &["--as-drawn"]), 0, &["note: feature 2 (5): \"5\" is no zone"]);
    said(&tried(&misspelt, &["--type", "C"]), 0, &[]);
    // split as the format has it, in a folder of its own
    let split = [(r#""TimezoneIdPrefix": "Yard/", "TimezoneId": "Nort""#, a)];
    fs::create_dir_all(folder.0.join("tz/Yard")).unwrap();
    fs::copy("/usr/share/zoneinfo/UTC", folder.0.join("tz/Yard/North")).unwrap();
    said(&tried(&split, &["--zones", &folder.path("tz")]), 1, &["\"Yard/Nort\" is no zone of", "nearest: Yard/North"]);
    said(&tried(&[(r#""tzid": "Yard/North""#, a)], &["--zones", &folder.path("tz")]), 0, &[]);
    said(&tried(&split, &["--zones", &folder.path("none")]), 2, &["none: No such file"]);
    said(&tried(&split, &["--zones", &folder.path("tz/Yard/North")]), 1, &["this is no bundle of zones"]);
    // a file that is there, and by which no slip can be stamped
    fs::write(folder.0.join("tz/Yard/South"), b"TZif").unwrap();
    said(&tried(&[(r#""tzid": "Yard/South""#, a)], &["--zones", &folder.path("tz")]), 1, &["\"Yard/South\" of", "stamps nothing: refusal 41"]);
    // what is no fault is said
    let beside = [(r#""Name": "A", "tzid": "Asia/Tokyo", "TimezoneIdPrefix": "Etc/", "TimezoneId": "UTC""#, a), (r#""Name": "B""#, b)];
    said(&tried(&beside, &[]), 0, &["note: feature 2 (B) has no zone: nothing can be stamped in it", "note: feature 1 (A): slips are stamped by TimezoneIdPrefix and TimezoneId, \"Etc/UTC\"", "and says \"Asia/Tokyo\""]);
}

/// The same words by a folder and by the bundle of it, which is never written over.
#[test]
fn names_of_a_bundle() {
    let folder = Folder::new("bundled-names");
    let (a, tz, zones) = ("[[[1, 1], [2, 1], [2, 2], [1, 1]]]", folder.path("tz"), folder.path("zones.tzdata"));
    fs::create_dir_all(folder.0.join("tz/Yard")).unwrap();
    fs::copy("/usr/share/zoneinfo/UTC", folder.0.join("tz/Yard/North")).unwrap();
    fs::copy("/usr/share/zoneinfo/Asia/Tokyo", folder.0.join("tz/Yard/East")).unwrap();
    said(&depot(&["bundle", &tz, "-o", &zones]), 0, &["2 zones"]);
    for (name, status) in [("Yard/North", 0), ("Yard/East", 0), ("Yard/Nort", 1), ("Europe/Berlin", 1), ("Yard/North\\u0000", 1)] {
        let input = folder.with("in.geojson", drawing(&[(&format!(r#""tzid": "{name}""#), a)]));
        let [by_folder, by_bundle] = [&tz, &zones].map(|place| {
            let ran = depot(&["build", &input, "--dry-run", "--zones", place]);
            assert_eq!(ran.status, status, "{name}: {ran:?}");
            format!("{}{}", ran.out, ran.err).replace(place.as_str(), "ZONES")
        });
        assert_eq!(by_folder, by_bundle);
        assert_eq!(by_bundle.contains("is no zone of ZONES; nearest: Yard/North"), status == 1 && name.starts_with("Yard"), "{by_bundle}");
    }
    let input = folder.with("in.geojson", drawing(&[(r#""tzid": "Yard/North""#, a)]));
    let kept = fs::read(&zones).unwrap();
    said(&depot(&["build", &input, "-o", &zones, "--zones", &zones]), 2, &["zones.tzdata, which is read"]);
    said(&depot(&["build", &input, "--mend", &zones, "--zones", &zones]), 2, &["zones.tzdata, which is read"]);
    assert_eq!(fs::read(&zones).unwrap(), kept);
    // damaged: the head; an entry whose file is not there is no zone
    said(&depot(&["build", &input, "--dry-run", "--zones", &folder.with("cut.tzdata", &kept[..30])]), 1, &["refusal 89", "this is no bundle of zones"]);
    let mut other = kept.clone();
    other[24 + 52 + 40] = 0x7f;
    said(&depot(&["build", &input, "--dry-run", "--zones", &folder.with("other.tzdata", other)]), 1, &["\"Yard/North\" is no zone of"]);
}

#[test]
fn coordinates_of_another_kind() {
    let folder = Folder::new("crs");
    let with_crs = |name: &str| {
        let crs = format!(r#"{{"crs": {{"type": "name", "properties": {{"name": "{name}"}}}}, "#);
        let text = drawing(&[(GATE, &format!("[{SQUARE}]"))]).replacen('{', &crs, 1);
        depot(&["build", &folder.with("in.geojson", text), "--dry-run", "--type", "C"])
    };
    said(&with_crs("urn:ogc:def:crs:OGC:1.3:CRS84"), 0, &[]);
    said(&with_crs("urn:ogc:def:crs:EPSG::4267"), 2, &["said to be those of urn:ogc:def:crs:EPSG::4267", "ogr2ogr -t_srs OGC:CRS84"]);
}

#[test]
fn what_a_fix_can_tell_apart() {
    let folder = Folder::new("apart");
    let fiji = "[[[178.1, -17.9], [178.2, -17.9], [178.2, -17.8], [178.1, -17.9]]]";
    let input = folder.with("in.geojson", drawing(&[(GATE, fiji)]));
    let fine = depot(&["build", &input, "--dry-run", "--type", "C", "--precision", "28"]);
    said(&fine, 0, &["a fix tells apart 0.21 m north to south and 1.62 m east to west at feature 1 (Gate)", "note: the grid is finer than a fix at feature 1 (Gate): ", "--precision 24"]);
    assert!(!depot(&["build", &input, "--dry-run", "--type", "C", "--precision", "24"]).out.contains("finer than a fix"));
    let yards = depot(&["build", YARDS, "--dry-run", "--precision", "25"]);
    said(&yards, 0, &["a fix tells apart less than 0.01 m north to south and 0.85 m east to west at each feature"]);
    assert!(!yards.out.contains("note:"), "{yards:?}");
}
