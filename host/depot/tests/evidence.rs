//! What a slip rests on, kept and worked out again.

mod common;

use common::{depot, depot_of, Folder, Ran, DAY, WORLD, ZONEINFO};
use serde_json::{json, Value};
use std::fs;

fn stamped(folder: &Folder, day: &str) -> Vec<Value> {
    let (slips, evidence) = (folder.path("slips.csv"), folder.path("day.jsonl"));
    depot(&["stamp", day, "-o", &slips, WORLD, ZONEINFO, "--evidence", &evidence]);
    let text = fs::read_to_string(evidence).unwrap();
    text.lines().map(|line| serde_json::from_str(line).unwrap()).collect()
}

fn verified(folder: &Folder, lines: &[Value], map: &str, zones: &str) -> Ran {
    let text: String = lines.iter().map(|line| format!("{line}\n")).collect();
    depot(&["verify", &folder.with("kept.jsonl", text), map, zones])
}

#[test]
fn a_slip_has_what_it_rests_on() {
    let folder = Folder::new("evidence");
    let lines = stamped(&folder, DAY);
    assert_eq!(lines.len(), 7);
    let berlin = lines.iter().find(|line| line["line"].as_str().is_some_and(|line| line.ends_with("Europe/Berlin"))).unwrap();
    for name in ["evidence", "number", "request", "separator", "columns", "library", "map", "zones", "latitude", "longitude", "instant", "mark", "matches", "line"] {
        assert!(!berlin[name].is_null(), "{name}: {berlin}");
    }
    let request = fs::read_to_string(DAY).unwrap().lines().nth(berlin["number"].as_u64().unwrap() as usize - 1).unwrap().to_string();
    assert_eq!(berlin["request"], request);
    let bits = u32::from_str_radix(berlin["latitude"].as_str().unwrap(), 16).unwrap();
    assert!((52.0..53.0).contains(&f32::from_bits(bits)), "{berlin}");
    assert_eq!(berlin["matches"][0]["zone"], "Europe/Berlin");
    assert_eq!((&berlin["mark"], &berlin["matches"][0]["kind"], &berlin["matches"][0]["entry"]), (&json!(1), &json!(1), &json!(5586)));
    // one that could not be read, one at sea
    let unread = lines.iter().find(|line| line["latitude"].is_null()).unwrap();
    assert!(unread["reason"].as_str().unwrap().contains("latitude") && unread["mark"].is_null(), "{unread}");
    let sea = lines.iter().find(|line| line["reason"] == "86 0 0 no zone holds the fix").unwrap();
    assert_eq!((&sea["mark"], &sea["matches"]), (&json!(1), &json!([])));
}

#[test]
fn sums_are_those_of_the_files() {
    let folder = Folder::new("sums");
    let line = &stamped(&folder, DAY)[0];
    let sum = |path: &str| String::from_utf8(std::process::Command::new("sha256sum").arg(path).output().unwrap().stdout).unwrap()[..64].to_string();
    assert_eq!(line["map"]["sha256"], sum(WORLD));
    let zones = folder.path("zones.tzdata");
    assert_eq!(depot(&["bundle", ZONEINFO, "-o", &zones]).status, 0);
    assert_eq!(line["zones"]["sha256"], sum(&zones));
    assert!(line["zones"]["release"].as_str().unwrap().starts_with("20"));
    assert_eq!(line["library"], uskelzar::RELEASE);
}

#[test]
fn every_slip_comes_out_again() {
    let folder = Folder::new("verify");
    let lines = stamped(&folder, DAY);
    let ran = verified(&folder, &lines, WORLD, ZONEINFO);
    assert_eq!((ran.status, ran.err.as_str()), (0, ""), "{ran:?}");
    assert!(ran.out.ends_with("kept.jsonl: 7 slips, 7 come out again\n") && ran.out.lines().count() == 1, "{ran:?}");
}

/// Whatever is changed in a line is found, and it alone.
#[test]
fn a_changed_line_is_named() {
    let folder = Folder::new("changed");
    let lines = stamped(&folder, DAY);
    let stamped = lines.iter().position(|line| !line["line"].is_null()).unwrap();
    for (name, value) in [
        ("line", json!("Wed 2026-07-01 12:59:59 +01:00 CET Europe/Berlin")),
        ("latitude", json!("42521eb9")),
        ("longitude", json!("00000000")),
        ("instant", json!(1)),
        ("mark", json!(4)),
        ("matches", json!([])),
        ("reason", json!("86 0 0 no zone holds the fix")),
        ("extra", json!(1)),
    ] {
        let mut changed = lines.clone();
        changed[stamped][name] = value.clone();
        let ran = verified(&folder, &changed, WORLD, ZONEINFO);
        assert!(ran.status == 1 && ran.out.contains("7 slips, 6 come out again, 1 differs"), "{name}: {ran:?}");
        let number = &lines[stamped]["number"];
        assert!(ran.out.starts_with(&format!("slip {number}: {name} was {value}, comes out as ")), "{name}: {ran:?}");
    }
    // a request that asks for another fix
    let mut moved = lines.clone();
    moved[stamped]["request"] = json!("x,-33.87,151.21,1782907199");
    moved[stamped]["columns"] = json!([1, 2, 3]);
    let ran = verified(&folder, &moved, WORLD, ZONEINFO);
    assert!(ran.status == 1 && ran.out.contains(": latitude was ") && ran.out.contains("Australia/Sydney"), "{ran:?}");
}

#[test]
fn other_files_are_said_first() {
    let folder = Folder::new("other-files");
    let mut lines = stamped(&folder, DAY);
    let mut map = fs::read(WORLD).unwrap();
    // a letter of the notice
    let at = map.windows(6).position(|some| some == b"Border".map(|byte| byte ^ 0x80)).unwrap();
    map[at] ^= 0x20;
    let other = folder.with("other.plb", map);
    let ran = verified(&folder, &lines, &other, ZONEINFO);
    assert!(ran.status == 1 && ran.out.starts_with("another map than that of 7 slips: ") && ran.out.contains("7 come out again"), "{ran:?}");
    // zones that lack all but one
    let zones = folder.path("zones");
    fs::create_dir_all(format!("{zones}/Europe")).unwrap();
    fs::copy(format!("{ZONEINFO}/Europe/Berlin"), format!("{zones}/Europe/Berlin")).unwrap();
    let ran = verified(&folder, &lines, WORLD, &zones);
    assert!(ran.status == 1 && ran.out.starts_with("other zones than those of 7 slips: ") && ran.out.contains("reason was nothing, comes out as \"88 1 0 the zone is not in the bundle\""), "{ran:?}");
    lines[0]["library"] = json!("0.0.1");
    let ran = verified(&folder, &lines, WORLD, ZONEINFO);
    assert!(ran.status == 1 && ran.out.starts_with("another library than that of 1 slip: this release is "), "{ran:?}");
}

#[test]
fn lines_that_are_no_evidence() {
    let folder = Folder::new("no-evidence");
    let good = stamped(&folder, DAY)[0].clone();
    let mut newer = good.clone();
    newer["evidence"] = json!(3);
    let mut bare = good.clone();
    bare.as_object_mut().unwrap().remove("request");
    let ran = verified(&folder, &[good, newer, bare, json!({"type": "Feature"}), json!(5)], WORLD, ZONEINFO);
    assert!(ran.status == 1 && ran.out.contains("5 slips, 1 comes out again, 4 can't be read"), "{ran:?}");
    assert!(ran.out.contains("line 2: its form is 3") && ran.out.contains("line 3: \"request\" is missing"), "{ran:?}");
    for text in ["", "lat,lon,time\n1,2,3\n"] {
        let ran = depot(&["verify", &folder.with("none.jsonl", text), WORLD, ZONEINFO]);
        assert!(ran.status == 2 && ran.err.contains("has no evidence"), "{ran:?}");
    }
}

#[test]
fn evidence_has_a_place_of_its_own() {
    let folder = Folder::new("places");
    let out = folder.path("slips.csv");
    let ran = depot(&["stamp", DAY, "-o", &out, WORLD, ZONEINFO, "--evidence", &out]);
    assert!(ran.status == 2 && ran.err.contains("give two names"), "{ran:?}");
    let ran = depot(&["stamp", DAY, "-o", &out, WORLD, ZONEINFO, "--evidence", WORLD]);
    assert!(ran.status == 2 && ran.err.contains("which is read"), "{ran:?}");
    let ran = depot_of(&["stamp", "-", "-o", &out, WORLD, ZONEINFO, "--evidence", "-"], &fs::read(DAY).unwrap());
    assert!(ran.out.lines().count() == 7 && ran.out.starts_with("{\"evidence\":2,") && ran.err.contains("7 lines, 4 stamped"), "{ran:?}");
}

/// Cells parted by semicolons, a decimal comma, a quoted line end: read again as they were read.
#[test]
fn a_request_is_read_as_it_was() {
    let folder = Folder::new("read-again");
    let day = folder.with("day.csv", "\u{feff}note;Time;Long;Lat\n\"two\nlines\";2026-07-01 13:59:59+0200;13,40;52,52\n\nx;2026-07-01T11:59:59.9Z;13,40;52,52\n");
    let lines = stamped(&folder, &day);
    assert_eq!((&lines[0]["request"], &lines[0]["number"], &lines[1]["number"]), (&json!("\"two\nlines\";2026-07-01 13:59:59+0200;13,40;52,52"), &json!(2), &json!(5)));
    assert_eq!(lines[0]["line"], "Wed 2026-07-01 13:59:59 +02:00 CEST Europe/Berlin");
    let ran = verified(&folder, &lines, WORLD, ZONEINFO);
    assert!(ran.status == 0 && ran.out.contains("2 slips, 2 come out again"), "{ran:?}");
}

/// What was stamped by a folder comes out again by its bundle: the sum is that of the bytes that the library was lent.
#[test]
fn by_a_bundle_of_the_same_zones() {
    let folder = Folder::new("verify-bundle");
    let lines = stamped(&folder, DAY);
    let zones = folder.path("zones.tzdata");
    assert_eq!(depot(&["bundle", ZONEINFO, "-o", &zones]).status, 0);
    let ran = verified(&folder, &lines, WORLD, &zones);
    assert!(ran.status == 0 && ran.out.ends_with("7 slips, 7 come out again\n") && ran.out.lines().count() == 1, "{ran:?}");
    // of some of the zones: others, and said to be
    let some = folder.path("some.tzdata");
    assert_eq!(depot(&["bundle", ZONEINFO, "-o", &some, "--map", WORLD]).status, 0);
    let ran = verified(&folder, &lines, WORLD, &some);
    assert!(ran.status == 1 && ran.out.starts_with("other zones than those of 7 slips: ") && ran.out.contains("7 come out again"), "{ran:?}");
}

/// A receiver's sentences: kept byte for byte, those that are no text too, and read again by the library.
#[test]
fn a_log_is_read_again() {
    let folder = Folder::new("verify-log");
    let rmc = b"$GNRMC,115959.00,A,5231.200000,N,01324.000000,E,0.0,0.0,010726,,,A*41\r\n";
    // a byte above 127 in a field that nobody looks at, with its checksum
    let odd = b"$GNRMC,115959.00,A,5231.200000,N,01324.000000,E,\xff,0.0,010726,,,A*90\r\n";
    let log = folder.with("day.nmea", [&rmc[..], b"$GPGLL,,,,,,V,N*64\r\n", odd, b"$GPRMC*00"].concat());
    let lines = stamped(&folder, &log);
    assert_eq!(lines.iter().map(|line| line["number"].as_u64().unwrap()).collect::<Vec<_>>(), [1, 3, 4]);
    assert_eq!(lines[0]["request"].as_str().unwrap().as_bytes(), &rmc[..rmc.len() - 1]);
    assert!(lines[1]["request"].is_null() && lines[1]["bytes"].as_str().unwrap().contains("2cff2c"), "{}", lines[1]);
    for line in &lines[..2] {
        assert_eq!((&line["line"], &line["latitude"], &line["instant"]), (&json!("Wed 2026-07-01 13:59:59 +02:00 CEST Europe/Berlin"), &json!("4252147b"), &json!(1_782_907_199)), "{line}");
        assert!(line["separator"].is_null() && line["columns"].is_null() && line["mark"] == 1, "{line}");
    }
    assert_eq!(lines[2]["reason"], "82 0 6 the checksum is wrong");
    let ran = verified(&folder, &lines, WORLD, ZONEINFO);
    assert!(ran.status == 0 && ran.out.contains("3 slips, 3 come out again"), "{ran:?}");
    // another digit of the sentence, or of its bytes
    for (place, from, to) in [(0, "115959", "115958"), (1, "2cff2c", "2cfe2c")] {
        let mut changed = lines.clone();
        let name = ["request", "bytes"][place];
        changed[place][name] = json!(lines[place][name].as_str().unwrap().replace(from, to));
        let ran = verified(&folder, &changed, WORLD, ZONEINFO);
        assert!(ran.status == 1 && ran.out.contains("1 differs") && ran.out.contains("the checksum is wrong"), "{ran:?}");
    }
}
