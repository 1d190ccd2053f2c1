//! The program as a new user tries it, with good and with bad input.

mod common;

use common::{built, depot, form, plan_of, Folder, Ran, DAY, WORLD, YARDS, YARD_DAY, ZONEINFO};
use serde_json::Value;
use std::fs;

/// The example's yards, as a file.
fn yards(folder: &Folder) -> String {
    folder.with("yards.plb", built(&plan_of(YARDS, form(1, 25))))
}

fn said(ran: &Ran, status: i32, words: &[&str]) {
    assert_eq!(ran.status, status, "{ran:?}");
    for words in words {
        assert!(ran.out.contains(words) || ran.err.contains(words), "no {words:?} in {ran:?}");
    }
}

#[test]
fn help_has_an_example_for_each_verb() {
    said(&depot(&["--help"]), 0, &["build", "show", "zone", "check", "salvage", "index", "atlas", "stamp", "verify", "bundle", "draw", "page", "Exit status"]);
    for verb in ["build", "show", "zone", "check", "salvage", "index", "atlas", "stamp", "verify", "bundle", "draw", "page"] {
        said(&depot(&[verb, "--help"]), 0, &["Example", &format!("depot {verb} ")]);
    }
}

#[test]
fn words_that_are_no_call() {
    for words in [&[][..], &["fly"], &["zone", "52.52"], &["zone", "95", "13", WORLD], &["zone", "x", "13", WORLD], &["zone", "5", "181", WORLD], &["zone", WORLD, "95", "13"], &["zone", WORLD, "5", "nan"], &["zone", "1", "2", "3"]] {
        said(&depot(words), 2, &[]);
    }
    said(&depot(&["zone", "95", "13", WORLD]), 2, &["\"95\": a number of degrees from -90 to 90", "then the latitude"]);
    said(&depot(&["draw", WORLD, "-o", "x.png", "--frame", "1,2,3"]), 2, &["SOUTH,WEST,NORTH,EAST"]);
    said(&depot(&["build", YARDS]), 2, &["--output"]);
    for option in ["--precision=32", "--precision=0", "--version=2", "--type=X"] {
        said(&depot(&["build", YARDS, "--dry-run", option]), 2, &["--help"]);
    }
}

#[test]
fn files_that_are_not_there_or_no_maps() {
    let folder = Folder::new("no-maps");
    let picture = folder.with("picture.plb", "GIF89a..");
    let short = folder.with("short.plb", "PLB");
    let cut = folder.with("cut.plb", &fs::read(WORLD).unwrap()[..20_000]);
    let missing = folder.path("missing.plb");
    for verb in ["show", "check"] {
        said(&depot(&[verb, &missing]), 2, &["missing.plb: No such file"]);
        said(&depot(&[verb, &picture]), 1, &["picture.plb: refusal 3: magic (bytes 474946)", "no PLB file"]);
        said(&depot(&[verb, &short]), 1, &["refusal 2: under 7 bytes (length 3)"]);
        said(&depot(&[verb, &cut]), 1, &["refusal 11: length mismatch (computed length 41299)", "copy it again"]);
    }
    said(&depot(&["zone", "1", "2", &missing]), 2, &["No such file"]);
    said(&depot(&["zone", "1", "2", &picture]), 1, &["refusal 3"]);
    said(&depot(&["show", &folder.path("")]), 2, &["directory"]);
}

#[test]
fn zones_of_the_world() {
    let berlin = depot(&["zone", WORLD, "52.52", "13.40"]);
    said(&berlin, 0, &["Europe/Berlin: in the zone", "  CountryName: Germany", "search: whole"]);
    // the order of before
    assert_eq!(depot(&["zone", "52.52", "13.40", WORLD]), berlin);
    said(&depot(&["zone", WORLD, "-33.87", "-151.21"]), 1, &["no zone holds the fix"]);
    let explained = depot(&["zone", "52.52", "13.40", WORLD, "--explain", "--strict"]);
    said(&explained, 0, &["entry 577 at byte 5586: box 47.109375 6.328125 to 54.843750 14.765625, border at byte 33503, 87 points", "0.786118 degrees away"]);
    said(&depot(&["zone", "-33.87", "151.21", WORLD]), 0, &["Australia/Sydney"]);
    said(&depot(&["zone", "41.88", "-87.63", WORLD]), 0, &["America/Chicago: on a vertex of its border", "America/Detroit"]);
    said(&depot(&["zone", "0", "-30", WORLD, "--explain"]), 1, &["no zone holds the fix", "search: whole", "no border was near"]);
}

#[test]
fn yards_of_the_example() {
    let folder = Folder::new("yards");
    let file = yards(&folder);
    let zone = |lat: &str, lon: &str| depot(&["zone", lat, lon, &file]);
    said(&zone("0.0035", "109.338"), 0, &["Asia/Pontianak, Tank farm: in the zone", "  Use: tanks 1 to 8"]);
    // in the tank farm's hole
    said(&zone("0.0044", "109.3392"), 1, &["no zone holds the fix"]);
    said(&zone("0.0037", "109.3363"), 0, &["Additive stores"]);
    said(&zone("0.0047", "109.3363"), 0, &["Additive stores"]);
    said(&zone("0.0042", "109.3363"), 1, &["no zone holds the fix"]);
    said(&zone("-0.0015", "109.3395"), 0, &["South yard", "south of the equator"]);
    said(&zone("0.002", "109.3455"), 0, &["Etc/UTC, Berth 1"]);
    said(&depot(&["check", &file]), 0, &["read 12 entries, 94 points, 40 strings of 10 zones; asked 24 lookups", "in order"]);
    let shown = depot(&["show", &file]);
    said(&shown, 0, &["time zones (type T), version 1, precision 25 (a step is 0.60 m)", "notice: a notice", "10 zones with 12 borders of 94 points"]);
    said(&shown, 0, &["fields: Name, TimezoneIdPrefix, TimezoneId, Use", "5 points", "4 points, a hole"]);
}

#[test]
fn borders_as_geojson() {
    let folder = Folder::new("geojson");
    let file = yards(&folder);
    let printed = depot(&["show", "--geojson", &file]);
    said(&printed, 0, &[]);
    let value: Value = serde_json::from_str(&printed.out).unwrap();
    let features = value["features"].as_array().unwrap();
    assert_eq!(features.len(), 10);
    assert_eq!(features[0]["properties"]["Name"], "Tank farm");
    assert_eq!(features[0]["geometry"]["coordinates"].as_array().unwrap().len(), 2);
    assert_eq!(features[8]["geometry"]["type"], "MultiPolygon");
    let out = folder.path("back.geojson");
    said(&depot(&["show", "--geojson", &file, "-o", &out]), 0, &["10 features"]);
    assert_eq!(fs::read_to_string(&out).unwrap(), printed.out);
    assert_eq!(folder.names(), ["back.geojson", "yards.plb"]);
    said(&depot(&["show", &file, "-o", &out]), 2, &["--geojson"]);
}

#[test]
fn damaged_files_are_not_in_order() {
    let folder = Folder::new("damaged");
    let good = fs::read(yards(&folder)).unwrap();
    // the last border's last two bytes: it runs past the end
    let mut bad = good.clone();
    let end = bad.len() - 2;
    bad[end..].fill(0x81);
    let cut = folder.with("cut.plb", &bad);
    said(&depot(&["check", &cut]), 1, &["not in order", "border at byte", "the file's end cuts the number at byte", "refusal 31"]);
    said(&depot(&["show", &cut]), 0, &["which can't be read to its end"]);
    said(&depot(&["show", "--geojson", &cut]), 1, &["the border of entry", "depot check says more"]);
    // every other damage: an answer, and never a crash
    let mut random = common::Random(3);
    for _ in 0..12 {
        let mut bad = good.clone();
        for _ in 0..3 {
            let place = random.between(7.0, bad.len() as f64) as usize;
            bad[place] = random.between(0.0, 256.0) as u8;
        }
        let path = folder.with("bad.plb", &bad);
        assert!(depot(&["check", &path]).status < 2);
        assert!(depot(&["show", &path]).status < 2);
    }
}

/// A file whose end cuts a number. `zone --strict` alone can be asked again without it.
#[test]
fn a_file_that_is_cut_inside_a_number() {
    let folder = Folder::new("cut-number");
    let (head, out) = (folder.with("head.plb", b"PLBT\x01\x10\0\0\x80"), folder.path("out"));
    let refused = format!("depot: {head}: refusal 31: a number that the file's end cuts\n  the file was cut inside a number: copy it again");
    for words in [&["check", &head][..], &["salvage", &head, "-o", &out], &["bundle", ZONEINFO, "-o", &out, "--map", &head]] {
        let ran = depot(words);
        assert_eq!((ran.status, ran.err), (1, format!("{refused}\n")), "{words:?}");
    }
    let ran = depot(&["zone", &head, "0", "0", "--strict"]);
    assert_eq!((ran.status, ran.err), (1, format!("{refused}, or look it up without --strict\n")));
    // a border's last number: it is the lookup that meets it
    let border = folder.with("border.plb", b"PLBC\x01\x10\0\0\x06\0\x09\x04\x04\x14\x14\0\0\x30\x80\x02\x80\x04\x81\x02\0\x80");
    said(&depot(&["zone", &border, "0.0137", "0.0275", "--strict"]), 1, &["border.plb: refusal 31", "copy it again, or look it up without --strict"]);
    said(&depot(&["zone", &border, "0.0137", "0.0275"]), 0, &["search: whole"]);
    assert_eq!(folder.names(), ["border.plb", "head.plb"]);
}

/// A zone, an entry above it, and behind that a hole of the zone.
const OUT_OF_ORDER: [u8; 54] = [
    0x50, 0x4C, 0x42, 0x43, 0x01, 0x10, 0x01, 0x04, 0xCE, 0xE1, 0xED, 0xE5, 0x00, 0x12, 0x02, 0x12, 0x04, 0x04, 0x14, 0x14, 0x00, 0x00, 0x28, 0x28, 0x28, 0x28, 0x00, 0x00, 0x04, 0x04, 0x14, 0x14, 0x00, 0x09,
    0x01, 0xC1, 0x30, 0x80, 0x02, 0x80, 0x04, 0x81, 0x02, 0x00, 0x00, 0x30, 0x80, 0x04, 0x80, 0x02, 0x82, 0x04, 0x00, 0x00,
];

#[test]
fn a_table_out_of_order() {
    let folder = Folder::new("order");
    let path = folder.with("order.plb", OUT_OF_ORDER);
    said(&depot(&["check", &path]), 1, &["entry 2 at byte 28: its lower latitude is below", "(mark 4)", "outside its box"]);
    said(&depot(&["zone", "0.0137", "0.0275", &path]), 1, &["A: in the zone", "(mark 4)"]);
}

#[test]
fn zones_through_an_index() {
    let folder = Folder::new("index");
    let index = folder.path("world.index");
    said(&depot(&["index", WORLD, "-o", &index]), 0, &["world.index: 13,412 words, 53,648 bytes for 868 entries; a lookup reads 1.5 of them, at most 13"]);
    assert_eq!(folder.names(), ["world.index"]);
    for (lat, lon) in [("52.52", "13.40"), ("41.88", "-87.63"), ("-33.87", "151.21"), ("0", "-30"), ("90", "180"), ("-90", "-180")] {
        let plain = depot(&["zone", lat, lon, WORLD, "--explain"]);
        assert_eq!(depot(&["zone", lat, lon, WORLD, "--explain", "--index", &index]), plain);
    }
    // the yards' own, and that of another file
    let file = yards(&folder);
    let zone = |index: &str| depot(&["zone", "0.0035", "109.338", &file, "--index", index]);
    said(&zone(&index), 1, &["world.index: refusal 36: index and file differ", "it is not what is built for", "yards.plb -o"]);
    let own = folder.path("yards.index");
    said(&depot(&["index", &file, "-o", &own]), 0, &["for 12 entries"]);
    said(&zone(&own), 0, &["Asia/Pontianak, Tank farm: in the zone", "search: whole"]);
    said(&depot(&["zone", "52.52", "13.40", WORLD, "--index", &own]), 1, &["refusal 36"]);
    said(&depot(&["zone", "52.52", "13.40", WORLD, "--index", &index, "--strict"]), 2, &["--strict"]);
}

#[test]
fn indexes_that_are_none() {
    let folder = Folder::new("no-index");
    let zone = |index: &str| depot(&["zone", "52.52", "13.40", WORLD, "--index", index]);
    said(&zone(&folder.path("missing")), 2, &["missing: No such file"]);
    said(&zone(&folder.with("odd", "12345")), 2, &["odd: 5 bytes are no whole number of words", "build it again"]);
    said(&zone(&folder.with("zeros", [0; 12000])), 1, &["refusal 36", "depot index"]);
    said(&zone(WORLD), 2, &["no whole number of words"]);
    said(&depot(&["index", WORLD]), 2, &["--output"]);
    let out = folder.path("out.index");
    said(&depot(&["index", &folder.path("missing"), "-o", &out]), 2, &["No such file"]);
    said(&depot(&["index", &folder.with("picture.plb", "GIF89a.."), "-o", &out]), 1, &["refusal 3"]);
    said(&depot(&["index", &folder.with("order.plb", OUT_OF_ORDER), "-o", &out]), 1, &["refusal 34: a table that is not in order", "depot check names the entries"]);
    said(&depot(&["index", WORLD, "-o", &folder.path("none/out.index")]), 2, &["this file was not written"]);
    assert_eq!(folder.names(), ["odd", "order.plb", "picture.plb", "zeros"]);
}

#[test]
fn zones_by_an_atlas() {
    let folder = Folder::new("atlas");
    let atlas = folder.path("world.atlas");
    let built = depot(&["atlas", WORLD, "-o", &atlas]);
    said(&built, 0, &["world.atlas: ", " words, ", " % of the file; built in "]);
    assert_eq!(folder.names(), ["world.atlas"]);
    let map = uskelzar::Map::read(WORLD).unwrap();
    let words = uskelzar::Atlas::build(&map).unwrap();
    assert_eq!(fs::read(&atlas).unwrap(), words.to_bytes());
    let share = 400.0 * words.words().len() as f64 / map.bytes().len() as f64;
    said(&built, 0, &[&format!(", {share:.1} % of the file")]);
    said(&depot(&["atlas", WORLD, "--check", &atlas]), 0, &["world.atlas: the atlas of ", "world-9.plb: ", "; checked in "]);
    for (lat, lon) in [("52.52", "13.40"), ("41.88", "-87.63"), ("-33.87", "151.21"), ("0", "-30"), ("90", "180"), ("-90", "-180")] {
        let plain = depot(&["zone", WORLD, lat, lon, "--explain"]);
        assert_eq!(depot(&["zone", WORLD, lat, lon, "--explain", "--atlas", &atlas]), plain);
    }
    // the yards' own, and that of another file
    let file = yards(&folder);
    let zone = |atlas: &str| depot(&["zone", &file, "0.0035", "109.338", "--atlas", atlas]);
    let own = folder.path("yards.atlas");
    said(&zone(&atlas), 1, &["world.atlas: refusal 36: no atlas of this map: it was built for another map", "depot atlas ", "yards.plb -o ", "world.atlas"]);
    said(&depot(&["atlas", &file, "-o", &own]), 0, &["yards.atlas: "]);
    said(&zone(&own), 0, &["Asia/Pontianak, Tank farm: in the zone", "search: whole"]);
    said(&depot(&["atlas", WORLD, "--check", &own]), 1, &["yards.atlas: refusal 36", "depot atlas "]);
    said(&depot(&["zone", WORLD, "52.52", "13.40", "--atlas", &atlas, "--strict"]), 2, &["--strict"]);
    said(&depot(&["zone", WORLD, "52.52", "13.40", "--atlas", &atlas, "--index", &atlas]), 2, &["--index"]);
}

/// Words that are no atlas of the file are refused by every verb that takes one, with why and what to do; what is written takes the place of no input.
#[test]
fn atlases_that_are_none() {
    let folder = Folder::new("no-atlas");
    let good = uskelzar::Atlas::build(&uskelzar::Map::read(WORLD).unwrap()).unwrap().to_bytes();
    let mut damaged = good.clone();
    damaged[good.len() - 3] ^= 64;
    let whys = [
        (folder.with("odd", &good[..good.len() - 1]), "so it was cut or is an index; build it again with `depot atlas`"),
        (folder.with("cut", &good[..good.len() / 8 * 4]), "so it was cut or is an index; build it again with `depot atlas`"),
        (folder.with("damaged", &damaged), "it is of another release, or damaged; build it again with `depot atlas`"),
        (folder.with("zeros", [0; 12000]), "it was built for another map, or for this one before it was changed; build it again with `depot atlas`"),
    ];
    for (atlas, why) in &whys {
        said(&depot(&["zone", WORLD, "52.52", "13.40", "--atlas", atlas]), 1, &["refusal 36: no atlas of this map: ", why, &format!("world-9.plb -o {atlas}")]);
        said(&depot(&["atlas", WORLD, "--check", atlas]), 1, &["refusal 36: no atlas of this map: ", why]);
    }
    said(&depot(&["zone", WORLD, "1", "2", "--atlas", &folder.path("missing")]), 2, &["missing: No such file"]);
    said(&depot(&["atlas", WORLD]), 2, &["--output"]);
    said(&depot(&["atlas", WORLD, "-o", &folder.path("x"), "--check", &whys[0].0]), 2, &["--check"]);
    let out = folder.path("out.atlas");
    said(&depot(&["atlas", &folder.path("missing"), "-o", &out]), 2, &["No such file"]);
    said(&depot(&["atlas", &folder.with("picture.plb", "GIF89a.."), "-o", &out]), 1, &["refusal 3"]);
    let order = folder.with("order.plb", OUT_OF_ORDER);
    said(&depot(&["atlas", &order, "-o", &out]), 1, &["refusal 34: a table that is not in order", "depot check names the entries", "without an index or an atlas"]);
    said(&depot(&["zone", &order, "1", "2", "--atlas", &whys[0].0]), 1, &["order.plb: refusal 34"]);
    said(&depot(&["atlas", &order, "-o", &order]), 1, &["refusal 34"]);
    said(&depot(&["atlas", WORLD, "-o", &folder.path("none/out.atlas")]), 2, &["this file was not written"]);
    let file = yards(&folder);
    said(&depot(&["atlas", &file, "-o", &file]), 2, &["which is read: give another name with -o; this file was not written"]);
    said(&depot(&["atlas", &file, "-o", "/dev/null"]), 2, &["is there and is no file"]);
    assert_eq!(folder.names(), ["cut", "damaged", "odd", "order.plb", "picture.plb", "yards.plb", "zeros"]);
}

#[test]
fn a_day_of_slips() {
    let folder = Folder::new("day");
    let out = folder.path("slips.csv");
    said(&depot(&["stamp", DAY, "-o", &out, WORLD, ZONEINFO]), 1, &["7 lines, 4 stamped, 1 unreadable line, 1 no zone, 1 hours differ"]);
    let slips = fs::read_to_string(&out).unwrap();
    let lines: Vec<&str> = slips.lines().collect();
    assert_eq!(lines.len(), 8);
    assert!(lines[0].starts_with("slip,latitude,longitude,instant,line,local,offset,abbreviation,zone,unreadable line,no fix,out of range,map refused,"));
    let printed = "Wed 2026-07-01 13:59:59 +02:00 CEST Europe/Berlin";
    assert_eq!(lines[1], format!("1001,52.52,13.40,2026-07-01T11:59:59Z,{printed},2026-07-01 13:59:59,+02:00,CEST,Europe/Berlin{}", ",".repeat(14)));
    assert!(lines[5].ends_with(",86 0 0 no zone holds the fix,,,,,,,"), "{slips}");
    assert!(lines[7].contains("latitude \"\"95.0\"\" is no number from -90 to 90"));
    assert_eq!(folder.names(), ["slips.csv"]);
    // lines without names, all of them stamped
    let plain = folder.with("plain.csv", "52.52,13.40,1782907199\n-33.87, 151.21, 1782907199\n");
    said(&depot(&["stamp", &plain, "-o", &out, WORLD, ZONEINFO]), 0, &["2 lines, 2 stamped"]);
    assert!(fs::read_to_string(&out).unwrap().starts_with("latitude,longitude,instant,line,local,"));
}

/// A fix on the line that two yards share.
fn on_the_quay(file: &str) -> (f32, f32) {
    let map = uskelzar::Map::read(file).unwrap();
    let near = |middle: f32| (-20..20).map(move |i| middle + i as f32 * 4e-6);
    let mut fixes = near(0.002).flat_map(|lat| near(109.34449).map(move |lon| (lat, lon)));
    fixes.find(|(lat, lon)| map.lookup(*lat, *lon).unwrap().matches.len() == 2).unwrap()
}

#[test]
fn slips_of_the_yards() {
    let folder = Folder::new("yard-slips");
    let file = yards(&folder);
    let (lat, lon) = on_the_quay(&file);
    let fixes = ["0.0035,109.338".into(), "0.002,109.3455".into(), "0.0044,109.3392".into(), format!("{lat},{lon}")];
    let lines: String = fixes.iter().map(|fix| format!("{fix},2026-07-01T11:59:59Z\n")).collect();
    let day = folder.with("day.csv", format!("lat,lon,time\n{lines}"));
    let out = folder.path("slips.csv");
    said(&depot(&["stamp", &day, "-o", &out, &file, ZONEINFO]), 1, &["4 lines, 2 stamped, 1 no zone, 1 hours differ"]);
    let slips = fs::read_to_string(&out).unwrap();
    assert!(slips.contains("Wed 2026-07-01 18:59:59 +07:00 WIB Asia/Pontianak,2026-07-01 18:59:59,+07:00,WIB,Asia/Pontianak"), "{slips}");
    assert!(slips.contains("2026-07-01 11:59:59,+00:00,UTC,Etc/UTC"), "{slips}");
}

#[test]
fn stamps_that_are_not_run() {
    let folder = Folder::new("not-run");
    let out = folder.path("slips.csv");
    let empty = folder.with("empty.csv", "");
    let unnamed = folder.with("unnamed.csv", "where,when\nhere,now\n");
    said(&depot(&["stamp", &empty, "-o", &out, WORLD, ZONEINFO]), 2, &["empty.csv: is empty"]);
    said(&depot(&["stamp", &unnamed, "-o", &out, WORLD, ZONEINFO]), 2, &["no column \"latitude\""]);
    said(&depot(&["stamp", DAY, "-o", &out, WORLD, &folder.path("none")]), 2, &["none: No such file", "give the folder", "/usr/share/zoneinfo"]);
    said(&depot(&["stamp", &folder.path("none.csv"), "-o", &out, WORLD, ZONEINFO]), 2, &["none.csv"]);
    said(&depot(&["stamp", DAY, "-o", &folder.path("none/slips.csv"), WORLD, ZONEINFO]), 2, &["this file was not written"]);
    assert_eq!(folder.names(), ["empty.csv", "unnamed.csv"]);
}

#[test]
fn a_picture() {
    let folder = Folder::new("picture");
    let file = yards(&folder);
    let out = folder.path("yards.png");
    said(&depot(&["draw", &file, "-o", &out, "--columns", "120", "--plain"]), 0, &["120 by 94 pixels, 10 zones", "Asia/Pontianak, Tank farm", "Etc/UTC, Berth 1"]);
    let picture = png::Decoder::new(fs::File::open(&out).unwrap());
    let mut reader = picture.read_info().unwrap();
    let mut pixels = vec![0; reader.output_buffer_size()];
    reader.next_frame(&mut pixels).unwrap();
    let colours: std::collections::HashSet<&[u8]> = pixels.chunks_exact(3).collect();
    assert!(colours.len() > 8 && colours.contains(&[233, 240, 245][..]), "{colours:?}");
    let part = depot(&["draw", &file, "-o", &out, "--columns", "60", "--frame", "-0.003,109.336,-0.0001,109.343"]);
    said(&part, 0, &["1 zone", "South yard"]);
    assert_eq!(folder.names(), ["yards.plb", "yards.png"].map(String::from));
}

#[test]
fn what_would_be_built() {
    let dry = depot(&["build", YARDS, "--dry-run", "--precision", "25"]);
    said(&dry, 0, &["10 features, 12 borders (1 of holes), 94 points", "a step is 0.0000054 degrees of latitude (0.60 m)", "points moved by up to"]);
    said(&dry, 0, &["borrowed: 4 pieces (3 backward)", "borders take 288 bytes in place of 340 (15.3% saved)"]);
    said(&depot(&["build", YARDS, "--dry-run", "--version", "0"]), 0, &["nothing to borrow"]);
    let coarse = depot(&["build", YARDS, "--dry-run", "--precision", "12"]);
    said(&coarse, 1, &["yards.geojson: feature 1 (Tank farm): nothing of it is left on the grid", "give a higher --precision", "--leave-out"]);
    said(&depot(&["build", YARDS, "--dry-run", "--precision", "12", "--leave-out"]), 1, &["no yards"]);
}

/// The example as a new user builds it, looks it up, shows it and draws it.
#[test]
fn what_is_built() {
    let folder = Folder::new("built");
    let out = folder.path("yards.plb");
    let built = depot(&["build", YARDS, "-o", &out, "--precision", "25", "--notice", "a notice"]);
    said(&built, 0, &["10 features, 12 borders (1 of holes), 94 points", "borrowed: 4 pieces (3 backward)", "yards.plb: 892 bytes"]);
    assert_eq!(fs::read(&out).unwrap(), fs::read(yards(&folder)).unwrap());
    said(&depot(&["check", &out]), 0, &["in order"]);
    said(&depot(&["zone", "0.0035", "109.338", &out, "--explain"]), 0, &["Asia/Pontianak, Tank farm: in the zone", "search: whole"]);
    said(&depot(&["show", &out]), 0, &["10 zones with 12 borders"]);
    said(&depot(&["draw", &out, "-o", &folder.path("yards.png"), "--columns", "80"]), 0, &["10 zones"]);
    let slips = folder.path("slips.csv");
    said(&depot(&["stamp", YARD_DAY, "-o", &slips, &out, ZONEINFO]), 1, &["6 lines, 4 stamped, 1 no zone, 1 hours differ"]);
    fs::remove_file(slips).unwrap();
    // over a file that is there already; and nothing is left beside it
    said(&depot(&["build", YARDS, "-o", &out, "--version", "0", "--type", "C"]), 0, &["nothing to borrow"]);
    said(&depot(&["show", &out]), 0, &["countries (type C), version 0, precision 21"]);
    assert_eq!(folder.names(), ["yards.plb", "yards.png"]);
}

#[test]
fn what_is_not_written() {
    let folder = Folder::new("not-written");
    said(&depot(&["build", YARDS, "-o", &folder.path("none/yards.plb")]), 2, &["this file was not written"]);
    said(&depot(&["build", YARDS, "-o", &folder.path("yards.plb"), "--precision", "12"]), 1, &["nothing of it is left on the grid"]);
    said(&depot(&["build", YARDS, "-o", &folder.path("yards.plb"), "--notice", &"n".repeat(256)]), 1, &["the notice has 256 bytes"]);
    assert!(folder.names().is_empty());
}

#[test]
fn polygons_that_are_none() {
    let folder = Folder::new("no-polygons");
    let try_one = |text: &str, status: i32, words: &[&str]| {
        let path = folder.with("in.geojson", text);
        said(&depot(&["build", &path, "--dry-run"]), status, words);
    };
    let feature = |geometry: &str| format!(r#"{{"type": "FeatureCollection", "features": [{{"type": "Feature", "properties": {{"Name": "Gate"}}, "geometry": {geometry}}}]}}"#);
    try_one("{", 2, &["in.geojson: is no JSON", "line 1"]);
    try_one("[1]", 2, &["is no GeoJSON"]);
    try_one(r#"{"type": "FeatureCollection", "features": []}"#, 1, &["no yards"]);
    try_one(&feature(r#"{"type": "Point", "coordinates": [1, 2]}"#), 2, &["feature 1 (Gate) is a Point", "take it out"]);
    try_one(&feature(r#"{"type": "Polygon", "coordinates": [[[1, 1], [2, 1], [1, 1]]]}"#), 2, &["feature 1 (Gate), ring 1: it has 2 points"]);
    try_one(&feature(r#"{"type": "Polygon", "coordinates": [[[13.4, 52.5], [13.5, 52.5], [52.6, 113.4]]]}"#), 2, &["ring 1, point 3: latitude 113.4", "longitude first"]);
    try_one(&feature(r#"{"type": "Polygon", "coordinates": [[[1, 1], [1.000001, 1], [1, 1.000001]]]}"#), 1, &["feature 1 (Gate): nothing of it is left"]);
    try_one(&feature("null"), 1, &["no yards"]);
    said(&depot(&["build", &folder.path("none.geojson"), "--dry-run"]), 2, &["none.geojson: No such file"]);
}

#[test]
fn what_is_left_of_a_damaged_file() {
    let folder = Folder::new("salvage");
    let (whole, new) = (yards(&folder), folder.path("new.plb"));
    said(&depot(&["salvage", &whole, "-o", &new]), 0, &["kept, 0 dropped"]);
    said(&depot(&["check", &new]), 0, &["in order"]);
    // the last border loses its end
    let mut bytes = fs::read(&whole).unwrap();
    let end = bytes.len();
    bytes[end - 2..].fill(0x80);
    let cut = folder.with("cut.plb", bytes);
    said(&depot(&["salvage", &cut, "-o", &new]), 1, &["entry ", "kept, 1 dropped"]);
    said(&depot(&["check", &new]), 0, &["in order"]);
    said(&depot(&["salvage", &folder.path("missing.plb"), "-o", &new]), 2, &["No such file"]);
}
