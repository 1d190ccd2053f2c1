//! Stamping: where yards overlap, by a bundle, what is said, and a receiver's log.

mod common;

use common::{call, depot, depot_of, Folder, DAY, WORLD, ZONEINFO};
use depot::slips::PAID_BY;
use std::fs;
use std::process::Stdio;
use std::thread::sleep;
use std::time::Duration;

const RMC: &str = "$GNRMC,115959.00,A,5231.200000,N,01324.000000,E,0.0,0.0,010726,,,A*41";

/// A bundle is taken where a folder is: the same slips, and the same words for each reason.
#[test]
fn by_a_folder_or_by_its_bundle() {
    let folder = Folder::new("stamp-bundle");
    let (zones, by_folder, by_bundle) = (folder.path("zones.tzdata"), folder.path("folder.csv"), folder.path("bundle.csv"));
    assert_eq!(depot(&["bundle", ZONEINFO, "-o", &zones]).status, 0);
    let day: String = (0..3000).map(|i| format!("{},{},1782907199\n", f64::from(i % 179 - 89) + 0.3, f64::from(i * 7 % 359 - 179) + 0.4)).collect();
    let day = folder.with("day.csv", day);
    depot(&["stamp", &day, "-o", &by_folder, WORLD, ZONEINFO]);
    let ran = depot(&["stamp", &day, "-o", &by_bundle, WORLD, &zones]);
    assert!(ran.status == 1 && ran.out.contains("3,000 lines, "), "{ran:?}");
    assert_eq!(fs::read(&by_folder).unwrap(), fs::read(&by_bundle).unwrap());
    // every number of the summary is in one form
    let summary = ran.out.split_once("bundle.csv: ").unwrap().1;
    let numbers: Vec<&str> = summary.split(|c: char| !c.is_ascii_digit() && c != ',').filter(|word| word.chars().filter(char::is_ascii_digit).count() > 3).collect();
    assert!(numbers.len() > 1 && numbers.iter().all(|word| word.contains(',')), "{ran:?}");
    // a bundle is an input too, and a map is none
    let ran = depot(&["stamp", DAY, "-o", &zones, WORLD, &zones]);
    assert!(ran.status == 2 && ran.err.contains("which is read"), "{ran:?}");
    let ran = depot(&["stamp", DAY, "-o", &by_bundle, WORLD, WORLD]);
    assert!(ran.status == 1 && ran.err.contains("refusal 89: the bundle is damaged (place 0)") && ran.err.contains("this is no bundle of zones: give the folder"), "{ran:?}");
    let ran = depot(&["stamp", DAY, "-o", &by_bundle, WORLD, &folder.path("none")]);
    assert!(ran.status == 2 && ran.err.contains("none: ") && ran.err.contains("such as /usr/share/zoneinfo, or what `depot bundle` made of one"), "{ran:?}");
    fs::create_dir(folder.path("empty")).unwrap();
    let ran = depot(&["stamp", DAY, "-o", &by_bundle, WORLD, &folder.path("empty")]);
    assert!(ran.status == 2 && ran.err.contains("has no zone"), "{ran:?}");
}

/// A day is stamped by as many threads as there are processors, here as they are asked for, and its slips stay in their order.
#[test]
fn on_all_processors() {
    let folder = Folder::new("stamp-threads");
    let day = folder.with("day.csv", (0..20_000).map(|i| format!("52.52,13.40,{i}\n")).collect::<String>());
    let out = folder.path("slips.csv");
    let mut running = call(&["stamp", &day, "-o", &out, WORLD, ZONEINFO]).env("RAYON_NUM_THREADS", "3").stdin(Stdio::null()).stdout(Stdio::null()).spawn().unwrap();
    let (tasks, mut most) = (format!("/proc/{}/task", running.id()), 0);
    while running.try_wait().unwrap().is_none() {
        most = fs::read_dir(&tasks).map_or(0, Iterator::count).max(most);
        sleep(Duration::from_millis(2));
    }
    assert!(most > 3, "{most} threads");
    let slips = fs::read_to_string(&out).unwrap();
    assert!(slips.lines().skip(1).enumerate().all(|(i, line)| line.starts_with(&format!("52.52,13.40,{i},"))), "{slips}");
}

/// A day whose lines pay for an atlas is stamped through one, which is said; through one that is given, or plainly, the slips are the same.
#[test]
fn by_an_atlas() {
    let folder = Folder::new("stamp-atlas");
    let (atlas, one, other) = (folder.path("world.atlas"), folder.path("one.csv"), folder.path("other.csv"));
    assert_eq!(depot(&["atlas", WORLD, "-o", &atlas]).status, 0);
    let lines: Vec<String> = (0..PAID_BY).map(|i| format!("{},{},1782907199\n", i as f64 % 179.0 - 88.7, (i * 7) as f64 % 359.0 - 178.6)).collect();
    let (most, all) = (folder.with("most.csv", lines[1..].concat()), folder.with("all.csv", lines.concat()));
    let ran = depot(&["stamp", &all, "-o", &one, WORLD, ZONEINFO]);
    assert!(ran.out.contains("note: an atlas of the map was built for so many lines, ") && ran.out.contains(" words; depot atlas keeps one, and --atlas takes it\n"), "{ran:?}");
    let ran = depot(&["stamp", &all, "-o", &other, WORLD, ZONEINFO, "--atlas", &atlas]);
    assert!(!ran.out.contains("note: "), "{ran:?}");
    assert_eq!(fs::read(&one).unwrap(), fs::read(&other).unwrap());
    let ran = depot(&["stamp", &most, "-o", &other, WORLD, ZONEINFO]);
    assert!(!ran.out.contains("note: "), "{ran:?}");
    let without_first = |path: &str| fs::read_to_string(path).unwrap().lines().skip(1).map(str::to_string).collect::<Vec<_>>();
    assert_eq!(without_first(&one)[1..], without_first(&other));
    // an atlas is an input, and it is the map's or none
    let ran = depot(&["stamp", DAY, "-o", &atlas, WORLD, ZONEINFO, "--atlas", &atlas]);
    assert!(ran.status == 2 && ran.err.contains("which is read"), "{ran:?}");
    let ran = depot(&["stamp", DAY, "-o", &other, WORLD, ZONEINFO, "--atlas", &all]);
    assert!(ran.status == 1 && ran.err.contains("refusal 36: no atlas of this map"), "{ran:?}");
}

/// A zone whose file is not in the folder, or is left out of its bundle, is not stamped; of the second it is said why.
#[test]
fn zones_that_are_not_there() {
    let folder = Folder::new("stamp-missing");
    let (zones, out) = (folder.path("zones"), folder.path("slips.csv"));
    fs::create_dir_all(format!("{zones}/Europe")).unwrap();
    fs::copy(format!("{ZONEINFO}/Asia/Tokyo"), format!("{zones}/Tokyo")).unwrap();
    // UT with a leap second at 1970, version 1
    let mut leaping = [&b"TZif"[..], &[0; 16], &[0, 0, 0, 0, 0, 0, 0, 0, 0, 0, 0, 1, 0, 0, 0, 0, 0, 0, 0, 1, 0, 0, 0, 4]].concat();
    leaping.extend(*b"\0\0\0\0\0\0UTC\0\0\0\0\0\0\0\0\x01");
    fs::write(format!("{zones}/Europe/Berlin"), leaping).unwrap();
    let day = folder.with("day.csv", "52.52,13.40,0\n-33.87,151.21,0\n52.52,13.40,1\n");
    let ran = depot(&["stamp", &day, "-o", &out, WORLD, &zones]);
    assert!(ran.status == 1 && ran.out.contains("3 lines, 0 stamped, 3 no zone file\n"), "{ran:?}");
    assert!(ran.out.contains("note: Europe/Berlin is left out of the bundle of zones: refusal 91: the zone's file counts leap seconds\n"), "{ran:?}");
    assert_eq!(ran.out.matches("note: ").count(), 1, "{ran:?}");
    assert_eq!(fs::read_to_string(&out).unwrap().matches(",88 1 0 the zone is not in the bundle,").count(), 3);
}

/// Two yards that overlap hold a fix inside both: that is no border.
#[test]
fn yards_that_overlap() {
    let folder = Folder::new("overlap");
    let yard = |name: &str, tzid: &str, west: u32, east: u32| {
        format!(r#"{{"type":"Feature","properties":{{"Name":"{name}","tzid":"{tzid}"}},"geometry":{{"type":"Polygon","coordinates":[[[{west},1],[{east},1],[{east},4],[{west},4],[{west},1]]]}}}}"#)
    };
    let drawing = format!(r#"{{"type":"FeatureCollection","features":[{},{}]}}"#, yard("A", "Europe/Berlin", 1, 4), yard("B", "Asia/Tokyo", 3, 6));
    let (drawing, map, out) = (folder.with("two.geojson", drawing), folder.path("two.plb"), folder.path("slips.csv"));
    depot(&["build", &drawing, "-o", &map, "--precision", "20"]);
    let day = folder.with("day.csv", "lat,lon,time\n2.5,3.5,0\n2.5,3,0\n");
    let ran = depot(&["stamp", &day, "-o", &out, &map, ZONEINFO]);
    assert!(ran.out.contains("2 lines, 0 stamped, 2 hours differ"), "{ran:?}");
    let slips = fs::read_to_string(&out).unwrap();
    assert!(slips.lines().skip(1).all(|line| line.ends_with(",92 0 0 the hours differ")) && !slips.contains("border"), "{slips}");
}

/// Sentences are the library's to read: RMC is stamped, others are passed over, and what is damaged is said.
#[test]
fn a_receivers_log() {
    let folder = Folder::new("log");
    let out = folder.path("slips.csv");
    let sentences = [RMC, "$GPGLL,,,,,,V,N*64", "$GNRMC,115959.00,V,,,,,,,010726,,,N*61", &RMC.replace("5231.2", "5231.3"), "", "0 -30 0"];
    let log = folder.with("day.nmea", sentences.join("\r\n"));
    let ran = depot(&["stamp", &log, "-o", &out, WORLD, ZONEINFO]);
    assert!(ran.status == 1 && ran.out.contains("5 lines, 1 stamped, 2 unreadable line, 1 no fix, 1 no zone\nnote: 1 other sentence passed over\n"), "{ran:?}");
    let slips = fs::read_to_string(&out).unwrap();
    let lines: Vec<&str> = slips.lines().collect();
    assert!(lines[0].starts_with("latitude,longitude,instant,request,line,local,offset,abbreviation,zone,unreadable line,no fix,"), "{slips}");
    assert!(lines[1].starts_with(&format!("52.52,13.4,1782907199,\"{RMC}\",Wed 2026-07-01 13:59:59 +02:00 CEST Europe/Berlin,2026-07-01 13:59:59,+02:00,CEST,Europe/Berlin,,")), "{slips}");
    for (line, words) in [(2, ",81 0 0 the receiver has no fix,"), (3, ",82 0 66 the checksum is wrong,"), (4, ",80 0 0 not a request,"), (5, ",86 0 0 no zone holds the fix,")] {
        assert!(lines[line].contains(words), "{slips}");
    }
    // all stamped; by standard input, whose first byte says what it is
    let ran = depot_of(&["stamp", "-", "-o", "-", WORLD, ZONEINFO], format!("{RMC}\r\n$GPGLL,,,,,,V,N*64\r\n").as_bytes());
    assert!(ran.status == 0 && ran.err.contains("-: 1 line, 1 stamped\nnote: 1 other sentence passed over") && ran.out.contains("CEST Europe/Berlin"), "{ran:?}");
    let ran = depot(&["stamp", &folder.with("empty.nmea", ""), "-o", &out, WORLD, ZONEINFO]);
    assert!(ran.status == 2 && ran.err.contains("is empty"), "{ran:?}");
    // under another name it is no CSV either, and that is said; names of columns may begin so
    for log in [format!("{RMC}\r\n").into_bytes(), b"$GPTXT,\xff\r\n".to_vec(), b"$GPTXT,\"\r\n".to_vec()] {
        let ran = depot(&["stamp", &folder.with("day.log", log), "-o", &out, WORLD, ZONEINFO]);
        assert!(ran.status == 2 && ran.err.ends_with("day.log: this looks like a receiver's log: name it .nmea, or give it on standard input\n"), "{ran:?}");
    }
    let ran = depot(&["stamp", &folder.with("price.csv", "$,lat,lon,time\n5,52.52,13.40,1782907199.75\n"), "-o", &folder.path("price-slips.csv"), WORLD, ZONEINFO]);
    assert!(ran.status == 0 && ran.out.contains("1 line, 1 stamped\nnote: 1 instant with parts of a second: the second that has begun is taken\n"), "{ran:?}");
    // its slips can be shown, those that have a place
    let ran = depot(&["page", WORLD, "-o", &folder.path("page.html"), "--day", &out, "--columns", "40"]);
    assert!(ran.status <= 1 && ran.out.contains(" 2 slips;"), "{ran:?}");
}
