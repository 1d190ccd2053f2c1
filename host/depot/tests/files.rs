//! What is read and what is written: no line is lost, and no file but the one that is meant.

mod common;

use common::{call, depot, depot_of, Folder, DAY, WORLD, YARDS, ZONEINFO};
use std::fs;
use std::os::unix::fs::{symlink, PermissionsExt};
use std::process::Command;

#[test]
fn a_stray_quote_loses_no_day() {
    let folder = Folder::new("quote");
    let (out, line) = (folder.path("slips.csv"), "52.52,13.40,1782907199,x\n");
    let day = folder.with("day.csv", format!("lat,lon,time,note\n52.52,13.40,1782907199,\"stray\n{}", line.repeat(1000)));
    let ran = depot(&["stamp", &day, "-o", &out, WORLD, ZONEINFO]);
    assert_eq!(ran.status, 2, "{ran:?}");
    assert!(ran.err.contains("day.csv: line 2: a quote is opened and never closed"), "{ran:?}");
    let wide = folder.with("wide.csv", "lat,lon,time\n52.52,13.40,1782907199,and more\n");
    let ran = depot(&["stamp", &wide, "-o", &out, WORLD, ZONEINFO]);
    assert!(ran.status == 2 && ran.err.contains("line 2 has 4 cells"), "{ran:?}");
    assert_eq!(folder.names(), ["day.csv", "wide.csv"]);
}

#[test]
fn a_day_that_was_stamped_before() {
    let folder = Folder::new("again");
    let (once, twice) = (folder.path("once.csv"), folder.path("twice.csv"));
    depot(&["stamp", DAY, "-o", &once, WORLD, ZONEINFO]);
    let ran = depot(&["stamp", &once, "-o", &twice, WORLD, ZONEINFO]);
    assert!(ran.out.contains("the day has a column \"local\": ours is \"local (2)\""), "{ran:?}");
    let slips = fs::read_to_string(&twice).unwrap();
    assert!(slips.lines().next().unwrap().contains(",zone,unreadable line,"), "{slips}");
    assert!(slips.lines().next().unwrap().contains(",local (2),offset (2),"), "{slips}");
}

#[test]
fn no_input_is_written_over() {
    let folder = Folder::new("over");
    let drawing = folder.with("gg.geojson", fs::read(YARDS).unwrap());
    let link = folder.path("link.geojson");
    symlink(&drawing, &link).unwrap();
    for output in [&drawing, &link] {
        let ran = depot(&["build", &drawing, "-o", output, "--precision", "25"]);
        assert_eq!(ran.status, 2, "{ran:?}");
        assert!(ran.err.contains("which is read: give another name with -o; this file was not written"), "{ran:?}");
    }
    assert_eq!(fs::read(&drawing).unwrap(), fs::read(YARDS).unwrap());
}

/// A folder that is read: so are the files in it, in folders in it, and behind its links.
#[test]
fn no_file_of_a_folder_is_written_over() {
    let folder = Folder::new("over-folder");
    let (zones, berlin, tokyo, link) = (folder.path("tz"), folder.path("tz/Europe/Berlin"), folder.path("tokyo"), folder.path("link"));
    fs::create_dir_all(folder.0.join("tz/Europe")).unwrap();
    fs::copy(format!("{ZONEINFO}/Europe/Berlin"), &berlin).unwrap();
    fs::copy(format!("{ZONEINFO}/Asia/Tokyo"), &tokyo).unwrap();
    symlink(&tokyo, folder.0.join("tz/Tokyo")).unwrap();
    symlink(&berlin, &link).unwrap();
    // a link to the folder itself
    symlink(&zones, folder.0.join("tz/Europe/again")).unwrap();
    let (before, new) = ([fs::read(&berlin).unwrap(), fs::read(&tokyo).unwrap()], folder.path("new"));
    for output in [&berlin, &tokyo, &link] {
        let calls: [(&[&str], &str); 5] = [
            (&["bundle", &zones, "-o", output], "-o"),
            (&["stamp", DAY, "-o", output, WORLD, &zones], "-o"),
            (&["stamp", DAY, "-o", &new, WORLD, &zones, "--evidence", output], "--evidence"),
            (&["build", YARDS, "-o", output, "--zones", &zones, "--as-drawn", "--precision", "25"], "-o"),
            (&["build", YARDS, "-o", &new, "--zones", &zones, "--as-drawn", "--precision", "25", "--mend", output], "--mend"),
        ];
        for (words, option) in calls {
            let ran = depot(words);
            let said = format!("depot: {output}: is a file of {zones}, which is read: give another name with {option}; this file was not written\n");
            assert!(ran.status == 2 && ran.err == said, "{words:?}: {ran:?}");
        }
    }
    assert_eq!([fs::read(&berlin).unwrap(), fs::read(&tokyo).unwrap()], before);
    assert_eq!(folder.names(), ["link", "tokyo", "tz"]);
    // a new name in the folder is no file that is read
    assert_eq!(depot(&["bundle", &zones, "-o", &folder.path("tz/new")]).status, 0);
}

/// Of two outputs neither is put in its place where the other can't be.
#[test]
fn both_outputs_or_none() {
    let folder = Folder::new("both");
    let (old, nowhere) = (folder.with("old", "old"), folder.path("none/new"));
    let stamp = |slips: &str, evidence: &str| depot(&["stamp", DAY, "-o", slips, WORLD, ZONEINFO, "--evidence", evidence]);
    let build = |file: &str, mend: &str| depot(&["build", YARDS, "--precision", "25", "-o", file, "--mend", mend]);
    for ran in [stamp(&old, &nowhere), stamp(&nowhere, &old), stamp("-", &nowhere), build(&old, &nowhere), build(&nowhere, &old), build("-", &nowhere)] {
        let said = format!("depot: {nowhere}: No such file or directory (os error 2); this file was not written\n");
        assert_eq!((ran.status, ran.out.as_str(), ran.err), (2, "", said));
        assert_eq!(fs::read(&old).unwrap(), b"old");
    }
    // the option that names what is read
    for (ran, option) in [(stamp(&old, WORLD), "--evidence"), (stamp(WORLD, &old), "-o"), (build(&old, YARDS), "--mend"), (build(YARDS, &old), "-o")] {
        assert!(ran.status == 2 && ran.err.contains(&format!(", which is read: give another name with {option}; this file was not written")), "{ran:?}");
        assert_eq!(fs::read(&old).unwrap(), b"old");
    }
    assert_eq!(folder.names(), ["old"]);
}

/// Two outputs that are one file are told by both options, however they are spelt, and whether the file is there or not.
#[test]
fn two_names_of_one_file() {
    let folder = Folder::new("two-names");
    fs::create_dir(folder.path("in")).unwrap();
    symlink(folder.path("in"), folder.path("link")).unwrap();
    folder.with("there", "there");
    symlink(folder.path("there"), folder.path("other")).unwrap();
    for (one, other) in [("new", "./new"), ("new", "in/../new"), ("in/new", "link/new"), ("there", "in/../there"), ("there", "other"), ("-", "-")] {
        for (words, option) in [(&["stamp", DAY, "-o", one, WORLD, ZONEINFO, "--evidence", other][..], "--evidence"), (&["build", YARDS, "--precision", "25", "-o", one, "--mend", other], "--mend")] {
            let ran = call(words).current_dir(&folder.0).output().unwrap();
            let said = format!("depot: {other}: -o and {option} name one file: give two names\n");
            assert_eq!((ran.status.code(), String::from_utf8(ran.stderr).unwrap(), ran.stdout), (Some(2), said, vec![]));
        }
    }
    assert_eq!(folder.names(), ["in", "link", "other", "there"]);
    // standard output is no file of that name
    let ran = call(&["stamp", DAY, "-o", "-", WORLD, ZONEINFO, "--evidence", "./-"]).current_dir(&folder.0).output().unwrap();
    assert!(ran.status.code() == Some(1) && !ran.stdout.is_empty(), "{ran:?}");
}

/// Standard output that takes nothing: a short output too, which would stay in a buffer till the end.
#[test]
fn standard_output_that_is_full() {
    for words in [&["build", YARDS, "-o", "-", "--precision", "25"][..], &["stamp", DAY, "-o", "-", WORLD, ZONEINFO], &["bundle", ZONEINFO, "-o", "-"]] {
        let full = fs::File::options().write(true).open("/dev/full").unwrap();
        let ran = call(words).stdout(full).output().unwrap();
        assert_eq!((ran.status.code(), String::from_utf8(ran.stderr).unwrap().as_str()), (Some(2), "depot: -: No space left on device (os error 28); not all was written\n"));
    }
}

#[test]
fn only_a_file_is_replaced() {
    let folder = Folder::new("replaced");
    let pipe = folder.path("pipe");
    assert!(Command::new("mkfifo").arg(&pipe).status().unwrap().success());
    let nowhere = folder.path("nowhere");
    symlink(folder.path("none"), &nowhere).unwrap();
    for (output, words) in [("/dev/null", "is there and is no file"), (&pipe, "is there and is no file"), (&folder.path(""), "is there and is no file"), (&nowhere, "is a link to nothing")] {
        let ran = depot(&["build", YARDS, "-o", output, "--precision", "25"]);
        assert!(ran.status == 2 && ran.err.contains(words), "{output}: {ran:?}");
    }
    // behind a link the file itself is written, and keeps its mode
    let (file, link) = (folder.with("yards.plb", "old"), folder.path("link.plb"));
    fs::set_permissions(&file, fs::Permissions::from_mode(0o640)).unwrap();
    symlink(&file, &link).unwrap();
    assert_eq!(depot(&["build", YARDS, "-o", &link, "--precision", "25"]).status, 0);
    assert!(fs::symlink_metadata(&link).unwrap().is_symlink());
    assert_eq!(fs::metadata(&file).unwrap().permissions().mode() & 0o777, 0o640);
    assert_eq!(fs::metadata(&file).unwrap().len(), 884);
    assert_eq!(folder.names(), ["link.plb", "nowhere", "pipe", "yards.plb"]);
}

#[test]
fn standard_input_and_output() {
    let folder = Folder::new("standard");
    let out = folder.path("slips.csv");
    let day = fs::read(DAY).unwrap();
    depot(&["stamp", DAY, "-o", &out, WORLD, ZONEINFO]);
    let ran = depot_of(&["stamp", "-", "-o", "-", WORLD, ZONEINFO], &day);
    assert_eq!(ran.out, fs::read_to_string(&out).unwrap());
    assert!(ran.status == 1 && ran.err.contains("-: 7 lines, 4 stamped"), "{ran:?}");
}

#[test]
fn files_of_the_world() {
    let folder = Folder::new("world-files");
    let out = folder.path("slips.csv");
    let day = folder.with("day.csv", "\u{feff}Time;Long;Lat\n2026-07-01 13:59:59+0200;13,40;52,52\n2026-07-01T11:59:59.9Z;13,40;52,52\n");
    let ran = depot(&["stamp", &day, "-o", &out, WORLD, ZONEINFO]);
    assert!(ran.status == 0 && ran.out.contains("2 lines, 2 stamped"), "{ran:?}");
    assert!(ran.out.contains("note: cells are parted by semicolons") && ran.out.contains("note: 1 instant with parts of a second"), "{ran:?}");
    let day = folder.with("tabs.csv", "lat\tlong\ttime\tnote\tnote\n52.52\t13.40\t1782907199\ta\tb\n");
    let ran = depot(&["stamp", &day, "-o", &out, WORLD, ZONEINFO]);
    assert!(ran.status == 0 && ran.out.contains("note: cells are parted by tabs") && fs::read_to_string(&out).unwrap().starts_with("lat,long,time,note,note (2),"), "{ran:?}");
    let ran = depot(&["stamp", &folder.with("latin.csv", b"lat,lon,time,depot\n52.52,13.40,0,M\xfcnchen\n"), "-o", &out, WORLD, ZONEINFO]);
    assert!(ran.status == 2 && ran.err.contains("line 2 is not UTF-8: save the file as UTF-8, or turn it with `iconv"), "{ran:?}");
    let drawing = folder.with("marked.geojson", [b"\xef\xbb\xbf", fs::read(YARDS).unwrap().as_slice()].concat());
    assert_eq!(depot(&["build", &drawing, "--dry-run", "--precision", "25"]).status, 0);
    for (words, why) in [("2026-07-01T11:59:59", "has no offset: add Z"), ("2016-12-31T23:59:60Z", "is a leap second")] {
        let day = folder.with("bad.csv", format!("lat,lon,time\n52.52,13.40,{words}\n"));
        let ran = depot(&["stamp", &day, "-o", &out, WORLD, ZONEINFO]);
        assert!(ran.status == 1 && fs::read_to_string(&out).unwrap().contains(why), "{ran:?}");
    }
}

#[test]
fn a_name_with_a_control_character_is_shown() {
    let folder = Folder::new("control");
    let ring = "[[[1,1],[2,1],[2,2],[1,2],[1,1]]]";
    let drawing = format!(r#"{{"type":"Feature","properties":{{"Name":"Gate\u001b[2J"}},"geometry":{{"type":"Polygon","coordinates":{ring}}}}}"#);
    let (drawing, out) = (folder.with("in.geojson", drawing), folder.path("out.plb"));
    assert_eq!(depot(&["build", &drawing, "-o", &out, "--type", "C"]).status, 0);
    for verb in [&["show", &out][..], &["zone", "1.5", "1.5", &out]] {
        let ran = depot(verb);
        assert!(ran.status == 0 && ran.out.contains("Gate\\u{1b}[2J") && !ran.out.contains('\x1b'), "{ran:?}");
    }
}
