//! Drawings in other forms: sequences, a feature a line, and what GDAL reads.

mod common;

use common::{depot, depot_of, Folder, Ran, YARDS};
use serde_json::Value;
use std::fs;
use std::os::unix::fs::PermissionsExt;
use std::process::Command;

fn features() -> Vec<Value> {
    let all: Value = serde_json::from_slice(&fs::read(YARDS).unwrap()).unwrap();
    all["features"].as_array().unwrap().clone()
}

fn built(folder: &Folder, drawing: &str) -> (Ran, Vec<u8>) {
    let out = folder.path("out.plb");
    let ran = depot(&["build", drawing, "-o", &out, "--precision", "25"]);
    let file = fs::read(&out).unwrap_or_default();
    (ran, file)
}

#[test]
fn the_same_yards_in_other_forms() {
    let folder = Folder::new("forms");
    let (_, plain) = built(&folder, YARDS);
    let sequence: String = features().iter().map(|feature| format!("\u{1e}{feature}\n")).collect();
    let lines: String = features().iter().map(|feature| format!("{feature}\n")).collect();
    for (name, text, words) in [("yards.geojsons", &sequence, "note: a sequence of 10 texts (RFC 8142)"), ("yards.ndjson", &lines, "note: 10 lines of JSON, each a text of its own")] {
        let (ran, file) = built(&folder, &folder.with(name, text));
        assert!(ran.status == 0 && ran.out.contains(words), "{ran:?}");
        assert!(file == plain, "{name}");
        let ran = depot_of(&["build", "-", "--dry-run", "--precision", "25"], text.as_bytes());
        assert!(ran.status == 0 && ran.out.contains("10 features"), "{ran:?}");
    }
    let cut = folder.with("cut.geojsons", &sequence[..sequence.len() - 20]);
    let ran = depot(&["build", &cut, "--dry-run"]);
    assert!(ran.status == 2 && ran.err.contains("text 10 of the sequence is no JSON"), "{ran:?}");
}

/// Runs depot with these programs alone.
fn depot_by(programs: &str, words: &[&str]) -> Ran {
    let ran = Command::new(env!("CARGO_BIN_EXE_depot")).args(words).env("PATH", programs).output().unwrap();
    let text = |bytes| String::from_utf8(bytes).unwrap();
    Ran { status: ran.status.code().unwrap(), out: text(ran.stdout), err: text(ran.stderr) }
}

/// A program in the place of GDAL's is given the file's whole path, and what it writes is built.
#[test]
fn what_another_program_reads() {
    if std::env::var_os("CARGO_TARGET_X86_64_UNKNOWN_LINUX_GNU_RUNNER").is_some() {
        println!("not run: the emulator is found by the path that this test changes");
        return;
    }
    let folder = Folder::new("ogr");
    let programs = folder.path("bin");
    fs::create_dir(&programs).unwrap();
    let drawing = folder.with("-yards.kml", "<kml/>");
    let ran = depot_by(&programs, &["build", &drawing, "--dry-run", "--precision", "25"]);
    assert!(ran.status == 2 && ran.err.contains("is no GeoJSON, and ogr2ogr does not run") && ran.err.contains("gdal-bin"), "{ran:?}");
    let program = |text: &str| {
        let path = folder.with("bin/ogr2ogr", format!("#!/bin/sh\n{text}\n"));
        fs::set_permissions(path, fs::Permissions::from_mode(0o755)).unwrap();
    };
    program(&format!(r#"[ "$*" = "-f GeoJSON -lco RFC7946=YES /vsistdout/ {drawing}" ] || exit 3; echo 'a warning' >&2; while read -r line; do echo "$line"; done <{YARDS}"#));
    let ran = depot_by(&programs, &["build", &drawing, "--dry-run", "--precision", "25"]);
    assert!(ran.status == 0 && ran.out.contains("10 features") && ran.out.contains("note: read by ogr2ogr, which gives degrees to seven decimals\nnote: ogr2ogr says: a warning"), "{ran:?}");
    for (text, words) in [("echo 'no driver' >&2; exit 1", "ogr2ogr does not read it: no driver"), ("echo x", "ogr2ogr made no JSON of it")] {
        program(text);
        let ran = depot_by(&programs, &["build", &drawing, "--dry-run"]);
        assert!(ran.status == 2 && ran.err.contains(words), "{ran:?}");
    }
}

/// GDAL's own program, where it is installed: the example as KML, a shapefile's folder and GeoPackage has the yards of the example. A shapefile cuts
/// names of fields after ten letters, so that TimezoneIdPrefix becomes TimezoneId: that is refused, and with tzid it is read.
#[test]
fn what_gdal_reads() {
    if Command::new("ogr2ogr").arg("--version").output().is_err() {
        println!("not run: GDAL's tools are not installed (Debian's gdal-bin)");
        return;
    }
    let folder = Folder::new("gdal");
    let whole = "SELECT Name, CONCAT(TimezoneIdPrefix, TimezoneId) AS tzid, Use FROM yards";
    let all: [(&str, &str, &[&str]); 3] = [("KML", "yards.kml", &[]), ("ESRI Shapefile", "yards", &["-sql", whole]), ("GPKG", "yards.gpkg", &[])];
    let convert = |format: &str, path: &str, words: &[&str]| {
        let made = Command::new("ogr2ogr").args(["-f", format, path, YARDS]).args(words).output().unwrap();
        assert!(made.status.success(), "{made:?}");
        depot(&["build", path, "--dry-run", "--precision", "25"])
    };
    for (format, name, words) in all {
        let ran = convert(format, &folder.path(name), words);
        assert!(ran.status == 0 && ran.out.contains("10 features, 12 borders (1 of holes), 94 points") && ran.out.contains("read by ogr2ogr"), "{format}: {ran:?}");
    }
    let ran = convert("ESRI Shapefile", &folder.path("cut"), &[]);
    assert!(ran.status == 1 && ran.err.contains("10 faults in the drawing") && ran.err.contains("feature 1 (Tank farm): \"Asia/\" is no zone of "), "{ran:?}");
    let text = folder.with("notes.txt", "no drawing\n");
    let ran = depot(&["build", &text, "--dry-run"]);
    assert!(ran.status == 2 && ran.err.contains("ogr2ogr does not read it"), "{ran:?}");
}
