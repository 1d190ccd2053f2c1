//! Pictures: nothing that a file holds is too small or too far away to be seen, and a frame that is none is told by its number.

mod common;

use common::{depot, Folder, Ran, YARDS};
use std::collections::HashMap;
use std::fs;

const BORDER: [u8; 3] = [58, 74, 94];
const FONT: &str = "/usr/share/fonts/truetype/dejavu/DejaVuSans.ttf";

fn said(ran: &Ran, status: i32, words: &[&str]) {
    assert_eq!(ran.status, status, "{ran:?}");
    for words in words {
        assert!(ran.out.contains(words) || ran.err.contains(words), "no {words:?} in {ran:?}");
    }
}

struct Picture {
    width: usize,
    height: usize,
    pixels: Vec<[u8; 3]>,
}

fn picture(path: &str) -> Picture {
    let mut reader = png::Decoder::new(fs::File::open(path).unwrap()).read_info().unwrap();
    let mut bytes = vec![0; reader.output_buffer_size()];
    let info = reader.next_frame(&mut bytes).unwrap();
    let pixels = bytes.chunks_exact(3).map(|pixel| [pixel[0], pixel[1], pixel[2]]).collect();
    Picture { width: info.width as usize, height: info.height as usize, pixels }
}

impl Picture {
    fn colours(&self) -> HashMap<[u8; 3], usize> {
        let mut colours = HashMap::new();
        self.pixels.iter().for_each(|pixel| *colours.entry(*pixel).or_default() += 1);
        colours
    }
}

/// A file of squares: latitude, longitude, side.
fn squares(folder: &Folder, squares: &[(f64, f64, f64)]) -> String {
    let feature = |(i, (lat, lon, side)): (usize, &(f64, f64, f64))| {
        let (north, east) = (lat + side, lon + side);
        format!(r#"{{"type": "Feature", "properties": {{"Name": "Yard {i}"}}, "geometry": {{"type": "Polygon", "coordinates": [[[{lon}, {lat}], [{east}, {lat}], [{east}, {north}], [{lon}, {north}], [{lon}, {lat}]]]}}}}"#)
    };
    let features: Vec<String> = squares.iter().enumerate().map(feature).collect();
    let drawing = folder.with("squares.geojson", format!(r#"{{"type": "FeatureCollection", "features": [{}]}}"#, features.join(", ")));
    let file = folder.path("squares.plb");
    said(&depot(&["build", &drawing, "-o", &file, "--type", "C", "--precision", "24"]), 0, &[]);
    file
}

#[test]
fn yards_far_apart_are_seen() {
    let folder = Folder::new("far");
    let (file, out) = (squares(&folder, &[(52.5, 13.4, 0.004), (35.6, 139.7, 0.005), (-33.8, 151.2, 0.002)]), folder.path("far.png"));
    let ran = depot(&["draw", &file, "-o", &out, "--columns", "600"]);
    said(&ran, 0, &["3 zones", "Yard 0", "Yard 1", "Yard 2", "inset 1: --frame 52.4", "inset 3: --frame -33.8"]);
    // three yards fill a good part of their insets, each with a border
    let colours = picture(&out).colours();
    let yards = colours.iter().filter(|(colour, many)| **many > 5000 && **colour != [255; 3] && **colour != [233, 240, 245]).count();
    assert!(yards == 3 && colours[&BORDER] > 500, "{colours:?}");
    // on the map alone each is a pixel of border at least
    said(&depot(&["draw", &file, "-o", &out, "--columns", "600", "--plain"]), 0, &["600 by "]);
    assert!(picture(&out).colours()[&BORDER] >= 3);
    // one yard north of another, or beside it, gives no thread and no ribbon
    let beside = squares(&folder, &[(0.0, 10.0, 0.001), (0.0, 70.0, 0.001)]);
    said(&depot(&["draw", &beside, "-o", &out, "--columns", "200", "--plain"]), 0, &["200 by 50 pixels, 2 zones"]);
}

#[test]
fn a_frame_with_nothing_in_it() {
    let folder = Folder::new("nothing");
    let (file, out) = (squares(&folder, &[(52.5, 13.4, 0.5)]), folder.path("out.png"));
    said(&depot(&["draw", &file, "-o", &out, "--columns", "50", "--frame", "1,2,3,4"]), 1, &["0 zones", "no yard is in this frame: they are in --frame 52.48"]);
    said(&depot(&["draw", &file, "-o", &out, "--columns", "50", "--frame", "52.4,13.3,52.6,13.6"]), 0, &["1 zone"]);
}

#[test]
fn a_frame_that_is_none() {
    for (frame, words) in [
        ("1,2,3", "here are 3"),
        ("1,2,x,4", "the third, NORTH, is \"x\""),
        ("91,2,3,4", "the first, SOUTH, is \"91\": a number of degrees from -90 to 90"),
        ("3,2,1,4", "SOUTH, is 3 and the third, NORTH, is 1: SOUTH must be the lower"),
        ("1,170,3,-170", "the second, WEST, is 170 and the fourth, EAST, is -170"),
    ] {
        said(&depot(&["draw", YARDS, "-o", "none.png", "--frame", frame]), 2, &[words]);
    }
}

#[test]
fn a_legend_and_labels() {
    let folder = Folder::new("legend");
    let (file, with, plain) = (folder.path("yards.plb"), folder.path("with.png"), folder.path("plain.png"));
    said(&depot(&["build", YARDS, "-o", &file, "--precision", "25"]), 0, &[]);
    let ran = depot(&["draw", &file, "-o", &with, "--columns", "400"]);
    said(&ran, 0, &["10 zones"]);
    assert!(!ran.out.contains("inset"), "{ran:?}");
    if fs::metadata(FONT).is_err() {
        return said(&ran, 0, &["fonts-dejavu-core"]);
    }
    let with = picture(&with);
    assert!(with.width == 400 && with.height > 313 + 60, "{}", with.height);
    said(&depot(&["draw", &file, "-o", &plain, "--columns", "400", "--plain"]), 0, &["400 by 313 pixels, 10 zones"]);
    let plain = picture(&plain);
    // labels change the map where a name fits, and nowhere else
    let changed = (0..plain.pixels.len()).filter(|i| plain.pixels[*i] != with.pixels[*i]).count();
    assert!((200..6000).contains(&changed), "{changed}");
}

#[test]
fn neighbours_have_colours_of_their_own() {
    let folder = Folder::new("neighbours");
    // a board of forty yards, ten in a row, with roads of one or two pixels between them
    let all: Vec<(f64, f64, f64)> = (0..40).map(|i| (10.0 + f64::from(i / 10), 10.0 + f64::from(i % 10), 0.98)).collect();
    let (file, out) = (squares(&folder, &all), folder.path("board.png"));
    said(&depot(&["draw", &file, "-o", &out, "--columns", "800"]), 0, &["40 zones"]);
    let board = picture(&out);
    let (wide, high) = (9.98 * 1.08, 3.98 * 1.08);
    let rows = 800.0 * high / (wide * 11.99f64.to_radians().cos());
    // near a corner of each, where no name is
    let at = |row: usize, column: usize| {
        let (x, y) = (800.0 * (column as f64 + 0.1 + 9.98 * 0.04) / wide, rows * (1.0 - (row as f64 + 0.1 + 3.98 * 0.04) / high));
        board.pixels[y as usize * board.width + x as usize]
    };
    for row in 0..4 {
        for column in 0..10 {
            assert!(at(row, column) != [233, 240, 245], "{row} {column}");
            assert!(column == 9 || at(row, column) != at(row, column + 1), "{row} {column}");
            assert!(row == 3 || at(row, column) != at(row + 1, column), "{row} {column}");
        }
    }
}
