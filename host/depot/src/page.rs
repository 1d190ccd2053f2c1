//! `depot page`: one HTML file that stands alone: a file's borders, the library's answers, what is wrong with the yards, and a day's slips.

mod answers;
mod day;
mod drawn;
mod edges;
mod faults;
mod packed;
mod raster;
mod thinning;
mod view;
mod yards;

use crate::draw::Frame;
use crate::fault::{Fault, Said};
use crate::words::{count, grouped};
use crate::{output, source};
use answers::{Answers, Fix};
use day::Day;
use faults::{Faults, Kind, Sought};
use raster::Raster;
use std::collections::BTreeMap;
use std::fmt::Write;
use std::path::Path;
use uskelzar::Map;
use yards::Yard;

/// All that a page shows.
struct Page<'a> {
    /// The file as it was called.
    path: &'a Path,
    map: &'a Map<Vec<u8>>,
    yards: Vec<Yard>,
    answers: Answers,
    raster: Raster,
    /// The colour of each zone that the picture meets.
    colours: BTreeMap<u32, usize>,
    /// A place in each yard, with the number of its answer.
    centres: Vec<Option<(Fix, u32)>>,
    faults: Faults,
    /// The numbers of the answers at the faults.
    at_faults: Vec<u32>,
    day: Option<Day>,
    /// The numbers of the answers at the day's slips, if they have a fix.
    at_slips: Vec<Option<u32>>,
    built: drawn::Said,
}

/// Writes the page of a file, with a day's slips and with what became of a drawing, if they are given.
pub fn run(path: &Path, output: &Path, columns: u32, day: Option<&Path>, drawn: Option<&Path>) -> Result<Said, Fault> {
    let map = source::open(path, false)?;
    let inputs: Vec<&Path> = [Some(path), day, drawn].into_iter().flatten().collect();
    let day = day.map(day::read).transpose()?;
    let page = Page::ask(path, &map, columns, day, drawn)?;
    let text = view::html(&page).map_err(|words| Fault::NotRun(format!("{}: {words}", output.display())))?;
    output::write_whole(output, &inputs, |out| out.write_all(text.as_bytes()))?;
    Ok(Said::yes(page.summary(output, text.len())))
}

impl<'a> Page<'a> {
    fn ask(path: &'a Path, map: &'a Map<Vec<u8>>, columns: u32, day: Option<Day>, drawn: Option<&Path>) -> Result<Page<'a>, Fault> {
        let (yards, stop) = yards::read(map);
        let frame = Frame::around(map).map(sound).ok_or_else(|| Fault::No(format!("{}: there is no yard to show", path.display())))?;
        let built = drawn::said(drawn, map, &yards)?;
        let mut answers = Answers::default();
        let raster = Raster::ask(map, frame, columns, &mut answers);
        let centres = centres(map, &yards, &mut answers);
        let faults = Sought { map, yards: &yards, raster: &raster, centres: &centres, stop }.faults(&mut answers);
        let places: Vec<Fix> = faults.all.iter().map(|fault| fault.place).collect();
        let at_faults = answers.ask(map, &places, "places of faults");
        let at_slips = at_slips(map, day.as_ref(), &mut answers);
        let colours = raster.colours(&answers);
        Ok(Page { path, map, yards, answers, raster, colours, centres, faults, at_faults, day, at_slips, built })
    }

    fn summary(&self, output: &Path, bytes: usize) -> String {
        let points = self.yards.iter().map(Yard::points).sum();
        let borders = self.yards.iter().map(|yard| yard.rings.len()).sum();
        let mut text = format!("{}: {}, {}, {}; ", output.display(), count(self.yards.len(), "yard"), count(borders, "border"), count(points, "point"));
        let centres = self.centres.iter().flatten().count();
        let _ = write!(text, "the library's answers at {} of the picture, {}", count(self.raster.answers.len(), "point"), count(centres, "centre"));
        if let Some(day) = &self.day {
            let _ = write!(text, ", {}", count(day.slips.iter().filter(|slip| slip.fix.is_some()).count(), "slip"));
        }
        let _ = writeln!(text, "; {}", count(bytes, "byte"));
        for kind in Kind::ALL {
            let of_kind: Vec<_> = self.faults.all.iter().filter(|fault| fault.kind == kind).collect();
            if let Some(first) = of_kind.first() {
                let _ = writeln!(text, "  {} ({}), first at {} {}: {}", kind.words(), grouped(of_kind.len()), first.place.0, first.place.1, first.words);
            }
        }
        text.push_str(if self.faults.all.is_empty() { "no faults\n" } else { "" });
        text
    }
}

/// A part of the map that has a width and a height; a file may say anything.
fn sound(frame: Frame) -> Frame {
    let (south, north) = (frame.south.clamp(-90.0, 90.0), frame.north.clamp(-90.0, 90.0));
    let (west, east) = (frame.west.clamp(-180.0, 180.0), frame.east.clamp(-180.0, 180.0));
    if south < north && west < east {
        return Frame { south, west, north, east };
    }
    Frame { south: -90.0, west: -180.0, north: 90.0, east: 180.0 }
}

fn centres(map: &Map<Vec<u8>>, yards: &[Yard], answers: &mut Answers) -> Vec<Option<(Fix, u32)>> {
    let places: Vec<Option<Fix>> = yards.iter().map(|yard| yard.centre(map).map(|(lat, lon)| (lat as f32, lon as f32))).collect();
    each_asked(map, &places, answers, "centres")
}

fn at_slips(map: &Map<Vec<u8>>, day: Option<&Day>, answers: &mut Answers) -> Vec<Option<u32>> {
    let places: Vec<Option<Fix>> = day.iter().flat_map(|day| &day.slips).map(|slip| slip.fix).collect();
    each_asked(map, &places, answers, "slips").into_iter().map(|asked| asked.map(|(_, answer)| answer)).collect()
}

/// The places that are there, with the numbers of their answers.
fn each_asked(map: &Map<Vec<u8>>, places: &[Option<Fix>], answers: &mut Answers, what: &'static str) -> Vec<Option<(Fix, u32)>> {
    let fixes: Vec<Fix> = places.iter().flatten().copied().collect();
    let mut told = answers.ask(map, &fixes, what).into_iter();
    places.iter().map(|place| place.and_then(|fix| told.next().map(|answer| (fix, answer)))).collect()
}

#[cfg(test)]
mod tests {
    use super::*;

    #[test]
    fn frames_that_are_none() {
        let world = Frame { south: -90.0, west: -180.0, north: 90.0, east: 180.0 };
        let frame = |south: f64, west: f64, north: f64, east: f64| sound(Frame { south, west, north, east });
        assert_eq!(frame(1.0, 2.0, 3.0, 4.0), Frame { south: 1.0, west: 2.0, north: 3.0, east: 4.0 });
        assert_eq!(frame(1.0, 2.0, 1.0, 4.0), world);
        assert_eq!(frame(200.0, 2.0, 90.0, 4.0), world);
        assert_eq!(frame(-200.0, -300.0, 200.0, 300.0), world);
    }
}
