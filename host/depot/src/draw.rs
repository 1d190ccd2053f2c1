//! `depot draw`: a picture of a file's yards, each pixel a lookup.

mod canvas;
mod sheet;

use crate::fault::{Fault, Said};
use crate::words::count;
use crate::{output, source};
use rayon::prelude::*;
use sheet::Sheet;
use std::collections::{BTreeMap, BTreeSet};
use std::fmt::{self, Write};
use std::path::Path;
use uskelzar::raw::{self, ANSWER_WORDS, HIT_WORDS, MOST_FIXES};
use uskelzar::{Entry, Map, Number};

pub(crate) type Colour = [u8; 3];
const NOTHING: Colour = [233, 240, 245];
const REFUSED: Colour = [150, 150, 150];
const FAULT: Colour = [214, 30, 40];
const BORDER: Colour = [58, 74, 94];
pub(crate) const SOFT: [(Colour, &str); 10] = [
    ([242, 181, 167], "salmon"),
    ([246, 212, 146], "sand"),
    ([207, 224, 155], "lime"),
    ([159, 211, 176], "green"),
    ([140, 203, 207], "teal"),
    ([169, 191, 232], "blue"),
    ([201, 179, 230], "violet"),
    ([232, 179, 212], "pink"),
    ([217, 195, 165], "brown"),
    ([198, 208, 182], "grey-green"),
];
const MOST_ROWS: u32 = 16_384;

/// A part of the map in degrees.
#[derive(Clone, Copy, Debug, PartialEq)]
pub struct Frame {
    pub south: f64,
    pub west: f64,
    pub north: f64,
    pub east: f64,
}

/// What a pixel's fix got: end mark, kind and zone of the first match, or a refusal.
#[derive(Clone, Copy, PartialEq)]
pub(crate) enum Answer {
    Found { end: u64, kind: u32, zone: u32 },
    Nothing { end: u64 },
    Refused,
}

/// A picture's fixes, from north to south, in a row from west to east.
pub(crate) struct Picture {
    pub columns: u32,
    pub rows: u32,
    pub answers: Vec<Answer>,
}

/// The numbers of a frame, and how large they may be.
const NUMBERS: [(&str, f64); 4] = [("the first, SOUTH", 90.0), ("the second, WEST", 180.0), ("the third, NORTH", 90.0), ("the fourth, EAST", 180.0)];

impl fmt::Display for Frame {
    /// As `--frame` takes it.
    fn fmt(&self, f: &mut fmt::Formatter) -> fmt::Result {
        write!(f, "{:.6},{:.6},{:.6},{:.6}", self.south, self.west, self.north, self.east)
    }
}

impl Frame {
    /// From four numbers with commas between them.
    pub fn of(words: &str) -> Result<Frame, String> {
        let parts: Vec<&str> = words.split(',').map(str::trim).collect();
        if parts.len() != NUMBERS.len() {
            return Err(format!("four numbers are wanted, SOUTH,WEST,NORTH,EAST, in degrees; here are {}", parts.len()));
        }
        let number = |(word, (name, most)): (&&str, (&str, f64))| {
            let number = word.parse::<f64>().ok().filter(|number| number.abs() <= most);
            number.ok_or_else(|| format!("{name}, is {word:?}: a number of degrees from -{most} to {most} is wanted (SOUTH,WEST,NORTH,EAST)"))
        };
        let numbers: Vec<f64> = parts.iter().zip(NUMBERS).map(number).collect::<Result<_, String>>()?;
        let frame = Frame { south: numbers[0], west: numbers[1], north: numbers[2], east: numbers[3] };
        if frame.south >= frame.north {
            return Err(format!("the first, SOUTH, is {} and the third, NORTH, is {}: SOUTH must be the lower", frame.south, frame.north));
        }
        if frame.west >= frame.east {
            return Err(format!("the second, WEST, is {} and the fourth, EAST, is {}: WEST must be the lower; what lies across the 180th meridian is drawn in two", frame.west, frame.east));
        }
        Ok(frame)
    }

    /// About all boxes of a file, with a margin.
    pub(crate) fn around(map: &Map<Vec<u8>>) -> Option<Frame> {
        let entries: Vec<Entry> = map.entries().ok()?.map_while(Result::ok).collect();
        Frame::about(entries.iter())
    }

    /// About some boxes, with a margin.
    fn about<'a>(entries: impl Iterator<Item = &'a Entry>) -> Option<Frame> {
        let boxes = entries.map(|entry| Frame { south: entry.lower.0, west: entry.lower.1, north: entry.upper.0, east: entry.upper.1 });
        let all = boxes.reduce(|a, b| Frame { south: a.south.min(b.south), west: a.west.min(b.west), north: a.north.max(b.north), east: a.east.max(b.east) })?;
        Some(all.grown((all.north - all.south) * 0.04, (all.east - all.west) * 0.04))
    }

    /// By so many degrees on each side, as far as there are any.
    fn grown(self, high: f64, wide: f64) -> Frame {
        Frame {
            south: (self.south - high).max(-90.0),
            west: (self.west - wide).max(-180.0),
            north: (self.north + high).min(90.0),
            east: (self.east + wide).min(180.0),
        }
    }

    /// Grown where it is more than four times as wide as it is high, or more than twice as high as it is wide.
    fn shaped(self) -> Frame {
        let shape = (self.east - self.west) * self.width() / (self.north - self.south).max(f64::MIN_POSITIVE);
        self.of_shape(shape.clamp(0.5, 4.0))
    }

    /// Grown to a shape, as far as the world goes.
    fn of_shape(self, shape: f64) -> Frame {
        let (high, wide) = (self.north - self.south, (self.east - self.west) * self.width());
        let least = 1e-6;
        let (high, wide) = (high.max(wide / shape).max(least), wide.max(high * shape).max(least));
        self.grown((high - (self.north - self.south)) / 2.0, (wide / self.width() - (self.east - self.west)) / 2.0)
    }

    /// Whether an entry's box has a place in it.
    fn meets(self, entry: &Entry) -> bool {
        entry.lower.0 <= self.north && entry.upper.0 >= self.south && entry.lower.1 <= self.east && entry.upper.1 >= self.west
    }

    /// How wide a degree of longitude is in the middle, in degrees of latitude.
    pub(crate) fn width(self) -> f64 {
        ((self.south + self.north) / 2.0).to_radians().cos().max(0.2)
    }

    /// So many rows that a degree is as long upward as a degree of longitude is wide in the middle.
    pub(crate) fn rows(self, columns: u32) -> u32 {
        let high = (self.north - self.south) / ((self.east - self.west) * self.width());
        (f64::from(columns) * high).round().clamp(1.0, f64::from(MOST_ROWS)) as u32
    }
}

/// Draws a file, or a part of the map, and says what the colours are.
pub fn run(path: &Path, output: &Path, columns: u32, frame: Option<Frame>, plain: bool) -> Result<Said, Fault> {
    let map = source::open(path, false)?;
    let sheet = Sheet::ask(&map, columns, frame, plain).ok_or_else(|| Fault::No(format!("{}: there is no yard to draw", path.display())))?;
    let (canvas, lettered) = sheet.draw();
    output::write_whole(output, &[path], |out| {
        let mut encoder = png::Encoder::new(out, canvas.width as u32, canvas.height as u32);
        encoder.set_color(png::ColorType::Rgb);
        encoder.set_depth(png::BitDepth::Eight);
        encoder.write_header()?.write_image_data(&canvas.pixels).map_err(Into::into)
    })?;
    let mut text = format!("{}: {} by {} pixels, {}\n", output.display(), canvas.width, canvas.height, count(sheet.colours.len(), "zone"));
    for (zone, colour) in &sheet.colours {
        let _ = writeln!(text, "  {}: {}", SOFT[*colour].1, sheet.name(*zone));
    }
    for (number, panel) in sheet.panels.iter().enumerate().skip(1) {
        let _ = writeln!(text, "  inset {number}: --frame {}", panel.frame);
    }
    sheet.left_out.iter().for_each(|frame| {
        let _ = writeln!(text, "  no room for an inset: --frame {frame}");
    });
    if !lettered {
        text.push_str("  no letters: Debian's fonts-dejavu-core has them; the names are above\n");
    }
    let faults: usize = sheet.panels.iter().map(|panel| panel.picture.answers.iter().filter(|answer| !answer.is_whole()).count()).sum();
    if faults > 0 {
        let _ = writeln!(text, "  red or grey: {} whose search was not whole or was refused", count(faults, "fix"));
    }
    if let (true, Some(around)) = (sheet.colours.is_empty(), Frame::around(&map)) {
        let _ = writeln!(text, "  no yard is in this frame: they are in --frame {around}");
    }
    Ok(Said { yes: faults == 0 && !sheet.colours.is_empty(), text })
}

impl Answer {
    fn is_whole(self) -> bool {
        matches!(self, Answer::Found { end: 1, .. } | Answer::Nothing { end: 1 })
    }

    fn zone(self) -> Option<u32> {
        match self {
            Answer::Found { zone, .. } => Some(zone),
            _ => None,
        }
    }
}

impl Picture {
    /// Of so many rows that the map is not drawn out.
    fn ask(map: &Map<Vec<u8>>, columns: u32, frame: Frame) -> Picture {
        Picture::ask_rows(map, columns, frame.rows(columns), frame)
    }

    /// Asks the library at the middle of each pixel, many at once and on all processors.
    fn ask_rows(map: &Map<Vec<u8>>, columns: u32, rows: u32, frame: Frame) -> Picture {
        let mut picture = Picture { columns, rows, answers: vec![Answer::Refused; columns as usize * rows as usize] };
        let bar = output::progress(picture.answers.len(), "fixes");
        picture.answers.par_chunks_mut(MOST_FIXES).enumerate().for_each_init(
            || Room::of(HITS),
            |room, (part, answers)| {
                let fix = |index| picture_fix(frame, columns, rows, part * MOST_FIXES + index);
                ask_part(room, map.bytes(), answers, fix);
                bar.inc(answers.len() as u64);
            },
        );
        bar.finish_and_clear();
        picture
    }

    /// A colour for each zone that a pixel has found.
    pub(crate) fn colours(&self) -> BTreeMap<u32, usize> {
        coloured(&self.neighbours())
    }

    /// The zones near each zone: at most so many pixels to the right or down.
    fn neighbours(&self) -> BTreeMap<u32, BTreeSet<u32>> {
        let mut touching: BTreeMap<u32, BTreeSet<u32>> = BTreeMap::new();
        let columns = self.columns as usize;
        for (i, here) in self.answers.iter().enumerate() {
            let Some(here) = here.zone() else { continue };
            touching.entry(here).or_default();
            let right = (1..=NEAR).take_while(|far| i % columns + far < columns).map(|far| i + far);
            let down = (1..=NEAR).map(|far| i + far * columns).take_while(|there| *there < self.answers.len());
            for there in right.chain(down).filter_map(|there| self.answers[there].zone()).filter(|there| *there != here) {
                touching.entry(here).or_default().insert(there);
                touching.entry(there).or_default().insert(here);
            }
        }
        touching
    }

    /// Red lines lie over what a search found that was not whole.
    fn pixel(&self, answer: Answer, (x, y): (usize, usize), colours: &BTreeMap<u32, usize>) -> Colour {
        let hatched = |end: u64| end != 1 && (x + y) % 6 < 2;
        match answer {
            Answer::Refused => REFUSED,
            Answer::Found { end, .. } | Answer::Nothing { end } if hatched(end) => FAULT,
            Answer::Nothing { .. } => NOTHING,
            Answer::Found { kind: 1, zone, .. } => SOFT[colours[&zone]].0,
            Answer::Found { .. } => BORDER,
        }
    }
}

/// Zones that are no farther apart are seen as neighbours, a road or a ditch between them.
const NEAR: usize = 4;

/// A colour for each zone that no neighbour has, of those the one used least. The zones with the fewest neighbours come last, so that on a map, where one of
/// them always has five or fewer, six colours are enough; where a zone has neighbours of all colours, it gets that which the fewest of them have.
fn coloured(touching: &BTreeMap<u32, BTreeSet<u32>>) -> BTreeMap<u32, usize> {
    let (mut colours, mut used) = (BTreeMap::new(), [0; SOFT.len()]);
    for zone in hardest_first(touching) {
        let mut taken = [0; SOFT.len()];
        touching[&zone].iter().filter_map(|other| colours.get(other)).for_each(|colour: &usize| taken[*colour] += 1);
        let colour = (0..SOFT.len()).min_by_key(|colour| (taken[*colour], used[*colour])).unwrap_or(0);
        used[colour] += 1;
        colours.insert(zone, colour);
    }
    colours
}

/// The zone with the fewest neighbours is taken away, then that with the fewest of the rest, and so on; this is the other way round.
fn hardest_first(touching: &BTreeMap<u32, BTreeSet<u32>>) -> Vec<u32> {
    let mut degree: BTreeMap<u32, usize> = touching.iter().map(|(zone, others)| (*zone, others.len())).collect();
    let mut queue: BTreeSet<(usize, u32)> = degree.iter().map(|(zone, many)| (*many, *zone)).collect();
    let mut order = vec![];
    while let Some((_, zone)) = queue.pop_first() {
        degree.remove(&zone);
        for other in &touching[&zone] {
            if let Some(many) = degree.get_mut(other) {
                queue.remove(&(*many, *other));
                *many -= 1;
                queue.insert((*many, *other));
            }
        }
        order.push(zone);
    }
    order.reverse();
    order
}

/// The middle of a pixel.
pub(crate) fn picture_fix(frame: Frame, columns: u32, rows: u32, index: usize) -> (f32, f32) {
    let (column, row) = (index % columns as usize, index / columns as usize);
    let part = |place: usize, of: u32| (place as f64 + 0.5) / f64::from(of);
    let lat = frame.north - (frame.north - frame.south) * part(row, rows);
    let lon = frame.west + (frame.east - frame.west) * part(column, columns);
    (lat as f32, lon as f32)
}

/// Room for the hits and the texts of many fixes: little at first, since the library writes all of it on every call.
struct Room {
    hits: Vec<u32>,
    text: Vec<u8>,
    answers: [u32; ANSWER_WORDS * MOST_FIXES],
}

/// Hits about one fix, on the whole; the room doubles where they are more. No file that people draw has so many about each of them.
const HITS: usize = 2;
const MOST_HITS: usize = 256;

impl Room {
    fn of(hits: usize) -> Room {
        let hits = hits * MOST_FIXES;
        Room { hits: vec![0; HIT_WORDS * hits], text: vec![0; 64 * hits], answers: [0; ANSWER_WORDS * MOST_FIXES] }
    }

    /// The answers of the first fixes, up to one that is refused; the fixes before it are asked again, since a refusal stops them all. At least one, of at most 4,096.
    fn ask(&mut self, file: &[u8], fixes: &[(f32, f32)]) -> Vec<Answer> {
        let (lats, lons): (Vec<f32>, Vec<f32>) = fixes.iter().copied().unzip();
        loop {
            let hits = self.hits.len() / HIT_WORDS / MOST_FIXES;
            let third = &mut self.answers[..ANSWER_WORDS * fixes.len()];
            let Err(stop) = raw::lookup_many(file, &lats, &lons, false, &mut self.hits, &mut self.text, third) else { return self.told(fixes.len()) };
            let for_room = matches!(stop.why.number, Number::TooManyHits | Number::TextRoom);
            if for_room && hits < MOST_HITS {
                *self = Room::of(2 * hits);
                continue;
            }
            let mut told = if stop.index > 0 { self.ask(file, &fixes[..stop.index]) } else { vec![] };
            // one that had too little room behind others comes next, with all of it
            if !for_room || stop.index == 0 {
                told.push(Answer::Refused);
            }
            return told;
        }
    }

    /// What so many fixes were answered: the first match of each.
    fn told(&self, fixes: usize) -> Vec<Answer> {
        let mut hits = self.hits.chunks_exact(HIT_WORDS);
        let answer = |said: &[u32]| {
            let end = u64::from(said[1]);
            let first = hits.by_ref().take(said[0] as usize).fold(None, |first, hit| first.or(Some(hit)));
            first.map_or(Answer::Nothing { end }, |hit| Answer::Found { end, kind: hit[2], zone: hit[1] })
        };
        self.answers[..ANSWER_WORDS * fixes].chunks_exact(ANSWER_WORDS).map(answer).collect()
    }
}

/// The answers of at most 4,096 fixes, in as many calls as their refusals make.
fn ask_part(room: &mut Room, file: &[u8], answers: &mut [Answer], fix: impl Fn(usize) -> (f32, f32)) {
    let mut done = 0;
    while done < answers.len() {
        let fixes: Vec<(f32, f32)> = (done..answers.len()).map(&fix).collect();
        let told = room.ask(file, &fixes);
        answers[done..done + told.len()].copy_from_slice(&told);
        done += told.len();
    }
}

#[cfg(test)]
mod tests {
    use super::*;

    #[test]
    fn frames() {
        assert_eq!(Frame::of("-1, 2,3,4.5"), Ok(Frame { south: -1.0, west: 2.0, north: 3.0, east: 4.5 }));
        for (words, why) in [
            ("", "here are 1"),
            ("1,2,3", "here are 3"),
            ("1,2,3,4,5", "here are 5"),
            ("3,2,1,4", "the first, SOUTH, is 3 and the third, NORTH, is 1"),
            ("1,4,3,2", "the second, WEST, is 4 and the fourth, EAST, is 2"),
            ("1,2,x,4", "the third, NORTH, is \"x\": a number of degrees from -90 to 90"),
            ("1,2,3,181", "the fourth, EAST, is \"181\": a number of degrees from -180 to 180"),
            ("NaN,2,3,4", "the first, SOUTH, is \"NaN\""),
        ] {
            let told = Frame::of(words).unwrap_err();
            assert!(told.contains(why), "{words}: {told}");
        }
        let square = Frame { south: -1.0, west: 10.0, north: 1.0, east: 12.0 };
        assert_eq!(square.rows(300), 300);
        let far = Frame { south: 59.0, west: 10.0, north: 61.0, east: 12.0 };
        assert_eq!(far.rows(300), 600);
    }

    #[test]
    fn frames_are_neither_threads_nor_ribbons() {
        let ribbon = Frame { south: 0.0, west: 0.0, north: 0.01, east: 100.0 }.shaped();
        assert_eq!((ribbon.west, ribbon.east, ribbon.rows(800)), (0.0, 100.0, 200));
        let thread = Frame { south: 0.0, west: 9.99, north: 60.0, east: 10.0 }.shaped();
        assert_eq!((thread.south, thread.north, thread.rows(800)), (0.0, 60.0, 1600));
        let dot = Frame { south: 1.0, west: 1.0, north: 1.0, east: 1.0 }.shaped();
        assert!(dot.south < 1.0 && dot.north > 1.0 && dot.west < 1.0 && dot.east > 1.0, "{dot:?}");
    }

    #[test]
    fn neighbours_share_no_colour() {
        // eleven zones about one, in a ring: ten colours are enough, and so are four
        let mut touching: BTreeMap<u32, BTreeSet<u32>> = BTreeMap::new();
        let mut touch = |a: u32, b: u32| {
            touching.entry(a).or_default().insert(b);
            touching.entry(b).or_default().insert(a);
        };
        (1..=11).for_each(|zone| {
            touch(0, zone);
            touch(zone, zone % 11 + 1);
        });
        let colours = coloured(&touching);
        for (zone, others) in &touching {
            assert!(others.iter().all(|other| colours[other] != colours[zone]), "{colours:?}");
        }
    }
}
