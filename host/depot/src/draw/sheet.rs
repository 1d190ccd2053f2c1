//! What stands where on a sheet: the map, insets of yards too small to see on it, and a legend.

use super::canvas::{font_bytes, Canvas, Font, Window};
use super::{coloured, Answer, Colour, Frame, Picture, BORDER, SOFT};
use crate::zone::title;
use std::collections::{BTreeMap, BTreeSet};
use uskelzar::{Entry, Map};

const PAPER: Colour = [255, 255, 255];
const INK: Colour = [30, 36, 44];
/// Of letters, in pixels.
const SIZE: f32 = 13.0;
/// Between the parts of a sheet.
const GAP: usize = 8;
/// A yard of fewer pixels is not seen.
const SEEN: f64 = 8.0;
const MOST_INSETS: usize = 12;
/// A legend of more names is of no use; those most seen stand in it.
const MOST_NAMES: usize = 60;

/// A part of the map on a sheet.
pub struct Panel {
    pub frame: Frame,
    pub picture: Picture,
    window: Window,
}

/// A sheet before it is drawn.
pub struct Sheet<'a> {
    map: &'a Map<Vec<u8>>,
    entries: Vec<Entry>,
    /// The map first, then its insets.
    pub panels: Vec<Panel>,
    pub colours: BTreeMap<u32, usize>,
    /// Groups of yards that have no inset, for want of room.
    pub left_out: Vec<Frame>,
    names: BTreeMap<u32, String>,
    plain: bool,
}

impl<'a> Sheet<'a> {
    /// The frame that is asked for, or all yards, with insets where most of them would not be seen. A plain sheet is the map alone.
    pub fn ask(map: &'a Map<Vec<u8>>, columns: u32, frame: Option<Frame>, plain: bool) -> Option<Sheet<'a>> {
        let entries: Vec<Entry> = map.entries().ok()?.map_while(Result::ok).collect();
        let whole = frame.or_else(|| Frame::around(map).map(|frame| frame.shaped()))?;
        let mut groups = if frame.is_none() && !plain { sparse(&entries, whole, columns) } else { vec![] };
        let left_out = groups.split_off(groups.len().min(MOST_INSETS));
        let first = Picture::ask(map, columns, whole);
        let window = Window { x: 0, y: 0, width: columns as usize, height: first.rows as usize };
        let mut sheet = Sheet { map, entries, panels: vec![Panel { frame: whole, picture: first, window }], colours: BTreeMap::new(), left_out, names: BTreeMap::new(), plain };
        sheet.insets(&groups, columns);
        sheet.colour();
        Some(sheet)
    }

    /// Rows of insets below the map, all of one size.
    fn insets(&mut self, groups: &[Frame], columns: u32) {
        let across = match groups.len() {
            0 => return,
            1 => 1,
            2..=4 => 2,
            _ => 3,
        };
        let width = ((columns as usize).saturating_sub(GAP * (across - 1)) / across).max(1);
        let height = (width * 3 / 4).max(1);
        let top = self.panels[0].window.height + GAP;
        for (i, group) in groups.iter().enumerate() {
            let frame = group.of_shape(width as f64 / height as f64);
            let picture = Picture::ask_rows(self.map, width as u32, height as u32, frame);
            let window = Window { x: (i % across) * (width + GAP), y: top + (i / across) * (height + GAP), width, height };
            self.panels.push(Panel { frame, picture, window });
        }
    }

    /// A colour for each zone of the panels, found by a pixel or not.
    fn colour(&mut self) {
        let mut touching: BTreeMap<u32, BTreeSet<u32>> = BTreeMap::new();
        for panel in &self.panels {
            panel.picture.neighbours().into_iter().for_each(|(zone, others)| touching.entry(zone).or_default().extend(others));
        }
        for entry in self.entries.iter().filter(|entry| self.panels.iter().any(|panel| panel.frame.meets(entry))) {
            touching.entry(entry.metadata).or_default();
        }
        self.colours = coloured(&touching);
        let name = |zone: &u32| (*zone, title(self.map.header().table, &self.map.fields(*zone).unwrap_or_default(), *zone));
        self.names = self.colours.keys().map(name).collect();
    }

    pub fn name(&self, zone: u32) -> &str {
        self.names.get(&zone).map_or("", String::as_str)
    }

    /// The sheet's pixels, and whether there were letters for names.
    pub fn draw(&self) -> (Canvas, bool) {
        let bytes = if self.plain { None } else { font_bytes() };
        let font = bytes.as_deref().and_then(|bytes| Font::of(bytes, SIZE));
        let bottom = self.panels.iter().map(|panel| panel.window.y + panel.window.height).max().unwrap_or(0);
        let width = self.panels[0].window.width;
        let legend = font.as_ref().map_or(vec![], |font| self.legend(font, width, bottom + GAP));
        let height = legend.iter().map(|(_, (_, y), _)| y + font.as_ref().map_or(0, |font| font.line) + GAP).max().unwrap_or(bottom);
        let mut canvas = Canvas::new(width, height, PAPER);
        for (number, panel) in self.panels.iter().enumerate() {
            self.draw_panel(&mut canvas, panel);
            if let Some(font) = &font {
                self.label(&mut canvas, panel, font);
                self.mark(&mut canvas, number, font);
            }
        }
        if let Some(font) = &font {
            legend.iter().for_each(|(zone, place, words)| self.write_legend(&mut canvas, font, *zone, *place, words));
        }
        (canvas, font.is_some() || self.plain)
    }

    fn draw_panel(&self, canvas: &mut Canvas, panel: &Panel) {
        let Window { x, y, width, .. } = panel.window;
        for (i, answer) in panel.picture.answers.iter().enumerate() {
            let (column, row) = (i % width, i / width);
            canvas.set(x + column, y + row, panel.picture.pixel(*answer, (column, row), &self.colours));
        }
        for entry in self.entries.iter().filter(|entry| panel.frame.meets(entry)) {
            // what can't be read is red on the map already
            let Ok(points) = self.map.border(entry) else { continue };
            let places: Vec<(f64, f64)> = points.iter().map(|point| panel.place(self.map.degrees(*point))).collect();
            places.iter().zip(places.iter().cycle().skip(1)).for_each(|(from, to)| canvas.line(panel.window, *from, *to, BORDER));
        }
    }

    /// The name in each zone that has room for it.
    fn label(&self, canvas: &mut Canvas, panel: &Panel, font: &Font) {
        for (zone, runs) in panel.runs() {
            let name = short(self.name(zone));
            let (width, height) = (font.width(name) + 4, font.line);
            if let Some((x, y)) = panel.room_for(zone, &runs, width, height) {
                font.write(canvas, (panel.window.x + x + 2, panel.window.y + y), name, INK);
            }
        }
    }

    /// An inset's number, in its corner and at its place on the map.
    fn mark(&self, canvas: &mut Canvas, number: usize, font: &Font) {
        if number == 0 {
            return;
        }
        let (panel, whole, text) = (&self.panels[number], &self.panels[0], number.to_string());
        canvas.outline(panel.window, INK);
        let corner = Window { x: panel.window.x, y: panel.window.y, width: (font.width(&text) + 8).min(panel.window.width), height: font.line.min(panel.window.height) };
        canvas.fill(corner, PAPER);
        canvas.outline(corner, INK);
        font.write(canvas, (corner.x + 4, corner.y), &text, INK);
        let (x, y) = whole.place(((panel.frame.south + panel.frame.north) / 2.0, (panel.frame.west + panel.frame.east) / 2.0));
        let near = |place: f64, size: usize, most: usize| (place as usize).saturating_sub(size / 2).min(most.saturating_sub(size));
        let size = (font.width(&text) + 6, font.line);
        let at = Window { x: near(x, size.0, whole.window.width), y: near(y, size.1, whole.window.height), width: size.0, height: size.1 };
        canvas.fill(at, PAPER);
        canvas.outline(at, INK);
        font.write(canvas, (at.x + 3, at.y), &text, INK);
    }

    /// Each zone's colour and name, in columns.
    fn legend(&self, font: &Font, width: usize, top: usize) -> Vec<(Option<u32>, (usize, usize), String)> {
        let zones = self.most_seen();
        let more = self.colours.len() - zones.len();
        let swatch = font.line + 4;
        let widest = zones.iter().map(|zone| font.width(self.name(*zone)) + swatch + 2 * GAP).max().unwrap_or(1);
        let across = (width / widest).max(1);
        let column = width / across;
        let lines = zones.len().div_ceil(across).max(1);
        let place = |i: usize| ((i / lines) * column, top + (i % lines) * font.line);
        let cut = |words: &str| font.fitted(words, column.saturating_sub(swatch + GAP));
        let mut all: Vec<_> = zones.iter().enumerate().map(|(i, zone)| (Some(*zone), place(i), cut(self.name(*zone)))).collect();
        if more > 0 {
            all.push((None, (0, top + lines * font.line), font.fitted(&format!("and {more} more, which depot draw says"), width.saturating_sub(swatch + GAP))));
        }
        all
    }

    /// The zones of the legend, by their names.
    fn most_seen(&self) -> Vec<u32> {
        let mut seen: BTreeMap<u32, usize> = self.colours.keys().map(|zone| (*zone, 0)).collect();
        let pixels = self.panels.iter().flat_map(|panel| &panel.picture.answers);
        pixels.filter_map(|answer| answer.zone()).for_each(|zone| *seen.entry(zone).or_default() += 1);
        let mut zones: Vec<u32> = self.colours.keys().copied().collect();
        zones.sort_by_key(|zone| std::cmp::Reverse(seen[zone]));
        zones.truncate(MOST_NAMES);
        zones.sort_by_key(|zone| self.name(*zone));
        zones
    }

    fn write_legend(&self, canvas: &mut Canvas, font: &Font, zone: Option<u32>, (x, y): (usize, usize), words: &str) {
        if let Some(zone) = zone {
            let swatch = Window { x: x + 2, y: y + 2, width: font.line - 4, height: font.line - 4 };
            canvas.fill(swatch, SOFT[self.colours[&zone]].0);
            canvas.outline(swatch, BORDER);
        }
        font.write(canvas, (x + font.line + 4, y), words, INK);
    }
}

/// A yard's own name, or the last part of a zone's.
fn short(name: &str) -> &str {
    let own = name.split_once(", ").map_or(name, |(_, own)| own);
    own.rsplit('/').next().unwrap_or(own)
}

impl Panel {
    /// A place in degrees, in the panel's pixels.
    fn place(&self, (lat, lon): (f64, f64)) -> (f64, f64) {
        let Frame { south, west, north, east } = self.frame;
        ((lon - west) / (east - west) * self.window.width as f64, (north - lat) / (north - south) * self.window.height as f64)
    }

    fn is_inside(&self, zone: u32, column: usize, row: usize) -> bool {
        matches!(self.picture.answers[row * self.window.width + column], Answer::Found { kind: 1, zone: found, end: 1 } if found == zone)
    }

    /// The runs of pixels inside each zone, in every second row.
    fn runs(&self) -> BTreeMap<u32, Vec<Run>> {
        let mut runs: BTreeMap<u32, Vec<Run>> = BTreeMap::new();
        for row in (0..self.window.height).step_by(2) {
            let mut column = 0;
            while column < self.window.width {
                let zone = self.picture.answers[row * self.window.width + column].zone();
                let long = zone.map_or(0, |zone| (column..self.window.width).take_while(|column| self.is_inside(zone, *column, row)).count());
                if let (Some(zone), 1..) = (zone, long) {
                    runs.entry(zone).or_default().push(Run { long, middle: column + long / 2, row });
                }
                column += long.max(1);
            }
        }
        runs
    }

    /// The upper left corner of room that is inside a zone alone: on one of its long rows, and of these about in the middle.
    fn room_for(&self, zone: u32, runs: &[Run], width: usize, height: usize) -> Option<(usize, usize)> {
        let longest = runs.iter().map(|run| run.long).max().filter(|long| *long >= width)?;
        let (low, high) = (runs.first()?.row, runs.last()?.row);
        let mut tried: Vec<&Run> = runs.iter().filter(|run| run.long >= width).collect();
        tried.sort_by_key(|run| (4 * run.long < 3 * longest, (2 * run.row).abs_diff(low + high)));
        let fits = |(x, y): &(usize, usize)| y + height <= self.window.height && x + width <= self.window.width && (*y..y + height).all(|row| (*x..x + width).all(|column| self.is_inside(zone, column, row)));
        tried.iter().take(TRIED).filter_map(|run| Some((run.middle.checked_sub(width / 2)?, run.row.checked_sub(height / 2)?))).find(fits)
    }
}

/// Pixels inside one zone, side by side.
struct Run {
    long: usize,
    middle: usize,
    row: usize,
}

/// So many places are tried for a label.
const TRIED: usize = 60;

/// Frames about groups of yards, where most zones would not be seen on the map; none where they would. Those of most zones first.
fn sparse(entries: &[Entry], whole: Frame, columns: u32) -> Vec<Frame> {
    let pixel = (whole.east - whole.west) / f64::from(columns);
    let mut largest: BTreeMap<u32, f64> = BTreeMap::new();
    for entry in entries {
        let size = largest.entry(entry.metadata).or_default();
        *size = size.max(size_of(entry) / pixel);
    }
    let unseen = largest.values().filter(|size| **size < SEEN).count();
    if 2 * unseen <= largest.len() || entries.len() > MOST_GROUPED {
        return vec![];
    }
    let groups = groups_of(entries);
    if groups.len() < 2 {
        return vec![];
    }
    let mut frames: Vec<(usize, Frame)> = groups.iter().filter_map(|group| Some((group.len(), Frame::about(group.iter().copied())?))).collect();
    frames.sort_by(|a, b| b.0.cmp(&a.0).then(b.1.north.total_cmp(&a.1.north)));
    frames.into_iter().map(|(_, frame)| frame).collect()
}

/// More entries than these are not held against each other.
const MOST_GROUPED: usize = 5000;

/// How far yards of one group are apart, in yards of the larger one's size.
const REACH: f64 = 4.0;

fn size_of(entry: &Entry) -> f64 {
    (entry.upper.0 - entry.lower.0).max(entry.upper.1 - entry.lower.1)
}

/// Entries that lie near each other, as far as a chain of them leads.
fn groups_of(entries: &[Entry]) -> Vec<Vec<&Entry>> {
    let mut left: Vec<&Entry> = entries.iter().collect();
    let mut groups = vec![];
    while let Some(first) = left.pop() {
        let mut group = vec![first];
        let mut next = 0;
        while next < group.len() {
            let here = group[next];
            let (near, far) = left.into_iter().partition(|entry| is_near(here, entry));
            left = far;
            group.extend::<Vec<&Entry>>(near);
            next += 1;
        }
        groups.push(group);
    }
    groups
}

fn is_near(a: &Entry, b: &Entry) -> bool {
    let apart = |low: f64, high: f64| (low - high).max(0.0);
    let lat = apart(a.lower.0, b.upper.0).max(apart(b.lower.0, a.upper.0));
    let lon = apart(a.lower.1, b.upper.1).max(apart(b.lower.1, a.upper.1));
    lat.max(lon) <= REACH * size_of(a).max(size_of(b))
}
