//! A sheet of pixels: fields of colour, lines and letters.

use super::Colour;
use ab_glyph_rasterizer::{point, Point, Rasterizer};
use ttf_parser::{Face, OutlineBuilder};

/// A part of a sheet, in pixels.
#[derive(Clone, Copy, Debug, PartialEq)]
pub struct Window {
    pub x: usize,
    pub y: usize,
    pub width: usize,
    pub height: usize,
}

pub struct Canvas {
    pub width: usize,
    pub height: usize,
    pub pixels: Vec<u8>,
}

impl Canvas {
    pub fn new(width: usize, height: usize, colour: Colour) -> Canvas {
        Canvas { width, height, pixels: colour.repeat(width * height) }
    }

    pub fn set(&mut self, x: usize, y: usize, colour: Colour) {
        self.mix(x, y, colour, 1.0);
    }

    /// A part of a colour over what is there; nothing beside the sheet.
    fn mix(&mut self, x: usize, y: usize, colour: Colour, part: f32) {
        if x >= self.width || y >= self.height {
            return;
        }
        let at = 3 * (y * self.width + x);
        for (old, new) in self.pixels[at..at + 3].iter_mut().zip(colour) {
            *old = (f32::from(*old) + (f32::from(new) - f32::from(*old)) * part.clamp(0.0, 1.0)).round() as u8;
        }
    }

    pub fn fill(&mut self, window: Window, colour: Colour) {
        for y in window.y..window.y + window.height {
            (window.x..window.x + window.width).for_each(|x| self.set(x, y, colour));
        }
    }

    pub fn outline(&mut self, window: Window, colour: Colour) {
        let Window { x, y, width, height } = window;
        (x..x + width).for_each(|x| [y, y + height - 1].into_iter().for_each(|y| self.set(x, y, colour)));
        (y..y + height).for_each(|y| [x, x + width - 1].into_iter().for_each(|x| self.set(x, y, colour)));
    }

    /// A line of one pixel between two places of a window, in its pixels, and only inside it.
    pub fn line(&mut self, window: Window, from: (f64, f64), to: (f64, f64), colour: Colour) {
        let Some((from, to)) = clipped((window.width as f64, window.height as f64), from, to) else { return };
        let steps = (to.0 - from.0).abs().max((to.1 - from.1).abs()).ceil().max(1.0);
        for step in 0..=steps as usize {
            let part = step as f64 / steps;
            let place = |from: f64, to: f64, most: usize| ((from + (to - from) * part).floor().max(0.0) as usize).min(most - 1);
            self.set(window.x + place(from.0, to.0, window.width), window.y + place(from.1, to.1, window.height), colour);
        }
    }
}

type Place = (f64, f64);

/// The part of a line between two places that is in a window of a width and height; none where it passes by. Liang and Barsky's way.
fn clipped((width, height): Place, from: Place, to: Place) -> Option<(Place, Place)> {
    let way = (to.0 - from.0, to.1 - from.1);
    let (mut enter, mut leave) = (0.0f64, 1.0f64);
    for (speed, room) in [(-way.0, from.0), (way.0, width - from.0), (-way.1, from.1), (way.1, height - from.1)] {
        match speed {
            speed if speed < 0.0 => enter = enter.max(room / speed),
            speed if speed > 0.0 => leave = leave.min(room / speed),
            _ if room < 0.0 => return None,
            _ => (),
        }
    }
    let at = |part: f64| (from.0 + way.0 * part, from.1 + way.1 * part);
    (enter <= leave).then(|| (at(enter), at(leave)))
}

/// Where Debian's fonts-dejavu-core has its letters.
const FONTS: [&str; 2] = ["/usr/share/fonts/truetype/dejavu/DejaVuSans.ttf", "/usr/share/fonts/TTF/DejaVuSans.ttf"];

/// A font's file, where there is one.
pub fn font_bytes() -> Option<Vec<u8>> {
    FONTS.iter().find_map(|path| std::fs::read(path).ok())
}

/// Letters of one size.
pub struct Font<'a> {
    face: Face<'a>,
    scale: f32,
    /// From a line of text to the next.
    pub line: usize,
}

impl<'a> Font<'a> {
    pub fn of(bytes: &'a [u8], size: f32) -> Option<Font<'a>> {
        let face = Face::from_slice(bytes, 0).ok()?;
        let scale = size / f32::from(face.units_per_em());
        Some(Font { face, scale, line: (size * 1.4).ceil() as usize })
    }

    pub fn width(&self, text: &str) -> usize {
        text.chars().map(|letter| self.advance(letter)).sum::<f32>().ceil() as usize
    }

    fn advance(&self, letter: char) -> f32 {
        let glyph = self.face.glyph_index(letter).unwrap_or_default();
        f32::from(self.face.glyph_hor_advance(glyph).unwrap_or(0)) * self.scale
    }

    /// A text, or so much of it as fits.
    pub fn fitted(&self, text: &str, most: usize) -> String {
        if self.width(text) <= most {
            return text.to_string();
        }
        let mut cut: String = text.to_string();
        while cut.pop().is_some() && self.width(&cut) + self.width("\u{2026}") > most {}
        cut + "\u{2026}"
    }

    /// A line of text whose upper left corner is at a place.
    pub fn write(&self, canvas: &mut Canvas, (x, y): (usize, usize), text: &str, colour: Colour) {
        let base = f32::from(self.face.ascender()) * self.scale + (self.line as f32 - self.height()) / 2.0;
        let mut pen = 0.0;
        for letter in text.chars() {
            let wide = self.advance(letter).ceil() as usize + 2 * SIDE;
            let mut outline = Outline { raster: Rasterizer::new(wide.max(1), self.line + SIDE), scale: self.scale, left: pen % 1.0 + SIDE as f32, base, first: point(0.0, 0.0), last: point(0.0, 0.0) };
            self.face.outline_glyph(self.face.glyph_index(letter).unwrap_or_default(), &mut outline);
            let left = x + pen as usize;
            outline.raster.for_each_pixel_2d(|column, row, part| {
                if part > 0.0 && left + column as usize >= SIDE {
                    canvas.mix(left + column as usize - SIDE, y + row as usize, colour, part);
                }
            });
            pen += self.advance(letter);
        }
    }

    fn height(&self) -> f32 {
        f32::from(self.face.ascender() - self.face.descender()) * self.scale
    }
}

/// Room beside a letter that leans over its place.
const SIDE: usize = 4;

/// A letter's outline on its way to pixels.
struct Outline {
    raster: Rasterizer,
    scale: f32,
    left: f32,
    base: f32,
    first: Point,
    last: Point,
}

impl Outline {
    fn at(&self, x: f32, y: f32) -> Point {
        point(self.left + x * self.scale, self.base - y * self.scale)
    }
}

impl OutlineBuilder for Outline {
    fn move_to(&mut self, x: f32, y: f32) {
        self.first = self.at(x, y);
        self.last = self.first;
    }

    fn line_to(&mut self, x: f32, y: f32) {
        let to = self.at(x, y);
        self.raster.draw_line(self.last, to);
        self.last = to;
    }

    fn quad_to(&mut self, x1: f32, y1: f32, x: f32, y: f32) {
        let (bend, to) = (self.at(x1, y1), self.at(x, y));
        self.raster.draw_quad(self.last, bend, to);
        self.last = to;
    }

    fn curve_to(&mut self, x1: f32, y1: f32, x2: f32, y2: f32, x: f32, y: f32) {
        let (one, other, to) = (self.at(x1, y1), self.at(x2, y2), self.at(x, y));
        self.raster.draw_cubic(self.last, one, other, to);
        self.last = to;
    }

    fn close(&mut self) {
        self.raster.draw_line(self.last, self.first);
        self.last = self.first;
    }
}

#[cfg(test)]
mod tests {
    use super::*;

    #[test]
    fn lines_stay_in_their_window() {
        let window = Window { x: 2, y: 1, width: 4, height: 3 };
        let mut canvas = Canvas::new(8, 6, [255; 3]);
        canvas.line(window, (-1e9, 1.5), (1e9, 1.5), [0; 3]);
        canvas.line(window, (0.5, -5.0), (0.5, -1.0), [0; 3]);
        canvas.line(window, (3.2, 2.9), (3.2, 2.9), [0; 3]);
        let dark: Vec<usize> = (0..48).filter(|i| canvas.pixels[3 * i] == 0).collect();
        assert_eq!(dark, [18, 19, 20, 21, 29]);
    }

    #[test]
    fn letters() {
        let Some(bytes) = font_bytes() else { return };
        let font = Font::of(&bytes, 13.0).unwrap();
        assert!(font.width("Tank farm") > font.width("Tank") && font.width("") == 0);
        let cut = font.fitted("A very long name of a yard", 60);
        assert!(cut.ends_with('\u{2026}') && font.width(&cut) <= 60, "{cut}");
        let mut canvas = Canvas::new(80, 20, [255; 3]);
        font.write(&mut canvas, (2, 1), "Tank \u{e9} \u{10ffff}", [0; 3]);
        let dark = canvas.pixels.chunks(3).filter(|pixel| pixel[0] < 100).count();
        assert!((30..400).contains(&dark), "{dark}");
    }
}
