//! The page's HTML, and the data that its script draws.

use super::answers::{Answer, Fix};
use super::day::{way_words, Slip};
use crate::stamp::NO_ZONE;
use super::faults::Kind as FaultKind;
use super::packed::{self, json_text, Packed};
use super::thinning::{self, Scale};
use super::yards::Yard;
use super::Page;
use crate::draw::SOFT;
use crate::grid::{Grid, Point};
use crate::show;
use crate::words::{self, count, grouped, length};
use serde_json::{json, Value};
use sha2::{Digest, Sha256};
use std::collections::HashMap;
use tera::{Context, Tera};
use uskelzar::{End, Kind};

const TEMPLATE: &str = include_str!("../../page/page.html");
const SCRIPT: &str = include_str!("../../page/page.js");
const STYLE: &str = include_str!("../../page/page.css");

/// So many faults of a kind are told one by one.
const TOLD: usize = 100;

/// The whole page.
pub fn html(page: &Page) -> Result<String, String> {
    let mut tera = Tera::default();
    // by the name's ending, every value is escaped that the template does not call safe
    tera.add_raw_template("page.html", TEMPLATE).map_err(|error| error.to_string())?;
    let context = Context::from_value(shown(page)).map_err(|error| error.to_string())?;
    tera.render("page.html", &context).map_err(|error| format!("{error:?}"))
}

/// What the template shows.
fn shown(page: &Page) -> Value {
    let style = style();
    let name = page.path.file_name().map_or_else(|| page.path.to_string_lossy(), |name| name.to_string_lossy());
    let points = page.yards.iter().map(Yard::points).sum();
    json!({
        "name": name,
        "head": show::head(page.path, page.map).lines().collect::<Vec<_>>(),
        "policy": policy(&style),
        "style": style,
        "script": SCRIPT,
        "data": json_text(&data(page)),
        "yards": page.yards_shown(),
        "points": count(points, "point"),
        "asked": grouped(page.raster.answers.len()),
        "spacing": page.spacing(),
        "faults": page.faults_shown(),
        "fault_count": page.faults.all.len(),
        "fault_notes": page.faults.notes,
        "built_notes": page.built.notes,
        "day": page.day_shown(),
    })
}

/// The colours of the zones behind the rest.
fn style() -> String {
    let colour = |(i, ([red, green, blue], _)): (usize, &([u8; 3], &str))| format!(".c{i}{{--zone:#{red:02x}{green:02x}{blue:02x}}}\n");
    STYLE.to_string() + &SOFT.iter().enumerate().map(colour).collect::<String>()
}

/// Nothing but the one script and the one style, by their hashes; no network, no frames, no forms.
fn policy(style: &str) -> String {
    let hash = |text: &str| base64::encode(Sha256::digest(text));
    format!("default-src 'none'; script-src 'sha256-{}'; style-src 'sha256-{}'; base-uri 'none'; form-action 'none'", hash(SCRIPT), hash(style))
}

/// The least digits that give the same f32 again.
fn short(value: f32) -> f64 {
    value.to_string().parse().unwrap_or_else(|_| value.into())
}

fn place_words((lat, lon): Fix) -> String {
    format!("{lat} {lon}")
}

/// Square metres, hectares or square kilometres.
fn area_words(area: f64) -> String {
    match area {
        _ if area < 100_000.0 => format!("{} m²", grouped(area.round() as usize)),
        _ if area < 10_000_000.0 => format!("{:.1} ha", area / 1e4),
        _ => format!("{} km²", grouped((area / 1e6).round() as usize)),
    }
}

/// A word as a shell takes it.
fn shell_word(word: &str) -> String {
    let plain = !word.is_empty() && word.chars().all(|letter| letter.is_ascii_alphanumeric() || "_./+-".contains(letter)) && !word.starts_with('-');
    if plain {
        return word.to_string();
    }
    format!("'{}'", word.replace('\'', r"'\''"))
}

const KINDS: [Kind; 3] = [Kind::InZone, Kind::OnBorderVertex, Kind::OnBorderSegment];
const ENDS: [End; 4] = [End::Whole, End::TableUnreadable, End::BorderFailed, End::OutOfOrder];

impl Page<'_> {
    /// How far apart the picture's points are.
    fn spacing(&self) -> String {
        let frame = self.raster.frame;
        let degree = Grid { precision: 1 }.metres() / 90.0;
        length((frame.north - frame.south) / f64::from(self.raster.rows) * degree)
    }

    fn colour(&self, yard: &Yard) -> usize {
        self.colours.get(&yard.metadata).copied().unwrap_or(yard.metadata as usize % SOFT.len())
    }

    /// By their titles.
    fn yards_shown(&self) -> Vec<Value> {
        let mut yards: Vec<(usize, &Yard)> = self.yards.iter().enumerate().collect();
        yards.sort_by_key(|(_, yard)| yard.title.to_lowercase());
        yards.into_iter().map(|(number, yard)| self.yard(number, yard)).collect()
    }

    fn yard(&self, number: usize, yard: &Yard) -> Value {
        let [south, west, north, east] = yard.bounds();
        let degree = Grid { precision: 1 }.metres() / 90.0;
        let wide = (east - west) * ((south + north) / 2.0).to_radians().cos();
        let faults = self.faults.all.iter().filter(|fault| fault.yards.contains(&number)).count();
        json!({
            "number": number,
            "title": yard.title,
            "colour": self.colour(yard),
            "fields": yard.fields.iter().map(|field| [&field.name, &field.value]).collect::<Vec<_>>(),
            "borders": count(yard.rings.len(), "border"),
            "points": count(yard.points(), "point"),
            "holes": match yard.holes() { 0 => "none".into(), holes => count(holes, "hole") },
            "area": area_words(yard.area(self.map)),
            "box": format!("{south:.6} {west:.6} to {north:.6} {east:.6}"),
            "size": format!("{} by {}", length((north - south) * degree), length(wide * degree)),
            "built": self.built.yards[number],
            "centre": self.centres[number].map(|(place, answer)| json!({"place": place_words(place), "answer": self.answer_words(answer)})),
            "faults": if faults == 0 { Value::Null } else { json!(count(faults, "fault")) },
        })
    }

    fn yard_numbers(&self) -> HashMap<u32, usize> {
        self.yards.iter().enumerate().map(|(i, yard)| (yard.metadata, i)).collect()
    }

    /// An answer in the words of `depot zone`.
    fn answer_words(&self, number: u32) -> String {
        match self.answers.get(number) {
            Answer::Refused(why) => format!("refused: {why}"),
            Answer::Told { end, zones } => self.told_words(*end, zones),
        }
    }

    fn told_words(&self, end: u8, zones: &[(u32, u8)]) -> String {
        let title = |zone: u32| self.yards.iter().find(|yard| yard.metadata == zone).map_or_else(|| format!("zone {zone}"), |yard| yard.title.clone());
        let kind = |kind: u8| KINDS.into_iter().find(|known| *known as u8 == kind).map_or("", words::kind);
        let zones: Vec<String> = zones.iter().map(|(zone, at)| format!("{}: {}", title(*zone), kind(*at))).collect();
        let found = if zones.is_empty() { "no zone holds the fix".into() } else { zones.join("; ") };
        let end = ENDS.into_iter().find(|known| *known as u8 == end).map_or("", words::end);
        format!("{found}; search: {end}")
    }

    fn faults_shown(&self) -> Vec<Value> {
        let fault = |i: usize| {
            let fault = &self.faults.all[i];
            json!({"number": i, "words": fault.words, "place": place_words(fault.place), "answer": self.answer_words(self.at_faults[i])})
        };
        let kind = |kind: FaultKind| {
            let of_kind: Vec<usize> = (0..self.faults.all.len()).filter(|i| self.faults.all[*i].kind == kind).collect();
            let told: Vec<Value> = of_kind.iter().take(TOLD).map(|i| fault(*i)).collect();
            (!of_kind.is_empty()).then(|| json!({"words": kind.words(), "count": of_kind.len(), "told": told, "more": of_kind.len() - told.len()}))
        };
        FaultKind::ALL.into_iter().filter_map(kind).collect()
    }

    fn day_shown(&self) -> Value {
        let Some(day) = &self.day else { return Value::Null };
        let slips: Vec<Value> = day.slips.iter().enumerate().map(|(i, slip)| self.slip(&day.names, i, slip)).collect();
        let met = |way: usize| day.slips.iter().filter(|slip| slip.way == way).count();
        let ways = (0..=crate::stamp::WAYS.len()).filter(|way| met(*way) > 0);
        let ways: Vec<Value> = ways.map(|way| json!({"way": way, "words": way_words(way), "count": met(way)})).collect();
        json!({"names": day.names, "slips": slips, "ways": ways, "count": count(day.slips.len(), "slip"), "stamped": met(0)})
    }

    fn slip(&self, names: &[String], number: usize, slip: &Slip) -> Value {
        json!({"cells": names.iter().zip(&slip.cells).collect::<Vec<_>>(), "way": slip.way, "words": way_words(slip.way), "said": slip.said, "placed": slip.fix.is_some(), "note": self.slip_note(number, slip)})
    }

    /// Where this file's answer is not the one that the slip was stamped by.
    fn slip_note(&self, number: usize, slip: &Slip) -> Option<String> {
        let answer = self.answers.get(self.at_slips[number]?);
        let Answer::Told { zones, .. } = answer else { return None };
        let names: Vec<&String> = self.yards.iter().filter(|yard| zones.iter().any(|(zone, _)| *zone == yard.metadata)).filter_map(|yard| yard.zone.as_ref()).collect();
        let known = slip.zones.iter().all(|zone| names.contains(&zone));
        let told = if slip.way == 0 { !known } else { way_words(slip.way) == NO_ZONE && !zones.is_empty() };
        told.then(|| "not by this file: its answer here is another".into())
    }
}

/// What the script draws.
fn data(page: &Page) -> Value {
    let header = page.map.header();
    let (frame, grid) = (page.raster.frame, Grid { precision: header.precision });
    // a step of longitude is two of latitude, and narrower away from the equator
    let scale = Scale::of(2.0 * frame.width(), (frame.east - frame.west) * frame.width() / grid.step());
    let numbers = page.yard_numbers();
    let (mut points, mut levels) = (Packed::default(), vec![]);
    let mut here = (0, 0);
    for ring in page.yards.iter().flat_map(|yard| &yard.rings) {
        ring.points.iter().for_each(|point| here = packed_point(&mut points, here, *point));
        levels.extend(thinning::levels(&ring.points, scale));
    }
    json!({
        "command": format!("./depot zone {}", shell_word(&page.path.to_string_lossy())),
        "frame": [frame.south, frame.west, frame.north, frame.east],
        "wide": frame.width(),
        "step": grid.step(),
        "raster": page.raster.json(),
        "answers": page.answers.all.iter().map(|answer| answer_json(answer, &numbers)).collect::<Vec<_>>(),
        "yards": page.yards.iter().enumerate().map(|(i, yard)| yard_json(page, i, yard)).collect::<Vec<_>>(),
        "points": points.text(),
        "levels": packed::halves(&levels),
        "base": scale.base,
        "colours": SOFT.iter().map(|(colour, _)| colour).collect::<Vec<_>>(),
        "kinds": KINDS.into_iter().map(|kind| ((kind as u8).to_string(), json!(words::kind(kind)))).collect::<serde_json::Map<_, _>>(),
        "ends": ENDS.into_iter().map(|end| ((end as u8).to_string(), json!(words::end(end)))).collect::<serde_json::Map<_, _>>(),
        "faults": page.faults.all.iter().zip(&page.at_faults).map(|(fault, answer)| json!([short(fault.place.0), short(fault.place.1), answer, fault.yards.first()])).collect::<Vec<_>>(),
        "slips": slips_json(page),
    })
}

/// The way from one point to the next.
fn packed_point(packed: &mut Packed, from: Point, to: Point) -> Point {
    packed.signed(i64::from(to.0) - i64::from(from.0));
    packed.signed(i64::from(to.1) - i64::from(from.1));
    to
}

/// The end mark, then each yard with its kind; or why it was refused.
fn answer_json(answer: &Answer, numbers: &HashMap<u32, usize>) -> Value {
    match answer {
        Answer::Refused(why) => json!(why),
        Answer::Told { end, zones } => {
            let zone = |(zone, kind): &(u32, u8)| json!([numbers.get(zone).map_or_else(|| json!(format!("zone {zone}")), |number| json!(number)), kind]);
            json!([end, zones.iter().map(zone).collect::<Vec<_>>()])
        }
    }
}

fn yard_json(page: &Page, number: usize, yard: &Yard) -> Value {
    let rings: Vec<Value> = yard.rings.iter().map(|ring| json!([ring.points.len(), u8::from(ring.hole)])).collect();
    let centre = page.centres[number].map(|((lat, lon), answer)| json!([short(lat), short(lon), answer]));
    let name = yard.fields.iter().rev().find(|field| field.name == "Name" && !field.value.is_empty()).map_or(&yard.title, |field| &field.value);
    json!({"title": yard.title, "name": name, "zone": yard.zone, "colour": page.colour(yard), "box": yard.bounds(), "rings": rings, "centre": centre})
}

/// Latitude, longitude, answer and whether it was stamped; nothing where the line can't be read.
fn slips_json(page: &Page) -> Value {
    let slips = page.day.iter().flat_map(|day| &day.slips).zip(&page.at_slips);
    let slip = |(slip, answer): (&Slip, &Option<u32>)| slip.fix.map(|(lat, lon)| json!([short(lat), short(lon), answer, u8::from(slip.way == 0)]));
    slips.map(slip).collect()
}

#[cfg(test)]
mod tests {
    use super::*;

    #[test]
    fn words_of_sizes() {
        assert_eq!([3.4, 99_999.0, 123_456.0, 20_000_000.0].map(area_words), ["3 m²", "99,999 m²", "12.3 ha", "20 km²"]);
    }

    #[test]
    fn words_for_a_shell() {
        assert_eq!(["yards.plb", "a b", "it's", "$(x)", "", "-v"].map(shell_word), ["yards.plb", "'a b'", r"'it'\''s'", "'$(x)'", "''", "'-v'"]);
    }

    #[test]
    fn nothing_in_the_script_ends_it() {
        assert!(!SCRIPT.contains("</") && !SCRIPT.contains("<!--") && !STYLE.contains("</"));
        assert!(SCRIPT.lines().count() <= 600);
    }

    #[test]
    fn degrees_with_few_digits() {
        assert_eq!([0.0035f32, 109.338, -0.0].map(short), [0.0035, 109.338, 0.0]);
    }
}
