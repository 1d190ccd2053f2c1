//! A file's yards as they stand in it.

use crate::grid::Point;
use crate::show::{zones_of, Border, Zone};
use crate::zone::title;
use uskelzar::{Entry, Field, Map, Table, Unread};

/// A border that was read to its end.
pub struct Ring {
    pub entry: Entry,
    pub points: Vec<Point>,
    pub hole: bool,
}

/// A zone of the file with all its borders.
pub struct Yard {
    /// Which zone it is in the file.
    pub metadata: u32,
    pub title: String,
    /// The name of its time zone, if its fields make one.
    pub zone: Option<String>,
    pub fields: Vec<Field>,
    pub rings: Vec<Ring>,
    /// Entries whose border can't be read, and why; the yard's fields too.
    pub unread: Vec<(Option<Entry>, Unread)>,
}

/// All yards, in the order of their first borders, and why the table can't be read further, if so.
pub fn read(map: &Map<Vec<u8>>) -> (Vec<Yard>, Option<Unread>) {
    let (zones, stop) = zones_of(map);
    (zones.into_iter().map(|zone| Yard::of(map.header().table, zone)).collect(), stop)
}

impl Yard {
    fn of(table: Table, zone: Zone) -> Yard {
        let mut unread = vec![];
        let fields = zone.fields.unwrap_or_else(|why| {
            unread.push((None, why));
            vec![]
        });
        let mut yard = Yard { metadata: zone.metadata, title: title(table, &fields, zone.metadata), zone: zone_name(table, &fields), fields, rings: vec![], unread };
        zone.borders.into_iter().for_each(|border| yard.take(border));
        yard
    }

    fn take(&mut self, border: Border) {
        let hole = border.is_hole();
        match border.points {
            Ok(points) => self.rings.push(Ring { entry: border.entry, points, hole }),
            Err(why) => self.unread.push((Some(border.entry), why)),
        }
    }

    pub fn points(&self) -> usize {
        self.rings.iter().map(|ring| ring.points.len()).sum()
    }

    pub fn holes(&self) -> usize {
        self.rings.iter().filter(|ring| ring.hole).count()
    }

    /// South, west, north and east of all its boxes.
    pub fn bounds(&self) -> [f64; 4] {
        let unread = self.unread.iter().filter_map(|(entry, _)| entry.as_ref());
        let boxes = self.rings.iter().map(|ring| &ring.entry).chain(unread).map(|entry| [entry.lower.0, entry.lower.1, entry.upper.0, entry.upper.1]);
        let both = |a: [f64; 4], b: [f64; 4]| [a[0].min(b[0]), a[1].min(b[1]), a[2].max(b[2]), a[3].max(b[3])];
        boxes.reduce(both).unwrap_or_default()
    }

    /// Square metres, on a sphere; what holes take is taken.
    pub fn area(&self, map: &Map<Vec<u8>>) -> f64 {
        self.rings.iter().map(|ring| area(&places(map, &ring.points))).sum::<f64>().abs()
    }

    /// A place well inside: of the middles of some lines from west to east through its largest border the one farthest from all its borders. None
    /// where no line is inside.
    pub fn centre(&self, map: &Map<Vec<u8>>) -> Option<Place> {
        let rings: Vec<Vec<Place>> = self.rings.iter().map(|ring| places(map, &ring.points)).collect();
        let largest = rings.iter().max_by(|a, b| area(a).abs().total_cmp(&area(b).abs()))?;
        let (south, north) = largest.iter().fold((f64::MAX, f64::MIN), |(south, north), place| (south.min(place.0), north.max(place.0)));
        let middle = |k: u32| {
            // not through a round number, where borders tend to have points
            let lat = south + (north - south) * (f64::from(k) + 0.013) / f64::from(LINES);
            widest(&rings, lat).map(|(west, east)| (lat, (west + east) / 2.0))
        };
        let middles = (1..LINES).filter_map(middle).map(|place| (room(&rings, place), place));
        middles.max_by(|a, b| a.0.total_cmp(&b.0)).map(|(_, centre)| centre)
    }
}

/// Latitude and longitude in degrees.
type Place = (f64, f64);

const LINES: u32 = 24;

/// As stamps take it.
fn zone_name(table: Table, fields: &[Field]) -> Option<String> {
    let field = |name| fields.iter().rev().find(|field| field.name == name).map(|field| field.value.as_str());
    let name = (table == Table::TimeZones).then(|| field("TimezoneIdPrefix").zip(field("TimezoneId")))?;
    name.map(|(prefix, id)| format!("{prefix}{id}")).filter(|name| !name.is_empty())
}

fn places(map: &Map<Vec<u8>>, points: &[Point]) -> Vec<Place> {
    points.iter().map(|point| map.degrees(*point)).collect()
}

/// The earth's radius in metres.
const RADIUS: f64 = 6_371_008.8;

/// Square metres inside a ring, negative where it turns clockwise.
fn area(ring: &[Place]) -> f64 {
    let strip = |(here, next): (&Place, &Place)| (here.1 - next.1).to_radians() * (here.0.to_radians().sin() + next.0.to_radians().sin()) / 2.0;
    ring.iter().zip(ring.iter().cycle().skip(1)).map(strip).sum::<f64>() * RADIUS * RADIUS
}

/// The longest part of a latitude inside the rings, holes left out: from west to east.
fn widest(rings: &[Vec<Place>], lat: f64) -> Option<(f64, f64)> {
    let mut meets: Vec<(f64, i32)> = rings.iter().flat_map(|ring| meets(ring, lat)).collect();
    meets.sort_by(|a, b| a.0.total_cmp(&b.0));
    let (mut turns, mut best) = (0, None);
    for pair in meets.windows(2) {
        turns += pair[0].1;
        let wide = pair[1].0 - pair[0].0;
        if turns != 0 && wide > 0.0 && best.map_or(true, |(west, east)| wide > east - west) {
            best = Some((pair[0].0, pair[1].0));
        }
    }
    best
}

/// How far the nearest border is, in degrees of latitude.
fn room(rings: &[Vec<Place>], place: Place) -> f64 {
    let wide = place.0.to_radians().cos();
    let far = |(here, next): (&Place, &Place)| {
        let (from, along) = ((here.0 - place.0, (here.1 - place.1) * wide), (next.0 - here.0, (next.1 - here.1) * wide));
        let long = along.0 * along.0 + along.1 * along.1;
        let part = if long > 0.0 { (-(from.0 * along.0 + from.1 * along.1) / long).clamp(0.0, 1.0) } else { 0.0 };
        (from.0 + part * along.0).hypot(from.1 + part * along.1)
    };
    let edges = rings.iter().flat_map(|ring| ring.iter().zip(ring.iter().cycle().skip(1)));
    edges.map(far).fold(f64::INFINITY, f64::min)
}

/// Where a ring meets a latitude, and whether northward or southward.
fn meets(ring: &[Place], lat: f64) -> impl Iterator<Item = (f64, i32)> + '_ {
    let edges = ring.iter().zip(ring.iter().cycle().skip(1));
    edges.filter(move |(here, next)| (here.0 > lat) != (next.0 > lat)).map(move |(here, next)| {
        let part = (lat - here.0) / (next.0 - here.0);
        (here.1 + (next.1 - here.1) * part, if next.0 > here.0 { 1 } else { -1 })
    })
}

#[cfg(test)]
mod tests {
    use super::*;

    #[test]
    fn areas() {
        let square = [(0.0, 0.0), (0.0, 0.01), (0.01, 0.01), (0.01, 0.0)];
        assert!((area(&square).abs() - 1_236_431.0).abs() < 100.0, "{}", area(&square));
        let world = [(-90.0, -180.0), (-90.0, 180.0), (90.0, 180.0), (90.0, -180.0)];
        assert!((area(&world).abs() / 5.100_656e14 - 1.0).abs() < 1e-4);
        let turned: Vec<_> = square.iter().rev().copied().collect();
        assert_eq!(area(&turned), -area(&square));
    }

    #[test]
    fn the_widest_part() {
        let outer = vec![(0.0, 0.0), (10.0, 0.0), (10.0, 10.0), (0.0, 10.0)];
        let hole = vec![(2.0, 1.0), (2.0, 4.0), (8.0, 4.0), (8.0, 1.0)];
        assert_eq!(widest(&[outer.clone(), hole.clone()], 5.0), Some((4.0, 10.0)));
        assert_eq!(widest(&[outer.clone(), hole], 1.0), Some((0.0, 10.0)));
        assert_eq!(widest(&[outer], 11.0), None);
        assert!((room(&[vec![(0.0, 0.0), (10.0, 0.0), (10.0, 10.0), (0.0, 10.0)]], (0.5, 5.0)) - 0.5).abs() < 1e-9);
    }
}
