//! What is wrong with a file's yards, each with its place.

use super::answers::{Answers, Fix};
use super::edges::{self, Crossing};
use super::raster::Raster;
use super::yards::{Ring, Yard};
use crate::grid::{doubled_area, Point};
use crate::show::lies_in;
use crate::words::{self, count};
use std::collections::{BTreeMap, BTreeSet, HashMap};
use uskelzar::{Map, Unread};

/// What kind of fault it is, in the order in which they are told.
#[derive(Clone, Copy, Debug, Eq, Ord, PartialEq, PartialOrd)]
pub enum Kind {
    Overlap,
    Crosses,
    Hole,
    Inside,
    Centre,
    Search,
    Unread,
}

impl Kind {
    pub const ALL: [Kind; 7] = [Kind::Overlap, Kind::Crosses, Kind::Hole, Kind::Inside, Kind::Centre, Kind::Search, Kind::Unread];

    pub fn words(self) -> &'static str {
        match self {
            Kind::Overlap => "Two yards overlap",
            Kind::Crosses => "A border crosses itself",
            Kind::Hole => "A hole reaches over its edge",
            Kind::Inside => "A yard inside another of the same name",
            Kind::Centre => "A yard is not found at its centre",
            Kind::Search => "A search was not whole",
            Kind::Unread => "Not read",
        }
    }
}

/// A fault at a place.
#[derive(Clone, Debug)]
pub struct Fault {
    pub kind: Kind,
    pub words: String,
    pub place: Fix,
    /// Whose it is, by their numbers among the yards.
    pub yards: Vec<usize>,
}

/// All faults, in the order of their kinds, and what was not sought.
#[derive(Default)]
pub struct Faults {
    pub all: Vec<Fault>,
    pub notes: Vec<String>,
}

/// What faults are sought in.
pub struct Sought<'a> {
    pub map: &'a Map<Vec<u8>>,
    pub yards: &'a [Yard],
    pub raster: &'a Raster,
    /// The centre of each yard that has one, and the number of the answer there.
    pub centres: &'a [Option<(Fix, u32)>],
    pub stop: Option<Unread>,
}

/// A ring with its yard's number.
type Owned<'a> = (usize, &'a Ring);

impl Sought<'_> {
    pub fn faults(&self, answers: &mut Answers) -> Faults {
        let rings: Vec<Owned> = self.yards.iter().enumerate().flat_map(|(i, yard)| yard.rings.iter().map(move |ring| (i, ring))).collect();
        let points: Vec<&[Point]> = rings.iter().map(|(_, ring)| ring.points.as_slice()).collect();
        let (crossings, whole) = edges::crossings(&points);
        let mut faults = Faults::default();
        if !whole {
            faults.notes.push("There are so many edges or crossings that not all crossings were sought.".into());
        }
        faults.all.extend(self.overlaps(&rings, &crossings, answers));
        faults.all.extend(self.crossed(&rings, &crossings));
        faults.all.extend(self.holes(&rings, &crossings));
        faults.all.extend(self.inside(&rings));
        faults.all.extend(self.centres(answers));
        faults.all.extend(self.searches(answers));
        faults.all.extend(self.unread());
        faults
    }

    fn fix(&self, (lat, lon): (f64, f64)) -> Fix {
        let step = |point: Point| self.map.degrees(point);
        let (high, wide) = step((1, 1));
        ((lat * high) as f32, (lon * wide) as f32)
    }

    fn title(&self, yard: usize) -> &str {
        &self.yards[yard].title
    }

    /// Borders that cross themselves, with the first of the crossings of each.
    fn crossed(&self, rings: &[Owned], crossings: &[Crossing]) -> Vec<Fault> {
        let mut met: BTreeMap<usize, Vec<&Crossing>> = BTreeMap::new();
        for crossing in crossings.iter().filter(|crossing| crossing.rings.0 == crossing.rings.1) {
            met.entry(crossing.rings.0).or_default().push(crossing);
        }
        let fault = |(number, met): (usize, Vec<&Crossing>)| {
            let (yard, ring) = rings[number];
            let times = if met.len() == 1 { String::new() } else { format!(" at {} places, the first here", words::grouped(met.len())) };
            let words = format!("{}: the border of entry {} crosses itself{times}", self.title(yard), ring.entry.number);
            Fault { kind: Kind::Crosses, words, place: self.fix(met[0].at), yards: vec![yard] }
        };
        met.into_iter().map(fault).collect()
    }

    /// Holes that cross an edge of their yard, or lie in none.
    fn holes(&self, rings: &[Owned], crossings: &[Crossing]) -> Vec<Fault> {
        let mut over: BTreeMap<usize, (f64, f64)> = BTreeMap::new();
        for crossing in crossings {
            let (a, b) = crossing.rings;
            let ((first, second), same) = ((rings[a].1, rings[b].1), rings[a].0 == rings[b].0);
            if same && first.hole != second.hole {
                over.entry(if first.hole { a } else { b }).or_insert(crossing.at);
            }
        }
        let fault = |(number, (yard, hole)): (usize, &Owned)| {
            let place = over.get(&number).copied().or_else(|| self.outside(*yard, hole))?;
            let words = format!("{}: the hole of entry {} reaches over its edge; what lies outside counts as part of the yard", self.title(*yard), hole.entry.number);
            Some(Fault { kind: Kind::Hole, words, place: self.fix(place), yards: vec![*yard] })
        };
        rings.iter().enumerate().filter(|(_, (_, ring))| ring.hole).filter_map(fault).collect()
    }

    /// A point of a hole that lies in no border of its yard.
    fn outside(&self, yard: usize, hole: &Ring) -> Option<(f64, f64)> {
        let mut outer = self.yards[yard].rings.iter().filter(|ring| !ring.hole);
        let held = outer.any(|ring| box_in(hole, ring) && lies_in(&hole.points, &ring.points));
        hole.points.first().filter(|_| !held).map(|point| (point.0.into(), point.1.into()))
    }

    /// Borders in others of the same name, holes taken off.
    fn inside(&self, rings: &[Owned]) -> Vec<Fault> {
        let mut named: HashMap<&str, Vec<Owned>> = HashMap::new();
        for (yard, ring) in rings {
            named.entry(self.title(*yard)).or_default().push((*yard, ring));
        }
        let outer = rings.iter().filter(|(_, ring)| !ring.hole);
        outer.filter_map(|owned| self.held(owned, &named[self.title(owned.0)])).collect()
    }

    fn held(&self, (yard, ring): &Owned, others: &[Owned]) -> Option<Fault> {
        let holds = |(_, other): &&Owned| other.entry.number != ring.entry.number && box_in(ring, other) && is_smaller(ring, other) && lies_in(&ring.points, &other.points);
        let holders: Vec<&Owned> = others.iter().filter(holds).collect();
        let holes = holders.iter().filter(|(_, other)| other.hole).count();
        let (owner, holder) = holders.iter().find(|(_, other)| !other.hole).filter(|_| holders.len() > 2 * holes)?;
        let words = format!("{}: the border of entry {} lies inside that of entry {}, which has the same name", self.title(*yard), ring.entry.number, holder.entry.number);
        let first = ring.points.first()?;
        Some(Fault { kind: Kind::Inside, words, place: self.fix((first.0.into(), first.1.into())), yards: vec![*yard, *owner] })
    }

    /// Yards that the library does not find at their own centre, neither inside nor on the border.
    fn centres(&self, answers: &Answers) -> Vec<Fault> {
        let fault = |(yard, centre): (usize, &Option<(Fix, u32)>)| {
            let (place, answer) = (*centre)?;
            let found = answers.get(answer).has(self.yards[yard].metadata);
            let words = format!("{}: at the middle of its border the library does not find it", self.title(yard));
            (!found).then_some(Fault { kind: Kind::Centre, words, place, yards: vec![yard] })
        };
        self.centres.iter().enumerate().filter_map(fault).collect()
    }

    /// The picture's points whose search was not whole or was refused.
    fn searches(&self, answers: &Answers) -> Option<Fault> {
        let bad: Vec<usize> = (0..self.raster.answers.len()).filter(|i| !answers.get(self.raster.answers[*i]).is_whole()).collect();
        let place = self.raster.fix(*bad.first()?);
        let words = format!("{} of the picture's {}: no slip is stamped there", words::grouped(bad.len()), count(self.raster.answers.len(), "point"));
        Some(Fault { kind: Kind::Search, words, place, yards: vec![] })
    }

    fn unread(&self) -> Vec<Fault> {
        let middle = self.raster.fix(self.raster.answers.len() / 2);
        let of_yard = |(number, yard): (usize, &Yard)| {
            let fault = |(entry, why): &(Option<uskelzar::Entry>, Unread)| {
                let what = entry.as_ref().map_or("its fields".to_string(), |entry| format!("the border of entry {}", entry.number));
                let [south, west, north, east] = yard.bounds();
                let place = (((south + north) / 2.0) as f32, ((west + east) / 2.0) as f32);
                Fault { kind: Kind::Unread, words: format!("{}: {what}: {why}", yard.title), place, yards: vec![number] }
            };
            yard.unread.iter().map(fault).collect::<Vec<_>>()
        };
        let table = self.stop.iter().map(|why| Fault { kind: Kind::Unread, words: format!("the table can't be read further: {why}"), place: middle, yards: vec![] });
        self.yards.iter().enumerate().flat_map(of_yard).chain(table).collect()
    }
}

fn box_in(inner: &Ring, outer: &Ring) -> bool {
    let (a, b) = (&inner.entry, &outer.entry);
    a.lower.0 >= b.lower.0 && a.lower.1 >= b.lower.1 && a.upper.0 <= b.upper.0 && a.upper.1 <= b.upper.1
}

/// By area; of two of one area that of the later entry.
fn is_smaller(ring: &Ring, other: &Ring) -> bool {
    let size = |ring: &Ring| (doubled_area(&ring.points).unsigned_abs(), std::cmp::Reverse(ring.entry.number));
    size(ring) < size(other)
}

/// Two yards by their numbers, the lower one first.
type Pair = (usize, usize);

/// How many crossings of two yards' borders the library is asked about, in all.
const MOST_PROBED: usize = 500;

impl Sought<'_> {
    /// Yards that both hold a place, by the library's answers: on the picture, at the centres, and around the crossings of their borders.
    fn overlaps(&self, rings: &[Owned], crossings: &[Crossing], answers: &mut Answers) -> Vec<Fault> {
        let numbers: HashMap<u32, usize> = self.yards.iter().enumerate().map(|(i, yard)| (yard.metadata, i)).collect();
        let mut met: BTreeMap<Pair, (usize, Fix)> = BTreeMap::new();
        for (pair, points) in self.overlaps_on_picture(&numbers, answers) {
            met.insert(pair, (points.len(), self.raster.middle(&points)));
        }
        let probes = self.probes(rings, crossings, &met.keys().copied().collect());
        let told = answers.ask(self.map, &probes, "places where borders cross");
        let centres = self.centres.iter().flatten().copied();
        for (fix, answer) in centres.chain(probes.into_iter().zip(told)) {
            for pair in pairs_of(&answers.get(answer).inside(), &numbers) {
                met.entry(pair).or_insert((0, fix));
            }
        }
        let fault = |((a, b), (points, place)): (Pair, (usize, Fix))| {
            let where_ = if points == 0 { "between the picture's points".into() } else { format!("at {} of the picture", count(points, "point")) };
            let words = format!("{} and {}: the library finds both, {where_}", self.title(a), self.title(b));
            Fault { kind: Kind::Overlap, words, place, yards: vec![a, b] }
        };
        met.into_iter().map(fault).collect()
    }

    fn overlaps_on_picture(&self, numbers: &HashMap<u32, usize>, answers: &Answers) -> BTreeMap<Pair, Vec<usize>> {
        let pairs: Vec<Vec<Pair>> = answers.all.iter().map(|answer| pairs_of(&answer.inside(), numbers)).collect();
        let mut met: BTreeMap<Pair, Vec<usize>> = BTreeMap::new();
        for (i, answer) in self.raster.answers.iter().enumerate() {
            for pair in &pairs[*answer as usize] {
                met.entry(*pair).or_default().push(i);
            }
        }
        met
    }

    /// Places around the crossings of two yards' borders, in each of the four angles.
    fn probes(&self, rings: &[Owned], crossings: &[Crossing], known: &BTreeSet<Pair>) -> Vec<Fix> {
        let unknown = |crossing: &&Crossing| {
            let (a, b) = (rings[crossing.rings.0].0, rings[crossing.rings.1].0);
            a != b && !known.contains(&(a.min(b), a.max(b)))
        };
        let between = |crossing: &Crossing| {
            let [(a, b), (c, d)] = crossing.ways;
            [(a, c), (a, d), (b, c), (b, d)].into_iter().flat_map(|(one, other)| angle(crossing.at, one, other)).collect::<Vec<_>>()
        };
        crossings.iter().filter(unknown).take(MOST_PROBED).flat_map(between).map(|place| self.fix(place)).collect()
    }
}

/// Three places in the angle that two points make, at some steps of the grid and no farther than half the way to the nearer point.
fn angle(at: (f64, f64), one: Point, other: Point) -> [(f64, f64); 3] {
    let toward = |point: Point| {
        let (lat, lon) = (f64::from(point.0) - at.0, f64::from(point.1) - at.1);
        let far = lat.hypot(lon).max(1.0);
        (far, lat / far, lon / far)
    };
    let (a, b) = (toward(one), toward(other));
    [3.0, 12.0, 48.0].map(|steps| {
        let far = f64::min(steps, a.0.min(b.0) / 2.0);
        (at.0 + far * (a.1 + b.1), at.1 + far * (a.2 + b.2))
    })
}

fn pairs_of(zones: &[u32], numbers: &HashMap<u32, usize>) -> Vec<Pair> {
    let mut yards: Vec<usize> = zones.iter().filter_map(|zone| numbers.get(zone).copied()).collect();
    yards.sort_unstable();
    let pairs = yards.iter().enumerate().flat_map(|(i, a)| yards[i + 1..].iter().map(move |b| (*a, *b)));
    pairs.collect()
}
