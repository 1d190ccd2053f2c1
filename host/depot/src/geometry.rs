//! Whether polygons are in order, as they are drawn and as the grid has them: by GEOS, in words that name feature, ring, edges and place.

use crate::geojson::{Collection, Feature, Position, Ring};
use crate::geos::{Geos, Invalid, Reason, Xy};
use crate::grid::Grid;
use crate::plan::place_of;
use rayon::prelude::*;

/// A ring's places, each with the number of its point in the drawing, from 1. A ring that is left out has none.
#[derive(Default)]
struct Line {
    /// Which polygon's it is and which of its rings, from 0.
    whose: Whose,
    numbers: Vec<usize>,
    places: Vec<Xy>,
}

type Whose = (usize, usize);

/// What is wrong with a polygon, or with two of a feature.
struct Flaw {
    kind: Kind,
    rings: (Whose, Whose),
    /// The edges by the numbers of their two points, one of each ring.
    edges: Option<((usize, usize), (usize, usize))>,
    at: Xy,
}

#[derive(Clone, Copy, PartialEq)]
enum Kind {
    Crosses,
    Folds,
    Outside,
    Around,
    Nested,
    Over,
    FewPoints,
    Other,
}

/// What is wrong with the polygons as they are drawn.
pub fn as_drawn(collection: &Collection) -> Vec<String> {
    each_feature(collection, |geos, feature| of_feature(geos, &lines(feature, drawn)), |at| at)
}

/// What is wrong with polygons on the grid, in features that are in order as they are drawn.
pub fn on_grid(collection: &Collection, grid: Grid) -> Vec<String> {
    let flaws = |geos: &Geos, feature: &Feature| {
        if !of_feature(geos, &lines(feature, drawn)).is_empty() {
            return vec![];
        }
        let mut polygons = lines(feature, |ring| if grid.round(ring).is_some() { rounded(ring, grid) } else { Line::default() });
        // with an outer ring go its holes
        polygons.retain(|polygon| !polygon[0].places.is_empty());
        of_feature(geos, &polygons)
    };
    each_feature(collection, flaws, |[x, y]| [x * 2.0 * grid.step(), y * grid.step()])
}

/// The words on each flaw, feature by feature.
fn each_feature(collection: &Collection, flaws: impl Fn(&Geos, &Feature) -> Vec<Flaw> + Sync, degrees: impl Fn(Xy) -> Xy + Sync) -> Vec<String> {
    let words = |feature: &Feature| {
        let place = |(polygon, ring)| place_of(&feature.name, feature.polygons.len(), polygon, ring);
        flaws(&Geos::new(), feature).into_iter().map(|flaw| flaw.words(place(flaw.rings.0), degrees(flaw.at))).collect::<Vec<_>>()
    };
    collection.features.par_iter().flat_map_iter(words).collect()
}

/// The rings of each polygon of a feature.
fn lines(feature: &Feature, line: impl Fn(&Ring) -> Line) -> Vec<Vec<Line>> {
    let polygon = |(i, polygon): (usize, &Vec<Ring>)| polygon.iter().enumerate().map(|(k, ring)| Line { whose: (i, k), ..line(ring) }).collect();
    feature.polygons.iter().enumerate().map(polygon).collect()
}

/// First what is wrong with each polygon, then with two of them.
fn of_feature(geos: &Geos, polygons: &[Vec<Line>]) -> Vec<Flaw> {
    let alone: Vec<Flaw> = polygons.iter().flat_map(|polygon| flaws(geos, polygon)).collect();
    if !alone.is_empty() {
        return alone;
    }
    let all: Vec<Vec<&[Xy]>> = polygons.iter().map(|polygon| places(polygon)).collect();
    if all.len() < 2 || geos.invalid_parts(&all).is_none() {
        return vec![];
    }
    let boxes: Vec<Corners> = all.iter().map(|rings| box_of(rings[0])).collect();
    let pairs = (0..all.len()).flat_map(|b| (0..b).map(move |a| (a, b))).filter(|(a, b)| boxes_meet(boxes[*a], boxes[*b]));
    pairs.filter_map(|(a, b)| over(geos, [&polygons[a], &polygons[b]], [&all[a], &all[b]])).take(MOST_PAIRS).collect()
}

/// More overlaps are not told of one feature.
const MOST_PAIRS: usize = 100;

/// Two polygons that have more than a line in common.
fn over(geos: &Geos, lines: [&Vec<Line>; 2], places: [&Vec<&[Xy]>; 2]) -> Option<Flaw> {
    if !geos.overlap(places[0], places[1]) {
        return None;
    }
    let invalid = geos.invalid_parts(&[places[0].clone(), places[1].clone()])?;
    let rings: Vec<&Line> = lines.into_iter().flatten().filter(|line| !line.places.is_empty()).collect();
    let met = (invalid.reason == Reason::Crossing).then(|| crossing(geos, &rings, invalid.at)).flatten();
    let crossed = met.filter(|flaw| flaw.kind == Kind::Crosses && flaw.rings.0 .0 != flaw.rings.1 .0);
    Some(crossed.unwrap_or(Flaw { kind: Kind::Over, rings: (lines[1][0].whose, lines[0][0].whose), edges: None, at: invalid.at }))
}

/// The lower and the upper corner.
type Corners = [Xy; 2];

fn box_of(places: &[Xy]) -> Corners {
    let end = |better: fn(f64, f64) -> f64, worst: f64| places.iter().fold([worst; 2], |end, place| [better(end[0], place[0]), better(end[1], place[1])]);
    [end(f64::min, f64::INFINITY), end(f64::max, f64::NEG_INFINITY)]
}

fn boxes_meet(one: Corners, other: Corners) -> bool {
    (0..2).all(|axis| one[0][axis] <= other[1][axis] && other[0][axis] <= one[1][axis])
}

fn xy(place: &Position) -> Xy {
    [place.lon, place.lat]
}

fn drawn(ring: &Ring) -> Line {
    Line { numbers: (1..=ring.len()).collect(), places: ring.iter().map(xy).collect(), ..Line::default() }
}

/// A ring on the grid, without the points that fall on the one before.
fn rounded(ring: &Ring, grid: Grid) -> Line {
    let mut line = Line::default();
    for (i, place) in ring.iter().enumerate() {
        let (lat, lon) = grid.point(*place);
        let place = [f64::from(lon), f64::from(lat)];
        if line.places.last() != Some(&place) {
            line.numbers.push(i + 1);
            line.places.push(place);
        }
    }
    while line.places.len() > 1 && line.places.first() == line.places.last() {
        line.places.pop();
        line.numbers.pop();
    }
    line
}

fn places(lines: &[Line]) -> Vec<&[Xy]> {
    lines.iter().map(|line| line.places.as_slice()).filter(|places| !places.is_empty()).collect()
}

/// Where rings only touch, each place is inside or outside still.
fn is_flaw(invalid: Invalid) -> bool {
    invalid.reason != Reason::Disconnected
}

/// First what is wrong with each ring, then with each hole in its outer ring, then among the holes.
fn flaws(geos: &Geos, lines: &[Line]) -> Vec<Flaw> {
    let there: Vec<&Line> = lines.iter().filter(|line| !line.places.is_empty()).collect();
    let of = |rings: &[&Line]| {
        let places: Vec<&[Xy]> = rings.iter().map(|line| line.places.as_slice()).collect();
        geos.invalid(&places).filter(|invalid| is_flaw(*invalid)).map(|invalid| flaw(geos, rings, invalid))
    };
    let alone: Vec<Flaw> = there.iter().filter_map(|ring| of(&[ring])).collect();
    if !alone.is_empty() {
        return alone;
    }
    let Some(whole) = of(&there) else { return vec![] };
    let holes: Vec<Flaw> = there.iter().skip(1).filter_map(|hole| of(&[there[0], hole])).collect();
    if holes.is_empty() {
        return vec![whole];
    }
    holes
}

/// What GEOS found in some of a polygon's rings, with the edges that are there.
fn flaw(geos: &Geos, rings: &[&Line], invalid: Invalid) -> Flaw {
    let (first, last, at) = (rings[0], rings[rings.len() - 1], invalid.at);
    let plain = |kind| Flaw { kind, rings: (last.whose, first.whose), edges: None, at };
    match invalid.reason {
        Reason::FewPoints => plain(Kind::FewPoints),
        Reason::HoleOutside if rings.len() == 2 && area(&last.places) > area(&first.places) => plain(Kind::Around),
        Reason::HoleOutside => plain(Kind::Outside),
        Reason::HoleInHole => {
            let inner = rings.iter().find(|line| line.places.contains(&at)).unwrap_or(&last);
            Flaw { rings: (inner.whose, first.whose), ..plain(Kind::Nested) }
        }
        Reason::Crossing => crossing(geos, rings, at).unwrap_or(plain(Kind::Crosses)),
        Reason::Disconnected | Reason::Nested | Reason::Other => plain(Kind::Other),
    }
}

/// Twice a ring's area, by the numbers.
fn area(places: &[Xy]) -> f64 {
    let turn = |(a, b): (&Xy, &Xy)| a[0] * b[1] - b[0] * a[1];
    places.iter().zip(places.iter().cycle().skip(1)).map(turn).sum::<f64>().abs()
}

/// An edge of a ring, by the index of its first place.
#[derive(Clone, Copy)]
struct Edge<'a> {
    line: &'a Line,
    first: usize,
    from: Xy,
    to: Xy,
}

/// So many edges about a place are tried with each other.
const TRIED: usize = 16;

/// The two edges that meet at a place.
fn crossing(geos: &Geos, rings: &[&Line], at: Xy) -> Option<Flaw> {
    let mut near: Vec<(f64, Edge)> = rings.iter().flat_map(|line| line.edges()).filter(|edge| edge.from != edge.to).map(|edge| (edge.distance(at), edge)).collect();
    near.sort_by(|a, b| a.0.total_cmp(&b.0));
    near.truncate(TRIED);
    let pairs = || near.iter().enumerate().flat_map(|(i, (_, b))| near[..i].iter().map(move |(_, a)| (a, b)));
    let found = |kind| pairs().find(|(a, b)| meeting(geos, a, b) == Some(kind)).map(|(a, b)| (kind, *a, *b));
    // where lines cross at a point that both have, no two edges alone do
    let at_point = || pairs().find(|(a, b)| !a.follows(b) && !b.follows(a)).map(|(a, b)| (Kind::Crosses, *a, *b));
    let (kind, a, b) = found(Kind::Crosses).or_else(|| found(Kind::Folds)).or_else(at_point)?;
    let (a, b) = if (a.line.whose, a.first) <= (b.line.whose, b.first) { (a, b) } else { (b, a) };
    Some(Flaw { kind, rings: (a.line.whose, b.line.whose), edges: Some((a.numbers(), b.numbers())), at })
}

impl Line {
    fn edges(&self) -> impl Iterator<Item = Edge<'_>> + '_ {
        (0..self.places.len()).map(|first| Edge { line: self, first, from: self.places[first], to: self.places[(first + 1) % self.places.len()] })
    }
}

impl Edge<'_> {
    fn distance(&self, at: Xy) -> f64 {
        let way = [self.to[0] - self.from[0], self.to[1] - self.from[1]];
        let far = [at[0] - self.from[0], at[1] - self.from[1]];
        let part = ((far[0] * way[0] + far[1] * way[1]) / (way[0] * way[0] + way[1] * way[1])).clamp(0.0, 1.0);
        (far[0] - part * way[0]).hypot(far[1] - part * way[1])
    }

    fn follows(&self, other: &Edge) -> bool {
        self.line.whose == other.line.whose && self.first == (other.first + 1) % self.line.places.len()
    }

    fn numbers(&self) -> (usize, usize) {
        let numbers = &self.line.numbers;
        (numbers[self.first], numbers[(self.first + 1) % numbers.len()])
    }
}

/// Whether two edges cross inside both, or lie on one another for more than a point.
fn meeting(geos: &Geos, a: &Edge, b: &Edge) -> Option<Kind> {
    let sides = [geos.side(a.from, a.to, b.from), geos.side(a.from, a.to, b.to), geos.side(b.from, b.to, a.from), geos.side(b.from, b.to, a.to)];
    if sides[0] * sides[1] < 0 && sides[2] * sides[3] < 0 {
        return Some(Kind::Crosses);
    }
    let common = |axis: usize| {
        let low = a.from[axis].min(a.to[axis]).max(b.from[axis].min(b.to[axis]));
        a.from[axis].max(a.to[axis]).min(b.from[axis].max(b.to[axis])) > low
    };
    (sides == [0; 4] && (common(0) || common(1))).then_some(Kind::Folds)
}

impl Flaw {
    /// With the words for the place of its first ring.
    fn words(&self, place: String, [lon, lat]: Xy) -> String {
        let at = format!("{lat:.7} {lon:.7}");
        let (one, other) = self.rings;
        let Some((a, b)) = self.edges else { return format!("{place}: {}", self.alone(&at)) };
        let other_words = if one.0 == other.0 { format!("ring {}", other.1 + 1) } else { format!("polygon {}, ring {}", other.0 + 1, other.1 + 1) };
        let whose = if one == other { String::new() } else { format!(" of {other_words}") };
        let edges = format!("the edge from point {} to {} and that from {} to {}{whose}", a.0, a.1, b.0, b.1);
        match (self.kind, one == other) {
            (Kind::Folds, true) => format!("{place}: it folds back on itself at {at}: {edges} lie on one another"),
            (Kind::Folds, false) => format!("{place}: it runs along {other_words} at {at}: {edges} lie on one another"),
            (_, true) => format!("{place}: it crosses itself at {at}: {edges}"),
            (_, false) => format!("{place}: it crosses {other_words} at {at}: {edges}"),
        }
    }

    fn alone(&self, at: &str) -> String {
        let (polygon, ring) = (self.rings.1 .0 + 1, self.rings.1 .1 + 1);
        match self.kind {
            Kind::Outside => format!("the hole is not inside ring {ring}: {at} is outside; the first ring is the outer one, the others are its holes"),
            Kind::Around => format!("the hole is larger than ring {ring} and around it at {at}: the outer ring comes first"),
            Kind::Nested => format!("the hole lies in another hole at {at}"),
            Kind::Over => format!("it and polygon {polygon} lie over one another at {at}"),
            Kind::FewPoints => format!("it has fewer than 3 different points at {at}"),
            Kind::Crosses | Kind::Folds => format!("its lines cross at {at}"),
            Kind::Other => format!("GEOS does not take it, at {at}"),
        }
    }
}

#[cfg(test)]
mod tests {
    use super::*;
    use crate::geojson::collect;
    use serde_json::{json, Value};

    fn collection(rings: Value) -> Collection {
        collect(&json!({"type": "Feature", "properties": {"Name": "Tank"}, "geometry": {"type": "Polygon", "coordinates": rings}})).unwrap()
    }

    fn square(west: f64, south: f64, side: f64) -> Value {
        json!([[west, south], [west + side, south], [west + side, south + side], [west, south + side], [west, south]])
    }

    fn told(rings: Value) -> Vec<String> {
        as_drawn(&collection(rings))
    }

    #[test]
    fn what_is_in_order() {
        assert!(told(json!([square(1.0, 1.0, 5.0)])).is_empty());
        assert!(told(json!([square(1.0, 1.0, 5.0), square(2.0, 2.0, 1.0), square(4.0, 4.0, 1.0)])).is_empty());
        // a hole that touches its outer ring, two squares with a corner in common, and repeated points
        assert!(told(json!([square(1.0, 1.0, 5.0), [[1, 3], [2, 2], [2, 4]]])).is_empty());
        assert!(told(json!([[[0, 0], [5, 0], [5, 5], [9, 5], [9, 9], [5, 9], [5, 5], [0, 5]]])).is_empty());
        assert!(told(json!([[[0, 0], [0, 0], [5, 0], [5, 0], [5, 5]]])).is_empty());
    }

    #[test]
    fn rings_that_cross() {
        let edges = "the edge from point 1 to 2 and that from 3 to 4";
        assert_eq!(told(json!([[[5, 1], [7, 3], [7, 1], [5, 3], [5, 1]]])), [format!("feature 1 (Tank), ring 1: it crosses itself at 2.0000000 6.0000000: {edges}")]);
        // at a point that both lines have
        let at_point = told(json!([[[5, 1], [6, 2], [7, 3], [7, 1], [6, 2], [5, 3], [5, 1]]]));
        assert!(at_point.len() == 1 && at_point[0].contains("it crosses itself at 2.0000000 6.0000000: the edge from point"), "{at_point:?}");
        let over = told(json!([square(1.0, 1.0, 5.0), [[2, 2], [2, 8], [3, 8], [3, 2], [2, 2]]]));
        assert!(over.len() == 1 && over[0].starts_with("feature 1 (Tank), ring 1: it crosses ring 2 at 6.0000000 "), "{over:?}");
        assert!(over[0].contains("the edge from point 3 to 4 and that from"), "{over:?}");
        let spike = told(json!([[[1, 1], [5, 1], [9, 1], [5, 1], [5, 5], [1, 5]]]));
        assert!(spike.len() == 1 && spike[0].contains("it folds back on itself at 1.0000000 "), "{spike:?}");
        assert!(spike[0].ends_with("the edge from point 2 to 3 and that from 3 to 4 lie on one another"), "{spike:?}");
    }

    #[test]
    fn holes_that_are_none() {
        let outside = told(json!([square(1.0, 1.0, 5.0), square(2.0, 2.0, 1.0), square(7.0, 7.0, 1.0), square(9.0, 9.0, 1.0)]));
        assert_eq!(outside.len(), 2);
        assert!(outside[0].starts_with("feature 1 (Tank), ring 3: the hole is not inside ring 1: 7.0000000 7.0000000 is outside"), "{outside:?}");
        let around = told(json!([square(2.0, 2.0, 1.0), square(1.0, 1.0, 5.0)]));
        assert!(around.len() == 1 && around[0].starts_with("feature 1 (Tank), ring 2: the hole is larger than ring 1"), "{around:?}");
        let nested = told(json!([square(1.0, 1.0, 9.0), square(2.0, 2.0, 5.0), square(3.0, 3.0, 1.0)]));
        assert!(nested.len() == 1 && nested[0].starts_with("feature 1 (Tank), ring 3: the hole lies in another hole at 3.0000000 3.0000000"), "{nested:?}");
    }

    #[test]
    fn polygons_of_one_feature() {
        let told = |others: Value| as_drawn(&collect(&json!({"type": "MultiPolygon", "coordinates": [[square(1.0, 1.0, 5.0)], others]})).unwrap());
        // apart, with a line in common, and in a hole of the other
        assert!(told(json!([square(7.0, 1.0, 5.0)])).is_empty());
        assert!(told(json!([square(6.0, 1.0, 5.0)])).is_empty());
        assert!(told(json!([square(0.0, 0.0, 7.0), square(0.5, 0.5, 6.0)])).is_empty());
        let over = told(json!([square(3.0, 3.0, 5.0)]));
        assert!(over.len() == 1 && over[0].starts_with("feature 1, polygon 1, ring 1: it crosses polygon 2, ring 1 at "), "{over:?}");
        assert!(over[0].contains("the edge from point ") && over[0].ends_with(" of polygon 2, ring 1"), "{over:?}");
        let inside = told(json!([square(3.0, 3.0, 1.0)]));
        assert!(inside.len() == 1 && inside[0].starts_with("feature 1, polygon 2, ring 1: it and polygon 1 lie over one another at "), "{inside:?}");
    }

    #[test]
    fn what_the_grid_makes() {
        // a neck of a tenth of a step
        let rings = json!([[[10, 10], [20, 10], [20, 14.9], [12, 14.9], [12, 15.1], [20, 15.1], [20, 20], [10, 20], [10, 10]]]);
        let all = collection(rings);
        assert!(as_drawn(&all).is_empty());
        let folded = on_grid(&all, Grid { precision: 7 });
        assert!(folded.len() == 1 && folded[0].starts_with("feature 1 (Tank), ring 1: it folds back on itself at "), "{folded:?}");
        assert!(folded[0].contains("the edge from point 3 to 4 and that from 4 to 6 lie on one another"), "{folded:?}");
        assert!(on_grid(&all, Grid { precision: 16 }).is_empty());
        // what is wrong as it is drawn is told once
        assert!(on_grid(&collection(json!([[[5, 1], [7, 3], [7, 1], [5, 3.5]]])), Grid { precision: 16 }).is_empty());
    }
}
