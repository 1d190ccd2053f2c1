//! What became of a drawing's polygons when a file was built of them.

use super::yards::Yard;
use crate::fault::Fault;
use crate::geojson::{self, Collection, Feature};
use crate::grid::{turned, Grid, Point};
use crate::plan::{plan, Form, Plan};
use crate::words::{count, length};
use std::collections::HashMap;
use std::path::Path;
use uskelzar::{Map, Table};

/// What became of the features of one yard.
#[derive(Default)]
struct Fate {
    rings: Vec<Vec<Point>>,
    points: usize,
    dropped: usize,
    left_out: usize,
    /// In degrees of latitude and of longitude.
    moved: (f64, f64),
}

/// What is said of each yard, in their order, and of the drawing as a whole.
pub struct Said {
    pub yards: Vec<String>,
    pub notes: Vec<String>,
}

/// By the drawing, or without one, by the grid alone.
pub fn said(path: Option<&Path>, map: &Map<Vec<u8>>, yards: &[Yard]) -> Result<Said, Fault> {
    let grid = Grid { precision: map.header().precision };
    let Some(path) = path else { return Ok(by_grid(grid, yards)) };
    let collection = geojson::read(path)?;
    let plan = plan(collection.clone(), form(map)).map_err(|words| Fault::No(format!("{}: {words}", path.display())))?;
    let mut fates = fates(&collection, &plan, grid);
    let mut notes = plan.report.notes.clone();
    let tell = |yard: &Yard| match fates.remove(&values(yard)) {
        Some(fate) => fate.words(grid, yard),
        None => "It is not in the drawing.".into(),
    };
    let yards = yards.iter().map(tell).collect();
    notes.extend((!fates.is_empty()).then(|| format!("{} of the drawing {} not in the file.", count(fates.len(), "yard"), if fates.len() == 1 { "is" } else { "are" })));
    Ok(Said { yards, notes })
}

fn by_grid(grid: Grid, yards: &[Yard]) -> Said {
    let half = grid.metres() / 2.0;
    let words = format!("Points were moved to the grid: by at most {} north or south and {} east or west. With --drawn this page says by how much.", length(half), length(2.0 * half));
    Said { yards: vec![words; yards.len()], notes: vec![] }
}

fn form(map: &Map<Vec<u8>>) -> Form {
    let header = map.header();
    let table = if header.table == Table::TimeZones { 'T' } else { 'C' };
    Form { table, version: header.version, precision: header.precision, notice: header.notice.clone(), leave_out: true }
}

/// A yard's fields but for empty ones, by which its features are known.
type Values = Vec<(String, String)>;

fn values(yard: &Yard) -> Values {
    kept(yard.fields.iter().map(|field| (field.name.clone(), field.value.clone())))
}

fn kept(values: impl Iterator<Item = (String, String)>) -> Values {
    values.filter(|(_, value)| !value.is_empty()).collect()
}

fn fates(collection: &Collection, plan: &Plan, grid: Grid) -> HashMap<Values, Fate> {
    let mut fates: HashMap<Values, Fate> = HashMap::new();
    for (feature, record) in collection.features.iter().zip(&plan.records) {
        let values = kept(plan.names.iter().cloned().zip(record.iter().cloned()));
        fates.entry(values).or_default().take(feature, grid);
    }
    fates
}

impl Fate {
    fn take(&mut self, feature: &Feature, grid: Grid) {
        for polygon in &feature.polygons {
            for (number, ring) in polygon.iter().enumerate() {
                self.points += ring.len();
                let Some(rounded) = grid.round(ring) else {
                    self.left_out += 1;
                    // with an outer ring go its holes
                    if number == 0 {
                        break;
                    }
                    continue;
                };
                self.dropped += rounded.dropped;
                self.moved = (self.moved.0.max(rounded.moved.0), self.moved.1.max(rounded.moved.1));
                self.rings.push(turned(rounded.points, number > 0));
            }
        }
    }

    fn words(self, grid: Grid, yard: &Yard) -> String {
        let metres = |degrees: f64| length(degrees * grid.metres() / grid.step());
        let middle = (yard.bounds()[0] + yard.bounds()[2]) / 2.0;
        let (high, wide) = (metres(self.moved.0), metres(self.moved.1 * middle.to_radians().cos()));
        let mut words = format!("Of {} drawn {} fell on the one before. Points were moved by up to {high} north or south and {wide} east or west.", count(self.points, "point"), self.dropped);
        if self.left_out > 0 {
            words.push_str(&format!(" {} collapsed on the grid and {} left out.", count(self.left_out, "ring"), if self.left_out == 1 { "was" } else { "were" }));
        }
        let held = yard.rings.iter().map(|ring| ring.points.clone()).collect();
        if sorted(self.rings) != sorted(held) {
            words.push_str(" The file's borders are not those that the drawing gives: build it again.");
        }
        words
    }
}

/// Rings that can be held against others, wherever they begin: the edges of each in order, and the rings in order.
fn sorted(rings: Vec<Vec<Point>>) -> Vec<Vec<(Point, Point)>> {
    let edges = |ring: Vec<Point>| {
        let mut edges: Vec<(Point, Point)> = ring.iter().copied().zip(ring.iter().copied().cycle().skip(1)).collect();
        edges.sort_unstable();
        edges
    };
    let mut rings: Vec<_> = rings.into_iter().map(edges).collect();
    rings.sort_unstable();
    rings
}
