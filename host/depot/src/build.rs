//! `depot build`: a file from polygons.

use crate::fault::{Fault, Said};
use crate::geojson::{self, Collection};
use crate::grid::Grid;
use crate::mend::mend;
use crate::names::{self, Known};
use crate::output::{Filled, Output};
use crate::plan::{plan, Form, Plan};
use crate::words::{count, few, grouped, length};
use crate::{fixes, geometry};
use std::fmt::Write;
use std::path::{Path, PathBuf};
use uskelzar::{Builder, NotBuilt, Place, Table};

/// The file of a plan, by the library's builder.
pub fn file_of(plan: &Plan) -> Result<Vec<u8>, NotBuilt> {
    let table = if plan.form.table == 'T' { Table::TimeZones } else { Table::Countries };
    let builder = Builder::new(table, plan.form.precision, &texts(&plan.names)).version(plan.form.version).notice(&plan.form.notice);
    let yards = plan.yards.iter();
    yards.fold(builder, |builder, yard| builder.yard_with(&yard.points, &yard.pieces, &texts(&plan.records[yard.record]))).build()
}

/// What is asked of a build besides the file's form.
#[derive(Debug, Default)]
pub struct Asked {
    /// Where the mended drawing goes.
    pub mend: Option<PathBuf>,
    /// The folder or bundle that the names of zones are held against.
    pub zones: Option<PathBuf>,
    /// Whether polygons and names with faults are built too.
    pub as_drawn: bool,
}

/// Reads polygons, says what becomes of them on the grid, and writes the file if a place for it is given.
pub fn run(input: &Path, output: Option<&Path>, form: Form, asked: &Asked) -> Result<Said, Fault> {
    let (to, mend_to) = (output.map(|path| Output { path, option: "-o" }), asked.mend.as_deref().map(|path| Output { path, option: "--mend" }));
    to.zip(mend_to).map_or(Ok(()), |(to, mend_to)| to.check_apart(mend_to))?;
    let (mut drawing, collection) = geojson::read_with(input)?;
    let judged = judged(&collection, &form, asked).map_err(|fault| fault.of(input))?;
    let fixes = fixes::said(&collection, Grid { precision: form.precision });
    let mut plan = plan(collection, form).map_err(|words| Fault::No(format!("{}: {words}", input.display())))?;
    let mended = mend(&mut drawing);
    if !mended.is_empty() && asked.mend.is_none() {
        plan.report.notes.push(format!("{}: taken as they are meant; --mend GEOJSON writes the drawing with them mended", mended.summary()));
    }
    plan.report.notes.extend(judged.into_iter().chain(fixes.notes));
    let mut said = report(&plan, &fixes.lines);
    let file = to.map(|to| file_of(&plan).map(|file| (to, file))).transpose();
    let file = file.map_err(|why| Fault::No(format!("{said}{}", not_built(&plan, &why))))?;
    let inputs: Vec<&Path> = [input].into_iter().chain(names::place(asked.zones.as_deref(), plan.form.table)).collect();
    let filled_drawing = mend_to.map(|to| to.filled(&inputs, |out| writeln!(out, "{drawing}"))).transpose()?;
    let filled_file = file.as_ref().map(|(to, file)| to.filled(&inputs, |out| out.write_all(file))).transpose()?;
    filled_drawing.into_iter().chain(filled_file).try_for_each(Filled::put)?;
    if let Some(to) = mend_to {
        mended.lines().iter().for_each(|line| said.push_str(&format!("mended: {line}\n")));
        let _ = writeln!(said, "{}: the drawing{}", to.path.display(), if mended.is_empty() { ", in which nothing was to mend" } else { ", mended" });
    }
    if let Some((to, file)) = file {
        let _ = writeln!(said, "{}: {}", to.path.display(), count(file.len(), "byte"));
    }
    Ok(Said::yes(said))
}

/// The faults of a drawing, which stop a build unless it is to be built as it is drawn; else what is said of it.
fn judged(collection: &Collection, form: &Form, asked: &Asked) -> Result<Vec<String>, Faults> {
    let known = Known::of(asked.zones.as_deref(), form.table).map_err(Faults::Other)?;
    let names = if form.table == 'T' { names::said(collection, known.as_ref()) } else { names::Said::default() };
    let faults = [geometry::as_drawn(collection), names.faults].concat();
    if !faults.is_empty() && !asked.as_drawn {
        return Err(Faults::Drawing(faults));
    }
    let on_grid = geometry::on_grid(collection, Grid { precision: form.precision });
    let on_grid: Vec<String> = on_grid.into_iter().map(|words| format!("on the grid, {words}")).collect();
    let grid = (!on_grid.is_empty()).then(|| "within a step of these places answers can differ from the drawing; a higher --precision keeps lines apart".to_string());
    Ok([few(&faults), names.notes, few(&on_grid)].concat().into_iter().chain(grid).collect())
}

/// Why nothing is built.
enum Faults {
    Drawing(Vec<String>),
    Other(Fault),
}

impl Faults {
    fn of(self, input: &Path) -> Fault {
        match self {
            Faults::Other(fault) => fault,
            Faults::Drawing(faults) => {
                let lines = few(&faults).join("\n  ");
                let advice = "mend the drawing; --as-drawn builds it with its faults";
                Fault::No(format!("{}: {} in the drawing, and nothing was written:\n  {lines}\n  {advice}", input.display(), count(faults.len(), "fault")))
            }
        }
    }
}

fn texts(all: &[String]) -> Vec<&str> {
    all.iter().map(String::as_str).collect()
}

/// A refusal, by the ring or the property that met it.
fn not_built(plan: &Plan, why: &NotBuilt) -> String {
    let place = match why.place {
        Place::Yard(yard) => plan.yards[yard].place.clone(),
        Place::Value { yard, field } => format!("{}: the property {:?}", plan.yards[yard].place, plan.names[field]),
        Place::Name(name) => format!("the property's name {:?}", plan.names[name]),
        Place::Notice | Place::File => why.place.to_string(),
    };
    format!("{place}: {}", why.why)
}

/// What a plan comes to, in lines, and what its fixes can tell apart.
pub fn report(plan: &Plan, fixes: &[String]) -> String {
    let mut out = String::new();
    let report = &plan.report;
    let grid = Grid { precision: plan.form.precision };
    let rings = count(plan.yards.len(), "border");
    let holes = if report.holes > 0 { format!(" ({} of holes)", report.holes) } else { String::new() };
    let _ = writeln!(out, "{}, {rings}{holes}, {}; fields: {}", count(report.features, "feature"), count(report.points, "point"), plan.names.join(", "));
    let (lat, lon) = report.moved;
    let _ = writeln!(
        out,
        "grid: a step is {:.7} degrees of latitude ({}) and {:.7} of longitude; points moved by up to {lat:.7} and {lon:.7}; {} fell on the one before",
        grid.step(),
        length(grid.metres()),
        2.0 * grid.step(),
        grouped(report.dropped),
    );
    fixes.iter().for_each(|line| {
        let _ = writeln!(out, "{line}");
    });
    let saved = &report.saved;
    let pieces = saved.forward + saved.backward;
    if pieces > 0 {
        let part = 100.0 * (saved.plain - saved.bytes) as f64 / saved.plain as f64;
        let _ = writeln!(
            out,
            "borrowed: {} ({} backward) for {} of {} moves; borders take {} in place of {} ({part:.1}% saved)",
            count(pieces, "piece"),
            grouped(saved.backward),
            grouped(saved.moves),
            grouped(saved.of),
            count(saved.bytes, "byte"),
            grouped(saved.plain),
        );
    } else {
        let _ = writeln!(out, "borders take {}; nothing to borrow", count(saved.bytes, "byte"));
    }
    report.notes.iter().for_each(|note| {
        let _ = writeln!(out, "note: {note}");
    });
    out
}
