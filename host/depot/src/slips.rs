//! A day's slips by a map and its zones' files. All that decides what a slip carries is asked for here, by `stamp` and by `verify`, and it is the library that decides it.

use crate::day::Asked;
use crate::fault::Fault;
use crate::{bundle, output, source};
use rayon::prelude::*;
use std::fmt;
use std::path::Path;
use uskelzar::{zone_name, LeftOut, Map, NotStamped, Number, Printer, Request, Stamped};

/// The files that slips rest on.
#[derive(Clone, Copy)]
pub struct Files<'a> {
    pub map: &'a Path,
    /// The folder with the zones' TZif files, or a bundle of them.
    pub zones: &'a Path,
    /// The map's atlas, where one is given.
    pub atlas: Option<&'a Path>,
}

/// A printer by these files.
pub struct Opened {
    pub printer: Printer<Vec<u8>>,
    /// What a folder has and its bundle has not.
    pub left_out: Vec<LeftOut>,
    /// The words of the atlas that was built for the slips.
    pub built: Option<usize>,
}

/// From so many slips on an atlas is built for them. Counted in instructions, 485 lookups pay for it on the world's time zones at precision 21 (375 million for building it; 0.81 a lookup, and 0.03 through it), 456 on examples/world-15.plb, and
/// 564 on examples/world-9.plb.
pub const PAID_BY: usize = 500;

impl Files<'_> {
    /// Opens them for so many slips. A folder of zones becomes a bundle in memory, the one that `depot bundle` writes of it; where no atlas is given and the slips pay for one, it is built.
    pub fn open(&self, slips: usize) -> Result<Opened, Fault> {
        let (zones, left_out) = bundle::opened(self.zones)?;
        if let Some(atlas) = self.atlas {
            return Ok(Opened { printer: Printer::new(source::open_with(self.map, atlas)?, zones), left_out, built: None });
        }
        let mut map = source::open(self.map, false)?;
        let built = build_atlas(&mut map, slips);
        Ok(Opened { printer: Printer::new(map, zones), left_out, built })
    }

    /// Those of them that an output may not take the place of.
    pub fn inputs(&self) -> Vec<&Path> {
        [self.map, self.zones].into_iter().chain(self.atlas).collect()
    }
}

/// Builds an atlas in a map where so many slips pay for it, and answers how many words it has. Of some maps none can be built: they are asked plainly.
fn build_atlas(map: &mut Map<Vec<u8>>, slips: usize) -> Option<usize> {
    if slips < PAID_BY {
        return None;
    }
    let built = output::waiting(map.bytes().len(), "building an atlas", || map.build_atlas().map(|atlas| atlas.words().len()));
    built.ok()
}

/// A line's slip.
pub struct Slip {
    /// What was asked for, where it can be read.
    pub request: Option<Request>,
    pub stamped: Result<Stamped, Reason>,
}

/// Why a line has no slip.
#[derive(Clone, Debug, Eq, PartialEq)]
pub enum Reason {
    /// Its cells have no fix or no instant.
    Unread(String),
    /// The library says why.
    Not(NotStamped),
}

impl fmt::Display for Reason {
    fn fmt(&self, f: &mut fmt::Formatter) -> fmt::Result {
        match self {
            Reason::Unread(words) => f.write_str(words),
            Reason::Not(why) => why.fmt(f),
        }
    }
}

impl Slip {
    fn of(printer: &Printer<Vec<u8>>, asked: &Result<Asked, String>) -> Slip {
        match asked {
            Err(words) => Slip { request: None, stamped: Err(Reason::Unread(words.clone())) },
            Ok(Asked::Fix(fix)) => Slip { request: Some(*fix), stamped: printer.stamp(fix.lat, fix.lon, fix.instant).map_err(Reason::Not) },
            Ok(Asked::Line(line)) => Slip { request: Request::read(line).ok(), stamped: printer.stamp_request(line).map_err(Reason::Not) },
        }
    }

    /// The name of the zone that the bundle has not, where that is why there is no slip.
    pub fn missing(&self, printer: &Printer<Vec<u8>>) -> Option<String> {
        let (Some(fix), Err(Reason::Not(NotStamped { why, at: Some(at) }))) = (self.request, &self.stamped) else { return None };
        let found = printer.found(fix.lat, fix.lon).ok().filter(|_| why.number == Number::NoFile)?;
        found.matches.get(usize::from(*at) - 1).and_then(|zone| zone_name(&zone.fields))
    }
}

/// Works out every slip, on all processors, and tells each, in order.
pub fn told<T: Send>(printer: &Printer<Vec<u8>>, asked: &[Result<Asked, String>], tell: impl Fn(usize, Slip) -> T + Sync) -> Vec<T> {
    let bar = output::progress(asked.len(), "slips");
    let one = |(i, asked): (usize, &Result<Asked, String>)| {
        let told = tell(i, Slip::of(printer, asked));
        bar.inc(1);
        told
    };
    let told = asked.par_iter().enumerate().map(one).collect();
    bar.finish_and_clear();
    told
}
