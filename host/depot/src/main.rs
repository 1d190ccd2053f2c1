//! depot: the tool for people who have yards.

use clap::{Parser, Subcommand, ValueEnum};
use depot::build::{self, Asked};
use depot::draw::{self, Frame};
use depot::fault::{Fault, Said};
use depot::plan::Form;
use depot::source::STANDARD;
use depot::words::shown;
use depot::zone::Way;
use depot::slips::Files;
use depot::{atlas, bundle, check, index, page, salvage, show, stamp, verify, zone};
use std::io::Write;
use std::path::{Path, PathBuf};
use std::process::ExitCode;

/// Builds, shows, checks, salvages and draws files of yards, and stamps a day's slips by them.
///
/// Exit status: 0 done, or answered yes; 1 answered no; 2 not run. A file is written whole or not at all, and never over one that is read or that stands in a folder
/// that is read; `-` is standard input and output.
#[derive(Parser)]
#[command(name = "depot", version, arg_required_else_help = true)]
struct Depot {
    #[command(subcommand)]
    verb: Verb,
}

#[derive(Clone, Copy, ValueEnum)]
enum Kind {
    /// Time zones: slips are stamped by such a file
    #[value(name = "T")]
    TimeZones,
    /// Countries, or other named places
    #[value(name = "C")]
    Countries,
}

#[derive(Subcommand)]
enum Verb {
    /// Make a file from polygons (GeoJSON)
    ///
    /// Polygons and multipolygons become yards, holes are left out of them, and properties become fields. Lines that two yards
    /// share are written once. Rings that cross themselves or each other, holes outside their ring and unknown zones stop the build,
    /// with their places. --dry-run says what would be built.
    #[command(after_help = "Examples:\n  depot build examples/yards.geojson -o yards.plb --precision 25\n  depot build examples/yards.geojson --precision 25 --dry-run\n  depot build examples/yards.geojson --precision 25 --mend mended.geojson")]
    Build {
        /// GeoJSON: a FeatureCollection of Polygons and MultiPolygons
        input: PathBuf,
        /// The file to write
        #[arg(short, long, required_unless_present_any = ["dry_run", "mend"])]
        output: Option<PathBuf>,
        /// Bits of the grid: 21 is 9.5 m, 25 is 0.6 m
        #[arg(long, default_value_t = 21, value_parser = clap::value_parser!(u8).range(1..=31))]
        precision: u8,
        /// How borders are written: 1 can borrow lines, 0 cannot
        #[arg(long, default_value_t = 1, value_parser = clap::value_parser!(u8).range(0..=1))]
        version: u8,
        /// What the yards are
        #[arg(long = "type", value_enum, default_value = "T")]
        kind: Kind,
        /// Whose data it is; at most 255 bytes
        #[arg(long, default_value = "")]
        notice: String,
        /// Leave out features of which the grid leaves nothing, in place of stopping
        #[arg(long)]
        leave_out: bool,
        /// Write the drawing with what can be mended without choice: rings wound the other way, points twice in a row, a ring's missing last point
        #[arg(long, value_name = "GEOJSON", conflicts_with = "dry_run")]
        mend: Option<PathBuf>,
        /// Folder with the zones' TZif files, or a bundle of them (depot bundle), which names must be of; /usr/share/zoneinfo where it is there
        #[arg(long)]
        zones: Option<PathBuf>,
        /// Build polygons and names with faults too, as they are drawn; each is said
        #[arg(long)]
        as_drawn: bool,
        /// Say what would be built, and write nothing
        #[arg(long, conflicts_with = "output")]
        dry_run: bool,
    },
    /// Say what a file holds: header, sizes, zones with fields, boxes and points
    #[command(after_help = "Examples:\n  depot show examples/world-9.plb\n  depot show --geojson examples/world-9.plb -o world.geojson")]
    Show {
        file: PathBuf,
        /// Write the borders as GeoJSON
        #[arg(long)]
        geojson: bool,
        /// Where to write the GeoJSON; without it, to standard output
        #[arg(short, long, requires = "geojson")]
        output: Option<PathBuf>,
    },
    /// Say which zones hold a fix, and how the search ended
    ///
    /// The file comes first and then the fix; LAT LON FILE, as it was before, is taken too.
    #[command(after_help = "Examples:\n  depot zone examples/world-9.plb 52.52 13.40 --explain\n  depot zone examples/world-9.plb 52.52 13.40 --atlas world-9.atlas\n\nExit status 0 only if a zone holds the fix and the search was whole.")]
    Zone {
        #[arg(allow_negative_numbers = true)]
        file: PathBuf,
        /// Latitude in degrees
        #[arg(allow_negative_numbers = true)]
        lat: String,
        /// Longitude in degrees
        #[arg(allow_negative_numbers = true)]
        lon: String,
        /// Refuse a number that the file's end cuts
        #[arg(long)]
        strict: bool,
        /// Read only the entries near the fix, by an index of the file (depot index); the answer is the same
        #[arg(long, value_name = "INDEX", conflicts_with = "strict")]
        index: Option<PathBuf>,
        /// Read only the stretches of borders near the fix, by an atlas of the file (depot atlas); the answer is the same
        #[arg(long, value_name = "ATLAS", conflicts_with_all = ["strict", "index"])]
        atlas: Option<PathBuf>,
        /// With the table entry behind each match, and the distance to the nearest border
        #[arg(long)]
        explain: bool,
    },
    /// Read all of a file strictly, and ask what lookups would meet
    ///
    /// Asks of each entry what salvage asks, and besides: the table is in order, each border lies in its box and has 3 different points, and two
    /// strict lookups at each entry are whole.
    #[command(after_help = "Example:\n  depot check examples/world-9.plb && echo good\n\nExit status 0 only if nothing is wrong.")]
    Check { file: PathBuf },
    /// Build the index of a file, for lookups that read only the entries near a fix
    ///
    /// It goes with the file as long as its length, header and table stay as they are. No lookup through it answers other than without it.
    #[command(after_help = "Example:\n  depot index examples/world-9.plb -o world-9.index")]
    Index {
        file: PathBuf,
        /// The index to write
        #[arg(short, long)]
        output: PathBuf,
    },
    /// Build the atlas of a file, for lookups that read only the stretches of borders near a fix
    ///
    /// An index with marks along the borders; of maps of the world it takes a quarter of their size. It is of this file alone, and whoever opens both works each of its words out again. No lookup
    /// through it answers other than without it.
    #[command(after_help = "Examples:\n  depot atlas examples/world-9.plb -o world-9.atlas\n  depot atlas examples/world-9.plb --check world-9.atlas\n\nExit status 0 only if it was built, or the one that is checked is the file's.")]
    Atlas {
        file: PathBuf,
        /// The atlas to write
        #[arg(short, long, required_unless_present = "check")]
        output: Option<PathBuf>,
        /// Say whether this is the file's atlas, whoever wrote it
        #[arg(long, value_name = "ATLAS", conflicts_with = "output")]
        check: Option<PathBuf>,
    },
    /// Write what is left of a damaged file into a new one
    ///
    /// Each entry is kept whose numbers, border and strings can all be read and whose strings lie in the metadata section; each other one is
    /// told, with what is wrong and where. What was kept is then checked as depot check does.
    #[command(after_help = "Example:\n  depot salvage examples/world-9.plb -o new.plb\n\nExit status 0 only if nothing was dropped and the new file is in order.")]
    Salvage {
        file: PathBuf,
        /// The file to write
        #[arg(short, long)]
        output: PathBuf,
    },
    /// Stamp a slip for every line of a day
    ///
    /// A line of CSV has a latitude, a longitude and an instant: seconds from 1970, or like 2026-07-01T11:59:59Z. The first line may name
    /// the columns; other columns are kept. A receiver's log (.nmea, or standard input that begins with $) has sentences: RMC is stamped, others are
    /// passed over. Each way of not stamping has a column of its own.
    #[command(after_help = "Examples:\n  depot stamp examples/day.csv -o slips.csv examples/world-15.plb examples/zones.tzdata\n  depot stamp examples/day.csv -o slips.csv examples/world-9.plb /usr/share/zoneinfo --evidence day.jsonl\n\nExit status 0 only if every line was stamped.")]
    Stamp {
        /// CSV of latitude, longitude, instant; or a receiver's log, .nmea
        day: PathBuf,
        /// The file to write
        #[arg(short, long)]
        output: PathBuf,
        /// PLB file of time zones
        map: PathBuf,
        /// Folder with the zones' TZif files, or a bundle of them (depot bundle)
        zones: PathBuf,
        /// The map's atlas (depot atlas); without it one is built where the lines pay for it. The slips are the same
        #[arg(long, value_name = "ATLAS")]
        atlas: Option<PathBuf>,
        /// Write what each slip rests on, for depot verify
        #[arg(long, value_name = "FILE")]
        evidence: Option<PathBuf>,
    },
    /// Work out again every slip of a day's evidence
    ///
    /// Says first where map, zones or library are others than those of the slips; then which slips do not come out again.
    #[command(after_help = "Example:\n  depot verify day.jsonl examples/world-9.plb /usr/share/zoneinfo\n\nExit status 0 only if the files are those of the slips and every slip comes out again.")]
    Verify {
        /// What depot stamp --evidence wrote
        evidence: PathBuf,
        /// PLB file of time zones
        map: PathBuf,
        /// Folder with the zones' TZif files, or a bundle of them (depot bundle)
        zones: PathBuf,
        /// The map's atlas (depot atlas); without it one is built where the slips pay for it
        #[arg(long, value_name = "ATLAS")]
        atlas: Option<PathBuf>,
    },
    /// Write the zones' TZif files into one file
    ///
    /// All zones of a folder, or those that a map names; a file that counts leap seconds or is refused, and a name of more than 40 bytes, is left out and told.
    #[command(after_help = "Examples:\n  depot bundle /usr/share/zoneinfo -o zones.tzdata\n  depot bundle /usr/share/zoneinfo -o zones.tzdata --map examples/world-9.plb\n\nExit status 1 where a zone that the map names is left out.")]
    Bundle {
        /// Folder with the zones' TZif files
        folder: PathBuf,
        /// The file to write
        #[arg(short, long)]
        output: PathBuf,
        /// PLB file of time zones: only those that it names; of several, those that any of them does
        #[arg(long, value_name = "MAP")]
        map: Vec<PathBuf>,
    },
    /// Draw a file's yards, each pixel a lookup
    ///
    /// Borders are lines of one pixel over the lookups; a legend has the names, and each yard its own where it fits. Where most yards would be
    /// too small to be seen, groups of them are drawn again below the map.
    #[command(after_help = "Examples:\n  depot draw examples/world-9.plb -o world.png\n  depot draw examples/world-9.plb -o berlin.png --frame 50,10,55,16")]
    Draw {
        file: PathBuf,
        /// The PNG to write
        #[arg(short, long)]
        output: PathBuf,
        /// Pixels in a row
        #[arg(long, default_value_t = 800, value_parser = clap::value_parser!(u32).range(1..=16384))]
        columns: u32,
        /// The part of the map to draw; without it, all boxes of the file
        #[arg(long, allow_hyphen_values = true, value_name = "SOUTH,WEST,NORTH,EAST", value_parser = Frame::of)]
        frame: Option<Frame>,
        /// The map alone, without insets, names and legend
        #[arg(long)]
        plain: bool,
    },
    /// Write a page for any browser: the borders, the library's answers, faults, a day's slips
    ///
    /// One HTML file that stands alone: it needs no network and no other file.
    #[command(after_help = "Examples:\n  depot page examples/world-9.plb -o world.html\n  depot page yards.plb -o yards.html --day slips.csv --drawn examples/yards.geojson")]
    Page {
        file: PathBuf,
        /// The page to write
        #[arg(short, long)]
        output: PathBuf,
        /// Slips that depot stamp has written: each is a dot and a line of a table
        #[arg(long, value_name = "SLIPS")]
        day: Option<PathBuf>,
        /// The polygons that the file was built of: the page says what was dropped or moved
        #[arg(long, value_name = "GEOJSON")]
        drawn: Option<PathBuf>,
        /// Points in a row at which the library is asked; a tall view has as many in a column
        #[arg(long, default_value_t = 800, value_parser = clap::value_parser!(u32).range(1..=4096))]
        columns: u32,
    },
}

impl Verb {
    /// Where it writes to.
    fn output(&self) -> Option<&Path> {
        match self {
            Verb::Stamp { evidence: Some(evidence), .. } if evidence == Path::new(STANDARD) => Some(evidence),
            Verb::Build { output, mend, .. } => mend.as_deref().filter(|mend| *mend == Path::new(STANDARD)).or(output.as_deref()),
            Verb::Show { output, .. } | Verb::Atlas { output, .. } => output.as_deref(),
            Verb::Index { output, .. } | Verb::Salvage { output, .. } | Verb::Stamp { output, .. } | Verb::Draw { output, .. } | Verb::Page { output, .. } => Some(output),
            Verb::Bundle { output, .. } => Some(output),
            Verb::Zone { .. } | Verb::Check { .. } | Verb::Verify { .. } => None,
        }
    }
}

/// A file and a fix, whichever stands first. A text of degrees is rounded once, to the nearest f32.
fn file_and_fix(file: PathBuf, lat: String, lon: String) -> Result<(PathBuf, f32, f32), Fault> {
    let is_number = |word: &str| word.parse::<f32>().is_ok();
    let first = file.to_str().filter(|word| is_number(word) && is_number(&lat) && !is_number(&lon)).map(str::to_string);
    let (file, lat, lon) = match first {
        Some(first) => (lon.into(), first, lat),
        None => (file, lat, lon),
    };
    Ok((file, degrees(&lat, 90.0)?, degrees(&lon, 180.0)?))
}

fn degrees(word: &str, most: f32) -> Result<f32, Fault> {
    let value = word.parse::<f32>().ok().filter(|value| value.abs() <= most);
    value.ok_or_else(|| Fault::NotRun(format!("{word:?}: a number of degrees from -{most} to {most} is wanted; the file comes first, then the latitude, then the longitude")))
}

fn run(verb: Verb) -> Result<Said, Fault> {
    match verb {
        Verb::Build { input, output, precision, version, kind, notice, leave_out, mend, zones, as_drawn, dry_run: _ } => {
            let table = match kind {
                Kind::TimeZones => 'T',
                Kind::Countries => 'C',
            };
            build::run(&input, output.as_deref(), Form { table, version, precision, notice, leave_out }, &Asked { mend, zones, as_drawn })
        }
        Verb::Show { file, geojson: true, output } => show::geojson(&file, output.as_deref()),
        Verb::Show { file, .. } => show::run(&file),
        Verb::Zone { lat, lon, file, strict, index, atlas, explain } => {
            let (file, lat, lon) = file_and_fix(file, lat, lon)?;
            let plain = if strict { Way::Strict } else { Way::Plain };
            zone::run(&file, lat, lon, index.map(Way::Through).or(atlas.map(Way::Atlas)).unwrap_or(plain), explain)
        }
        Verb::Index { file, output } => index::run(&file, &output),
        Verb::Atlas { file, output: Some(output), .. } => atlas::run(&file, &output),
        Verb::Atlas { file, check, .. } => atlas::check(&file, &check.expect("one of the two is required")),
        Verb::Check { file } => check::run(&file),
        Verb::Salvage { file, output } => salvage::run(&file, &output),
        Verb::Stamp { day, output, map, zones, atlas, evidence } => stamp::run(&day, &output, &Files { map: &map, zones: &zones, atlas: atlas.as_deref() }, evidence.as_deref()),
        Verb::Verify { evidence, map, zones, atlas } => verify::run(&evidence, &Files { map: &map, zones: &zones, atlas: atlas.as_deref() }),
        Verb::Bundle { folder, output, map } => bundle::run(&folder, &output, &map),
        Verb::Draw { file, output, columns, frame, plain } => draw::run(&file, &output, columns, frame, plain),
        Verb::Page { file, output, day, drawn, columns } => page::run(&file, &output, columns, day.as_deref(), drawn.as_deref()),
    }
}

/// Says what a verb has to say: beside standard output where that is what the verb wrote to. Nobody may be reading on.
fn say(said: &Said, beside: bool) {
    let text = shown(&said.text);
    let _ = if beside { std::io::stderr().lock().write_all(text.as_bytes()) } else { std::io::stdout().lock().write_all(text.as_bytes()) };
}

fn main() -> ExitCode {
    let verb = Depot::parse().verb;
    let beside = verb.output().is_some_and(|output| output == Path::new(STANDARD));
    match run(verb) {
        Ok(said) => {
            say(&said, beside);
            ExitCode::from(u8::from(!said.yes))
        }
        Err(fault) => {
            eprintln!("depot: {}", shown(&fault.to_string()));
            ExitCode::from(fault.status())
        }
    }
}
