//! What the Rust answers, in the numbers of document 01. A panic is a refusal, by its message and line.
use std::cell::RefCell;
use std::collections::HashMap;
use std::panic::{catch_unwind, AssertUnwindSafe};

use zone_detect::{Database, Error, Location, StringParseError, TableType, ZoneMatchKind};
use zone_detect_marked as marked;
use zone_detect_strict as hooked;
use zone_detect_strict::hooks;
use zone_detect_strict::strict::{strictly, CUT};

#[derive(Clone, Debug, Default)]
pub struct Refusal {
    pub number: u32,
    pub cause: u8,
    pub detail: u64,
    /// The line of the Rust that panicked.
    pub place: String,
}

impl PartialEq for Refusal {
    fn eq(&self, other: &Refusal) -> bool {
        (self.number, self.cause, self.detail) == (other.number, other.cause, other.detail)
    }
}

pub fn refused(number: u32, cause: u8, detail: u64) -> Refusal {
    Refusal { number, cause, detail, place: String::new() }
}

thread_local!(static LAST: RefCell<Refusal> = RefCell::new(Refusal::default()));

/// The refusal that a panic stands for; 0 for one that document 01 does not know.
fn panicked(place: &str, text: &str) -> Refusal {
    if text == CUT {
        return refused(31, 0, 0);
    }
    let (number, cause) = match (place, text) {
        ("generated.rs:75", "attempt to shift left with overflow") => (16, 0),
        ("generated.rs:92", "attempt to shift left with overflow") => (12, 0),
        (_, "attempt to add with overflow" | "attempt to subtract with overflow" | "attempt to multiply with overflow") => (13, 0),
        ("generated.rs:177", text) if text.starts_with("index out of bounds") => (14, 0),
        (_, text) if text.starts_with("failed to get field data: EncodingError") => (15, 1),
        (_, text) if text.starts_with("failed to get field data: InvalidUtf8") => (15, 2),
        _ => (0, 0),
    };
    let place = if number == 0 { format!("{place} {text}") } else { place.to_string() };
    Refusal { number, cause, detail: 0, place }
}

/// Panics are kept, not printed.
pub fn listen() {
    let loud = std::panic::take_hook();
    std::panic::set_hook(Box::new(move |info| {
        let place = info.location().map(|l| format!("{}:{}", l.file().rsplit('/').next().unwrap_or(""), l.line()));
        let text = info.payload().downcast_ref::<&str>().map(|s| s.to_string())
            .or_else(|| info.payload().downcast_ref::<String>().cloned());
        let last = panicked(&place.unwrap_or_default(), &text.unwrap_or_default());
        if last.number == 0 {
            loud(info);
        }
        LAST.with(|l| *l.borrow_mut() = last);
    }));
}

pub fn caught<T>(work: impl FnOnce() -> T) -> Result<T, Refusal> {
    catch_unwind(AssertUnwindSafe(work)).map_err(|_| LAST.with(|l| l.borrow().clone()))
}

// ---- opening

fn cause(e: &StringParseError) -> u8 {
    match e {
        StringParseError::EncodingError => 1,
        StringParseError::InvalidUtf8(_) => 2,
    }
}

fn refusal(e: &Error) -> Refusal {
    match e {
        Error::IoError(_) => refused(0, 0, 0),
        Error::TruncatedDatabase(n) => refused(2, 0, *n as u64),
        Error::InvalidMagic(b) => refused(3, 0, (b[0] as u64) << 16 | (b[1] as u64) << 8 | b[2] as u64),
        Error::InvalidTableType(b) => refused(4, 0, *b as u64),
        Error::InvalidVersion(b) => refused(5, 0, *b as u64),
        Error::InvalidFieldName(i, e) => refused(6, cause(e), *i as u64),
        Error::InvalidNotice(e) => refused(7, cause(e), 0),
        Error::InvalidMetadataOffset => refused(8, 0, 0),
        Error::InvalidDataOffset => refused(9, 0, 0),
        Error::InvalidPaddingOffset => refused(10, 0, 0),
        Error::LengthMismatch(n) => refused(11, 0, *n as u64),
    }
}

pub struct Opening {
    pub kind: u8,
    pub version: u8,
    pub precision: u8,
    pub names: Vec<Vec<u8>>,
    pub notice: Vec<u8>,
    /// Where the first size stands, and where the sections begin.
    pub sizes: usize,
    pub table: u32,
    pub metadata: u32,
    pub data: u32,
}

/// The sections' places are private in the Rust: the header is walked again, with the Rust's own reading of strings and numbers.
fn opening(file: &[u8], db: &Database) -> Opening {
    let raw = hooks::raw(file.to_vec(), 0, 0, 0);
    let mut at = 7;
    for _ in 0..=db.field_names.len() {
        at = hooks::string(&raw, at).unwrap().1;
    }
    let sizes = at as usize;
    let mut size = [0u32; 3];
    for s in &mut size {
        let (value, next) = hooks::forward(&raw, at).unwrap();
        (*s, at) = (value as u32, next);
    }
    Opening {
        kind: match db.table_type { TableType::Timezone => b'T', TableType::Country => b'C' },
        version: db.version,
        precision: db.precision,
        names: db.field_names.iter().map(|n| n.as_bytes().to_vec()).collect(),
        notice: db.notice.as_bytes().to_vec(),
        sizes,
        table: at,
        metadata: at + size[0],
        data: at + size[0] + size[1],
    }
}

pub fn open(file: &[u8]) -> Result<Opening, Refusal> {
    let db = caught(|| Database::from_vec(file.to_vec()))?.map_err(|e| refusal(&e))?;
    Ok(opening(file, &db))
}

/// Where no number is cut, strict opening takes the same steps.
pub fn open_strictly(file: &[u8]) -> Result<Opening, Refusal> {
    match strictly(|| caught(|| hooked::Database::from_vec(file.to_vec()).is_ok())) {
        Err(why) if why.number == 31 => Err(why),
        _ => open(file),
    }
}

// ---- lookup

/// A hit or a match: polygon id, metadata id, kind.
pub type Zone = (u32, u32, u8);

#[derive(Default)]
pub struct Looked {
    pub hits: Vec<Zone>,
    pub mark: u32,
    /// Where the entry ends at which the scan stopped early.
    stop: Option<u32>,
    /// What ended the scan, where a border or an entry was at fault; the hits are those before it.
    pub fault: Option<Refusal>,
    pub matches: Vec<Zone>,
    /// Match, field index and bytes, up to the first field at fault.
    pub fields: Vec<(usize, usize, Vec<u8>)>,
    pub field_fault: Option<Refusal>,
    pub safezone: u32,
}

fn holds(bounds: &[i32], fix: (i32, i32)) -> bool {
    bounds[0] <= fix.0 && fix.0 <= bounds[2] && bounds[1] <= fix.1 && fix.1 <= bounds[3]
}

/// The mark of a scan that stopped early at an entry which ends at this place: the first of the table's rest that decides.
fn rest_mark(raw: &hooked::Database, opened: &Opening, fix: (i32, i32), mut at: u32) -> u32 {
    while at < opened.metadata {
        let mut entry = [0i32; 6];
        for number in &mut entry {
            match caught(|| hooks::forward(raw, at)) {
                Ok(Some((value, next))) => (*number, at) = (hooks::signed(value), next),
                _ => return 2,
            }
        }
        if at <= opened.metadata && holds(&entry, fix) {
            return 4;
        }
    }
    if at == opened.metadata { 1 } else { 2 }
}

/// The scan of `lookup` in steps of the Rust's own functions, so that the hits before a fault are known.
fn scan(raw: &hooked::Database, opened: &Opening, fix: (i32, i32), ask: bool, looked: &mut Looked) -> Result<(), Refusal> {
    let (mut at, mut meta, mut border, mut id, mut least) = (opened.table, 0u32, 0u32, 0u32, -1i32 as u64);
    looked.mark = 1;
    while at < opened.metadata {
        let mut entry = [0u64; 6];
        for number in &mut entry {
            match caught(|| hooks::forward(raw, at))? {
                None => {
                    looked.mark = 2;
                    return Ok(());
                }
                Some((value, next)) => (*number, at) = (value, next),
            }
        }
        let signed: Vec<i32> = entry[..5].iter().map(|&x| hooks::signed(x)).collect();
        meta = meta.wrapping_add(signed[4] as u32);
        border = border.wrapping_add(entry[5] as u32);
        if fix.0 < signed[0] {
            looked.stop = Some(at);
            return Ok(());
        }
        if holds(&signed, fix) {
            let place = opened.data.wrapping_add(border);
            let (verdict, distance) = caught(|| hooks::verdict(raw, place, fix.0, fix.1, ask, least))?;
            least = distance;
            if verdict == 0 {
                looked.mark = 3;
                return Ok(());
            }
            if verdict != 1 {
                looked.hits.push((id, meta, verdict - 1));
            }
        }
        id = id.wrapping_add(1);
    }
    Ok(())
}

/// Hits grouped by metadata id, in the order of their first hits.
fn merged(hits: &[Zone]) -> Vec<Zone> {
    let mut groups: Vec<(Zone, i64, u8)> = Vec::new();
    for &(id, meta, kind) in hits {
        let at = groups.iter().position(|g| g.0 .1 == meta).unwrap_or_else(|| {
            groups.push(((id, meta, 0), 0, 0));
            groups.len() - 1
        });
        match kind {
            1 => groups[at].1 += 1,
            2 => groups[at].1 -= 1,
            _ => groups[at].2 = kind,
        }
    }
    groups.iter().filter_map(|&((id, meta, _), sum, border)| match (border, sum) {
        (0, 0) => None,
        (0, _) => Some((id, meta, 1)),
        _ => Some((id, meta, border)),
    }).collect()
}

pub fn field(raw: &hooked::Database, at: u32) -> Result<(Vec<u8>, u32), Refusal> {
    let (bytes, next) = caught(|| hooks::string(raw, at))?.ok_or_else(|| refused(15, 1, 0))?;
    match std::str::from_utf8(&bytes) {
        Ok(_) => Ok((bytes, next)),
        Err(_) => Err(refused(15, 2, 0)),
    }
}

fn read_fields(raw: &hooked::Database, opened: &Opening, looked: &mut Looked) -> Result<(), Refusal> {
    for (k, zone) in looked.matches.iter().enumerate() {
        let mut at = opened.metadata.wrapping_add(zone.1);
        for j in 0..opened.names.len() {
            let (bytes, next) = field(raw, at)?;
            looked.fields.push((k, j, bytes));
            at = next;
        }
    }
    Ok(())
}

pub struct Facts {
    pub opened: Result<Opening, Refusal>,
    /// With and without safezone; none where opening or the precision refuses.
    pub full: Option<Looked>,
    pub plain: Option<Looked>,
    /// The description of the simple lookup.
    pub simple: Option<Vec<u8>>,
}

type Answer = (u32, Vec<(Zone, HashMap<String, String>)>);

fn kind(k: ZoneMatchKind) -> u8 {
    match k {
        ZoneMatchKind::InZone => 1,
        ZoneMatchKind::InExcludedZone => 2,
        ZoneMatchKind::OnBorderVertex => 3,
        ZoneMatchKind::OnBorderSegment => 4,
    }
}

fn hooked_kind(k: hooked::ZoneMatchKind) -> u8 {
    match k {
        hooked::ZoneMatchKind::InZone => 1,
        hooked::ZoneMatchKind::InExcludedZone => 2,
        hooked::ZoneMatchKind::OnBorderVertex => 3,
        hooked::ZoneMatchKind::OnBorderSegment => 4,
    }
}

pub fn real_full(file: &[u8], lat: f32, lon: f32) -> Result<Answer, Refusal> {
    let db = Database::from_vec(file.to_vec()).ok().unwrap();
    let found = caught(|| db.lookup(Location { latitude: lat, longitude: lon }))?;
    let matches = found.matches.into_iter().map(|m| ((m.zone.polygon_id, m.zone.meta_id, kind(m.kind)), m.zone.fields));
    Ok((found.safezone.to_bits(), matches.collect()))
}

/// By the hooked copy, which is asked without safezone and strictly too.
fn hooked_lookup(file: &[u8], lat: f32, lon: f32, ask: bool) -> Result<Answer, Refusal> {
    let db = hooked::Database::from_vec(file.to_vec()).ok().unwrap();
    let location = hooked::Location { latitude: lat, longitude: lon };
    let (safezone, found) = caught(|| if ask {
        let found = db.lookup(location);
        (found.safezone.to_bits(), found.matches)
    } else {
        (0, hooks::lookup_plain(&db, location))
    })?;
    let matches = found.into_iter().map(|m| ((m.zone.polygon_id, m.zone.meta_id, hooked_kind(m.kind)), m.zone.fields));
    Ok((safezone, matches.collect()))
}

fn real_simple(file: &[u8], lat: f32, lon: f32) -> Result<Option<String>, Refusal> {
    let db = Database::from_vec(file.to_vec()).ok().unwrap();
    caught(|| db.simple_lookup(Location { latitude: lat, longitude: lon }))
}

/// End mark and hits before merging, of the marked copy.
fn real_mark(file: &[u8], lat: f32, lon: f32, ask: bool) -> Result<(u32, u32), Refusal> {
    let db = marked::Database::from_vec(file.to_vec()).ok().unwrap();
    let location = marked::Location { latitude: lat, longitude: lon };
    marked::marks::mark(1);
    caught(|| if ask { db.lookup(location); } else { db.simple_lookup(location); })?;
    Ok(marked::marks::get())
}

/// The values of one match as the Rust's map holds them: the last of each name.
fn map_of(opened: &Opening, looked: &Looked, which: usize) -> HashMap<String, String> {
    let mut map = HashMap::new();
    for (k, j, bytes) in &looked.fields {
        if *k == which {
            let name = String::from_utf8(opened.names[*j].clone()).unwrap();
            map.insert(name, String::from_utf8(bytes.clone()).unwrap());
        }
    }
    map
}

/// Scan, matches and fields in steps, but for the safezone.
fn by_steps(raw: &hooked::Database, opened: &Opening, fix: (i32, i32), ask: bool) -> Looked {
    let mut looked = Looked::default();
    looked.fault = scan(raw, opened, fix, ask, &mut looked).err();
    if looked.fault.is_none() {
        looked.matches = merged(&looked.hits);
        looked.field_fault = read_fields(raw, opened, &mut looked).err();
    }
    looked
}

/// Takes the safezone of the whole lookup. Panics where it disagrees with the steps: the harness would be wrong then, not the library.
fn agree(opened: &Opening, looked: &mut Looked, whole: Result<Answer, Refusal>) {
    match whole {
        Err(why) => {
            let fault = looked.fault.as_ref().or(looked.field_fault.as_ref());
            assert!(fault == Some(&why), "the Rust refuses {why:?}, by steps it is {fault:?}");
            // the panic of `expect` has a line of its own
            if let Some(fault) = &mut looked.field_fault {
                fault.place = why.place;
            }
        }
        Ok((safezone, matches)) => {
            assert!(looked.fault.is_none() && looked.field_fault.is_none());
            assert_eq!(looked.matches, matches.iter().map(|m| m.0).collect::<Vec<_>>());
            for (k, (_, fields)) in matches.iter().enumerate() {
                assert_eq!(fields, &map_of(opened, looked, k));
            }
            looked.safezone = safezone;
        }
    }
}

fn looked(file: &[u8], opened: &Opening, lat: f32, lon: f32, ask: bool, strict: bool) -> Looked {
    let precision = opened.precision as u32;
    let fix = (hooks::fixed(lat, 90.0, precision), hooks::fixed(lon, 180.0, precision));
    let raw = hooks::raw(file.to_vec(), opened.version, opened.metadata, opened.data);
    let mut looked = by_steps(&raw, opened, fix, ask);
    if ask && !strict {
        agree(opened, &mut looked, real_full(file, lat, lon));
    } else {
        agree(opened, &mut looked, hooked_lookup(file, lat, lon, ask));
    }
    if !strict {
        let fault = looked.fault.as_ref().or(looked.field_fault.as_ref());
        let known = fault.map_or(Ok((looked.mark, looked.hits.len() as u32)), |why| Err(why.clone()));
        assert_eq!(real_mark(file, lat, lon, ask), known);
    }
    // the marked copy knows nothing of the rest of the table
    if let Some(at) = looked.stop {
        looked.mark = rest_mark(&raw, opened, fix, at);
    }
    looked
}

/// The same file and location read strictly.
pub fn strict_facts(file: &[u8], lat: u32, lon: u32) -> Facts {
    let (lat, lon) = (f32::from_bits(lat), f32::from_bits(lon));
    let mut facts = Facts { opened: open_strictly(file), full: None, plain: None, simple: None };
    if let Ok(opened) = &facts.opened {
        if (1..=32).contains(&opened.precision) {
            facts.full = Some(strictly(|| looked(file, opened, lat, lon, true, true)));
            facts.plain = Some(strictly(|| looked(file, opened, lat, lon, false, true)));
        }
    }
    facts
}

pub fn facts(file: &[u8], lat: u32, lon: u32) -> Facts {
    let (lat, lon) = (f32::from_bits(lat), f32::from_bits(lon));
    let opened = open(file);
    let mut facts = Facts { opened, full: None, plain: None, simple: None };
    if let Ok(opened) = &facts.opened {
        if (1..=32).contains(&opened.precision) {
            facts.full = Some(looked(file, opened, lat, lon, true, false));
            let plain = looked(file, opened, lat, lon, false, false);
            match real_simple(file, lat, lon) {
                Ok(text) => facts.simple = text.map(String::into_bytes),
                Err(why) => assert!(plain.fault.as_ref().or(plain.field_fault.as_ref()) == Some(&why)),
            }
            facts.plain = Some(plain);
        } else {
            assert_eq!(real_full(file, lat, lon).unwrap_err().number, 16);
            assert_eq!(real_simple(file, lat, lon).unwrap_err().number, 16);
        }
    }
    facts
}
