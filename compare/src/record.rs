//! What a call on lent rooms must reply, and the records that crate replay reads. Rooms are the library's alone; the Rust has none.
use crate::hit::HIT_WORDS;
use crate::rust::{facts, refused, strict_facts, Facts, Looked, Refusal, Zone};

pub const OPEN: u8 = 1;
pub const LOOKUP: u8 = 2;
pub const SIMPLE: u8 = 3;
pub const WRITE: u8 = 4;
pub const STRING: u8 = 5;
pub const UTF8: u8 = 6;
pub const STRICT_OPEN: u8 = 7;
pub const STRICT_LOOKUP: u8 = 8;
pub const MANY: u8 = 9;

/// The words of a hit with its place left out: the Rust has none, and `replay` leaves it out of ops 2, 3, 8 and 9.
pub const ZONE_WORDS: usize = HIT_WORDS - 1;

/// A call on a file. For a string, `lat` is the place and `lon` the metadata offset.
#[derive(Clone)]
pub struct Call {
    pub op: u8,
    pub lat: u32,
    pub lon: u32,
    pub ask: bool,
    pub slots: usize,
    pub room: usize,
    pub file: Vec<u8>,
}

#[derive(Clone, Default, PartialEq)]
pub struct Reply {
    /// 0 answered, 1 refused, 2 none or failed.
    pub outcome: u8,
    pub refusal: Refusal,
    pub words: [u32; 5],
    /// All that was lent.
    pub slots: Vec<u32>,
    pub text: Vec<u8>,
}

impl Reply {
    pub fn bytes(&self) -> Vec<u8> {
        let mut out = vec![self.outcome];
        out.extend(self.refusal.number.to_le_bytes());
        out.push(self.refusal.cause);
        out.extend(self.refusal.detail.to_le_bytes());
        for word in self.words.iter().chain(&self.slots) {
            out.extend(word.to_le_bytes());
        }
        out.extend(&self.text);
        out
    }
}

fn answered(words: [u32; 5], slots: Vec<u32>, text: Vec<u8>) -> Reply {
    Reply { outcome: 0, refusal: Refusal::default(), words, slots, text }
}

/// A list with zeros behind it, in the room; none where it does not fit.
fn fitted<T: Clone + Default>(mut list: Vec<T>, room: usize) -> Option<Vec<T>> {
    if list.len() > room {
        return None;
    }
    list.resize(room, T::default());
    Some(list)
}

fn put_text(text: &mut Vec<u8>, bytes: &[u8]) {
    text.extend([(bytes.len() >> 8) as u8, bytes.len() as u8]);
    text.extend(bytes);
}

fn reply_open(facts: &Facts, room: usize) -> Result<Reply, Refusal> {
    let opened = facts.opened.as_ref().map_err(Clone::clone)?;
    let mut text = Vec::new();
    for name in opened.names.iter().chain([&opened.notice]) {
        put_text(&mut text, name);
    }
    let words = [opened.kind as u32, opened.version as u32, opened.precision as u32, opened.names.len() as u32, text.len() as u32];
    let text = fitted(text, room).ok_or_else(|| refused(18, 0, 0))?;
    Ok(answered(words, Vec::new(), text))
}

/// What opening, precision, slots and scan refuse.
fn scanned<'a>(facts: &'a Facts, looked: &'a Option<Looked>, slots: usize) -> Result<&'a Looked, Refusal> {
    facts.opened.as_ref().map_err(Clone::clone)?;
    let looked = looked.as_ref().ok_or_else(|| refused(16, 0, 0))?;
    if looked.hits.len() > slots / ZONE_WORDS {
        return Err(refused(17, 0, 0));
    }
    match &looked.fault {
        Some(fault) => Err(fault.clone()),
        None => Ok(looked),
    }
}

fn listed(matches: &[Zone], slots: usize) -> Vec<u32> {
    fitted(matches.iter().flat_map(|z| [z.0, z.1, z.2 as u32]).collect(), slots).unwrap()
}

fn reply_lookup(facts: &Facts, ask: bool, slots: usize, room: usize) -> Result<Reply, Refusal> {
    let looked = scanned(facts, if ask { &facts.full } else { &facts.plain }, slots)?;
    let mut text = Vec::new();
    for (_, tag, bytes) in &looked.fields {
        text.push(*tag as u8);
        put_text(&mut text, bytes);
        if text.len() > room {
            return Err(refused(18, 0, 0));
        }
    }
    if let Some(fault) = &looked.field_fault {
        return Err(fault.clone());
    }
    let words = [looked.matches.len() as u32, looked.mark, looked.safezone, text.len() as u32, 0];
    Ok(answered(words, listed(&looked.matches, slots), fitted(text, room).unwrap()))
}

fn reply_simple(facts: &Facts, slots: usize, room: usize) -> Result<Reply, Refusal> {
    let looked = scanned(facts, &facts.plain, slots)?;
    if let Some(fault) = &looked.field_fault {
        return Err(fault.clone());
    }
    let (outcome, text) = match &facts.simple {
        None => (2, Vec::new()),
        Some(text) => (0, text.clone()),
    };
    let words = [looked.matches.len() as u32, looked.mark, text.len() as u32, 0, 0];
    let text = fitted(text, room).ok_or_else(|| refused(18, 0, 0))?;
    Ok(Reply { outcome, ..answered(words, listed(&looked.matches, slots), text) })
}

fn with_zeros(why: Refusal, slots: usize, room: usize) -> Reply {
    Reply { outcome: 1, refusal: why, words: [0; 5], slots: vec![0; slots], text: vec![0; room] }
}

/// What the Rust made of a file and a location, plainly and strictly.
pub struct Readings {
    pub plain: Facts,
    pub strict: Facts,
}

pub fn readings(file: &[u8], lat: u32, lon: u32) -> Readings {
    Readings { plain: facts(file, lat, lon), strict: strict_facts(file, lat, lon) }
}

pub fn reply(call: &Call, read: &Readings) -> Reply {
    let strict = [STRICT_OPEN, STRICT_LOOKUP].contains(&call.op);
    reply_from(call, if strict { &read.strict } else { &read.plain })
}

/// Opening, lookup and simple lookup, from what the Rust made of the same file and location, read as the call asks.
pub fn reply_from(call: &Call, facts: &Facts) -> Reply {
    let reply = match call.op {
        OPEN | STRICT_OPEN => reply_open(facts, call.room),
        LOOKUP | STRICT_LOOKUP => reply_lookup(facts, call.ask, call.slots, call.room),
        _ => reply_simple(facts, call.slots, call.room),
    };
    let mut reply = reply.unwrap_or_else(|why| with_zeros(why, call.slots, call.room));
    reply.slots.resize(call.slots, 0);
    reply
}

pub fn sized(body: Vec<u8>) -> Vec<u8> {
    let mut out = (body.len() as u32).to_le_bytes().to_vec();
    out.extend(body);
    out
}

pub fn record(call: &Call, id: u32, reply: &Reply) -> Vec<u8> {
    let mut body = vec![call.op];
    for word in [id, call.lat, call.lon] {
        body.extend(word.to_le_bytes());
    }
    body.push(call.ask as u8);
    for size in [call.slots, call.room, call.file.len()] {
        body.extend((size as u32).to_le_bytes());
    }
    body.extend(&call.file);
    body.extend(reply.bytes());
    sized(body)
}

// ---- the writer

#[derive(Clone, Copy, Default)]
pub struct Piece {
    pub start: u32,
    pub bytes: u32,
    pub direction: u32,
    pub first: u32,
    pub count: u32,
}

#[derive(Clone, Default)]
pub struct Writing {
    pub version: u8,
    pub lats: Vec<i32>,
    pub lons: Vec<i32>,
    pub pieces: Vec<Piece>,
    pub earlier: Vec<u8>,
    pub room: usize,
}

pub fn reply_written(room: usize, written: Result<Vec<u8>, Refusal>) -> Reply {
    match written {
        Ok(out) => answered([out.len() as u32, 0, 0, 0, 0], Vec::new(), fitted(out, room).unwrap()),
        Err(why) => with_zeros(why, 0, room),
    }
}

pub fn write_record(writing: &Writing, id: u32, reply: &Reply) -> Vec<u8> {
    let mut body = vec![WRITE];
    body.extend(id.to_le_bytes());
    body.push(writing.version);
    for size in [writing.lats.len(), writing.lons.len(), writing.pieces.len(), writing.earlier.len(), writing.room] {
        body.extend((size as u32).to_le_bytes());
    }
    for coordinate in writing.lats.iter().chain(&writing.lons) {
        body.extend(coordinate.to_le_bytes());
    }
    for p in &writing.pieces {
        for word in [p.start, p.bytes, p.direction, p.first, p.count] {
            body.extend(word.to_le_bytes());
        }
    }
    body.extend(&writing.earlier);
    body.extend(reply.bytes());
    sized(body)
}
