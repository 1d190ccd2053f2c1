//! What a slip rests on, as a line of JSON. docs/FORMAT.md has the form.

use crate::day::{Cells, Line, Reading};
use crate::slips::Slip;
use serde_json::{json, Map as Object, Value};
use sha2::{Digest, Sha256};
use uskelzar::{zone_name, End, Match, Printer, RELEASE};

/// The form of these lines.
pub const FORM: u64 = 2;

/// What is the same in all slips of a run: the library's release, and the files by their sums.
#[derive(Clone, Debug, PartialEq)]
pub struct Basis {
    pub library: Value,
    pub map: Value,
    pub zones: Value,
}

impl Basis {
    /// Of what the printer goes by: the very bytes that the library is lent.
    pub fn of(printer: &Printer<Vec<u8>>) -> Basis {
        let (map, zones) = (printer.map(), printer.zones());
        Basis {
            library: json!(RELEASE),
            map: json!({"sha256": sum(map.bytes()), "notice": map.header().notice}),
            zones: json!({"sha256": sum(zones.to_bytes()), "release": zones.release()}),
        }
    }

    /// The basis that a slip's evidence names.
    pub fn named(evidence: &Value) -> Basis {
        let part = |name: &str| evidence.get(name).cloned().unwrap_or_default();
        Basis { library: part("library"), map: part("map"), zones: part("zones") }
    }

    /// What a slip rests on.
    pub fn evidence(&self, printer: &Printer<Vec<u8>>, line: &Line, reading: &Reading, slip: &Slip) -> Value {
        let mut object = asked(line, reading);
        object.insert("library".into(), self.library.clone());
        object.insert("map".into(), self.map.clone());
        object.insert("zones".into(), self.zones.clone());
        if let Some(request) = &slip.request {
            object.insert("latitude".into(), bits(request.lat));
            object.insert("longitude".into(), bits(request.lon));
            object.insert("instant".into(), json!(request.instant));
        }
        if let Some((end, matches)) = searched(printer, slip) {
            object.insert("mark".into(), json!(end as u8));
            object.insert("matches".into(), matches.iter().map(matched).collect());
        }
        match &slip.stamped {
            Ok(slip) => object.insert("line".into(), json!(slip.line)),
            Err(why) => object.insert("reason".into(), json!(why.to_string())),
        };
        Value::Object(object)
    }
}

/// How the search ended, and its matches: those of the slip, or where there is none those of the map; nothing where the map refused or was not asked.
fn searched(printer: &Printer<Vec<u8>>, slip: &Slip) -> Option<(End, Vec<Match>)> {
    if let Ok(stamped) = &slip.stamped {
        return Some((End::Whole, stamped.matches.clone()));
    }
    let found = printer.found(slip.request?.lat, slip.request?.lon).ok()?;
    Some((found.end, found.matches))
}

/// The SHA-256 of bytes, in hexadecimal digits.
fn sum(bytes: &[u8]) -> String {
    in_hexadecimal(&Sha256::digest(bytes))
}

fn in_hexadecimal(bytes: &[u8]) -> String {
    bytes.iter().map(|byte| format!("{byte:02x}")).collect()
}

fn of_hexadecimal(digits: &str) -> Option<Vec<u8>> {
    let pair = |two: &[u8]| std::str::from_utf8(two).ok().filter(|two| two.bytes().all(|digit| digit.is_ascii_hexdigit())).and_then(|two| u8::from_str_radix(two, 16).ok());
    digits.as_bytes().chunks(2).map(|two| pair(two).filter(|_| two.len() == 2)).collect()
}

/// The bits of a float, in hexadecimal digits.
fn bits(degrees: f32) -> Value {
    json!(format!("{:08x}", degrees.to_bits()))
}

fn asked(line: &Line, reading: &Reading) -> Object<String, Value> {
    let mut object = Object::new();
    object.insert("evidence".into(), json!(FORM));
    object.insert("number".into(), json!(line.number));
    match std::str::from_utf8(&line.text) {
        Ok(text) => object.insert("request".into(), json!(text)),
        Err(_) => object.insert("bytes".into(), json!(in_hexadecimal(&line.text))),
    };
    if let Reading::Cells(cells) = reading {
        object.insert("separator".into(), json!(char::from(cells.separator).to_string()));
        object.insert("columns".into(), json!(cells.columns));
    }
    object
}

fn matched(zone: &Match) -> Value {
    json!({"zone": zone_name(&zone.fields), "kind": zone.kind as u8, "entry": zone.entry, "polygon": zone.polygon, "metadata": zone.metadata})
}

/// The request that a slip's evidence has, and how it was read; or what is wrong with it.
pub fn request_of(evidence: &Value) -> Result<(Line, Reading), String> {
    let form = evidence.get("evidence").and_then(Value::as_u64).ok_or("it is no evidence: \"evidence\" is missing")?;
    if form != FORM {
        return Err(format!("its form is {form}, and this release knows {FORM}: take the release that wrote it"));
    }
    let number = evidence.get("number").and_then(number).ok_or_else(|| missing("number"))?;
    let text = match (evidence.get("request"), evidence.get("bytes")) {
        (None, Some(bytes)) => bytes.as_str().and_then(of_hexadecimal).ok_or_else(|| missing("bytes"))?,
        (request, _) => request.and_then(Value::as_str).ok_or_else(|| missing("request"))?.as_bytes().to_vec(),
    };
    Ok((Line { number, text }, reading_of(evidence)?))
}

fn missing(name: &str) -> String {
    format!("{name:?} is missing, or is not what depot writes")
}

fn number(value: &Value) -> Option<usize> {
    value.as_u64().and_then(|number| usize::try_from(number).ok())
}

/// By cells where it says how; else by the library.
fn reading_of(evidence: &Value) -> Result<Reading, String> {
    let (separator, columns) = match (evidence.get("separator"), evidence.get("columns")) {
        (None, None) => return Ok(Reading::Request),
        both => both,
    };
    let columns: Option<Vec<usize>> = columns.and_then(Value::as_array).and_then(|list| list.iter().map(number).collect());
    let columns = columns.and_then(|list| <[usize; 3]>::try_from(list).ok()).ok_or_else(|| missing("columns"))?;
    let [separator] = separator.and_then(Value::as_str).unwrap_or_default().as_bytes() else { return Err(missing("separator")) };
    Ok(Reading::Cells(Cells { separator: *separator, columns }))
}

#[cfg(test)]
mod tests {
    use super::*;

    #[test]
    fn bytes_that_are_no_text() {
        for bytes in [&b"$GPRMC,\xff\x00*41\r"[..], b"", b"\xc3"] {
            assert_eq!(of_hexadecimal(&in_hexadecimal(bytes)).as_deref(), Some(bytes));
            let line = Line { number: 7, text: bytes.to_vec() };
            assert_eq!(request_of(&Value::Object(asked(&line, &Reading::Request))), Ok((line, Reading::Request)));
        }
        assert!(["0", "0g", "+1", "\u{e9}", "00 "].into_iter().all(|digits| of_hexadecimal(digits).is_none()));
    }
}
