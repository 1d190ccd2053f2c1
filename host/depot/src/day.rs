//! A day's lines: CSV or a receiver's log in, requests out. No line is lost: what can't be read as a line stops the run, with its number.

use crate::fault::Fault;
use crate::source::{self, STANDARD};
use crate::words::count;
use chrono::DateTime;
use csv::{ReaderBuilder, StringRecord, Trim};
use std::io::Read;
use std::path::Path;
use uskelzar::{Number, Request};

/// A file's lines, with the names of its columns.
#[derive(Debug)]
pub struct Day {
    pub names: Vec<String>,
    pub lines: Vec<StringRecord>,
    /// Each line as it stands in the file.
    pub requests: Vec<Line>,
    /// What was taken for granted, in words.
    pub notes: Vec<String>,
    /// How a line is read.
    pub reading: Reading,
}

/// A line of a day as it stands in the file, without its line end; of a log without its LF.
#[derive(Clone, Debug, Eq, PartialEq)]
pub struct Line {
    /// The number of its first line, from 1.
    pub number: usize,
    pub text: Vec<u8>,
}

/// How a line is read.
#[derive(Clone, Debug, Eq, PartialEq)]
pub enum Reading {
    /// As cells.
    Cells(Cells),
    /// As a request, by the library.
    Request,
}

/// How a line of CSV is read: what parts its cells, and which of them has what.
#[derive(Clone, Debug, Eq, PartialEq)]
pub struct Cells {
    pub separator: u8,
    /// Latitude, longitude, instant, from 0.
    pub columns: [usize; 3],
}

/// What a line asks for.
#[derive(Clone, Debug, PartialEq)]
pub enum Asked {
    /// The slip at a fix and an instant.
    Fix(Request),
    /// The slip of a request, which the library reads.
    Line(Vec<u8>),
}

impl Day {
    /// What each of its lines asks for, or why nothing.
    pub fn asked(&self) -> Vec<Result<Asked, String>> {
        match &self.reading {
            Reading::Cells(cells) => self.lines.iter().map(|line| cells.request(line).map(Asked::Fix)).collect(),
            Reading::Request => self.requests.iter().map(|line| Ok(Asked::Line(line.text.clone()))).collect(),
        }
    }
}

impl Reading {
    /// What a line asks for, as it stands in the file, or why nothing.
    pub fn asked(&self, line: &Line) -> Result<Asked, String> {
        match self {
            Reading::Cells(cells) => cells.request_of(&line.text).map(Asked::Fix),
            Reading::Request => Ok(Asked::Line(line.text.clone())),
        }
    }
}

/// Reads a file, or standard input where the path is `-`.
pub fn read(path: &Path) -> Result<Day, Fault> {
    let bytes = source::bytes(path)?;
    let day = if is_log(path, &bytes) { log_of(&bytes) } else { day_of(&bytes).map_err(|words| if is_like_log(&bytes) { LIKE_LOG.into() } else { words }) };
    day.map_err(|words| Fault::file(path, words))
}

const LIKE_LOG: &str = "this looks like a receiver's log: name it .nmea, or give it on standard input";

/// Whether a file is a receiver's log of sentences, by its name; standard input, which has none, by its first byte.
fn is_log(path: &Path, bytes: &[u8]) -> bool {
    path.extension().is_some_and(|kind| kind.eq_ignore_ascii_case("nmea")) || path == Path::new(STANDARD) && bytes.starts_with(b"$")
}

/// Whether what is no day of cells begins as a receiver's log does: with a sentence, and not with names of columns.
fn is_like_log(bytes: &[u8]) -> bool {
    let bytes = source::unmarked(bytes);
    let mut cells = bytes.split(|byte| b"\r\n".contains(byte)).next().unwrap_or_default().split(|byte| b",;\t".contains(byte));
    bytes.starts_with(b"$") && !cells.any(|cell| LATITUDE.contains(&String::from_utf8_lossy(cell).trim().to_lowercase().as_str()))
}

/// The requests of a receiver's log: what ends with LF or with the file, whole.
fn sentences(bytes: &[u8]) -> impl Iterator<Item = &[u8]> {
    let whole = bytes.strip_suffix(b"\n").unwrap_or(bytes);
    let some = !bytes.is_empty();
    whole.split(|byte| *byte == b'\n').filter(move |_| some)
}

/// The lines of a receiver's log: what each means the library says, and which are other sentences (83), which are passed over.
pub fn log_of(bytes: &[u8]) -> Result<Day, String> {
    let names = ["latitude", "longitude", "instant", "request"].map(String::from).to_vec();
    let mut day = Day { names, lines: vec![], requests: vec![], notes: vec![], reading: Reading::Request };
    let mut others = 0;
    for (i, line) in sentences(bytes).enumerate() {
        let read = Request::read(line);
        if matches!(read, Err(why) if why.number == Number::OtherSentence) {
            others += 1;
            continue;
        }
        day.lines.push(record_of(read.ok(), line));
        day.requests.push(Line { number: i + 1, text: line.to_vec() });
    }
    if day.lines.is_empty() && others == 0 {
        return Err("is empty: lines of a receiver are wanted".into());
    }
    day.notes.extend((others > 0).then(|| format!("{} passed over", count(others, "other sentence"))));
    Ok(day)
}

/// Latitude, longitude and instant, where they can be read, and the line.
fn record_of(read: Option<Request>, line: &[u8]) -> StringRecord {
    let numbers = read.map_or_else(Default::default, |Request { lat, lon, instant }| [lat.to_string(), lon.to_string(), instant.to_string()]);
    let text = String::from_utf8_lossy(line.strip_suffix(b"\r").unwrap_or(line)).to_string();
    numbers.into_iter().chain([text]).collect::<Vec<_>>().into()
}

/// The lines of a file's bytes.
pub fn day_of(bytes: &[u8]) -> Result<Day, String> {
    let text = text_of(bytes)?;
    let separator = separator_of(text);
    check_quotes(text, separator)?;
    let mut lines = records(text, separator)?;
    let first = lines.first().ok_or("is empty: lines of latitude, longitude, instant are wanted")?;
    let unnamed = first.get(0).is_some_and(|word| number(word, separator).is_some());
    let (names, columns) = if unnamed { (numbered(&lines), [0, 1, 2]) } else { (named(first), columns_of(first)?) };
    let mut requests = requests(text, &lines);
    if !unnamed {
        lines.remove(0);
        requests.remove(0);
    }
    check_widths(&lines, &requests, names.len())?;
    let lines: Vec<StringRecord> = lines.iter().map(|line| widened(line, names.len())).collect();
    let cells = Cells { separator, columns };
    Ok(Day { notes: notes(&cells, &lines), names, lines, requests, reading: Reading::Cells(cells) })
}

/// Each record as it stands in the text, where it ends before the next one begins. Empty lines before it are not its own.
fn requests(text: &str, records: &[StringRecord]) -> Vec<Line> {
    // `records` puts a byte before the text
    let begins: Vec<usize> = records.iter().map(|record| record.position().map_or(0, |place| place.byte().saturating_sub(1) as usize)).collect();
    let ends = begins.iter().skip(1).copied().chain([text.len()]);
    let (mut number, mut counted) = (1, 0);
    let request = |(begin, end): (usize, usize)| {
        let own = text[begin..end].trim_start_matches(['\r', '\n']);
        let place = end - own.len();
        number += line_ends(&text[counted..place]);
        counted = place;
        Line { number, text: own.trim_end_matches(['\r', '\n']).into() }
    };
    begins.iter().copied().zip(ends).map(request).collect()
}

/// How many lines end in a text: by LF, CR LF or, as the reader of CSV has it, CR alone.
fn line_ends(text: &str) -> usize {
    text.matches(['\r', '\n']).count() - text.matches("\r\n").count()
}

/// The text of a file, without a byte order mark.
fn text_of(bytes: &[u8]) -> Result<&str, String> {
    let bytes = source::unmarked(bytes);
    std::str::from_utf8(bytes).map_err(|error| {
        let line = 1 + bytes[..error.valid_up_to()].iter().filter(|byte| **byte == b'\n').count();
        format!("line {line} is not UTF-8: save the file as UTF-8, or turn it with `iconv -f latin1 -t utf8`")
    })
}

/// What parts the cells, by the first line: a comma, a semicolon or a tab, whichever stands there most often.
fn separator_of(text: &str) -> u8 {
    let first = text.split(['\r', '\n']).next().unwrap_or_default();
    let often = |separator: &u8| first.bytes().filter(|byte| byte == separator).count();
    // of two that stand there as often, the comma
    [b';', b'\t', b','].into_iter().max_by_key(often).unwrap_or(b',')
}

/// A quote that nothing closes would take every line behind it into one cell.
fn check_quotes(text: &str, separator: u8) -> Result<(), String> {
    let (mut line, mut opened, mut quoted, mut begins) = (1, 1, false, true);
    let mut bytes = text.bytes().peekable();
    while let Some(byte) = bytes.next() {
        match byte {
            b'"' if quoted && bytes.peek() == Some(&b'"') => {
                bytes.next();
            }
            b'"' if quoted => quoted = false,
            b'"' if begins => (quoted, opened) = (true, line),
            _ => (),
        }
        line += usize::from(byte == b'\n' || byte == b'\r' && bytes.peek() != Some(&b'\n'));
        begins = !quoted && [separator, b'\r', b'\n'].contains(&byte);
    }
    if quoted {
        return Err(format!("line {opened}: a quote is opened and never closed; close it, or take it out"));
    }
    Ok(())
}

/// The records of a text. An empty line stands before it: at the very beginning the reader would drop a byte order mark, which further on it keeps.
fn records(text: &str, separator: u8) -> Result<Vec<StringRecord>, String> {
    let text = b"\n".chain(text.as_bytes());
    let mut reader = ReaderBuilder::new().has_headers(false).flexible(true).trim(Trim::All).delimiter(separator).from_reader(text);
    reader.records().collect::<Result<_, csv::Error>>().map_err(|error| error.to_string())
}

/// The first line's names; of columns that have one name the later ones get their number.
fn named(first: &StringRecord) -> Vec<String> {
    let mut names: Vec<String> = vec![];
    for name in first {
        names.push(unlike(name, &names));
    }
    names
}

/// A name that none of these has.
pub fn unlike(name: &str, others: &[String]) -> String {
    let taken = |name: &String| others.contains(name);
    if !taken(&name.to_string()) {
        return name.to_string();
    }
    (2..).map(|i| format!("{name} ({i})")).find(|name| !taken(name)).expect("there are enough numbers")
}

fn numbered(lines: &[StringRecord]) -> Vec<String> {
    let width = lines.iter().map(StringRecord::len).max().unwrap_or(0).max(3);
    let names = ["latitude", "longitude", "instant"].into_iter().map(str::to_string);
    names.chain((4..=width).map(|i| format!("column {i}"))).collect()
}

/// A cell without a column would be lost.
fn check_widths(lines: &[StringRecord], requests: &[Line], width: usize) -> Result<(), String> {
    let wide = lines.iter().zip(requests).find(|(line, _)| line.iter().skip(width).any(|cell| !cell.is_empty()));
    let Some((wide, Line { number, .. })) = wide else { return Ok(()) };
    Err(format!("line {number} has {} cells, and the first line names {width} columns: name them all, or take the others out", wide.len()))
}

/// The line with as many cells as there are columns.
fn widened(line: &StringRecord, width: usize) -> StringRecord {
    line.iter().chain(std::iter::repeat("")).take(width).collect::<Vec<_>>().into()
}

/// What was taken for granted, in words.
fn notes(reading: &Cells, lines: &[StringRecord]) -> Vec<String> {
    let parted = match reading.separator {
        b';' => Some("semicolons"),
        b'\t' => Some("tabs"),
        _ => None,
    };
    let parted = parted.map(|by| format!("cells are parted by {by}; a comma in a number is read as its point"));
    let cut = lines.iter().filter(|line| reading.is_cut(line)).count();
    let cut = (cut > 0).then(|| format!("{} with parts of a second: the second that has begun is taken", count(cut, "instant")));
    parted.into_iter().chain(cut).collect()
}

/// What the column of latitudes is called.
const LATITUDE: [&str; 2] = ["latitude", "lat"];

/// The columns that a first line names.
fn columns_of(names: &StringRecord) -> Result<[usize; 3], String> {
    let column = |known: &[&str]| {
        let place = names.iter().position(|name| known.contains(&name.to_lowercase().as_str()));
        place.ok_or_else(|| format!("its first line names no column {:?}; columns latitude, longitude, instant are wanted", known[0]))
    };
    Ok([column(&LATITUDE)?, column(&["longitude", "long", "lon", "lng"])?, column(&["instant", "time", "timestamp"])?])
}

impl Cells {
    /// The fix and the instant of a line as it stands in the file, or why there is none.
    pub fn request_of(&self, line: &[u8]) -> Result<Request, String> {
        let text = std::str::from_utf8(line).map_err(|_| "it is not UTF-8")?;
        match records(text, self.separator)?.as_slice() {
            [line] => self.request(line),
            lines => Err(format!("a request is one line, and here are {}", lines.len())),
        }
    }

    /// The fix and the instant of a line's cells. A text of degrees is rounded once, to the nearest f32.
    pub fn request(&self, line: &StringRecord) -> Result<Request, String> {
        let word = |column: usize| line.get(column).unwrap_or_default();
        let degrees = |column: usize, most: f32, what: &str| {
            let value = number(word(column), self.separator).filter(|value| value.abs() <= most);
            value.ok_or_else(|| format!("{what} {:?} is no number from -{most} to {most}", word(column)))
        };
        let [lat, lon, instant] = self.columns;
        Ok(Request { lat: degrees(lat, 90.0, "latitude")?, lon: degrees(lon, 180.0, "longitude")?, instant: instant_of(word(instant), self.separator)? })
    }

    /// Whether a line is read, and its instant has parts of a second.
    fn is_cut(&self, line: &StringRecord) -> bool {
        line.get(self.columns[2]).is_some_and(|word| word.contains(point(self.separator))) && self.request(line).is_ok()
    }
}

/// Whether a letter is the point of a number: the comma too, where it parts no cells.
fn point(separator: u8) -> impl Fn(char) -> bool {
    move |letter| letter == '.' || letter == ',' && separator != b','
}

/// Where a comma parts no cells it is a number's point.
fn number(word: &str, separator: u8) -> Option<f32> {
    if separator != b',' {
        return word.replacen(',', ".", 1).parse().ok();
    }
    word.parse().ok()
}

/// Seconds from 1970, or a date and time with its offset, such as 2026-07-01T11:59:59Z. With parts of a second it is the second that has begun.
fn instant_of(word: &str, separator: u8) -> Result<i64, String> {
    if let Some(seconds) = seconds_of(word, separator) {
        return Ok(seconds);
    }
    let (clock, offset) = offset_of(word)?;
    let (clock, _) = parted(clock, separator).ok_or_else(|| no_instant(word))?;
    if clock.ends_with(":60") {
        return Err(format!("instant {word:?} is a leap second, which has no instant of its own: take the second before or behind it"));
    }
    let read = DateTime::parse_from_rfc3339(&format!("{}{offset}", clock.replacen(' ', "T", 1)));
    read.map(|time| time.timestamp()).map_err(|_| no_instant(word))
}

/// Before 1970 too the second that has begun is the lower one.
fn seconds_of(word: &str, separator: u8) -> Option<i64> {
    let (whole, parts) = parted(word, separator)?;
    let below = whole.starts_with('-') && parts.bytes().any(|digit| digit != b'0');
    whole.parse::<i64>().ok()?.checked_sub(below.into())
}

/// What stands before a point, and the digits behind it; all of a word that has none.
fn parted(word: &str, separator: u8) -> Option<(&str, &str)> {
    let Some((whole, parts)) = word.split_once(point(separator)) else { return Some((word, "")) };
    (!parts.is_empty() && parts.bytes().all(|byte| byte.is_ascii_digit())).then_some((whole, parts))
}

fn no_instant(word: &str) -> String {
    format!("instant {word:?} is neither seconds from 1970 nor like 2026-07-01T11:59:59Z")
}

/// A time apart from its offset, which may be written +02:00, +0200 or Z.
fn offset_of(word: &str) -> Result<(&str, String), String> {
    if let Some(clock) = word.strip_suffix(['Z', 'z']) {
        return Ok((clock, "Z".into()));
    }
    // a sign behind the date is that of an offset
    let sign = word.rfind(['+', '-']).filter(|place| *place > 10);
    let Some(sign) = sign else {
        let dated = word.len() >= 16 && word.contains(':');
        return Err(if dated { format!("instant {word:?} has no offset: add Z for UTC, or one such as +02:00") } else { no_instant(word) });
    };
    let (clock, offset) = word.split_at(sign);
    let digits: String = offset.chars().filter(|c| *c != ':').collect();
    if digits.len() != 5 {
        return Err(no_instant(word));
    }
    Ok((clock, format!("{}:{}", &digits[..3], &digits[3..])))
}

#[cfg(test)]
mod tests {
    use super::*;

    #[test]
    fn instants() {
        for word in ["1782907199", "2026-07-01T11:59:59Z", "2026-07-01T13:59:59+02:00", "2026-07-01 13:59:59+0200", "2026-07-01T11:59:59.999Z", "2026-07-01 06:59:59.5-05:00"] {
            assert_eq!(instant_of(word, b','), Ok(1_782_907_199), "{word}");
        }
        assert!(instant_of("noon", b',').unwrap_err().contains("like 2026"));
        assert!(instant_of("2026-07-01T11:59:59", b',').unwrap_err().contains("has no offset: add Z"));
        assert!(instant_of("2016-12-31T23:59:60Z", b',').unwrap_err().contains("leap second"));
        for word in ["2026-07-01", "2026-02-30T00:00:00Z", "2026-07-01T11:59:59+2", "2026-07-01T11:59:59+02:00:00", "+", "\u{e9}\u{e9}\u{e9}\u{e9}\u{e9}\u{e9}+0200"] {
            assert!(instant_of(word, b',').is_err(), "{word}");
        }
    }

    /// The second that has begun, on either side of 1970.
    #[test]
    fn parts_of_a_second() {
        let known = [
            ("1782907199.25", 1_782_907_199), ("1782907199.0", 1_782_907_199), ("+5.9", 5), ("0.999999999999", 0), ("-0.5", -1), ("-1.0", -1), ("-1.25", -2), ("-0.0", 0),
            ("1969-12-31T23:59:59.5Z", -1), ("9223372036854775807.5", i64::MAX), ("-9223372036854775808.0", i64::MIN),
        ];
        for (word, instant) in known {
            assert_eq!(instant_of(word, b','), Ok(instant), "{word}");
            // a decimal comma, where it parts no cells
            assert_eq!(instant_of(&word.replace('.', ","), b';'), Ok(instant), "{word}");
        }
        for word in ["1.", ".5", "-.5", "1.2.3", "1.5e3", "1.-5", "1,5", "0x1.8", "9223372036854775808.0", "-9223372036854775808.5", "2026-07-01T11:59:59.Z", "2026-07-01T11:59:59.xZ"] {
            assert!(instant_of(word, b',').unwrap_err().contains("is neither seconds from 1970 nor like"), "{word}");
        }
    }

    /// Only what was read has had its second taken.
    #[test]
    fn instants_with_parts_are_counted_where_they_are_read() {
        let day = day_of(b"lat,lon,time\n1,2,3.5\n1,2,-3.5\n1,2,noon.5\n91,2,3.5\n1,2,3\n1,2,2026-07-01T11:59:59.5\n").unwrap();
        assert_eq!(day.asked().iter().filter(|asked| asked.is_ok()).count(), 3);
        assert_eq!(day.notes, ["2 instants with parts of a second: the second that has begun is taken"]);
        let day = day_of(b"lat;lon;time\n1,5;2;3,5\n1,5;2;2026-07-01T11:59:59,5Z\n").unwrap();
        assert_eq!(day.asked(), [fix(1.5, 2.0, 3), fix(1.5, 2.0, 1_782_907_199)]);
        assert_eq!(day.notes[1], "2 instants with parts of a second: the second that has begun is taken");
        assert!(day_of(b"lat,lon,time\n1,2,noon.5\n").unwrap().notes.is_empty());
    }

    fn line(number: usize, text: &str) -> Line {
        Line { number, text: text.into() }
    }

    fn fix(lat: f32, lon: f32, instant: i64) -> Result<Asked, String> {
        Ok(Asked::Fix(Request { lat, lon, instant }))
    }

    /// What its lines ask for as they stand in the file.
    fn read_again(day: &Day) -> Vec<Result<Asked, String>> {
        day.requests.iter().map(|line| day.reading.asked(line)).collect()
    }

    fn fault(text: &str) -> String {
        day_of(text.as_bytes()).unwrap_err()
    }

    #[test]
    fn a_quote_that_is_never_closed() {
        let day = "lat,lon,time,note\n1,2,3,\"stray\n1,2,3,x\n";
        assert!(fault(day).contains("line 2: a quote is opened and never closed"));
        // an inch in the middle of a cell opens nothing, and a quoted cell may hold quotes and line ends
        let good = "lat,lon,time,note\n1,2,3,5\" hose\n1,2,3,\"two\nlines and \"\"quotes\"\"\"\n";
        assert_eq!(day_of(good.as_bytes()).unwrap().lines.len(), 2);
    }

    /// Old files end their lines with CR alone, and the reader of CSV takes them so.
    #[test]
    fn lines_that_end_with_a_carriage_return() {
        assert!(fault("lat,lon,time,note\r1,2,3,x\r\"stray\r1,2,3,x\r").contains("line 3: a quote is opened and never closed"));
        let day = day_of(b"note;lat;lon;time\rx;1,5;2;3\r\r\ny;1;2;3\r").unwrap();
        assert_eq!(day.requests, [line(2, "x;1,5;2;3"), line(4, "y;1;2;3")]);
        assert!(fault("lat,lon,time\r1,2,3,4\r").contains("line 2 has 4 cells"));
    }

    /// A byte order mark inside a file, where two were joined, is a byte of its line, now and when it is read again.
    #[test]
    fn a_mark_further_on() {
        let day = day_of("\u{feff}1,2,3\n\u{feff}4,5,6\n".as_bytes()).unwrap();
        assert_eq!(day.asked()[0], fix(1.0, 2.0, 3));
        assert_eq!(day.asked(), read_again(&day));
        assert!(day.asked()[1].as_ref().unwrap_err().contains("latitude"));
    }

    #[test]
    fn cells_without_a_column() {
        assert!(fault("lat,lon,time\n1,2,3\n1,2,3,4\n").contains("line 3 has 4 cells, and the first line names 3 columns"));
        // a separator at a line's end is no cell
        assert_eq!(day_of(b"lat,lon,time\n1,2,3,\n").unwrap().lines[0].len(), 3);
    }

    #[test]
    fn files_of_the_world() {
        let day = day_of("\u{feff}Time;Long;Latitude\n2026-07-01T11:59:59Z;13,40;52,52\n".as_bytes()).unwrap();
        assert_eq!(day.asked()[0], fix(52.52, 13.40, 1_782_907_199));
        assert!(day.notes[0].contains("semicolons"));
        let day = day_of(b"lat\tlon\ttime\n52.52\t13.40\t2026-07-01 11:59:59.5Z\n").unwrap();
        assert_eq!(day.asked()[0], fix(52.52, 13.40, 1_782_907_199));
        assert_eq!(day.notes, ["cells are parted by tabs; a comma in a number is read as its point", "1 instant with parts of a second: the second that has begun is taken"]);
        assert!(day_of(b"lat,lon,time,depot\n1,2,3,M\xfcnchen\n").err().unwrap().contains("line 2 is not UTF-8"));
    }

    #[test]
    fn columns_by_name() {
        assert_eq!(columns_of(&vec!["slip", "Time", "lon", "Latitude"].into()), Ok([3, 2, 1]));
        assert!(columns_of(&vec!["slip", "lat", "lon"].into()).unwrap_err().contains("no column \"instant\""));
        let day = day_of(b"note,lat,lon,time,note\na,1,2,3,b\n").unwrap();
        assert_eq!(day.names, ["note", "lat", "lon", "time", "note (2)"]);
    }

    #[test]
    fn requests_are_the_lines_as_they_stand() {
        let text = "lat,lon,time,note\r\n\r\n1, 2,3,x\r\n1,2,3,\"two\nlines\"\n\n\n4,5,6, \n";
        let day = day_of(text.as_bytes()).unwrap();
        assert_eq!(day.requests, [line(3, "1, 2,3,x"), line(4, "1,2,3,\"two\nlines\""), line(8, "4,5,6, ")]);
        assert_eq!(day.asked(), read_again(&day));
        assert!(day.reading.asked(&line(1, "1,2,3\n1,2,3")).unwrap_err().contains("here are 2"));
        let unnamed = day_of(b"1,2,3\n").unwrap();
        assert_eq!(unnamed.requests, [line(1, "1,2,3")]);
    }

    #[test]
    fn sentences_are_cut_at_their_line_ends() {
        let log = b"$GPGGA,1*00\r\n\n$GPRMC,2\xff*00\r\n$GPRMC";
        let lines: Vec<&[u8]> = sentences(log).collect();
        assert_eq!(lines, [&b"$GPGGA,1*00\r"[..], b"", b"$GPRMC,2\xff*00\r", b"$GPRMC"]);
        assert_eq!((sentences(b"").count(), sentences(b"\n").count(), sentences(b"\n\n").count()), (0, 1, 2));
        for log in [&b"$GPGGA,115959.00,5231.2,N\r\n"[..], b"\xef\xbb\xbf$GPGGA", b"$GPTXT,\xff,latitude of"] {
            assert!(is_like_log(log), "{log:?}");
        }
        for day in [&b"lat,lon,time\n$GPGGA,1"[..], b"", b"$price, Lat,lon", b"$;\"x\";latitude\n", b" $GPGGA,1"] {
            assert!(!is_like_log(day), "{day:?}");
        }
        assert!(is_log(Path::new("a/day.NMEA"), b"x") && !is_log(Path::new("nmea"), b"$") && !is_log(Path::new("-"), b"lat") && is_log(Path::new("-"), b"$GP"));
    }

    #[test]
    fn a_log_of_sentences() {
        let rmc = "$GNRMC,115959.00,A,5231.200000,N,01324.000000,E,0.0,0.0,010726,,,A*41";
        let log = [b"$GPGLL,,,,,,V,N*64\r\n", rmc.as_bytes(), b"\r\n\n$GPGLL,,,,,,V,N*64\n$GPRMC,\xff*00\r\n-33.87 151.21 0"].concat();
        let day = log_of(&log).unwrap();
        assert_eq!(day.requests.iter().map(|line| line.number).collect::<Vec<_>>(), [2, 3, 5, 6]);
        assert_eq!(day.asked(), read_again(&day));
        assert_eq!(day.asked()[0], Ok(Asked::Line(format!("{rmc}\r").into())));
        assert_eq!(day.notes, ["2 other sentences passed over"]);
        assert_eq!(day.lines[0], vec!["52.52", "13.4", "1782907199", rmc]);
        assert_eq!(day.lines[1], vec!["", "", "", ""]);
        assert_eq!(day.lines[2], vec!["", "", "", "$GPRMC,\u{fffd}*00"]);
        assert_eq!(day.lines[3], vec!["-33.87", "151.21", "0", "-33.87 151.21 0"]);
        assert!(log_of(b"").unwrap_err().contains("is empty"));
        assert!(log_of(b"$GPGLL,,,,,,V,N*64").unwrap().lines.is_empty());
    }
}
