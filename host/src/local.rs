//! Local time by a TZif file.

use crate::answer::Error;
use crate::raw;
use crate::refusal::{Number, Refusal};
use std::path::Path;

/// What a clock shows at an instant.
#[derive(Clone, Debug, Eq, PartialEq)]
pub struct LocalTime {
    /// Seconds east of UT.
    pub offset: i32,
    /// Whether it is daylight time.
    pub daylight: bool,
    /// The abbreviation, as the file has it: RFC 8536 asks for letters, digits, `+` and `-`, and the library for none of it.
    pub abbreviation: Vec<u8>,
    /// The correction at the instant, where the file counts leap seconds: it then reads the instant on its own scale, not as UNIX time, and [`CivilTime`] must not be asked.
    pub leap_seconds: Option<i32>,
}

/// A date and a time of day.
#[derive(Clone, Copy, Debug, Eq, PartialEq)]
pub struct CivilTime {
    /// 1 to 9999.
    pub year: u16,
    /// 1 to 12.
    pub month: u8,
    /// 1 to 31.
    pub day: u8,
    /// 0 to 23.
    pub hour: u8,
    /// 0 to 59.
    pub minute: u8,
    /// 0 to 59.
    pub second: u8,
    /// 0 is Sunday.
    pub weekday: u8,
}

impl CivilTime {
    /// What a clock shows at an instant, so many seconds east of UT; refused outside the years 1 to 9999.
    pub fn at(instant: i64, offset: i32) -> Result<CivilTime, Refusal> {
        let [year, month, day, hour, minute, second, weekday] = raw::civil_time(instant, offset)?;
        Ok(CivilTime {
            year: year as u16,
            month: month as u8,
            day: day as u8,
            hour: hour as u8,
            minute: minute as u8,
            second: second as u8,
            weekday: weekday as u8,
        })
    }
}

/// A TZif file that the library has checked. `B` holds its bytes.
pub struct TimeZone<B> {
    bytes: B,
}

/// Room for every abbreviation that is in use; a longer one is asked for again, with as much room as the file has bytes.
const ROOM: usize = 64;

impl TimeZone<Vec<u8>> {
    /// Reads a file into memory and checks it.
    pub fn read(path: impl AsRef<Path>) -> Result<TimeZone<Vec<u8>>, Error> {
        Ok(TimeZone::new(std::fs::read(path)?)?)
    }
}

impl<B: AsRef<[u8]>> TimeZone<B> {
    /// Checks a file's bytes: the refusal is that of the first rule that is broken.
    pub fn new(bytes: B) -> Result<TimeZone<B>, Refusal> {
        let zone = TimeZone { bytes };
        zone.local_time(0)?;
        Ok(zone)
    }

    /// Local time at an instant, in seconds from 1970 on the file's own scale; none where the file does not say.
    pub fn local_time(&self, instant: i64) -> Result<Option<LocalTime>, Refusal> {
        let file = self.bytes.as_ref();
        let mut text = vec![0; ROOM];
        let reply = match raw::local_time(file, instant, &mut text) {
            Err(refusal) if refusal.number == Number::TextRoom => {
                text = vec![0; file.len()];
                raw::local_time(file, instant, &mut text)?
            }
            reply => reply?,
        };
        let [scale, offset, daylight, length, correction] = reply;
        text.truncate(length as usize);
        Ok((scale != raw::NO_SCALE).then_some(LocalTime {
            offset: offset as u32 as i32,
            daylight: daylight == 1,
            abbreviation: text,
            leap_seconds: (scale != raw::UNIX_SCALE).then_some(correction as u32 as i32),
        }))
    }
}
