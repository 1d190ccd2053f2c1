//! What a line of a receiver, or of a person, asks for.

use crate::raw;
use crate::refusal::Refusal;

/// A fix in degrees, and an instant in seconds from 1970.
///
/// ```
/// use uskelzar::{Number, Request};
///
/// let plain = Request::read("52.52 13.40 2026-07-01T11:59:59Z")?;
/// assert_eq!((plain.lat, plain.lon, plain.instant), (52.52, 13.40, 1_782_907_199));
/// let sentence = Request::read("$GNRMC,115959.00,A,5231.200000,N,01324.000000,E,0.0,0.0,010726,,,A*41\r\n")?;
/// assert_eq!(sentence, plain);
/// let other = Request::read("$GPGLL,,,,,,V,N*64").unwrap_err();
/// assert_eq!(other.number, Number::OtherSentence); // in a receiver's stream no fault
/// # Ok::<(), uskelzar::Refusal>(())
/// ```
#[derive(Clone, Copy, Debug, PartialEq)]
pub struct Request {
    /// Latitude.
    pub lat: f32,
    /// Longitude.
    pub lon: f32,
    /// Seconds from 1970, on a scale without leap seconds.
    pub instant: i64,
}

impl Request {
    /// What a line means, with its line end or without: an RMC sentence of NMEA 0183, or latitude, longitude and instant in words. Degrees are rounded once, to the nearest `f32`.
    pub fn read(line: impl AsRef<[u8]>) -> Result<Request, Refusal> {
        let [lat, lon, instant, ..] = raw::request(line.as_ref())?;
        let degrees = |bits: u64| f32::from_bits(bits as u32);
        Ok(Request { lat: degrees(lat), lon: degrees(lon), instant: instant as i64 })
    }
}
