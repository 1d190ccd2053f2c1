//! What GEOS, the geometry library that PostGIS and QGIS stand on, says of polygons: by its C interface (Debian's libgeos-dev). All that is unsafe in depot.

use std::ffi::{c_char, c_int, c_uint, c_void, CStr};
use std::ptr;

/// A place as GEOS has it: x, then y.
pub type Xy = [f64; 2];

/// What is wrong with a polygon; GEOS tells the first thing that it meets.
#[derive(Clone, Copy, Debug, PartialEq)]
pub struct Invalid {
    pub reason: Reason,
    pub at: Xy,
}

#[derive(Clone, Copy, Debug, Eq, PartialEq)]
pub enum Reason {
    /// Two edges cross, or lie on one another.
    Crossing,
    /// A hole is not inside the outer ring.
    HoleOutside,
    /// A hole is inside another.
    HoleInHole,
    /// Of two polygons one is inside the other.
    Nested,
    /// A ring has fewer than 3 different points.
    FewPoints,
    /// The inside falls apart where rings touch. A lookup answers there as everywhere.
    Disconnected,
    /// What GEOS itself gives no other name.
    Other,
}

impl Reason {
    fn of(words: &str) -> Reason {
        match words {
            "Self-intersection" | "Ring Self-intersection" | "Duplicate Rings" => Reason::Crossing,
            "Hole lies outside shell" => Reason::HoleOutside,
            "Holes are nested" | "Nested holes" => Reason::HoleInHole,
            "Nested shells" => Reason::Nested,
            "Interior is disconnected" => Reason::Disconnected,
            words if words.starts_with("Too few points") => Reason::FewPoints,
            _ => Reason::Other,
        }
    }
}

type Handle = *mut c_void;
type Raw = *mut c_void;

// A ring may touch itself at a point: even so each place is inside or outside.
const TOUCHING_ALLOWED: c_int = 1;
const VALID: c_char = 1;
const NOT_VALID: c_char = 0;
const MULTIPOLYGON: c_int = 6;
// The insides of both have a place in common.
const OVERLAP: &CStr = match CStr::from_bytes_with_nul(b"T********\0") {
    Ok(pattern) => pattern,
    Err(_) => panic!(),
};

#[link(name = "geos_c")]
extern "C" {
    fn GEOS_init_r() -> Handle;
    fn GEOS_finish_r(handle: Handle);
    fn GEOSCoordSeq_copyFromBuffer_r(handle: Handle, numbers: *const f64, size: c_uint, has_z: c_int, has_m: c_int) -> Raw;
    fn GEOSGeom_createLinearRing_r(handle: Handle, points: Raw) -> Raw;
    fn GEOSGeom_createPolygon_r(handle: Handle, shell: Raw, holes: *mut Raw, count: c_uint) -> Raw;
    fn GEOSGeom_createCollection_r(handle: Handle, kind: c_int, parts: *mut Raw, count: c_uint) -> Raw;
    fn GEOSRelatePattern_r(handle: Handle, one: Raw, other: Raw, pattern: *const c_char) -> c_char;
    fn GEOSGeom_destroy_r(handle: Handle, geometry: Raw);
    fn GEOSisValidDetail_r(handle: Handle, geometry: Raw, flags: c_int, reason: *mut *mut c_char, place: *mut Raw) -> c_char;
    fn GEOSGeomGetX_r(handle: Handle, geometry: Raw, x: *mut f64) -> c_int;
    fn GEOSGeomGetY_r(handle: Handle, geometry: Raw, y: *mut f64) -> c_int;
    fn GEOSOrientationIndex_r(handle: Handle, ax: f64, ay: f64, bx: f64, by: f64, px: f64, py: f64) -> c_int;
    fn GEOSFree_r(handle: Handle, memory: *mut c_void);
}

/// GEOS, ready for one thread.
pub struct Geos(Handle);

/// A geometry that goes away with its owner.
struct Geometry<'a> {
    raw: Raw,
    geos: &'a Geos,
}

impl Drop for Geos {
    fn drop(&mut self) {
        // SAFETY: `new` made it, and what it made is borrowed from it and gone
        unsafe { GEOS_finish_r(self.0) }
    }
}

impl Drop for Geometry<'_> {
    fn drop(&mut self) {
        // SAFETY: GEOS made it, and nobody else destroys it
        unsafe { GEOSGeom_destroy_r(self.geos.0, self.raw) }
    }
}

impl Default for Geos {
    fn default() -> Geos {
        Geos::new()
    }
}

impl Geos {
    pub fn new() -> Geos {
        // SAFETY: it takes nothing
        let handle = unsafe { GEOS_init_r() };
        assert!(!handle.is_null(), "GEOS has no memory");
        Geos(handle)
    }

    /// What is wrong with a polygon: an outer ring, then holes, each without its closing point.
    pub fn invalid(&self, rings: &[&[Xy]]) -> Option<Invalid> {
        match self.polygon(rings) {
            Some(polygon) => polygon.invalid(),
            None => Some(Invalid { reason: Reason::FewPoints, at: rings.iter().find_map(|ring| ring.first().copied()).unwrap_or_default() }),
        }
    }

    /// What is wrong with valid polygons as parts of one, that they share a line included.
    pub fn invalid_parts(&self, polygons: &[Vec<&[Xy]>]) -> Option<Invalid> {
        let made: Option<Vec<Geometry>> = polygons.iter().map(|rings| self.polygon(rings)).collect();
        let mut raw: Vec<Raw> = made?.into_iter().map(Geometry::given).collect();
        let count = c_uint::try_from(raw.len()).ok()?;
        // SAFETY: polygons of this handle, which the whole takes over; so many are there
        self.owned(unsafe { GEOSGeom_createCollection_r(self.0, MULTIPOLYGON, raw.as_mut_ptr(), count) })?.invalid()
    }

    /// Whether the insides of two valid polygons have a place in common.
    pub fn overlap(&self, one: &[&[Xy]], other: &[&[Xy]]) -> bool {
        let Some((one, other)) = self.polygon(one).zip(self.polygon(other)) else { return false };
        // SAFETY: geometries of this handle, and a text that ends with 0
        unsafe { GEOSRelatePattern_r(self.0, one.raw, other.raw, OVERLAP.as_ptr()) == 1 }
    }

    /// On which side of the way from `a` to `b` a place is: 1 left, -1 right, 0 on it. Exact.
    pub fn side(&self, a: Xy, b: Xy, place: Xy) -> i32 {
        // SAFETY: numbers alone
        unsafe { GEOSOrientationIndex_r(self.0, a[0], a[1], b[0], b[1], place[0], place[1]) }
    }

    fn owned(&self, raw: Raw) -> Option<Geometry<'_>> {
        (!raw.is_null()).then_some(Geometry { raw, geos: self })
    }

    fn ring(&self, ring: &[Xy]) -> Option<Geometry<'_>> {
        let closed: Vec<Xy> = ring.iter().chain(ring.first()).copied().collect();
        let size = c_uint::try_from(closed.len()).ok()?;
        // SAFETY: `size` pairs of numbers are there and are copied; the ring takes the copy over, whether it is made or not
        self.owned(unsafe {
            let points = GEOSCoordSeq_copyFromBuffer_r(self.0, closed.as_ptr().cast(), size, 0, 0);
            if points.is_null() {
                return None;
            }
            GEOSGeom_createLinearRing_r(self.0, points)
        })
    }

    fn polygon(&self, rings: &[&[Xy]]) -> Option<Geometry<'_>> {
        let made: Option<Vec<Geometry>> = rings.iter().map(|ring| self.ring(ring)).collect();
        let mut raw: Vec<Raw> = made?.into_iter().map(Geometry::given).collect();
        let (shell, holes) = raw.split_first_mut()?;
        let count = c_uint::try_from(holes.len()).ok()?;
        // SAFETY: rings of this handle, which the polygon takes over; so many holes are there
        self.owned(unsafe { GEOSGeom_createPolygon_r(self.0, *shell, holes.as_mut_ptr(), count) })
    }
}

impl Geometry<'_> {
    /// What GEOS takes over is no longer destroyed here.
    fn given(self) -> Raw {
        let raw = self.raw;
        std::mem::forget(self);
        raw
    }

    fn invalid(&self) -> Option<Invalid> {
        let (mut words, mut place) = (ptr::null_mut(), ptr::null_mut());
        // SAFETY: a geometry of this handle, and room for two pointers
        let valid = unsafe { GEOSisValidDetail_r(self.geos.0, self.raw, TOUCHING_ALLOWED, &mut words, &mut place) };
        let at = self.geos.owned(place).map_or([0.0; 2], |place| place.xy());
        let reason = self.geos.told(words);
        match valid {
            VALID => None,
            NOT_VALID => Some(Invalid { reason, at }),
            _ => Some(Invalid { reason: Reason::Other, at }),
        }
    }

    fn xy(&self) -> Xy {
        let mut xy = [0.0; 2];
        // SAFETY: a geometry of this handle, and room for a number each; it stays 0 where GEOS has none
        unsafe {
            GEOSGeomGetX_r(self.geos.0, self.raw, &mut xy[0]);
            GEOSGeomGetY_r(self.geos.0, self.raw, &mut xy[1]);
        }
        xy
    }
}

impl Geos {
    /// A reason in GEOS's words, which are given back to it.
    fn told(&self, words: *mut c_char) -> Reason {
        if words.is_null() {
            return Reason::Other;
        }
        // SAFETY: a text of GEOS that ends with 0, freed once behind its last use
        unsafe {
            let reason = Reason::of(&CStr::from_ptr(words).to_string_lossy());
            GEOSFree_r(self.0, words.cast());
            reason
        }
    }
}

#[cfg(test)]
mod tests {
    use super::*;

    const SQUARE: [Xy; 4] = [[0.0, 0.0], [10.0, 0.0], [10.0, 10.0], [0.0, 10.0]];

    fn reason(rings: &[&[Xy]]) -> Option<(Reason, Xy)> {
        Geos::new().invalid(rings).map(|invalid| (invalid.reason, invalid.at))
    }

    #[test]
    fn what_is_wrong_with_polygons() {
        assert_eq!(reason(&[&SQUARE]), None);
        assert_eq!(reason(&[&SQUARE, &[[2.0, 2.0], [2.0, 4.0], [4.0, 4.0]]]), None);
        assert_eq!(reason(&[&[[0.0, 0.0], [10.0, 10.0], [10.0, 0.0], [0.0, 10.0]]]), Some((Reason::Crossing, [5.0, 5.0])));
        let outside = [[12.0, 2.0], [12.0, 4.0], [14.0, 4.0]];
        assert_eq!(reason(&[&SQUARE, &outside]).map(|told| told.0), Some(Reason::HoleOutside));
        let around = [[-1.0, -1.0], [-1.0, 11.0], [11.0, 11.0], [11.0, -1.0]];
        assert_eq!(reason(&[&SQUARE, &around]).map(|told| told.0), Some(Reason::HoleOutside));
        let (hole, inner) = ([[1.0, 1.0], [1.0, 9.0], [9.0, 9.0], [9.0, 1.0]], [[2.0, 2.0], [2.0, 4.0], [4.0, 4.0]]);
        assert_eq!(reason(&[&SQUARE, &hole, &inner]).map(|told| told.0), Some(Reason::HoleInHole));
    }

    #[test]
    fn touching_is_not_crossing() {
        // two squares with a corner in common, walked as one ring: the inside falls apart, and nothing crosses
        let corner = [[0.0, 0.0], [5.0, 0.0], [5.0, 5.0], [10.0, 5.0], [10.0, 10.0], [5.0, 10.0], [5.0, 5.0], [0.0, 5.0]];
        assert_eq!(reason(&[&corner]).map(|told| told.0), Some(Reason::Disconnected));
        let inward = [[0.0, 0.0], [5.0, 0.0], [4.0, 3.0], [6.0, 3.0], [5.0, 0.0], [10.0, 0.0], [10.0, 10.0], [0.0, 10.0]];
        assert_eq!(reason(&[&inward]), None);
    }

    #[test]
    fn parts_of_one() {
        let geos = Geos::new();
        let square = |west: f64| [[west, 0.0], [west + 10.0, 0.0], [west + 10.0, 10.0], [west, 10.0]];
        let inner = [[2.0, 2.0], [4.0, 2.0], [4.0, 4.0]];
        let (apart, beside, over) = (square(20.0), square(10.0), square(5.0));
        let of = |other: &[Xy]| (geos.invalid_parts(&[vec![&SQUARE], vec![other]]).map(|invalid| invalid.reason), geos.overlap(&[&SQUARE], &[other]));
        assert_eq!(of(&apart), (None, false));
        assert_eq!(of(&beside), (Some(Reason::Crossing), false));
        assert_eq!(of(&over), (Some(Reason::Crossing), true));
        assert_eq!(of(&inner), (Some(Reason::Nested), true));
    }

    #[test]
    fn too_little_for_a_ring() {
        for ring in [&[[1.0, 1.0]][..], &[[1.0, 1.0], [2.0, 2.0]], &[[1.0, 1.0], [1.0, 1.0], [2.0, 2.0]]] {
            assert_eq!(reason(&[ring]).map(|told| told.0), Some(Reason::FewPoints), "{ring:?}");
        }
    }

    #[test]
    fn sides() {
        let geos = Geos::new();
        assert_eq!([[1.0, 2.0], [1.0, 1.0], [2.0, 1.0]].map(|place| geos.side([0.0, 0.0], [3.0, 3.0], place)), [1, 0, -1]);
    }
}
