//! The border writer at pages that may not be touched, and borders read back.
#![cfg(feature = "office")]

mod common;

use common::fence::{Edge, Fence, EDGES};
use common::files::{file, header, sections, Sections, Zone, LAT_STEP, LON_STEP};
use uskelzar::raw::{self, Reply};
use uskelzar::{write_border, Map, Number, Piece, Refusal};

const MOST: usize = 64;

/// Document 01's border, and its bytes in both versions.
const SQUARE: [(i32, i32); 4] = [(2, 2), (10, 2), (10, 10), (2, 10)];
const PLAIN: [u8; 11] = [
    0x04, 0x04, 0x04, 0x10, 0x00, 0x00, 0x10, 0x11, 0x00, 0x02, 0x02,
];
const PACKED: [u8; 9] = [0x30, 0x80, 0x02, 0x80, 0x04, 0x81, 0x02, 0x00, 0x00];

/// Borders whose second and third moves are those of SQUARE, read forward and backward.
const AHEAD: [(i32, i32); 4] = [(20, 20), (28, 20), (28, 28), (20, 28)];
const BACK: [(i32, i32); 4] = [(20, 20), (20, 12), (12, 12), (12, 20)];
const BORROWED: Piece = Piece {
    start: 1,
    bytes: 4,
    backward: false,
    first: 1,
    count: 2,
};

struct Asked<'a> {
    version: u8,
    points: &'a [(i32, i32)],
    pieces: &'a [u32],
    earlier: &'a [u8],
}

/// Five fences: two lists of coordinates, pieces, earlier data, and the output.
struct Desk([Fence; 5]);

impl Desk {
    fn new() -> Desk {
        Desk([(); 5].map(|()| Fence::new(MOST)))
    }

    /// The reply and the whole output, with every input and the output at an edge.
    fn write(
        &mut self,
        asked: &Asked,
        room: usize,
        edge: Edge,
    ) -> (Result<Reply, Refusal>, Vec<u8>) {
        let (lats, lons): (Vec<i32>, Vec<i32>) = asked.points.iter().copied().unzip();
        let [a, b, c, d, e] = &mut self.0;
        let (lats, lons) = (a.hold(&lats, edge), b.hold(&lons, edge));
        let (pieces, earlier) = (c.hold(asked.pieces, edge), d.hold(asked.earlier, edge));
        let out = e.lend::<u8>(room, edge);
        let reply = raw::write_border(asked.version, lats, lons, pieces, earlier, out);
        let out = out.to_vec();
        e.assert_kept(room, edge);
        (reply, out)
    }
}

/// Every room for the output: 24 exactly where the border does not fit.
fn try_rooms(asked: &Asked, border: &[u8]) {
    let mut desk = Desk::new();
    for edge in EDGES {
        for room in 0..=MOST {
            let (reply, out) = desk.write(asked, room, edge);
            let mut want = border.to_vec();
            if room < border.len() {
                assert_eq!(reply.unwrap_err().number, Number::OutputRoom);
                want.clear();
            } else {
                assert_eq!(reply, Ok([border.len() as u64, 0, 0, 0, 0]));
            }
            want.resize(room, 0);
            assert_eq!(out, want);
        }
    }
}

#[test]
fn the_worked_border_in_every_room() {
    try_rooms(
        &Asked {
            version: 0,
            points: &SQUARE,
            pieces: &[],
            earlier: &[],
        },
        &PLAIN,
    );
    try_rooms(
        &Asked {
            version: 1,
            points: &SQUARE,
            pieces: &[],
            earlier: &[],
        },
        &PACKED,
    );
}

#[test]
fn borrowed_moves_in_every_room() {
    // one piece, with every number of words left over behind it
    let words = [1, 4, 0, 1, 2, 7, 7, 7, 7];
    // (20,20); the piece: run start 1, length 4; (-8,0); the end
    let ahead = [0xC0, 0x19, 0x00, 0x01, 0x01, 0x08, 0x81, 0x02, 0x00, 0x00];
    // (20,20); the piece: run end 5, length -4; (0,8); the end
    let back = [0xC0, 0x19, 0x00, 0x01, 0x05, 0x09, 0x80, 0x04, 0x00, 0x00];
    for over in 5..=9 {
        let pieces = &words[..over];
        try_rooms(
            &Asked {
                version: 1,
                points: &AHEAD,
                pieces,
                earlier: &PACKED,
            },
            &ahead,
        );
        let mut backward = pieces.to_vec();
        backward[2] = 3;
        try_rooms(
            &Asked {
                version: 1,
                points: &BACK,
                pieces: &backward,
                earlier: &PACKED,
            },
            &back,
        );
    }
}

#[test]
fn every_list_length_and_refusal() {
    let many: Vec<(i32, i32)> = (0..MOST as i32).map(|i| (i + 1, -i)).collect();
    let mut desk = Desk::new();
    let mut refused = |version, points: &[(i32, i32)], pieces: &[u32], earlier: &[u8]| {
        let mut told = vec![];
        for edge in EDGES {
            let (reply, out) = desk.write(
                &Asked {
                    version,
                    points,
                    pieces,
                    earlier,
                },
                MOST,
                edge,
            );
            assert!(reply.is_ok() || out.iter().all(|byte| *byte == 0));
            told.push(
                reply.map_or_else(|refusal| (refusal.number as u8, refusal.detail), |_| (0, 0)),
            );
        }
        assert_eq!(told[0], told[1]);
        told[0]
    };
    assert_eq!(refused(2, &SQUARE, &[], &[]), (5, 2));
    assert_eq!(refused(1, &[], &[], &[]), (19, 0));
    assert_eq!(refused(1, &[(1, 1), (1_073_741_824, 1)], &[], &[]), (20, 0));
    assert_eq!(refused(1, &[(1, 1), (2, 2), (2, 2)], &[], &[]), (21, 0));
    assert_eq!(refused(1, &[(0, 0), (2, 2)], &[], &[]), (22, 0));
    assert_eq!(refused(0, &AHEAD, &[1, 4, 0, 1, 2], &PACKED), (23, 0));
    assert_eq!(
        refused(1, &AHEAD, &[1, 4, 0, 1, 2, 1, 4, 0, 1, 2], &PACKED),
        (23, 1)
    );
    assert_eq!(refused(1, &AHEAD, &[0; 85], &PACKED), (23, 16));
    // every move takes one byte
    for length in 1..=MOST {
        let want = if length + 2 <= MOST { (0, 0) } else { (24, 0) };
        assert_eq!(
            refused(1, &many[..length], &[], &[]),
            want,
            "{length} points"
        );
    }
}

#[test]
fn the_two_lists_are_of_one_length_and_not_too_long() {
    let lats: Vec<i32> = (1..=65_536).collect();
    let number = |lats: &[i32], lons: &[i32]| {
        let mut out = vec![0xAA; 10 * lats.len() + 64];
        let reply = raw::write_border(1, lats, lons, &[], &[], &mut out);
        assert!(reply.is_ok() || out.iter().all(|byte| *byte == 0));
        reply.err().map(|refusal| refusal.number)
    };
    assert_eq!(number(&lats[..3], &lats[..2]), Some(Number::BorderPoints));
    assert_eq!(number(&lats[..2], &lats[..3]), Some(Number::BorderPoints));
    assert_eq!(number(&lats, &lats), Some(Number::BorderPoints));
    assert_eq!(number(&lats[1..], &lats[1..]), None);
}

/// Where each fix of a grid about the borders is, by a file's own answer.
fn seen(file: Vec<u8>) -> Vec<String> {
    let map = Map::open(file).unwrap();
    let grid = (0..40).flat_map(|lat| (0..40).map(move |lon| (lat, lon)));
    grid.map(|(lat, lon)| {
        let fix = ((lat as f32 + 0.1) * LAT_STEP, (lon as f32 + 0.1) * LON_STEP);
        let zones = map.lookup(fix.0, fix.1).unwrap();
        let kinds: Vec<_> = zones
            .matches
            .iter()
            .map(|zone| (zone.kind, zone.fields.clone()))
            .collect();
        format!("{kinds:?} {:?} {}", zones.end, zones.safezone)
    })
    .collect()
}

/// A version 1 file of two zones, SQUARE and a border that borrows from it.
fn borrowing(zones: &[Zone; 2], second: &[(i32, i32)], piece: Piece) -> Vec<u8> {
    let Sections {
        table, metadata, ..
    } = sections(1, zones);
    let border = write_border(1, second, &[piece], &PACKED).unwrap();
    let data = [PACKED.to_vec(), border].concat();
    let mut file = header(
        b'C',
        1,
        &["Name"],
        "",
        [table.len(), metadata.len(), data.len()],
    );
    file.extend([table, metadata, data].concat());
    file
}

#[test]
fn a_border_means_the_same_however_it_is_written() {
    for (second, backward) in [(AHEAD, false), (BACK, true)] {
        let zones = [
            Zone {
                fields: &["A"],
                borders: &[&SQUARE],
            },
            Zone {
                fields: &["B"],
                borders: &[&second],
            },
        ];
        let plain = seen(file(b'C', 0, &["Name"], "", &zones));
        assert!(plain
            .iter()
            .any(|fix| fix.contains("InZone") && fix.contains("\"B\"")));
        assert!(plain.iter().any(|fix| fix.contains("OnBorderVertex")));
        assert!(plain.iter().any(|fix| fix.contains("OnBorderSegment")));
        assert_eq!(plain, seen(file(b'C', 1, &["Name"], "", &zones)));
        assert_eq!(
            plain,
            seen(borrowing(
                &zones,
                &second,
                Piece {
                    backward,
                    ..BORROWED
                }
            ))
        );
    }
}
