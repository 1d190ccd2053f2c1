//! zone-detect-rs as it was published.

use bench::{Question, Task};
use std::hint::black_box;
use zone_detect::{Database, Location};
use zone_detect_plain as plain;

/// Both crates have these types, each its own.
macro_rules! fold_matches {
    ($sum:expr, $names:expr, $matches:expr) => {{
        $sum.number($matches.len() as u64);
        for found in $matches {
            $sum.number(u64::from(found.zone.polygon_id));
            $sum.number(u64::from(found.zone.meta_id));
            $sum.number(found.kind as u64 + 1);
        }
        for found in $matches {
            for (tag, name) in $names.iter().enumerate() {
                $sum.number(tag as u64);
                $sum.bytes(found.zone.fields[name].as_bytes());
            }
        }
    }};
}

fn with_safezone(task: &Task) {
    let db = Database::open(&task.map).expect("map");
    task.run(&[], &[], |lat, lon, sum| {
        let found = black_box(db.lookup(Location::new(lat, lon)));
        if let Some(sum) = sum {
            fold_matches!(sum, db.field_names, &found.matches);
            sum.number(u64::from(found.safezone.to_bits()));
        }
    });
}

fn without_safezone(task: &Task) {
    let db = plain::Database::open(&task.map).expect("map");
    task.run(db.bytes(), &[], |lat, lon, sum| {
        let matches = black_box(db.lookup_plain(plain::Location::new(lat, lon)));
        if let Some(sum) = sum {
            fold_matches!(sum, db.field_names, &matches);
        }
    });
}

fn simple(task: &Task) {
    let db = Database::open(&task.map).expect("map");
    task.run(&[], &[], |lat, lon, sum| {
        let description = black_box(db.simple_lookup(Location::new(lat, lon)));
        if let Some(sum) = sum {
            sum.number(u64::from(description.is_some()));
            sum.bytes(description.unwrap_or_default().as_bytes());
        }
    });
}

fn main() {
    let task = Task::from_args();
    match task.question {
        Question::WithSafezone => with_safezone(&task),
        Question::WithoutSafezone => without_safezone(&task),
        Question::Simple => simple(&task),
        Question::Build | Question::Check => panic!("the Rust has no index"),
    }
}
