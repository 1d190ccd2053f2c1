//! Which zone holds a fix, by a PLB border file: the proved library behind typed values.
//!
//! ```
//! use uskelzar::{Bundle, Map, Printer};
//!
//! let printer = Printer::new(Map::read("../examples/world-9.plb")?, Bundle::read("../examples/zones.tzdata")?);
//! let slip = printer.stamp(52.52, 13.40, 1_782_907_199)?;
//! assert_eq!(slip.to_string(), "Wed 2026-07-01 13:59:59 +02:00 CEST Europe/Berlin");
//! # Ok::<(), Box<dyn std::error::Error>>(())
//! ```
//!
//! [`Printer`] has the whole question of a slip: the line that is printed for a receiver's sentence, or for a fix and an instant, or why there is none.
//! An [`Atlas`] beside a map lets its lookups read a small part of it. [`raw`] has the functions as they are, over lent buffers, and needs no `std` (`default-features = false`); [`Map`] and [`TimeZone`] lend the buffers themselves.
//!
//! Of the library's two archives `libuskelzar.a` is always linked (feature `printer`), and `libuskelzar-office.a` with the feature `office`, which is there by default: `Builder`, which writes a file from yards, `Draft`, which holds yards that may still change, `salvage`, `write_border`, and all
//! that builds an index or an atlas or works one out again. A printer that takes what the office has made needs the first alone: `default-features = false, features = ["std", "printer"]`.

#![cfg_attr(not(feature = "std"), no_std)]
#![deny(unsafe_op_in_unsafe_fn, missing_docs)]

#[cfg(feature = "std")]
mod answer;
#[cfg(feature = "std")]
mod atlas;
#[cfg(all(feature = "std", feature = "office"))]
mod border;
#[cfg(all(feature = "std", feature = "office"))]
mod builder;
#[cfg(feature = "std")]
mod bundle;
#[cfg(all(feature = "std", feature = "office"))]
mod desk;
#[cfg(all(feature = "std", feature = "office"))]
mod draft;
#[cfg(feature = "std")]
mod entries;
#[cfg(feature = "std")]
mod entry;
mod hit;
#[cfg(feature = "std")]
mod index;
mod library;
#[cfg(feature = "std")]
mod local;
#[cfg(feature = "std")]
mod many;
#[cfg(feature = "std")]
mod map;
#[cfg(feature = "std")]
mod mapping;
#[cfg(feature = "std")]
mod printer;
pub mod raw;
#[cfg(feature = "std")]
mod reading;
mod refusal;
#[cfg(feature = "std")]
mod request;
#[cfg(all(feature = "std", feature = "office"))]
mod salvage;
#[cfg(feature = "std")]
mod survey;
#[cfg(feature = "std")]
mod words;

#[cfg(feature = "std")]
pub use answer::{zone_name, End, Error, Field, Header, Kind, Match, Simple, Table, Unknown, Zones};
#[cfg(feature = "std")]
pub use atlas::{Atlas, NotAtlas};
#[cfg(all(feature = "std", feature = "office"))]
pub use border::{write_border, Piece};
#[cfg(all(feature = "std", feature = "office"))]
pub use builder::{Builder, NotBuilt, Place};
#[cfg(feature = "std")]
pub use bundle::{Bundle, Bundled, LeftOut, NoEntry};
#[cfg(all(feature = "std", feature = "office"))]
pub use desk::Desk;
#[cfg(all(feature = "std", feature = "office"))]
pub use draft::{Draft, Totals};
#[cfg(feature = "std")]
pub use entry::Entry;
#[cfg(feature = "std")]
pub use index::Index;
#[cfg(feature = "std")]
pub use local::{CivilTime, LocalTime, TimeZone};
#[cfg(feature = "std")]
pub use many::Answers;
#[cfg(feature = "std")]
pub use map::{Map, Room};
#[cfg(feature = "std")]
pub use mapping::Mapping;
#[cfg(feature = "std")]
pub use printer::{Line, Printer, Stamped};
#[cfg(feature = "std")]
pub use reading::Unread;
pub use refusal::{Cause, NotStamped, Number, Refusal, Stop};
#[cfg(feature = "std")]
pub use request::Request;
#[cfg(all(feature = "std", feature = "office"))]
pub use salvage::{salvage, Dropped, Reason, Salvaged};
#[cfg(feature = "std")]
pub use survey::Sizes;

/// The release of this crate, which is that of the library that it goes with.
pub const RELEASE: &str = env!("CARGO_PKG_VERSION");
