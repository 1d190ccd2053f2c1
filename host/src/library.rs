//! The library's thirty-three functions, each declared once, in one line of the lists below: the printer's, and with the feature `office` the office's. It takes nothing of this crate, so that bench/ takes
//! this file too.

/// What a type of a list or of a number is in C.
macro_rules! in_c {
    (bool) => { "bool" };
    (f32) => { "float" };
    (i32) => { "int32_t" };
    (i64) => { "int64_t" };
    (u8) => { "uint8_t" };
    (u32) => { "uint32_t" };
    (u64) => { "uint64_t" };
    (usize) => { "size_t" };
}

/// One function: it sorts the parameters, from the first to the last, into what C takes, what Rust takes, what is handed on, and the words of the prototype in C. A list is a
/// pointer and a length in C, and an array a pointer.
macro_rules! function {
    ($name:ident {$($c:tt)*} {$($rust:tt)*} {$($given:tt)*} {$comma:literal, $($said:tt)*}) => {
        #[allow(clippy::too_many_arguments)]
        #[inline]
        pub fn $name($($rust)*) -> u8 {
            extern "C" {
                fn $name($($c)*) -> u8;
            }
            // SAFETY: each pointer comes from a list with its length or from an array of its own, and the borrows keep what is lent apart.
            unsafe { $name($($given)*) }
        }
        pub mod $name {
            pub const PROTOTYPE: &str = concat!("uint8_t ", stringify!($name), "(", $($said)* ")");
        }
    };
    ($name:ident {$($c:tt)*} {$($rust:tt)*} {$($given:tt)*} {$($said:tt)*} $p:ident: &[$t:ident], $($rest:tt)*) => {
        function!($name {$($c)* $p: *const $t, _: usize,} {$($rust)* $p: &[$t],} {$($given)* $p.as_ptr(), $p.len(),}
            {$($said)* ", ", "const ", in_c!($t), " *", stringify!($p), ", size_t ", stringify!($p), "_length",} $($rest)*);
    };
    ($name:ident {$($c:tt)*} {$($rust:tt)*} {$($given:tt)*} {$($said:tt)*} $p:ident: &mut [$t:ident], $($rest:tt)*) => {
        function!($name {$($c)* $p: *mut $t, _: usize,} {$($rust)* $p: &mut [$t],} {$($given)* $p.as_mut_ptr(), $p.len(),}
            {$($said)* ", ", in_c!($t), " *", stringify!($p), ", size_t ", stringify!($p), "_length",} $($rest)*);
    };
    ($name:ident {$($c:tt)*} {$($rust:tt)*} {$($given:tt)*} {$($said:tt)*} $p:ident: &[$t:ident; $n:literal], $($rest:tt)*) => {
        function!($name {$($c)* $p: *const [$t; $n],} {$($rust)* $p: &[$t; $n],} {$($given)* $p,}
            {$($said)* ", ", "const ", in_c!($t), " ", stringify!($p), "[", $n, "]",} $($rest)*);
    };
    ($name:ident {$($c:tt)*} {$($rust:tt)*} {$($given:tt)*} {$($said:tt)*} $p:ident: &mut [$t:ident; $n:literal], $($rest:tt)*) => {
        function!($name {$($c)* $p: *mut [$t; $n],} {$($rust)* $p: &mut [$t; $n],} {$($given)* $p,}
            {$($said)* ", ", in_c!($t), " ", stringify!($p), "[", $n, "]",} $($rest)*);
    };
    ($name:ident {$($c:tt)*} {$($rust:tt)*} {$($given:tt)*} {$($said:tt)*} $p:ident: $t:ident, $($rest:tt)*) => {
        function!($name {$($c)* $p: $t,} {$($rust)* $p: $t,} {$($given)* $p,}
            {$($said)* ", ", in_c!($t), " ", stringify!($p),} $($rest)*);
    };
}

/// The functions of one archive, and what each of them is taken to be in C.
macro_rules! functions {
    ($(#[$about:meta])* $part:ident: $(fn $name:ident($($parameters:tt)*);)*) => {
        $(function!($name {} {} {} {} $($parameters)*,);)*

        $(#[$about])*
        pub const $part: &[&str] = &[$($name::PROTOTYPE,)*];
    };
}

functions! {
    /// The printer's functions in C, in the order of include/uskelzar.h; tests/header.rs holds these against it.
    PRINTER_PROTOTYPES:
    fn uskelzar_open(file: &[u8], text: &mut [u8], reply: &mut [u64; 5]);
    fn uskelzar_lookup(file: &[u8], lat: f32, lon: f32, asked: bool, hits: &mut [u32], text: &mut [u8], reply: &mut [u64; 5]);
    fn uskelzar_open_strict(file: &[u8], text: &mut [u8], reply: &mut [u64; 5]);
    fn uskelzar_lookup_strict(file: &[u8], lat: f32, lon: f32, asked: bool, hits: &mut [u32], text: &mut [u8], reply: &mut [u64; 5]);
    fn uskelzar_lookup_many(file: &[u8], lats: &[f32], lons: &[f32], asked: bool, hits: &mut [u32], text: &mut [u8], answers: &mut [u32], reply: &mut [u64; 5]);
    fn uskelzar_simple_lookup(file: &[u8], lat: f32, lon: f32, hits: &mut [u32], text: &mut [u8], reply: &mut [u64; 5]);
    fn uskelzar_index_tied(file: &[u8], index: &[u32], reply: &mut [u64; 5]);
    fn uskelzar_lookup_through(file: &[u8], index: &[u32], lat: f32, lon: f32, asked: bool, hits: &mut [u32], text: &mut [u8], reply: &mut [u64; 5]);
    fn uskelzar_lookup_indexed(file: &[u8], index: &[u32], lat: f32, lon: f32, asked: bool, hits: &mut [u32], text: &mut [u8], reply: &mut [u64; 5]);
    fn uskelzar_lookup_atlas(file: &[u8], atlas: &[u32], lat: f32, lon: f32, asked: bool, hits: &mut [u32], text: &mut [u8], reply: &mut [u64; 5]);
    fn uskelzar_simple_atlas(file: &[u8], atlas: &[u32], lat: f32, lon: f32, hits: &mut [u32], text: &mut [u8], reply: &mut [u64; 5]);
    fn uskelzar_many_atlas(file: &[u8], atlas: &[u32], lats: &[f32], lons: &[f32], asked: bool, hits: &mut [u32], text: &mut [u8], answers: &mut [u32], reply: &mut [u64; 5]);
    fn uskelzar_local_time(file: &[u8], instant: i64, text: &mut [u8], reply: &mut [u64; 5]);
    fn uskelzar_civil_time(instant: i64, offset: i32, reply: &mut [u64; 7]);
    fn uskelzar_request(request: &[u8], reply: &mut [u64; 5]);
    fn uskelzar_bundle_find(bundle: &[u8], name: &[u8], reply: &mut [u64; 5]);
    fn uskelzar_slip(request: &[u8], map: &[u8], zones: &[u8], hits: &mut [u32], text: &mut [u8], out: &mut [u8], reply: &mut [u64; 5]);
    fn uskelzar_slip_at(lat: f32, lon: f32, instant: i64, map: &[u8], zones: &[u8], hits: &mut [u32], text: &mut [u8], out: &mut [u8], reply: &mut [u64; 5]);
    fn uskelzar_slip_atlas(request: &[u8], map: &[u8], atlas: &[u32], zones: &[u8], hits: &mut [u32], text: &mut [u8], out: &mut [u8], reply: &mut [u64; 5]);
    fn uskelzar_slip_at_atlas(lat: f32, lon: f32, instant: i64, map: &[u8], atlas: &[u32], zones: &[u8], hits: &mut [u32], text: &mut [u8], out: &mut [u8], reply: &mut [u64; 5]);
}

#[cfg(feature = "office")]
mod office {
    functions! {
        /// The office's.
        OFFICE_PROTOTYPES:
        fn uskelzar_build_index(file: &[u8], index: &mut [u32], reply: &mut [u64; 5]);
        fn uskelzar_is_index(file: &[u8], index: &[u32], reply: &mut [u64; 5]);
        fn uskelzar_build_atlas(file: &[u8], atlas: &mut [u32], reply: &mut [u64; 5]);
        fn uskelzar_is_atlas(file: &[u8], atlas: &[u32], reply: &mut [u64; 5]);
        fn uskelzar_write_border(version: u8, lats: &[i32], lons: &[i32], pieces: &[u32], earlier: &[u8], out: &mut [u8], reply: &mut [u64; 5]);
        fn uskelzar_build(
            r#type: u8, version: u8, precision: u8, names: u32, yards: &[u32], lats: &[i32], lons: &[i32], pieces: &[u32], lengths: &[u32], texts: &[u8],
            starts: &mut [u32], keys: &mut [u64], spare: &mut [u64], kept: &mut [u32], held: &mut [u8], words: &mut [u32], places: &mut [u32],
            boxes: &mut [i32], bytes: &mut [u8], out: &mut [u8], reply: &mut [u64; 5]
        );
        fn uskelzar_begin(
            state: &mut [u64; 14], r#type: u8, version: u8, precision: u8, names: u32, room: usize, sizes: &[u32], strings: &[u8],
            boxes: &mut [i32], borders: &mut [u32], lengths: &mut [u32], texts: &mut [u8], bytes: &mut [u8], reply: &mut [u64; 5]
        );
        fn uskelzar_add(
            state: &mut [u64; 14], lats: &[i32], lons: &[i32], pieces: &[u32], sizes: &[u32], values: &[u8],
            boxes: &mut [i32], borders: &mut [u32], lengths: &mut [u32], texts: &mut [u8], bytes: &mut [u8],
            marks: &mut [u32], chains: &mut [u32], groups: &mut [u32], begins: &mut [u32],
            starts: &mut [u32], keys: &mut [u64], spare: &mut [u64], kept: &mut [u32], held: &mut [u8], words: &mut [u32], places: &mut [u32],
            out: &mut [u8], reply: &mut [u64; 5]
        );
        fn uskelzar_drop_last(
            state: &mut [u64; 14], boxes: &mut [i32], borders: &mut [u32], lengths: &mut [u32], texts: &mut [u8], bytes: &mut [u8],
            starts: &mut [u32], keys: &mut [u64], spare: &mut [u64], kept: &mut [u32], held: &mut [u8], words: &mut [u32], places: &mut [u32],
            reply: &mut [u64; 5]
        );
        fn uskelzar_replace(
            state: &mut [u64; 14], yard: u32, field: u32, text: &[u8],
            boxes: &mut [i32], borders: &mut [u32], lengths: &mut [u32], texts: &mut [u8], bytes: &mut [u8],
            starts: &mut [u32], keys: &mut [u64], spare: &mut [u64], kept: &mut [u32], held: &mut [u8], words: &mut [u32], places: &mut [u32],
            out: &mut [u8], reply: &mut [u64; 5]
        );
        fn uskelzar_clear(
            state: &mut [u64; 14], boxes: &mut [i32], borders: &mut [u32], lengths: &mut [u32], texts: &mut [u8], bytes: &mut [u8], reply: &mut [u64; 5]
        );
        fn uskelzar_finish(
            state: &[u64; 14], boxes: &[i32], borders: &[u32], lengths: &[u32], texts: &[u8], bytes: &[u8],
            starts: &mut [u32], keys: &mut [u64], spare: &mut [u64], kept: &mut [u32], held: &mut [u8], words: &mut [u32], places: &mut [u32],
            out: &mut [u8], reply: &mut [u64; 5]
        );
        fn uskelzar_salvage(file: &[u8], dropped: &mut [u32], out: &mut [u8], reply: &mut [u64; 5]);
    }
}
#[cfg(feature = "office")]
pub use office::*;
