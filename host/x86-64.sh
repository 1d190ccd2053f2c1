# Sourced by host/run, ./depot and compare/: how x86-64 programs are built and run on this machine.
# Needs $root, the repository, and $kit, a folder that tools/kit has prepared.
# shellcheck shell=sh disable=SC2034,SC2154
# shellcheck source=programs.sh
. "$root/programs.sh"
target=x86_64-unknown-linux-gnu
built=$root/target/host/$target

stop() { die "$@"; }
need() { command -v "$1" >/dev/null || stop "$1 is missing: $2 (tools/kit host installs what is Debian's)"; }

need cargo "Debian's cargo, or Rust's own"
if [ "$(uname -m)" = x86_64 ]; then
    cc=${CC:-gcc} runner=
    need "$cc" "Debian's gcc"
else
    geos=$kit/geos-root/usr/lib/x86_64-linux-gnu
    cc=x86_64-linux-gnu-gcc runner="qemu-x86_64 -L /usr/x86_64-linux-gnu -E LD_LIBRARY_PATH=$geos"
    need "$cc" "Debian's gcc-x86-64-linux-gnu and libc6-dev-amd64-cross"
    need qemu-x86_64 "Debian's qemu-user"
    RUSTC=${RUSTC:-$kit/rustc-x86}
    [ -x "$RUSTC" ] || stop "no Rust for x86-64 at $RUSTC: tools/kit host fetches it (or set RUSTC, or BENCH_KIT to a folder that it has prepared)"
    export RUSTC CARGO_TARGET_X86_64_UNKNOWN_LINUX_GNU_LINKER="$cc" CARGO_TARGET_X86_64_UNKNOWN_LINUX_GNU_RUNNER="$runner"
    # depot links GEOS, which links the C++ library
    export CARGO_TARGET_X86_64_UNKNOWN_LINUX_GNU_RUSTFLAGS="-L native=$geos -C link-arg=-Wl,-rpath-link,$geos"
fi

# Proves and writes libuskelzar.a, the printer's functions, and libuskelzar-office.a, the others, unless USKELZAR_LIB names a folder that has them.
build_archive() {
    if [ -z "${USKELZAR_LIB-}" ]; then
        command -v rt >/dev/null || stop "rt is missing: the Rattle kit, or an archive's folder in USKELZAR_LIB"
        prove_archive
    fi
    archive=${USKELZAR_LIB:-$root/target/staticlib}/libuskelzar.a office=${USKELZAR_LIB:-$root/target/staticlib}/libuskelzar-office.a
    for each in "$archive" "$office"; do [ -f "$each" ] || stop "no archive $each"; done
}

# build_stamp FILE: the proved program `stamp` as it is installed, with its exit status.
build_stamp() {
    prove stamp_host
    cp "$root/target/bin/stamp_host" "$1"
}

# What counting takes besides.
need_count() {
    need qemu-x86_64 "Debian's qemu-user"
    [ -f "$kit/count/insn.so" ] || stop "no $kit/count/insn.so: tools/kit bench builds it (--kit FOLDER: in another folder)"
}

# make_map_of T1|T0|C1|C0 FILE CITIES: time zones or countries of the world, borders of version 1 or 0, precision 21, with a line for each city: latitude, longitude, zone.
make_map_of() {
    [ ! -s "$2" ] || [ ! -s "$3" ] || return 0
    [ -d "$kit/root" ] || stop "no map data in $kit/root: tools/kit host fetches it (--kit FOLDER: into another folder)"
    printf 'making the map %s\n' "${2##*/}"
    python3 "$root/tools/make-map" --data "$kit/root" --type "${1%?}" --version "${1#?}" --precision 21 -o "$2" --points "$3" >"${2%.plb}.txt"
}

# Needs $work, a folder. The time zones of the world.
make_map() { make_map_of T1 "$work/world-21.plb" "$work/cities"; }

# Rust's crates come from Debian's packages.
crates=/usr/share/cargo/registry
need_crate() { ls -d "$crates/$1"-* >/dev/null 2>&1 || stop "the crate $1 is missing: Debian's $2 (tools/kit installs it)"; }
need_crate memmap2 librust-memmap2-dev

# what host/depot takes besides
need_depot_crates() {
    for each in arbitrary base64 chrono clap csv indicatif png rayon sha2 strsim tera ttf-parser; do
        need_crate "$each" "librust-$each-dev"
    done
    need_crate ab_glyph_rasterizer librust-ab-glyph-rasterizer-dev
    need_crate clap_derive librust-clap-derive-dev
    need_crate derive_arbitrary librust-derive-arbitrary-dev
    need_crate serde_json librust-serde-json-dev
    if [ -n "$runner" ]; then
        [ -e "$geos/libgeos_c.so" ] || stop "no GEOS for x86-64 in $geos: tools/kit host fetches it"
    else
        [ -e /usr/include/geos_c.h ] || stop "GEOS is missing: Debian's libgeos-dev (tools/kit installs it)"
    fi
}

# cargo_plain FOLDER COMMAND WORDS..: cargo on the crate in a folder, with Debian's crates; it says what it compiles where $quiet is empty
quiet=--quiet
cargo_plain() {
    folder=$1 command=$2
    shift 2
    cargo "$command" ${quiet:+"$quiet"} --offline --config 'source.crates-io.replace-with="debian"' --config "source.debian.directory=\"$crates\"" \
        --manifest-path "$root/$folder/Cargo.toml" "$@"
}

# cargo_in FOLDER COMMAND WORDS..: the same, for x86-64
cargo_in() {
    folder=$1 command=$2
    shift 2
    cargo_plain "$folder" "$command" --target-dir "$root/target/host" --target "$target" "$@"
}

# cargo_host COMMAND WORDS..: cargo on host/, for x86-64
cargo_host() { cargo_in host "$@"; }

# cargo_here FOLDER COMMAND WORDS..: cargo for this machine, with the tools that come with it. clippy and rustdoc build no program, and know no compiler but their own.
cargo_here() {
    folder=$1 command=$2
    shift 2
    (unset RUSTC; USKELZAR_UNLINKED=1; export USKELZAR_UNLINKED; cargo_plain "$folder" "$command" --target-dir "$root/target/host/here" "$@")
}
