# Sourced by the scripts here: the harness that holds the library against the Rust, the programs that answer, and the words that all take. Needs $root, the repository.
# shellcheck shell=sh disable=SC2034,SC2154
# shellcheck source=programs.sh
. "$root/programs.sh"
name=compare/${0##*/}

usage() { sed -n '2,/^set/s/^# \{0,1\}//p' "$0" >&2; exit 2; }

# take_rust FOLDER: the Rust that compare/rust takes
take_rust() {
    ZONE_DETECT_RS=$(cd "$1" && pwd -P) || die "no folder $1"
    export ZONE_DETECT_RS
}

# Rust's crates come from Debian's packages.
need_crate() { ls -d "/usr/share/cargo/registry/$1"-* >/dev/null 2>&1 || die "the crate $1 is missing: Debian's $2 (tools/kit compare installs it)"; }

# build_harness PROGRAM: of this folder, for this machine
build_harness() {
    (unset RUSTC; cargo --config "$root/target/oracle/.cargo/config.toml" build --quiet --release --offline --bin "$1" --manifest-path "$root/compare/Cargo.toml" --target-dir "$root/target/compare") ||
        die "the harness was not built"
}

# The recorded sets of records, in target/cases.
unpack_cases() {
    mkdir -p "$root/target/cases"
    for packed in "$root"/cases/*.bin.gz; do
        plain=$root/target/cases/$(basename "$packed" .gz)
        gzip -dc "$packed" >"$plain.new" && mv "$plain.new" "$plain"
    done
}

# Where the machine is not x86-64: RUNNER, or Debian's emulator.
runner_of() {
    if [ -n "${RUNNER-}" ] || [ "$(uname -m)" = x86_64 ]; then
        printf '%s' "${RUNNER-}"
    else
        command -v qemu-x86_64 >/dev/null || die "qemu-x86_64 is missing: Debian's qemu-user (tools/kit compare installs it)"
        printf 'qemu-x86_64 -L /usr/x86_64-linux-gnu'
    fi
}

# asked PROGRAM OTHER: the command that runs the proved program, or the other where one is named
asked() {
    runner=$(runner_of)
    printf '%s' "${runner:+$runner }${2:-$root/target/bin/$1}"
}
