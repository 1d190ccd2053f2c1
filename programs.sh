# Sourced by every script that proves something: how programs and archives are proved, built and run, each once and one script at a time. Needs $root, the repository.
# shellcheck shell=sh disable=SC2034,SC2154
LC_ALL=C
export LC_ALL
name=${0##*/}

say() { printf '%s: %s\n' "$name" "$*" >&2; }
die() { say "$@"; exit 2; }

# ---- proving

# lowest_first: each crate of crates.txt behind those that it is built from; the kit's own are among them.
lowest_first() { sed 's/#.*//; s/ staticlib *:/:/; s/:/ /' "$root/crates.txt" | awk 'NF { print $1, $1; for (i = 2; i <= NF; i++) print $i, $1 }' | tsort; }

# crates_of NAME..: these crates and all that they are built from, lowest first; the kit's own are not among them.
crates_of() {
    wanted=" $* " before=''
    until [ "$wanted" = "$before" ]; do
        before=$wanted
        while read -r crate needs; do
            case $wanted in *" ${crate%:} "*) ;; *) continue ;; esac
            for part in $needs; do
                case $wanted in *" $part "*) ;; *) wanted="$wanted$part " ;; esac
            done
        done <"$root/crates.txt"
    done
    for crate in $(lowest_first); do
        case $wanted in *" $crate "*) [ ! -d "$root/crates/$crate" ] || printf '%s\n' "$crate" ;; esac
    done
}

# sum_of NAME: one number for the kit and all sources that this crate is built from.
sum_of() {
    {
        rt version
        cd "$root" || exit
        for each in $(crates_of "$1"); do
            grep "^${each}[ :]" crates.txt
            for part in src specs proofs; do [ ! -d "crates/$each/$part" ] || set -- "$@" "crates/$each/$part"; done
        done
        shift
        find "$@" -type f -exec sha256sum {} + | sort -k 2
    } | sha256sum | cut -d ' ' -f 1
}

# is_built NAME FILE: whether the file was built from the sources that stand here; beside the sources' number its own is kept.
is_built() {
    [ -f "$root/$2" ] && [ -f "$root/target/sums/$1" ] || return 1
    [ "$(cat "$root/target/sums/$1")" = "$(sum_of "$1") $(sha256sum <"$root/$2" | cut -d ' ' -f 1)" ]
}

# keep_sum NAME FILE SUM: that the file was built from sources with this sum.
keep_sum() {
    mkdir -p "$root/target/sums"
    printf '%s %s\n' "$3" "$(sha256sum <"$root/$2" | cut -d ' ' -f 1)" >"$root/target/sums/$1"
}

# One script at a time proves; the others wait, and then find all done. Held until the (sub)shell ends.
lock() {
    mkdir -p "$root/target"
    if command -v flock >/dev/null; then
        exec 9>>"$root/target/prove.lock"
        flock -n 9 || { say "another run is proving here: waiting for it"; flock 9; }
        return
    fi
    locked=$root/target/prove.locked waits=''
    until mkdir "$locked" 2>/dev/null; do
        [ -n "$waits" ] || say "another run is proving here: waiting for it ($locked)"
        waits=1
        # left by a run that was ended from outside
        if [ -s "$locked/pid" ] && ! kill -0 "$(cat "$locked/pid")" 2>/dev/null; then rm -rf "$locked"; else sleep 1; fi
    done
    trap 'rm -rf "$locked"' EXIT
    trap 'exit 2' HUP INT TERM
    echo $$ >"$locked/pid"
}

# costs_of CRATE..: "CRATE:SECONDS" for each, by the table of docs/CHECKS.md; 30 for one that it does not have.
costs_of() {
    for crate; do
        seconds=$(sed -n "s/^| $crate |[^|]*|[^|]*|[^|]*| \([0-9,]*\) |.*/\1/p" "$root/docs/CHECKS.md" | head -n 1 | tr -d ,)
        printf '%s:%s ' "$crate" "${seconds:-30}"
    done
}

# minutes SECONDS: of work
minutes() { echo $((($1 + 59) / 60)); }

# made_by CRATE: what rt leaves of it where it is proved, below its folder: a program, a static library's archive, or a library for the crates above it
made_by() {
    if [ -f "$root/crates/$1/src/main.rt" ]; then
        printf 'out/%s' "$1"
    elif grep -q "^$1 staticlib *:" "$root/crates.txt"; then
        printf 'out/lib%s.a' "$1"
    else
        printf 'out/rlib/stamp'
    fi
}

# prove_crate NAME: proved and built. rt builds a program where it runs it, on the input that stands beside it; what it prints and how it ends is asked elsewhere.
prove_crate() (
    cd "$root/crates/$1" || exit
    [ -f src/main.rt ] || { rt lib 2>&1; exit; }
    said=$(rt run 2>&1 >/dev/null </dev/null) || :
    printf '%s\n' "$said"
    printf '%s\n' "$said" | grep -q "^rt: running out/$1\b"
)

# prove_by NAME..: these crates and all that they are built from, proved and built, lowest first, with a line for each crate that was not before. All that rt says is in target/prove.log.
prove_by() {
    log=$root/target/prove.log
    names=$*
    # shellcheck disable=SC2046
    set -- $(costs_of $(crates_of "$@"))
    all=$# at=0 left=0
    for each; do left=$((left + ${each#*:})); done
    say "proving and building, once: $all crates, about $(minutes "$left") min; what is proved already is not proved again"
    : >"$log"
    for each; do
        crate=${each%%:*} at=$((at + 1)) left=$((left - ${each#*:})) began=$(date +%s)
        printf '== %s\n' "$crate" >>"$log"
        if prove_crate "$crate" >>"$log" 9>&- && [ -f "$root/crates/$crate/$(made_by "$crate")" ]; then
            took=$(($(date +%s) - began))
            [ "$took" -lt 3 ] || say "$at of $all crates: $crate proved ($took s); about $(minutes "$left") min left"
            continue
        fi
        sed -n "/^== $crate\$/,\$p" "$log" | grep -E '^rt: |: error|not proved|no proof' | head -n 20 >&2
        die "not proved: $crate, for $names ($log has all that was said)"
    done
}

# stale NAME:FILE ..: those that are not built from the sources that stand here
stale() { for each; do is_built "${each%%:*}" "${each#*:}" || printf ' %s' "$each"; done; }

# ensure NAME:FILE ..: each file made of its crate from the sources that stand here. Nothing is asked of rt where it is so. In a shell of its own.
ensure() (
    command -v rt >/dev/null || die "the Rattle kit's rt is not on the PATH"
    rt version >/dev/null || die "rt does not run here: it needs a kit for this machine, $(uname -m)"
    [ -n "$(stale "$@")" ] || exit 0
    lock
    # shellcheck disable=SC2046
    set -- $(stale "$@")
    [ $# -gt 0 ] || exit 0
    # of the sources as they are before: what is edited meanwhile is proved again
    names='' sums=''
    for each; do names="$names ${each%%:*}" sums="$sums $each:$(sum_of "${each%%:*}")"; done
    # shellcheck disable=SC2086
    prove_by $names
    for each in $sums; do
        crate=${each%%:*} file=${each#*:} file=${file%:*}
        mkdir -p "$root/${file%/*}"
        put_same "$root/crates/$crate/$(made_by "$crate")" "$root/$file"
        keep_sum "$crate" "$file" "${each##*:}"
    done
)

# prove PROGRAM..: proved and built in target/bin, and ready for `run`.
prove() {
    # shellcheck disable=SC2046
    ensure $(for each; do printf '%s:target/bin/%s ' "$each" "$each"; done) || exit 2
    tools=$(rt doc) && tools=${tools%/*}/toolchain
    emulator=''
    [ "$(uname -m)" = x86_64 ] || emulator=qemu-x86_64
}

# prove_archive [CRATE]: for C and Rust to link, in target/staticlib: libuskelzar.a, the printer's functions, and libuskelzar-office.a, the office's; or one of the two.
# A crate is a library or an archive, so that of `uskelzar` is made by the crate `uskelzar_c`, whose functions call those of the same names and promise the same; of `office` by `office_c`.
# No crate can be called uskelzar-office: that archive is liboffice_c.a, copied here and nowhere else.
prove_archive() {
    # shellcheck disable=SC2046
    ensure $(for each in ${1-uskelzar office}; do
        case $each in office) printf 'office_c:target/staticlib/libuskelzar-office.a ' ;; *) printf '%s_c:target/staticlib/lib%s.a ' "$each" "$each" ;; esac
    done) || exit 2
}

# put_same FILE COPY: where it is the same already nothing is touched, so that nothing is built again.
put_same() { cmp -s "$1" "$2" || { cp "$1" "$2.new" && mv "$2.new" "$2"; }; }

# prove_libraries CRATE..: proved, and built for the crates above them. rt itself looks whether anything has changed.
prove_libraries() { (lock; prove_by "$@") || exit 2; }

# run PROGRAM [WORD..]: by the kit's loader and C library, and on another processor than x86-64 by Debian's emulator.
run() {
    program=$root/target/bin/$1
    shift
    ${emulator:+"$emulator"} "$tools/lib/ld-linux-x86-64.so.2" --library-path "$tools/lib" "$program" "$@"
}
