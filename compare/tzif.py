"""Holds local time against glibc and Python's zoneinfo, on every TZif file of a folder, on those that zic makes of tzdata.zi, and on
version 4 files made of its leap-second zones.

Writes the records of `replay`'s op 21 to a file: what is expected of each instant is glibc's answer where the table has one, at the last
transition zoneinfo's. compare/tzif says how it is run.
"""

import argparse
import bisect
import io
import os
import random
import struct
import subprocess
import sys
import tempfile
import zoneinfo

import peers
from peers import LIBC, ROOM, by_glibc

FIRST, LAST = -62135596800 + 86400, 253402300799 - 86400  # the years that zoneinfo knows, less a day


def by_zoneinfo(zone, instant):
    return peers.by_zoneinfo(zone, instant) if FIRST <= instant <= LAST else None


def table(data):
    """The times of the block that answers, and what type 0 says."""
    at, width = 0, 4
    counts = struct.unpack_from(">6I", data, 20)
    if data[4]:
        at = 44 + sum(c * n for c, n in zip(counts, (1, 1, 8, 5, 6, 1)))
        width = 8
        counts = struct.unpack_from(">6I", data, at + 20)
    _, _, _, times, types, _ = counts
    begin = at + 44
    instants = struct.unpack_from(">%d%s" % (times, "q" if width == 8 else "i"), data, begin)
    records = begin + times * (width + 1)
    offset, flag, index = struct.unpack_from(">iBB", data, records)
    name = records + 6 * types + index
    return instants, (offset, flag, data[name : data.index(0, name)])


WAYS = ("plain", "part-way", "expiry", "both")


def fourth(data, way, rng):
    """A version 4 file of a later one: the leap-second tables of both blocks begin part-way, end with an expiry, or both."""
    made, at = b"", 0
    for width in (4, 8):
        head = bytearray(data[at : at + 44])
        isut, isstd, leaps, times, types, chars = struct.unpack_from(">6I", head, 20)
        table = at + 44 + times * (width + 1) + types * 6 + chars
        end = table + leaps * (width + 4)
        records = [data[i : i + width + 4] for i in range(table, end, width + 4)]
        if way in ("part-way", "both") and len(records) > 1:
            del records[: rng.randint(1, len(records) - 1)]
        if way in ("expiry", "both") and records:
            form = ">qi" if width == 8 else ">ii"
            last, correction = struct.unpack(form, records[-1])
            records.append(struct.pack(form, last + rng.choice((1, 2419198, 2**24)), correction))
        head[4:5] = b"4"
        struct.pack_into(">I", head, 28, len(records))
        made += bytes(head) + data[at + 44 : table] + b"".join(records) + data[end : end + isstd + isut]
        at = end + isstd + isut
    return made + data[at:]


def record(number, instant, data, answer):
    """A record of op 21; no answer is unknown."""
    head = struct.pack("<BIqBIII", 21, number, instant, 1, 0, ROOM, len(data))
    if answer is None:
        tail = struct.pack("<BIBQ5I", 2, 0, 0, 0, 0, 0, 0, 0, 0) + bytes(ROOM)
    else:
        offset, flag, name = answer
        tail = struct.pack("<BIBQ5I", 0, 0, 0, 0, offset & 0xFFFFFFFF, flag, len(name), 0, 0) + name.ljust(ROOM, b"\0")
    body = head + data + tail
    return struct.pack("<I", len(body)) + body


def instants_of(times, most, rng):
    """Each time and the seconds beside it, of so many times at most; and some at random."""
    chosen = times if len(times) <= most else sorted(rng.sample(times, most - 2) + [times[0], times[-1]])
    found = {t + d for t in chosen for d in (-1, 0, 1)}
    low, high = (times[0], times[-1]) if times else (-(2**40), 2**40)
    found |= {rng.randint(low - 2**28, high + 2**28) for _ in range(12)}
    return sorted(t for t in found if -(2**63) <= t < 2**63)


class Tally:
    def __init__(self):
        self.files = self.asked = self.unknown = self.first = 0
        self.glibc_first = self.zoneinfo_first = self.apart = 0
        self.shown = 0


def ask(path, data, args, rng, tally, out):
    """The file at the path holds the data."""
    os.environ["TZ"] = ":" + path
    LIBC.tzset()
    zone = zoneinfo.ZoneInfo.from_file(io.BytesIO(data))
    times, first = table(data)
    tally.files += 1
    for instant in instants_of(times, args.most, rng):
        tally.asked += 1
        behind = bisect.bisect_right(times, instant)
        if times and instant > times[-1]:
            answer = None
            tally.unknown += 1
        elif behind == 0:
            # by type 0, where the others look for a standard type
            answer = first
            tally.first += 1
            tally.glibc_first += by_glibc(instant) not in (None, first)
            tally.zoneinfo_first += by_zoneinfo(zone, instant) not in (None, first)
        else:
            answer, other = by_glibc(instant), by_zoneinfo(zone, instant)
            if other not in (None, answer):
                tally.apart += 1
                if tally.shown < 10:
                    tally.shown += 1
                    print("apart:", path, instant, "glibc", answer, "zoneinfo", other, file=sys.stderr)
                if instant == times[-1]:
                    # glibc takes the last transition's own second from the TZ string, which is not asked here
                    answer = other
        out.write(record(tally.asked, instant, data, answer))


def found_in(folder):
    for where, _, names in sorted(os.walk(folder)):
        for name in sorted(names):
            path = os.path.join(where, name)
            with open(path, "rb") as file:
                data = file.read()
            if data[:4] == b"TZif" and data[4:5] in b"\0" b"234":
                yield path, data


def main():
    parser = argparse.ArgumentParser(description=__doc__)
    parser.add_argument("--seed", type=int, default=1)
    parser.add_argument("--most", type=int, default=1000, help="transitions of a file")
    parser.add_argument("--folder", default="/usr/share/zoneinfo")
    parser.add_argument("--zic", default="/usr/sbin/zic")
    parser.add_argument("out")
    args = parser.parse_args()
    rng, tally, seen, leaping = random.Random(args.seed), Tally(), set(), set()
    with tempfile.TemporaryDirectory() as made, open(args.out, "wb") as out:
        folders = [args.folder]
        source = os.path.join(args.folder, "tzdata.zi")
        for form in ("fat", "slim") if os.path.exists(source) else ():
            folder = os.path.join(made, form)
            subprocess.run([args.zic, "-b", form, "-d", folder, source], check=True)
            folders.append(folder)
        for folder in folders:
            before = tally.files
            for path, data in found_in(folder):
                if data not in seen:
                    seen.add(data)
                    ask(path, data, args, rng, tally, out)
            print(f"{os.path.basename(folder)}: {tally.files - before} files")
        for form in ("fat", "slim") if os.path.exists(source) else ():
            folder, before, at = os.path.join(made, "right-" + form), tally.files, tally.asked
            leaps = os.path.join(args.folder, "leapseconds")
            subprocess.run([args.zic, "-b", form, "-L", leaps, "-d", folder, source], check=True)
            for path, data in found_in(folder):
                if data not in leaping:
                    leaping.add(data)
                    # a name of its own: zic gives one file many names
                    data, path = fourth(data, WAYS[tally.files % 4], rng), path + ".4"
                    with open(path, "wb") as file:
                        file.write(data)
                    ask(path, data, args, rng, tally, out)
            print(f"version 4, {form}: {tally.files - before} files, {tally.asked - at} instants")
    print(f"seed {args.seed}: {tally.files} different files, {tally.asked} instants, {tally.unknown} of them after the last transition")
    print(f"before the first transition: {tally.first}, glibc differs from type 0 in {tally.glibc_first}, zoneinfo in {tally.zoneinfo_first}")
    print(f"glibc and zoneinfo apart within the table: {tally.apart}")


main()
