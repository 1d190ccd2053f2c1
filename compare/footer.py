"""Holds the TZ string of a TZif footer against glibc and Python's zoneinfo, and against its definition written a second time.

Writes the records of `replay`'s op 20 to a file: random strings in files without transitions, and every zone of a folder up to the year
2400. compare/footer says how it is run.
"""

import argparse
import datetime
import io
import os
import random
import struct
import time
import zoneinfo

from peers import EPOCH, ROOM, by_glibc, by_zoneinfo

FIRST, LAST = -62135596800, 253402300799


def set_zone(text):
    os.environ["TZ"] = text
    time.tzset()


# ---- a string and its meaning, by the calendar of `datetime`


def ordinal(year, month, day):
    """Days from 1970; a year outside 1 to 9999 by one whole rounds of 400 years off."""
    shift = 0
    while year < 1:
        year, shift = year + 400, shift - 146097
    while year > 9999:
        year, shift = year - 400, shift + 146097
    return datetime.date(year, month, day).toordinal() - 719163 + shift


def day_of(date, year):
    kind, *numbers = date
    if kind == "n":
        return ordinal(year, 1, 1) + numbers[0]
    if kind == "J":
        common = datetime.date(2001, 1, 1) + datetime.timedelta(days=numbers[0] - 1)
        return ordinal(year, common.month, common.day)
    month, week, weekday = numbers
    first = ordinal(year, month, 1)
    after = ordinal(year + month // 12, month % 12 + 1, 1)
    days = [day for day in range(first, after) if (day + 4) % 7 == weekday]
    return days[-1] if week == 5 else days[week - 1]


class Zone:
    def __init__(self, standard, daylight=None, start=None, end=None):
        self.standard, self.daylight, self.start, self.end = standard, daylight, start, end

    def at(self, instant):
        if self.daylight:
            year = (EPOCH + datetime.timedelta(seconds=instant)).year
            for y in range(year - 3, year + 3):
                start = 86400 * day_of(self.start[0], y) + self.start[1] - self.standard[1]
                end = 86400 * day_of(self.end[0], y) + self.end[1] - self.daylight[1]
                if end < start:
                    end = 86400 * day_of(self.end[0], y + 1) + self.end[1] - self.daylight[1]
                if start <= instant < end:
                    return self.daylight[1], 1, self.daylight[0]
        return self.standard[1], 0, self.standard[0]


def clock(seconds):
    sign, seconds = ("-" if seconds < 0 else ""), abs(seconds)
    text = f"{sign}{seconds // 3600}"
    if seconds % 3600:
        text += f":{seconds // 60 % 60:02}"
    if seconds % 60:
        text += f":{seconds % 60:02}"
    return text


def name(rng):
    if rng.random() < 0.3:
        return "<" + "".join(rng.choice("ABCxyz019+-") for _ in range(rng.randint(3, 8))) + ">"
    return "".join(rng.choice("ABCDEFGHxyz") for _ in range(rng.randint(3, 6)))


def random_zone(rng, plain):
    """A string and what it means. A plain one is of the kind that glibc and zoneinfo answer alike: its changes stay in their year."""
    step = rng.choice((3600, 1800, 900, 1)) if not plain else rng.choice((3600, 1800))
    offset = lambda most: rng.randint(-most * 3600 // step, most * 3600 // step) * step
    standard = name(rng), offset(12 if plain else 24)
    text = standard[0] + clock(-standard[1])
    bare = lambda n: n.strip("<>").encode()
    if rng.random() < 0.1:
        return text, Zone((bare(standard[0]), standard[1])), 2
    daylight = name(rng), standard[1] + 3600
    if not plain and rng.random() < 0.5:
        daylight = daylight[0], offset(24)
        text += daylight[0] + clock(-daylight[1])
    else:
        text += daylight[0]
    version = rng.choice((2, 3))
    changes = []
    for months in ((2, 5), (8, 11)) if plain else ((1, 12), (1, 12)):
        kind = "M" if plain else rng.choice("MMJn")
        if kind == "M":
            date = ("M", rng.randint(*months), rng.randint(1, 5), rng.randint(0, 6))
            written = "M" + ".".join(map(str, date[1:]))
        else:
            date = (kind, rng.randint(1 if kind == "J" else 0, 365))
            written = ("J" if kind == "J" else "") + str(date[1])
        at = 7200
        if rng.random() < 0.7:
            at = rng.randint(0, 24) * 3600 if plain or version == 2 else rng.randint(-167 * 3600, 167 * 3600) // step * step
            written += "/" + clock(at)
        text += "," + written
        changes.append((date, at))
    if not plain and rng.random() < 0.5:
        changes, parts = changes[::-1], text.split(",")
        text = ",".join((parts[0], parts[2], parts[1]))
    return text, Zone((bare(standard[0]), standard[1]), (bare(daylight[0]), daylight[1]), *changes), version


def file_of(text, version):
    """A TZif file without transitions that has this string."""
    mark = b"TZif" + str(version).encode() + bytes(15)
    block = mark + struct.pack(">6I", 0, 0, 0, 0, 1, 4) + struct.pack(">iBB", 0, 0, 0) + b"ABC\0"
    return block + block + b"\n" + text.encode() + b"\n"


def record(number, instant, data, answer):
    offset, flag, letters = answer
    head = struct.pack("<BIqBIII", 20, number, instant, 3, 0, ROOM, len(data))
    tail = struct.pack("<BIBQ5I", 0, 0, 0, 0, offset & 0xFFFFFFFF, flag, len(letters), 0, 0) + letters.ljust(ROOM, b"\0")
    body = head + data + tail
    return struct.pack("<I", len(body)) + body


class Tally:
    strings = zones = asked = apart = 0


def ask_string(rng, plain, tally, out):
    text, zone, version = random_zone(rng, plain)
    data = file_of(text, version)
    tally.strings += 1
    if plain:
        set_zone(text)
        other = zoneinfo.ZoneInfo.from_file(io.BytesIO(data))
    for _ in range(20):
        low, high = (86400, 13569465600) if plain else (FIRST + 10**8, LAST - 10**8)
        instant = rng.randint(low, high)
        if zone.daylight and rng.random() < 0.7:
            change = rng.choice((zone.start, zone.end))
            year = (EPOCH + datetime.timedelta(seconds=instant)).year
            offset = zone.standard[1] if change is zone.start else zone.daylight[1]
            instant = 86400 * day_of(change[0], year) + change[1] - offset + rng.choice((-1, 0, 1))
        answer = zone.at(instant)
        if plain:
            tally.apart += not answer == by_glibc(instant) == by_zoneinfo(other, instant)
        tally.asked += 1
        out.write(record(tally.asked, instant, data, answer))


def ask_file(path, data, rng, tally, out):
    set_zone(":" + path)
    zone = zoneinfo.ZoneInfo.from_file(io.BytesIO(data))
    tally.zones += 1
    for _ in range(200):
        instant = rng.randint(2145916800, 13569465600)  # 2038 to 2400
        answer = by_zoneinfo(zone, instant)
        tally.apart += answer != by_glibc(instant)
        tally.asked += 1
        out.write(record(tally.asked, instant, data, answer))


def found_in(folder):
    seen = set()
    for where, _, names in sorted(os.walk(folder)):
        if "right" in where.split("/"):
            continue
        for file in sorted(names):
            path = os.path.join(where, file)
            with open(path, "rb") as opened:
                data = opened.read()
            if data[:4] == b"TZif" and data[4:5] in b"23" and not data.endswith(b"\n\n") and data not in seen:
                seen.add(data)
                yield path, data


def main():
    parser = argparse.ArgumentParser(description=__doc__)
    parser.add_argument("--seed", type=int, default=1)
    parser.add_argument("--strings", type=int, default=5000, help="of each of two kinds")
    parser.add_argument("--folder", default="/usr/share/zoneinfo")
    parser.add_argument("out")
    args = parser.parse_args()
    rng, tally = random.Random(args.seed), Tally()
    with open(args.out, "wb") as out:
        for kind in (True, False):
            for _ in range(args.strings):
                ask_string(rng, kind, tally, out)
        for path, data in found_in(args.folder):
            ask_file(path, data, rng, tally, out)
    print(f"seed {args.seed}: {tally.strings} strings, {tally.zones} zones, {tally.asked} instants; glibc and zoneinfo apart from them: {tally.apart}")


main()
