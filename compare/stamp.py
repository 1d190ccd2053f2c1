"""Slips: requests through the proved program `stamp`, line by line in one run, and through the unmodified Rust, Python's zoneinfo and pynmea2.

compare/stamp says how it is run. Each line must be the one that is built here: the place by exact fractions, the zones by the Rust, their hours by zoneinfo from the same
bundle, which is read here a second time. What zoneinfo is known to answer otherwise is left out by the choice of instants (SPAN). Of each sentence pynmea2 must read the same
place and time. Sentences that are none of a fix's stand between the others: another one is passed over, one with a wrong checksum is refused.
"""

import argparse
import collections
import datetime
import io
import math
import random
import re
import struct
import subprocess
import sys
import threading
import zoneinfo
from fractions import Fraction

import peers
from floats import nearest

try:
    import pynmea2
except ImportError:
    sys.exit("python3-nmea2 is missing: tools/kit compare installs it")

# Years 1902 to 2399: the TZ strings of tzdata have M rules alone there, whose changes stay in their year (zoneinfo goes by the year of UT, and counts J and n days
# otherwise).
SPAN = (-2145916800, 13569465599)
# 1980 to 2068: a sentence has two digits of the year, which pynmea2 and document 03 take for the same century up to then
SENTENCES = (315532800, 3124223999)
ORACLE = "target/oracle/target/release/oracle"


# ---- requests


class Asked(collections.namedtuple("Asked", "text lat lon instant")):
    """A request, the two fractions of degrees and the instant that it spells; of one that spells none the line that is wanted in place of `lat`, and None."""


def decimals(rng):
    return rng.choice((0, 1, 2, 4, 6, 9))


def degrees_text(value, most, rng):
    """A decimal number near the value, and what it is."""
    places = decimals(rng)
    scaled = max(-most * 10**places, min(most * 10**places, round(value * 10**places)))
    whole, part = divmod(abs(scaled), 10**places)
    sign = "-" if scaled < 0 else rng.choice(("", "", "+"))
    return sign + str(whole) + (f".{part:0{places}d}" if places else ""), Fraction(scaled, 10**places)


def minutes_text(value, width, most, rng):
    """Degrees and minutes near the value, without its sign, and what they are."""
    places = decimals(rng)
    scaled = min(most * 60 * 10**places, round(abs(value) * 60 * 10**places))
    degrees, minutes = divmod(scaled, 60 * 10**places)
    whole, part = divmod(minutes, 10**places)
    return f"{degrees:0{width}d}{whole:02d}" + (f".{part:0{places}d}" if places else ""), Fraction(scaled, 60 * 10**places)


def sealed(body):
    sum_ = 0
    for letter in body.encode():
        sum_ ^= letter
    return f"${body}*{sum_:02X}"


def plain(lat, lon, instant, rng):
    (lat_text, lat), (lon_text, lon) = degrees_text(lat, 90, rng), degrees_text(lon, 180, rng)
    at = peers.EPOCH + datetime.timedelta(seconds=instant)
    when = str(instant) if rng.random() < 0.5 else f"{at:%Y-%m-%dT%H:%M:%SZ}"
    return Asked(rng.choice((" ", "  ", "\t")).join((lat_text, lon_text, when)), lat, lon, instant)


def sentence(lat, lon, instant, rng):
    north, east = lat >= 0, lon >= 0
    (lat_text, lat), (lon_text, lon) = minutes_text(lat, 2, 90, rng), minutes_text(lon, 3, 180, rng)
    at = peers.EPOCH + datetime.timedelta(seconds=instant)
    time = f"{at:%H%M%S}" + rng.choice(("", ".00", ".999"))
    body = f"{rng.choice(('GP', 'GN', 'GL', 'GA'))}RMC,{time},A,{lat_text},{'NS'[not north]},{lon_text},{'EW'[not east]},0.0,,{at:%d%m%y},,,{rng.choice('ADFPR')}"
    return Asked(sealed(body), lat if north else -lat, lon if east else -lon, instant)


def request_at(i, cities, rng):
    """Every second one near a city of examples/cities, the others anywhere; half of the instants anywhere in the span, half from 2000 to 2040."""
    lat, lon = rng.uniform(-90, 90), rng.uniform(-180, 180)
    if i % 2:
        near = rng.choice(cities)
        lat, lon = max(-90, min(90, near[0] + rng.gauss(0, 2))), max(-180, min(180, near[1] + rng.gauss(0, 2)))
    instant = rng.randint(*SPAN) if i % 4 < 2 else rng.randint(946684800, 2208988800)
    if SENTENCES[0] <= instant <= SENTENCES[1] and rng.random() < 0.7:
        return sentence(lat, lon, instant, rng)
    return plain(lat, lon, instant, rng)


def between(rng):
    """A line that asks for no slip."""
    if rng.random() < 0.7:
        return Asked(sealed(f"GPGSV,1,1,01,{rng.randint(1, 32):02d},40,083,46"), "", None, None)
    whole = sealed("GPGGA,115959,5231.2,N,01324.0,E,1,08,0.9,45.0,M,46.9,M,,")
    other = whole[:-1] + ("0" if whole[-1] != "0" else "1")
    return Asked(other, f"not stamped: 82 0 {len(other) - 3} the checksum is wrong", None, None)


# ---- the other chain


def by_rust(plb, slips):
    """For each slip the mark, and the zones' names in the Rust's order, one for each match. The Rust's program holds all that it is given at once: 256 MB at a time."""
    some = max(1, 2**28 // len(plb))
    for at in range(0, len(slips), some):
        yield from by_rust_at_once(plb, slips[at : at + some])


def by_rust_at_once(plb, slips):
    run = subprocess.Popen([ORACLE], stdin=subprocess.PIPE, stdout=subprocess.PIPE)

    def feed():
        head = struct.pack("<I", len(plb))
        for slip in slips:
            run.stdin.write(head + struct.pack("<II", nearest(slip.lat), nearest(slip.lon)) + b"\x09")
            run.stdin.write(plb)
        run.stdin.close()

    threading.Thread(target=feed, daemon=True).start()
    for line in run.stdout:
        opened, full, marked = line.decode().split(" | ")
        yield int(marked.split()[1]), [zone_name(fields) for fields in re.findall(r"\[\d+ \d+ \d+ ([^]]*)\]", full)]
    if run.wait():
        sys.exit("the Rust's program failed")


def zone_name(fields):
    named = dict(pair.split("=") for pair in fields.split(","))
    text = lambda name: bytes.fromhex(named.get(name.encode().hex().upper(), "")).decode()
    return text("TimezoneIdPrefix") + text("TimezoneId")


class Bundle(dict):
    """The zones of a bundle, each read by zoneinfo."""

    def __init__(self, data):
        begin, start, _ = struct.unpack(">III", data[12:24])
        for at in range(begin, start, 52):
            name = data[at : at + 40].rstrip(b"\0").decode()
            offset, length = struct.unpack(">II", data[at + 40 : at + 48])
            file = data[start + offset : start + offset + length]
            self.setdefault(name, zoneinfo.ZoneInfo.from_file(io.BytesIO(file), key=name))


def offset_text(seconds):
    size = abs(seconds)
    text = f"{'-' if seconds < 0 else '+'}{size // 3600:02d}:{size // 60 % 60:02d}"
    return text + (f":{size % 60:02d}" if size % 60 else "")


def wanted_line(slip, mark, names, bundle):
    """The line that document 03 wants, and in a word what it is."""
    if mark != 1:
        return f"not stamped: 85 0 {mark} the search was not whole", "not whole"
    if not names:
        return "not stamped: 86 0 0 no zone holds the fix", "no zone"
    hours = []
    for number, name in enumerate(names, 1):
        if name not in bundle:
            return f"not stamped: 88 {min(number, 255)} 0 the zone is not in the bundle", "no file: " + name
        offset, _, letters = peers.by_zoneinfo(bundle[name], slip.instant)
        hours.append((offset, letters.decode(), name))
    if len({offset for offset, _, _ in hours}) > 1:
        return "not stamped: 92 0 0 the hours differ", "hours differ on a border"
    at = peers.EPOCH + datetime.timedelta(seconds=slip.instant + hours[0][0])
    different = dict.fromkeys(f"{letters} {name}" for _, letters, name in hours)
    line = f"{at:%a %Y-%m-%d %H:%M:%S} {offset_text(hours[0][0])} {', '.join(different)}"
    return line, "stamped" if len(different) == 1 else "stamped on a border of zones with one hour"


def read_alike(slip):
    """Whether pynmea2 reads the sentence's second and place as they were spelled. It wants a point in the minutes."""
    read = pynmea2.parse(slip.text, check=True)
    at = peers.EPOCH + datetime.timedelta(seconds=slip.instant)
    alike = read.datetime.replace(microsecond=0, tzinfo=datetime.timezone.utc) == at
    for text, exact, name in ((read.lat, slip.lat, "latitude"), (read.lon, slip.lon, "longitude")):
        if "." in text:
            alike = alike and math.isclose(getattr(read, name), exact, rel_tol=0, abs_tol=1e-9)
    return alike


# ---- the comparison


class Tally(collections.Counter):
    def wrong(self, *what):
        self["wrong"] += 1
        if self["wrong"] <= 10:
            print("wrong:", *what, file=sys.stderr)


def ours(runner, plb, zones, asked):
    """The program's lines, and its words on standard error where it did not run."""
    given = "".join(each.text + end for each, end in asked).encode()
    run = subprocess.run([*runner.split(), "target/bin/stamp", plb, zones], input=given, stdout=subprocess.PIPE, check=True)
    return run.stdout.decode("ascii").splitlines()


def main():
    parser = argparse.ArgumentParser(description=__doc__)
    parser.add_argument("--seed", type=int, default=1)
    parser.add_argument("--slips", type=int, default=10000)
    parser.add_argument("--map", default="examples/world-15.plb")
    parser.add_argument("--zones", default="examples/zones.tzdata")
    parser.add_argument("--runner", default="")
    args = parser.parse_args()
    rng, tally = random.Random(args.seed), Tally()
    with open(args.map, "rb") as file:
        plb = file.read()
    with open(args.zones, "rb") as file:
        bundle = Bundle(file.read())
    with open("examples/cities") as file:
        cities = [tuple(map(float, line.split()[:2])) for line in file]
    lines = []
    for i in range(args.slips):
        lines.append(request_at(i, cities, rng))
        if rng.random() < 0.1:
            lines.append(between(rng))
    said = ours(args.runner, args.map, args.zones, [(each, rng.choice(("\n", "\r\n"))) for each in lines])
    rust = by_rust(plb, [each for each in lines if each.instant is not None])
    got = iter(said)
    for each in lines:
        if each.instant is None:
            wanted, what = each.lat, "wrong checksum" if each.lat else "another sentence"
        else:
            tally["slips"] += 1
            wanted, what = wanted_line(each, *next(rust), bundle)
            if each.text.startswith("$"):
                tally["sentences"] += 1
                if not read_alike(each):
                    tally.wrong("pynmea2 reads otherwise:", each.text)
        tally[what] += 1
        line = next(got, "nothing") if wanted else ""
        if line != wanted:
            tally.wrong(repr(each.text), "gives", repr(line), "wanted", repr(wanted))
    if next(got, None) is not None:
        tally.wrong("more lines than requests")
    for what in sorted(tally):
        if what not in ("slips", "wrong"):
            print(f"{what}: {tally[what]}")
    print(f"seed {args.seed}: {tally['slips']} slips, {tally['wrong']} wrong")
    sys.exit(tally["wrong"] > 0)


main()
