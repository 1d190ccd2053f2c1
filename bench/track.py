#!/usr/bin/python3
"""track.py CITIES LATITUDE LONGITUDE FILE: a truck's day, 4,096 fixes, one every 20 seconds.

It sets out from the city nearest to the place and goes to the nearest one that is over 60 km off and not seen yet, on a winding road at 80 km an hour; in each it stands for an hour,
while the receiver wanders by some metres. No chance is in it. It prints the kilometres, the tiles of an index that it comes through, and how often the next fix is in another tile.
"""
import math
import sys

FIXES, STEP, APART, STAY = 4096, 80 / 180, 60, 180
KM = 40_000 / 360  # of a degree


def away(a, b):
    """From one place to another: kilometres north, kilometres east."""
    return (b[0] - a[0]) * KM, (b[1] - a[1]) * KM * math.cos(math.radians(a[0]))


def moved(a, north, east):
    return a[0] + north / KM, a[1] + east / KM / math.cos(math.radians(a[0]))


def leg(a, b):
    """A road that bends by up to a right angle from the straight way, and less near its end."""
    n = 0
    while math.hypot(*away(a, b)) > STEP:
        north, east = away(a, b)
        bend = min(1, math.hypot(north, east) / 10) * (math.sin(n / 17) + math.sin(n / 5) / 2)
        way = math.atan2(east, north) + bend
        a = moved(a, STEP * math.cos(way), STEP * math.sin(way))
        n += 1
        yield a


def day(cities, start):
    at = min(cities, key=lambda city: math.hypot(*away(start, city)))
    seen = {at}
    while True:
        for n in range(STAY):
            yield moved(at, math.sin(n) / 200, math.sin(n / 3) / 200)
        there = min((city for city in cities if city not in seen and math.hypot(*away(at, city)) > APART), key=lambda city: math.hypot(*away(at, city)))
        yield from leg(at, there)
        at = there
        seen.add(at)


def tile(fix):
    return int((fix[0] + 90) * 32 / 180), int((fix[1] + 180) * 64 / 360)


def main():
    _, cities, lat, lon, out = sys.argv
    with open(cities) as f:
        cities = [tuple(map(float, line.split("\t")[:2])) for line in f]
    fixes = [fix for fix, _ in zip(day(cities, (float(lat), float(lon))), range(FIXES))]
    with open(out, "w") as f:
        f.writelines("%.6f\t%.6f\n" % fix for fix in fixes)
    pairs = list(zip(fixes, fixes[1:]))
    print(round(sum(math.hypot(*away(a, b)) for a, b in pairs)), len(set(map(tile, fixes))), sum(tile(a) != tile(b) for a, b in pairs))


main()
