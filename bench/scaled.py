#!/usr/bin/python3
"""scaled.py KIND SIZE VERSION FILE: a file whose lookup at latitude 0, longitude 0 has work in proportion to SIZE.

  passed   SIZE boxes that do not hold the location
  boxes    SIZE boxes that hold it, each with a border of 64 points that does not
  points   16 boxes that hold it, each with a border of SIZE points that does not
  matches  SIZE borders of 64 points about the location, each of another zone
  ring     one border of SIZE points about the location
  yards    SIZE yards of four points within a tenth of a degree about the location, one of which holds it
"""
import math
import sys

HOLDING = (-200_000, -200_000, 200_000, 200_000)
SOUTH = (-200_000, -200_000, -100_000, 200_000)


def varint(n):
    out = bytearray()
    while n > 127:
        out.append(n & 127 | 128)
        n >>= 7
    return bytes(out) + bytes([n])


def zigzag(n):
    return -2 * n + 1 if n < 0 else 2 * n


def spread(n):
    """Each bit moved to twice its place."""
    return sum((n >> bit & 1) << 2 * bit for bit in range(n.bit_length()))


def text(s):
    return varint(len(s)) + bytes(b ^ 0x80 for b in s.encode())


def ring(points, north):
    """Clockwise points, each as far from the last whatever their number, so that a move takes as many bytes."""
    radius = 4 * points
    turns = [2 * math.pi * i / points for i in range(points)]
    return [(round(radius * math.cos(t)) + 2 * north * radius, round(radius * math.sin(t))) for t in turns]


def border(points, version):
    moves = [(a - c, b - d) for (a, b), (c, d) in zip(points, [(0, 0)] + points)]
    if version == 0:
        pairs = (varint(zigzag(lat)) + varint(zigzag(lon)) for lat, lon in moves)
        return varint(len(points)) + b"".join(pairs) + b"\2\2"
    return b"".join(varint(spread(zigzag(lat)) | spread(zigzag(lon)) << 1) for lat, lon in moves) + b"\0\0"


def plan(kind, size):
    """How many boxes, which box, points in each border, and whether the borders stand north of the location."""
    return {
        "passed": (size, SOUTH, 64, True),
        "boxes": (size, HOLDING, 64, True),
        "points": (16, HOLDING, size, True),
        "matches": (size, HOLDING, 64, False),
        "ring": (1, HOLDING, size, False),
    }[kind]


def yards(size):
    """Squares beside each other, the middle one about the location; a tenth of a degree is 1,165 steps of latitude and 582 of longitude."""
    side = math.isqrt(size - 1) + 1
    high, wide = 1165 // side, 582 // side
    low = [(i - side // 2) * high - high // 2 + 1 for i in range(side)]
    left = [(i - side // 2) * wide - wide // 2 + 1 for i in range(side)]
    corners = [(south, west, south + high - 2, west + wide - 2) for south in low for west in left][:size]
    return [(box, [(box[0], box[1]), (box[2], box[1]), (box[2], box[3]), (box[0], box[3])]) for box in corners]


def shapes(kind, size):
    """The boxes and the points of their borders, in order of lower latitude."""
    if kind == "yards":
        return yards(size)
    count, box, points, north = plan(kind, size)
    return [(box, ring(points, north))] * count


def build(kind, size, version):
    made = shapes(kind, size)
    # many are one and the same
    written = {id(points): border(points, version) for _, points in made}
    borders = [written[id(points)] for _, points in made]
    names = [text("zone %05d" % i) for i in range(len(made))]
    table = b"".join(
        b"".join(varint(zigzag(edge)) for edge in box)
        + varint(zigzag(len(names[0]) if i else 0))
        + varint(len(borders[i - 1]) if i else 0)
        for i, (box, _) in enumerate(made)
    )
    metadata, data = b"".join(names), b"".join(borders)
    sizes = b"".join(varint(len(part)) for part in (table, metadata, data))
    return b"PLBC" + bytes([version, 21, 1]) + text("Name") + text("") + sizes + table + metadata + data


def main():
    kind, size, version, path = sys.argv[1:]
    with open(path, "wb") as file:
        file.write(build(kind, int(size), int(version)))


main()
