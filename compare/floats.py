"""Floats by exact fractions."""
import struct
from fractions import Fraction


def nearest(value):
    """The f32 nearest to a fraction, ties to even, as its bits: by the distances of the neighbours of a first guess."""
    if value == 0:
        return 0
    (guess,) = struct.unpack("<I", struct.pack("<f", float(abs(value))))
    real = lambda bits: Fraction(struct.unpack("<f", struct.pack("<I", bits))[0])
    bits = min((guess - 1, guess, guess + 1), key=lambda b: (abs(real(b) - abs(value)), b % 2))
    return bits | (0x80000000 if value < 0 else 0)
