"""compare/degrees: asks the library what floats a request means, and works them out by exact fractions."""
import argparse
import ctypes
import random
import struct
from fractions import Fraction

from floats import nearest


def float_of(bits):
    return struct.unpack("<f", struct.pack("<I", bits))[0]


def middle(rng, most):
    """The middle of two neighbouring floats of up to so many degrees; small ones are as likely as large ones."""
    low = struct.unpack("<I", struct.pack("<f", most * 2.0 ** -rng.uniform(0, 12)))[0] - 1
    return (Fraction(float_of(low)) + Fraction(float_of(low + 1))) / 2


def spelt(rng, value, scale, width):
    """A text of whole parts and at most nine decimals beside the value, one step below to one above it, and the number that it is."""
    places = rng.randint(5, 9)
    steps = int(value * scale * 10**places) + rng.randint(-1, 2)
    return f"{steps // 10**places:0{width}d}.{steps % 10**places:0{places}d}", Fraction(steps, scale * 10**places)


def minutes(rng, value, width):
    """ddmm.m with so many digits of degrees."""
    degrees = int(value)
    text, part = spelt(rng, value - degrees, 60, 2)
    return None if part >= 1 else (f"{degrees:0{width}d}{text}", degrees + part)


def sealed(body):
    total = 0
    for byte in body.encode():
        total ^= byte
    return f"${body}*{total:02X}"


def request(rng):
    """A line, and the two numbers that it spells with their signs."""
    lat, lon = middle(rng, 90), middle(rng, 180)
    signs = rng.random() < 0.5, rng.random() < 0.5
    if rng.random() < 0.5:
        one, two = spelt(rng, lat, 1, 1), spelt(rng, lon, 1, 1)
        line = " ".join(("-" if sign else "") + text for sign, (text, _) in zip(signs, (one, two))) + " 0"
    else:
        one, two = minutes(rng, lat, 2), minutes(rng, lon, 3)
        if one is None or two is None:
            return request(rng)
        line = sealed(f"GNRMC,115959,A,{one[0]},{'NS'[signs[0]]},{two[0]},{'EW'[signs[1]]},,,010726,,,A")
    if one[1] > 90 or two[1] > 180:
        return request(rng)
    return line, [(number, sign) for sign, (_, number) in zip(signs, (one, two))]


def main():
    parser = argparse.ArgumentParser()
    parser.add_argument("library")
    parser.add_argument("--seed", type=int, default=1)
    parser.add_argument("--texts", type=int, default=1_000_000)
    asked = parser.parse_args()
    library = ctypes.CDLL(asked.library)
    reply = (ctypes.c_uint64 * 5)()
    rng, wrong = random.Random(asked.seed), 0
    for done in range(0, asked.texts, 2):
        line, numbers = request(rng)
        said = library.uskelzar_request(line.encode(), ctypes.c_size_t(len(line)), reply) & 0xFF
        expected = [nearest(-number if sign else number) for number, sign in numbers]
        if said != 0 or list(reply[:2]) != expected:
            wrong += 1
            print(f"wrong: {line}: {said} {reply[0]:08X} {reply[1]:08X}, not {expected[0]:08X} {expected[1]:08X}")
        if done % 100_000 == 0 and done:
            print(f"{done:,} of {asked.texts:,} texts", flush=True)
    print(f"{asked.texts:,} texts, {wrong} wrong")
    raise SystemExit(1 if wrong else 0)


main()
