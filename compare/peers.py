"""glibc and Python's zoneinfo, asked for local time: offset, daylight flag and abbreviation."""

import ctypes
import datetime

EPOCH = datetime.datetime(1970, 1, 1, tzinfo=datetime.timezone.utc)
ROOM = 24  # bytes of text that a record lends


class Tm(ctypes.Structure):
    _fields_ = [(n, ctypes.c_int) for n in "sec min hour mday mon year wday yday isdst".split()] + [
        ("gmtoff", ctypes.c_long),
        ("zone", ctypes.c_char_p),
    ]


LIBC = ctypes.CDLL("libc.so.6")
LIBC.localtime_r.argtypes = [ctypes.POINTER(ctypes.c_longlong), ctypes.POINTER(Tm)]
LIBC.localtime_r.restype = ctypes.POINTER(Tm)


def by_glibc(instant):
    """In the zone that tzset has read; None where glibc has no answer."""
    tm = Tm()
    if not LIBC.localtime_r(ctypes.byref(ctypes.c_longlong(instant)), ctypes.byref(tm)):
        return None
    return tm.gmtoff, int(tm.isdst > 0), tm.zone


def by_zoneinfo(zone, instant):
    """In a zone of `zoneinfo`, within the years 1 to 9999."""
    at = (EPOCH + datetime.timedelta(seconds=instant)).astimezone(zone)
    offset = at.utcoffset()
    return offset.days * 86400 + offset.seconds, int(bool(at.dst())), at.tzname().encode()
