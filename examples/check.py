"""check.py VOLUME SHEET [X,Y,Z|lowest] [down|nearest]: checks a sheet file against its volume through the library, by ctypes.

The library is looked for by name, or where MALXUQEED_SO says."""

import ctypes
import ctypes.util
import os
import struct
import sys


class Triple(ctypes.Structure):
    """Sizes, or a cube."""

    _fields_ = [(name, ctypes.c_size_t) for name in ("x", "y", "z")]


class Verdict(ctypes.Structure):
    _fields_ = [("number", ctypes.c_size_t), ("place", ctypes.c_size_t)]


def library():
    found = ctypes.CDLL(os.environ.get("MALXUQEED_SO") or ctypes.util.find_library("malxuqeed") or "libmalxuqeed.so.1")
    size = ctypes.c_size_t
    lent = [ctypes.c_void_p, size]
    # sizes, which start (0 the default, 1 the lowest, 2 the cube), its cube, the rule of rounding (0 down, 1 nearest); then samples, bytes, cube words, waiting list and
    # edge slots with their lengths
    found.malxuqeed_check.argtypes = [Triple, ctypes.c_uint32, Triple, ctypes.c_uint32] + 5 * lent
    found.malxuqeed_check.restype = Verdict
    return found


def check(volume, sheet, start=None, rule="nearest"):
    """The number and the place that documents 01 and 02 give; 0 is accepted. The start is a cube, "lowest" or none; the rule of
    rounding that the sheet was made under is "nearest", or "down" for sheets from before document 02 (vi)."""
    if len(volume) < 6:
        return 1, 0
    nx, ny, nz = struct.unpack("<3H", volume[:6])
    fits = all(2 <= axis <= 64 for axis in (nx, ny, nz))
    cubes = (nx - 1) * (ny - 1) * (nz - 1) if fits else 0
    slots = 7 * nx * ny * nz if fits else 0
    count = (len(volume) - 6) // 2
    samples = (ctypes.c_int16 * count)(*struct.unpack(f"<{count}h", volume[6:6 + 2 * count]))
    data = (ctypes.c_uint8 * len(sheet)).from_buffer_copy(sheet) if sheet else (ctypes.c_uint8 * 1)()
    cube = start if isinstance(start, tuple) else (0, 0, 0)
    verdict = library().malxuqeed_check(
        Triple(nx, ny, nz), {None: 0, "lowest": 1}.get(start, 2), Triple(*cube), {"down": 0, "nearest": 1}[rule],
        samples, count, data, len(sheet),
        (ctypes.c_uint16 * cubes)(), cubes, (ctypes.c_uint32 * cubes)(), cubes, (ctypes.c_uint32 * slots)(), slots)
    return verdict.number, verdict.place


def main(words):
    rule = words.pop() if words and words[-1] in ("down", "nearest") else "nearest"
    if len(words) not in (2, 3):
        sys.exit(__doc__)
    with open(words[0], "rb") as volume, open(words[1], "rb") as sheet:
        named = words[2] if len(words) == 3 else None
        start = named if named in (None, "lowest") else tuple(int(part) for part in named.split(","))
        number, place = check(volume.read(), sheet.read(), start, rule)
    print(f"refused {number} {place}" if number else "accepted")
    return 1 if number else 0


if __name__ == "__main__":
    sys.exit(main(sys.argv[1:]))
