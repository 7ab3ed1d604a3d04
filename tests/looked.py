#!/usr/bin/env python3
"""What tests/browser looks at in prints and pictures.

    tests/looked.py sheets WORDS         WORDS is what `pdftotext -bbox` says of a print: no sheet but the last may be half empty
    tests/looked.py light LIGHT DARK     two pictures of one page: both are drawn on, and the dark one is dark

Exit status: 0 where it is so, else 1.
"""
import re
import struct
import sys
import zlib


def sheets_full(path):
    """Whether the lowest word on each sheet but the last lies in its lower part."""
    sheets = open(path, encoding="utf-8").read().split("<page ")[1:]
    for sheet in sheets[:-1]:
        height = float(re.search(r'height="([0-9.]+)"', sheet)[1])
        if max(float(y) for y in re.findall(r'yMax="([0-9.]+)"', sheet)) < 0.6 * height:
            return False
    return True


def picture(path):
    """The lines of a PNG file, of each pixel its first colour."""
    data = open(path, "rb").read()
    at, bits, size = 8, b"", None
    while at < len(data):
        length, kind = struct.unpack(">I4s", data[at : at + 8])
        body = data[at + 8 : at + 8 + length]
        if kind == b"IHDR":
            width, height, _, colour = struct.unpack(">IIBB", body[:10])
            size = width, height, {2: 3, 6: 4}[colour]
        if kind == b"IDAT":
            bits += body
        at += 12 + length
    width, height, each = size
    raw, row, rows = zlib.decompress(bits), bytearray(width * each), []
    for y in range(height):
        kind, line = raw[y * (width * each + 1)], bytearray(raw[y * (width * each + 1) + 1 : (y + 1) * (width * each + 1)])
        for i in range(len(line)):
            left = line[i - each] if i >= each else 0
            up, corner = row[i], row[i - each] if i >= each else 0
            if kind == 1:
                line[i] = (line[i] + left) & 255
            elif kind == 2:
                line[i] = (line[i] + up) & 255
            elif kind == 3:
                line[i] = (line[i] + (left + up) // 2) & 255
            elif kind == 4:
                guess = left + up - corner
                best = min((abs(guess - v), k, v) for k, v in enumerate((left, up, corner)))[2]
                line[i] = (line[i] + best) & 255
        row = line
        rows.append(bytes(line[0 :: each]))
    return rows


def light_and_dark(light, dark):
    """Whether both pictures have many colours, and the second is darker than the first."""
    mean = lambda rows: sum(map(sum, rows)) / sum(map(len, rows))
    drawn = lambda rows: sum(len(set(row)) > 4 for row in rows) / len(rows)
    print(f"browser: brightness {mean(light):.0f} in light and {mean(dark):.0f} in dark, {drawn(light):.0%} and {drawn(dark):.0%} of the lines drawn")
    return mean(light) > 170 and mean(dark) < 90 and drawn(light) > 0.2 and drawn(dark) > 0.2


def main():
    what, *files = sys.argv[1:]
    right = sheets_full(*files) if what == "sheets" else light_and_dark(*map(picture, files))
    return 0 if right else 1


if __name__ == "__main__":
    sys.exit(main())
