#!/usr/bin/env python3
"""to_png.py PICTURE.ppm PICTURE.png [SCALE]: a picture of `replay` as PNG, each pixel SCALE by SCALE."""
import re
import struct
import sys
import zlib


def chunk(kind, body):
    return struct.pack(">I", len(body)) + kind + body + struct.pack(">I", zlib.crc32(kind + body))


def png(width, height, pixels, scale=1):
    """Rows of red, green and blue, as the bytes of a PNG."""

    def row(y):
        line = pixels[3 * width * y : 3 * width * (y + 1)]
        return b"\0" + b"".join(line[3 * x : 3 * x + 3] * scale for x in range(width))

    rows = b"".join(row(y) * scale for y in range(height))
    header = struct.pack(">IIBBBBB", width * scale, height * scale, 8, 2, 0, 0, 0)
    parts = chunk(b"IHDR", header) + chunk(b"IDAT", zlib.compress(rows, 9)) + chunk(b"IEND", b"")
    return b"\x89PNG\r\n\x1a\n" + parts


def convert(source, target, scale=1):
    """Says in one sentence what is wrong, if something is."""
    with open(source, "rb") as file:
        picture = re.fullmatch(rb"P6\n(\d+) (\d+)\n255\n(.*)", file.read(), re.DOTALL)
    if not picture or len(picture[3]) != 3 * int(picture[1]) * int(picture[2]):
        raise ValueError(f"{source} is no picture of replay (P6)")
    with open(target, "wb") as file:
        file.write(png(int(picture[1]), int(picture[2]), picture[3], scale))


def main(words):
    if len(words) not in (2, 3) or not re.fullmatch("[1-9][0-9]?", "".join(words[2:]) or "1"):
        sys.exit("it is called as to_png.py PICTURE.ppm PICTURE.png [SCALE], with a scale of 1 to 99")
    try:
        convert(words[0], words[1], *map(int, words[2:]))
    except OSError as error:
        sys.exit(f"{error.filename}: {error.strerror}")
    except ValueError as error:
        sys.exit(str(error))


if __name__ == "__main__":
    main(sys.argv[1:])
