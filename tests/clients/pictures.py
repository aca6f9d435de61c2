"""Reduces a PNG to a palette of colours that are frequent and differ, 256 by default."""

import collections
import struct
import zlib

SIGNATURE = b"\x89PNG\r\n\x1a\n"


def chunks_of(data):
    """The kinds and contents of a PNG's chunks."""
    at = len(SIGNATURE)
    while at < len(data):
        size, kind = struct.unpack(">I4s", data[at:at + 8])
        yield kind, data[at + 8:at + 8 + size]
        at += size + 12


def chunk(kind, content):
    code = zlib.crc32(kind + content)
    return struct.pack(">I", len(content)) + kind + content + struct.pack(">I", code)


def nearest(left, above, corner):
    """Paeth's choice of three neighbours."""
    at_left, at_above = abs(above - corner), abs(left - corner)
    at_corner = abs(left + above - 2 * corner)
    if at_left <= at_above and at_left <= at_corner:
        return left
    return above if at_above <= at_corner else corner


def unfiltered(kind, line, above, width):
    """A line of bytes without its filter; a pixel has so many bytes."""
    line = bytearray(line)
    if kind == 2:
        return bytearray((byte + up) & 255 for byte, up in zip(line, above))
    for place in range(len(line) if kind else 0):
        left = line[place - width] if place >= width else 0
        corner = above[place - width] if place >= width else 0
        guess = left if kind == 1 else (left + above[place]) // 2
        if kind == 4:
            guess = nearest(left, above[place], corner)
        line[place] = (line[place] + guess) & 255
    return line


def pixels_of(data):
    """The lines of a PNG as colours, its width and its height."""
    chunks = list(chunks_of(data))
    width, height, _, form = struct.unpack(">IIBB", chunks[0][1][:10])
    size = {2: 3, 6: 4}[form]
    content = zlib.decompress(b"".join(part for kind, part in chunks if kind == b"IDAT"))
    lines, above = [], bytes(width * size)
    for at in range(0, len(content), width * size + 1):
        above = unfiltered(content[at], content[at + 1:at + 1 + width * size], above, size)
        lines.append([tuple(above[x:x + 3]) for x in range(0, len(above), size)])
    return lines, width, height


def packed(places, depth):
    """The places of a line's colours as bytes, one or two a byte."""
    if depth == 8:
        return bytes(places)
    pairs = zip(places[::2], places[1::2] + [0] * (len(places) % 2))
    return bytes(16 * left + right for left, right in pairs)


def distance(colour, other):
    return sum((a - b) ** 2 for a, b in zip(colour, other))


def palette_of(counts, most):
    """So many colours: each is the one that most pixels are farthest from those before it."""
    found = [colour for colour, _ in counts.most_common(1)]
    far = {colour: distance(colour, found[0]) for colour in counts}
    while len(found) < min(most, len(counts)):
        best = max(far, key=lambda colour: far[colour] * counts[colour])
        found.append(best)
        far = {colour: min(far[colour], distance(colour, best)) for colour in far}
    return found


def smaller(data, most=256):
    """The same picture with at most so many colours."""
    lines, width, height = pixels_of(data)
    counts = collections.Counter(colour for line in lines for colour in line)
    palette = palette_of(counts, most)
    place = {
        colour: min(range(len(palette)), key=lambda at: distance(colour, palette[at]))
        for colour in counts
    }
    depth = 4 if most <= 16 else 8
    content = b"".join(b"\0" + packed([place[colour] for colour in line], depth) for line in lines)
    head = struct.pack(">IIBBBBB", width, height, depth, 3, 0, 0, 0)
    colours = b"".join(bytes(colour) for colour in palette)
    parts = {b"IHDR": head, b"PLTE": colours, b"IDAT": zlib.compress(content, 9), b"IEND": b""}
    return SIGNATURE + b"".join(chunk(*part) for part in parts.items())
