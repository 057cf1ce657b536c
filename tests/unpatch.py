#!/usr/bin/env python3
"""Texts for `unpatch`, and what it answers, worked out from document 01 alone (nothing of the port is read or run).

  tests/unpatch.py           the records of crates/unpatch_replay/stdin
  tests/unpatch.py answer    the answer to the text on standard input

A record is a line of two numbers of five digits, tab-parted, the lengths of a text and of its answer; then the text, then
the answer. The numbers of a refused call follow 01's list; the form is a regular expression; the picture is resized in
Python's floats (f64), in the order of bilinear_resize_rgb, and by 01 that is what restore gives back.
"""
import math
import random
import re
import sys

DECIMAL = rb"(0|[1-9][0-9]*)"
VISION = re.compile(rb"vision\t" + DECIMAL + rb"\t" + DECIMAL + rb"\t" + DECIMAL + rb"\n")
PICTURE = re.compile(rb"picture\t" + DECIMAL + rb"\t" + DECIMAL + rb"\n")
ROW = re.compile(rb"row\t" + DECIMAL + rb"\t((?:[0-9a-f][0-9a-f])+)\n")
OUTSIDE = b"refused\ttext\n"


def form(text):
    """Settings, sides and RGB of a text in the form; None outside it."""
    if len(text) > 48 * 1024:
        return None
    v = VISION.match(text)
    if not v:
        return None
    p = PICTURE.match(text, v.end())
    if not p:
        return None
    at, rgb, index = p.end(), b"", 0
    while at < len(text):
        r = ROW.match(text, at)
        if not r or r[1] != b"%d" % index:
            return None
        rgb += bytes.fromhex(r[2].decode())
        at, index = r.end(), index + 1
    patch, merge, image = (int(x) for x in v.groups())
    height, width = (int(x) for x in p.groups())
    if max(patch, merge, image, height, width, patch * merge) > 64:
        return None
    return patch, merge, image, height, width, rgb


def number(patch, merge, image, height, width, rgb):
    """The first number that applies, in preprocess's order; the output always has room."""
    if not (1 <= patch <= 32 and 1 <= merge <= 4 and 1 <= image <= 2048):
        return 1
    if not (1 <= height <= 8192 and 1 <= width <= 8192):
        return 2
    if len(rgb) != height * width * 3:
        return 3
    if image < patch * merge:
        return 4
    return 0


def side(x, align, image):
    return min(-(-x // align) * align, image) // align * align


def half_away(x):
    low = math.floor(x)
    return low + 1 if x - low >= 0.5 else low


def resize(rgb, sh, sw, dh, dw):
    out = bytearray()
    for dy in range(dh):
        sy = float(dy) * (float(sh) / float(dh))
        y0 = min(math.floor(sy), sh - 1)
        y1, fy = min(y0 + 1, sh - 1), sy - float(y0)
        for dx in range(dw):
            sx = float(dx) * (float(sw) / float(dw))
            x0 = min(math.floor(sx), sw - 1)
            x1, fx = min(x0 + 1, sw - 1), sx - float(x0)
            for c in range(3):
                v = lambda y, x: float(rgb[(y * sw + x) * 3 + c])
                val = (v(y0, x0) * (1.0 - fx) * (1.0 - fy) + v(y0, x1) * fx * (1.0 - fy)
                       + v(y1, x0) * (1.0 - fx) * fy + v(y1, x1) * fx * fy)
                out.append(min(max(half_away(val), 0), 255))
    return bytes(out)


def answer(text):
    call = form(text)
    if call is None:
        return OUTSIDE
    refused = number(*call)
    if refused:
        return b"refused\t%d\n" % refused
    patch, merge, image, height, width, rgb = call
    dh, dw = (side(x, patch * merge, image) for x in (height, width))
    gh, gw = dh // patch, dw // patch
    lines = [b"grid\t%d\t%d\t%d\n" % (gh, gw, gh * gw // merge ** 2)]
    bytes_ = resize(rgb, height, width, dh, dw)
    for y in range(dh):
        lines.append(b"row\t%d\t%s\n" % (y, bytes_[y * dw * 3:(y + 1) * dw * 3].hex().encode()))
    return b"".join(lines)


def text(patch, merge, image, height, width, rows=()):
    lines = [b"vision\t%d\t%d\t%d\n" % (patch, merge, image), b"picture\t%d\t%d\n" % (height, width)]
    return b"".join(lines + [b"row\t%d\t%s\n" % (i, r.hex().encode()) for i, r in enumerate(rows)])


def split(rgb, rng):
    """The bytes over lines, cut anywhere."""
    rows = []
    while rgb:
        n = rng.randint(1, len(rgb))
        rows.append(rgb[:n])
        rgb = rgb[n:]
    return rows


def texts():
    rng = random.Random(20260313)
    good = text(1, 2, 2, 1, 1, [b"\x0a\x14\x1e"])
    head = b"vision\t1\t2\t2\npicture\t1\t1\n"
    yield good
    # outside the form: the whole, the ends of lines, the words, the tabs
    yield from (b"", b"\n", b"\0", good[:-1], good + b"\n", b"\n" + good, good.replace(b"\n", b"\r\n"), good + b"\0",
                good.replace(b"row", b"row\0"), good.replace(b"picture", b"Picture"), good.replace(b"vision", b"visio"),
                good.replace(b"vision", b"visions"), good.replace(b"row", b"rows"), good.replace(b"row", b" row"),
                good.replace(b"\t", b" "), good.replace(b"\t", b"\t\t"), good.replace(b"\t1\t1\n", b"\t1\t1\t\n"),
                good.replace(b"\t2\t2\n", b"\t2\t2\t2\n"), good.replace(b"\t2\t2\n", b"\t2\n"),
                good.replace(b"\t1\t1\n", b"\t1\n"), good.replace(b"\t1\t1\n", b"\t1\t1\t1\n"), b"vision\t1\t2\t2\n",
                b"vision\t1\t2\t2", b"picture\t1\t1\n" + b"vision\t1\t2\t2\n", head[14:] + head[:14], b"vision\n" + head[14:],
                b"vision\t\t2\t2\n" + head[14:], head + b"row\n", head + b"row\t0\n", head + b"row\t0\t\n", head + b"\n",
                head + b"row\t\t0a141e\n", head + b"row\t0\t0a141e\t\n", head + b"row\t0\t0a141e\t00\n", head + head,
                head + b"row\t0\t0a141e \n", good + good)
    # decimals
    yield from (good.replace(b"vision\t1", b"vision\t" + d) for d in (b"01", b"00", b"+1", b"-1", b"1.0", b"0x1", b"1 ", b" 1",
                b"", b"a", b"65", b"99999999999999999999", b"18446744073709551617", b"1e0", b"/", b":"))
    yield from (good.replace(b"picture\t1\t1", b"picture\t1\t" + d) for d in (b"01", b"65", b"18446744073709551617", b""))
    # hex
    yield from (head + b"row\t0\t" + h + b"\n" for h in (b"0A141E", b"0a141", b"0a141g", b"0a 14 1e", b"0x0a141e", b"0a14:e",
                b"0a14`e", b"0a14/e", b"0a141E", b"0"))
    # a row's index
    yield from (head + b"row\t1\t0a141e\n", head + b"row\t0\t0a\nrow\t0\t141e\n", head + b"row\t0\t0a\nrow\t2\t141e\n",
                head + b"row\t00\t0a141e\n", head + b"row\t0\t0a\nrow\t1\t14\nrow\t2\t1e\n",
                head + b"row\t0\t0a\nrow\t1\t141e\nrow\t1\t\n", head + b"row\t18446744073709551616\t0a141e\n")
    # ends of the limits, each with one more
    for patch, merge, image in ((64, 1, 64), (65, 1, 64), (1, 64, 64), (1, 65, 64), (1, 1, 65), (32, 2, 64), (33, 2, 64),
                                (16, 4, 64), (21, 4, 64), (8, 8, 64), (9, 8, 64), (32, 3, 64), (0, 0, 0), (0, 64, 1)):
        yield text(patch, merge, image, 1, 1, [b"\1\2\3"])
    for height, width in ((64, 1), (65, 1), (1, 64), (1, 65), (0, 1), (1, 0), (0, 0)):
        yield text(1, 1, 64, height, width, split(bytes(rng.randrange(256) for _ in range(3 * height * width)), rng))
    # refusals, and their order
    yield from (text(0, 1, 1, 0, 0), text(33, 1, 1, 1, 1), text(1, 5, 1, 1, 1), text(1, 0, 1, 1, 1), text(1, 1, 0, 1, 1),
                text(1, 1, 1, 0, 1, [b"\1"]), text(2, 2, 3, 1, 1), text(2, 2, 3, 1, 1, [b"\1\2\3"]),
                text(2, 2, 4, 1, 1, [b"\1\2"]), text(2, 2, 4, 1, 1, [b"\1\2\3\4"]), text(2, 2, 4, 1, 1), text(32, 1, 31, 1, 1, [b"\1\2\3"]))
    # every small shape of settings, sides by chance, and each byte value
    for patch, merge in ((1, 1), (1, 2), (2, 1), (1, 3), (3, 1), (1, 4), (4, 1), (2, 2), (2, 3), (3, 2), (5, 4), (7, 2)):
        for _ in range(4):
            image = rng.randint(patch * merge, min(64, 4 * patch * merge))
            height, width = rng.randint(1, 9), rng.randint(1, 9)
            rgb = bytes(rng.randrange(256) for _ in range(3 * height * width))
            yield text(patch, merge, image, height, width, split(rgb, rng))
    yield text(4, 2, 16, 16, 16, split(bytes(i % 256 for i in range(768)), rng))
    yield text(4, 2, 16, 8, 16, split(bytes(255 - i % 256 for i in range(384)), rng))
    yield text(1, 1, 2, 1, 4, [b"\x0a" * 3 + b"\x14" * 3 + b"\x1e" * 3 + b"\x28" * 3])
    yield text(1, 4, 4, 1, 2, [b"\0\0\0\xff\xff\xff"])
    # the largest picture, whole; then 48 KiB exactly, and one byte more, both in the form but for that byte
    yield text(2, 1, 64, 64, 64, [bytes(rng.randrange(256) for _ in range(192)) for _ in range(64)])
    for total in (48 * 1024, 48 * 1024 + 1):
        heads = (text(2, 1, 64, 64, width) + b"row\t0\t" for width in (9, 10))
        yield next(h + b"0" * (total - len(h) - 1) + b"\n" for h in heads if (total - len(h) - 1) % 2 == 0)


def main():
    if sys.argv[1:] == ["answer"]:
        sys.stdout.buffer.write(answer(sys.stdin.buffer.read()))
        return
    for t in texts():
        a = answer(t)
        sys.stdout.buffer.write(b"%05d\t%05d\n" % (len(t), len(a)) + t + a)


main()
