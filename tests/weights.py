#!/usr/bin/env python3
"""Files for `weights`, and what it answers, worked out from document 02, RFC 8259 and the public layout of safetensors
alone (nothing of the port is read or run, and nothing of the safetensors package).

  tests/weights.py            the records of crates/weights_replay/stdin
  tests/weights.py check LIB [COUNT]   the answers of a shared library that has kz_weights, to COUNT files (10,000)
  tests/weights.py count      how many records there are of each number
  tests/weights.py seeds DIR  64 files for tests/fuzz/weights.c to begin with

Whether a header is a text, and where not, is what tests/config.py finds; its members, one after another, and their values
are Python's json's. A record is a line of numbers, parted by tabs, then the file, then a newline. The numbers are the
file's length; patch, merge, image, rule, hidden, heads, head, layers, intermediate, text and bias; how many floats are
lent; number, floats, tensor and place of the answer; and the hash of 2,048 words afterwards. The first of the words are
lent. Before the call they are the marks of crates/replay.
"""
import collections
import ctypes
import json
import random
import struct
import sys

from config import Digits, blank, damaged, place, plain, read, value

Settings = collections.namedtuple("Settings", "patch merge image rule hidden heads head layers intermediate text bias")
WORDS = 2048
SIZES = {"F32": 4, "BF16": 2, "F16": 2}


# ---- what is asked for

def allowed(s):
    return (1 <= s.patch <= 32 and 1 <= s.merge <= 4 and 1 <= s.image <= 2048 and s.rule in (1, 2) and 4 <= s.hidden <= 2048
            and 1 <= s.heads <= 64 and 4 <= s.head <= 256 and s.head % 4 == 0 and s.heads * s.head == s.hidden
            and s.layers <= 48 and 1 <= s.intermediate <= 8192 and 1 <= s.text <= 8192 and s.bias in (0, 1))


def parts(s):
    """Name and count of each tensor, in the order of the weights' table."""
    h, i, x = s.hidden, s.intermediate, s.text
    found = [("vision_tower.patch_conv.weight", h * 3 * s.patch**2), ("vision_tower.ln_pre.weight", h)]
    for n in range(s.layers):
        layer = [("attention_norm", h), ("attention.q_proj", h * h), ("attention.k_proj", h * h), ("attention.v_proj", h * h),
                 ("attention.o_proj", h * h), ("ffn_norm", h), ("feed_forward.gate_proj", i * h),
                 ("feed_forward.up_proj", i * h), ("feed_forward.down_proj", h * i)]
        found += [(f"vision_tower.transformer.layers.{n}.{name}.weight", count) for name, count in layer]
    found += [("multi_modal_projector.norm.weight", h),
              ("multi_modal_projector.patch_merger.merging_layer.weight", h * h * s.merge**2),
              ("multi_modal_projector.linear_1.weight", x * h)]
    found += [("multi_modal_projector.linear_1.bias", x)] * s.bias
    found += [("multi_modal_projector.linear_2.weight", x * x)]
    found += [("multi_modal_projector.linear_2.bias", x)] * s.bias
    return found


# ---- what a header says

READER = json.JSONDecoder(parse_int=Digits, parse_float=lambda x: None)


def skipped(text, at, more=""):
    while text[at] in " \t\n\r" + more:
        at += 1
    return at


def members(header):
    """Where the value of each name begins, and the value; of two names alike the last. The header is an object."""
    text = header.decode()
    at, found = skipped(text, 0) + 1, {}
    while text[at := skipped(text, at, ",")] != "}":
        name, at = READER.raw_decode(text, at)
        at = skipped(text, at, ":")
        value, end = READER.raw_decode(text, at)
        found[name] = len(text[:at].encode()), value
        at = end
    return found


def numbers(value):
    """The numbers of a list of plain digits, or None."""
    found = [plain(v) for v in value] if isinstance(value, list) else [None]
    return None if None in found else found


def entry(value):
    """dtype, shape and offsets, or None."""
    if not isinstance(value, dict):
        return None
    dtype, shape, offsets = value.get("dtype"), numbers(value.get("shape")), numbers(value.get("data_offsets"))
    if not isinstance(dtype, str) or isinstance(dtype, Digits) or shape is None or offsets is None or len(offsets) != 2:
        return None
    return dtype, shape, offsets


def product(shape):
    p = 1
    for n in shape:
        p *= n
    return p


# ---- the answer

def half(h):
    """The bits of a half as an f32."""
    if h >> 10 & 31 == 31:
        return h >> 15 << 31 | 255 << 23 | (h & 1023) << 13
    return struct.unpack("<I", struct.pack("<f", struct.unpack("<e", struct.pack("<H", h))[0]))[0]


def widened(dtype, data):
    if dtype == "F32":
        return [x for x, in struct.iter_unpack("<I", data)]
    return [x << 16 if dtype == "BF16" else half(x) for x, in struct.iter_unpack("<H", data)]


def answer(s, file, lent):
    """Number, floats, tensor and place; and what is written."""
    refused = lambda number, tensor=0, place=0: ([number, 0, tensor, place], [])
    if not allowed(s):
        return refused(1)
    if len(file) < 8:
        return refused(16)
    length = int.from_bytes(file[:8], "little")
    if length > len(file) - 8:
        return refused(16)
    header, data = file[8:8 + length], file[8 + length:]
    number, at = place(header)
    if number:
        return refused(16, 0, 8 + at)
    if not isinstance(read(header), dict):
        return refused(16, 0, 8 + skipped(header.decode(), 0))
    found, asked = members(header), parts(s)
    said = {name: entry(value) for name, (_, value) in found.items()}
    for tensor, (name, _) in enumerate(asked, 1):
        if name in found and said[name] is None:
            return refused(16, tensor, 8 + found[name][0])
    for tensor, (name, count) in enumerate(asked, 1):
        if name not in found:
            return refused(17, tensor)
        dtype, shape, _ = said[name]
        if dtype not in SIZES or product(shape) != count:
            return refused(17, tensor, 8 + found[name][0])
    for tensor, (name, count) in enumerate(asked, 1):
        dtype, _, (begin, end) = said[name]
        if begin > end or end > len(data) or end - begin != count * SIZES[dtype]:
            return refused(18, tensor, 8 + found[name][0])
    floats = sum(count for _, count in asked)
    if lent < floats:
        return refused(5)
    out = []
    for name, _ in asked:
        dtype, _, (begin, end) = said[name]
        out += widened(dtype, data[begin:end])
    return [0, floats, 0, 0], out


# ---- the words before and after

def marks():
    x, out = 77, []
    for _ in range(WORDS):
        x = (x * 1664525 + 1013904223) % 2**32
        out.append(x)
    return out


MARKS = marks()


def hashed(words):
    a = b = 1
    for x in words:
        a, b = (a * 2147483629 + x) % 4294967291, (b * 2147483587 + x) % 4294967279
    return a << 32 | b


# ---- files

def settings(r, layers):
    heads = r.choice((1, 1, 1, 1, 2)) if layers < 3 else 1
    return Settings(r.choice((1, 1, 1, 2)), r.choice((1, 1, 1, 2)), 16, r.choice((1, 2)), 4 * heads, heads, 4, layers,
                    r.choice((1, 1, 2)), r.choice((1, 2, 3)), r.randrange(2))


def quoted(r, text, escapes):
    out = b""
    for c in text:
        form = r.choice((b"\\u%04x", b"\\u%04X")) if r.random() < escapes else None
        out += form % ord(c) if form else c.encode()
    return b'"' + out + b'"'


def listed(r, items):
    return b"[" + b",".join(blank(r) + b"%d" % n + blank(r) if r.random() < 0.1 else b"%d" % n for n in items) + b"]"


def shaped(r, count):
    """A shape of that count."""
    shape = [count]
    for n in (2, 3, 4):
        if count % n == 0 and r.random() < 0.5:
            shape = [n, count // n]
    shape += [1] * (r.random() < 0.2)
    return [] if count == 1 and r.random() < 0.7 else shape


class Draft:
    """A file before it is written: for each tensor asked for the members of its entry, as pairs of key and text."""

    def __init__(self, r, s, dtypes):
        self.r, self.s, self.asked, self.data = r, s, parts(s), b""
        self.escapes, self.dtypes = r.choice((0, 0, 0, 0.02)), {}
        entries = {}
        for name, count in r.sample(self.asked, len(self.asked)):
            dtype = r.choice(dtypes)
            size = count * SIZES[dtype]
            if size <= len(self.data) and r.random() < 0.15:
                begin = r.randrange(len(self.data) - size + 1)  # on another tensor
            else:
                self.data += r.randbytes(r.choice((0, 0, 0, 0, 0, 1, 7)))
                begin = len(self.data)
                self.data += r.randbytes(size)
            self.dtypes[name] = dtype
            entries[name] = [("dtype", quoted(r, dtype, 5 * self.escapes)), ("shape", listed(r, shaped(r, count))),
                             ("data_offsets", listed(r, (begin, begin + size)))]
            r.shuffle(entries[name])
        self.data += r.randbytes(r.choice((0, 0, 0, 5)))
        self.entries = list(entries.items())
        self.before, self.behind, self.whole = [], [], None  # further members of the header, as texts; a file in its place
        self.lent = sum(count for _, count in self.asked) + r.choice((0, 0, 0, 1, 40))

    def written(self, entry):
        if isinstance(entry, bytes):
            return entry
        pairs = (quoted(self.r, key, self.escapes) + b":" + text for key, text in entry)
        return b"{" + b",".join(pairs) + b"}"

    def member(self, name, entry):
        return blank(self.r) + quoted(self.r, name, self.escapes) + blank(self.r) + b":" + blank(self.r) + self.written(entry)

    def header(self):
        members = self.before + [self.member(name, entry) for name, entry in self.entries] + self.behind
        return blank(self.r) + b"{" + b",".join(members) + b"}" + blank(self.r)

    def file(self):
        header = self.header()
        return self.whole if self.whole is not None else len(header).to_bytes(8, "little") + header + self.data

    def set(self, name, key, text):
        """The member of that key in the entry of that name, or, without a text, none."""
        for i, (other, entry) in enumerate(self.entries):
            if other == name and not isinstance(entry, bytes):
                kept = [pair for pair in entry if pair[0] != key]
                self.entries[i] = name, kept + ([] if text is None else [(key, text)])

    def replace(self, name, entry):
        self.entries = [(other, entry if other == name else old) for other, old in self.entries]

    def put(self, file):
        self.whole = file

    def again(self, name, entry):
        self.behind.append(self.member(name, entry))

    def remove(self, name):
        self.entries = [pair for pair in self.entries if pair[0] != name]


ODD = (b"null", b"0", b"[]", b"{}", b'""', b"true", b"-1", b'{"dtype":"F32"}', b'"F32"', b"[[]]")
NO_STRING = (None, b"null", b"32", b"[]", b'["F32"]', b"{}", b"true", b"-0.5")
NO_LIST = (None, b"null", b"4", b'"[4]"', b"{}", b"[null]", b"[-4]", b"[4.0]", b"[4e0]", b"[-0]", b'["4"]', b"[[4]]", b"[4,true]",
           b"[18446744073709551616]", b"[4,340282366920938463463374607431768211456]", b"[99999999999999999999]")
NO_TWO = NO_LIST + (b"[]", b"[0]", b"[0,4,4]", b"[0,18446744073709551616]", b"[0,16.0]", b"[0,null]")
NO_DTYPE = (b'""', b'"f32"', b'"F32 "', b'"F64"', b'"I32"', b'"BF16\\u0000"', b'"F"', b'"F16F16"', b'"BF8"', b'"\\ud800"', "\"F3²\"".encode())
NO_OBJECT = (b"[]", b"null", b'""', b"0", b"[{}]", b"true", b'"{}"', b"-1", b" \n[]")
OTHERS = ("lm_head.weight", "vision_tower.transformer.layers.99.ffn_norm.weight", "vision_tower.ln_pre.bias", "", "dtype",
          "vision_tower.transformer.layers.00.ffn_norm.weight", "multi_modal_projector.linear_1.bias ")


def harmless(d):
    """What is skipped, or counts no more."""
    r, (name, entry) = d.r, d.r.choice(d.entries)
    kind = r.randrange(8)
    if kind == 0:
        d.before.append(d.member("__metadata__", r.choice((b'{"format":"pt"}',) + ODD)))
    elif kind == 1:
        r.choice((d.before, d.behind)).append(d.member(r.choice(OTHERS), value(r, 3)))
    elif kind == 2:
        d.before.append(d.member(name, r.choice(ODD)))  # an entry of the same name follows
    elif kind == 3:
        d.replace(name, [(r.choice(("dtype", "shape", "data_offsets")), r.choice(ODD))] + entry)
    elif kind == 4:
        d.replace(name, entry + [(r.choice(("", "a", "Dtype", "shape ", "data_offset")), r.choice(ODD))])
    elif kind == 5:
        d.behind.append(d.member("a", b"[" * 31 + b"]" * 31))
    elif kind == 6:
        d.behind.append(d.member(r.choice(("é€𝄞", "\x7f")), r.choice((b'"\\ud800"', b"1e999", "\"é\"".encode(), b'"\\n"'))))
    else:
        d.before.append(b"\n" + d.member(name, d.written(entry)))


# ---- damages: each gives a list of ways, a function and what it is given

def entry_damages(d, name, count):
    """16."""
    return ([(d.replace, name, text) for text in ODD] + [(d.again, name, text) for text in ODD]
            + [(d.set, name, "dtype", text) for text in NO_STRING] + [(d.set, name, "shape", text) for text in NO_LIST]
            + [(d.set, name, "data_offsets", text) for text in NO_TWO])


def tensor_damages(d, name, count):
    """17."""
    third = pow(3, -1, 2**64) * count % 2**64
    shapes = ([count + 1], [count - 1], [0], [count, 0], [2, count], [count, 2], [1, 1, count + 2], [3, third], [2**64 - 1] * 2 + [count],
              [2**32, 2**32], [2**63, 2, 0], [2**64 - 1, count + 1], [2**64 - count], [0, 2**64 - 1, 2**64 - 1], [count, 2**32, 2**32])
    dtype = d.dtypes[name]
    dtypes = [quoted(d.r, text, 0.3) for text in (dtype.lower(), dtype + "\0", dtype[:-1], "F" + dtype)]
    return ([(d.remove, name)] + [(d.set, name, "dtype", text) for text in [*NO_DTYPE, *dtypes]]
            + [(d.set, name, "shape", listed(d.r, shape)) for shape in shapes])


def offset_damages(d, name, count):
    """18."""
    n, size, top = len(d.data), count * SIZES[d.dtypes[name]], 2**64
    pairs = ((size, 0), (1, 0), (0, 0), (n, n), (0, size + 1), (0, size - 1), (n - size + 1, n + 1), (n, n + size), (n + 8, n + 8 + size),
             (0, 3 * count), (0, 8 * count), (top - size, 0), (top - 1, size - 1), (top - 1 - size, top - 1), (2**63, 2**63 + size),
             (0, top - 1), (top - 1, top - 1))
    return [(d.set, name, "data_offsets", listed(d.r, pair)) for pair in pairs]


def file_damages(d, name, count):
    """16, of the file as a whole: cut, or with another length of the header, or a header that is no text or no object."""
    header = d.header()
    with_header = lambda text: len(text).to_bytes(8, "little") + text + d.data
    file = with_header(header)
    n, h = len(file), len(header)
    cuts = (0, 1, 7, 8, 9, n // 2, h + 7, h + 8)
    lengths = (0, 1, n - 9, n - 8, n - 7, n, h - 1, h + 1, 2**32 + h, 2**63, 2**64 - 1, 2**64 - 8, 2**64 - 4, 256 * h, h << 32)
    deep = lambda text: b"{" + d.member("a", text) + b"," + header[header.index(b"{") + 1:]
    nests = [deep(b"[" * k + b"]" * k) for k in (31, 32)] + [deep(b'{"":' * k + b"0" + b"}" * k) for k in (31, 32)] + [deep(b"[" * 40)]
    around = [b"\xef\xbb\xbf" + header, b"\0" + header, b"{}" + header] + [header + text for text in (b"\0", b"{}", b",", b"\xff", b" \n x")]
    headers = [*NO_OBJECT, *nests, *around, *(damaged(d.r, header) for _ in range(20))]
    return ([(d.put, file[:cut]) for cut in cuts] + [(d.put, k.to_bytes(8, "little") + file[8:]) for k in lengths]
            + [(d.put, with_header(text)) for text in headers])


DAMAGES = (entry_damages, tensor_damages, offset_damages)


def damage(d, ways):
    name, count = d.r.choice(d.asked)
    work, *given = d.r.choice(ways(d, name, count))
    work(*given)


def drafted(r, layers):
    return Draft(r, settings(r, layers), r.choice((["F32"], ["BF16"], ["F16"], list(SIZES), list(SIZES))))


def one_by_one(r):
    """Each damage once, in a file that is else good."""
    for ways in (*DAMAGES, file_damages):
        k, found = 0, [None]
        while k < len(found):
            d = drafted(r, 0)
            found = ways(d, *r.choice(d.asked))
            work, *given = found[k]
            work(*given)
            yield d.s, d.file(), d.lent
            k += 1


def several(r, kind):
    """Settings, a file with more than one thing odd, and how many floats are lent."""
    d = drafted(r, r.choice((11, 12)) if kind == 9 else r.choice((0,) * 11 + (1,)))
    for _ in range(r.choice((0, 1, 2))):
        harmless(d)
    if kind == 5 or kind == 6:  # damages of several numbers
        for _ in range(r.choice((2, 2, 3, 4))):
            damage(d, r.choice(DAMAGES))
        d.lent = r.choice((0, d.lent))
    elif kind == 7:  # a slice that is short
        d.lent = r.choice((0, 1, sum(count for _, count in d.asked) - 1))
        if r.random() < 0.3:
            damage(d, r.choice(DAMAGES))
    elif kind == 8:  # settings of another model, and such that are not allowed
        name = r.choice(Settings._fields)
        was = getattr(d.s, name)
        d.s = d.s._replace(**{name: r.choice((0, was + 1, was * 2, 9000, 2**64 - 1))})
        if r.random() < 0.3:
            damage(d, file_damages)
    elif kind == 10:
        damage(d, r.choice(DAMAGES))
        damage(d, file_damages)
    return d.s, d.file(), d.lent


def files(count):
    r = random.Random(20260104)
    yield from one_by_one(r)
    for n in range(count):
        yield several(r, 9 if n % 80 == 79 else n % 9 if n % 9 else 10)


def main():
    if sys.argv[1:2] == ["check"]:
        return check(sys.argv[2], int(sys.argv[3]) if len(sys.argv) > 3 else 10000)
    if sys.argv[1:2] == ["seeds"]:
        return seeds(sys.argv[2])
    out, numbers = sys.stdout.buffer, collections.Counter()
    for s, file, lent in files(180):
        told, words = answer(s, file, lent)
        numbers[told[0]] += 1
        line = [len(file), *s, lent, *told, hashed(words + MARKS[len(words):])]
        if sys.argv[1:] != ["count"]:
            out.write(b"\t".join(b"%d" % n for n in line) + b"\n" + file + b"\n")
    if sys.argv[1:] == ["count"]:
        print(dict(sorted(numbers.items())))


# ---- for a fuzzer

def seeds(folder):
    """A byte by which tests/fuzz/weights.c picks settings, and a file of these, every other one damaged."""
    r = random.Random(20260104)
    for n in range(64):
        s = Settings(1 + (n >> 2 & 1), 1, 0 if n & 16 else 8, 1, 4, 1, 4, n >> 1 & 1, 1, 1 + (n >> 3 & 1), n & 1)
        d = Draft(r, s, list(SIZES))
        harmless(d)
        if n >= 32:
            damage(d, r.choice((*DAMAGES, file_damages)))
        with open(f"{folder}/{n:02}", "wb") as out:
            out.write(bytes([n & 31]) + d.file())


# ---- asked of the port

class Picture(ctypes.Structure):
    _fields_ = [(n, ctypes.c_size_t) for n in "patch merge image rule".split()] + [("mean", ctypes.c_float * 3), ("deviation", ctypes.c_float * 3)]


class Encoder(ctypes.Structure):
    _fields_ = [("picture", Picture)] + [(n, ctypes.c_size_t) for n in "hidden heads head layers intermediate text bias".split()] + [("scaling", ctypes.c_float)]


class Report(ctypes.Structure):
    _fields_ = [("number", ctypes.c_uint32), ("floats", ctypes.c_size_t), ("tensor", ctypes.c_size_t), ("place", ctypes.c_size_t)]


def check(library, count):
    call = ctypes.CDLL(library).kz_weights
    call.restype, call.argtypes = Report, [Encoder, ctypes.c_char_p, ctypes.c_size_t, ctypes.POINTER(ctypes.c_uint32), ctypes.c_size_t]
    numbers, wrong = collections.Counter(), 0
    for s, file, lent in files(count):
        out = (ctypes.c_uint32 * WORDS)(*MARKS)
        told = call(Encoder(Picture(*s[:4]), *s[4:], 1.0), file, len(file), out, lent)
        found = [told.number, told.floats, told.tensor, told.place]
        right, words = answer(s, file, lent)
        numbers[right[0]] += 1
        if found != right or list(out) != words + MARKS[len(words):]:
            wrong += 1
            print("differ", s, file, lent, "found", found, "right", right)
    print(sum(numbers.values()), "files, by number", dict(sorted(numbers.items())), "-", wrong, "differ")
    return wrong > 0


if __name__ == "__main__":
    sys.exit(main())
