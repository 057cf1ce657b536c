#!/usr/bin/env python3
"""The forward that `kz bench --peer` times in PyTorch, in f32 on one thread. kz starts it and asks; nothing else does.

The model is 01's, in PyTorch's own operations, each as fast as it has it: it fuses, and sums in another order, and so
has other bits. Floats come and go as little-endian f32, words as lines.

    said at once                     peer NAME: PyTorch and its BLAS; or none WHY, and exit status 3
    LIST, weights, cosines, sines    the settings as `kz encode --settings` has them, and full tables
    grid H W, patches                then attention is tried in each way that there is, and ready is said
    run                              a forward by the fastest way; its processor seconds are said
    tokens                           the vectors of the last forward are written
"""
import os
import sys

for name in ("OMP", "OPENBLAS", "MKL", "BLIS"):
    os.environ[name + "_NUM_THREADS"] = "1"

import ctypes
import signal
import time


def say(words):
    sys.stdout.buffer.write((words + "\n").encode())
    sys.stdout.buffer.flush()


try:
    import torch
    import torch.nn.functional as F
except (ImportError, OSError) as error:
    say("none %s" % " ".join((str(error) or repr(error)).split()))
    sys.exit(3)

EPS = 1e-5


def blas():
    """What multiplies matrices, by its own words where it has some."""
    if torch.backends.mkl.is_available():
        return "MKL"
    with open("/proc/self/maps") as maps:
        files = sorted({line.split()[-1] for line in maps if ".so" in line})
    for file in files:
        if "openblas" in file:
            library = ctypes.CDLL(file)
            library.openblas_get_config.restype = library.openblas_get_corename.restype = ctypes.c_char_p
            version = b" ".join(library.openblas_get_config().split()[:2]).decode()
            return "%s for %s" % (version, library.openblas_get_corename().decode())
    for part, name in (("blis", "BLIS"), ("atlas", "ATLAS")):
        if any(part in os.path.dirname(file) or "lib" + part in file for file in files):
            return name
    if any("/libblas.so" in file for file in files):
        return "the reference BLAS, which is no peer (`apt-get install libopenblas0-pthread`)"
    return "a BLAS of its own"


def line():
    words = sys.stdin.buffer.readline().decode()
    if not words:
        sys.exit(0)
    return words.split()


def floats(*shape):
    count = 1
    for side in shape:
        count *= side
    room = memoryview(bytearray(4 * count))
    taken = 0
    while taken < len(room):
        more = sys.stdin.buffer.readinto(room[taken:])
        if not more:
            sys.exit(0)
        taken += more
    # A copy begins where PyTorch likes to have it.
    return torch.frombuffer(room, dtype=torch.float32).reshape(shape).clone()


def norm(x, weight):
    return x * torch.rsqrt(x.square().mean(-1, keepdim=True) + EPS) * weight


def bf16(x):
    return x.to(torch.bfloat16).to(torch.float32)


def rotated(x, cos, sin):
    one, two = x.chunk(2, -1)
    return x * cos + torch.cat((-two, one), -1) * sin


# Attention of q, k and v, each tokens x heads x head width: one head after the other, all at once, and PyTorch's own.


def each(q, k, v, scale):
    q = q * scale
    heads = range(q.shape[1])
    return torch.cat([torch.softmax(q[:, h] @ k[:, h].t(), -1) @ v[:, h] for h in heads], -1)


def at_once(q, k, v, scale):
    scores = (q * scale).transpose(0, 1) @ k.permute(1, 2, 0)
    return (torch.softmax(scores, -1) @ v.transpose(0, 1)).transpose(0, 1).flatten(1)


def fused(q, k, v, scale):
    q, k, v = (x.transpose(0, 1)[None] for x in (q * (scale * q.shape[-1] ** 0.5), k, v))
    return F.scaled_dot_product_attention(q, k, v)[0].transpose(0, 1).flatten(1)


WAYS = [each, at_once] + [fused] * hasattr(F, "scaled_dot_product_attention")


class Model:
    def __init__(self):
        self.s = s = {key: float(value) for key, value in (pair.split("=") for pair in line()[0].split(","))}
        self.scale = s.pop("scale")
        for key in s:
            s[key] = int(s[key])
        h, i, x, m = s["hidden"], s["intermediate"], s["text"], s["merge"]
        self.patch_conv, self.ln_pre = floats(h, 3 * s["patch"] ** 2), floats(h)
        layer = [(h,), (h, h), (h, h), (h, h), (h, h), (h,), (i, h), (i, h), (h, i)]
        self.layers = [[floats(*shape) for shape in layer] for _ in range(s["layers"])]
        self.projector = [floats(*shape) for shape in [(h,), (h, h * m * m), (x, h), (x, x)]]
        side = s["image"] // s["patch"]
        self.cos, self.sin = floats(side, side, 1, s["head"]), floats(side, side, 1, s["head"])

    def grid(self, rows, columns):
        self.rows, self.columns = rows, columns
        self.patches = floats(rows * columns, 3 * self.s["patch"] ** 2)

    def forward(self, way):
        s, rows, columns = self.s, self.rows, self.columns
        cos, sin = (table[:rows, :columns].flatten(0, 1) for table in (self.cos, self.sin))
        split = (rows * columns, s["heads"], s["head"])
        hidden = bf16(norm(bf16(F.linear(self.patches, self.patch_conv)), self.ln_pre))
        for norm_1, q, k, v, o, norm_2, gate, up, down in self.layers:
            x = norm(hidden, norm_1)
            q, k = (rotated(F.linear(x, weight).view(split), cos, sin) for weight in (q, k))
            hidden = hidden + F.linear(way(q, k, F.linear(x, v).view(split), self.scale), o)
            x = norm(hidden, norm_2)
            hidden = bf16(hidden + F.linear(F.silu(F.linear(x, gate), inplace=True) * F.linear(x, up), down))
        weight, merging, linear_1, linear_2 = self.projector
        m = s["merge"]
        x = norm(hidden, weight).view(rows // m, m, columns // m, m, -1).permute(0, 2, 4, 1, 3)
        x = F.linear(x.reshape(rows * columns // (m * m), -1), merging)
        return F.linear(F.gelu(F.linear(x, linear_1), approximate="tanh"), linear_2)


def timed(model, way):
    begun = time.process_time()
    tokens = model.forward(way)
    return time.process_time() - begun, tokens


def main():
    # Ctrl-C ends it as it ends kz, without a word.
    signal.signal(signal.SIGINT, signal.SIG_DFL)
    torch.set_num_threads(1)
    say("peer PyTorch %s, %s" % (torch.__version__, blas()))
    with torch.inference_mode():
        model = Model()
        while True:
            words = line()
            if words[0] == "grid":
                model.grid(int(words[1]), int(words[2]))
                way = min(WAYS, key=lambda way: min(timed(model, way)[0] for _ in range(2)))
                say("ready")
            elif words[0] == "run":
                seconds, tokens = timed(model, way)
                say("%.6f" % seconds)
            elif words[0] == "tokens":
                tokens = tokens.contiguous()
                sys.stdout.buffer.write(ctypes.string_at(tokens.data_ptr(), 4 * tokens.numel()))
                sys.stdout.buffer.flush()


main()
