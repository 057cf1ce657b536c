/*
 * kz_weights beside a second reader, for a fuzzer: weights [FILE], or the same on standard input. Its first byte picks the
 * settings and how many floats are lent; the rest is the image of a safetensors file. It aborts where the two differ in a
 * field of the report or in a bit of the weights. What the second reader reads is judged by json.h first.
 *
 * For AFL++ see config.c.
 */
#include "json.h"
#include "kyzgultam.h"

#include <math.h>
#include <stdio.h>
#include <stdlib.h>

enum { MOST = 4096, TENSORS = 8 + 9 * 48 };

/* ---- a text that is known to be one */

static size_t past_blanks(const uint8_t *t, size_t at) {
    while (blank(t[at])) at++;
    return at;
}

static size_t past_string(const uint8_t *t, size_t at) {
    for (at++; t[at] != '"'; at++) at += t[at] == '\\';
    return at + 1;
}

static size_t past_value(const uint8_t *t, size_t at) {
    size_t depth = 0;
    if (t[at] != '"' && t[at] != '[' && t[at] != '{') {
        while (!blank(t[at]) && t[at] != ',' && t[at] != ']' && t[at] != '}') at++;
        return at;
    }
    do {
        if (t[at] == '"') {
            at = past_string(t, at);
            continue;
        }
        depth += t[at] == '[' || t[at] == '{';
        depth -= t[at] == ']' || t[at] == '}';
        at++;
    } while (depth);
    return at;
}

/* Whether the string at a place is the word, after its escapes are read. */
static int is_word(const uint8_t *t, size_t at, const char *word) {
    for (at++; t[at] != '"'; at++, word++) {
        unsigned c = t[at];
        if (c == '\\') {
            static const char names[] = "\"\\/bfnrt", chars[] = "\"\\/\b\f\n\r\t";
            c = t[++at];
            if (c == 'u') {
                char hex[5] = {(char)t[at + 1], (char)t[at + 2], (char)t[at + 3], (char)t[at + 4], 0};
                c = (unsigned)strtoul(hex, NULL, 16);
                at += 4;
            } else {
                c = (unsigned char)chars[strchr(names, (int)c) - names];
            }
        }
        if (*word == 0 || c != (unsigned char)*word) return 0;
    }
    return *word == 0;
}

/* The value of the last member of that name of an object, or 0. */
static size_t member(const uint8_t *t, size_t at, const char *name) {
    size_t found = 0;
    at = past_blanks(t, at + 1);
    while (t[at] != '}') {
        int is = is_word(t, at, name);
        at = past_blanks(t, past_blanks(t, past_string(t, at)) + 1);
        if (is) found = at;
        at = past_blanks(t, past_value(t, at));
        if (t[at] == ',') at = past_blanks(t, at + 1);
    }
    return found;
}

/* A list of plain digits: how many there are, the first two of them, and their product as far as 2^64; -1 where it is none. */
static long digits(const uint8_t *t, size_t at, uint64_t two[2], unsigned __int128 *product) {
    static const unsigned __int128 top = (unsigned __int128)1 << 64;
    long count = 0;
    *product = 1;
    if (t[at] != '[') return -1;
    at = past_blanks(t, at + 1);
    for (; t[at] != ']'; count++) {
        unsigned __int128 n = 0;
        size_t end = past_value(t, at);
        for (; at < end; at++) {
            if (!digit(t[at])) return -1;
            n = n * 10 + (t[at] - '0');
            if (n >= top) return -1;
        }
        if (count < 2) two[count] = (uint64_t)n;
        *product *= n;
        if (*product > top) *product = top;
        at = past_blanks(t, at);
        if (t[at] == ',') at = past_blanks(t, at + 1);
    }
    return count;
}

/* ---- what is asked for */

struct tensor {
    char name[128];
    size_t count, at; /* of its entry, in the header */
    size_t size;      /* of an element, or 0 */
    int bf16;
    unsigned __int128 product;
    uint64_t offsets[2];
};

static struct tensor tensors[TENSORS];
static size_t asked;

static void ask(const char *front, const char *back, size_t count) {
    struct tensor *x = tensors + asked++;
    memset(x, 0, sizeof *x);
    snprintf(x->name, sizeof x->name, "%s%s", front, back);
    x->count = count;
}

static void ask_all(const struct kz_encoder_settings *s) {
    static const char *const tower = "vision_tower.", *const projector = "multi_modal_projector.";
    size_t h = s->hidden_size, i = s->intermediate_size, x = s->text_hidden_size, m = s->picture.spatial_merge_size;
    asked = 0;
    ask(tower, "patch_conv.weight", 3 * h * s->picture.patch_size * s->picture.patch_size);
    ask(tower, "ln_pre.weight", h);
    for (size_t n = 0; n < s->num_layers; n++) {
        char layer[64];
        snprintf(layer, sizeof layer, "%stransformer.layers.%zu.", tower, n);
        ask(layer, "attention_norm.weight", h);
        ask(layer, "attention.q_proj.weight", h * h);
        ask(layer, "attention.k_proj.weight", h * h);
        ask(layer, "attention.v_proj.weight", h * h);
        ask(layer, "attention.o_proj.weight", h * h);
        ask(layer, "ffn_norm.weight", h);
        ask(layer, "feed_forward.gate_proj.weight", h * i);
        ask(layer, "feed_forward.up_proj.weight", h * i);
        ask(layer, "feed_forward.down_proj.weight", h * i);
    }
    ask(projector, "norm.weight", h);
    ask(projector, "patch_merger.merging_layer.weight", h * h * m * m);
    ask(projector, "linear_1.weight", x * h);
    if (s->projector_bias) ask(projector, "linear_1.bias", x);
    ask(projector, "linear_2.weight", x * x);
    if (s->projector_bias) ask(projector, "linear_2.bias", x);
}

/* Whether the entry at a place says what it has to. */
static int entry(const uint8_t *t, struct tensor *x) {
    size_t dtype, shape, offsets;
    unsigned __int128 unused;
    uint64_t sides[2];
    if (t[x->at] != '{') return 0;
    dtype = member(t, x->at, "dtype"), shape = member(t, x->at, "shape"), offsets = member(t, x->at, "data_offsets");
    if (!dtype || !shape || !offsets || t[dtype] != '"') return 0;
    if (digits(t, shape, sides, &x->product) < 0 || digits(t, offsets, x->offsets, &unused) != 2) return 0;
    x->bf16 = is_word(t, dtype, "BF16");
    x->size = is_word(t, dtype, "F32") ? 4 : x->bf16 || is_word(t, dtype, "F16") ? 2 : 0;
    return 1;
}

/* ---- the answer */

static uint32_t half(unsigned h) {
    uint32_t sign = (uint32_t)(h >> 15) << 31, bits;
    float value;
    if ((h >> 10 & 31) == 31) return sign | 0x7F800000 | (h & 1023) << 13;
    value = h >> 10 & 31 ? ldexpf((float)(1024 + (h & 1023)), (int)(h >> 10 & 31) - 25) : ldexpf((float)(h & 1023), -24);
    memcpy(&bits, &value, 4);
    return sign | bits;
}

static struct kz_weights_report refused(uint32_t number, size_t tensor, size_t place) {
    struct kz_weights_report r = {number, 0, tensor, place};
    return r;
}

static struct kz_weights_report right(struct kz_encoder_settings s, const uint8_t *file, size_t len, uint32_t *out, size_t out_len) {
    struct kz_weights_report done = {0, 0, 0, 0};
    uint64_t header = 0;
    size_t place, data;
    const uint8_t *t = file + 8;
    if (kz_lengths(s, 0, 0).number == KZ_SETTING) return refused(1, 0, 0);
    if (len < 8) return refused(16, 0, 0);
    for (size_t i = 8; i-- > 0;) header = header << 8 | file[i];
    if (header > len - 8) return refused(16, 0, 0);
    if (stops(t, header, &place)) return refused(16, 0, 8 + place);
    place = past_blanks(t, 0);
    if (t[place] != '{') return refused(16, 0, 8 + place);
    ask_all(&s);
    data = len - 8 - header;
    for (size_t k = 0; k < asked; k++) {
        tensors[k].at = member(t, place, tensors[k].name);
        if (tensors[k].at && !entry(t, tensors + k)) return refused(16, k + 1, 8 + tensors[k].at);
    }
    for (size_t k = 0; k < asked; k++) {
        struct tensor *x = tensors + k;
        if (!x->at) return refused(17, k + 1, 0);
        if (!x->size || x->product != x->count) return refused(17, k + 1, 8 + x->at);
        done.floats += x->count;
    }
    for (size_t k = 0; k < asked; k++) {
        struct tensor *x = tensors + k;
        if (x->offsets[0] > x->offsets[1] || x->offsets[1] > data || x->offsets[1] - x->offsets[0] != x->count * x->size)
            return refused(18, k + 1, 8 + x->at);
    }
    if (out_len < done.floats) return refused(5, 0, 0);
    for (size_t k = 0; k < asked; k++) {
        const uint8_t *from = t + header + tensors[k].offsets[0];
        for (size_t i = 0; i < tensors[k].count; i++, from += tensors[k].size) {
            uint32_t low = (uint32_t)from[0] | (uint32_t)from[1] << 8;
            *out++ = tensors[k].size == 4 ? low | (uint32_t)from[2] << 16 | (uint32_t)from[3] << 24 : tensors[k].bf16 ? low << 16 : half(low);
        }
    }
    return done;
}

int main(int argc, char **argv) {
    static uint8_t text[1 << 17];
    static uint32_t found[MOST], want[MOST];
    FILE *file = argc > 1 ? fopen(argv[1], "rb") : stdin;
    size_t len, lent = MOST;
    struct kz_weights_report r, q;
    if (!file) return 1;
    len = fread(text, 1, sizeof text, file);
    if (len == 0) return 0;
    {
        /* Bit by bit: the biases, a layer or none, the patch, the text, an image size of 0, no room. */
        struct kz_encoder_settings s = {KZ_PICTURE_SETTINGS(1 + (text[0] >> 2 & 1), 1, text[0] & 16 ? 0 : 8), 4, 1, 4,
                                        text[0] >> 1 & 1, 1, 1 + (text[0] >> 3 & 1), text[0] & 1, 0.5f};
        if (text[0] & 32) lent = text[0] >> 6;
        for (size_t i = 0; i < MOST; i++) found[i] = want[i] = 0x7F800001u + (uint32_t)i;
        r = kz_weights(s, text + 1, len - 1, (float *)found, lent);
        q = right(s, text + 1, len - 1, want, lent);
    }
    if (r.number != q.number || r.floats != q.floats || r.tensor != q.tensor || r.place != q.place) abort();
    if (memcmp(found, want, sizeof found) != 0) abort();
    return 0;
}
