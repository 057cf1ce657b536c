/* The C face as a C program sees it: every call, every number of every call, and what is written. */
#include "kyzgultam.h"

#include <math.h>
#include <stdio.h>
#include <stdlib.h>
#include <string.h>

static int failed;

static void expect(int ok, const char *what, int line) {
    if (!ok) {
        fprintf(stderr, "face.c:%d: %s\n", line, what);
        failed = 1;
    }
}
#define EXPECT(x) expect((x), #x, __LINE__)

enum { SIDE_H = 4, SIDE_W = 8, FLOATS = SIDE_H * SIDE_W * 3, TAIL = 5 };

static const struct kz_picture_settings picture = KZ_PICTURE_SETTINGS(2, 2, 8);

static struct kz_picture_settings ruled(size_t rule) {
    struct kz_picture_settings settings = picture;
    settings.resize_rule = rule;
    return settings;
}

/* One channel with another mean and deviation; with channel 3, all of them. */
static struct kz_picture_settings with(size_t channel, float mean, float deviation) {
    struct kz_picture_settings settings = picture;
    for (size_t c = 0; c < 3; c++) {
        if (channel == c || channel == 3) {
            settings.mean[c] = mean;
            settings.deviation[c] = deviation;
        }
    }
    return settings;
}

/* A NaN with bits of its own: no contract can say that they are kept, so they are looked at here. */
static uint32_t mark(size_t i) { return UINT32_C(0x7F800001) + (uint32_t)i; }

static void mark_all(float *x, size_t n) {
    for (size_t i = 0; i < n; i++) {
        uint32_t bits = mark(i);
        memcpy(x + i, &bits, sizeof bits);
    }
}

/* Whether x is marked from a place on, by its bits. */
static int marked(const float *x, size_t from, size_t n) {
    for (size_t i = from; i < n; i++) {
        uint32_t bits;
        memcpy(&bits, x + i, sizeof bits);
        if (bits != mark(i)) return 0;
    }
    return 1;
}

/* Whether x is +0 all over, by its bits: -0 is not. */
static int zeroed(const float *x, size_t n) {
    for (size_t i = 0; i < n; i++) {
        uint32_t bits;
        memcpy(&bits, x + i, sizeof bits);
        if (bits != 0) return 0;
    }
    return 1;
}

static uint8_t rgb[FLOATS];
static float patches[FLOATS];

static void preprocess(void) {
    float out[FLOATS + TAIL];
    struct kz_preprocess_report r;

    mark_all(out, FLOATS + TAIL);
    r = kz_preprocess(picture, rgb, FLOATS, SIDE_H, SIDE_W, out, FLOATS + TAIL);
    EXPECT(r.number == KZ_ACCEPTED && r.grid_h == 2 && r.grid_w == 4 && r.floats == FLOATS);
    EXPECT(marked(out, FLOATS, FLOATS + TAIL));
    EXPECT(!marked(out, FLOATS - 1, FLOATS));
    memcpy(patches, out, sizeof patches);
    /* The sample at row 3, column 5, channel 1: (byte / 255 - mean) / std, in patch (3 / 2) * 4 + 5 / 2. */
    {
        float byte = rgb[(3 * SIDE_W + 5) * 3 + 1];
        float sample = (byte / 255.0f - 0.4578275f) / 0.26130258f;
        EXPECT(patches[6 * 12 + 4 + 2 + 1] == sample);
    }

    struct {
        uint32_t number;
        struct kz_picture_settings settings;
        size_t rgb_len, height, width, out_len;
    } calls[] = {
        {KZ_SETTING, KZ_PICTURE_SETTINGS(0, 2, 8), FLOATS, SIDE_H, SIDE_W, FLOATS},
        {KZ_SETTING, KZ_PICTURE_SETTINGS(2, 5, 8), 0, 0, 0, 0},
        {KZ_SETTING, KZ_PICTURE_SETTINGS(2, 2, SIZE_MAX), FLOATS, SIDE_H, SIDE_W, FLOATS},
        {KZ_SETTING, ruled(0), FLOATS, SIDE_H, SIDE_W, FLOATS},
        {KZ_SETTING, ruled(3), FLOATS, SIDE_H, SIDE_W, FLOATS},
        {KZ_SETTING, ruled(SIZE_MAX), 0, 0, 0, 0},
        {KZ_CHANNEL, with(1, 0.2f, 0), FLOATS, SIDE_H, SIDE_W, FLOATS},
        {KZ_CHANNEL, with(2, NAN, 0.25f), 0, 0, SIDE_W, 0},
        {KZ_SIDE, KZ_PICTURE_SETTINGS(2, 2, 8), FLOATS, 0, SIDE_W, FLOATS},
        {KZ_SIDE, KZ_PICTURE_SETTINGS(2, 2, 3), 0, SIDE_H, 8193, 0},
        {KZ_RGB_LENGTH, KZ_PICTURE_SETTINGS(2, 2, 8), FLOATS - 1, SIDE_H, SIDE_W, FLOATS},
        {KZ_RGB_LENGTH, KZ_PICTURE_SETTINGS(2, 2, 3), 0, SIDE_H, SIDE_W, 0},
        {KZ_IMAGE_SIZE, KZ_PICTURE_SETTINGS(2, 2, 3), FLOATS, SIDE_H, SIDE_W, 0},
        {KZ_OUTPUT, KZ_PICTURE_SETTINGS(2, 2, 8), FLOATS, SIDE_H, SIDE_W, FLOATS - 1},
        {KZ_OUTPUT, KZ_PICTURE_SETTINGS(2, 2, 8), FLOATS, SIDE_H, SIDE_W, 0},
    };
    for (size_t i = 0; i < sizeof calls / sizeof *calls; i++) {
        mark_all(out, FLOATS + TAIL);
        r = kz_preprocess(calls[i].settings, calls[i].rgb_len ? rgb : NULL, calls[i].rgb_len, calls[i].height,
                          calls[i].width, calls[i].out_len ? out : NULL, calls[i].out_len);
        EXPECT(r.number == calls[i].number && r.grid_h == 0 && r.grid_w == 0 && r.floats == 0);
        EXPECT(marked(out, 0, FLOATS + TAIL));
    }
}

static void restore(void) {
    uint8_t out[FLOATS + TAIL], before[FLOATS + TAIL];
    struct kz_restore_report r;

    memset(before, 0xA5, sizeof before);
    memcpy(out, before, sizeof out);
    r = kz_restore(picture, patches, FLOATS, 2, 4, out, sizeof out);
    EXPECT(r.number == KZ_ACCEPTED && r.height == SIDE_H && r.width == SIDE_W);
    EXPECT(memcmp(out, rgb, FLOATS) == 0);
    EXPECT(memcmp(out + FLOATS, before + FLOATS, TAIL) == 0);

    struct {
        uint32_t number;
        struct kz_picture_settings settings;
        size_t patches_len, grid_h, grid_w, out_len;
        float damage; /* added to sample 7 */
    } calls[] = {
        {KZ_SETTING, KZ_PICTURE_SETTINGS(33, 2, 8), FLOATS, 2, 4, FLOATS, 0},
        {KZ_SETTING, ruled(0), FLOATS, 2, 4, FLOATS, 0},
        {KZ_SETTING, ruled(3), FLOATS, 2, 4, FLOATS, 0},
        {KZ_SETTING, ruled(SIZE_MAX), 0, 0, 0, 0, 0},
        {KZ_CHANNEL, with(0, 0.2f, 0), FLOATS, 2, 4, FLOATS, 0},
        {KZ_CHANNEL, with(2, NAN, 0.25f), 0, 3, 0, 0, 1},
        {KZ_GRID, KZ_PICTURE_SETTINGS(2, 2, 8), FLOATS, 2, 6, FLOATS, 0},
        {KZ_GRID, KZ_PICTURE_SETTINGS(2, 2, 8), 0, 3, 4, 0, 0},
        {KZ_GRID, KZ_PICTURE_SETTINGS(2, 2, 8), 0, SIZE_MAX - 1, SIZE_MAX - 1, 0, 0},
        {KZ_PATCHES_LENGTH, KZ_PICTURE_SETTINGS(2, 2, 8), FLOATS - 1, 2, 4, 0, 0},
        {KZ_OUTPUT, KZ_PICTURE_SETTINGS(2, 2, 8), FLOATS, 2, 4, FLOATS - 1, 1},
        {KZ_SAMPLE, KZ_PICTURE_SETTINGS(2, 2, 8), FLOATS, 2, 4, FLOATS, 1},
    };
    for (size_t i = 0; i < sizeof calls / sizeof *calls; i++) {
        float damaged[FLOATS];
        memcpy(damaged, patches, sizeof damaged);
        damaged[7] += calls[i].damage;
        memcpy(out, before, sizeof out);
        r = kz_restore(calls[i].settings, damaged, calls[i].patches_len, calls[i].grid_h, calls[i].grid_w, out,
                       calls[i].out_len);
        EXPECT(r.number == calls[i].number && r.height == 0 && r.width == 0);
        EXPECT(memcmp(out, before, sizeof out) == 0);
    }
}

/* What a long picture becomes by each resize rule. */
static void rules(void) {
    enum { LARGE = 8 * 16 * 3, THIN = 8192 * 3 };
    static uint8_t large[LARGE], thin[THIN], back[LARGE];
    static float out[LARGE];
    struct kz_picture_settings least = KZ_PICTURE_SETTINGS(1, 1, 2);
    struct kz_preprocess_report p;
    struct kz_restore_report r;

    for (size_t i = 0; i < LARGE; i++) large[i] = (uint8_t)(i * 89 + i / 7);
    p = kz_preprocess(picture, large, LARGE, 8, 16, out, LARGE);
    EXPECT(p.number == KZ_ACCEPTED && p.grid_h == 4 && p.grid_w == 4 && p.floats == 2 * FLOATS);
    mark_all(out, LARGE);
    p = kz_preprocess(ruled(2), large, LARGE, 8, 16, out, LARGE);
    EXPECT(p.number == KZ_ACCEPTED && p.grid_h == 2 && p.grid_w == 4 && p.floats == FLOATS);
    EXPECT(marked(out, FLOATS, LARGE) && !marked(out, FLOATS - 1, FLOATS));
    /* Both sides are halved: every other pixel of every other row. */
    r = kz_restore(ruled(2), out, FLOATS, 2, 4, back, LARGE);
    EXPECT(r.number == KZ_ACCEPTED && r.height == 4 && r.width == 8);
    for (size_t i = 0; i < FLOATS; i++) {
        size_t row = i / 3 / 8, column = i / 3 % 8;
        EXPECT(back[i] == large[(2 * row * 16 + 2 * column) * 3 + i % 3]);
    }
    /* A side is never less than 1. */
    for (size_t i = 0; i < THIN; i++) thin[i] = (uint8_t)(i * 89 + i / 7);
    least.resize_rule = 2;
    p = kz_preprocess(least, thin, THIN, 8192, 1, out, 6);
    EXPECT(p.number == KZ_ACCEPTED && p.grid_h == 2 && p.grid_w == 1 && p.floats == 6);
    r = kz_restore(least, out, 6, 2, 1, back, 6);
    EXPECT(r.number == KZ_ACCEPTED && r.height == 2 && r.width == 1);
    EXPECT(memcmp(back, thin, 3) == 0 && memcmp(back + 3, thin + 4096 * 3, 3) == 0);
}

/* The sample of a byte in a channel. */
static float sample(struct kz_picture_settings s, size_t channel, size_t byte) {
    return ((float)byte / 255.0f - s.mean[channel]) / s.deviation[channel];
}

/* The byte whose sample in a channel has these bits; 256 where there is none. */
static size_t byte_of(struct kz_picture_settings s, size_t channel, uint32_t bits) {
    size_t byte = 0;
    for (; byte < 256; byte++) {
        float of = sample(s, channel, byte);
        if (memcmp(&of, &bits, sizeof bits) == 0) break;
    }
    return byte;
}

/* Whether a byte has the bits of x in a channel. */
static int has(struct kz_picture_settings s, size_t channel, float x) {
    uint32_t bits;
    memcpy(&bits, &x, sizeof bits);
    return byte_of(s, channel, bits) < 256;
}

/* Means and deviations: the samples that they give, the way back, and those that are refused. */
static void channels(void) {
    enum { ALL = 256 * 3 };
    struct kz_picture_settings accepted[] = {
        KZ_PICTURE_SETTINGS(2, 2, 8), with(3, 0.2f, 0.25f), with(3, 0.2f, -0.25f), with(3, 0.2f, 1e-30f),
        with(3, 0.2f, 3e-39f),        with(3, 0.2f, 1e38f), with(3, 0.2f, -1e38f), with(3, 65536, 1),
        with(0, 0.2f, 0.25f),         with(1, -7, -1e-30f), with(2, 0, 1e38f),     with(0, 0, 1),
    };
    struct {
        float mean, deviation;
    } refused[] = {
        {NAN, 0.25f},   {0.2f, NAN},    {INFINITY, 0.25f}, {-INFINITY, 0.25f}, {0.2f, INFINITY}, {0.2f, -INFINITY},
        {0, 0},         {0.2f, 0},      {0.2f, -0.0f},     {0.2f, 1e-45f},     {0.2f, -1e-40f},  {0.2f, 2.345e-39f},
        {1e8f, 0.25f},  {-1e8f, 0.25f}, {65600, 1},        {-65000, 1.98f},
    };
    static uint8_t every[ALL], back[ALL];
    static float out[ALL];
    int zeros = 0;
    /* Whoever forgets them has zeros. */
    struct kz_picture_settings forgotten = {
        .patch_size = 2, .spatial_merge_size = 2, .image_size = 8, .resize_rule = 1};
    struct kz_preprocess_report p;
    struct kz_restore_report r;

    EXPECT(picture.mean[0] == 0.48145466f && picture.mean[1] == 0.4578275f && picture.mean[2] == 0.40821073f);
    EXPECT(picture.deviation[0] == 0.26862954f && picture.deviation[1] == 0.26130258f);
    EXPECT(picture.deviation[2] == 0.27577711f);
    /* A picture of one patch, in which each channel has each byte once. */
    for (size_t i = 0; i < ALL; i++) every[i] = (uint8_t)(i / 3 * (i % 3 * 2 + 1));
    for (size_t k = 0; k < sizeof accepted / sizeof *accepted; k++) {
        struct kz_picture_settings s = accepted[k];
        s.patch_size = s.image_size = 16;
        s.spatial_merge_size = 1;
        p = kz_preprocess(s, every, ALL, 16, 16, out, ALL);
        EXPECT(p.number == KZ_ACCEPTED && p.grid_h == 1 && p.grid_w == 1 && p.floats == ALL);
        for (size_t i = 0; i < ALL; i++) {
            float right = sample(s, i / 256, every[i % 256 * 3 + i / 256]);
            EXPECT(memcmp(out + i, &right, sizeof right) == 0);
        }
        memset(back, 0xA5, ALL);
        r = kz_restore(s, out, ALL, 1, 1, back, ALL);
        EXPECT(r.number == KZ_ACCEPTED && r.height == 16 && r.width == 16 && memcmp(back, every, ALL) == 0);
        /* A sample of the Rust's means and deviations, where no byte has it, is refused. */
        for (size_t c = 0; c < 3; c++) {
            float kept = out[c * 256 + 9], theirs = sample(picture, c, 9);
            int found = has(s, c, theirs);
            out[c * 256 + 9] = theirs;
            memset(back, 0xA5, ALL);
            r = kz_restore(s, out, ALL, 1, 1, back, ALL);
            EXPECT(r.number == (uint32_t)(found ? KZ_ACCEPTED : KZ_SAMPLE) && r.height == (found ? 16 : 0));
            EXPECT(found || (back[0] == 0xA5 && back[ALL - 1] == 0xA5));
            EXPECT(found == (s.mean[c] == picture.mean[c]));
            out[c * 256 + 9] = kept;
        }
        /* Where byte 0 is +0, -0 is no byte's: bits are compared, not numbers. */
        if (zeroed(out, 1)) {
            zeros++;
            out[0] = -out[0];
            EXPECT(kz_restore(s, out, ALL, 1, 1, back, ALL).number == KZ_SAMPLE);
        }
    }
    EXPECT(zeros == 1);
    for (size_t k = 0; k < sizeof refused / sizeof *refused * 4; k++) {
        struct kz_picture_settings s = with(k % 4, refused[k / 4].mean, refused[k / 4].deviation);
        mark_all(out, FLOATS);
        p = kz_preprocess(s, rgb, FLOATS, SIDE_H, SIDE_W, out, FLOATS);
        EXPECT(p.number == KZ_CHANNEL && p.grid_h == 0 && p.grid_w == 0 && p.floats == 0 && marked(out, 0, FLOATS));
        memset(back, 0xA5, FLOATS);
        r = kz_restore(s, patches, FLOATS, 2, 4, back, FLOATS);
        EXPECT(r.number == KZ_CHANNEL && r.height == 0 && r.width == 0);
        for (size_t i = 0; i < FLOATS; i++) EXPECT(back[i] == 0xA5);
        /* 1 comes before. */
        s.resize_rule = 0;
        EXPECT(kz_preprocess(s, rgb, FLOATS, SIDE_H, SIDE_W, out, FLOATS).number == KZ_SETTING);
        EXPECT(kz_restore(s, patches, FLOATS, 2, 4, back, FLOATS).number == KZ_SETTING);
    }
    EXPECT(kz_preprocess(forgotten, rgb, FLOATS, SIDE_H, SIDE_W, out, FLOATS).number == KZ_CHANNEL);
    EXPECT(kz_restore(forgotten, patches, FLOATS, 2, 4, back, FLOATS).number == KZ_CHANNEL);
}

/* Room for three numbers a sample, and a tail. */
enum { LIST = FLOATS * 3, LISTED = LIST + TAIL };

/* What stands in a list before a call, and may not be taken for an entry's. */
static uint32_t list_mark(size_t i) { return UINT32_C(0xA5A50000) + (uint32_t)i; }

/*
 * A call with patches of 2 * 4, given as bits, and a list of a length. Answer, bytes, list and both tails are to be as
 * defined, and kz_restore of the same patches accepts exactly where nothing is bad. How many samples are bad.
 */
static size_t salvage_one(struct kz_picture_settings s, const uint32_t *bits, size_t list_len) {
    static uint8_t before[FLOATS + TAIL], right[FLOATS + TAIL], out[FLOATS + TAIL];
    static uint32_t marks[LISTED], entries[LISTED], list[LISTED];
    static float floats[FLOATS];
    struct kz_salvage_report r;
    uint32_t restored;
    size_t bad = 0;

    memset(before, 0xA5, sizeof before);
    for (size_t i = 0; i < LISTED; i++) marks[i] = list_mark(i);
    memcpy(right, before, sizeof right);
    memcpy(entries, marks, sizeof entries);
    for (size_t i = 0; i < FLOATS; i++) {
        size_t patch = i / 12, place = i % 12, c = place / 4, byte = byte_of(s, c, bits[i]);
        size_t y = patch / 4 * 2 + place / 2 % 2, x = patch % 4 * 2 + place % 2;
        right[(y * SIDE_W + x) * 3 + c] = (uint8_t)(byte < 256 ? byte : 0);
        if (byte == 256) {
            entries[3 * bad] = (uint32_t)patch;
            entries[3 * bad + 1] = (uint32_t)place;
            entries[3 * bad + 2] = bits[i];
            bad++;
        }
    }
    memcpy(out, before, sizeof out);
    memcpy(list, marks, sizeof list);
    r = kz_salvage(s, bits, FLOATS, 2, 4, out, sizeof out, list_len ? list : NULL, list_len);
    if (bad <= list_len / 3) {
        EXPECT(r.number == KZ_ACCEPTED && r.height == SIDE_H && r.width == SIDE_W && r.bad == bad);
        EXPECT(memcmp(out, right, sizeof out) == 0 && memcmp(list, entries, sizeof list) == 0);
    } else {
        EXPECT(r.number == KZ_LIST && r.height == 0 && r.width == 0 && r.bad == 0);
        EXPECT(memcmp(out, before, sizeof out) == 0 && memcmp(list, marks, sizeof list) == 0);
    }
    memcpy(floats, bits, sizeof floats);
    memcpy(out, before, sizeof out);
    restored = kz_restore(s, floats, FLOATS, 2, 4, out, sizeof out).number;
    EXPECT(restored == (uint32_t)(bad ? KZ_SAMPLE : KZ_ACCEPTED));
    EXPECT(memcmp(out, bad ? before : right, sizeof out) == 0);
    return bad;
}

/* With just the room that is needed, with one and two numbers more, which hold no entry, and with less. */
static size_t salvage_lists(struct kz_picture_settings s, const uint32_t *bits) {
    size_t bad = salvage_one(s, bits, LISTED);
    for (size_t more = 0; more < 3; more++) EXPECT(salvage_one(s, bits, 3 * bad + more) == bad);
    for (size_t less = 1; less < 5 && less <= 3 * bad; less++) EXPECT(salvage_one(s, bits, 3 * bad - less) == bad);
    return bad;
}

static void salvage(void) {
    static const uint32_t patterns[] = {
        0x7F800000, 0xFF800000, 0x7F800001, 0xFF800001, 0x7FBFFFFF, 0xFFBFFFFF, 0x7FC00000, 0xFFC00000, 0x7FC00001,
        0x7FFFFFFF, 0xFFFFFFFF, 0x00000000, 0x80000000, 0x00000001, 0x80000001, 0x7F7FFFFF, 0xFF7FFFFF,
    };
    struct kz_picture_settings choices[] = {
        KZ_PICTURE_SETTINGS(2, 2, 8), with(3, 0.2f, 0.25f),  with(3, 0.2f, -0.25f), with(3, 0.2f, 3e-39f),
        with(3, 0.2f, 1e38f),         with(3, 0.2f, -1e38f), with(3, 0, 1),         with(1, 0, -1),
    };
    uint32_t good[FLOATS], bits[FLOATS], list[LISTED];
    uint8_t out[FLOATS + TAIL], before[FLOATS + TAIL];
    struct kz_salvage_report r;
    size_t near = 0;

    for (size_t k = 0; k < sizeof choices / sizeof *choices; k++) {
        struct kz_picture_settings s = choices[k];
        for (size_t i = 0; i < FLOATS; i++) {
            float of = sample(s, i / 4 % 3, i * 89 % 256);
            memcpy(good + i, &of, sizeof of);
        }
        EXPECT(salvage_lists(s, good) == 0);
        EXPECT(salvage_one(s, good, 0) == 0);
        /* One sample with each pattern; a zero may be a byte's. */
        for (size_t j = 0; j < sizeof patterns / sizeof *patterns; j++) {
            size_t at = j * 37 % FLOATS;
            memcpy(bits, good, sizeof bits);
            bits[at] = patterns[j];
            EXPECT(salvage_lists(s, bits) == (byte_of(s, at / 4 % 3, patterns[j]) == 256));
        }
        /* Every sample with one bit changed, and all of them NaNs of their own bits, of both signs. */
        for (size_t bit = 0; bit < 32; bit++) {
            for (size_t i = 0; i < FLOATS; i++) bits[i] = good[i] ^ UINT32_C(1) << bit;
            near += salvage_one(s, bits, LISTED);
        }
        for (size_t i = 0; i < FLOATS; i++) bits[i] = mark(i) ^ (uint32_t)(i & 1) << 31;
        EXPECT(salvage_lists(s, bits) == FLOATS);
        EXPECT(salvage_one(s, bits, LIST) == FLOATS && salvage_one(s, bits, LIST - 1) == FLOATS);
    }
    EXPECT(near > 8 * 32 * FLOATS * 9 / 10);

    struct {
        uint32_t number;
        struct kz_picture_settings settings;
        size_t patches_len, grid_h, grid_w, out_len, list_len;
    } calls[] = {
        {KZ_SETTING, KZ_PICTURE_SETTINGS(33, 2, 8), FLOATS, 2, 4, FLOATS, 6},
        {KZ_SETTING, ruled(0), FLOATS, 2, 4, FLOATS, 6},
        {KZ_SETTING, ruled(3), FLOATS, 2, 4, FLOATS, 6},
        {KZ_SETTING, ruled(SIZE_MAX), 0, 0, 0, 0, 0},
        {KZ_CHANNEL, with(0, 0.2f, 0), FLOATS, 2, 4, FLOATS, 6},
        {KZ_CHANNEL, with(2, NAN, 0.25f), 0, 3, 0, 0, 0},
        {KZ_GRID, KZ_PICTURE_SETTINGS(2, 2, 8), FLOATS, 2, 6, FLOATS, 6},
        {KZ_GRID, KZ_PICTURE_SETTINGS(2, 2, 8), 0, 3, 4, 0, 0},
        {KZ_GRID, KZ_PICTURE_SETTINGS(2, 2, 8), 0, SIZE_MAX - 1, SIZE_MAX - 1, 0, 0},
        {KZ_PATCHES_LENGTH, KZ_PICTURE_SETTINGS(2, 2, 8), FLOATS - 1, 2, 4, FLOATS, 6},
        {KZ_PATCHES_LENGTH, KZ_PICTURE_SETTINGS(2, 2, 8), 0, 2, 4, 0, 0},
        {KZ_OUTPUT, KZ_PICTURE_SETTINGS(2, 2, 8), FLOATS, 2, 4, FLOATS - 1, 6},
        {KZ_OUTPUT, KZ_PICTURE_SETTINGS(2, 2, 8), FLOATS, 2, 4, 0, 0},
        {KZ_LIST, KZ_PICTURE_SETTINGS(2, 2, 8), FLOATS, 2, 4, FLOATS, 5},
        {KZ_LIST, ruled(2), FLOATS, 2, 4, FLOATS + TAIL, 3},
        {KZ_LIST, KZ_PICTURE_SETTINGS(2, 2, 8), FLOATS, 2, 4, FLOATS, 2},
        {KZ_LIST, KZ_PICTURE_SETTINGS(2, 2, 8), FLOATS, 2, 4, FLOATS, 0},
    };
    /* Two samples are bad. */
    memcpy(bits, patches, sizeof bits);
    bits[7] ^= 1;
    bits[FLOATS - 1] = 0xFF800001;
    EXPECT(salvage_one(picture, bits, 6) == 2 && salvage_one(ruled(2), bits, 8) == 2);
    memset(before, 0xA5, sizeof before);
    for (size_t i = 0; i < sizeof calls / sizeof *calls; i++) {
        memcpy(out, before, sizeof out);
        for (size_t j = 0; j < LISTED; j++) list[j] = list_mark(j);
        r = kz_salvage(calls[i].settings, calls[i].patches_len ? bits : NULL, calls[i].patches_len, calls[i].grid_h,
                       calls[i].grid_w, calls[i].out_len ? out : NULL, calls[i].out_len,
                       calls[i].list_len ? list : NULL, calls[i].list_len);
        EXPECT(r.number == calls[i].number && r.height == 0 && r.width == 0 && r.bad == 0);
        EXPECT(memcmp(out, before, sizeof out) == 0);
        for (size_t j = 0; j < LISTED; j++) EXPECT(list[j] == list_mark(j));
    }
}

/*
 * A sweep of 10 * 13 with tiles of at most 8 * 8, and each tile's report: the last row is padded from 2 to 4 pixels,
 * the last column from 5 to 8.
 */
enum { SWEEP_H = 10, SWEEP_W = 13, SWEEP = SWEEP_H * SWEEP_W * 3, TILES = 4, WHOLE = 8 * 8 * 3, LAST = 4 * 8 * 3 };

static const struct kz_tile_report tile_reports[TILES] = {
    {KZ_ACCEPTED, 4, 4, WHOLE, 0, 0, 8, 8},
    {KZ_ACCEPTED, 4, 4, WHOLE, 0, 8, 8, 5},
    {KZ_ACCEPTED, 2, 4, LAST, 8, 0, 2, 8},
    {KZ_ACCEPTED, 2, 4, LAST, 8, 8, 2, 5},
};

static uint8_t large_sweep[SWEEP];
static float tile_patches[TILES][WHOLE];

/* Whether two reports are alike; one with a number but 0 has no sizes. */
static int reported(struct kz_tile_report r, struct kz_tile_report right) {
    return r.number == right.number && r.grid_h == right.grid_h && r.grid_w == right.grid_w &&
           r.floats == right.floats && r.top == right.top && r.left == right.left && r.height == right.height &&
           r.width == right.width;
}

static int refused(struct kz_tile_report r, uint32_t number) {
    struct kz_tile_report none = {0, 0, 0, 0, 0, 0, 0, 0};
    none.number = number;
    return reported(r, none);
}

static void cut(void) {
    struct {
        struct kz_picture_settings settings;
        size_t height, width;
        struct kz_cut_report right;
    } calls[] = {
        {KZ_PICTURE_SETTINGS(2, 2, 8), SWEEP_H, SWEEP_W, {KZ_ACCEPTED, 8, 2, 2}},
        {KZ_PICTURE_SETTINGS(2, 2, 11), SWEEP_H, SWEEP_W, {KZ_ACCEPTED, 8, 2, 2}},
        {KZ_PICTURE_SETTINGS(2, 2, 12), SWEEP_H, SWEEP_W, {KZ_ACCEPTED, 12, 1, 2}},
        {ruled(2), SWEEP_H, SWEEP_W, {KZ_ACCEPTED, 8, 2, 2}},
        {KZ_PICTURE_SETTINGS(14, 2, 1540), 3000, 2000, {KZ_ACCEPTED, 1540, 2, 2}},
        {KZ_PICTURE_SETTINGS(14, 2, 1540), 1540, 1541, {KZ_ACCEPTED, 1540, 1, 2}},
        {KZ_PICTURE_SETTINGS(1, 1, 1), 8192, 8192, {KZ_ACCEPTED, 1, 8192, 8192}},
        {KZ_PICTURE_SETTINGS(31, 4, 2048), 8192, 1, {KZ_ACCEPTED, 1984, 5, 1}},
        {KZ_PICTURE_SETTINGS(0, 2, 8), SWEEP_H, SWEEP_W, {KZ_SETTING, 0, 0, 0}},
        {ruled(0), 0, 0, {KZ_SETTING, 0, 0, 0}},
        {ruled(SIZE_MAX), SWEEP_H, SWEEP_W, {KZ_SETTING, 0, 0, 0}},
        {with(1, 0.2f, 0), 0, SIZE_MAX, {KZ_CHANNEL, 0, 0, 0}},
        {with(3, NAN, 0.25f), SWEEP_H, SWEEP_W, {KZ_CHANNEL, 0, 0, 0}},
        {KZ_PICTURE_SETTINGS(2, 2, 3), 0, SWEEP_W, {KZ_SIDE, 0, 0, 0}},
        {KZ_PICTURE_SETTINGS(2, 2, 8), SWEEP_H, 8193, {KZ_SIDE, 0, 0, 0}},
        {KZ_PICTURE_SETTINGS(2, 2, 8), SIZE_MAX, SIZE_MAX, {KZ_SIDE, 0, 0, 0}},
        {KZ_PICTURE_SETTINGS(2, 2, 3), SWEEP_H, SWEEP_W, {KZ_IMAGE_SIZE, 0, 0, 0}},
    };
    for (size_t i = 0; i < sizeof calls / sizeof *calls; i++) {
        struct kz_cut_report r = kz_cut(calls[i].settings, calls[i].height, calls[i].width), right = calls[i].right;
        EXPECT(r.number == right.number && r.side == right.side && r.rows == right.rows && r.columns == right.columns);
    }
}

static void preprocess_tile(void) {
    static float out[WHOLE + TAIL];
    struct kz_tile_report r;

    for (size_t i = 0; i < SWEEP; i++) large_sweep[i] = (uint8_t)(i * 89 + i / 7 + 1);
    for (size_t index = 0; index < TILES; index++) {
        struct kz_tile_report right = tile_reports[index];
        mark_all(out, WHOLE + TAIL);
        r = kz_preprocess_tile(picture, large_sweep, SWEEP, SWEEP_H, SWEEP_W, index, out, WHOLE + TAIL);
        EXPECT(reported(r, right));
        EXPECT(marked(out, right.floats, WHOLE + TAIL));
        /* Each sample: that of the sweep's byte, or of byte 0 in the padding. */
        for (size_t i = 0; i < right.floats; i++) {
            size_t y = i / 12 / right.grid_w * 2 + i / 2 % 2, x = i / 12 % right.grid_w * 2 + i % 2, c = i / 4 % 3;
            int own = y < right.height && x < right.width;
            float of = sample(picture, c, own ? large_sweep[((right.top + y) * SWEEP_W + right.left + x) * 3 + c] : 0);
            EXPECT(memcmp(out + i, &of, sizeof of) == 0);
        }
        memcpy(tile_patches[index], out, right.floats * sizeof *out);
        /* The other rule changes nothing, and just this length will do. */
        mark_all(out, WHOLE);
        r = kz_preprocess_tile(ruled(2), large_sweep, SWEEP, SWEEP_H, SWEEP_W, index, out, right.floats);
        EXPECT(reported(r, right) && memcmp(out, tile_patches[index], right.floats * sizeof *out) == 0);
    }

    struct {
        uint32_t number;
        struct kz_picture_settings settings;
        size_t rgb_len, height, width, index, out_len;
    } calls[] = {
        {KZ_SETTING, KZ_PICTURE_SETTINGS(0, 2, 8), SWEEP, SWEEP_H, SWEEP_W, 3, LAST},
        {KZ_SETTING, KZ_PICTURE_SETTINGS(2, 2, SIZE_MAX), SWEEP, SWEEP_H, SWEEP_W, 3, LAST},
        {KZ_SETTING, ruled(3), 0, 0, 0, SIZE_MAX, 0},
        {KZ_CHANNEL, with(1, 0.2f, 0), SWEEP, SWEEP_H, SWEEP_W, 3, LAST},
        {KZ_CHANNEL, with(2, NAN, 0.25f), 0, 0, SWEEP_W, SIZE_MAX, 0},
        {KZ_SIDE, KZ_PICTURE_SETTINGS(2, 2, 8), SWEEP, 0, SWEEP_W, 3, LAST},
        {KZ_SIDE, KZ_PICTURE_SETTINGS(2, 2, 3), 0, SWEEP_H, 8193, SIZE_MAX, 0},
        {KZ_SIDE, KZ_PICTURE_SETTINGS(2, 2, 8), 0, SIZE_MAX, SIZE_MAX, SIZE_MAX, 0},
        {KZ_RGB_LENGTH, KZ_PICTURE_SETTINGS(2, 2, 8), SWEEP - 1, SWEEP_H, SWEEP_W, 3, LAST},
        {KZ_RGB_LENGTH, KZ_PICTURE_SETTINGS(2, 2, 3), 0, SWEEP_H, SWEEP_W, SIZE_MAX, 0},
        {KZ_IMAGE_SIZE, KZ_PICTURE_SETTINGS(2, 2, 3), SWEEP, SWEEP_H, SWEEP_W, SIZE_MAX, 0},
        {KZ_TILE, KZ_PICTURE_SETTINGS(2, 2, 8), SWEEP, SWEEP_H, SWEEP_W, TILES, LAST},
        {KZ_TILE, KZ_PICTURE_SETTINGS(2, 2, 8), SWEEP, SWEEP_H, SWEEP_W, SIZE_MAX, 0},
        {KZ_OUTPUT, KZ_PICTURE_SETTINGS(2, 2, 8), SWEEP, SWEEP_H, SWEEP_W, 3, LAST - 1},
        {KZ_OUTPUT, KZ_PICTURE_SETTINGS(2, 2, 8), SWEEP, SWEEP_H, SWEEP_W, 0, WHOLE - 1},
        {KZ_OUTPUT, KZ_PICTURE_SETTINGS(2, 2, 8), SWEEP, SWEEP_H, SWEEP_W, 0, 0},
    };
    for (size_t i = 0; i < sizeof calls / sizeof *calls; i++) {
        mark_all(out, WHOLE + TAIL);
        r = kz_preprocess_tile(calls[i].settings, calls[i].rgb_len ? large_sweep : NULL, calls[i].rgb_len,
                               calls[i].height, calls[i].width, calls[i].index, calls[i].out_len ? out : NULL,
                               calls[i].out_len);
        EXPECT(refused(r, calls[i].number));
        EXPECT(marked(out, 0, WHOLE + TAIL));
    }
}

static void restore_tile(void) {
    static uint8_t out[SWEEP + TAIL], before[SWEEP + TAIL];
    static float damaged[WHOLE];
    struct kz_tile_report r;

    /* The tiles, the last first, over a buffer of anything: each writes its own bytes and no other. */
    for (size_t i = 0; i < SWEEP + TAIL; i++) out[i] = (uint8_t)(i * 31 + 5);
    for (size_t index = TILES; index-- > 0;) {
        struct kz_tile_report right = tile_reports[index];
        memcpy(before, out, sizeof out);
        r = kz_restore_tile(index % 2 ? picture : ruled(2), tile_patches[index], right.floats, SWEEP_H, SWEEP_W, index,
                            out, index ? SWEEP + TAIL : SWEEP);
        EXPECT(reported(r, right));
        for (size_t i = 0; i < SWEEP + TAIL; i++) {
            size_t y = i / 3 / SWEEP_W, x = i / 3 % SWEEP_W;
            int own = i < SWEEP && y - right.top < right.height && x - right.left < right.width;
            EXPECT(out[i] == (own ? large_sweep[i] : before[i]));
        }
    }
    EXPECT(memcmp(out, large_sweep, SWEEP) == 0);
    for (size_t i = SWEEP; i < SWEEP + TAIL; i++) EXPECT(out[i] == (uint8_t)(i * 31 + 5));

    /* Each sample of the last tile with that of byte 1 in its place: in the padding it is no sweep's. */
    memset(before, 0xA5, sizeof before);
    for (size_t i = 0; i < LAST; i++) {
        struct kz_tile_report right = tile_reports[3];
        size_t y = i / 12 / right.grid_w * 2 + i / 2 % 2, x = i / 12 % right.grid_w * 2 + i % 2, c = i / 4 % 3;
        int own = y < right.height && x < right.width;
        memcpy(damaged, tile_patches[3], LAST * sizeof *damaged);
        damaged[i] = sample(picture, c, 1);
        memcpy(out, before, sizeof out);
        r = kz_restore_tile(picture, damaged, LAST, SWEEP_H, SWEEP_W, 3, out, SWEEP);
        EXPECT(own ? reported(r, right) : refused(r, KZ_SAMPLE));
        EXPECT(own ? out[((8 + y) * SWEEP_W + 8 + x) * 3 + c] == 1 : memcmp(out, before, sizeof out) == 0);
    }

    struct {
        uint32_t number;
        struct kz_picture_settings settings;
        size_t patches_len, height, width, index, out_len, place; /* 1 is added to the sample at a place */
    } calls[] = {
        {KZ_SETTING, KZ_PICTURE_SETTINGS(33, 2, 8), LAST, SWEEP_H, SWEEP_W, 3, SWEEP, WHOLE},
        {KZ_SETTING, ruled(0), 0, 0, 0, SIZE_MAX, 0, 0},
        {KZ_CHANNEL, with(0, 0.2f, 0), LAST, SWEEP_H, SWEEP_W, 3, SWEEP, WHOLE},
        {KZ_CHANNEL, with(2, NAN, 0.25f), 0, 0, SIZE_MAX, SIZE_MAX, 0, 0},
        {KZ_SIDE, KZ_PICTURE_SETTINGS(2, 2, 8), LAST, 0, SWEEP_W, 3, SWEEP, WHOLE},
        {KZ_SIDE, KZ_PICTURE_SETTINGS(2, 2, 3), 0, SIZE_MAX, SIZE_MAX, SIZE_MAX, 0, 0},
        {KZ_IMAGE_SIZE, KZ_PICTURE_SETTINGS(2, 2, 3), 0, SWEEP_H, SWEEP_W, SIZE_MAX, 0, 0},
        {KZ_TILE, KZ_PICTURE_SETTINGS(2, 2, 8), LAST, SWEEP_H, SWEEP_W, TILES, SWEEP, WHOLE},
        {KZ_TILE, KZ_PICTURE_SETTINGS(2, 2, 8), 0, SWEEP_H, SWEEP_W, SIZE_MAX, 0, 0},
        {KZ_PATCHES_LENGTH, KZ_PICTURE_SETTINGS(2, 2, 8), LAST - 1, SWEEP_H, SWEEP_W, 3, 0, 0},
        {KZ_PATCHES_LENGTH, KZ_PICTURE_SETTINGS(2, 2, 8), LAST + 1, SWEEP_H, SWEEP_W, 3, SWEEP, WHOLE},
        {KZ_PATCHES_LENGTH, KZ_PICTURE_SETTINGS(2, 2, 8), LAST, SWEEP_H, SWEEP_W, 0, SWEEP, WHOLE},
        {KZ_PATCHES_LENGTH, KZ_PICTURE_SETTINGS(2, 2, 8), 0, SWEEP_H, SWEEP_W, 3, SWEEP, WHOLE},
        {KZ_OUTPUT, KZ_PICTURE_SETTINGS(2, 2, 8), LAST, SWEEP_H, SWEEP_W, 3, SWEEP - 1, 0},
        {KZ_OUTPUT, KZ_PICTURE_SETTINGS(2, 2, 8), LAST, SWEEP_H, SWEEP_W, 3, LAST, LAST - 1},
        {KZ_OUTPUT, KZ_PICTURE_SETTINGS(2, 2, 8), LAST, SWEEP_H, SWEEP_W, 3, 0, WHOLE},
        {KZ_SAMPLE, KZ_PICTURE_SETTINGS(2, 2, 8), LAST, SWEEP_H, SWEEP_W, 3, SWEEP, 0},
        {KZ_SAMPLE, KZ_PICTURE_SETTINGS(2, 2, 8), LAST, SWEEP_H, SWEEP_W, 3, SWEEP, LAST - 1},
        {KZ_SAMPLE, with(3, 0.2f, 0.25f), LAST, SWEEP_H, SWEEP_W, 3, SWEEP, WHOLE},
    };
    for (size_t i = 0; i < sizeof calls / sizeof *calls; i++) {
        memcpy(damaged, tile_patches[3], sizeof damaged);
        if (calls[i].place < WHOLE) damaged[calls[i].place] += 1;
        memcpy(out, before, sizeof out);
        r = kz_restore_tile(calls[i].settings, calls[i].patches_len ? damaged : NULL, calls[i].patches_len,
                            calls[i].height, calls[i].width, calls[i].index, calls[i].out_len ? out : NULL,
                            calls[i].out_len);
        EXPECT(refused(r, calls[i].number));
        EXPECT(memcmp(out, before, sizeof out) == 0);
    }
}

static void patch(void) {
    struct kz_patch_place p = kz_patch(patches, FLOATS, 2, 3);
    EXPECT(p.start == 36 && p.len == 12);
    p = kz_patch(patches, FLOATS, 2, 8);
    EXPECT(p.start == 0 && p.len == 0);
    p = kz_patch(patches, FLOATS, 2, SIZE_MAX);
    EXPECT(p.start == 0 && p.len == 0);
    p = kz_patch(patches, FLOATS, 0, 0);
    EXPECT(p.start == 0 && p.len == 0);
    p = kz_patch(patches, FLOATS, 33, 0);
    EXPECT(p.start == 0 && p.len == 0);
    p = kz_patch(NULL, 0, 1, 0);
    EXPECT(p.start == 0 && p.len == 0);
}

/* H 4, I 5, X 3, one layer. */
enum {
    WEIGHTS = 4 * 12 + 4 + (2 * 4 + 4 * 16 + 3 * 4 * 5) + 4 + 4 * 4 * 4 + 3 * 4 + 3 * 3,
    TABLE = 4 * 4 * 4,
    AXIS = 4 * 4 / 4,
    SCRATCH = 7 * 8 * 4 + 2 * 8 * 5 + 8 + 2 * 2 * 3,
    TOKENS = 2 * 3
};

static void forward(void) {
    const struct kz_encoder_settings good = {KZ_PICTURE_SETTINGS(2, 2, 8), 4, 1, 4, 1, 5, 3, 0, 0.5f};
    float weights[WEIGHTS], rope_cos[TABLE], rope_sin[TABLE], scratch[SCRATCH + TAIL], out[TOKENS + TAIL];
    float first[TOKENS];
    struct kz_forward_report r;

    for (size_t i = 0; i < WEIGHTS; i++) weights[i] = (float)(int)(i * 37 % 41) / 82.0f - 0.2f;
    for (size_t i = 0; i < TABLE; i++) {
        rope_cos[i] = 0.8f;
        rope_sin[i] = 0.6f;
    }
    mark_all(scratch, SCRATCH + TAIL);
    mark_all(out, TOKENS + TAIL);
    r = kz_forward(good, patches, FLOATS, 2, 4, weights, WEIGHTS, rope_cos, TABLE, rope_sin, TABLE, scratch,
                   SCRATCH + TAIL, out, TOKENS + TAIL);
    EXPECT(r.number == KZ_ACCEPTED && r.tokens == 2);
    EXPECT(marked(out, TOKENS, TOKENS + TAIL) && !marked(out, 0, 1));
    EXPECT(zeroed(scratch, SCRATCH + TAIL));
    /* The same bits again, from another scratch. */
    memcpy(first, out, sizeof first);
    mark_all(scratch, SCRATCH);
    r = kz_forward(good, patches, FLOATS, 2, 4, weights, WEIGHTS, rope_cos, TABLE, rope_sin, TABLE, scratch, SCRATCH,
                   out, TOKENS);
    EXPECT(r.number == KZ_ACCEPTED && memcmp(first, out, sizeof first) == 0);
    /* And by the other rule: of a rule forward only asks whether there is one. */
    struct kz_encoder_settings other = good;
    other.picture = ruled(2);
    mark_all(out, TOKENS);
    r = kz_forward(other, patches, FLOATS, 2, 4, weights, WEIGHTS, rope_cos, TABLE, rope_sin, TABLE, scratch, SCRATCH,
                   out, TOKENS);
    EXPECT(r.number == KZ_ACCEPTED && memcmp(first, out, sizeof first) == 0);
    /* Means and deviations it never reads. */
    other.picture = with(3, NAN, 0);
    mark_all(out, TOKENS);
    r = kz_forward(other, patches, FLOATS, 2, 4, weights, WEIGHTS, rope_cos, TABLE, rope_sin, TABLE, scratch, SCRATCH,
                   out, TOKENS);
    EXPECT(r.number == KZ_ACCEPTED && memcmp(first, out, sizeof first) == 0);

    struct {
        uint32_t number;
        size_t rule, layers, grid_w, patches_len, weights_len, cos_len, sin_len, out_len, scratch_len;
        float damage; /* over the last weight */
    } calls[] = {
        {KZ_SETTING, 0, 1, 4, FLOATS, WEIGHTS, TABLE, TABLE, TOKENS, SCRATCH, 0},
        {KZ_SETTING, 3, 1, 4, FLOATS, WEIGHTS, TABLE, TABLE, TOKENS, SCRATCH, 0},
        {KZ_SETTING, SIZE_MAX, 1, 5, 0, 0, 0, 0, TOKENS, SCRATCH, 1},
        {KZ_SETTING, 1, 49, 4, FLOATS, WEIGHTS, TABLE, TABLE, TOKENS, SCRATCH, 0},
        {KZ_GRID, 1, 1, 5, FLOATS, WEIGHTS, TABLE, TABLE, TOKENS, SCRATCH, 0},
        {KZ_PATCHES_LENGTH, 1, 1, 4, FLOATS - 1, 0, 0, 0, 0, 0, 0},
        {KZ_WEIGHTS_LENGTH, 1, 0, 4, FLOATS, WEIGHTS, 0, 0, 0, 0, 0},
        {KZ_WEIGHTS_LENGTH, 1, 1, 4, FLOATS, WEIGHTS - 1, TABLE, TABLE, TOKENS, SCRATCH, 0},
        {KZ_TABLE_LENGTH, 1, 1, 4, FLOATS, WEIGHTS, TABLE - 1, TABLE, 0, 0, 0},
        {KZ_TABLE_LENGTH, 1, 1, 4, FLOATS, WEIGHTS, TABLE, 0, TOKENS, SCRATCH, 0},
        {KZ_OUTPUT, 1, 1, 4, FLOATS, WEIGHTS, TABLE, TABLE, TOKENS - 1, 0, 0},
        {KZ_SCRATCH, 1, 1, 4, FLOATS, WEIGHTS, TABLE, TABLE, TOKENS, SCRATCH - 1, 1},
        {KZ_NOT_FINITE, 1, 1, 4, FLOATS, WEIGHTS, TABLE, TABLE, TOKENS, SCRATCH, 1},
    };
    for (size_t i = 0; i < sizeof calls / sizeof *calls; i++) {
        struct kz_encoder_settings s = good;
        float last = weights[WEIGHTS - 1];
        s.picture = ruled(calls[i].rule);
        s.num_layers = calls[i].layers;
        if (calls[i].damage != 0) weights[WEIGHTS - 1] = strtof("inf", NULL);
        mark_all(scratch, SCRATCH);
        mark_all(out, TOKENS);
        r = kz_forward(s, patches, calls[i].patches_len, 2, calls[i].grid_w, weights, calls[i].weights_len, rope_cos,
                       calls[i].cos_len, rope_sin, calls[i].sin_len, scratch, calls[i].scratch_len, out,
                       calls[i].out_len);
        EXPECT(r.number == calls[i].number && r.tokens == 0);
        EXPECT(marked(out, 0, TOKENS));
        EXPECT(r.number == KZ_NOT_FINITE ? zeroed(scratch, SCRATCH) : marked(scratch, 0, SCRATCH));
        weights[WEIGHTS - 1] = last;
    }
}

/* By tables of rows and of columns: what kz_forward gives by the full tables that they stand for. */
static void forward_axes(void) {
    /* So large a scale that each table counts. */
    const struct kz_encoder_settings good = {KZ_PICTURE_SETTINGS(2, 2, 8), 4, 1, 4, 1, 5, 3, 0, 32.0f};
    float weights[WEIGHTS], rope_cos[TABLE], rope_sin[TABLE], scratch[SCRATCH + TAIL], out[TOKENS + TAIL];
    float axes[4][TABLE]; /* row_cos, row_sin, column_cos, column_sin, and behind each what no call is to read */
    float right[TOKENS], first[TOKENS];
    struct kz_encoder_settings other = good;
    struct kz_forward_report r;

    for (size_t i = 0; i < WEIGHTS; i++) weights[i] = (float)(int)(i * 37 % 41) / 82.0f - 0.2f;
    for (size_t k = 0; k < 4; k++)
        for (size_t i = 0; i < TABLE; i++) axes[k][i] = i < AXIS ? (float)(int)((k * AXIS + i) * 7 % 17) / 17.0f : NAN;
    /* The row of (h, w) at h * 4 + w: h's value, w's value, and both again. */
    for (size_t i = 0; i < TABLE; i++) {
        size_t h = i / 16, w = i / 4 % 4;
        rope_cos[i] = i % 2 ? axes[2][w] : axes[0][h];
        rope_sin[i] = i % 2 ? axes[3][w] : axes[1][h];
    }
    r = kz_forward(good, patches, FLOATS, 2, 4, weights, WEIGHTS, rope_cos, TABLE, rope_sin, TABLE, scratch, SCRATCH,
                   right, TOKENS);
    EXPECT(r.number == KZ_ACCEPTED && r.tokens == 2);
    for (size_t rule = 1; rule <= 2; rule++) {
        other.picture = ruled(rule);
        mark_all(scratch, SCRATCH + TAIL);
        mark_all(out, TOKENS + TAIL);
        r = kz_forward_axes(other, patches, FLOATS, 2, 4, weights, WEIGHTS, axes[0], AXIS, axes[1], AXIS, axes[2], AXIS,
                            axes[3], AXIS, scratch, SCRATCH + TAIL, out, TOKENS + TAIL);
        EXPECT(r.number == KZ_ACCEPTED && r.tokens == 2 && memcmp(out, right, sizeof right) == 0);
        EXPECT(marked(out, TOKENS, TOKENS + TAIL) && zeroed(scratch, SCRATCH + TAIL));
    }
    /* Means and deviations it never reads, and the tables in another order are others. */
    other.picture = with(3, NAN, 0);
    r = kz_forward_axes(other, patches, FLOATS, 2, 4, weights, WEIGHTS, axes[0], AXIS, axes[1], AXIS, axes[2], AXIS,
                        axes[3], AXIS, scratch, SCRATCH, first, TOKENS);
    EXPECT(r.number == KZ_ACCEPTED && memcmp(first, right, sizeof right) == 0);
    r = kz_forward_axes(good, patches, FLOATS, 2, 4, weights, WEIGHTS, axes[2], AXIS, axes[3], AXIS, axes[0], AXIS,
                        axes[1], AXIS, scratch, SCRATCH, first, TOKENS);
    EXPECT(r.number == KZ_ACCEPTED && memcmp(first, right, sizeof right) != 0);
    r = kz_forward_axes(good, patches, FLOATS, 2, 4, weights, WEIGHTS, axes[1], AXIS, axes[0], AXIS, axes[2], AXIS,
                        axes[3], AXIS, scratch, SCRATCH, first, TOKENS);
    EXPECT(r.number == KZ_ACCEPTED && memcmp(first, right, sizeof right) != 0);

    struct {
        uint32_t number;
        size_t rule, layers, grid_w, patches_len, weights_len, axis_len[4], out_len, scratch_len;
        float damage; /* over the last weight */
    } calls[] = {
        {KZ_SETTING, 0, 1, 4, FLOATS, WEIGHTS, {AXIS, AXIS, AXIS, AXIS}, TOKENS, SCRATCH, 0},
        {KZ_SETTING, SIZE_MAX, 1, 5, 0, 0, {0, 0, 0, 0}, 0, 0, 1},
        {KZ_SETTING, 1, 49, 4, FLOATS, WEIGHTS, {AXIS, AXIS, AXIS, AXIS}, TOKENS, SCRATCH, 0},
        {KZ_GRID, 1, 1, 5, 0, 0, {0, 0, 0, 0}, 0, 0, 1},
        {KZ_PATCHES_LENGTH, 1, 1, 4, FLOATS - 1, 0, {0, 0, 0, 0}, 0, 0, 0},
        {KZ_WEIGHTS_LENGTH, 1, 1, 4, FLOATS, WEIGHTS - 1, {AXIS, 0, AXIS, 0}, 0, 0, 0},
        {KZ_TABLE_LENGTH, 1, 1, 4, FLOATS, WEIGHTS, {AXIS - 1, AXIS, AXIS, AXIS}, 0, 0, 1},
        {KZ_TABLE_LENGTH, 1, 1, 4, FLOATS, WEIGHTS, {AXIS + 1, AXIS, AXIS, AXIS}, TOKENS, SCRATCH, 0},
        {KZ_TABLE_LENGTH, 1, 1, 4, FLOATS, WEIGHTS, {AXIS, AXIS - 1, AXIS, AXIS}, TOKENS, SCRATCH, 0},
        {KZ_TABLE_LENGTH, 1, 1, 4, FLOATS, WEIGHTS, {AXIS, AXIS + 1, AXIS, AXIS}, TOKENS, SCRATCH, 0},
        {KZ_TABLE_LENGTH, 1, 1, 4, FLOATS, WEIGHTS, {AXIS, AXIS, AXIS - 1, AXIS}, TOKENS, SCRATCH, 0},
        {KZ_TABLE_LENGTH, 1, 1, 4, FLOATS, WEIGHTS, {AXIS, AXIS, AXIS + 1, AXIS}, TOKENS, SCRATCH, 0},
        {KZ_TABLE_LENGTH, 1, 1, 4, FLOATS, WEIGHTS, {AXIS, AXIS, AXIS, AXIS - 1}, TOKENS, SCRATCH, 0},
        {KZ_TABLE_LENGTH, 1, 1, 4, FLOATS, WEIGHTS, {AXIS, AXIS, AXIS, AXIS + 1}, 0, 0, 0},
        {KZ_TABLE_LENGTH, 1, 1, 4, FLOATS, WEIGHTS, {0, 0, 0, 0}, TOKENS, SCRATCH, 0},
        {KZ_TABLE_LENGTH, 1, 1, 4, FLOATS, WEIGHTS, {TABLE, TABLE, TABLE, TABLE}, TOKENS, SCRATCH, 0},
        {KZ_TABLE_LENGTH, 1, 1, 4, FLOATS, WEIGHTS, {TABLE, TABLE, 0, 0}, TOKENS, SCRATCH, 0},
        {KZ_OUTPUT, 1, 1, 4, FLOATS, WEIGHTS, {AXIS, AXIS, AXIS, AXIS}, TOKENS - 1, 0, 1},
        {KZ_SCRATCH, 1, 1, 4, FLOATS, WEIGHTS, {AXIS, AXIS, AXIS, AXIS}, TOKENS, SCRATCH - 1, 1},
        {KZ_NOT_FINITE, 1, 1, 4, FLOATS, WEIGHTS, {AXIS, AXIS, AXIS, AXIS}, TOKENS, SCRATCH, 1},
    };
    for (size_t i = 0; i < sizeof calls / sizeof *calls; i++) {
        struct kz_encoder_settings s = good;
        float last = weights[WEIGHTS - 1];
        const size_t *len = calls[i].axis_len;
        s.picture = ruled(calls[i].rule);
        s.num_layers = calls[i].layers;
        if (calls[i].damage != 0) weights[WEIGHTS - 1] = strtof("inf", NULL);
        mark_all(scratch, SCRATCH);
        mark_all(out, TOKENS);
        r = kz_forward_axes(s, patches, calls[i].patches_len, 2, calls[i].grid_w, weights, calls[i].weights_len,
                            len[0] ? axes[0] : NULL, len[0], len[1] ? axes[1] : NULL, len[1], len[2] ? axes[2] : NULL,
                            len[2], len[3] ? axes[3] : NULL, len[3], scratch, calls[i].scratch_len, out,
                            calls[i].out_len);
        EXPECT(r.number == calls[i].number && r.tokens == 0);
        EXPECT(marked(out, 0, TOKENS));
        EXPECT(r.number == KZ_NOT_FINITE ? zeroed(scratch, SCRATCH) : marked(scratch, 0, SCRATCH));
        weights[WEIGHTS - 1] = last;
    }
    /* 12: each float of the four is examined, those of rows that a grid of 2 * 4 has not too. */
    for (size_t k = 0; k < 4 * AXIS; k++) {
        float kept = axes[k / AXIS][k % AXIS];
        axes[k / AXIS][k % AXIS] = k % 2 ? NAN : -INFINITY;
        mark_all(scratch, SCRATCH);
        mark_all(out, TOKENS);
        r = kz_forward_axes(good, patches, FLOATS, 2, 4, weights, WEIGHTS, axes[0], AXIS, axes[1], AXIS, axes[2], AXIS,
                            axes[3], AXIS, scratch, SCRATCH, out, TOKENS);
        EXPECT(r.number == KZ_NOT_FINITE && r.tokens == 0 && marked(out, 0, TOKENS) && zeroed(scratch, SCRATCH));
        axes[k / AXIS][k % AXIS] = kept;
    }
}

/* With plain attention: what kz_forward gives, with a matrix of scores in the scratch, and up to 64 tokens. */
static void forward_plain(void) {
    enum { PLAIN = SCRATCH + 8 * 8 - 8 };
    const struct kz_encoder_settings good = {KZ_PICTURE_SETTINGS(2, 2, 8), 4, 1, 4, 1, 5, 3, 0, 0.5f};
    float weights[WEIGHTS], rope_cos[TABLE], rope_sin[TABLE], scratch[PLAIN + TAIL], out[TOKENS + TAIL];
    float right[TOKENS];
    struct kz_encoder_settings other = good;
    struct kz_forward_report r;

    for (size_t i = 0; i < WEIGHTS; i++) weights[i] = (float)(int)(i * 37 % 41) / 82.0f - 0.2f;
    for (size_t i = 0; i < TABLE; i++) {
        rope_cos[i] = (float)(int)(i * 7 % 17) / 17.0f;
        rope_sin[i] = (float)(int)(i * 5 % 19) / 19.0f;
    }
    r = kz_forward(good, patches, FLOATS, 2, 4, weights, WEIGHTS, rope_cos, TABLE, rope_sin, TABLE, scratch, SCRATCH,
                   right, TOKENS);
    EXPECT(r.number == KZ_ACCEPTED && r.tokens == 2);
    for (size_t rule = 1; rule <= 2; rule++) {
        other.picture = ruled(rule);
        mark_all(scratch, PLAIN + TAIL);
        mark_all(out, TOKENS + TAIL);
        r = kz_forward_plain(other, patches, FLOATS, 2, 4, weights, WEIGHTS, rope_cos, TABLE, rope_sin, TABLE, scratch,
                             PLAIN + TAIL, out, TOKENS + TAIL);
        EXPECT(r.number == KZ_ACCEPTED && r.tokens == 2 && memcmp(out, right, sizeof right) == 0);
        EXPECT(marked(out, TOKENS, TOKENS + TAIL) && zeroed(scratch, PLAIN + TAIL));
    }
    /* Means and deviations it never reads; and the tables in another order are others. */
    other.picture = with(3, NAN, 0);
    mark_all(out, TOKENS);
    r = kz_forward_plain(other, patches, FLOATS, 2, 4, weights, WEIGHTS, rope_cos, TABLE, rope_sin, TABLE, scratch,
                         PLAIN, out, TOKENS);
    EXPECT(r.number == KZ_ACCEPTED && memcmp(out, right, sizeof right) == 0);
    other = good;
    other.scaling = 32.0f;
    r = kz_forward_plain(other, patches, FLOATS, 2, 4, weights, WEIGHTS, rope_sin, TABLE, rope_cos, TABLE, scratch,
                         PLAIN, out, TOKENS);
    EXPECT(r.number == KZ_ACCEPTED && memcmp(out, right, sizeof right) != 0);

    struct {
        uint32_t number;
        size_t rule, layers, grid_w, patches_len, weights_len, cos_len, sin_len, out_len, scratch_len;
        float damage; /* over the last weight */
    } calls[] = {
        {KZ_SETTING, 0, 1, 4, FLOATS, WEIGHTS, TABLE, TABLE, TOKENS, PLAIN, 0},
        {KZ_SETTING, SIZE_MAX, 1, 5, 0, 0, 0, 0, TOKENS, PLAIN, 1},
        {KZ_SETTING, 1, 49, 4, FLOATS, WEIGHTS, TABLE, TABLE, TOKENS, PLAIN, 0},
        {KZ_GRID, 1, 1, 5, FLOATS, WEIGHTS, TABLE, TABLE, TOKENS, PLAIN, 0},
        {KZ_GRID, 1, 1, SIZE_MAX, 0, 0, 0, 0, 0, 0, 0},
        {KZ_PATCHES_LENGTH, 1, 1, 4, FLOATS - 1, 0, 0, 0, 0, 0, 0},
        {KZ_WEIGHTS_LENGTH, 1, 1, 4, FLOATS, WEIGHTS - 1, 0, 0, 0, 0, 0},
        {KZ_TABLE_LENGTH, 1, 1, 4, FLOATS, WEIGHTS, TABLE - 1, TABLE, 0, 0, 0},
        {KZ_TABLE_LENGTH, 1, 1, 4, FLOATS, WEIGHTS, TABLE, 0, TOKENS, PLAIN, 0},
        {KZ_OUTPUT, 1, 1, 4, FLOATS, WEIGHTS, TABLE, TABLE, TOKENS - 1, 0, 0},
        {KZ_SCRATCH, 1, 1, 4, FLOATS, WEIGHTS, TABLE, TABLE, TOKENS, PLAIN - 1, 1},
        {KZ_SCRATCH, 1, 1, 4, FLOATS, WEIGHTS, TABLE, TABLE, TOKENS, SCRATCH, 0},
        {KZ_NOT_FINITE, 1, 1, 4, FLOATS, WEIGHTS, TABLE, TABLE, TOKENS, PLAIN, 1},
    };
    for (size_t i = 0; i < sizeof calls / sizeof *calls; i++) {
        struct kz_encoder_settings s = good;
        float last = weights[WEIGHTS - 1];
        s.picture = ruled(calls[i].rule);
        s.num_layers = calls[i].layers;
        if (calls[i].damage != 0) weights[WEIGHTS - 1] = strtof("inf", NULL);
        mark_all(scratch, PLAIN);
        mark_all(out, TOKENS);
        r = kz_forward_plain(s, patches, calls[i].patches_len, 2, calls[i].grid_w, weights, calls[i].weights_len,
                             rope_cos, calls[i].cos_len, rope_sin, calls[i].sin_len, scratch, calls[i].scratch_len, out,
                             calls[i].out_len);
        EXPECT(r.number == calls[i].number && r.tokens == 0);
        EXPECT(marked(out, 0, TOKENS));
        EXPECT(r.number == KZ_NOT_FINITE ? zeroed(scratch, PLAIN) : marked(scratch, 0, PLAIN));
        weights[WEIGHTS - 1] = last;
    }
}

/* At 64 and at 65 tokens, with patch and merge 1: 22 behind 7 and before all else. */
static void tokens(void) {
    enum {
        FEW = 8 * 8,
        MANY = 13 * 5,
        SMALL = 4 * 3 + 4 + (2 * 4 + 4 * 16 + 3 * 4 * 5) + 4 + 4 * 4 + 3 * 4 + 3 * 3,
        WIDE = 13 * 13 * 4,
        LEAST = 7 * FEW * 4 + 2 * FEW * 5 + FEW * FEW + 2 * FEW * 3,
        MOST = 7 * MANY * 4 + 2 * MANY * 5 + MANY * MANY + 2 * MANY * 3
    };
    const struct kz_encoder_settings good = {KZ_PICTURE_SETTINGS(1, 1, 13), 4, 1, 4, 1, 5, 3, 0, 0.5f};
    static float floats[MANY * 3], weights[SMALL], rope_cos[WIDE], rope_sin[WIDE], scratch[MOST], out[MANY * 3];
    static float right[FEW * 3];
    struct kz_forward_report r;

    for (size_t i = 0; i < MANY * 3; i++) floats[i] = (float)(int)(i * 29 % 31) / 15.0f - 1.0f;
    for (size_t i = 0; i < SMALL; i++) weights[i] = (float)(int)(i * 37 % 41) / 82.0f - 0.2f;
    for (size_t i = 0; i < WIDE; i++) {
        rope_cos[i] = (float)(int)(i * 7 % 17) / 17.0f;
        rope_sin[i] = (float)(int)(i * 5 % 19) / 19.0f;
    }
    r = kz_forward(good, floats, FEW * 3, 8, 8, weights, SMALL, rope_cos, WIDE, rope_sin, WIDE, scratch, MOST, right,
                   FEW * 3);
    EXPECT(r.number == KZ_ACCEPTED && r.tokens == FEW);
    mark_all(scratch, MOST);
    r = kz_forward_plain(good, floats, FEW * 3, 8, 8, weights, SMALL, rope_cos, WIDE, rope_sin, WIDE, scratch,
                         LEAST - 1, out, FEW * 3);
    EXPECT(r.number == KZ_SCRATCH && r.tokens == 0 && marked(scratch, 0, MOST));
    r = kz_forward_plain(good, floats, FEW * 3, 8, 8, weights, SMALL, rope_cos, WIDE, rope_sin, WIDE, scratch, LEAST,
                         out, FEW * 3);
    EXPECT(r.number == KZ_ACCEPTED && r.tokens == FEW && memcmp(out, right, sizeof right) == 0);
    EXPECT(zeroed(scratch, LEAST) && marked(scratch, LEAST, MOST));

    struct {
        uint32_t number;
        size_t layers, grid_h, patches_len, weights_len, table_len, out_len, scratch_len;
    } calls[] = {
        {KZ_TOKENS, 1, 13, MANY * 3, SMALL, WIDE, MANY * 3, MOST},
        {KZ_TOKENS, 1, 13, MANY * 3, SMALL - 1, WIDE, MANY * 3, MOST},
        {KZ_TOKENS, 1, 13, MANY * 3, SMALL, 0, MANY * 3, MOST},
        {KZ_TOKENS, 1, 13, MANY * 3, SMALL, WIDE, 0, MOST},
        {KZ_TOKENS, 1, 13, MANY * 3, SMALL, WIDE, MANY * 3, 0},
        {KZ_TOKENS, 1, 13, MANY * 3, 0, 0, 0, 0},
        {KZ_PATCHES_LENGTH, 1, 13, MANY * 3 - 1, SMALL, WIDE, MANY * 3, MOST},
        {KZ_PATCHES_LENGTH, 1, 13, FEW * 3, 0, 0, 0, 0},
        {KZ_GRID, 1, 14, MANY * 3, 0, 0, 0, 0},
        {KZ_SETTING, 49, 13, MANY * 3, SMALL, WIDE, MANY * 3, MOST},
    };
    mark_all(scratch, MOST);
    mark_all(out, MANY * 3);
    for (size_t i = 0; i < sizeof calls / sizeof *calls; i++) {
        struct kz_encoder_settings s = good;
        s.num_layers = calls[i].layers;
        r = kz_forward_plain(s, floats, calls[i].patches_len, calls[i].grid_h, 5, weights, calls[i].weights_len,
                             rope_cos, calls[i].table_len, rope_sin, calls[i].table_len, scratch, calls[i].scratch_len,
                             out, calls[i].out_len);
        EXPECT(r.number == calls[i].number && r.tokens == 0);
        EXPECT(marked(out, 0, MANY * 3) && marked(scratch, 0, MOST));
    }
    /* kz_forward takes them all. */
    r = kz_forward(good, floats, MANY * 3, 13, 5, weights, SMALL, rope_cos, WIDE, rope_sin, WIDE, scratch, MOST, out,
                   MANY * 3);
    EXPECT(r.number == KZ_ACCEPTED && r.tokens == MANY);
}

/* With a bias of linear_1 and of linear_2, each behind its matrix. */
static void projector_bias(void) {
    enum { BIAS_1 = WEIGHTS - 3 * 3, BIAS_2 = WEIGHTS + 3, BIASED = WEIGHTS + 2 * 3 };
    struct kz_encoder_settings s = {KZ_PICTURE_SETTINGS(2, 2, 8), 4, 1, 4, 1, 5, 3, 1, 0.5f};
    const struct kz_encoder_settings without = {KZ_PICTURE_SETTINGS(2, 2, 8), 4, 1, 4, 1, 5, 3, 0, 0.5f};
    const size_t none[] = {2, 3, (size_t)1 << 32, ((size_t)1 << 32) + 1, SIZE_MAX};
    float weights[BIASED], plain[WEIGHTS], rope_cos[TABLE], rope_sin[TABLE], scratch[SCRATCH], out[TOKENS];
    float first[TOKENS], sums[TOKENS];
    struct kz_forward_report r;

    for (size_t i = 0; i < BIASED; i++) weights[i] = (float)(int)(i * 37 % 41) / 82.0f - 0.2f;
    for (size_t i = 0; i < TABLE; i++) {
        rope_cos[i] = 0.8f;
        rope_sin[i] = 0.6f;
    }
    /* Zeros for linear_1's: linear_2's is then added to the vectors without a bias, once each. */
    for (size_t k = 0; k < 3; k++) weights[BIAS_1 + k] = 0;
    memcpy(plain, weights, BIAS_1 * sizeof *plain);
    memcpy(plain + BIAS_1, weights + BIAS_1 + 3, 9 * sizeof *plain);
    r = kz_forward(without, patches, FLOATS, 2, 4, plain, WEIGHTS, rope_cos, TABLE, rope_sin, TABLE, scratch, SCRATCH,
                   sums, TOKENS);
    EXPECT(r.number == KZ_ACCEPTED && r.tokens == 2);
    r = kz_forward(s, patches, FLOATS, 2, 4, weights, BIASED, rope_cos, TABLE, rope_sin, TABLE, scratch, SCRATCH, first,
                   TOKENS);
    EXPECT(r.number == KZ_ACCEPTED && r.tokens == 2 && zeroed(scratch, SCRATCH));
    for (size_t i = 0; i < TOKENS; i++) EXPECT(first[i] == sums[i] + weights[BIAS_2 + i % 3] && first[i] != sums[i]);
    weights[BIAS_1] = 0.25f;
    r = kz_forward(s, patches, FLOATS, 2, 4, weights, BIASED, rope_cos, TABLE, rope_sin, TABLE, scratch, SCRATCH, out,
                   TOKENS);
    EXPECT(r.number == KZ_ACCEPTED && memcmp(first, out, sizeof first) != 0);
    EXPECT(kz_lengths(s, 2, 4).weights == BIASED && kz_lengths(s, 2, 4).scratch == SCRATCH);

    /* 9: the biases missing, or one, or one float; and there where the setting tells of none. */
    for (size_t len = 0; len < BIASED; len++) {
        mark_all(out, TOKENS);
        r = kz_forward(s, patches, FLOATS, 2, 4, weights, len, rope_cos, TABLE, rope_sin, TABLE, scratch, SCRATCH, out,
                       TOKENS);
        EXPECT(r.number == KZ_WEIGHTS_LENGTH && r.tokens == 0 && marked(out, 0, TOKENS));
    }
    r = kz_forward(without, patches, FLOATS, 2, 4, weights, BIASED, rope_cos, TABLE, rope_sin, TABLE, scratch, SCRATCH,
                   out, TOKENS);
    EXPECT(r.number == KZ_WEIGHTS_LENGTH && r.tokens == 0 && marked(out, 0, TOKENS));

    /* 12: each float of the biases is examined. */
    for (size_t i = BIAS_1; i < BIASED; i = i == BIAS_1 + 2 ? BIAS_2 : i + 1) {
        float kept = weights[i];
        weights[i] = NAN;
        mark_all(scratch, SCRATCH);
        r = kz_forward(s, patches, FLOATS, 2, 4, weights, BIASED, rope_cos, TABLE, rope_sin, TABLE, scratch, SCRATCH,
                       out, TOKENS);
        EXPECT(r.number == KZ_NOT_FINITE && r.tokens == 0 && marked(out, 0, TOKENS) && zeroed(scratch, SCRATCH));
        weights[i] = kept;
    }

    /* 1, before all others. */
    for (size_t i = 0; i < sizeof none / sizeof *none; i++) {
        struct kz_lengths_report l;
        s.projector_bias = none[i];
        mark_all(scratch, SCRATCH);
        r = kz_forward(s, patches, FLOATS, 2, 4, weights, BIASED, rope_cos, TABLE, rope_sin, TABLE, scratch, SCRATCH,
                       out, TOKENS);
        EXPECT(r.number == KZ_SETTING && r.tokens == 0 && marked(out, 0, TOKENS) && marked(scratch, 0, SCRATCH));
        r = kz_forward(s, patches, 0, 0, 5, NULL, 0, NULL, 0, NULL, 0, NULL, 0, NULL, 0);
        EXPECT(r.number == KZ_SETTING && r.tokens == 0);
        l = kz_lengths(s, 2, 4);
        EXPECT(l.number == KZ_SETTING && l.weights == 0 && l.out == 0);
    }
}

static void lengths(void) {
    const struct kz_encoder_settings good = {KZ_PICTURE_SETTINGS(2, 2, 8), 4, 1, 4, 1, 5, 3, 0, 0.5f};
    const struct kz_encoder_settings largest = {KZ_PICTURE_SETTINGS(1, 1, 2048), 2048, 8, 256, 48, 8192, 8192, 1, 0.5f};
    const size_t t = 2048 * 2048, h = 2048, i = 8192, x = 8192;
    struct kz_lengths_report r = kz_lengths(good, 2, 4);

    EXPECT(r.number == KZ_ACCEPTED && r.patches == FLOATS && r.weights == WEIGHTS);
    EXPECT(r.tables == TABLE && r.axes == AXIS && r.scratch == SCRATCH && r.out == TOKENS);
    /* Weights and tables are as long with every grid. */
    r = kz_lengths(good, 2, 2);
    EXPECT(r.number == KZ_ACCEPTED && r.patches == FLOATS / 2 && r.weights == WEIGHTS);
    EXPECT(r.tables == TABLE && r.axes == AXIS && r.scratch == SCRATCH / 2 && r.out == TOKENS / 2);
    /* And with any means and deviations. */
    {
        struct kz_encoder_settings other = good;
        struct kz_lengths_report same;
        other.picture = with(3, NAN, 0);
        same = kz_lengths(other, 2, 2);
        EXPECT(same.number == KZ_ACCEPTED && same.patches == r.patches && same.weights == r.weights);
        EXPECT(same.tables == r.tables && same.axes == r.axes && same.scratch == r.scratch && same.out == r.out);
    }
    /* More than 32 bits can count. */
    r = kz_lengths(largest, 2048, 2048);
    EXPECT(r.number == KZ_ACCEPTED && r.patches == t * 3);
    EXPECT(r.weights == h * 3 + h + 48 * (2 * h + 4 * h * h + 3 * h * i) + h + h * h + x * h + x + x * x + x);
    EXPECT(r.axes == 2048 * 64);
    EXPECT(r.tables == t * 256 && r.scratch == 7 * t * h + 2 * t * i + t + 2 * t * x && r.out == t * x);

    struct {
        uint32_t number;
        struct kz_encoder_settings settings;
        size_t grid_h, grid_w;
    } calls[] = {
        {KZ_SETTING, {KZ_PICTURE_SETTINGS(0, 2, 8), 4, 1, 4, 1, 5, 3, 0, 0.5f}, 2, 4},
        {KZ_SETTING, {KZ_PICTURE_SETTINGS(2, 5, 8), 4, 1, 4, 1, 5, 3, 0, 0.5f}, 2, 4},
        {KZ_SETTING, {KZ_PICTURE_SETTINGS(2, 2, SIZE_MAX), 4, 1, 4, 1, 5, 3, 0, 0.5f}, 2, 4},
        {KZ_SETTING, {ruled(0), 4, 1, 4, 1, 5, 3, 0, 0.5f}, 2, 4},
        {KZ_SETTING, {ruled(3), 4, 1, 4, 1, 5, 3, 0, 0.5f}, 2, 4},
        {KZ_SETTING, {ruled(SIZE_MAX), 4, 1, 4, 1, 5, 3, 0, 0.5f}, 0, 5},
        {KZ_SETTING, {KZ_PICTURE_SETTINGS(2, 2, 8), 8, 1, 4, 1, 5, 3, 0, 0.5f}, 2, 4},
        {KZ_SETTING, {KZ_PICTURE_SETTINGS(2, 2, 8), 4, 0, 4, 1, 5, 3, 0, 0.5f}, 2, 4},
        {KZ_SETTING, {KZ_PICTURE_SETTINGS(2, 2, 8), 6, 1, 6, 1, 5, 3, 0, 0.5f}, 2, 4},
        {KZ_SETTING, {KZ_PICTURE_SETTINGS(2, 2, 8), 4, 1, 4, 49, 5, 3, 0, 0.5f}, 0, 5},
        {KZ_SETTING, {KZ_PICTURE_SETTINGS(2, 2, 8), 4, 1, 4, 1, 8193, 3, 0, 0.5f}, 2, 4},
        {KZ_SETTING, {KZ_PICTURE_SETTINGS(2, 2, 8), 4, 1, 4, 1, 5, 0, 0, 0.5f}, 2, 4},
        {KZ_SETTING, {KZ_PICTURE_SETTINGS(2, 2, 8), 4, 1, 4, 1, 5, 3, 0, 0.0f}, 2, 4},
        {KZ_GRID, {KZ_PICTURE_SETTINGS(2, 2, 8), 4, 1, 4, 1, 5, 3, 0, 0.5f}, 0, 4},
        {KZ_GRID, {KZ_PICTURE_SETTINGS(2, 2, 8), 4, 1, 4, 1, 5, 3, 0, 0.5f}, 2, 6},
        {KZ_GRID, {KZ_PICTURE_SETTINGS(2, 2, 8), 4, 1, 4, 1, 5, 3, 0, 0.5f}, 3, 4},
        {KZ_GRID, {KZ_PICTURE_SETTINGS(2, 2, 8), 4, 1, 4, 1, 5, 3, 0, 0.5f}, SIZE_MAX - 1, SIZE_MAX - 1},
        {KZ_GRID, {KZ_PICTURE_SETTINGS(2, 2, 3), 4, 1, 4, 1, 5, 3, 0, 0.5f}, 2, 2},
        {KZ_GRID, {with(3, NAN, 0), 4, 1, 4, 1, 5, 3, 0, 0.5f}, 3, 4},
    };
    for (size_t k = 0; k < sizeof calls / sizeof *calls; k++) {
        r = kz_lengths(calls[k].settings, calls[k].grid_h, calls[k].grid_w);
        EXPECT(r.number == calls[k].number && r.patches == 0 && r.weights == 0);
        EXPECT(r.tables == 0 && r.axes == 0 && r.scratch == 0 && r.out == 0);
    }
}

static struct kz_config_report config_of(const char *text) {
    /* What config.json does not say; the sizes are not read. */
    static const struct kz_encoder_settings lent = {{9, 9, 9, 2, {1, 2, 3}, {4, 5, 6}}, 9, 9, 9, 9, 9, 9, 1, 0.5f};
    return kz_config(lent, (const uint8_t *)text, text ? strlen(text) : 0);
}

/* Every field, the floats by their bits: the struct has padding. */
static int same_settings(const struct kz_encoder_settings *a, const struct kz_encoder_settings *b) {
    const struct kz_picture_settings *p = &a->picture, *q = &b->picture;
    return p->patch_size == q->patch_size && p->spatial_merge_size == q->spatial_merge_size &&
           p->image_size == q->image_size && p->resize_rule == q->resize_rule &&
           memcmp(p->mean, q->mean, sizeof p->mean) == 0 && memcmp(p->deviation, q->deviation, sizeof p->deviation) == 0 &&
           a->hidden_size == b->hidden_size && a->num_heads == b->num_heads && a->head_dim == b->head_dim &&
           a->num_layers == b->num_layers && a->intermediate_size == b->intermediate_size &&
           a->text_hidden_size == b->text_hidden_size && a->projector_bias == b->projector_bias &&
           memcmp(&a->scaling, &b->scaling, sizeof a->scaling) == 0;
}

static void config(void) {
    static const struct kz_encoder_settings zeros;
    static const struct {
        const char *text;
        uint32_t number;
        size_t place;
    } refusals[] = {
        {NULL, KZ_CONFIG_TEXT, 0},
        {"{", KZ_CONFIG_TEXT, 1},
        {"{\"vision_config\": {},}", KZ_CONFIG_TEXT, 21},
        {"[[[[[[[[[[[[[[[[[[[[[[[[[[[[[[[[[", KZ_CONFIG_DEPTH, 32},
        {"{}", KZ_CONFIG_VISION, 0},
        {"{\"vision_config\": {\"num_attention_heads\": 0}}", KZ_CONFIG_VISION, 0},
        {"{\"vision_config\": {\"patch_size\": 33}}", KZ_SETTING, 0},
    };
    for (size_t i = 0; i < sizeof refusals / sizeof *refusals; i++) {
        struct kz_config_report r = config_of(refusals[i].text);
        EXPECT(r.number == refusals[i].number && r.place == refusals[i].place && same_settings(&r.settings, &zeros));
    }
    {
        static const struct kz_encoder_settings right = {
            {14, 3, 1540, 2, {1, 2, 3}, {4, 5, 6}}, 512, 16, 32, 24, 4096, 5120, 1, 0.5f};
        struct kz_config_report r =
            config_of("{\"spatial_merge_size\": 3, \"vision_config\": {\"hidden\\u005fsize\": 512, \"patch_size\": 14.0}}");
        EXPECT(r.number == KZ_ACCEPTED && r.place == 0 && same_settings(&r.settings, &right));
        EXPECT(kz_lengths(r.settings, 3, 3).number == KZ_ACCEPTED);
    }
}

/* The tensors of a model of hidden 4, one layer, intermediate 1 and text 2 with bias; patch, merge 1. */
static const struct kz_encoder_settings small_model = {KZ_PICTURE_SETTINGS(1, 1, 8), 4, 1, 4, 1, 1, 2, 1, 0.5f};

static const struct {
    const char *name;
    size_t count;
} asked[] = {
    {"vision_tower.patch_conv.weight", 12},
    {"vision_tower.ln_pre.weight", 4},
    {"vision_tower.transformer.layers.0.attention_norm.weight", 4},
    {"vision_tower.transformer.layers.0.attention.q_proj.weight", 16},
    {"vision_tower.transformer.layers.0.attention.k_proj.weight", 16},
    {"vision_tower.transformer.layers.0.attention.v_proj.weight", 16},
    {"vision_tower.transformer.layers.0.attention.o_proj.weight", 16},
    {"vision_tower.transformer.layers.0.ffn_norm.weight", 4},
    {"vision_tower.transformer.layers.0.feed_forward.gate_proj.weight", 4},
    {"vision_tower.transformer.layers.0.feed_forward.up_proj.weight", 4},
    {"vision_tower.transformer.layers.0.feed_forward.down_proj.weight", 4},
    {"multi_modal_projector.norm.weight", 4},
    {"multi_modal_projector.patch_merger.merging_layer.weight", 16},
    {"multi_modal_projector.linear_1.weight", 8},
    {"multi_modal_projector.linear_1.bias", 2},
    {"multi_modal_projector.linear_2.weight", 4},
    {"multi_modal_projector.linear_2.bias", 2},
};
enum { ASKED = sizeof asked / sizeof *asked, READ = 136, IMAGE = 4096 };

static uint8_t image[IMAGE];
static float read_weights[READ + TAIL];
static uint32_t right_bits[READ];
static size_t places[ASKED]; /* of the entries' values, in the image */

/* A file with the tensors last to first, each of another dtype than the one before; its length. One entry is as given. */
static size_t image_of(size_t odd, const char *entry) {
    static const char *const dtypes[] = {"F32", "BF16", "F16"};
    char *header = (char *)image + 8;
    size_t len = 1, data = 0, bits = READ;
    *header = '{';
    for (size_t k = ASKED; k-- > 0;) {
        size_t size = k % 3 ? 2 : 4, end = data + asked[k].count * size;
        len += (size_t)sprintf(header + len, "\"%s\":", asked[k].name);
        places[k] = 8 + len;
        if (k == odd)
            len += (size_t)sprintf(header + len, "%s", entry);
        else
            len += (size_t)sprintf(header + len, "{\"dtype\":\"%s\",\"shape\":[%zu,1],\"data_offsets\":[%zu,%zu]}",
                                   dtypes[k % 3], asked[k].count, data, end);
        header[len++] = k ? ',' : '}';
        data = end;
    }
    for (size_t i = 0; i < 8; i++) image[i] = (uint8_t)(i < 2 ? len >> 8 * i : 0);
    len += 8;
    for (size_t k = ASKED; k-- > 0;) {
        bits -= asked[k].count;
        for (size_t i = 0; i < asked[k].count; i++) {
            uint32_t x = (uint32_t)(k * 1000 + i) * 2654435761u, low = x & 0xFFFF;
            right_bits[bits + i] = k % 3 == 0 ? x : k % 3 == 1 ? low << 16 : kz_half((uint16_t)low);
            for (size_t b = 0; b < (k % 3 ? 2 : 4); b++) image[len++] = (uint8_t)(x >> 8 * b);
        }
    }
    return len;
}

static struct kz_weights_report weights_of(struct kz_encoder_settings s, size_t len, size_t lent) {
    mark_all(read_weights, READ + TAIL);
    return kz_weights(s, len ? image : NULL, len, lent ? read_weights : NULL, lent);
}

static int refused_weights(struct kz_weights_report r, uint32_t number, size_t tensor, size_t place) {
    return r.number == number && r.floats == 0 && r.tensor == tensor && r.place == place &&
           marked(read_weights, 0, READ + TAIL);
}

static void weights(void) {
    static const struct {
        const char *entry;
        uint32_t number;
    } entries[] = {
        {"null", KZ_HEADER},
        {"{\"dtype\":16,\"shape\":[4],\"data_offsets\":[0,8]}", KZ_HEADER},
        {"{\"dtype\":\"F16\",\"shape\":[4.0],\"data_offsets\":[0,8]}", KZ_HEADER},
        {"{\"dtype\":\"F16\",\"shape\":[4],\"data_offsets\":[0]}", KZ_HEADER},
        {"{\"dtype\":\"F64\",\"shape\":[4],\"data_offsets\":[0,32]}", KZ_TENSOR},
        {"{\"dtype\":\"F16\",\"shape\":[4,18446744073709551615,18446744073709551615],\"data_offsets\":[0,8]}", KZ_TENSOR},
        {"{\"dtype\":\"F16\",\"shape\":[4],\"data_offsets\":[8,0]}", KZ_OFFSETS},
        {"{\"dtype\":\"F16\",\"shape\":[4],\"data_offsets\":[18446744073709551607,18446744073709551615]}", KZ_OFFSETS},
        {"{\"dtype\":\"F16\",\"shape\":[4],\"data_offsets\":[0,16]}", KZ_OFFSETS},
    };
    struct kz_encoder_settings s = small_model;
    size_t len = image_of(ASKED, "");
    struct kz_weights_report r = weights_of(s, len, READ + TAIL);
    EXPECT(kz_lengths(s, 1, 1).weights == READ);
    EXPECT(r.number == KZ_ACCEPTED && r.floats == READ && r.tensor == 0 && r.place == 0);
    EXPECT(memcmp(read_weights, right_bits, sizeof right_bits) == 0 && marked(read_weights, READ, READ + TAIL));
    EXPECT(refused_weights(weights_of(s, len, READ - 1), KZ_OUTPUT, 0, 0));
    EXPECT(refused_weights(weights_of(s, len, 0), KZ_OUTPUT, 0, 0));
    EXPECT(refused_weights(weights_of(s, len - 1, READ), KZ_OFFSETS, 1, places[0]));
    EXPECT(refused_weights(weights_of(s, 500, READ), KZ_HEADER, 0, 0));
    EXPECT(refused_weights(weights_of(s, 7, READ), KZ_HEADER, 0, 0) && refused_weights(weights_of(s, 0, 0), KZ_HEADER, 0, 0));
    s.num_layers = 2;
    EXPECT(refused_weights(weights_of(s, len, READ), KZ_TENSOR, 12, 0));
    s.num_layers = 49;
    EXPECT(refused_weights(weights_of(s, len, READ), KZ_SETTING, 0, 0));
    s = small_model;
    for (size_t i = 0; i < sizeof entries / sizeof *entries; i++) {
        len = image_of(7, entries[i].entry);
        EXPECT(refused_weights(weights_of(s, len, 0), entries[i].number, 8, places[7]));
    }
    image[7] = 1;
    EXPECT(refused_weights(weights_of(s, len, READ), KZ_HEADER, 0, 0));
    image[7] = 0, image[20] = '\n';
    EXPECT(refused_weights(weights_of(s, len, READ), KZ_HEADER, 0, 20));
}

enum { POOL = 100 };

/* The slice is marked with NaNs of their own bits, and so are the vectors: what is moved keeps its bits. */
static float slice[POOL + TAIL], vectors[POOL + 1];

static int same_pool(const struct kz_pool *a, const struct kz_pool *b) {
    if (a->len != b->len || a->count != b->count) return 0;
    for (size_t i = 0; i < 64; i++) {
        const struct kz_held *x = a->held + i, *y = b->held + i;
        if (x->key != y->key || x->start != y->start || x->len != y->len) return 0;
    }
    return 1;
}

/* A call that is refused hands back the pool that was lent, and the slice is as it was. */
static void pool_refused(struct kz_pool p, size_t slice_len, uint64_t key, size_t n, uint32_t number) {
    static float before[POOL + TAIL];
    memcpy(before, slice, sizeof slice);
    struct kz_pool_report r = kz_pool_add(p, slice, slice_len, key, vectors, n);
    EXPECT(r.number == number && same_pool(&r.pool, &p) && memcmp(before, slice, sizeof slice) == 0);
}

static void pool_unknown(struct kz_pool p, size_t slice_len, uint64_t key, uint32_t number) {
    static float before[POOL + TAIL];
    memcpy(before, slice, sizeof slice);
    struct kz_pool_report r = kz_pool_drop(p, slice, slice_len, key);
    struct kz_pool_place found = kz_pool_find(p, slice, slice_len, key);
    EXPECT(r.number == number && same_pool(&r.pool, &p) && memcmp(before, slice, sizeof slice) == 0);
    EXPECT(found.number == number && found.start == 0 && found.len == 0);
}

static struct kz_pool pool_added(struct kz_pool p, uint64_t key, size_t from, size_t n) {
    struct kz_pool_report r = kz_pool_add(p, slice, POOL, key, vectors + from, n);
    EXPECT(r.number == KZ_ACCEPTED && r.pool.len == POOL && r.pool.count == p.count + 1);
    EXPECT(r.pool.held[p.count].key == key && r.pool.held[p.count].len == n);
    return r.pool;
}

static struct kz_pool pool_dropped(struct kz_pool p, uint64_t key) {
    struct kz_pool_report r = kz_pool_drop(p, slice, POOL, key);
    EXPECT(r.number == KZ_ACCEPTED && r.pool.len == POOL && r.pool.count == p.count - 1);
    return r.pool;
}

/* The key is held at this place, with the vectors from there on. */
static void pool_has(struct kz_pool p, uint64_t key, size_t start, size_t from, size_t n) {
    struct kz_pool_place found = kz_pool_find(p, slice, POOL, key);
    EXPECT(found.number == KZ_ACCEPTED && found.start == start && found.len == n);
    EXPECT(memcmp(slice + start, vectors + from, n * sizeof *slice) == 0);
}

static void pool(void) {
    struct kz_pool p = kz_pool_new(POOL), q;

    mark_all(slice, POOL + TAIL);
    for (size_t i = 0; i < POOL + 1; i++) {
        uint32_t bits = UINT32_C(0xFF900000) + (uint32_t)i;
        memcpy(vectors + i, &bits, sizeof bits);
    }
    EXPECT(p.len == POOL && p.count == 0);
    for (size_t i = 0; i < 64; i++) EXPECT(p.held[i].key == 0 && p.held[i].start == 0 && p.held[i].len == 0);
    pool_unknown(p, POOL, 0, KZ_KEY_UNKNOWN);
    pool_refused(p, POOL, 0, 0, KZ_NO_VECTORS);
    pool_refused(p, POOL, 0, POOL + 1, KZ_POOL_FULL);

    /* Three results, the middle one dropped: the next goes behind the last while there is room, and slides then. */
    p = pool_added(p, 7, 0, 40);
    p = pool_added(p, UINT64_MAX, 40, 20);
    p = pool_added(p, 0, 60, 30);
    pool_has(p, 7, 0, 0, 40);
    pool_has(p, UINT64_MAX, 40, 40, 20);
    pool_has(p, 0, 60, 60, 30);
    EXPECT(marked(slice, 90, POOL + TAIL));
    pool_refused(p, POOL, 7, 0, KZ_KEY_HELD);
    pool_refused(p, POOL, 0, POOL, KZ_KEY_HELD);
    pool_refused(p, POOL, 1, 0, KZ_NO_VECTORS);
    pool_refused(p, POOL, 1, 11, KZ_POOL_FULL);
    p = pool_dropped(p, UINT64_MAX);
    pool_unknown(p, POOL, UINT64_MAX, KZ_KEY_UNKNOWN);
    q = pool_added(p, 5, 1, 10);
    pool_has(q, 0, 60, 60, 30);
    pool_has(q, 5, 90, 1, 10);
    p = pool_added(p, 5, 1, 30);
    pool_has(p, 7, 0, 0, 40);
    pool_has(p, 0, 40, 60, 30);
    pool_has(p, 5, 70, 1, 30);
    EXPECT(marked(slice, POOL, POOL + TAIL));
    pool_refused(p, POOL, 6, 1, KZ_POOL_FULL);

    /* Sixty-four results. */
    p = kz_pool_new(POOL);
    for (uint64_t key = 0; key < 64; key++) p = pool_added(p, key * key, (size_t)key, 1);
    pool_refused(p, POOL, 2, 1, KZ_POOL_FULL);
    pool_refused(p, POOL, 63 * 63, 1, KZ_KEY_HELD);
    p = pool_dropped(p, 0);
    p = pool_added(p, 2, 70, 37);
    for (size_t key = 1; key < 64; key++) pool_has(p, key * key, key - 1, key, 1);
    pool_has(p, 2, 63, 70, 31 + 6);

    /* Another slice, and bookkeepings that no calls make. */
    pool_refused(p, POOL - 1, 3, 1, KZ_POOL_SLICE);
    pool_refused(p, POOL + 1, 2, 0, KZ_POOL_SLICE);
    pool_refused(p, 0, 2, 0, KZ_POOL_SLICE);
    pool_unknown(p, POOL + 1, 2, KZ_POOL_SLICE);
    static const struct kz_held bad[][2] = {
        {{1, POOL, 1}, {2, 0, 0}},
        {{1, POOL + 1, 0}, {2, 0, 0}},
        {{1, 0, POOL + 1}, {2, POOL, 0}},
        {{1, SIZE_MAX, 2}, {2, 1, 1}},
        {{1, 1, SIZE_MAX}, {2, 0, 1}},
        {{1, SIZE_MAX, SIZE_MAX}, {2, SIZE_MAX, SIZE_MAX}},
        {{1, 0, 10}, {2, 9, 10}},
        {{1, 10, 10}, {2, 0, 10}},
        {{1, 0, 10}, {2, 10, POOL - 9}},
    };
    for (size_t i = 0; i < sizeof bad / sizeof *bad; i++) {
        p = kz_pool_new(POOL);
        p.count = 2;
        memcpy(p.held, bad[i], sizeof bad[i]);
        pool_refused(p, POOL, 3, 1, KZ_POOL_SLICE);
        pool_unknown(p, POOL, 1, KZ_POOL_SLICE);
        p.count = 0;
        pool_unknown(p, POOL, 1, KZ_KEY_UNKNOWN);
    }
    p = kz_pool_new(POOL);
    for (size_t count = 65; count != 0; count <<= 1) {
        p.count = count;
        pool_refused(p, POOL, 0, 0, KZ_POOL_SLICE);
        pool_unknown(p, POOL, 0, KZ_POOL_SLICE);
    }
    /* Of equal keys the first counts. */
    p.count = 2;
    p.held[0] = (struct kz_held){1, 3, 4};
    p.held[1] = (struct kz_held){1, 7, 5};
    struct kz_pool_place found = kz_pool_find(p, slice, POOL, 1);
    EXPECT(found.number == KZ_ACCEPTED && found.start == 3 && found.len == 4);
    p = pool_dropped(p, 1);
    found = kz_pool_find(p, slice, POOL, 1);
    EXPECT(found.number == KZ_ACCEPTED && found.start == 7 && found.len == 5);
    /* A slice of none. */
    p = kz_pool_new(0);
    EXPECT(kz_pool_add(p, NULL, 0, 1, NULL, 0).number == KZ_NO_VECTORS);
    EXPECT(kz_pool_add(p, NULL, 0, 1, vectors, 1).number == KZ_POOL_FULL);
    EXPECT(kz_pool_find(p, NULL, 0, 1).number == KZ_KEY_UNKNOWN);
}

static void number(void) {
    EXPECT(kz_bf16(0x3F808000) == 0x3F800000 && kz_bf16(0x3F818000) == 0x3F820000);
    EXPECT(kz_bf16(0x7FFFFFFF) == 0x80000000 && kz_bf16(0x7F7FFFFF) == 0x7F800000);
    EXPECT(kz_half(0x0001) == 0x33800000 && kz_half(0x7BFF) == 0x477FE000 && kz_half(0xFC00) == 0xFF800000);
    EXPECT(kz_root(0x40800000) == 0x40000000 && kz_root(0x80000000) == 0x80000000);
    EXPECT(kz_root(0xBF800000) == 0x7FC00000 && kz_root(0x7F800000) == 0x7F800000);
    EXPECT(kz_exp(0) == 0x3F800000 && kz_exp(0x42B20000) == 0x7F800000 && kz_exp(0xC2D00000) == 0);
    EXPECT(kz_tanh(0) == 0 && kz_tanh(0x41200000) == 0x3F800000 && kz_tanh(0xC1200000) == 0xBF800000);
    EXPECT(kz_tanh(0x80000000) == 0x80000000 && kz_tanh(1) == 1 && kz_tanh(0x807FFFFF) == 0x807FFFFF);
    EXPECT(kz_tanh(0x3C7FFFFF) == 0x3C7FFAAA && kz_tanh(0xBC7FFFFF) == 0xBC7FFAAA);
    EXPECT(kz_exp(0xFFFFFFFF) == 0x7FC00000 && kz_tanh(0x7F800001) == 0x7FC00000);
}

static void packed(void) {
    EXPECT(kz_bf16_pack(0x3F808000) == 0x3F80 && kz_bf16_pack(0x3F818000) == 0x3F82 && kz_bf16_pack(0x7FFFFFFF) == 0x8000);
    EXPECT(kz_bf16_widen(0x3F82) == 0x3F820000 && kz_bf16_widen(0xFF80) == 0xFF800000);
    for (size_t len = 0; len < 40; len++)
        for (size_t room = 0; room < 40; room++) {
            uint32_t x[40], wide[40];
            uint16_t narrow[40];
            size_t count = len < room ? len : room;
            for (size_t i = 0; i < 40; i++) x[i] = (uint32_t)(i * 2654435761u + len * 40503u), narrow[i] = 7, wide[i] = 9;
            EXPECT(kz_bf16_pack_all(len ? x : NULL, len, room ? narrow : NULL, room) == count);
            for (size_t i = 0; i < 40; i++) EXPECT(narrow[i] == (i < count ? kz_bf16(x[i]) >> 16 : 7));
            EXPECT(kz_bf16_widen_all(len ? narrow : NULL, len, room ? wide : NULL, room) == count);
            for (size_t i = 0; i < 40; i++) EXPECT(wide[i] == (i < count ? kz_bf16(x[i]) : 9));
        }
}

int main(void) {
    for (size_t i = 0; i < FLOATS; i++) rgb[i] = (uint8_t)(i * 89 + 17);
    EXPECT(kz_version() == KZ_VERSION_NUMBER);
    EXPECT(kz_number_version() == KZ_VERSION_NUMBER);
    preprocess();
    restore();
    rules();
    channels();
    salvage();
    cut();
    preprocess_tile();
    restore_tile();
    patch();
    forward();
    forward_axes();
    forward_plain();
    tokens();
    projector_bias();
    lengths();
    config();
    weights();
    pool();
    number();
    packed();
    if (!failed) puts("face.c: every call and every number is as the header says");
    return failed;
}
