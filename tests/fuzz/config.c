/*
 * kz_config beside a second reader, for a fuzzer: config [FILE], or the text on standard input. It aborts where the two
 * differ on whether a text is accepted, or on the number or the place of 13 and 14.
 *
 * For AFL++ the archive's module is instrumented as assembly, with afl-as, since no compiler of AFL++ reads it.
 */
#include "json.h"
#include "kyzgultam.h"

#include <stdio.h>
#include <stdlib.h>

static void right(const uint8_t *text, size_t len, uint32_t *number, size_t *place) {
    *place = 0, *number = 13;
    if (len <= 65536) *number = stops(text, len, place);
}

int main(int argc, char **argv) {
    static uint8_t text[1 << 17];
    static const struct kz_encoder_settings zeros, lent = {KZ_PICTURE_SETTINGS(0, 0, 0), 0, 0, 0, 0, 0, 0, 0, 0.5f};
    FILE *file = argc > 1 ? fopen(argv[1], "rb") : stdin;
    size_t len, place;
    uint32_t number;
    struct kz_config_report r;
    if (!file) return 1;
    len = fread(text, 1, sizeof text, file);
    r = kz_config(lent, text, len);
    right(text, len, &number, &place);
    if (number ? r.number != number || r.place != place : r.number != 0 && r.number != 15 && r.number != 1) abort();
    if (number == 0 && r.place != 0) abort();
    if (r.number && (r.settings.hidden_size != zeros.hidden_size || r.settings.scaling != 0.0f)) abort();
    if (!r.number && kz_lengths(r.settings, r.settings.picture.spatial_merge_size, r.settings.picture.spatial_merge_size).number == KZ_SETTING) abort();
    return 0;
}
