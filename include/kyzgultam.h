/* The C face of Kyzgultam. */
#ifndef KYZGULTAM_H
#define KYZGULTAM_H

#include <stddef.h>
#include <stdint.h>

/*
 * Where two versions differ in the first or the second number, an answer may have other bits: docs/DIFFERENCES.md says
 * which. So an archive keeps this beside what it stores. `kz --version` prints it too.
 */
#define KZ_VERSION "0.7.0"
#define KZ_VERSION_NUMBER 700 /* ten thousand times the first number, a hundred times the second, and the third */

#ifdef __cplusplus
extern "C" {
#endif

/* KZ_VERSION_NUMBER of the header that an archive belongs to: libkyzgultam.a's, and libnumber.a's. */
uint32_t kz_version(void);
uint32_t kz_number_version(void);

/*
 * Pictures and the encoder (libkyzgultam.a). A call takes any numbers and returns. What a caller owes, and nothing
 * checks: each length is true of its buffer, no output overlaps another buffer, a pointer is null only where its
 * length is 0, and the thread's floating-point state is the one that a C program starts with: rounding to nearest, and
 * subnormals neither flushed nor read as zero (FTZ and DAZ of the MXCSR are off; linking with -ffast-math turns them
 * on). In another state the results have other bits.
 *
 * A call answers with a number: the first that applies, in the order that stands with the call. With any number but 0
 * every size is 0 and the output is as it was. An output longer than the result keeps its tail. So does the list of
 * kz_salvage, and it too is as it was with any number but 0.
 */
enum kz_number {
    KZ_ACCEPTED = 0,
    KZ_SETTING = 1,        /* a setting is not allowed: what is stands with the fields */
    KZ_SIDE = 2,           /* height or width is not in 1..8192 */
    KZ_RGB_LENGTH = 3,     /* the RGB length is not height * width * 3 */
    KZ_IMAGE_SIZE = 4,     /* the image size is below patch * merge */
    KZ_OUTPUT = 5,         /* the output is shorter than the result; of kz_restore_tile, than the sweep */
    KZ_GRID = 6,           /* a grid side is 0, above image size / patch, or not divisible by merge */
    KZ_PATCHES_LENGTH = 7, /* the patches' length is not grid_h * grid_w * 3 * patch^2 */
    KZ_SAMPLE = 8,         /* a sample has bits that no byte has in its channel; in a tile's padding, not byte 0's */
    KZ_WEIGHTS_LENGTH = 9, /* the weights' length is not that of the settings */
    KZ_TABLE_LENGTH = 10,  /* a rotary table's length is not P^2 * head_dim; of kz_forward_axes, not P * head_dim / 4 */
    KZ_SCRATCH = 11,       /* the scratch is shorter than the call needs */
    KZ_NOT_FINITE = 12,    /* a value is not finite, in the inputs or at a stage */
    KZ_CONFIG_TEXT = 13,   /* the text is above 64 KiB, or no RFC 8259 text agrees with a byte of it, or with its end */
    KZ_CONFIG_DEPTH = 14,  /* a bracket of the text opens level 33 */
    KZ_CONFIG_VISION = 15, /* the text has no vision_config, or zero heads in it */
    KZ_HEADER = 16,        /* a safetensors file's header is damaged: what is stands with kz_weights */
    KZ_TENSOR = 17,        /* a tensor is missing, or of another dtype or count */
    KZ_OFFSETS = 18,       /* a tensor's offsets fall, pass the end of the data, or are of another length */
    KZ_CHANNEL = 19,       /* a channel's mean and deviation are not allowed: what is stands with the fields */
    KZ_TILE = 20,          /* a tile's index is outside the cut */
    KZ_LIST = 21,          /* there are more bad samples than the list has entries */
    KZ_TOKENS = 22,        /* of kz_forward_plain: grid_h * grid_w is above 64 */
    KZ_KEY_HELD = 23,      /* the pool holds the key already */
    KZ_NO_VECTORS = 24,    /* no vectors are given */
    KZ_POOL_FULL = 25,     /* 64 results are held, or floats held plus new ones exceed the slice */
    KZ_KEY_UNKNOWN = 26,   /* the pool does not hold the key */
    KZ_POOL_SLICE = 27     /* the pool was not made for a slice of this length */
};

/*
 * The sample of byte b in channel c (red, green, blue) is (b / 255 - mean[c]) / deviation[c] in floats, each operation
 * rounded. A channel is allowed when its 256 samples are finite and strictly rise or strictly fall with b, compared as
 * numbers: then no two bytes are alike. The forward calls and kz_lengths never read mean and deviation.
 */
struct kz_picture_settings {
    size_t patch_size;         /* 1..32 */
    size_t spatial_merge_size; /* 1..4 */
    size_t image_size;         /* 1..2048 */
    size_t resize_rule;        /* 1 or 2: 1 cuts each side by itself, 2 keeps the shape of a long picture */
    float mean[3];             /* by channel; allowed together with its deviation, else 19 */
    float deviation[3];        /* by channel; below zero the samples fall */
};

/*
 * An initializer for the common call, with resize rule 1 and the Rust's means and deviations:
 *     struct kz_picture_settings s = KZ_PICTURE_SETTINGS(14, 2, 1540);
 * Without it a field may be forgotten, which is then 0: a rule of 0 is refused with 1, a deviation of 0 with 19.
 */
#define KZ_PICTURE_SETTINGS(patch, merge, image) \
    {(patch), (merge), (image), 1, {0.48145466f, 0.4578275f, 0.40821073f}, {0.26862954f, 0.26130258f, 0.27577711f}}

struct kz_preprocess_report {
    uint32_t number; /* an enum kz_number, as in each report */
    size_t grid_h, grid_w;
    size_t floats; /* written to the output */
};

struct kz_restore_report {
    uint32_t number;
    size_t height, width; /* of the restored picture, 3 bytes a pixel */
};

struct kz_patch_place {
    size_t start, len; /* 0 and 0 where there is no such patch */
};

/*
 * The patches of a picture: height * width pixels of three bytes, by row. Patches run by row; a patch has its samples
 * by channel, row and column: 3 * patch^2 floats. Refused with 1, 19, 2, 3, 4, 5.
 * The picture is resized first, once. Rule 1 takes each side by itself: rounded up to a multiple of patch * merge, cut
 * to the image size S, rounded down to a multiple. Rule 2 does the same after a step of its own: where the longer side
 * m is above S, each side becomes side * S / m, rounded down and at least 1.
 */
struct kz_preprocess_report kz_preprocess(struct kz_picture_settings settings, const uint8_t *rgb, size_t rgb_len,
                                          size_t height, size_t width, float *out, size_t out_len);

/*
 * The resized picture that gave the patches, the same by both resize rules. Means and deviations are to be those that
 * the patches were made with: with others most patches are refused with 8. Refused with 1, 19, 6, 7, 5, 8.
 */
struct kz_restore_report kz_restore(struct kz_picture_settings settings, const float *patches, size_t patches_len,
                                    size_t grid_h, size_t grid_w, uint8_t *out, size_t out_len);

struct kz_salvage_report {
    uint32_t number;
    size_t height, width; /* of the salvaged picture, 3 bytes a pixel */
    size_t bad;           /* entries of the list, three numbers each */
};

/*
 * The picture of damaged patches: as kz_restore gives it, but a sample with bits that no byte has in its channel, which
 * is 8 there, becomes byte 0 and is listed. Patches go in as bits, since a NaN's may change on their way through a
 * float: read the file into uint32_t, or memcpy the floats there. Each bad sample has an entry of three numbers in the
 * list, in the order of the patches: the patch, the place in the patch, and the bits that were found. The place is
 * (channel * patch_size + row) * patch_size + column; the pixel lies in row patch / grid_w * patch_size + row and
 * column patch % grid_w * patch_size + column of the picture.
 * The list has list_len / 3 entries, rounded down, and with 21 nothing is written; one of 3 * patches_len numbers is
 * always long enough. Of an accepted call `bad` is 0 exactly where kz_restore accepts, and then the bytes are the same.
 * Damage that left the bits of another byte cannot be seen. Means and deviations are to be those that the patches were
 * made with: with others most samples are bad. Refused with 1, 19, 6, 7, 5, 21.
 */
struct kz_salvage_report kz_salvage(struct kz_picture_settings settings, const uint32_t *patches, size_t patches_len,
                                    size_t grid_h, size_t grid_w, uint8_t *out, size_t out_len, uint32_t *list,
                                    size_t list_len);

/* Where patch i lies in the patches. */
struct kz_patch_place kz_patch(const float *patches, size_t patches_len, size_t patch_size, size_t i);

struct kz_cut_report {
    uint32_t number;
    size_t side;          /* of a whole tile, in pixels */
    size_t rows, columns; /* how many tiles, down and across */
};

struct kz_tile_report {
    uint32_t number;
    size_t grid_h, grid_w;
    size_t floats;                   /* in the tile's patches */
    size_t top, left, height, width; /* where the tile's own pixels lie in the sweep; its padding is not among them */
};

/*
 * How a sweep larger than the image size is cut into tiles, so that nothing of it is resized away. With A = patch *
 * merge, the side s of a tile is the largest multiple of A not above the image size. The sweep is cut by row, the last
 * tiles of a row and of a column smaller: height / s rows and width / s columns of tiles, both rounded up. Tile `index`
 * stands in row index / columns and column index % columns. The resize rule has to be 1 or 2, and is not used.
 * Refused with 1, 19, 2, 4.
 */
struct kz_cut_report kz_cut(struct kz_picture_settings settings, size_t height, size_t width);

/*
 * The patches of one tile: rgb, height and width are the whole sweep's. The tile is padded on the right and below with
 * bytes of 0 to multiples of A, and not resized. Its patches are in the order of kz_preprocess, with the same samples,
 * those of the padding too: grid_h * grid_w * 3 * patch^2 floats, which kz_forward takes. An output that is longer
 * keeps its tail. Refused with 1, 19, 2, 3, 4, 20, 5.
 */
struct kz_tile_report kz_preprocess_tile(struct kz_picture_settings settings, const uint8_t *rgb, size_t rgb_len,
                                         size_t height, size_t width, size_t index, float *out, size_t out_len);

/*
 * The tile's own bytes, back in their places of the sweep: height, width and out are the whole sweep's. Row y of the
 * tile goes to ((top + y) * width + left) * 3, and every other byte of the output is as it was: all tiles, in any
 * order, join to the sweep. The settings are to be those that the patches were made with; the resize rule may be the
 * other. Refused with 1, 19, 2, 4, 20, 7, 5, 8: with 7 where the length is not that of the tile's floats, with 5 where
 * the output is shorter than height * width * 3, with 8 exactly where no sweep of these sides gives these patches at
 * this index, so also where a sample of the padding is not that of byte 0.
 */
struct kz_tile_report kz_restore_tile(struct kz_picture_settings settings, const float *patches, size_t patches_len,
                                      size_t height, size_t width, size_t index, uint8_t *out, size_t out_len);

struct kz_encoder_settings {
    struct kz_picture_settings picture;
    size_t hidden_size;       /* 4..2048, num_heads * head_dim */
    size_t num_heads;         /* 1..64 */
    size_t head_dim;          /* 4..256, a multiple of 4 */
    size_t num_layers;        /* 0..48 */
    size_t intermediate_size; /* 1..8192 */
    size_t text_hidden_size;  /* 1..8192 */
    size_t projector_bias;    /* 0 or 1: 1 where linear_1 and linear_2 have a bias */
    float scaling;            /* finite and above zero */
};

struct kz_forward_report {
    uint32_t number;
    size_t tokens; /* token vectors of text_hidden_size floats, written to the output */
};

struct kz_lengths_report {
    uint32_t number;
    size_t patches, weights; /* in floats, as all of these */
    size_t tables;           /* each of the two full ones */
    size_t axes;             /* each of the four of kz_forward_axes */
    size_t scratch, out;
};

/*
 * The token vectors of patches. With t = grid_h * grid_w, o = t / merge^2, H, I and X the hidden, intermediate and
 * text sizes, P = image size / patch: the weights are patch_conv, ln_pre; for each layer attention_norm, q, k, v, o,
 * ffn_norm, gate, up, down; then the projector's norm, merging_layer, linear_1, linear_2; matrices row-major, [out,
 * in]. With a projector_bias of 1 a bias of X floats stands right behind linear_1 and another behind linear_2, each
 * added to its layer's finished sums; with 0 neither takes a place. Each table has P * P * head_dim floats, the row of
 * (h, w) at h * P + w. The scratch has at least 7*t*H + 2*t*I + t + 2*o*X floats; after 0 and 12 all of it is +0, after
 * any other number it is as it was. The output has at least o * X floats. kz_lengths tells all of these lengths.
 * Refused with 1, 6, 7, 9, 10, 5, 11, 12.
 */
struct kz_forward_report kz_forward(struct kz_encoder_settings settings, const float *patches, size_t patches_len,
                                    size_t grid_h, size_t grid_w, const float *weights, size_t weights_len,
                                    const float *rope_cos, size_t rope_cos_len, const float *rope_sin,
                                    size_t rope_sin_len, float *scratch, size_t scratch_len, float *out,
                                    size_t out_len);

/*
 * kz_forward by smaller tables, in which each position's row is looked up when it is needed: a table of rows and one of
 * columns, each of P * head_dim / 4 floats, for cosine and for sine. With q = head_dim / 4 the row of (h, w) has q
 * values of row h, those at h * q, then q of column w, those at w * q, and then both again, as the Rust's
 * precompute_2d_rope makes it: where the two tables of kz_forward hold these rows, answer, output and scratch are the
 * same. 10 compares each of the four with P * head_dim / 4; 12 examines the four whole, rows and columns that the grid
 * does not use too. Everything else is as with kz_forward. Refused with 1, 6, 7, 9, 10, 5, 11, 12.
 */
struct kz_forward_report kz_forward_axes(struct kz_encoder_settings settings, const float *patches, size_t patches_len,
                                         size_t grid_h, size_t grid_w, const float *weights, size_t weights_len,
                                         const float *row_cos, size_t row_cos_len, const float *row_sin,
                                         size_t row_sin_len, const float *column_cos, size_t column_cos_len,
                                         const float *column_sin, size_t column_sin_len, float *scratch,
                                         size_t scratch_len, float *out, size_t out_len);

/*
 * kz_forward with attention in the source's form, to be read beside it: for each head the full matrix of scores, t * t
 * floats of the scratch, then softmax row by row, then the weighted sums. It serves up to 64 tokens, counted before
 * merging: 22 where t is above 64. The scratch has at least 7*t*H + 2*t*I + t*t + 2*o*X floats, t*t - t more than
 * kz_forward needs; after 0 and 12 all of it is +0, after any other number it is as it was. A call that it accepts,
 * kz_forward accepts with the same bits, and 12 is given by both for the same calls, where it gives neither 22 nor 11.
 * Everything else is as with kz_forward. Refused with 1, 6, 7, 22, 9, 10, 5, 11, 12.
 */
struct kz_forward_report kz_forward_plain(struct kz_encoder_settings settings, const float *patches,
                                          size_t patches_len, size_t grid_h, size_t grid_w, const float *weights,
                                          size_t weights_len, const float *rope_cos, size_t rope_cos_len,
                                          const float *rope_sin, size_t rope_sin_len, float *scratch,
                                          size_t scratch_len, float *out, size_t out_len);

/*
 * How many floats each buffer of a kz_forward or kz_forward_axes call with these settings and this grid has to have:
 * exactly so many in patches, weights and each table, at least so many in scratch and output. Weights and tables are as
 * long with every grid. These are the lengths that both calls compare with for 7, 9, 10, 5 and 11; those of
 * kz_forward_plain are kz_forward's but for t*t - t floats more of scratch. Refused with 1, 6.
 */
struct kz_lengths_report kz_lengths(struct kz_encoder_settings settings, size_t grid_h, size_t grid_w);

struct kz_config_report {
    uint32_t number;
    size_t place;                        /* the byte of 13 or 14, counted from 0; with any other number 0 */
    struct kz_encoder_settings settings; /* with any number but 0 every field of it is 0 */
};

/*
 * The settings that a config.json says, whose bytes are lent as they are. Out of vision_config: hidden_size (1024 where
 * it is absent), num_attention_heads (16), num_hidden_layers (24), intermediate_size (4096), patch_size (14), image_size
 * (1540) and spatial_merge_size, which is else that of the top level (2); out of text_config: hidden_size (5120), the
 * text size. head_dim is hidden_size / num_attention_heads, rounded down. Keys are compared after their escapes are
 * read, and of two alike the last counts. A size is plain digits of at most 2^64 - 1; anything else counts as absent, as
 * 12.0, 1e3, -0, "14" and null do. All else is skipped. Resize rule, means, deviations, projector_bias and scaling are
 * those of `lent`, whose sizes are not read.
 * The text is one of RFC 8259 in UTF-8, at most 65,536 bytes long, with at most 32 brackets open within one another.
 * Where it is not, the place is the first byte with which no such text agrees, of any depth (13; the text's length where
 * it ends too early, 0 where it is too long), or the bracket that opens level 33 (14): the one that comes first.
 * Settings that are given pass as settings of kz_forward: 1 is examined here. Refused with 13, 14, 15, 1.
 */
struct kz_config_report kz_config(struct kz_encoder_settings lent, const uint8_t *text, size_t text_len);

struct kz_weights_report {
    uint32_t number;
    size_t floats; /* written to the weights */
    size_t tensor; /* the one that is at fault, counted from 1 in the order of the weights, or 0 */
    size_t place;  /* the byte of the file that is at fault, counted from 0, or 0 where there is none */
};

/*
 * The weights of kz_forward out of a safetensors file, whose bytes are lent as they are: eight bytes that say, little-
 * endian, how long the header is, the header, the data. The tensors asked for, in the order of the weights:
 *     vision_tower.patch_conv.weight, vision_tower.ln_pre.weight; for each layer N, from 0 on, with
 *     vision_tower.transformer.layers.N. before it: attention_norm.weight, attention.q_proj.weight,
 *     attention.k_proj.weight, attention.v_proj.weight, attention.o_proj.weight, ffn_norm.weight,
 *     feed_forward.gate_proj.weight, feed_forward.up_proj.weight, feed_forward.down_proj.weight; then, with
 *     multi_modal_projector. before it: norm.weight, patch_merger.merging_layer.weight, linear_1.weight,
 *     linear_1.bias, linear_2.weight, linear_2.bias; the two biases only with a projector_bias of 1.
 * Each is of dtype F32, BF16 or F16, and is widened to floats: F32 as its bits, BF16 as the upper half of them, F16 as
 * by kz_half. A NaN keeps its bits, and kz_forward then refuses it with 12. Every other entry of the header is skipped,
 * whatever it holds; tensors may overlap, and lie in any order with anything between them and behind them. Names, keys
 * and dtypes are compared after their escapes are read, and of two alike the last counts, in an entry too.
 * Refused with 1, 16, 17, 18, 5, each over all tensors before the next:
 * 16 where the file is below 8 bytes, or ends before its header does (place 0); where the header, blanks around it
 *    allowed, is no RFC 8259 text of at most 32 levels (the byte at which kz_config would refuse it, counted from the
 *    file's start), or no object (the first byte of its value); where an entry asked for is no object, its dtype no
 *    string, its shape no list of plain digits, or its data_offsets no list of just two, each of at most 2^64 - 1 (the
 *    first byte of the entry's value, as with 17 and 18);
 * 17 where a tensor is missing (place 0), its dtype another, or the product of its shape, 1 for [], not its count;
 * 18 where its first offset is above the second, the second above the length of the data, or the two are not as far
 *    apart as its bytes are many; offsets are counted from the data's start;
 *  5 where the weights have fewer floats than the settings ask for (kz_lengths).
 */
struct kz_weights_report kz_weights(struct kz_encoder_settings settings, const uint8_t *file, size_t file_len,
                                    float *weights, size_t weights_len);

/* A key that a pool holds, and where its vectors stand in the slice. */
struct kz_held {
    uint64_t key;
    size_t start, len;
};

struct kz_pool {
    size_t len;              /* of the slice that the pool was made for, in floats */
    size_t count;            /* results held: the first of `held`, in the order of adding */
    struct kz_held held[64]; /* what stands behind them says nothing */
};

struct kz_pool_report {
    uint32_t number;
    struct kz_pool pool; /* after the call: with any number but 0, the one that was lent */
};

struct kz_pool_place {
    uint32_t number;
    size_t start, len; /* 0 and 0 with any number but 0 */
};

/*
 * A pool of token vectors: up to 64 results in one lent slice of floats, each under a key, the number of a sweep. The
 * bookkeeping goes in by value and comes back; the floats stand in the slice. As long as every call lends that slice
 * and nothing else writes to it, the vectors of a key are the ones that were added, until the key is dropped.
 * kz_pool_new gives an empty pool for a slice of len floats, and reads no slice.
 * Every call is refused with 27 first, where the lent slice has another length, and where no calls make such a pool:
 * more than 64 results, or one that does not end inside the slice or starts before the end of the one before it. Keys
 * are not compared for that; of equal ones the first counts. With any number but 0 the slice is as it was.
 */
struct kz_pool kz_pool_new(size_t len);

/*
 * Holds the vectors under the key. They stand behind the last result; only where the room there does not suffice are
 * the held results first slid down, one right behind the other from the front of the slice. So add moves what
 * kz_pool_find handed back before: ask again. The vectors may not overlap the slice. Refused with 27, 23, 24, 25: with
 * 25 exactly where 64 results are held, or the floats held and the new ones are more than the slice has.
 */
struct kz_pool_report kz_pool_add(struct kz_pool pool, float *slice, size_t slice_len, uint64_t key,
                                  const float *vectors, size_t vectors_len);

/* Where the vectors of the key stand in the slice. Refused with 27, 26. */
struct kz_pool_place kz_pool_find(struct kz_pool pool, const float *slice, size_t slice_len, uint64_t key);

/* Holds the key no longer; no float is moved, and its room is used again. Refused with 27, 26. */
struct kz_pool_report kz_pool_drop(struct kz_pool pool, const float *slice, size_t slice_len, uint64_t key);

/*
 * The number rules, on bit patterns (libnumber.a). Each takes any pattern and returns; the first five and pack and
 * widen write nothing. The floating-point state is owed as above.
 */

/* An f32 rounded to bf16 (its upper 16 bits), as an f32. A NaN may become -0, as the rule says. */
uint32_t kz_bf16(uint32_t x);

/* A half as an f32. A NaN keeps its payload. */
uint32_t kz_half(uint16_t h);

/* The f32 nearest to the square root. -0 gives itself; a number below zero and a NaN give 0x7FC00000. */
uint32_t kz_root(uint32_t x);

/* Rule E, the exponential. A NaN gives 0x7FC00000. */
uint32_t kz_exp(uint32_t x);

/* Rule T, the hyperbolic tangent. A NaN gives 0x7FC00000. */
uint32_t kz_tanh(uint32_t y);

/* bf16 in 16 bits: the upper half of what kz_bf16 gives. */
uint16_t kz_bf16_pack(uint32_t x);

/* And back: the pattern whose upper half it is, which is kz_bf16(x) of a packed x. Packing it gives b again. */
uint32_t kz_bf16_widen(uint16_t b);

/*
 * The same of the first values, as many as both lengths allow; that count is returned, and what lies behind it in the
 * output is kept. As above each length is true of its buffer, the output does not overlap the input, and a pointer is
 * null only where its length is 0.
 */
size_t kz_bf16_pack_all(const uint32_t *x, size_t x_len, uint16_t *out, size_t out_len);
size_t kz_bf16_widen_all(const uint16_t *b, size_t b_len, uint32_t *out, size_t out_len);

#ifdef __cplusplus
}
#endif

#endif
