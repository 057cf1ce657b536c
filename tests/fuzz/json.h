/*
 * A second reader of JSON for the fuzzers, which has nothing of the port. It goes byte by byte and keeps a state and a stack
 * of brackets: it has no function that calls itself.
 */
#include <stddef.h>
#include <stdint.h>
#include <string.h>

enum state {
    VALUE,       /* a value */
    FIRST,       /* a value, or ] */
    NEXT,        /* , or what closes; at the top the end */
    FIRST_NAME,  /* a name, or } */
    NAME,        /* a name */
    COLON,
    STRING,
    ESCAPE,
    HEX,         /* `more` hex digits */
    UTF8,        /* a byte from `low` to `high`, then `more` of 0x80..0xBF */
    WORD,        /* the rest of `word` */
    MINUS,       /* a digit */
    ZERO,        /* . e E, or what follows a value */
    INTEGER,     /* the same, or a digit */
    POINT,       /* a digit */
    FRACTION,    /* a digit, e E, or what follows a value */
    SIGN,        /* + - or a digit */
    EXPONENT,    /* a digit */
    POWER        /* a digit, or what follows a value */
};

struct reader {
    enum state state;
    uint8_t open[32];
    size_t depth;
    int is_name;       /* of a string */
    unsigned low, high, more;
    const char *word;
};

enum step { TAKEN, WRONG, DEEP };

static int blank(unsigned b) { return b == ' ' || b == '\t' || b == '\n' || b == '\r'; }
static int digit(unsigned b) { return b >= '0' && b <= '9'; }
static int hex(unsigned b) { return digit(b) || (b >= 'a' && b <= 'f') || (b >= 'A' && b <= 'F'); }

static enum step opened(struct reader *r, unsigned b) {
    if (r->depth == 32) return DEEP;
    r->open[r->depth++] = (uint8_t)b;
    r->state = b == '[' ? FIRST : FIRST_NAME;
    return TAKEN;
}

static enum step begin(struct reader *r, unsigned b) {
    switch (b) {
    case '"': r->state = STRING, r->is_name = 0; return TAKEN;
    case '[': case '{': return opened(r, b);
    case 't': r->state = WORD, r->word = "rue"; return TAKEN;
    case 'f': r->state = WORD, r->word = "alse"; return TAKEN;
    case 'n': r->state = WORD, r->word = "ull"; return TAKEN;
    case '-': r->state = MINUS; return TAKEN;
    case '0': r->state = ZERO; return TAKEN;
    default: r->state = INTEGER; return digit(b) ? TAKEN : WRONG;
    }
}

static enum step next(struct reader *r, unsigned b) {
    r->state = NEXT;
    if (blank(b)) return TAKEN;
    if (r->depth == 0) return WRONG;
    if (b == ',') {
        r->state = r->open[r->depth - 1] == '[' ? VALUE : NAME;
        return TAKEN;
    }
    if (b != (r->open[r->depth - 1] == '[' ? ']' : '}')) return WRONG;
    r->depth--;
    return TAKEN;
}

static void utf8(struct reader *r, unsigned low, unsigned high, unsigned more) {
    r->state = UTF8, r->low = low, r->high = high, r->more = more;
}

static enum step character(struct reader *r, unsigned b) {
    if (b == '"') r->state = r->is_name ? COLON : NEXT;
    else if (b == '\\') r->state = ESCAPE;
    else if (b < 0x20) return WRONG;
    else if (b < 0x80) r->state = STRING;
    else if (b >= 0xC2 && b <= 0xDF) utf8(r, 0x80, 0xBF, 0);
    else if (b == 0xE0) utf8(r, 0xA0, 0xBF, 1);
    else if (b == 0xED) utf8(r, 0x80, 0x9F, 1);
    else if (b >= 0xE1 && b <= 0xEF) utf8(r, 0x80, 0xBF, 1);
    else if (b == 0xF0) utf8(r, 0x90, 0xBF, 2);
    else if (b >= 0xF1 && b <= 0xF3) utf8(r, 0x80, 0xBF, 2);
    else if (b == 0xF4) utf8(r, 0x80, 0x8F, 2);
    else return WRONG;
    return TAKEN;
}

static enum step power(struct reader *r, unsigned b) {
    if (b != 'e' && b != 'E') return next(r, b);
    r->state = SIGN;
    return TAKEN;
}

static enum step step(struct reader *r, unsigned b) {
    switch (r->state) {
    case VALUE: return blank(b) ? TAKEN : begin(r, b);
    case FIRST:
        if (blank(b)) return TAKEN;
        return b == ']' ? next(r, b) : begin(r, b);
    case NEXT: return next(r, b);
    case FIRST_NAME:
        if (b == '}') return next(r, b);
        /* fall through */
    case NAME:
        if (blank(b)) return TAKEN;
        r->state = STRING, r->is_name = 1;
        return b == '"' ? TAKEN : WRONG;
    case COLON:
        if (blank(b)) return TAKEN;
        r->state = VALUE;
        return b == ':' ? TAKEN : WRONG;
    case STRING: return character(r, b);
    case ESCAPE:
        r->state = STRING;
        if (b == 'u') r->state = HEX, r->more = 4;
        return b && strchr("\"\\/bfnrtu", (int)b) ? TAKEN : WRONG;
    case HEX:
        if (--r->more == 0) r->state = STRING;
        return hex(b) ? TAKEN : WRONG;
    case UTF8:
        if (b < r->low || b > r->high) return WRONG;
        if (r->more == 0) r->state = STRING;
        else utf8(r, 0x80, 0xBF, r->more - 1);
        return TAKEN;
    case WORD:
        if (b != (unsigned char)*r->word) return WRONG;
        if (*++r->word == 0) r->state = NEXT;
        return TAKEN;
    case MINUS: r->state = b == '0' ? ZERO : INTEGER; return digit(b) ? TAKEN : WRONG;
    case INTEGER:
        if (digit(b)) return TAKEN;
        /* fall through */
    case ZERO:
        if (b == '.') {
            r->state = POINT;
            return TAKEN;
        }
        return power(r, b);
    case POINT: r->state = FRACTION; return digit(b) ? TAKEN : WRONG;
    case FRACTION: return digit(b) ? TAKEN : power(r, b);
    case SIGN: r->state = b == '+' || b == '-' ? EXPONENT : POWER; return b == '+' || b == '-' || digit(b) ? TAKEN : WRONG;
    case EXPONENT: r->state = POWER; return digit(b) ? TAKEN : WRONG;
    case POWER: return digit(b) ? TAKEN : next(r, b);
    }
    return WRONG;
}

static int whole(const struct reader *r) {
    return r->depth == 0 && (r->state == NEXT || r->state == ZERO || r->state == INTEGER || r->state == FRACTION || r->state == POWER);
}

/* 0 where a text is one of RFC 8259 with at most 32 levels; else 13 or 14 as of kz_config, of any length, and the place. */
static uint32_t stops(const uint8_t *text, size_t len, size_t *place) {
    struct reader r = {VALUE, {0}, 0, 0, 0, 0, 0, NULL};
    for (*place = 0; *place < len; ++*place) {
        enum step s = step(&r, text[*place]);
        if (s != TAKEN) return s == DEEP ? 14 : 13;
    }
    if (!whole(&r)) return 13;
    *place = 0;
    return 0;
}
