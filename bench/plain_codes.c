// Plain C, codes 1 to 7: reading one unit by its own rules, and a list of units.  (Code 8 is in plain_direct.c.)

#include "plain_inside.h"

static const uint32_t most[4] = {0xff, 0xffff, 0xffffff, 0xffffffff};      // that so many bytes hold
static const uint32_t least[4] = {0, 0x100, 0x10000, 0x1000000};           // that needs so many

INLINE const uint8_t *unit_vbyte(const uint8_t *p, const uint8_t *end, uint32_t *x)
{
    if (p == end)
        return NULL;
    uint32_t byte = *p++, v = byte & 127;
    if (byte > 127)
        for (unsigned shift = 7; ; shift += 7) {
            if (p == end)
                return NULL;
            byte = *p++;
            if (shift == 28 && byte > 15)
                return NULL;
            v |= (byte & 127) << shift;
            if (byte == 0)
                return NULL;
            if (byte < 128)
                break;
        }
    *x = v;
    return p;
}

// So many numbers of a group or a batch, where 4 bytes for each of them are there, and where their data ends.
INLINE const uint8_t *unit_whole(unsigned control, const uint8_t *p, unsigned many, uint32_t *x)
{
    bool longer = false;
    for (unsigned i = 0; i < many; i++, control >>= 2) {
        unsigned code = control & 3;
        x[i] = load32(p) & most[code];
        longer |= x[i] < least[code];
        p += code + 1;
    }
    return longer ? NULL : p;
}

// The numbers of one group, `many` of them in use, and where its data ends.
INLINE const uint8_t *unit_group(unsigned control, const uint8_t *p, const uint8_t *end, unsigned many, uint32_t *x)
{
    if (many == 4 && end - p >= 16)
        return unit_whole(control, p, 4, x);
    for (unsigned i = 0; i < many; i++, control >>= 2) {
        unsigned code = control & 3;
        if (end - p <= (ptrdiff_t)code)
            return NULL;
        uint32_t v = 0;
        for (unsigned k = 0; k <= code; k++)
            v |= (uint32_t)*p++ << 8 * k;
        if (v < least[code])
            return NULL;
        x[i] = v;
    }
    return control == 0 ? p : NULL;             // unused fields are 0
}

// The numbers of one four-wise batch, `many` of them in use, and where it ends.  A mask tells the bytes left out,
// so its bits turned over are a group's control byte.
INLINE const uint8_t *unit_batch(const uint8_t *mask, const uint8_t *end, unsigned many, uint32_t *x)
{
    if (end - mask < (many + 3) / 4)
        return NULL;
    const uint8_t *p = mask + (many + 3) / 4;
    if (many == BATCH && end - p >= 4 * BATCH)
        return unit_whole(~load32(mask), p, BATCH, x);
    for (; many >= 4; many -= 4, x += 4)
        if ((p = unit_group(~*mask++ & 255, p, end, 4, x)) == NULL)
            return NULL;
    if (many == 0)
        return p;
    unsigned used = (1 << 2 * many) - 1;            // unused fields are 0 in the mask and in a control byte
    return *mask > used ? NULL : unit_group(*mask ^ used, p, end, many, x);
}

// The numbers of one G8IU block; 0 for a fault.
INLINE unsigned unit_block(struct walk *w, uint32_t *x)
{
    if (w->end - w->at < 9)
        return 0;
    uint64_t data = load64(w->at + 1);
    unsigned many = 0, ends = ~w->at[0] & 255, room = 8;
    while (ends != 0) {
        unsigned length = __builtin_ctz(ends) + 1;
        if (length > 4 || many == w->left)
            return 0;
        x[many] = data & most[length - 1];
        if (x[many] < least[length - 1])
            return 0;
        if (many++ == 0)
            w->first = length;
        ends >>= length;
        room -= length;
        data >>= 8 * length;
    }
    if (data != 0 || (room > 3 && many != w->left))
        return 0;
    w->room = room;
    w->at += 9;
    return many;
}

// 64 bits of the body from `bit` on, 0 past its end.
INLINE uint64_t window(const struct walk *w, size_t bit)
{
    const uint8_t *p = w->body + bit / 8;
    unsigned skip = bit % 8;
    if (w->end - p >= 9)
        return __builtin_bswap64(load64(p)) << skip | p[8] >> (8 - skip);
    uint64_t bits = 0;
    for (unsigned i = 0; i < 8; i++)
        bits = bits << 8 | (p + i < w->end ? p[i] : 0);
    return bits << skip;        // fewer than 9 bytes are left: what is shifted in is past the end
}

INLINE bool unit_gamma(struct walk *w, uint32_t *x)
{
    uint64_t bits = window(w, w->bit);
    unsigned zeros = bits == 0 ? 64 : __builtin_clzll(bits);
    if (zeros > 32 || w->bit + 2 * zeros + 1 > 8 * (size_t)(w->end - w->body))
        return false;
    if (zeros < 32)
        bits <<= zeros;
    else
        bits = window(w, w->bit + zeros);
    uint64_t v = bits >> (63 - zeros);
    *x = v - 1;
    w->bit += 2 * zeros + 1;
    return v <= (uint64_t)1 << 32;
}

INLINE bool unit_delta(struct walk *w, uint32_t *x)
{
    uint64_t bits = window(w, w->bit);          // a codeword has at most 43
    unsigned zeros = bits == 0 ? 64 : __builtin_clzll(bits);
    if (zeros > 5)
        return false;
    unsigned length = bits << zeros >> (63 - zeros), taken = 2 * zeros + length;
    if (length > 33 || w->bit + taken > 8 * (size_t)(w->end - w->body))
        return false;
    uint64_t top = (uint64_t)1 << (length - 1);
    uint64_t v = top | (bits >> (64 - taken) & (top - 1));
    *x = v - 1;
    w->bit += taken;
    return v <= (uint64_t)1 << 32;
}

INLINE bool start(unsigned code, struct walk *w, const uint8_t *body, size_t length, uint32_t n)
{
    size_t controls = code == STREAM ? (n + 3) / 4 : 0;
    *w = (struct walk){.body = body, .end = body + length, .at = body, .data = body + controls, .left = n};
    return controls <= length;
}

// Takes the next unit: how many numbers it put at x, 0 for a fault.  Some are left.
INLINE unsigned take(unsigned code, struct walk *w, uint32_t *x)
{
    unsigned many = 1;
    const uint8_t *next;
    switch (code) {
    case VBYTE:
        if ((w->at = unit_vbyte(w->at, w->end, x)) == NULL)
            return 0;
        break;
    case GROUPS:
        many = w->left < 4 ? w->left : 4;
        if (w->at == w->end || (next = unit_group(w->at[0], w->at + 1, w->end, many, x)) == NULL)
            return 0;
        w->at = next;
        break;
    case STREAM:
        many = w->left < 4 ? w->left : 4;
        if ((w->data = unit_group(*w->at++, w->data, w->end, many, x)) == NULL)
            return 0;
        break;
    case FOURWISE:
        many = w->left < BATCH ? w->left : BATCH;
        if ((w->at = unit_batch(w->at, w->end, many, x)) == NULL)
            return 0;
        break;
    case G8IU:
        many = unit_block(w, x);
        break;
    case GAMMA:
        if (!unit_gamma(w, x))
            return 0;
        break;
    default:
        if (!unit_delta(w, x))
            return 0;
    }
    w->left -= many;
    return many;
}

// Whether the body ends where its units do.
INLINE bool ended(unsigned code, const struct walk *w)
{
    if (code == STREAM)
        return w->data == w->end;
    if (code != GAMMA && code != DELTA)
        return w->at == w->end;
    unsigned last = w->bit % 8;
    return (w->bit + 7) / 8 == (size_t)(w->end - w->body) && (last == 0 || (uint8_t)(w->end[-1] << last) == 0);
}

INLINE bool read_units(unsigned code, const uint8_t *body, size_t length, uint32_t n, uint32_t *x)
{
    struct walk w;
    if (!start(code, &w, body, length, n))
        return false;
    while (w.left > 0) {
        unsigned room = w.room, many = take(code, &w, x);
        if (many == 0 || (code == G8IU && w.first <= room))     // it fits the block before
            return false;
        x += many;
    }
    return ended(code, &w);
}

INLINE bool find_unit(unsigned code, const uint8_t *body, size_t length, uint32_t n, uint32_t place, uint64_t *x)
{
    struct walk w;
    uint32_t unit[MOST_UNIT];
    if (!start(code, &w, body, length, n))
        return false;
    for (;;) {
        unsigned many = take(code, &w, unit);
        if (many == 0)
            return false;
        if (place < many)
            break;
        place -= many;
    }
    *x = unit[place];
    return true;
}

INLINE bool sum_units(unsigned code, const uint8_t *body, size_t length, uint32_t n, uint32_t place, uint64_t *x)
{
    struct walk w;
    uint32_t unit[MOST_UNIT];
    uint64_t sum = 0;
    if (!start(code, &w, body, length, n))
        return false;
    for (uint32_t left = place + 1; left > 0; ) {
        unsigned many = take(code, &w, unit);
        if (many == 0)
            return false;
        if (many > left)
            many = left;
        for (unsigned i = 0; i < many; i++)
            sum += unit[i];
        left -= many;
    }
    *x = sum;
    return true;
}

// A loop of its own for each code.
#define FOR_CODE(code, f, ...)                      \
    switch (code) {                                 \
    case VBYTE: return f(VBYTE, __VA_ARGS__);       \
    case GROUPS: return f(GROUPS, __VA_ARGS__);     \
    case G8IU: return f(G8IU, __VA_ARGS__);         \
    case STREAM: return f(STREAM, __VA_ARGS__);     \
    case FOURWISE: return f(FOURWISE, __VA_ARGS__); \
    case GAMMA: return f(GAMMA, __VA_ARGS__);       \
    default: return f(DELTA, __VA_ARGS__);          \
    }

bool read_code(unsigned code, const uint8_t *body, size_t length, uint32_t n, uint32_t *x)
{
    if (code == DIRECT)
        return read_direct(body, length, n, x);
    FOR_CODE(code, read_units, body, length, n, x)
}

bool lookup_code(unsigned code, const uint8_t *body, size_t length, uint32_t n, uint32_t place, uint64_t *x)
{
    if (code == DIRECT)
        return lookup_direct(body, length, place, x);
    FOR_CODE(code, find_unit, body, length, n, place, x)
}

bool sum_code(unsigned code, const uint8_t *body, size_t length, uint32_t n, uint32_t place, uint64_t *x)
{
    if (code == DIRECT)
        return sum_direct(body, length, place, x);
    FOR_CODE(code, sum_units, body, length, n, place, x)
}

bool start_units(unsigned code, struct walk *w, const uint8_t *body, size_t length, uint32_t n)
{
    return code == DIRECT ? start_direct(&w->direct, body, length) : start(code, w, body, length, n);
}

unsigned take_unit(unsigned code, struct walk *w, uint32_t *x)
{
    return code == DIRECT ? take_direct(&w->direct, x) : take(code, w, x);
}
