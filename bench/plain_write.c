// Plain C, writing: a body's size first, then its bytes.

#include "plain_inside.h"

static size_t size_g8iu(const uint32_t *x, uint32_t n)
{
    size_t blocks = 0;
    unsigned room = 0;
    for (uint32_t i = 0; i < n; i++) {
        unsigned length = bytes_of(x[i]);
        if (length > room) {
            blocks++;
            room = 8;
        }
        room -= length;
    }
    return 9 * blocks;
}

static size_t size_code(unsigned code, const uint32_t *x, uint32_t n)
{
    size_t size = 0;
    switch (code) {
    case VBYTE:
        for (uint32_t i = 0; i < n; i++)
            size += (bits_of(x[i] | 1) + 6) / 7;
        return size;
    case GROUPS:
    case STREAM:
    case FOURWISE:
        for (uint32_t i = 0; i < n; i++)
            size += bytes_of(x[i]);
        return size + (n + 3) / 4;
    case G8IU:
        return size_g8iu(x, n);
    case DIRECT:
        return size_direct(x, n);
    case GAMMA:
        for (uint32_t i = 0; i < n; i++)
            size += 2 * bits_of((uint64_t)x[i] + 1) - 1;
        return (size + 7) / 8;
    default:
        for (uint32_t i = 0; i < n; i++) {
            unsigned bits = bits_of((uint64_t)x[i] + 1);
            size += 2 * bits_of(bits) - 1 + bits - 1;
        }
        return (size + 7) / 8;
    }
}

INLINE uint8_t *put_bytes(uint8_t *out, uint32_t x, unsigned length)
{
    for (; length > 0; length--, x >>= 8)
        *out++ = x;
    return out;
}

static uint8_t *put_vbyte(uint8_t *out, const uint32_t *x, uint32_t n)
{
    for (uint32_t i = 0; i < n; i++) {
        uint32_t v = x[i];
        for (; v > 127; v >>= 7)
            *out++ = v | 128;
        *out++ = v;
    }
    return out;
}

// Groups of four: control bytes among the data, or all of them first; a field tells the length or, as a mask does,
// the bytes left out.
INLINE uint8_t *put_groups(uint8_t *out, const uint32_t *x, uint32_t n, bool first, bool mask)
{
    uint8_t *control = out, *data = first ? out + (n + 3) / 4 : out;
    for (uint32_t i = 0; i < n; i += 4) {
        uint32_t many = n - i < 4 ? n - i : 4, fields = 0;
        if (!first)
            control = data++;
        for (uint32_t k = 0; k < many; k++) {
            unsigned length = bytes_of(x[i + k]);
            fields |= (mask ? 4 - length : length - 1) << 2 * k;
            data = put_bytes(data, x[i + k], length);
        }
        *control++ = fields;
    }
    return data;
}

static uint8_t *put_fourwise(uint8_t *out, const uint32_t *x, uint32_t n)
{
    for (; n > BATCH; x += BATCH, n -= BATCH)
        out = put_groups(out, x, BATCH, true, true);
    return put_groups(out, x, n, true, true);
}

static uint8_t *put_g8iu(uint8_t *out, const uint32_t *x, uint32_t n)
{
    for (uint32_t i = 0; i < n; out += 9) {
        uint64_t data = 0;
        unsigned control = 255, used = 0, length;
        while (i < n && used + (length = bytes_of(x[i])) <= 8) {
            data |= (uint64_t)x[i++] << 8 * used;
            used += length;
            control -= 1 << (used - 1);
        }
        out[0] = control;
        memcpy(out + 1, &data, 8);
    }
    return out;
}

struct bits { uint8_t *out; uint64_t word; unsigned many; };       // fewer than 8 bits wait in a word

INLINE void put_bits(struct bits *b, uint64_t x, unsigned many)     // at most 56
{
    b->word = b->word << many | x;
    for (b->many += many; b->many >= 8; b->many -= 8)
        *b->out++ = b->word >> (b->many - 8);
}

static uint8_t *put_elias(uint8_t *out, const uint32_t *x, uint32_t n, bool delta)
{
    struct bits b = {out, 0, 0};
    for (uint32_t i = 0; i < n; i++) {
        uint64_t v = (uint64_t)x[i] + 1;
        unsigned bits = bits_of(v);
        if (delta) {
            put_bits(&b, bits, 2 * bits_of(bits) - 1);
            put_bits(&b, v - ((uint64_t)1 << (bits - 1)), bits - 1);
        } else {
            put_bits(&b, 0, bits - 1);
            put_bits(&b, v, bits);
        }
    }
    if (b.many > 0)
        *b.out++ = b.word << (8 - b.many);
    return b.out;
}

static uint8_t *put_code(unsigned code, uint8_t *out, const uint32_t *x, uint32_t n)
{
    switch (code) {
    case VBYTE: return put_vbyte(out, x, n);
    case GROUPS: return put_groups(out, x, n, false, false);
    case STREAM: return put_groups(out, x, n, true, false);
    case FOURWISE: return put_fourwise(out, x, n);
    case G8IU: return put_g8iu(out, x, n);
    case DIRECT: return put_direct(out, x, n);
    default: return put_elias(out, x, n, code == DELTA);
    }
}

static uint32_t smallest_of(const uint32_t *x, uint32_t n)
{
    uint32_t smallest = n > 0 ? x[0] : 0;
    for (uint32_t i = 1; i < n; i++)
        if (x[i] < smallest)
            smallest = x[i];
    return smallest;
}

static void less_least(const uint32_t *x, uint32_t n, uint32_t low, uint32_t *y)
{
    for (uint32_t i = 0; i < n; i++)
        y[i] = x[i] - low;
}

static void differences(const uint32_t *x, uint32_t n, uint32_t *y)
{
    for (uint32_t i = 0; i < n; i++)
        y[i] = i > 0 ? x[i] - x[i - 1] : x[i];
}

// The run values, then at y + n their lengths; how many runs.
static uint32_t split_runs(const uint32_t *x, uint32_t n, uint32_t *y)
{
    uint32_t runs = 0, *lengths = y + n;
    for (uint32_t i = 0; i < n; i++)
        if (i > 0 && x[i] == x[i - 1])
            lengths[runs - 1]++;
        else {
            y[runs] = x[i];
            lengths[runs++] = 1;
        }
    return runs;
}

size_t size_plan(const uint8_t *plan, const uint32_t *x, uint32_t n, uint32_t *work)
{
    uint32_t runs;
    switch (*plan) {
    case REFERENCE:
        less_least(x, n, smallest_of(x, n), work);
        return 4 + size_plan(plan + 1, work, n, work + n);
    case DIFFERENCES:
        differences(x, n, work);
        return size_plan(plan + 1, work, n, work + n);
    case RUNS:
        runs = split_runs(x, n, work);
        return 8 + size_plan(plan + 1, work, runs, work + 2 * n)
             + size_plan(after(plan + 1), work + n, runs, work + 2 * n);
    default:
        return size_code(*plan, x, n);
    }
}

uint8_t *put_plan(const uint8_t *plan, uint8_t *out, const uint32_t *x, uint32_t n, uint32_t *work)
{
    uint32_t runs, low;
    uint8_t *values_end;
    switch (*plan) {
    case REFERENCE:
        low = smallest_of(x, n);
        less_least(x, n, low, work);
        store32(out, low);
        return put_plan(plan + 1, out + 4, work, n, work + n);
    case DIFFERENCES:
        differences(x, n, work);
        return put_plan(plan + 1, out, work, n, work + n);
    case RUNS:
        runs = split_runs(x, n, work);
        values_end = put_plan(plan + 1, out + 8, work, runs, work + 2 * n);
        store32(out, runs);
        store32(out + 4, values_end - out - 8);
        return put_plan(after(plan + 1), values_end, work + n, runs, work + 2 * n);
    default:
        return put_code(*plan, out, x, n);
    }
}
