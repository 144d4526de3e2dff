// Plain C, code 8, the directly addressed list: read in one pass, looked up by its sums, written.

#include "plain_inside.h"

enum { STRETCH = 512 };         // bits that share a sum

INLINE uint32_t load16(const uint8_t *p) { uint16_t x; memcpy(&x, p, 2); return x; }
INLINE void store16(uint8_t *p, uint16_t x) { memcpy(p, &x, 2); }

// The parts, whose ends must fit the body.
INLINE bool parts(struct direct *d, const uint8_t *body, size_t length)
{
    if (length < 4)
        return false;
    uint64_t bytes = load32(body), sums = 4 + (bytes + 7) / 8, data = sums + 2 * (bytes / STRETCH);
    if (data + bytes > length)
        return false;
    *d = (struct direct){.flags = body + 4, .sums = body + sums, .data = body + data, .bytes = bytes};
    return true;
}

// How many bytes the number takes that begins here, above 4 if too many.  Data follows the flags, so two bytes can
// be loaded wherever a flag is.
INLINE unsigned run_at(const struct direct *d, uint32_t first)
{
    uint32_t ends = load16(d->flags + first / 8) >> first % 8;
    return ends == 0 ? 16 : __builtin_ctz(ends) + 1;
}

// The number of so many bytes, 1 to 4, which must be the fewest.
INLINE bool number_at(const struct direct *d, uint32_t first, unsigned run, uint32_t *x)
{
    static const uint32_t least[4] = {0, 0x100, 0x10000, 0x1000000};
    const uint8_t *p = d->data + first;
    uint32_t v = 0;
    if (d->bytes - first >= 4)
        v = load32(p) & UINT32_MAX >> (32 - 8 * run);
    else
        for (unsigned i = 0; i < run; i++)
            v |= (uint32_t)p[i] << 8 * i;
    *x = v;
    return v >= least[run - 1];
}

bool read_direct(const uint8_t *body, size_t length, uint32_t n, uint32_t *x)
{
    struct direct d;
    if (!parts(&d, body, length) || d.data + d.bytes != body + length)
        return false;
    if (n == 0 || d.bytes == 0)
        return n == d.bytes;
    const uint8_t *sum = d.sums;
    uint32_t first = 0, boundary = STRETCH, last = d.bytes - 1;
    if (d.flags[last / 8] >> last % 8 != 1)             // the last bit is 1, the spare ones are 0
        return false;
    for (uint32_t i = 0; i < n; i++) {
        unsigned run = first < d.bytes ? run_at(&d, first) : 16;
        if (run > 4 || !number_at(&d, first, run, x + i))
            return false;
        first += run;
        if (first > boundary) {                         // so many have ended before it
            if (load16(sum) != i)
                return false;
            sum += 2;
            boundary += STRETCH;
        }
    }
    return first == d.bytes && (first < boundary || load16(sum) == n);
}

// The ones of a byte.
INLINE unsigned ones_of(unsigned byte)
{
    byte -= byte >> 1 & 0x55;
    byte = (byte & 0x33) + (byte >> 2 & 0x33);
    return (byte + (byte >> 4)) & 15;
}

// The first and the last byte of the number at a place.  The stretches before d->stretch end below it.
INLINE bool find(struct direct *d, uint32_t place, uint32_t *first, uint32_t *last)
{
    uint32_t full = d->bytes / STRETCH, base = 0;
    for (; d->stretch < full && load16(d->sums + 2 * d->stretch) <= place; d->stretch++)
        ;
    if (d->stretch > 0)
        base = load16(d->sums + 2 * d->stretch - 2);
    bool summed = d->stretch < full;                    // else it is what follows the last sum
    uint32_t bit = STRETCH * d->stretch, left = place - base;
    d->end = summed ? bit + STRETCH : d->bytes;
    d->limit = summed ? load16(d->sums + 2 * d->stretch) : UINT32_MAX;
    unsigned flags, ones;
    for (;; bit += 8, left -= ones) {
        if (bit >= d->end)
            return false;
        flags = d->flags[bit / 8];
        ones = ones_of(flags);
        if (left < ones)
            break;
    }
    for (; left > 0 || !(flags & 1); bit++, flags >>= 1)
        left -= flags & 1;
    *last = *first = bit;
    while (*first > 0 && !(d->flags[(*first - 1) / 8] >> (*first - 1) % 8 & 1))
        if (*last - --*first == 4)
            return false;
    return bit < d->end;                                // not a spare bit
}

bool start_direct(struct direct *d, const uint8_t *body, size_t length) { return parts(d, body, length); }

// In the stretch of the number before, the next one ends at the next end bit.
INLINE bool take(struct direct *d, uint32_t *x)
{
    uint32_t place = d->place++, first = d->next, last;
    if (place >= d->limit) {
        if (!find(d, place, &first, &last))
            return false;
    } else {
        unsigned run = first < d->end ? run_at(d, first) : 16;
        last = first + run - 1;
        if (run > 4 || last >= d->end)
            return false;
    }
    d->next = last + 1;
    return number_at(d, first, last - first + 1, x);
}

bool take_direct(struct direct *d, uint32_t *x) { return take(d, x); }

bool lookup_direct(const uint8_t *body, size_t length, uint32_t place, uint64_t *x)
{
    struct direct d;
    uint32_t first, last, number;
    if (!parts(&d, body, length) || !find(&d, place, &first, &last)
        || !number_at(&d, first, last - first + 1, &number))
        return false;
    *x = number;
    return true;
}

bool sum_direct(const uint8_t *body, size_t length, uint32_t place, uint64_t *x)
{
    struct direct d;
    uint32_t number;
    uint64_t sum = 0;
    if (!parts(&d, body, length))
        return false;
    while (d.place <= place) {
        if (!take(&d, &number))
            return false;
        sum += number;
    }
    *x = sum;
    return true;
}

static uint32_t data_bytes(const uint32_t *x, uint32_t n)
{
    uint32_t bytes = 0;
    for (uint32_t i = 0; i < n; i++)
        bytes += bytes_of(x[i]);
    return bytes;
}

size_t size_direct(const uint32_t *x, uint32_t n)
{
    size_t bytes = data_bytes(x, n);
    return 4 + (bytes + 7) / 8 + 2 * (bytes / STRETCH) + bytes;
}

uint8_t *put_direct(uint8_t *out, const uint32_t *x, uint32_t n)
{
    uint32_t bytes = data_bytes(x, n), at = 0, boundary = STRETCH;
    uint8_t *flags = out + 4, *sum = flags + (bytes + 7) / 8, *data = sum + 2 * (bytes / STRETCH);
    store32(out, bytes);
    memset(flags, 0, sum - flags);
    for (uint32_t i = 0; i < n; i++) {
        unsigned run = bytes_of(x[i]);
        for (unsigned k = 0; k < run; k++)
            data[at + k] = x[i] >> 8 * k;
        at += run;
        flags[(at - 1) / 8] |= 1 << (at - 1) % 8;
        if (at > boundary) {                            // so many have ended before it
            store16(sum, i);
            sum += 2;
            boundary += STRETCH;
        }
    }
    if (at == boundary)
        store16(sum, n);
    return data + bytes;
}
