// What the files of the plain C share.

#pragma once
#include "plain.h"
#include <stdbool.h>
#include <string.h>

enum { VBYTE = 1, GROUPS, G8IU, STREAM, GAMMA, DELTA, FOURWISE, DIRECT, REFERENCE = 16, DIFFERENCES, RUNS };
enum { BATCH = 16, MOST_UNIT = BATCH };             // numbers of a four-wise batch, and of the largest unit
enum { PLAN = 15, ENTRY = 24, DEPTH = 4, MOST_COLUMNS = 16, MOST_COUNT = 1024, MOST_SHEET = 65536 };
enum { FIRST_EDITION = 1, LAST_EDITION };           // ENTRY is of both
#define INLINE static inline __attribute__((always_inline))

// Reads a code's list of n numbers; finds the number at a place of it, or the sum through a place.
bool read_code(unsigned code, const uint8_t *body, size_t length, uint32_t n, uint32_t *x);
bool lookup_code(unsigned code, const uint8_t *body, size_t length, uint32_t n, uint32_t place, uint64_t *x);
bool sum_code(unsigned code, const uint8_t *body, size_t length, uint32_t n, uint32_t place, uint64_t *x);

struct direct {                 // the parts of a directly addressed body, and where a walk over its places stands
    const uint8_t *flags, *sums, *data;
    uint32_t bytes;             // of data
    uint32_t place, next;       // the next place; the byte after the number just taken
    uint32_t stretch, end;      // of that number: its stretch, and where that ends
    uint32_t limit;             // the place from which on, by its sum, another stretch is asked
};

struct walk {                   // where a walk over a body's units stands
    const uint8_t *body, *end;
    const uint8_t *at;          // the next unit (in Stream VByte its control byte)
    const uint8_t *data;        // Stream VByte: its data
    size_t bit;                 // gamma and delta: the next unit
    uint32_t left;              // how many numbers are still to come
    unsigned room, first;       // G8IU: the waste of the block just taken, the length of its first number
    struct direct direct;       // code 8
};

// The same unit by unit: how many numbers the next one put at x, 0 for a fault.
bool start_units(unsigned code, struct walk *w, const uint8_t *body, size_t length, uint32_t n);
unsigned take_unit(unsigned code, struct walk *w, uint32_t *x);

// All of it for code 8, and its writing.
bool read_direct(const uint8_t *body, size_t length, uint32_t n, uint32_t *x);
bool lookup_direct(const uint8_t *body, size_t length, uint32_t place, uint64_t *x);
bool sum_direct(const uint8_t *body, size_t length, uint32_t place, uint64_t *x);
bool start_direct(struct direct *d, const uint8_t *body, size_t length);
bool take_direct(struct direct *d, uint32_t *x);
size_t size_direct(const uint32_t *x, uint32_t n);
uint8_t *put_direct(uint8_t *out, const uint32_t *x, uint32_t n);

// Judges a plan of 15 bytes for a kind; where the plan that begins here, in a well-formed one, ends.
uint32_t judge(unsigned kind, const uint8_t *plan);
const uint8_t *after(const uint8_t *plan);

// Reads a plan's list of n numbers to x, the room at scratch taking 2n numbers for each stage; finds the number at
// a place below n, its sum not yet held to 32 bits.
bool read_plan(const uint8_t *plan, const uint8_t *body, size_t length, uint32_t n, uint32_t *x, uint32_t *scratch);
bool lookup_plan(const uint8_t *plan, const uint8_t *body, size_t length, uint32_t n, uint32_t place, uint64_t *x);

// The size of a list's body by a plan; writes it and answers with its end.  Work takes 2n numbers for each stage.
size_t size_plan(const uint8_t *plan, const uint32_t *x, uint32_t n, uint32_t *work);
uint8_t *put_plan(const uint8_t *plan, uint8_t *out, const uint32_t *x, uint32_t n, uint32_t *work);

INLINE uint32_t load32(const uint8_t *p) { uint32_t x; memcpy(&x, p, 4); return x; }
INLINE uint64_t load64(const uint8_t *p) { uint64_t x; memcpy(&x, p, 8); return x; }
INLINE void store32(uint8_t *p, uint32_t x) { memcpy(p, &x, 4); }
INLINE unsigned bits_of(uint64_t x) { return 64 - __builtin_clzll(x); }             // of x above 0
INLINE unsigned bytes_of(uint32_t x) { return (bits_of(x | 1) + 7) / 8; }
