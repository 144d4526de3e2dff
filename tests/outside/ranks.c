// Rank and select over one of two slices of 65,536 bytes, at every index, against ones counted bit by bit:
//     ranks SLICE
// The slice ends at a page that may not be touched.  A call may read the whole slice, so the indexes are taken in
// passes, each over all of the slice, until the seconds of the processor's time are used up.  Prints how many ranks
// were compared, of how many, the same of select, and how many differ.

#include "pelluvion.h"
#include <stdio.h>
#include <stdlib.h>
#include <sys/mman.h>
#include <time.h>

enum { BYTES = PELLUVION_SHEET, BITS = 8 * BYTES, PAGE = 1 << 16, BLOCK = 64 };
enum { PASSES = 509, RANK_SECONDS = 6, SELECT_SECONDS = 2 };    // a pass takes each 509th index: every bit of a byte

typedef uint32_t operation(const uint8_t *bytes, size_t len, size_t index, size_t *answer);

static uint32_t before[BITS + 1], bit_of[BITS];     // the ones before each bit, the bit of each one
static size_t differ;

static uint64_t draw(void)      // splitmix64
{
    static uint64_t state;
    uint64_t z = state += 0x9e3779b97f4a7c15;
    z = (z ^ z >> 30) * 0xbf58476d1ce4e5b9;
    z = (z ^ z >> 27) * 0x94d049bb133111eb;
    return z ^ z >> 31;
}

// Slice 0 is drawn bit by bit; slice 1 has blocks of zeros, of ones, of a few of either, and of any.
static void fill(uint8_t *bytes, int slice)
{
    for (size_t i = 0; i < BYTES; i++) {
        static unsigned shape;
        if (slice == 1 && i % BLOCK == 0)
            shape = draw() % 5;
        unsigned any = draw() & 255, one = draw() % 64 < 8 ? 1u << draw() % 8 : 0;
        const unsigned shapes[] = {any, 0, 255, one, 255 - one};
        bytes[i] = shapes[slice == 1 ? shape : 0];
    }
}

static size_t count(const uint8_t *bytes)
{
    size_t ones = 0;
    for (size_t i = 0; i < BITS; i++) {
        before[i] = ones;
        if (bytes[i / 8] >> i % 8 & 1)
            bit_of[ones++] = i;
    }
    before[BITS] = ones;
    return ones;
}

static void expect(operation *ask, const uint8_t *bytes, size_t index, uint32_t number, size_t wanted)
{
    size_t answer = ~wanted;
    if (ask(bytes, BYTES, index, &answer) != number || answer != wanted)
        differ++;
}

// Compares at so many indexes from 0, and how many of them there was time for.
static size_t compared(operation *ask, const uint8_t *bytes, const uint32_t *wanted, size_t many, int seconds)
{
    size_t done = 0;
    clock_t end = clock() + seconds * CLOCKS_PER_SEC;
    for (size_t pass = 0; pass < PASSES && clock() < end; pass++)
        for (size_t i = pass; i < many; i += PASSES, done++)
            expect(ask, bytes, i, 0, wanted[i]);
    expect(ask, bytes, many, 6, 0);
    return done;
}

int main(int argc, char **argv)
{
    uint8_t *bytes = mmap(NULL, BYTES + PAGE, PROT_READ | PROT_WRITE, MAP_PRIVATE | MAP_ANONYMOUS, -1, 0);
    if (argc != 2 || bytes == MAP_FAILED || mprotect(bytes + BYTES, PAGE, PROT_NONE) != 0)
        return 2;
    fill(bytes, atoi(argv[1]));
    size_t ones = count(bytes);
    size_t ranks = compared(pelluvion_rank, bytes, before, BITS + 1, RANK_SECONDS);
    size_t selects = compared(pelluvion_select, bytes, bit_of, ones, SELECT_SECONDS);
    printf("%zu %d %zu %zu %zu\n", ranks, BITS + 1, selects, ones, differ);
    return 0;
}
