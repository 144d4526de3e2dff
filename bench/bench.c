// Does one operation on one sheet so often, for its instructions to be counted from outside:
//     bench ENGINE OPERATION REPEATS PLACE EDITION WIDTH PLAN..
// ENGINE: library, plain or streamvbyte; OPERATION: read, write or lookup; EDITION: 1 or 2; WIDTH: small, mixed or
// wide; PLAN: its bytes.
// With `times` for the engine it prints the nanoseconds of a call by the library and by plain C, in turns, the best of many rounds.
// The sheet has one column of 1,024 numbers, the same for each engine and made before the first repeat.

#include "pelluvion.h"
#include "plain.h"
#include <stdio.h>
#include <stdlib.h>
#include <string.h>
#include <streamvbyte.h>
#include <time.h>

enum { N = 1024, REFERENCE = 16, DIFFERENCES, RUNS };

static uint32_t list[N], out[N], work[8 * N];
static uint8_t sheet[PELLUVION_SHEET], again[PELLUVION_SHEET], plan[PELLUVION_PLAN], edition, kind;
static const uint32_t n = N;
static size_t sheet_len, place;

static uint64_t draw(void)      // splitmix64
{
    static uint64_t state;
    uint64_t z = state += 0x9e3779b97f4a7c15;
    z = (z ^ z >> 30) * 0xbf58476d1ce4e5b9;
    z = (z ^ z >> 27) * 0x94d049bb133111eb;
    return z ^ z >> 31;
}

// small: below 100; mixed: of 1 to `bits` bits, each length as often; wide: uniform in `bits` bits.
static uint32_t number(char width, unsigned bits)
{
    if (width == 's')
        return draw() % 100;
    if (width == 'm')
        bits = 1 + draw() % bits;
    uint64_t top = (uint64_t)1 << bits, x = draw() % top;
    return width == 'm' ? x | top >> 1 : x;
}

// A step of a rising list: in edition 2 never 0.
static uint32_t step(char width)
{
    uint32_t x = number(width, 21);
    return edition == 2 && x == 0 ? 1 : x;
}

// The list that the plan is for: rising for differences, runs of 1 to 16 for runs, far from 0 for reference.
static void make_list(char width)
{
    for (uint32_t i = 0; i < N; i++)
        switch (plan[0]) {
        case REFERENCE: list[i] = 1000000000 + number(width, 31); break;
        case DIFFERENCES: list[i] = (i > 0 ? list[i - 1] : 0) + step(width); break;
        case RUNS:
            list[i] = number(width, 32);
            for (uint32_t more = draw() % 16; more > 0 && i + 1 < N; more--, i++)
                list[i + 1] = list[i];
            break;
        default: list[i] = number(width, 32);
        }
}

static int library_read(void)
{
    size_t count;
    return pelluvion_read(sheet, sheet_len, 0, work, 8 * N, out, N, &count);
}

static int plain_c_read(void)
{
    size_t count;
    return plain_read(sheet, sheet_len, 0, work, 8 * N, out, N, &count);
}

static int library_write(void)
{
    size_t size;
    return pelluvion_write(edition, &kind, 1, plan, sizeof plan, &n, 1, list, N, work, 8 * N, again, sizeof again,
                           &size);
}

static int plain_c_write(void)
{
    size_t size;
    return plain_write(edition, &kind, 1, plan, sizeof plan, &n, 1, list, N, work, 8 * N, again, sizeof again, &size);
}

static int library_lookup(void) { return pelluvion_lookup(sheet, sheet_len, 0, place, out); }
static int plain_c_lookup(void) { return plain_lookup(sheet, sheet_len, 0, place, out); }
static int stream_read(void) { return streamvbyte_decode(sheet + 26, out, N) != sheet_len - 26; }
static int stream_write(void) { return streamvbyte_encode(list, N, again) != sheet_len - 26; }

static const struct { const char *engine, *operation; int (*call)(void); } calls[] = {
    {"library", "read", library_read}, {"library", "write", library_write}, {"library", "lookup", library_lookup},
    {"plain", "read", plain_c_read}, {"plain", "write", plain_c_write}, {"plain", "lookup", plain_c_lookup},
    {"streamvbyte", "read", stream_read}, {"streamvbyte", "write", stream_write},
};

static double seconds(int (*call)(void), int repeats)
{
    struct timespec from, to;
    clock_gettime(CLOCK_MONOTONIC, &from);
    for (int i = 0; i < repeats; i++)
        if (call() != 0)
            exit(1);
    clock_gettime(CLOCK_MONOTONIC, &to);
    return to.tv_sec - from.tv_sec + 1e-9 * (to.tv_nsec - from.tv_nsec);
}

// The two ways side by side, so that both meet the same machine.
static int times(const char *operation, int repeats)
{
    enum { ENGINES = 2, ROUNDS = 25, OPERATIONS = 3 };
    double best[ENGINES] = {1e9, 1e9};
    for (int round = 0; round < ROUNDS; round++)
        for (int e = 0; e < ENGINES; e++)
            for (int o = 0; o < OPERATIONS; o++)
                if (strcmp(calls[OPERATIONS * e + o].operation, operation) == 0) {
                    double took = seconds(calls[OPERATIONS * e + o].call, repeats);
                    best[e] = took < best[e] ? took : best[e];
                }
    printf("%.2f %.2f\n", 1e9 * best[0] / repeats, 1e9 * best[1] / repeats);
    return 0;
}

int main(int argc, char **argv)
{
    for (int i = 7; i < argc && i < 7 + PELLUVION_PLAN; i++)
        plan[i - 7] = atoi(argv[i]);
    if (argc < 8)
        return 2;
    place = atoi(argv[4]);
    edition = atoi(argv[5]);
    make_list(argv[6][0]);
    kind = plan[0] == DIFFERENCES;
    if (plain_write(edition, &kind, 1, plan, sizeof plan, &n, 1, list, N, work, 8 * N, sheet, sizeof sheet,
                    &sheet_len) != 0)
        return 2;
    if (strcmp(argv[1], "times") == 0)
        return times(argv[2], atoi(argv[3]));
    for (size_t i = 0; i < sizeof calls / sizeof *calls; i++)
        if (strcmp(calls[i].engine, argv[1]) == 0 && strcmp(calls[i].operation, argv[2]) == 0) {
            for (int repeats = atoi(argv[3]); repeats > 0; repeats--)
                if (calls[i].call() != 0)
                    return 1;
            return 0;
        }
    return 2;
}
