// Stream VByte bodies against Debian's libstreamvbyte, both ways, in sheets of both editions, for lists on standard
// input (a count, then the numbers).  For each list it writes which step failed (0: none), then its VByte body for
// interop.py to decode: the length, then the bytes.

#include "pelluvion.h"
#include <stdio.h>
#include <stdlib.h>
#include <string.h>
#include <streamvbyte.h>

enum { ENTRY = 24, FRONT = 2 + ENTRY, WORK = 8 * PELLUVION_COUNT, SLACK = 16 };      // SLACK: its decoder may read on

static uint32_t list[PELLUVION_COUNT], other[PELLUVION_COUNT], work[WORK];
static uint8_t sheet[PELLUVION_SHEET];

// A sheet of the list by one code; its body is at *offset.
static int written(uint8_t edition, uint8_t code, uint32_t n, size_t *offset, size_t *length)
{
    const uint8_t kind = 0, plan[PELLUVION_PLAN] = {code};
    size_t size;
    return pelluvion_write(edition, &kind, 1, plan, sizeof plan, &n, 1, list, n, work, WORK, sheet, sizeof sheet,
                           &size) == 0
        && pelluvion_fetch(sheet, size, 0, offset, length) == 0 && *offset + *length == size;
}

static int same(uint32_t n) { return memcmp(list, other, n * sizeof *list) == 0; }

// Our body by its decoder.
static int decodes(uint8_t edition, uint32_t n)
{
    static uint8_t body[5 * PELLUVION_COUNT + SLACK];
    size_t offset, length;
    if (!written(edition, 4, n, &offset, &length))
        return 0;
    memcpy(body, sheet + offset, length);
    return streamvbyte_decode(body, other, n) == length && same(n);
}

// Its body in a sheet of ours.
static int encodes(uint8_t edition, uint32_t n)
{
    static uint8_t body[5 * PELLUVION_COUNT + SLACK];
    uint32_t length = streamvbyte_encode(list, n, body);
    size_t column, count;
    memset(sheet, 0, FRONT);
    sheet[0] = edition;
    sheet[1] = 1;
    sheet[3] = 4;
    memcpy(sheet + 2 + 16, &n, 4);
    memcpy(sheet + 2 + 20, &length, 4);
    memcpy(sheet + FRONT, body, length);
    return pelluvion_check(sheet, FRONT + length, work, WORK, &column) == 0
        && pelluvion_read(sheet, FRONT + length, 0, work, WORK, other, n, &count) == 0 && count == n && same(n);
}

// The step that fails in an edition (0: none); its VByte body is then at *offset.
static uint32_t failing(uint8_t edition, uint32_t n, size_t *offset, size_t *length)
{
    return !decodes(edition, n) ? 1 : !encodes(edition, n) ? 2 : !written(edition, 1, n, offset, length) ? 3 : 0;
}

int main(void)
{
    uint32_t n;
    while (fread(&n, sizeof n, 1, stdin) == 1) {
        if (n > PELLUVION_COUNT || fread(list, sizeof *list, n, stdin) != n)
            return 2;
        size_t offset = 0, length = 0;
        uint32_t failed = 0;
        for (uint8_t edition = 1; edition <= 2 && failed == 0; edition++)
            failed = failing(edition, n, &offset, &length);
        uint32_t bytes = failed == 0 ? length : 0;
        fwrite(&failed, sizeof failed, 1, stdout);
        fwrite(&bytes, sizeof bytes, 1, stdout);
        fwrite(sheet + offset, 1, bytes, stdout);
    }
    return 0;
}
