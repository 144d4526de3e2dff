// The sheet in plain C: what the proved library's cost is measured against.  It makes every test that the
// document demands and keeps the same promises (a refusal leaves the output as it was), with the usual means
// of C: pointers, unaligned loads, unit readers inlined into a loop for each code.  No SIMD.

#include "plain_inside.h"

struct column { uint8_t kind; const uint8_t *plan; uint32_t count; const uint8_t *body; size_t length; };

INLINE bool is_edition(unsigned edition) { return edition == FIRST_EDITION || edition == LAST_EDITION; }

// The table of a sheet, after refusals 1 to 4; `fault` names the column of 3 and 4.
static uint32_t table(const uint8_t *sheet, size_t sheet_len, struct column *columns, size_t *many, size_t *fault)
{
    *many = *fault = 0;
    if (sheet_len < 2 || sheet_len > MOST_SHEET || !is_edition(sheet[0]) || sheet[1] > MOST_COLUMNS)
        return 1;
    size_t number = sheet[1], offset = 2 + ENTRY * number;
    if (sheet_len < offset)
        return 2;
    for (size_t i = 0; i < number; i++) {
        const uint8_t *entry = sheet + 2 + ENTRY * i;
        columns[i] = (struct column){entry[0], entry + 1, load32(entry + 16), sheet + offset, load32(entry + 20)};
        if (columns[i].kind > 1 || columns[i].count > MOST_COUNT || columns[i].length > sheet_len - offset)
            return 2;
        offset += columns[i].length;
    }
    if (offset != sheet_len)
        return 2;
    for (size_t i = 0; i < number; i++) {
        uint32_t refusal = judge(columns[i].kind, columns[i].plan);
        if (refusal != 0) {
            *fault = i;
            return refusal;
        }
    }
    *many = number;
    return 0;
}

static bool rises(const uint32_t *x, uint32_t n)
{
    for (uint32_t i = 1; i < n; i++)
        if (x[i] < x[i - 1])
            return false;
    return true;
}

static bool rises_strictly(const uint32_t *x, uint32_t n)
{
    for (uint32_t i = 1; i < n; i++)
        if (x[i] <= x[i - 1])
            return false;
    return true;
}

// What a kind asks of a list, by the sheet's edition.
static bool of_kind(unsigned edition, unsigned kind, const uint32_t *x, uint32_t n)
{
    return kind == 0 || (edition == FIRST_EDITION ? rises(x, n) : rises_strictly(x, n));
}

// Reads a column of a sheet of an edition to the front of work.
static bool read_column(unsigned edition, const struct column *c, uint32_t *work)
{
    return read_plan(c->plan, c->body, c->length, c->count, work, work + c->count)
        && of_kind(edition, c->kind, work, c->count);
}

uint32_t plain_read(const uint8_t *sheet, size_t sheet_len, size_t column, uint32_t *work, size_t work_len,
                    uint32_t *out, size_t out_len, size_t *count)
{
    struct column columns[MOST_COLUMNS];
    size_t many, fault;
    uint32_t refusal = table(sheet, sheet_len, columns, &many, &fault);
    *count = 0;
    if (refusal != 0)
        return refusal;
    if (column >= many)
        return 5;
    const struct column *c = columns + column;
    if (work_len < 7 * c->count)
        return 8;
    if (out_len < c->count)
        return 7;
    if (!read_column(sheet[0], c, work))
        return 9;
    memcpy(out, work, 4 * c->count);
    *count = c->count;
    return 0;
}

uint32_t plain_lookup(const uint8_t *sheet, size_t sheet_len, size_t column, size_t place, uint32_t *number)
{
    struct column columns[MOST_COLUMNS];
    size_t many, fault;
    uint64_t x;
    uint32_t refusal = table(sheet, sheet_len, columns, &many, &fault);
    *number = 0;
    if (refusal != 0)
        return refusal;
    if (column >= many)
        return 5;
    const struct column *c = columns + column;
    if (place >= c->count)
        return 6;
    if (!lookup_plan(c->plan, c->body, c->length, c->count, place, &x) || x > UINT32_MAX)
        return 9;
    *number = x;
    return 0;
}

// The plan of an order: 15 zeros mean the default of its kind.
static const uint8_t *order_plan(unsigned kind, const uint8_t *plan)
{
    static const uint8_t none[PLAN], defaults[2][PLAN] = {{VBYTE}, {DIFFERENCES, VBYTE}};
    return memcmp(plan, none, PLAN) == 0 ? defaults[kind] : plan;
}

uint32_t plain_write(uint8_t edition, const uint8_t *kinds, size_t kinds_len, const uint8_t *plans, size_t plans_len,
                     const uint32_t *counts, size_t counts_len, const uint32_t *joined, size_t joined_len,
                     uint32_t *work, size_t work_len, uint8_t *out, size_t out_len, size_t *size)
{
    const uint8_t *plan[MOST_COLUMNS];
    size_t sizes[MOST_COLUMNS], sum = 0, largest = 0, total = 2 + ENTRY * kinds_len;
    *size = 0;
    if (!is_edition(edition) || kinds_len > MOST_COLUMNS || plans_len != PLAN * kinds_len || counts_len != kinds_len)
        return 11;
    for (size_t i = 0; i < kinds_len; i++) {
        if (kinds[i] > 1 || counts[i] > MOST_COUNT)
            return 11;
        sum += counts[i];
        if (counts[i] > largest)
            largest = counts[i];
    }
    if (sum != joined_len)
        return 11;
    for (size_t i = 0; i < kinds_len; i++) {
        plan[i] = order_plan(kinds[i], plans + PLAN * i);
        uint32_t refusal = judge(kinds[i], plan[i]);
        if (refusal != 0)
            return refusal;
    }
    const uint32_t *list = joined;
    for (size_t i = 0; i < kinds_len; list += counts[i++])
        if (!of_kind(edition, kinds[i], list, counts[i]))
            return 10;
    if (work_len < 7 * largest)
        return 8;
    list = joined;
    for (size_t i = 0; i < kinds_len; list += counts[i++])
        total += sizes[i] = size_plan(plan[i], list, counts[i], work);
    if (total > out_len || total > MOST_SHEET)
        return 7;
    uint8_t *entry = out + 2, *body = entry + ENTRY * kinds_len;
    out[0] = edition;
    out[1] = kinds_len;
    list = joined;
    for (size_t i = 0; i < kinds_len; list += counts[i++], entry += ENTRY) {
        entry[0] = kinds[i];
        memcpy(entry + 1, plan[i], PLAN);
        store32(entry + 16, counts[i]);
        store32(entry + 20, sizes[i]);
        body = put_plan(plan[i], body, list, counts[i], work);
    }
    *size = total;
    return 0;
}
