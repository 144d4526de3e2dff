// Plain C, plans: judged, read and looked up.

#include "plain_inside.h"

// Where the plan at p ends; NULL when it is malformed.
static const uint8_t *plan_end(const uint8_t *p, const uint8_t *end, unsigned depth)
{
    if (p == end || depth == 0)
        return NULL;
    unsigned what = *p++;
    if (what >= VBYTE && what <= DIRECT)
        return p;
    if (what < REFERENCE || what > RUNS)
        return NULL;
    p = plan_end(p, end, depth - 1);
    return p != NULL && what == RUNS ? plan_end(p, end, depth - 1) : p;
}

const uint8_t *after(const uint8_t *plan) { return plan_end(plan, plan + PLAN, DEPTH); }

static bool passes(unsigned kind, const uint8_t *plan)
{
    switch (*plan) {
    case REFERENCE: return passes(kind, plan + 1);
    case DIFFERENCES: return kind == 1 && passes(0, plan + 1);
    case RUNS: return passes(kind, plan + 1) && passes(0, after(plan + 1));
    default: return true;
    }
}

uint32_t judge(unsigned kind, const uint8_t *plan)
{
    const uint8_t *end = plan + PLAN, *p = plan_end(plan, end, DEPTH);
    if (p == NULL)
        return 3;
    while (p < end)
        if (*p++ != 0)
            return 3;
    return passes(kind, plan) ? 0 : 4;
}

struct runs {                   // the parts of a run stage's body
    uint32_t count;
    const uint8_t *values, *lengths;
    size_t values_length, lengths_length;
};

static bool run_parts(const uint8_t *body, size_t length, uint32_t n, struct runs *r)
{
    if (length < 8 || load32(body) > n || load32(body + 4) > length - 8)
        return false;
    r->count = load32(body);
    r->values = body + 8;
    r->values_length = load32(body + 4);
    r->lengths = r->values + r->values_length;
    r->lengths_length = length - 8 - r->values_length;
    return true;
}

bool read_plan(const uint8_t *plan, const uint8_t *body, size_t length, uint32_t n, uint32_t *x, uint32_t *scratch)
{
    struct runs r;
    uint32_t low, smallest = UINT32_MAX;
    uint64_t sum = 0;
    switch (*plan) {
    case REFERENCE:
        if (length < 4 || !read_plan(plan + 1, body + 4, length - 4, n, x, scratch))
            return false;
        low = load32(body);
        for (uint32_t i = 0; i < n; i++) {
            if (x[i] > UINT32_MAX - low)
                return false;
            if (x[i] < smallest)
                smallest = x[i];
            x[i] += low;
        }
        return n == 0 ? low == 0 : smallest == 0;
    case DIFFERENCES:
        if (!read_plan(plan + 1, body, length, n, x, scratch))
            return false;
        for (uint32_t i = 0; i < n; i++)
            x[i] = sum += x[i];
        return sum <= UINT32_MAX;
    case RUNS:
        if (!run_parts(body, length, n, &r))
            return false;
        uint32_t *values = scratch, *lengths = scratch + r.count;
        if (!read_plan(plan + 1, r.values, r.values_length, r.count, values, lengths)
            || !read_plan(after(plan + 1), r.lengths, r.lengths_length, r.count, lengths, lengths + r.count))
            return false;
        for (uint32_t i = 0; i < r.count; i++) {
            if (lengths[i] == 0 || lengths[i] > n || (i > 0 && values[i] == values[i - 1]))
                return false;
            n -= lengths[i];
            for (uint32_t k = 0; k < lengths[i]; k++)
                *x++ = values[i];
        }
        return n == 0;
    default:
        return read_code(*plan, body, length, n, x);
    }
}

// A list taken number by number, for what stands below runs or differences.
struct list {
    const uint8_t *plan;
    struct walk walk;                   // a code: its units, and the numbers of the one taken last
    uint32_t unit[MOST_UNIT];
    unsigned many, taken;
    uint32_t low;                       // reference
    uint64_t sum, value;                // differences; runs: the value of the run taken last,
    uint32_t repeat, runs_left, left;   // how many are still to come of it, of runs, and of numbers
    struct list *inner, *lengths;
};

// Opens the list of n numbers of a body; its inner lists stand in `spare`, which it answers with what is left of.
static struct list *open_list(struct list *l, struct list *spare, const uint8_t *plan, const uint8_t *body,
                              size_t length, uint32_t n)
{
    struct runs r;
    *l = (struct list){.plan = plan, .inner = spare, .left = n};
    switch (*plan) {
    case REFERENCE:
        if (length < 4)
            return NULL;
        l->low = load32(body);
        return open_list(spare, spare + 1, plan + 1, body + 4, length - 4, n);
    case DIFFERENCES:
        return open_list(spare, spare + 1, plan + 1, body, length, n);
    case RUNS:
        if (!run_parts(body, length, n, &r))
            return NULL;
        l->runs_left = r.count;
        l->lengths = open_list(spare, spare + 1, plan + 1, r.values, r.values_length, r.count);
        return l->lengths == NULL ? NULL : open_list(l->lengths, l->lengths + 1, after(plan + 1), r.lengths,
                                                     r.lengths_length, r.count);
    default:
        return start_units(*plan, &l->walk, body, length, n) ? spare : NULL;
    }
}

static bool next_run(struct list *l);

static bool next(struct list *l, uint64_t *x)
{
    switch (*l->plan) {
    case REFERENCE:
        if (!next(l->inner, x))
            return false;
        *x += l->low;
        return true;
    case DIFFERENCES:
        if (!next(l->inner, x))
            return false;
        *x = l->sum += *x;
        return true;
    case RUNS:
        if (l->repeat == 0 && !next_run(l))
            return false;
        l->repeat--;
        *x = l->value;
        return true;
    default:
        if (l->taken == l->many) {
            l->taken = 0;
            if ((l->many = take_unit(*l->plan, &l->walk, l->unit)) == 0)
                return false;
        }
        *x = l->unit[l->taken++];
        return true;
    }
}

static bool next_run(struct list *l)
{
    uint64_t length;
    if (l->runs_left-- == 0 || !next(l->lengths, &length) || length == 0 || length > l->left)
        return false;
    l->left -= length;
    l->repeat = length;
    return next(l->inner, &l->value);
}

bool lookup_plan(const uint8_t *plan, const uint8_t *body, size_t length, uint32_t n, uint32_t place, uint64_t *x)
{
    struct list lists[PLAN];
    struct runs r;
    switch (*plan) {
    case REFERENCE:
        if (length < 4 || !lookup_plan(plan + 1, body + 4, length - 4, n, place, x))
            return false;
        *x += load32(body);
        return true;
    case DIFFERENCES:
        if (plan[1] <= DIRECT)
            return sum_code(plan[1], body, length, n, place, x);
        if (open_list(lists, lists + 1, plan, body, length, n) == NULL)
            return false;
        for (uint32_t i = 0; i <= place; i++)
            if (!next(lists, x))
                return false;
        return true;
    case RUNS:
        if (!run_parts(body, length, n, &r)
            || open_list(lists, lists + 1, after(plan + 1), r.lengths, r.lengths_length, r.count) == NULL)
            return false;
        for (uint32_t run = 0, sum = 0; run < r.count; run++) {
            if (!next(lists, x) || *x == 0 || *x > n - sum)
                return false;
            sum += *x;
            if (place < sum)
                return lookup_plan(plan + 1, r.values, r.values_length, r.count, run, x);
        }
        return false;
    default:
        return lookup_code(*plan, body, length, n, place, x);
    }
}
