// Calls the library as requests on standard input ask, and writes what came of each call to standard output.
// Every lent slice, answers too, ends at a page that may not be touched and begins after bytes that must not
// change; output, work and answers are filled with the request's fill byte first.  compare.py has the other side.

#include "pelluvion.h"
#include <setjmp.h>
#include <signal.h>
#include <stdio.h>
#include <stdlib.h>
#include <string.h>
#include <sys/mman.h>
#include <sys/time.h>

enum { JUDGE, WORST, WRITE, CHECK, READ, LOOKUP, FETCH, BOARD, RANK, SELECT };
enum { INPUTS = 4, WORK = INPUTS, OUT, ANSWER, ANSWERS = 5, SLOTS = ANSWER + ANSWERS };
enum { ROOM = 1 << 20, PAGE = 1 << 16, BEFORE = 64, SECONDS = 10 };
enum { INPUT_CHANGED = 1, BEFORE_CHANGED = 2, SIGNALLED = 4 };

struct request {                    // then the inputs, each of so many bytes
    uint32_t operation, fill;
    uint64_t a, b;                  // judge: kind; worst: n; write: edition; rank: bit; select: k; column and place
    uint32_t work, out;             // work's numbers, the output's bytes
    uint32_t input[INPUTS];         // the plan; kinds, plans, counts and joined; the slice of bits; or the sheet
};

struct result {                     // then the output's bytes
    uint32_t number, trouble;       // SIGNALLED: number is the signal
    uint64_t answer[ANSWERS];
    uint64_t out;
};

static uint8_t *slot_end[SLOTS];
static sigjmp_buf escape;

static void on_signal(int number) { siglongjmp(escape, number); }

static void set_up(void)
{
    static uint8_t stack[1 << 16];                          // the library's own stack may be what ran out
    sigaltstack(&(stack_t){.ss_sp = stack, .ss_size = sizeof stack}, NULL);
    const int caught[] = {SIGSEGV, SIGBUS, SIGILL, SIGFPE, SIGABRT, SIGTRAP, SIGPROF};
    struct sigaction action = {.sa_handler = on_signal, .sa_flags = SA_ONSTACK | SA_NODEFER};
    for (size_t i = 0; i < sizeof caught / sizeof *caught; i++)
        sigaction(caught[i], &action, NULL);
    for (int i = 0; i < SLOTS; i++) {
        uint8_t *room = mmap(NULL, ROOM + PAGE, PROT_READ | PROT_WRITE, MAP_PRIVATE | MAP_ANONYMOUS, -1, 0);
        if (room == MAP_FAILED || mprotect(room + ROOM, PAGE, PROT_NONE) != 0)
            exit(2);
        slot_end[i] = room + ROOM;
    }
}

// A slice of so many bytes that ends where its slot does, filled, as are the bytes before it.
static void *lend(int slot, size_t bytes, int fill)
{
    if (bytes > ROOM - BEFORE)
        exit(2);
    memset(slot_end[slot] - bytes - BEFORE, fill, bytes + BEFORE);
    return slot_end[slot] - bytes;
}

static size_t answer_bytes(uint32_t operation, int i)
{
    static const int answers[] = {[JUDGE] = 0, 1, 1, 1, 1, 1, 2, 5, 1, 1};
    return i >= answers[operation] ? 0 : operation == LOOKUP ? sizeof(uint32_t) : sizeof(size_t);
}

static uint32_t call(const struct request *q, void **in, uint32_t *work, void *out, void **answer)
{
    const uint32_t *bytes = q->input;
    switch (q->operation) {
    case JUDGE: return pelluvion_judge(q->a, in[0], bytes[0]);
    case WORST: return pelluvion_worst(in[0], bytes[0], q->a, answer[0]);
    case WRITE: return pelluvion_write(q->a, in[0], bytes[0], in[1], bytes[1], in[2], bytes[2] / 4, in[3], bytes[3] / 4,
                                       work, q->work, out, q->out, answer[0]);
    case CHECK: return pelluvion_check(in[0], bytes[0], work, q->work, answer[0]);
    case READ: return pelluvion_read(in[0], bytes[0], q->a, work, q->work, out, q->out / 4, answer[0]);
    case LOOKUP: return pelluvion_lookup(in[0], bytes[0], q->a, q->b, answer[0]);
    case FETCH: return pelluvion_fetch(in[0], bytes[0], q->a, answer[0], answer[1]);
    case RANK: return pelluvion_rank(in[0], bytes[0], q->a, answer[0]);
    case SELECT: return pelluvion_select(in[0], bytes[0], q->a, answer[0]);
    default: return pelluvion_board(in[0], bytes[0], work, q->work, answer[0], answer[1], answer[2], answer[3], answer[4]);
    }
}

// Ends the call by a signal after so many seconds of the processor's time, however busy the machine is; 0: no more.
static void limit(int seconds)
{
    setitimer(ITIMER_PROF, &(struct itimerval){.it_value.tv_sec = seconds}, NULL);
}

static void take(void *to, size_t bytes)
{
    if (fread(to, 1, bytes, stdin) != bytes)
        exit(2);
}

int main(void)
{
    static uint8_t given[INPUTS][ROOM];
    static struct request q;
    static struct result r;
    static void *slice[SLOTS];
    static size_t bytes[SLOTS];
    set_up();
    while (fread(&q, sizeof q, 1, stdin) == 1) {
        memset(&r, 0, sizeof r);
        for (int i = 0; i < SLOTS; i++) {
            bytes[i] = i < INPUTS ? q.input[i] : i == WORK ? 4 * (size_t)q.work : i == OUT ? q.out
                                               : answer_bytes(q.operation, i - ANSWER);
            slice[i] = lend(i, bytes[i], q.fill);
            if (i < INPUTS) {
                take(given[i], bytes[i]);
                memcpy(slice[i], given[i], bytes[i]);
            }
        }
        limit(SECONDS);
        int caught = sigsetjmp(escape, 0);
        r.number = caught == 0 ? call(&q, slice, slice[WORK], slice[OUT], slice + ANSWER) : (uint32_t)caught;
        limit(0);
        if (caught != 0)
            r.trouble |= SIGNALLED;
        for (int i = 0; i < SLOTS; i++) {
            if (i < INPUTS && memcmp(slice[i], given[i], bytes[i]) != 0)
                r.trouble |= INPUT_CHANGED;
            if (i >= ANSWER)
                memcpy(r.answer + i - ANSWER, slice[i], bytes[i]);
            for (int k = 1; k <= BEFORE; k++)
                if (((uint8_t *)slice[i])[-k] != q.fill)
                    r.trouble |= BEFORE_CHANGED;
        }
        r.out = q.out;
        fwrite(&r, sizeof r, 1, stdout);
        fwrite(slice[OUT], 1, q.out, stdout);
        if (caught == SIGPROF)          // a call that takes so long may not be the only one
            return 1;
    }
    return 0;
}
