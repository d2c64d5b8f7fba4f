/*
 * Measures the stack that each function of hiwalgam.h takes, on devices of several geometries.
 *
 * A call is made on a stack of its own, which is painted before: what has lost its paint was used. Prints the most
 * bytes that any call of a function used, its arguments and return address included, and last `N passed, M failed`:
 * a function that takes more than the 32 KiB of the header fails. Compiles as C11 and as C++11, needs Linux.
 */
#ifndef _DEFAULT_SOURCE
#define _DEFAULT_SOURCE /* ucontext.h */
#endif
#include <stdint.h>
#include <stdio.h>
#include <stdlib.h>
#include <string.h>
#include <ucontext.h>
#include "stick.h"

enum { PAINTED = 1 << 20, ALLOWED = 32 * 1024 };

static void call_nothing(struct stick *s)
{
    s->answer = HIWALGAM_SERVED;
}

/* ---- Painted stacks ------------------------------------------------------------------------------------------- */

/* What is called on the painted stack: makecontext hands no pointers. */
static void (*painted_call)(struct stick *stick);
static struct stick *painted_stick;

static void call_on_painted_stack(void)
{
    painted_call(painted_stick);
}

static uint8_t paint_at(size_t i)
{
    return (uint8_t)(i * 2654435761u >> 13);
}

/* The bytes of the painted stack that a call uses, with those of the functions that begin it. */
static size_t depth_of(void (*function)(struct stick *stick), struct stick *stick)
{
    static uint8_t painted[PAINTED];
    ucontext_t here, there;
    size_t untouched = 0;

    for (size_t i = 0; i < PAINTED; i++) painted[i] = paint_at(i);
    painted_call = function;
    painted_stick = stick;
    if (getcontext(&there) != 0) exit(2);
    there.uc_stack.ss_sp = painted;
    there.uc_stack.ss_size = PAINTED;
    there.uc_link = &here;
    makecontext(&there, call_on_painted_stack, 0);
    if (swapcontext(&here, &there) != 0) exit(2);
    while (untouched < PAINTED && painted[untouched] == paint_at(untouched)) untouched++;
    return PAINTED - untouched;
}

/* ---- All of it ------------------------------------------------------------------------------------------------ */

struct measured {
    const char *name;
    void (*function)(struct stick *stick);
    size_t most;
    int refused;
};

/* In this order each call is served: the first write claims a slice, the second rewrites a block. */
static struct measured calls[] = {
    { "format", call_format, 0, 0 }, { "shuffle", call_shuffle, 0, 0 }, { "open", call_open, 0, 0 },
    { "write, a claim", call_write, 0, 0 }, { "write, a rewrite", call_write, 0, 0 },
    { "read", call_read, 0, 0 }, { "find", call_find, 0, 0 }, { "release", call_release, 0, 0 },
    { "close", call_close, 0, 0 },
    { "counter_mode", call_counter_mode, 0, 0 }, { "keystream_at", call_keystream_at, 0, 0 },
    { "gcm_seal", call_gcm_seal, 0, 0 }, { "gcm_open", call_gcm_open, 0, 0 }
};

enum { CALLS = sizeof calls / sizeof *calls };

static void measure(uint64_t block_bytes, uint64_t slice_blocks, uint64_t slices)
{
    struct stick *stick = make_stick(block_bytes, slice_blocks, slices);
    size_t nothing = depth_of(call_nothing, stick);

    for (int i = 0; i < CALLS; i++) {
        size_t used = depth_of(calls[i].function, stick) - nothing;
        if (used > calls[i].most) calls[i].most = used;
        if (stick->answer != HIWALGAM_SERVED) calls[i].refused = 1;
    }
    free_stick(stick);
}

int main(void)
{
    int failed = 0;

    measure(1024, 4, 4);
    for (int i = 0; i < CALLS; i++) calls[i].most = 0; /* the first calls also bind memcpy and memset */
    measure(1024, 4, 4);
    measure(1024, 64, 257);
    measure(4096, 256, 4);
    measure(4096, 1, 4096);
    for (int i = 0; i < CALLS; i++) {
        int too_deep = calls[i].most > ALLOWED;
        printf("%-18s%6lu bytes%s%s\n", calls[i].name, (unsigned long)calls[i].most,
               too_deep ? ", more than allowed" : "", calls[i].refused ? ", and was refused" : "");
        failed += too_deep || calls[i].refused;
    }
    printf("%d passed, %d failed\n", CALLS - failed, failed);
    return failed != 0;
}
