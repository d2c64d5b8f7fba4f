/*
 * Looks whether the time of a call can tell a key or a text: whether a jump or an address depends on them.
 *
 *     valgrind -q --error-limit=no constant_time
 *
 * Keys and texts are hidden: marked as undefined for valgrind's memcheck, which follows each bit of them through a call
 * and reports every conditional jump and every address that is made from them. The tape of a formatting is hidden, since
 * keys are taken from it; at a shuffle after it all of that tape but the bytes of the shuffle's own draws, which make the
 * permutation and no key. Lengths, IVs, positions, tables, the device before a call and other tapes are not hidden.
 *
 * A call that works on bit planes, or enciphers nothing, has to pass without a report. As many bytes of device and
 * buffer as it made of texts have to depend on what is hidden, and nothing else that it sets. A call that looks into the
 * table of the S-box has to be reported: so this test can fail. How long one instruction takes is not seen.
 *
 * Prints a line for each call and last `N passed, M failed`. Compiles as C11, and needs the headers of valgrind.
 */
#include <stdint.h>
#include <stdio.h>
#include <string.h>
#include <valgrind/memcheck.h>
#include "stick.h"

/* PLANES_FROM of crates/ctr: from so many bytes on counter mode works on bit planes; shorter texts go by the table. */
enum { PLANES_FROM = 192 };

static int passed, failed;

/* ---- What is hidden ------------------------------------------------------------------------------------------- */

/* Hides all keys and texts; `tape` too, the tape of a formatting, which has the keys of the volumes. */
static void hide(struct stick *s, int tape)
{
    VALGRIND_MAKE_MEM_UNDEFINED(s->keys, sizeof s->keys);
    VALGRIND_MAKE_MEM_UNDEFINED(s->text, sizeof s->text);
    VALGRIND_MAKE_MEM_UNDEFINED(s->session.keys, sizeof s->session.keys);
    if (tape) VALGRIND_MAKE_MEM_UNDEFINED(s->tape, s->tape_length);
}

/* Hides the tape that a shuffle is lent, but for its draws. */
static void hide_all_but_draws(struct stick *s)
{
    VALGRIND_MAKE_MEM_UNDEFINED(s->tape, s->tape_length);
    VALGRIND_MAKE_MEM_DEFINED(s->tape + s->position, 2 * (s->slices - 1));
}

/* Ends the hiding of all that a call could read or set. */
static void show(struct stick *s)
{
    VALGRIND_MAKE_MEM_DEFINED(s->device, s->device_length);
    VALGRIND_MAKE_MEM_DEFINED(s->maps, HIWALGAM_VOLUMES * s->slices * sizeof *s->maps);
    VALGRIND_MAKE_MEM_DEFINED(s->owners, s->slices);
    VALGRIND_MAKE_MEM_DEFINED(s->permutation, s->slices * sizeof *s->permutation);
    VALGRIND_MAKE_MEM_DEFINED(s->tape, s->tape_length);
    VALGRIND_MAKE_MEM_DEFINED(s, sizeof *s);
}

/* The bytes of a list that depend on what is hidden. */
static size_t depending(const void *list, size_t length)
{
    const uint8_t *at = (const uint8_t *)list;
    size_t count = 0;

    for (size_t i = 0; i < length; i++) {
        uint8_t bits = 0xff;
        if (VALGRIND_GET_VBITS(at + i, &bits, 1) != 1) exit(2);
        count += bits != 0;
    }
    return count;
}

/* Those of what a call makes of a text: on the device and in the buffer. */
static size_t depending_texts(const struct stick *s)
{
    return depending(s->device, s->device_length) + depending(s->buffer, sizeof s->buffer);
}

/* Those of what else a call sets, which no key and no text should reach. */
static size_t depending_others(const struct stick *s)
{
    return depending(s->maps, HIWALGAM_VOLUMES * s->slices * sizeof *s->maps) + depending(s->owners, s->slices)
        + depending(s->permutation, s->slices * sizeof *s->permutation)
        + depending(&s->session, offsetof(hiwalgam_session, keys))
        + depending(s->session.counts, sizeof s->session.counts) + depending(&s->written, sizeof s->written)
        + depending(&s->freed, sizeof s->freed) + depending(&s->position, sizeof s->position)
        + depending(&s->answer, sizeof s->answer);
}

/* ---- One call ------------------------------------------------------------------------------------------------- */

typedef void called(struct stick *stick);

static void say(const char *name, const struct stick *s, int good, size_t reports, const char *wanted)
{
    printf("%-48s%8lu reports%s%s%s\n", name, (unsigned long)reports, good ? "" : ", but ", good ? "" : wanted,
           s->answer == HIWALGAM_SERVED ? "" : ", and was refused");
    fflush(stdout);
    if (good && s->answer == HIWALGAM_SERVED) passed++;
    else failed++;
}

/* A call that has to pass without a report, and leaves `texts` bytes of texts that depend on what is hidden. */
static void on_planes(const char *name, called *call, struct stick *s, size_t texts)
{
    size_t reports = VALGRIND_COUNT_ERRORS;
    size_t left, others;

    hide(s, 0);
    call(s);
    reports = VALGRIND_COUNT_ERRORS - reports;
    left = depending_texts(s);
    others = depending_others(s);
    show(s);
    if (left != texts) say(name, s, 0, reports, "other bytes than those of its texts depend on what is hidden");
    else if (others != 0) say(name, s, 0, reports, "more than texts depends on what is hidden");
    else say(name, s, reports == 0, reports, "none is allowed");
}

/* A call that has to be reported. */
static void by_table(const char *name, called *call, struct stick *s, int tape)
{
    size_t reports = VALGRIND_COUNT_ERRORS;

    hide(s, tape);
    call(s);
    reports = VALGRIND_COUNT_ERRORS - reports;
    show(s);
    say(name, s, reports != 0, reports, "there have to be some");
}

/* ---- All of it ------------------------------------------------------------------------------------------------ */

/* Counter mode of a text, and of one that begins at byte `position` of a longer one. */
static void try_length(struct stick *s, size_t length)
{
    char name[80];

    s->text_length = length;
    snprintf(name, sizeof name, "counter_mode, %lu bytes", (unsigned long)length);
    if (length < PLANES_FROM) by_table(name, call_counter_mode, s, 0);
    else on_planes(name, call_counter_mode, s, length);
    memset(s->buffer, 0, sizeof s->buffer);
}

static void try_position(struct stick *s, uint64_t position, size_t length)
{
    char name[80];

    s->text_position = position;
    s->text_length = length;
    snprintf(name, sizeof name, "keystream_at, %lu bytes from %llu", (unsigned long)length,
             (unsigned long long)position);
    if (length < PLANES_FROM) by_table(name, call_keystream_at, s, 0);
    else on_planes(name, call_keystream_at, s, length);
    memset(s->buffer, 0, sizeof s->buffer);
}

static void try_ciphers(void)
{
    /* 1,008 and 4,080 bytes are those of map blocks. */
    const size_t lengths[] = { 1, 16, PLANES_FROM - 1, PLANES_FROM, 255, 256, 257, 600, 1008, 1024, 4080, 4095, 4096 };
    const uint64_t positions[] = { 1, 15, 16, 17, 31, HIWALGAM_POSITION_LIMIT };
    struct stick *s = make_stick(1024, 1, 1);

    for (size_t i = 0; i < sizeof lengths / sizeof *lengths; i++) try_length(s, lengths[i]);
    for (size_t i = 0; i < sizeof positions / sizeof *positions; i++) {
        try_position(s, positions[i], 16);
        try_position(s, positions[i], PLANES_FROM);
        try_position(s, positions[i], 600);
        try_position(s, positions[i], 4096);
    }
    by_table("gcm_seal", call_gcm_seal, s, 0);
    by_table("gcm_open", call_gcm_open, s, 0);
    free_stick(s);
}

/* The calls of a session on a formatted stick; a formatting and an opening seal and open cells and headers. */
static void try_session(uint64_t block_bytes, uint64_t slice_blocks, uint64_t slices)
{
    struct stick *s = make_stick(block_bytes, slice_blocks, slices);
    const size_t block = (size_t)block_bytes;
    const size_t map_block = block - HIWALGAM_IV_BYTES; /* the bytes of a map block that are enciphered */

    printf("B %lu, S %lu, P %lu:\n", (unsigned long)block_bytes, (unsigned long)slice_blocks, (unsigned long)slices);
    by_table("format", call_format, s, 1);
    hide_all_but_draws(s);
    on_planes("shuffle", call_shuffle, s, 0);
    by_table("open", call_open, s, 0);
    on_planes("write, a claim", call_write, s, block * (size_t)slice_blocks + map_block);
    on_planes("write, a rewrite", call_write, s, block);
    on_planes("read", call_read, s, block);
    on_planes("find", call_find, s, 0);
    on_planes("release", call_release, s, map_block);
    on_planes("close", call_close, s, 0);
    free_stick(s);
}

int main(void)
{
    if (!RUNNING_ON_VALGRIND) {
        printf("not run by valgrind\n0 passed, 1 failed\n");
        return 1;
    }
    try_ciphers();
    try_session(1024, 4, 257); /* two map blocks for each volume */
    try_session(4096, 2, 4);
    printf("%d passed, %d failed\n", passed, failed);
    return failed != 0;
}
