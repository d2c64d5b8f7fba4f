/*
 * A stick, and each call of hiwalgam.h on it, for the programs that look at the stack and at the time of calls.
 */
#ifndef STICK_H
#define STICK_H

#include <stdint.h>
#include <stdio.h>
#include <stdlib.h>
#include "hiwalgam.h"

/*
 * A device, which a formatting with 15 keys makes, a permutation, which a shuffle makes, and what calls take besides. Volume v
 * has v + 1 logical slices, or P where that is fewer. The tape is zeros: no draw of a shuffle is thrown away.
 */
struct stick {
    hiwalgam_geometry geometry;
    uint8_t *device;
    uint32_t *maps;
    uint8_t *owners;
    uint32_t *permutation;
    uint8_t *tape;
    size_t device_length;
    size_t slices;
    size_t tape_length;
    size_t position;
    hiwalgam_session session;
    hiwalgam_written written;
    uint64_t freed; /* the slice that a release set */
    uint8_t keys[HIWALGAM_VOLUMES * HIWALGAM_KEY_BYTES];
    uint64_t counts[HIWALGAM_VOLUMES];
    uint8_t iv[HIWALGAM_IV_BYTES];
    uint8_t tag[HIWALGAM_GCM_TAG_BYTES];
    uint8_t text[HIWALGAM_TEXT_LIMIT];
    uint8_t buffer[HIWALGAM_TEXT_LIMIT];
    size_t text_length;     /* of counter_mode and keystream_at */
    uint64_t text_position; /* of keystream_at */
    size_t answer;          /* of the last call */
};

/* ---- Memory --------------------------------------------------------------------------------------------------- */

static inline void *zeros(size_t count, size_t size)
{
    void *memory = calloc(count, size);
    if (memory == NULL) {
        perror("memory");
        exit(2);
    }
    return memory;
}

static inline struct stick *make_stick(uint64_t block_bytes, uint64_t slice_blocks, uint64_t slices)
{
    struct stick *stick = (struct stick *)zeros(1, sizeof *stick);
    const size_t entries = (size_t)(block_bytes - 16) / 4;
    const size_t map_blocks = ((size_t)slices + entries - 1) / entries;

    stick->geometry.block_bytes = block_bytes;
    stick->geometry.slice_blocks = slice_blocks;
    stick->geometry.slices = slices;
    stick->slices = (size_t)slices;
    stick->device_length = (size_t)(block_bytes
        * (1 + HIWALGAM_VOLUMES * (1 + map_blocks) + slices * (slice_blocks + 1)));
    stick->tape_length = stick->device_length + HIWALGAM_VOLUMES * (88 + 16 * map_blocks) + (1 << 16);
    stick->device = (uint8_t *)zeros(stick->device_length, 1);
    stick->maps = (uint32_t *)zeros(HIWALGAM_VOLUMES * stick->slices, sizeof *stick->maps);
    stick->owners = (uint8_t *)zeros(stick->slices, 1);
    stick->permutation = (uint32_t *)zeros(stick->slices, sizeof *stick->permutation);
    stick->tape = (uint8_t *)zeros(stick->tape_length, 1);
    for (size_t i = 0; i < sizeof stick->keys; i++) stick->keys[i] = (uint8_t)(1 + i / HIWALGAM_KEY_BYTES);
    for (size_t v = 0; v < HIWALGAM_VOLUMES; v++) stick->counts[v] = v + 1 < slices ? v + 1 : slices;
    stick->text_length = HIWALGAM_TEXT_LIMIT;
    stick->text_position = HIWALGAM_POSITION_LIMIT - 1;
    return stick;
}

static inline void free_stick(struct stick *stick)
{
    free(stick->device);
    free(stick->maps);
    free(stick->owners);
    free(stick->permutation);
    free(stick->tape);
    free(stick);
}

/* ---- The calls ------------------------------------------------------------------------------------------------ */

static inline void call_format(struct stick *s)
{
    s->answer = hiwalgam_format(s->device, s->device_length, &s->geometry, sizeof s->geometry,
                                HIWALGAM_VOLUMES, s->keys, sizeof s->keys, s->counts, HIWALGAM_VOLUMES,
                                s->tape, s->tape_length, &s->position);
}

static inline void call_shuffle(struct stick *s)
{
    s->answer = hiwalgam_shuffle(&s->geometry, sizeof s->geometry, s->permutation, s->slices,
                                 s->tape, s->tape_length, &s->position);
}

/* Opens all volumes. */
static inline void call_open(struct stick *s)
{
    s->answer = hiwalgam_open(s->device, s->device_length, &s->geometry, sizeof s->geometry,
                              s->keys + sizeof s->keys - HIWALGAM_KEY_BYTES, HIWALGAM_KEY_BYTES,
                              s->maps, HIWALGAM_VOLUMES * s->slices, s->owners, s->slices,
                              s->permutation, s->slices, &s->session, sizeof s->session);
}

static inline void call_read(struct stick *s)
{
    s->answer = hiwalgam_read(s->device, s->device_length, s->maps, HIWALGAM_VOLUMES * s->slices,
                              s->owners, s->slices, &s->session, sizeof s->session, HIWALGAM_VOLUMES - 1, 0,
                              s->buffer, (size_t)s->geometry.block_bytes);
}

/* Answers as the other functions do: served where it finds the block. */
static inline void call_find(struct stick *s)
{
    size_t length = hiwalgam_find(s->device, s->device_length, s->maps, HIWALGAM_VOLUMES * s->slices,
                                  s->owners, s->slices, &s->session, sizeof s->session,
                                  HIWALGAM_VOLUMES - 1, 0, s->buffer, sizeof s->buffer);
    s->answer = length == s->geometry.block_bytes ? HIWALGAM_SERVED : HIWALGAM_WRONG_LENGTH;
}

static inline void call_write(struct stick *s)
{
    s->answer = hiwalgam_write(s->device, s->device_length, s->maps, HIWALGAM_VOLUMES * s->slices,
                               s->owners, s->slices, s->permutation, s->slices,
                               s->tape, s->tape_length, &s->position, &s->session, sizeof s->session,
                               HIWALGAM_VOLUMES - 1, 0, s->text, (size_t)s->geometry.block_bytes,
                               &s->written, sizeof s->written);
}

/* Releases the logical slice of the block that call_write writes. */
static inline void call_release(struct stick *s)
{
    s->answer = hiwalgam_release(s->device, s->device_length, s->maps, HIWALGAM_VOLUMES * s->slices,
                                 s->owners, s->slices, s->permutation, s->slices,
                                 s->tape, s->tape_length, &s->position, &s->session, sizeof s->session,
                                 HIWALGAM_VOLUMES - 1, 0, &s->freed);
}

static inline void call_close(struct stick *s)
{
    s->answer = hiwalgam_close(s->device, s->device_length, s->maps, HIWALGAM_VOLUMES * s->slices,
                               s->owners, s->slices, &s->session, sizeof s->session);
}

static inline void call_counter_mode(struct stick *s)
{
    s->answer = hiwalgam_counter_mode(s->keys, HIWALGAM_KEY_BYTES, s->iv, sizeof s->iv, s->text, s->text_length,
                                      s->buffer, s->text_length);
}

static inline void call_keystream_at(struct stick *s)
{
    s->answer = hiwalgam_keystream_at(s->keys, HIWALGAM_KEY_BYTES, s->iv, sizeof s->iv, s->text_position,
                                      s->text, s->text_length, s->buffer, s->text_length);
}

static inline void call_gcm_seal(struct stick *s)
{
    s->answer = hiwalgam_gcm_seal(s->keys, HIWALGAM_KEY_BYTES, s->iv, HIWALGAM_GCM_IV_BYTES,
                                  s->iv, HIWALGAM_GCM_AAD_LIMIT, s->text, HIWALGAM_GCM_TEXT_LIMIT,
                                  s->buffer, HIWALGAM_GCM_TEXT_LIMIT, s->tag, sizeof s->tag);
}

/* Opens what call_gcm_seal sealed, into the text, which has the same bytes afterwards. */
static inline void call_gcm_open(struct stick *s)
{
    s->answer = hiwalgam_gcm_open(s->keys, HIWALGAM_KEY_BYTES, s->iv, HIWALGAM_GCM_IV_BYTES,
                                  s->iv, HIWALGAM_GCM_AAD_LIMIT, s->buffer, HIWALGAM_GCM_TEXT_LIMIT,
                                  s->tag, sizeof s->tag, s->text, HIWALGAM_GCM_TEXT_LIMIT);
}

#endif
