/*
 * A stick image that nbdkit serves: its file, lock and mapping, and one session of hiwalgam.h with what its calls take.
 * Every byte of a stick but its salt is read and written by the engine; what is here lends it memory, keys and random
 * bytes.
 *
 * A function that returns int returns 0, or -1 where it failed. It has then told nbdkit what failed, and by which errno
 * a client's request is to be answered.
 */
#ifndef STICK_H
#define STICK_H

#include <stdbool.h>
#include <stddef.h>
#include <stdint.h>
#include "hiwalgam.h"

/* The most slices of a device, and the bytes of a session's tape. */
enum { STICK_SLICES = 4096, STICK_TAPE_BYTES = 65536 };

/* A key file is read one byte further than a key goes: so the engine sees that a file is longer, and refuses it. */
struct stick_key {
    uint8_t bytes[HIWALGAM_KEY_BYTES + 1];
    size_t length;
};

/* Where no image is mapped it is all zeros, but for fd, which is -1. */
struct stick {
    const char *image; /* its name, for messages */
    int fd;            /* holds the lock for as long as it is open */
    bool writable;
    uint8_t *device; /* the mapping; NULL where the image is empty */
    size_t length;   /* of the image, in bytes */

    hiwalgam_geometry geometry;
    uint32_t *maps;        /* 15 x P */
    uint8_t *owners;       /* P */
    uint32_t *permutation; /* P */
    hiwalgam_session session;

    size_t position; /* the next unused byte of the tape */
    uint8_t tape[STICK_TAPE_BYTES];
};

/* Opens, locks and maps an image; its geometry follows from B, S and its length. */
int stick_map(struct stick *stick, const char *image, uint64_t block_bytes, uint64_t slice_blocks);

/* Sets a key to the bytes of a file, or to what Argon2id makes of a passphrase and the salt of a mapped image. */
int stick_key_file(struct stick_key *key, const char *file);
int stick_key_passphrase(struct stick_key *key, const struct stick *stick, const char *passphrase);

/* Opens the session on a mapped image, with a permutation of its own. */
int stick_open(struct stick *stick, const struct stick_key *key);

/* Ends what stick_map and stick_open began, however far they came: syncs, closes, wipes, unmaps and unlocks. */
void stick_close(struct stick *stick);

/* Whether a logical slice of an open volume has a slice. */
bool stick_mapped(const struct stick *stick, uint64_t volume, uint64_t logical_slice);

/* Reads or writes a block of an open volume, B bytes. */
int stick_read(const struct stick *stick, uint64_t volume, uint64_t address, uint8_t *block);
int stick_write(struct stick *stick, uint64_t volume, uint64_t address, const uint8_t *block);

/* Releases a logical slice of an open volume that is mapped. */
int stick_release(struct stick *stick, uint64_t volume, uint64_t logical_slice);

/* Returns when all that was written is on the medium. */
int stick_sync(const struct stick *stick);

#endif
