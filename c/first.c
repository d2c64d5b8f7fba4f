/*
 * A first program: makes a device with two volumes of different lengths, opens both and writes the last block of the
 * upper one. That session is dropped without a close. A second one, with a permutation of its own, reads the block back
 * and gives its slice back; the device, opened once more, has zeros there.
 */
#include <stdio.h>
#include <string.h>
#include "hiwalgam.h"

enum {
    B = 1024, S = 4, P = 4, /* bytes in a block, data blocks in a slice, slices */
    M = 1,                  /* map blocks of a volume: P / 252, rounded up */
    DEVICE = B * (1 + HIWALGAM_VOLUMES * (1 + M) + P * (S + 1)),
    MAPS = HIWALGAM_VOLUMES * P,
    KEYS = 2,                        /* one for each volume that is made */
    VOLUME = KEYS - 1, ADDRESS = 11, /* the block that is written */
    /* A formatting, a write that claims a slice, a release. */
    TAKEN = DEVICE + KEYS * (88 + 16 * M) + (B + 16) + 16,
    /* Two shuffles, with room for draws that are thrown away. */
    TAPE = TAKEN + 2 * (2 * P + 512)
};

static int refused(const char *call, uint8_t answer) {
    printf("%s: %d\n", call, answer);
    return answer != HIWALGAM_SERVED;
}

int main(void) {
    static uint8_t device[DEVICE], tape[TAPE], owners[P], keys[KEYS * HIWALGAM_KEY_BYTES], block[B], text[B];
    static uint32_t maps[MAPS];
    uint32_t permutation[P];
    const hiwalgam_geometry geometry = { B, S, P };
    const uint64_t counts[KEYS] = { P, 3 }; /* logical slices: volume 0 has P x S blocks, VOLUME 3 x S */
    const uint8_t *key = keys + VOLUME * HIWALGAM_KEY_BYTES; /* opens VOLUME and all below it */
    hiwalgam_session session;
    hiwalgam_written written;
    uint64_t slice;
    size_t position = 0; /* of the tape: a call that takes random bytes moves it on */
    size_t start, drawn; /* where a shuffle begins, and the bytes that the shuffles took */
    FILE *entropy = fopen("/dev/urandom", "rb");

    if (!entropy || fread(tape, 1, TAPE, entropy) != TAPE) return 2;
    if (fread(keys, 1, sizeof keys, entropy) != sizeof keys) return 2; /* in earnest they are made from passwords */
    fclose(entropy);
    memset(text, 'a', B);

    if (refused("format", hiwalgam_format(device, DEVICE, &geometry, sizeof geometry, KEYS, keys, sizeof keys,
            counts, KEYS, tape, TAPE, &position))) return 1;
    start = position;
    if (refused("shuffle", hiwalgam_shuffle(&geometry, sizeof geometry, permutation, P,
            tape, TAPE, &position))) return 1;
    drawn = position - start;
    if (refused("open", hiwalgam_open(device, DEVICE, &geometry, sizeof geometry, key, HIWALGAM_KEY_BYTES, maps, MAPS,
            owners, P, permutation, P, &session, sizeof session))) return 1;
    if (refused("write", hiwalgam_write(device, DEVICE, maps, MAPS, owners, P, permutation, P, tape, TAPE, &position,
            &session, sizeof session, VOLUME, ADDRESS, text, B, &written, sizeof written))) return 1;
    if (written.slice != permutation[0]) return 1;

    /* Here the device is stored on a stick, which is pulled out, and comes back another day: nothing is lost. */
    start = position;
    if (refused("shuffle", hiwalgam_shuffle(&geometry, sizeof geometry, permutation, P,
            tape, TAPE, &position))) return 1;
    drawn += position - start;
    if (refused("open", hiwalgam_open(device, DEVICE, &geometry, sizeof geometry, key, HIWALGAM_KEY_BYTES, maps, MAPS,
            owners, P, permutation, P, &session, sizeof session))) return 1;
    if (refused("read", hiwalgam_read(device, DEVICE, maps, MAPS, owners, P, &session, sizeof session,
            VOLUME, ADDRESS, block, B))) return 1;
    if (memcmp(block, text, B) != 0 || session.volume != VOLUME
        || session.start_place != (permutation[0] == written.slice)
        || ADDRESS + 1 != session.counts[VOLUME] * S) return 1;

    if (refused("release", hiwalgam_release(device, DEVICE, maps, MAPS, owners, P, permutation, P, tape, TAPE,
            &position, &session, sizeof session, VOLUME, ADDRESS / S, &slice))) return 1;
    if (refused("open", hiwalgam_open(device, DEVICE, &geometry, sizeof geometry, key, HIWALGAM_KEY_BYTES, maps, MAPS,
            owners, P, permutation, P, &session, sizeof session))) return 1;
    if (refused("read", hiwalgam_read(device, DEVICE, maps, MAPS, owners, P, &session, sizeof session,
            VOLUME, ADDRESS, block, B))) return 1;
    if (refused("close", hiwalgam_close(device, DEVICE, maps, MAPS, owners, P, &session, sizeof session))) return 1;
    memset(text, 0, B);
    return memcmp(block, text, B) != 0 || slice != written.slice || session.start_place != 0
        || session.open == 1 || memcmp(session.keys, text, sizeof session.keys) != 0
        || drawn < 2 * 2 * (P - 1) || drawn % 2 != 0 || position != TAKEN + drawn;
}
