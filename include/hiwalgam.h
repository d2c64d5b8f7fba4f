/*
 * Hiwalgam: the proved engine of an encrypted memory stick with up to 15 nested volumes.
 *
 * A device is the image of a stick, held in memory. A key opens a volume and all volumes below it; what
 * lies above is noise. docs/FORMAT.md describes the device, the calls and their refusals. hiwalgam_format
 * makes a device, hiwalgam_shuffle the permutation for a session. No function here reads a device from a stick or
 * stores it there: that is the caller's.
 *
 * Every function takes any arguments and returns HIWALGAM_SERVED or the first refusal that applies, in the
 * order in which its comment lists them. A refused call changes nothing that it was lent, but for the tables
 * and the session of an opening, the answer of a write, and the session's start place at a write's 22, as said
 * there. No function keeps anything between two calls.
 *
 * Between two calls the device alone has every volume as it is: opened with the same key, it gives the same
 * volumes and the same blocks, whether the session before was closed or dropped. But a call changes memory alone,
 * and the caller has to store what it wrote: a claim its slice, S + 1 blocks, and one map block; a rewrite the 16
 * bytes of an IV, and the block; a release one map block; a formatting the whole device. No other call writes a byte
 * of it. A device whose storing was cut inside what one call wrote is not covered.
 *
 * What the caller has to keep to, everywhere:
 *
 * - Each pointer but those to the tape position and to the slice freed is followed by a length: of a list the
 *   number of its elements (not of its bytes), of a struct its sizeof. The pointer is valid for that length, and
 *   what is not const may be written. What a call sets needs no value before it.
 * - Lists of uint32_t and uint64_t, the tape position and the slice freed are aligned as the ABI says. Of bytes and
 *   structs no alignment is asked.
 * - NULL may be passed with length 0, which is then judged as any other length. The pointers to the tape position
 *   and to the slice freed are never NULL.
 * - The buffers of one call do not overlap, but for those that are const.
 * - One session at a time: from an opening to the last call of its session nothing but these calls alters
 *   device, tables, tape position and session, and each write and release is handed the permutation of the
 *   opening. Tape bytes are random, and none is used twice.
 * - The platform is x86-64 Linux: 64-bit size_t, numbers with the least significant byte first. A call takes
 *   up to 32 KiB of stack.
 *
 * Link with libhiwalgam.a, which needs nothing but memcpy and memset of the C library.
 */
#ifndef HIWALGAM_H
#define HIWALGAM_H

#include <stddef.h>
#include <stdint.h>

#ifdef __cplusplus
extern "C" {
#endif

/* What a call answers. */
enum hiwalgam_answer {
    HIWALGAM_SERVED = 0,
    HIWALGAM_BAD_GEOMETRY = 1,    /* B, S or P is not allowed; at formatting also a count, or their number */
    HIWALGAM_DEVICE_LENGTH = 2,   /* the device is not as long as its geometry says */
    HIWALGAM_KEY_LENGTH = 3,      /* the key is not 32 bytes, or the keys not 32 bytes each */
    HIWALGAM_TABLE_LENGTH = 4,    /* the map table is not 15 x P long, or the owner table or a shuffled list not P */
    HIWALGAM_BAD_PERMUTATION = 5, /* the permutation does not name each slice once */
    HIWALGAM_NO_CELL = 6,         /* the key opens no key cell */
    HIWALGAM_HEADER_TAG = 7,      /* the tag of a header that is needed is wrong */
    HIWALGAM_HEADER_GEOMETRY = 8, /* a header's N is not 1 to P, or its S is not the geometry's */
    HIWALGAM_BAD_ENTRY = 9,       /* a map entry that is no slice, or is at or past N, is not HIWALGAM_UNMAPPED */
    HIWALGAM_SLICE_TWICE = 10,    /* a slice is mapped twice */
    HIWALGAM_VOLUME_ABOVE = 11,   /* the volume is above the opened one */
    HIWALGAM_ADDRESS_ABOVE = 12,  /* the block is at or above N x S, or the logical slice to release at or above N */
    HIWALGAM_WRONG_LENGTH = 13,   /* a buffer, text, IV, tag, associated data or struct has a wrong length */
    HIWALGAM_MALFORMED_LINE = 14, /* of the program slicewalk; no function answers it */
    HIWALGAM_TAG_DIFFERS = 15,    /* the tag is wrong */
    HIWALGAM_NOT_OPEN = 20,       /* the session is closed, or holds numbers that are not allowed */
    HIWALGAM_TAPE_SHORT = 21,     /* the tape ends before the position, or before the last byte that the call takes */
    HIWALGAM_NO_FREE_SLICE = 22,  /* no slice from the start place on is free for a claim */
    HIWALGAM_KEY_COUNT = 23,      /* no key, or more than 15 */
    HIWALGAM_LOWER_CELL = 24,     /* a key opens the cell of a lower volume */
    HIWALGAM_SLICE_UNMAPPED = 25  /* the logical slice to release has no slice */
};

/* Volumes of a stick, numbered from 0, and the bytes of a key, an IV and a tag. */
#define HIWALGAM_VOLUMES 15
#define HIWALGAM_KEY_BYTES 32
#define HIWALGAM_IV_BYTES 16
#define HIWALGAM_GCM_IV_BYTES 12
#define HIWALGAM_GCM_TAG_BYTES 16

/* The map entry of a logical slice that has no slice. */
#define HIWALGAM_UNMAPPED 0xffffffffu

/* The longest text of counter mode and of GCM, the longest associated data, and the last byte to begin at. */
#define HIWALGAM_TEXT_LIMIT 4096
#define HIWALGAM_GCM_TEXT_LIMIT 256
#define HIWALGAM_GCM_AAD_LIMIT 16
#define HIWALGAM_POSITION_LIMIT 1099511627776u

/*
 * How a device is divided: P slices, which volumes take and give back, of S data blocks of B bytes.
 *
 * Each volume has m map blocks: P / 252 for B 1024 and P / 1020 for B 4096, rounded up; the entry of logical slice
 * l stands in map block l / 252 or l / 1020, rounded down. The device has B x (1 + 15 x (1 + m) + P x (S + 1)) bytes.
 * A volume has N x S blocks, addressed from 0: N, 1 to P, is its own count of logical slices, which hiwalgam_format
 * sets and its header keeps.
 */
typedef struct hiwalgam_geometry {
    uint64_t block_bytes;  /* B: 1024 or 4096 */
    uint64_t slice_blocks; /* S: 1 to B / 16 */
    uint64_t slices;       /* P: 1 to 4096 */
} hiwalgam_geometry;

/*
 * A session. hiwalgam_open makes it, hiwalgam_close ends it, and the caller hands it from call to call as
 * it is. It holds the keys of the open volumes, and how long each is: counts[v] x S blocks for volume v.
 * A caller that raises a count can make a device that is refused by 9 at its next opening.
 *
 * A read, a write, a release and a close refuse by 20 a session that is closed, or whose geometry is not allowed,
 * whose volume is above 14, whose start place is above P, or of whose counts 0 to k one is not 1 to P. Counts and
 * keys above k are not looked at.
 */
typedef struct hiwalgam_session {
    hiwalgam_geometry geometry;
    uint64_t volume;      /* the opened volume k: it and all below it are open */
    uint64_t open;        /* 1 for open, anything else for closed */
    uint64_t start_place; /* the place of the permutation where a claim begins to look, 0 to P */
    uint8_t keys[HIWALGAM_VOLUMES * HIWALGAM_KEY_BYTES];
    uint64_t counts[HIWALGAM_VOLUMES]; /* N, the logical slices of volumes 0 to k, 0 above */
} hiwalgam_session;

/* What a write did. */
typedef struct hiwalgam_written {
    uint64_t claimed; /* 1 where it claimed a slice, 0 where it rewrote a block or was refused */
    uint64_t slice;   /* the slice that it claimed or rewrote; 0 where it was refused */
    uint64_t probes;  /* the places of the permutation that it looked at, from the start place on */
} hiwalgam_written;

/* The bytes of the structs, the same in every translation unit. */
#define HIWALGAM_GEOMETRY_BYTES 24
#define HIWALGAM_SESSION_BYTES 648
#define HIWALGAM_WRITTEN_BYTES 24

#if defined(__cplusplus) && __cplusplus >= 201103L
static_assert(sizeof(hiwalgam_geometry) == HIWALGAM_GEOMETRY_BYTES, "hiwalgam_geometry");
static_assert(sizeof(hiwalgam_session) == HIWALGAM_SESSION_BYTES, "hiwalgam_session");
static_assert(sizeof(hiwalgam_written) == HIWALGAM_WRITTEN_BYTES, "hiwalgam_written");
static_assert(sizeof(size_t) == 8, "a platform of 64 bits");
#elif defined(__STDC_VERSION__) && __STDC_VERSION__ >= 201112L
_Static_assert(sizeof(hiwalgam_geometry) == HIWALGAM_GEOMETRY_BYTES, "hiwalgam_geometry");
_Static_assert(sizeof(hiwalgam_session) == HIWALGAM_SESSION_BYTES, "hiwalgam_session");
_Static_assert(sizeof(hiwalgam_written) == HIWALGAM_WRITTEN_BYTES, "hiwalgam_written");
_Static_assert(sizeof(size_t) == 8, "a platform of 64 bits");
#endif

/*
 * For compilers that can warn: an answer is to be looked at; the list at argument p, whose length is argument
 * n, is read (IN), set (OUT) or both.
 */
#if defined(__GNUC__)
#define HIWALGAM_ANSWERS __attribute__((warn_unused_result))
#define HIWALGAM_NOT_NULL(p) __attribute__((nonnull(p)))
#else
#define HIWALGAM_ANSWERS
#define HIWALGAM_NOT_NULL(p)
#endif
#if defined(__GNUC__) && __GNUC__ >= 10 && !defined(__clang__)
#define HIWALGAM_IN(p, n) __attribute__((access(read_only, p, n)))
#define HIWALGAM_OUT(p, n) __attribute__((access(write_only, p, n)))
#define HIWALGAM_INOUT(p, n) __attribute__((access(read_write, p, n)))
#else
#define HIWALGAM_IN(p, n)
#define HIWALGAM_OUT(p, n)
#define HIWALGAM_INOUT(p, n)
#endif

/*
 * Formats a device, whatever it held, with 1 to 15 volumes. keys has a key for each, 32 bytes, end to end;
 * counts has for each its N, the number of its logical slices, 1 to P. Volume i then has counts[i] x S blocks.
 * Key i opens the volumes 0 to i, and every block of them is zeros.
 *
 * A count sets no slice aside: the volumes take the P slices of the device as blocks are written, whatever
 * their counts add up to. A volume keeps its count until the device is formatted again.
 *
 * Fills the whole device from the tape, then draws a master key and a data key for each volume, and the IVs of
 * what it seals: device_length + volumes x (88 + 16 x m) bytes of the tape in all. *position is the next unused
 * byte of the tape, and is moved on. The tape then holds the keys of the volumes: it is to be wiped.
 *
 * Refused by 13 (geometry of another size), 1 (also for a count that is not 1 to P, or where counts_length is
 * not volumes), 2, 23, 3, 21, 24. The 24 comes where a key is given twice; with keys that differ and a random
 * tape it is as unlikely as a forged tag.
 */
uint8_t hiwalgam_format(uint8_t *device, size_t device_length,
                        const hiwalgam_geometry *geometry, size_t geometry_size,
                        size_t volumes, const uint8_t *keys, size_t keys_length,
                        const uint64_t *counts, size_t counts_length,
                        const uint8_t *tape, size_t tape_length, size_t *position)
    HIWALGAM_ANSWERS HIWALGAM_OUT(1, 2) HIWALGAM_IN(6, 7) HIWALGAM_IN(8, 9) HIWALGAM_IN(10, 11)
    HIWALGAM_NOT_NULL(12);

/*
 * Makes a permutation for a session from the tape: each of the slices 0 to P - 1 once, in an order that is drawn
 * evenly from all orders where the tape is random. permutation has P entries, whatever they hold before.
 *
 * Begins with 0 to P - 1, and exchanges each place, from the last down to place 1, with one drawn from the places 0
 * to itself. A draw is two bytes of the tape, most significant first. For n places to choose from, a draw at or
 * above the largest multiple of n that is not above 65,536 is thrown away; any other draw modulo n is the place.
 * *position is the next unused byte of the tape, and is moved on past the last draw.
 *
 * Takes 2 x (P - 1) bytes of the tape, and two more for each draw that is thrown away. Where 2 x P + 512 random
 * bytes are left, a 21 has a chance below 2^-128 at every P. The time that a call takes depends on its draws.
 *
 * Refused by 13 (geometry of another size), 1, 4 (permutation_length is not P), 21. Refused, it leaves permutation
 * and *position: after a 21 it can be called again with more tape.
 */
uint8_t hiwalgam_shuffle(const hiwalgam_geometry *geometry, size_t geometry_size,
                         uint32_t *permutation, size_t permutation_length,
                         const uint8_t *tape, size_t tape_length, size_t *position)
    HIWALGAM_ANSWERS HIWALGAM_OUT(3, 4) HIWALGAM_IN(5, 6) HIWALGAM_NOT_NULL(7);

/*
 * Opens a device with a key: the lowest volume whose key cell the key opens, and all below it.
 *
 * Sets maps, which has 15 x P entries, and owners, which has P. Entry l of volume v stands at maps[v * P + l]:
 * the slice, or HIWALGAM_UNMAPPED, as every entry from the volume's N on is. owners[s] is 0 where slice s is
 * free, and v + 1 where volume v holds it. The session's counts are the N of the open volumes' headers.
 *
 * permutation names each of the slices 0 to P - 1 once, in the order in which claims look for a free one. It is
 * drawn at random for a session (hiwalgam_shuffle makes one), handed to each of its writes and releases, and
 * nothing has to keep it afterwards. The session's start place is its first place whose slice is free, or P.
 *
 * Refused by 13 (geometry or session of another size: all stays); by 1, 2, 3, 4 or 5, which leave the tables
 * as they were; by 6, 7, 8, 9 or 10, which set every entry to HIWALGAM_UNMAPPED and every owner to 0. A volume's
 * entries from its N to P - 1 are judged too: 9 where one is not HIWALGAM_UNMAPPED. Refused by 1 to 10 it sets the
 * session to zeros, which is closed.
 */
uint8_t hiwalgam_open(const uint8_t *device, size_t device_length,
                      const hiwalgam_geometry *geometry, size_t geometry_size,
                      const uint8_t *key, size_t key_length,
                      uint32_t *maps, size_t maps_length,
                      uint8_t *owners, size_t owners_length,
                      const uint32_t *permutation, size_t permutation_length,
                      hiwalgam_session *session, size_t session_size)
    HIWALGAM_ANSWERS HIWALGAM_IN(1, 2) HIWALGAM_IN(5, 6) HIWALGAM_OUT(7, 8) HIWALGAM_OUT(9, 10) HIWALGAM_IN(11, 12);

/*
 * Reads a block of an open volume into buffer, which has B bytes. address counts the volume's blocks, from 0 to
 * N x S - 1. A block that was never written, or not since its logical slice was released, is zeros.
 *
 * Refused by 13 (session of another size), 20, 2, 4, 11, 12, 13 (buffer), 9.
 */
uint8_t hiwalgam_read(const uint8_t *device, size_t device_length,
                      const uint32_t *maps, size_t maps_length,
                      const uint8_t *owners, size_t owners_length,
                      const hiwalgam_session *session, size_t session_size,
                      uint64_t volume, uint64_t address,
                      uint8_t *buffer, size_t buffer_length)
    HIWALGAM_ANSWERS HIWALGAM_IN(1, 2) HIWALGAM_IN(3, 4) HIWALGAM_IN(5, 6) HIWALGAM_OUT(11, 12);

/*
 * Finds the ciphertext of a block: returns its length, B, or 0 where the block has no slice or a read of it
 * with a right buffer would be refused. It is copied to the start of out where out has room for it; the
 * rest of out stays. NULL and 0 for out ask for the length alone.
 */
size_t hiwalgam_find(const uint8_t *device, size_t device_length,
                     const uint32_t *maps, size_t maps_length,
                     const uint8_t *owners, size_t owners_length,
                     const hiwalgam_session *session, size_t session_size,
                     uint64_t volume, uint64_t address,
                     uint8_t *out, size_t out_length)
    HIWALGAM_ANSWERS HIWALGAM_IN(1, 2) HIWALGAM_IN(3, 4) HIWALGAM_IN(5, 6) HIWALGAM_OUT(11, 12);

/*
 * Writes a block of an open volume: text has B bytes. Where the block's logical slice has a slice, the block
 * is rewritten there and takes 16 bytes of the tape. Otherwise the first free slice in the order of the
 * permutation, from the session's start place on, is claimed, and the map block that has the entry is stored
 * too: this takes B bytes of the tape for the slice, then 16 for the map block. The start place becomes the claimed
 * place plus one. *position is the next unused byte of the tape, and is moved on. Sets written; a claim and a 22 set
 * the session.
 *
 * When the call returns, a claim is on the device with its map entry.
 *
 * Refused by 13 (session or written of another size), 20, 2, 4, 5 (length), 11, 12, 13 (text), 9 (the block's
 * entry); a claim by 9 (any entry of the map block that has this one, those from N to P - 1 included), 5 (a place
 * that names no slice) or 22; both by 21. A rewrite is not refused for another entry. Refused too it sets written,
 * unless that has another size. A 22 sets the session's start place to P; no other refusal changes the session. With
 * another permutation than that of the opening, here or at a release before, a 22 can come while an earlier place is
 * free. The probes of a session's writes, those refused by 5 or 21 left out, add up to at most P x (1 + its served
 * releases).
 */
uint8_t hiwalgam_write(uint8_t *device, size_t device_length,
                       uint32_t *maps, size_t maps_length,
                       uint8_t *owners, size_t owners_length,
                       const uint32_t *permutation, size_t permutation_length,
                       const uint8_t *tape, size_t tape_length, size_t *position,
                       hiwalgam_session *session, size_t session_size,
                       uint64_t volume, uint64_t address,
                       const uint8_t *text, size_t text_length,
                       hiwalgam_written *written, size_t written_size)
    HIWALGAM_ANSWERS HIWALGAM_INOUT(1, 2) HIWALGAM_INOUT(3, 4) HIWALGAM_INOUT(5, 6) HIWALGAM_IN(7, 8)
    HIWALGAM_IN(9, 10) HIWALGAM_NOT_NULL(11) HIWALGAM_IN(16, 17);

/*
 * Releases a logical slice of an open volume, counted from 0 to N - 1: its entry becomes HIWALGAM_UNMAPPED, the
 * owner of the slice that it had becomes 0, and its blocks read as zeros. Any open volume can claim the slice again;
 * until then its bytes stay on the device. The session's start place becomes the lower of itself and the slice's
 * place in permutation. Sets *slice to the slice freed.
 *
 * The map block that has the entry is stored, which takes 16 bytes of the tape: *position is the next unused one,
 * and is moved on. When the call returns, the release is on the device.
 *
 * Refused by 13 (session of another size), 20, 2, 4, 5 (the whole permutation), 11, 12 (logical_slice at or above
 * N), 9 (any entry of the map block that has its entry, those from N to P - 1 included), 25, 21. Refused, it leaves
 * *slice too.
 */
uint8_t hiwalgam_release(uint8_t *device, size_t device_length,
                         uint32_t *maps, size_t maps_length,
                         uint8_t *owners, size_t owners_length,
                         const uint32_t *permutation, size_t permutation_length,
                         const uint8_t *tape, size_t tape_length, size_t *position,
                         hiwalgam_session *session, size_t session_size,
                         uint64_t volume, uint64_t logical_slice, uint64_t *slice)
    HIWALGAM_ANSWERS HIWALGAM_INOUT(1, 2) HIWALGAM_INOUT(3, 4) HIWALGAM_INOUT(5, 6) HIWALGAM_IN(7, 8)
    HIWALGAM_IN(9, 10) HIWALGAM_NOT_NULL(11) HIWALGAM_NOT_NULL(16);

/*
 * Closes a session, which wipes what is held: every entry is HIWALGAM_UNMAPPED, every owner 0, and the session
 * closed, its keys zeros; its geometry, volume, start place and counts stay. No byte of the device is written: it has
 * all that the session stored. A session that is dropped without a close loses nothing, but its keys and tables stay
 * in the caller's memory.
 *
 * Refused by 13 (session of another size), 20, 2, 4.
 */
uint8_t hiwalgam_close(const uint8_t *device, size_t device_length,
                       uint32_t *maps, size_t maps_length,
                       uint8_t *owners, size_t owners_length,
                       hiwalgam_session *session, size_t session_size)
    HIWALGAM_ANSWERS HIWALGAM_IN(1, 2) HIWALGAM_OUT(3, 4) HIWALGAM_OUT(5, 6);

/*
 * AES-256 in counter mode (SP 800-38A): key 32 bytes, IV 16, text 0 to 4,096, out as long as the text.
 * A text of fewer than 192 bytes goes by a table, and the time that it takes depends on key and text.
 * Refused by 3, 13.
 */
uint8_t hiwalgam_counter_mode(const uint8_t *key, size_t key_length,
                              const uint8_t *iv, size_t iv_length,
                              const uint8_t *text, size_t text_length,
                              uint8_t *out, size_t out_length)
    HIWALGAM_ANSWERS HIWALGAM_IN(1, 2) HIWALGAM_IN(3, 4) HIWALGAM_IN(5, 6) HIWALGAM_OUT(7, 8);

/*
 * The same for a text that begins at byte `position` of a longer one, at most HIWALGAM_POSITION_LIMIT.
 * Refused by 3, 13.
 */
uint8_t hiwalgam_keystream_at(const uint8_t *key, size_t key_length,
                              const uint8_t *iv, size_t iv_length,
                              uint64_t position,
                              const uint8_t *text, size_t text_length,
                              uint8_t *out, size_t out_length)
    HIWALGAM_ANSWERS HIWALGAM_IN(1, 2) HIWALGAM_IN(3, 4) HIWALGAM_IN(6, 7) HIWALGAM_OUT(8, 9);

/*
 * AES-256-GCM (SP 800-38D): key 32 bytes, IV 12, associated data 0 to 16, text 0 to 256, out as long as the
 * text, tag 16. Refused by 3, 13.
 */
uint8_t hiwalgam_gcm_seal(const uint8_t *key, size_t key_length,
                          const uint8_t *iv, size_t iv_length,
                          const uint8_t *aad, size_t aad_length,
                          const uint8_t *text, size_t text_length,
                          uint8_t *out, size_t out_length,
                          uint8_t *tag, size_t tag_length)
    HIWALGAM_ANSWERS HIWALGAM_IN(1, 2) HIWALGAM_IN(3, 4) HIWALGAM_IN(5, 6) HIWALGAM_IN(7, 8) HIWALGAM_OUT(9, 10)
    HIWALGAM_OUT(11, 12);

/*
 * Its opening, with the same lengths. Refused by 3, 13, and by 15 where the tag is wrong: out stays then.
 */
uint8_t hiwalgam_gcm_open(const uint8_t *key, size_t key_length,
                          const uint8_t *iv, size_t iv_length,
                          const uint8_t *aad, size_t aad_length,
                          const uint8_t *text, size_t text_length,
                          const uint8_t *tag, size_t tag_length,
                          uint8_t *out, size_t out_length)
    HIWALGAM_ANSWERS HIWALGAM_IN(1, 2) HIWALGAM_IN(3, 4) HIWALGAM_IN(5, 6) HIWALGAM_IN(7, 8) HIWALGAM_IN(9, 10)
    HIWALGAM_OUT(11, 12);

#ifdef __cplusplus
}
#endif

#endif
