#define _GNU_SOURCE /* explicit_bzero, getrandom */
#define NBDKIT_API_VERSION 2

#include <argon2.h>
#include <errno.h>
#include <fcntl.h>
#include <inttypes.h>
#include <nbdkit-plugin.h>
#include <stdlib.h>
#include <string.h>
#include <sys/file.h>
#include <sys/ioctl.h>
#include <sys/mman.h>
#include <sys/mount.h>
#include <sys/random.h>
#include <sys/stat.h>
#include <unistd.h>
#include "stick.h"

/* ---- Failures ------------------------------------------------------------------------------------------------- */

/* Why a call that is made here can be refused. */
static const char *reason(uint8_t answer)
{
    switch (answer) {
    case HIWALGAM_BAD_GEOMETRY: return "B, S or P is not allowed";
    case HIWALGAM_DEVICE_LENGTH: return "the device is not as long as the geometry says";
    case HIWALGAM_KEY_LENGTH: return "the key is not 32 bytes";
    case HIWALGAM_TABLE_LENGTH: return "a table has a wrong length";
    case HIWALGAM_BAD_PERMUTATION: return "the permutation does not name each slice once";
    case HIWALGAM_NO_CELL: return "the key opens no key cell";
    case HIWALGAM_HEADER_TAG: return "the tag of a header is wrong";
    case HIWALGAM_HEADER_GEOMETRY: return "the numbers in a header do not fit the geometry";
    case HIWALGAM_BAD_ENTRY: return "a map entry is no slice, or past the volume's end, and not unmapped";
    case HIWALGAM_SLICE_TWICE: return "a slice is mapped twice";
    case HIWALGAM_VOLUME_ABOVE: return "the volume is above the opened one";
    case HIWALGAM_ADDRESS_ABOVE: return "the block or the logical slice is past the end of the volume";
    case HIWALGAM_WRONG_LENGTH: return "a buffer or a struct has a wrong length";
    case HIWALGAM_NOT_OPEN: return "the session is not open";
    case HIWALGAM_TAPE_SHORT: return "the tape has too few bytes left";
    case HIWALGAM_NO_FREE_SLICE: return "no slice from the start place on is free";
    case HIWALGAM_SLICE_UNMAPPED: return "the logical slice is unmapped";
    default: return "for a reason that this plugin does not know";
    }
}

/* Reports what the system did not do, by errno. */
static int failed(const char *file, const char *what)
{
    nbdkit_error("%s: %s: %m", file, what);
    nbdkit_set_error(EIO);
    return -1;
}

/* Reports why an image cannot be served. */
static int unfit(const struct stick *stick, const char *why)
{
    nbdkit_error("%s: %s", stick->image, why);
    return -1;
}

/* 0 where a call for the whole session was served; otherwise reports the refusal. */
static int answered(const struct stick *stick, uint8_t answer)
{
    if (answer == HIWALGAM_SERVED) return 0;
    nbdkit_error("%s: refused by %d: %s", stick->image, answer, reason(answer));
    return -1;
}

/* The same for a block or a logical slice of a volume. To a client a stick without a free slice is a full disk. */
static int served(uint8_t answer, const char *request, uint64_t number, uint64_t volume)
{
    if (answer == HIWALGAM_SERVED) return 0;
    nbdkit_error("%s %" PRIu64 " of volume %" PRIu64 ": refused by %d: %s", request, number, volume, answer,
                 reason(answer));
    nbdkit_set_error(answer == HIWALGAM_NO_FREE_SLICE ? ENOSPC : EIO);
    return -1;
}

/* ---- Random bytes --------------------------------------------------------------------------------------------- */

static int fill(uint8_t *bytes, size_t length)
{
    while (length > 0) {
        const ssize_t count = getrandom(bytes, length, 0);

        if (count == -1 && errno == EINTR) continue;
        if (count == -1) return failed("tape", "getrandom");
        bytes += count;
        length -= (size_t)count;
    }
    return 0;
}

/*
 * Sees to it that the tape has the most that a call takes, which is a claim's B + 16 bytes. What was left of the old
 * tape is given up. Where getrandom fails nothing of the tape is unused: the next call comes here again.
 */
static int wind(struct stick *stick)
{
    if (STICK_TAPE_BYTES - stick->position >= stick->geometry.block_bytes + HIWALGAM_IV_BYTES) return 0;
    stick->position = STICK_TAPE_BYTES;
    if (fill(stick->tape, STICK_TAPE_BYTES) == -1) return -1;
    stick->position = 0;
    return 0;
}

/* ---- Image ---------------------------------------------------------------------------------------------------- */

/* The bytes of a device, by the formula in hiwalgam.h. */
static uint64_t device_bytes(uint64_t block_bytes, uint64_t slice_blocks, uint64_t slices)
{
    const uint64_t entries = (block_bytes - HIWALGAM_IV_BYTES) / sizeof(uint32_t); /* of a map block */
    const uint64_t map_blocks = (slices + entries - 1) / entries;

    return block_bytes * (1 + HIWALGAM_VOLUMES * (1 + map_blocks) + slices * (slice_blocks + 1));
}

/*
 * P: the most slices, at least 1, whose device is not longer than the image. The engine refuses an image of another
 * length than that device's, and a B or S that is not allowed, with which the formula could divide by zero or overflow.
 */
static uint64_t slices_of(uint64_t block_bytes, uint64_t slice_blocks, uint64_t length)
{
    uint64_t slices = 1;

    if ((block_bytes != 1024 && block_bytes != 4096) || slice_blocks > block_bytes / 16) return slices;
    while (slices < STICK_SLICES && device_bytes(block_bytes, slice_blocks, slices + 1) <= length) slices++;
    return slices;
}

/* Opens a file for writing. Linux opens a block device that is read-only for writing too, which is undone here. */
static int open_writable(const char *file, int flags)
{
    const int fd = open(file, O_RDWR | flags);
    int read_only = 0;

    if (fd == -1 || ioctl(fd, BLKROGET, &read_only) == -1 || read_only == 0) return fd; /* ENOTTY: a regular file */
    close(fd);
    errno = EROFS;
    return -1;
}

/* Opens the file, for reading alone where it may not be written. A block device is kept from mounts by O_EXCL. */
static int open_file(struct stick *stick)
{
    struct stat status;
    int flags = O_CLOEXEC;

    if (stat(stick->image, &status) == -1) return failed(stick->image, "stat");
    if (S_ISBLK(status.st_mode)) flags |= O_EXCL;
    else if (!S_ISREG(status.st_mode)) return unfit(stick, "is neither a regular file nor a block device");
    stick->fd = open_writable(stick->image, flags);
    stick->writable = stick->fd != -1;
    if (stick->fd == -1 && (errno == EACCES || errno == EROFS || errno == EPERM)) /* EPERM: the file is immutable */
        stick->fd = open(stick->image, O_RDONLY | flags);
    if (stick->fd != -1) return 0;
    return errno == EBUSY ? unfit(stick, "is in use by another session, or mounted") : failed(stick->image, "open");
}

int stick_map(struct stick *stick, const char *image, uint64_t block_bytes, uint64_t slice_blocks)
{
    off_t length;
    void *mapping;

    stick->image = image;
    if (open_file(stick) == -1) return -1;
    if (flock(stick->fd, LOCK_EX | LOCK_NB) == -1)
        return errno == EWOULDBLOCK ? unfit(stick, "is in use by another session") : failed(image, "flock");
    length = lseek(stick->fd, 0, SEEK_END);
    if (length == -1) return failed(image, "lseek");
    stick->length = (size_t)length;
    stick->geometry.block_bytes = block_bytes;
    stick->geometry.slice_blocks = slice_blocks;
    stick->geometry.slices = slices_of(block_bytes, slice_blocks, stick->length);
    if (length == 0) return 0; /* cannot be mapped; the opening refuses it */

    mapping = mmap(NULL, stick->length, stick->writable ? PROT_READ | PROT_WRITE : PROT_READ, MAP_SHARED, stick->fd, 0);
    if (mapping == MAP_FAILED) return failed(image, "mmap");
    stick->device = mapping;
    return 0;
}

int stick_sync(const struct stick *stick)
{
    return msync(stick->device, stick->length, MS_SYNC) == -1 ? failed(stick->image, "msync") : 0;
}

/* ---- Key ------------------------------------------------------------------------------------------------------ */

int stick_key_file(struct stick_key *key, const char *file)
{
    const int fd = open(file, O_RDONLY | O_CLOEXEC);
    ssize_t count;
    int result;

    if (fd == -1) return failed(file, "open");
    key->length = 0;
    do { /* ends at the end of the file, or where there is no room for more: a read of 0 bytes */
        count = read(fd, key->bytes + key->length, sizeof key->bytes - key->length);
        if (count > 0) key->length += (size_t)count;
    } while (count > 0 || (count == -1 && errno == EINTR));
    result = count == -1 ? failed(file, "read") : 0;
    close(fd);
    return result;
}

/* Argon2id by the second recommended option of RFC 9106, section 4. */
int stick_key_passphrase(struct stick_key *key, const struct stick *stick, const char *passphrase)
{
    enum { PASSES = 3, MEMORY_KIB = 65536, LANES = 4, SALT_BYTES = 16 };
    int error;

    *key = (struct stick_key){ .length = HIWALGAM_KEY_BYTES };
    if (stick->length < SALT_BYTES) return 0; /* no device is so short: the opening refuses it whatever the key */
    error = argon2id_hash_raw(PASSES, MEMORY_KIB, LANES, passphrase, strlen(passphrase), stick->device, SALT_BYTES,
                              key->bytes, key->length);
    if (error == ARGON2_OK) return 0;
    nbdkit_error("Argon2id: %s", argon2_error_message(error));
    return -1;
}

/* ---- Session -------------------------------------------------------------------------------------------------- */

/* Draws the permutation. After a 21, whose chance is below 2^-128, it is drawn again. */
static int shuffle(struct stick *stick)
{
    uint8_t draws[2 * STICK_SLICES + 512];
    const size_t slices = stick->geometry.slices, length = 2 * slices + 512;
    uint8_t answer;

    do {
        size_t position = 0;

        if (fill(draws, length) == -1) {
            explicit_bzero(draws, sizeof draws);
            return -1;
        }
        answer = hiwalgam_shuffle(&stick->geometry, sizeof stick->geometry, stick->permutation, slices,
                                  draws, length, &position);
    } while (answer == HIWALGAM_TAPE_SHORT);
    explicit_bzero(draws, sizeof draws);
    return answered(stick, answer);
}

int stick_open(struct stick *stick, const struct stick_key *key)
{
    const size_t slices = stick->geometry.slices;

    stick->position = STICK_TAPE_BYTES; /* nothing is unused: it is filled when first needed, after nbdkit's fork */
    stick->maps = calloc(HIWALGAM_VOLUMES * slices, sizeof *stick->maps);
    stick->owners = calloc(slices, sizeof *stick->owners);
    stick->permutation = calloc(slices, sizeof *stick->permutation);
    if (stick->maps == NULL || stick->owners == NULL || stick->permutation == NULL) return failed("tables", "calloc");
    if (shuffle(stick) == -1) return -1;
    return answered(stick, hiwalgam_open(stick->device, stick->length, &stick->geometry, sizeof stick->geometry,
                                         key->bytes, key->length, stick->maps, HIWALGAM_VOLUMES * slices,
                                         stick->owners, slices, stick->permutation, slices,
                                         &stick->session, sizeof stick->session));
}

void stick_close(struct stick *stick)
{
    const size_t slices = stick->geometry.slices;

    if (stick->session.open == 1) {
        if (stick->writable) stick_sync(stick);
        answered(stick, hiwalgam_close(stick->device, stick->length, stick->maps, HIWALGAM_VOLUMES * slices,
                                       stick->owners, slices, &stick->session, sizeof stick->session));
    }
    if (stick->permutation != NULL) explicit_bzero(stick->permutation, slices * sizeof *stick->permutation);
    free(stick->maps);
    free(stick->owners);
    free(stick->permutation);
    if (stick->device != NULL) munmap(stick->device, stick->length);
    if (stick->fd != -1) close(stick->fd);
    explicit_bzero(stick, sizeof *stick);
    stick->fd = -1;
}

/* ---- Requests ------------------------------------------------------------------------------------------------- */

bool stick_mapped(const struct stick *stick, uint64_t volume, uint64_t logical_slice)
{
    return stick->maps[volume * stick->geometry.slices + logical_slice] != HIWALGAM_UNMAPPED;
}

int stick_read(const struct stick *stick, uint64_t volume, uint64_t address, uint8_t *block)
{
    const size_t slices = stick->geometry.slices;

    return served(hiwalgam_read(stick->device, stick->length, stick->maps, HIWALGAM_VOLUMES * slices,
                                stick->owners, slices, &stick->session, sizeof stick->session,
                                volume, address, block, stick->geometry.block_bytes),
                  "read of block", address, volume);
}

int stick_write(struct stick *stick, uint64_t volume, uint64_t address, const uint8_t *block)
{
    const size_t slices = stick->geometry.slices;
    hiwalgam_written written;

    if (wind(stick) == -1) return -1;
    return served(hiwalgam_write(stick->device, stick->length, stick->maps, HIWALGAM_VOLUMES * slices,
                                 stick->owners, slices, stick->permutation, slices,
                                 stick->tape, STICK_TAPE_BYTES, &stick->position,
                                 &stick->session, sizeof stick->session,
                                 volume, address, block, stick->geometry.block_bytes, &written, sizeof written),
                  "write of block", address, volume);
}

int stick_release(struct stick *stick, uint64_t volume, uint64_t logical_slice)
{
    const size_t slices = stick->geometry.slices;
    uint64_t slice;

    if (wind(stick) == -1) return -1;
    return served(hiwalgam_release(stick->device, stick->length, stick->maps, HIWALGAM_VOLUMES * slices,
                                   stick->owners, slices, stick->permutation, slices,
                                   stick->tape, STICK_TAPE_BYTES, &stick->position,
                                   &stick->session, sizeof stick->session, volume, logical_slice, &slice),
                  "release of logical slice", logical_slice, volume);
}
