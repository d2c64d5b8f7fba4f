/*
 * The nbdkit plugin `hiwalgam`: serves the volumes of a stick image that a key opens, 0 to k, as exports of that name.
 *
 *     nbdkit hiwalgam image=FILE (key=FILE | passphrase=..) [block-bytes=4096] [slice-blocks=256]
 *
 * The image is opened, locked and mapped once, and all connections to all exports share its one session. A client reads
 * and writes whole blocks of B bytes; nbdkit's filter `blocksize` stands before a client that cannot.
 */
#define _GNU_SOURCE /* explicit_bzero */
#define NBDKIT_API_VERSION 2

#include <errno.h>
#include <inttypes.h>
#include <nbdkit-plugin.h>
#include <stdio.h>
#include <stdlib.h>
#include <string.h>
#include "stick.h"

/* One request at a time, of all connections: they share the session, its tables and its tape. */
#define THREAD_MODEL NBDKIT_THREAD_MODEL_SERIALIZE_ALL_REQUESTS

/* The bytes of the longest request that clients are asked to make, a multiple of every B. */
enum { LONGEST_REQUEST = 32 << 20 };

/* What the command line gave: NULL where it gave nothing. The strings are nbdkit's, but for the passphrase. */
static struct {
    const char *image;
    const char *key_file;
    char *passphrase;
    struct stick_key key; /* from the key file or the passphrase */
    uint64_t block_bytes, slice_blocks;
} options = { .block_bytes = 4096, .slice_blocks = 256 };

static struct stick stick = { .fd = -1 };

/* ---- Configuration -------------------------------------------------------------------------------------------- */

static int misused(const char *why)
{
    nbdkit_error("%s", why);
    return -1;
}

/* Wipes the passphrase and the key. */
static void forget_secrets(void)
{
    if (options.passphrase != NULL) explicit_bzero(options.passphrase, strlen(options.passphrase));
    free(options.passphrase);
    options.passphrase = NULL;
    explicit_bzero(&options.key, sizeof options.key);
}

/* Takes one parameter. Given again, the later one counts. */
static int on_config(const char *key, const char *value)
{
    if (strcmp(key, "block-bytes") == 0) return nbdkit_parse_uint64_t(key, value, &options.block_bytes);
    if (strcmp(key, "slice-blocks") == 0) return nbdkit_parse_uint64_t(key, value, &options.slice_blocks);
    if (strcmp(key, "passphrase") == 0) {
        forget_secrets();
        return nbdkit_read_password(value, &options.passphrase);
    }
    if (strcmp(key, "image") == 0) options.image = value;
    else if (strcmp(key, "key") == 0) options.key_file = value;
    else return misused("the parameters are image, key, passphrase, block-bytes and slice-blocks");
    return 0;
}

/* Judges the parameters together. Reads the key file: it can be standard input, which nbdkit may close after this. */
static int on_config_complete(void)
{
    if (options.image == NULL) return misused("image=FILE is missing");
    if ((options.key_file == NULL) == (options.passphrase == NULL))
        return misused("either key=FILE or passphrase=.. has to be given");
    if (options.key_file != NULL) return stick_key_file(&options.key, options.key_file);
    return options.passphrase[0] == '\0' ? misused("the passphrase is empty") : 0;
}

/* Prints the limits of the engine for `nbdkit --dump-plugin`. The second numbers are those of B 4096. */
static void on_dump_plugin(void)
{
    printf("hiwalgam_volumes=%d\nhiwalgam_key_bytes=%d\n", HIWALGAM_VOLUMES, HIWALGAM_KEY_BYTES);
    printf("hiwalgam_block_bytes=1024,4096\nhiwalgam_max_slice_blocks=64,256\nhiwalgam_max_slices=%d\n", STICK_SLICES);
}

/* ---- Session -------------------------------------------------------------------------------------------------- */

/*
 * Begins the session: here messages still reach the user, and relative names are the user's. nbdkit may fork after it;
 * the child, which serves, has file, lock, mapping and memory. Where this fails nbdkit ends without calling on_unload.
 */
static int on_get_ready(void)
{
    const bool ready = stick_map(&stick, options.image, options.block_bytes, options.slice_blocks) == 0
        && (options.passphrase == NULL || stick_key_passphrase(&options.key, &stick, options.passphrase) == 0)
        && stick_open(&stick, &options.key) == 0;

    forget_secrets();
    if (!ready) stick_close(&stick);
    return ready ? 0 : -1;
}

/* Ends the session, after the last connection. nbdkit calls it also where none was begun. */
static void on_unload(void)
{
    forget_secrets();
    stick_close(&stick);
}

/* ---- Exports -------------------------------------------------------------------------------------------------- */

/* The name of a volume's export; NULL without memory. nbdkit frees it. */
static const char *export_name(uint64_t volume)
{
    return nbdkit_printf_intern("%" PRIu64, volume);
}

/* Lists every open volume. */
static int on_list_exports(int readonly, int is_tls, struct nbdkit_exports *exports)
{
    (void)readonly, (void)is_tls;
    for (uint64_t volume = 0; volume <= stick.session.volume; volume++) {
        const char *name = export_name(volume);

        if (name == NULL || nbdkit_add_export(exports, name, NULL) == -1) return -1;
    }
    return 0;
}

/* The opened volume, k, which nbdkit puts in the place of an empty name. */
static const char *on_default_export(int readonly, int is_tls)
{
    (void)readonly, (void)is_tls;
    return export_name(stick.session.volume);
}

/* Begins a connection: finds the volume that the client named. Its handle is its place in the session's counts. */
static void *on_open(int readonly)
{
    const char *asked = nbdkit_export_name();

    (void)readonly;
    for (uint64_t volume = 0; asked != NULL && volume <= stick.session.volume; volume++) {
        const char *name = export_name(volume);

        if (name == NULL) return NULL;
        if (strcmp(asked, name) == 0) return &stick.session.counts[volume];
    }
    nbdkit_error("a client named no open volume: these are 0 to %" PRIu64, stick.session.volume);
    nbdkit_set_error(ENOENT);
    return NULL;
}

static uint64_t volume_of(const void *handle)
{
    return (uint64_t)((const uint64_t *)handle - stick.session.counts);
}

/* N x S x B, at most 2^32. */
static int64_t on_get_size(void *handle)
{
    const uint64_t slice_bytes = stick.geometry.slice_blocks * stick.geometry.block_bytes;

    return (int64_t)(stick.session.counts[volume_of(handle)] * slice_bytes);
}

/* Asks clients for whole blocks. Preferred means: written without reading anything first, which one block is. */
static int on_block_size(void *handle, uint32_t *minimum, uint32_t *preferred, uint32_t *maximum)
{
    (void)handle;
    *minimum = *preferred = (uint32_t)stick.geometry.block_bytes;
    *maximum = LONGEST_REQUEST;
    return 0;
}

/* 0 where the image could be opened for reading alone: nbdkit then lets no write, trim or zero through. */
static int on_can_write(void *handle)
{
    (void)handle;
    return stick.writable;
}

/* One client may have several connections: what is written by one is read by all, and a flush stores it. */
static int on_can_multi_conn(void *handle)
{
    (void)handle;
    return 1;
}

/* ---- Requests ------------------------------------------------------------------------------------------------- */

/* The blocks of a request, from `first` to before `end`. */
struct range {
    uint64_t volume, first, end;
};

/* Sets the blocks of a request, which nbdkit found to lie in the volume, or refuses one that is not of whole blocks. */
static int take(struct range *range, const void *handle, uint32_t count, uint64_t offset)
{
    const uint64_t block_bytes = stick.geometry.block_bytes;

    *range = (struct range){ volume_of(handle), offset / block_bytes, (offset + count) / block_bytes };
    if (offset % block_bytes == 0 && count % block_bytes == 0) return 0;
    nbdkit_error("%" PRIu32 " bytes at byte %" PRIu64 " are not whole blocks of %" PRIu64
                 " bytes: run nbdkit with --filter=blocksize", count, offset, block_bytes);
    nbdkit_set_error(EINVAL);
    return -1;
}

/* Reads block by block, which is all that the engine does. */
static int on_pread(void *handle, void *buffer, uint32_t count, uint64_t offset, uint32_t flags)
{
    uint8_t *block = buffer;
    struct range range;

    (void)flags;
    if (take(&range, handle, count, offset) == -1) return -1;
    for (uint64_t address = range.first; address < range.end; address++, block += stick.geometry.block_bytes)
        if (stick_read(&stick, range.volume, address, block) == -1) return -1;
    return 0;
}

/* Writes block by block. Where one is refused those before it stay written, as on a disk that fails in a request. */
static int on_pwrite(void *handle, const void *buffer, uint32_t count, uint64_t offset, uint32_t flags)
{
    const uint8_t *block = buffer;
    struct range range;

    (void)flags;
    if (take(&range, handle, count, offset) == -1) return -1;
    for (uint64_t address = range.first; address < range.end; address++, block += stick.geometry.block_bytes)
        if (stick_write(&stick, range.volume, address, block) == -1) return -1;
    return 0;
}

/* Stores what all connections wrote. */
static int on_flush(void *handle, uint32_t flags)
{
    (void)handle, (void)flags;
    return stick_sync(&stick);
}

/*
 * Clears a range: releases the logical slices that lie wholly inside, if it may, and writes zeros over the rest, if it
 * is to. Those that are unmapped are zeros already: nothing is claimed for them.
 */
static int clear(const struct range *range, bool release, bool write)
{
    static const uint8_t zeros[HIWALGAM_TEXT_LIMIT]; /* the longest block */
    const uint64_t slice_blocks = stick.geometry.slice_blocks;
    uint64_t first, end; /* of the blocks of the range that are in one logical slice */

    for (first = range->first; first < range->end; first = end) {
        const uint64_t slice = first / slice_blocks, slice_end = (slice + 1) * slice_blocks;

        end = slice_end < range->end ? slice_end : range->end;
        if (!stick_mapped(&stick, range->volume, slice)) continue;
        if (release && end - first == slice_blocks) {
            if (stick_release(&stick, range->volume, slice) == -1) return -1;
            continue;
        }
        for (uint64_t address = first; write && address < end; address++)
            if (stick_write(&stick, range->volume, address, zeros) == -1) return -1;
    }
    return 0;
}

/* Releases the logical slices that lie wholly inside. A trim is a hint: the rest is left. */
static int on_trim(void *handle, uint32_t count, uint64_t offset, uint32_t flags)
{
    struct range range;

    (void)flags;
    return take(&range, handle, count, offset) == -1 ? -1 : clear(&range, true, false);
}

/* Makes all blocks zeros, by releases too where the client allows holes. */
static int on_zero(void *handle, uint32_t count, uint64_t offset, uint32_t flags)
{
    struct range range;

    return take(&range, handle, count, offset) == -1 ? -1 : clear(&range, flags & NBDKIT_FLAG_MAY_TRIM, true);
}

/*
 * Tells which logical slices are unmapped. nbdkit cuts the extents to the request and joins those of one type; of one
 * extent, which NBDKIT_FLAG_REQ_ONE asks for, the end is where another type begins.
 */
static int on_extents(void *handle, uint32_t count, uint64_t offset, uint32_t flags, struct nbdkit_extents *extents)
{
    const uint64_t slice_blocks = stick.geometry.slice_blocks;
    const uint64_t slice_bytes = slice_blocks * stick.geometry.block_bytes;
    struct range range;
    bool first_mapped;

    if (take(&range, handle, count, offset) == -1) return -1;
    first_mapped = stick_mapped(&stick, range.volume, range.first / slice_blocks);
    for (uint64_t slice = range.first / slice_blocks; slice * slice_blocks < range.end; slice++) {
        const bool mapped = stick_mapped(&stick, range.volume, slice);
        const uint32_t type = mapped ? 0 : NBDKIT_EXTENT_HOLE | NBDKIT_EXTENT_ZERO;

        if ((flags & NBDKIT_FLAG_REQ_ONE) && mapped != first_mapped) break;
        if (nbdkit_add_extent(extents, slice * slice_bytes, slice_bytes, type) == -1) return -1;
    }
    return 0;
}

/* ---- The plugin ----------------------------------------------------------------------------------------------- */

/* Without can_fua nbdkit emulates FUA by a flush; without can_fast_zero it offers no fast zeros. */
static struct nbdkit_plugin plugin = {
    .name = "hiwalgam",
    .longname = "Hiwalgam",
    .description = "Serves the volumes of an encrypted memory stick that a key opens, as exports 0 to k.",
    .magic_config_key = "image",
    .config_help =
        "[image=]FILE        (required) the stick image: a regular file or a block device\n"
        "key=FILE            the key: a file of 32 bytes\n"
        "passphrase=TEXT     the passphrase that the key is made of, which other users can see here; or\n"
        "                    - to be asked for it, +FILE for the first line of a file, -FD for that of a descriptor\n"
        "block-bytes=BYTES   B, the bytes of a block: 4096 (default) or 1024\n"
        "slice-blocks=COUNT  S, the data blocks of a slice: 1 to B / 16 (default 256)",

    .config = on_config,
    .config_complete = on_config_complete,
    .dump_plugin = on_dump_plugin,
    .get_ready = on_get_ready,
    .unload = on_unload,
    .list_exports = on_list_exports,
    .default_export = on_default_export,
    .open = on_open,
    .get_size = on_get_size,
    .block_size = on_block_size,
    .can_write = on_can_write,
    .can_multi_conn = on_can_multi_conn,
    .pread = on_pread,
    .pwrite = on_pwrite,
    .flush = on_flush,
    .trim = on_trim,
    .zero = on_zero,
    .extents = on_extents,
    .errno_is_preserved = 0, /* nbdkit_set_error has said it */
};

NBDKIT_REGISTER_PLUGIN(plugin)
