/*
 * Tests of the functions in hiwalgam.h: the transcripts of testdata/, and cases that no transcript can put.
 *
 *     transcripts FOLDER        where FOLDER is testdata
 *
 * Prints a line for each transcript and each group of cases, and last `N passed, M failed`; what failed goes to the
 * error output. The exit status is 0 where nothing failed. Compiles as C11 and as C++11, and needs Linux for mmap.
 */
#ifndef _DEFAULT_SOURCE
#define _DEFAULT_SOURCE /* MAP_ANONYMOUS */
#endif
#include <stddef.h>
#include <stdint.h>
#include <stdio.h>
#include <stdlib.h>
#include <string.h>
#include <sys/mman.h>
#include "hiwalgam.h"

/* ---- What calls are lent -------------------------------------------------------------------------------------- */

/*
 * The lists and structs that calls take. KEY is one key or several, COUNTS the logical slices of the volumes that a
 * formatting makes, TEXT what is enciphered, BUFFER what is filled, SLICE the one that a release frees.
 */
enum part {
    DEVICE, GEOMETRY, KEY, COUNTS, MAPS, OWNERS, PERMUTATION, TAPE, POSITION, SESSION, TEXT, BUFFER, WRITTEN, SLICE, IV,
    AAD, TAG, PARTS
};

static const char *const PART_NAMES[PARTS] = {
    "device", "geometry", "key", "counts", "map table", "owner table", "permutation", "tape", "tape position",
    "session", "text", "buffer", "written", "slice", "IV", "associated data", "tag"
};

/*
 * Where a part stands in its pages, before and behind which a page without access lies. At the start or at the end of
 * its pages, a call that reads a byte before or behind the part ends the program. Elsewhere around it stand guard
 * bytes, which show what is written there. Every test is made with each placement.
 */
enum placement { BETWEEN_GUARDS, UNALIGNED, AT_START, AT_END, PLACEMENTS };

static const char *const PLACEMENT_NAMES[PLACEMENTS] = { "between guards", "unaligned", "at start", "at end" };

enum { PAGE = 4096, GUARD = 64, GUARD_BYTE = 0xc3, UNSET_BYTE = 0xb7, MESSAGES = 5 };

struct bytes {
    uint8_t *at;
    size_t length;
};

struct lent {
    uint8_t *pages; /* NULL where nothing is mapped for this part */
    size_t pages_length;
    uint8_t *at;
    size_t length;
};

/* A part as it is lent, as it is expected after the call, and as it is to be put back. */
struct states {
    struct lent lent;
    struct bytes expected;
    struct bytes kept;
};

struct bench {
    const char *folder;
    const char *group;
    size_t line; /* of the transcript, or 0 */
    int placement;
    struct states parts[PARTS];
    struct bytes opener; /* the key of a session that passed on untouched from its opening, or NULL */
    uint64_t volume;
    uint64_t address;
    uint64_t logical_slice; /* of a release */
    size_t volumes;         /* that a formatting makes: the number of its keys */
    uint64_t text_position; /* of keystream_at */
    size_t calls;
    size_t passed;
    size_t failed;
};

static void *needed(void *memory)
{
    if (memory == NULL || memory == MAP_FAILED) {
        perror("memory");
        exit(2);
    }
    return memory;
}

static struct bytes new_bytes(size_t length)
{
    struct bytes fresh;
    fresh.at = (uint8_t *)needed(malloc(length + 1));
    fresh.length = length;
    return fresh;
}

static struct bytes filled(size_t length, int value)
{
    struct bytes fresh = new_bytes(length);
    memset(fresh.at, value, length);
    return fresh;
}

/* Memory of the right length serves again. `from` may be that memory. */
static void store(struct bytes *place, const void *from, size_t length)
{
    struct bytes old = *place;

    if (old.at == NULL || old.length != length) *place = new_bytes(length);
    if (length != 0) memmove(place->at, from, length);
    if (old.at != place->at) free(old.at);
}

/* Lists of uint32_t and uint64_t, a uint64_t and a size_t stay aligned in every placement, as the header asks. */
static size_t shift_of(int part)
{
    if (part == MAPS || part == PERMUTATION) return sizeof(uint32_t);
    if (part == COUNTS || part == SLICE) return sizeof(uint64_t);
    if (part == POSITION) return sizeof(size_t);
    return 2 * (size_t)part + 1;
}

static size_t offset_in_pages(int placement, int part, size_t room, size_t length)
{
    switch (placement) {
    case AT_START: return 0;
    case AT_END: return room - length;
    case UNALIGNED: return GUARD + shift_of(part);
    default: return GUARD;
    }
}

static size_t least(size_t a, size_t b)
{
    return a < b ? a : b;
}

/* The guard bytes before and behind a part: GUARD of them, or as many as its pages have. */
static size_t guards_before(const struct lent *lent)
{
    return least(GUARD, (size_t)(lent->at - (lent->pages + PAGE)));
}

static size_t guards_behind(const struct lent *lent)
{
    return least(GUARD, (size_t)(lent->pages + lent->pages_length - PAGE - (lent->at + lent->length)));
}

static void set_guards(struct lent *lent)
{
    memset(lent->at - guards_before(lent), GUARD_BYTE, guards_before(lent));
    memset(lent->at + lent->length, GUARD_BYTE, guards_behind(lent));
}

static void take_back(struct bench *bench, int part)
{
    struct lent *lent = &bench->parts[part].lent;
    if (lent->pages != NULL) munmap(lent->pages, lent->pages_length);
    memset(lent, 0, sizeof *lent);
}

/*
 * Lends a copy of the bytes, and expects them to stay. Pages serve again where there are as many: to map them for each
 * call took most of the time.
 */
static void lend(struct bench *bench, int part, const void *from, size_t length)
{
    struct lent *lent = &bench->parts[part].lent;
    struct bytes *expected = &bench->parts[part].expected;
    size_t room = (length / PAGE + 2) * PAGE;

    store(expected, from, length); /* first, since `from` may be what is lent now */
    if (lent->pages == NULL || lent->pages_length != room + 2 * PAGE) {
        take_back(bench, part);
        lent->pages_length = room + 2 * PAGE;
        lent->pages = (uint8_t *)needed(
            mmap(NULL, lent->pages_length, PROT_NONE, MAP_PRIVATE | MAP_ANONYMOUS, -1, 0));
        if (mprotect(lent->pages + PAGE, room, PROT_READ | PROT_WRITE) != 0) needed(NULL);
    }
    lent->at = lent->pages + PAGE + offset_in_pages(bench->placement, part, room, length);
    lent->length = length;
    memcpy(lent->at, expected->at, length);
    set_guards(lent);
}

static void lend_null(struct bench *bench, int part)
{
    take_back(bench, part);
    store(&bench->parts[part].expected, NULL, 0);
}

static void lend_filled(struct bench *bench, int part, size_t length, int value)
{
    struct bytes fill = filled(length, value);
    lend(bench, part, fill.at, length);
    free(fill.at);
}

/* Lends a part of what is lent as another part: two names for the same bytes. */
static void lend_shared(struct bench *bench, int part, int owner, size_t length)
{
    take_back(bench, part);
    bench->parts[part].lent.at = bench->parts[owner].lent.at;
    bench->parts[part].lent.length = length;
    store(&bench->parts[part].expected, bench->parts[part].lent.at, length);
}

static void expect(struct bench *bench, int part, const void *bytes, size_t length)
{
    store(&bench->parts[part].expected, bytes, length);
}

static void expect_filled(struct bench *bench, int part, int value)
{
    memset(bench->parts[part].expected.at, value, bench->parts[part].expected.length);
}

static void expect_zeros(struct bench *bench, int part)
{
    expect_filled(bench, part, 0);
}

/* Expects what is lent now, whatever a call made of it. */
static void expect_as_lent(struct bench *bench, int part)
{
    expect(bench, part, bench->parts[part].lent.at, bench->parts[part].lent.length);
}

static void keep_all(struct bench *bench)
{
    for (int part = 0; part < PARTS; part++)
        store(&bench->parts[part].kept, bench->parts[part].lent.at, bench->parts[part].lent.length);
}

static void put_back(struct bench *bench, int part)
{
    lend(bench, part, bench->parts[part].kept.at, bench->parts[part].kept.length);
}

static void put_all_back(struct bench *bench)
{
    for (int part = 0; part < PARTS; part++) put_back(bench, part);
}

/* ---- Checks --------------------------------------------------------------------------------------------------- */

static void check(struct bench *bench, int holds, const char *what, const char *fault)
{
    if (holds) {
        bench->passed++;
        return;
    }
    bench->failed++;
    if (bench->failed > MESSAGES) return;
    fprintf(stderr, "%s, ", bench->group);
    if (bench->line != 0) fprintf(stderr, "line %lu, ", (unsigned long)bench->line);
    fprintf(stderr, "call %lu, %s: %s %s\n", (unsigned long)bench->calls, PLACEMENT_NAMES[bench->placement], what,
            fault);
}

static int guards_stay(const struct lent *lent)
{
    uint8_t guards[GUARD];

    if (lent->pages == NULL) return 1;
    memset(guards, GUARD_BYTE, sizeof guards);
    return memcmp(lent->at - guards_before(lent), guards, guards_before(lent)) == 0
        && memcmp(lent->at + lent->length, guards, guards_behind(lent)) == 0;
}

static int same_bytes(const uint8_t *a, size_t a_length, const uint8_t *b, size_t b_length)
{
    return a_length == b_length && (a_length == 0 || memcmp(a, b, a_length) == 0);
}

/* Everything that is lent is what is expected, and no guard byte is changed. */
static void compare(struct bench *bench)
{
    for (int part = 0; part < PARTS; part++) {
        const struct lent *lent = &bench->parts[part].lent;
        const struct bytes *expected = &bench->parts[part].expected;
        check(bench, same_bytes(lent->at, lent->length, expected->at, expected->length), PART_NAMES[part],
              "is not what is expected");
        check(bench, guards_stay(lent), PART_NAMES[part], "has other bytes beside it");
    }
}

/* ---- Calls ---------------------------------------------------------------------------------------------------- */

enum function {
    OPEN, READ, FIND, WRITE, RELEASE, CLOSE, FORMAT, SHUFFLE, COUNTER_MODE, KEYSTREAM_AT, GCM_SEAL, GCM_OPEN, FUNCTIONS
};

static const char *const FUNCTION_NAMES[FUNCTIONS] = {
    "open", "read", "find", "write", "release", "close", "format", "shuffle", "counter_mode", "keystream_at", "gcm_seal",
    "gcm_open"
};

#define BIT(part) (1u << (part))

/* The lists and structs of each function; the tape position and a release's slice, which are never NULL, are left out. */
static const unsigned TAKES[FUNCTIONS] = {
    BIT(DEVICE) | BIT(GEOMETRY) | BIT(KEY) | BIT(MAPS) | BIT(OWNERS) | BIT(PERMUTATION) | BIT(SESSION),
    BIT(DEVICE) | BIT(MAPS) | BIT(OWNERS) | BIT(SESSION) | BIT(BUFFER),
    BIT(DEVICE) | BIT(MAPS) | BIT(OWNERS) | BIT(SESSION) | BIT(BUFFER),
    BIT(DEVICE) | BIT(MAPS) | BIT(OWNERS) | BIT(PERMUTATION) | BIT(TAPE) | BIT(SESSION) | BIT(TEXT) | BIT(WRITTEN),
    BIT(DEVICE) | BIT(MAPS) | BIT(OWNERS) | BIT(PERMUTATION) | BIT(TAPE) | BIT(SESSION),
    BIT(DEVICE) | BIT(MAPS) | BIT(OWNERS) | BIT(SESSION),
    BIT(DEVICE) | BIT(GEOMETRY) | BIT(KEY) | BIT(COUNTS) | BIT(TAPE),
    BIT(GEOMETRY) | BIT(PERMUTATION) | BIT(TAPE),
    BIT(KEY) | BIT(IV) | BIT(TEXT) | BIT(BUFFER),
    BIT(KEY) | BIT(IV) | BIT(TEXT) | BIT(BUFFER),
    BIT(KEY) | BIT(IV) | BIT(AAD) | BIT(TEXT) | BIT(BUFFER) | BIT(TAG),
    BIT(KEY) | BIT(IV) | BIT(AAD) | BIT(TEXT) | BIT(BUFFER) | BIT(TAG)
};

static int takes(int function, int part)
{
    return (TAKES[function] & BIT(part)) != 0;
}

static uint8_t *bytes_of(const struct bench *bench, int part)
{
    return bench->parts[part].lent.at;
}

static size_t length_of(const struct bench *bench, int part)
{
    return bench->parts[part].lent.length;
}

static uint32_t *numbers_of(const struct bench *bench, int part)
{
    return (uint32_t *)(void *)bench->parts[part].lent.at;
}

static size_t count_of(const struct bench *bench, int part)
{
    return bench->parts[part].lent.length / sizeof(uint32_t);
}

static hiwalgam_session *session_of(const struct bench *bench)
{
    return (hiwalgam_session *)(void *)bench->parts[SESSION].lent.at;
}

static uint8_t call_open(struct bench *b)
{
    return hiwalgam_open(bytes_of(b, DEVICE), length_of(b, DEVICE),
                         (const hiwalgam_geometry *)(void *)bytes_of(b, GEOMETRY), length_of(b, GEOMETRY),
                         bytes_of(b, KEY), length_of(b, KEY),
                         numbers_of(b, MAPS), count_of(b, MAPS),
                         bytes_of(b, OWNERS), length_of(b, OWNERS),
                         numbers_of(b, PERMUTATION), count_of(b, PERMUTATION),
                         session_of(b), length_of(b, SESSION));
}

static uint8_t call_read(struct bench *b)
{
    return hiwalgam_read(bytes_of(b, DEVICE), length_of(b, DEVICE),
                         numbers_of(b, MAPS), count_of(b, MAPS),
                         bytes_of(b, OWNERS), length_of(b, OWNERS),
                         session_of(b), length_of(b, SESSION),
                         b->volume, b->address,
                         bytes_of(b, BUFFER), length_of(b, BUFFER));
}

static size_t call_find(struct bench *b)
{
    return hiwalgam_find(bytes_of(b, DEVICE), length_of(b, DEVICE),
                         numbers_of(b, MAPS), count_of(b, MAPS),
                         bytes_of(b, OWNERS), length_of(b, OWNERS),
                         session_of(b), length_of(b, SESSION),
                         b->volume, b->address,
                         bytes_of(b, BUFFER), length_of(b, BUFFER));
}

static uint8_t call_write(struct bench *b)
{
    return hiwalgam_write(bytes_of(b, DEVICE), length_of(b, DEVICE),
                          numbers_of(b, MAPS), count_of(b, MAPS),
                          bytes_of(b, OWNERS), length_of(b, OWNERS),
                          numbers_of(b, PERMUTATION), count_of(b, PERMUTATION),
                          bytes_of(b, TAPE), length_of(b, TAPE), (size_t *)(void *)bytes_of(b, POSITION),
                          session_of(b), length_of(b, SESSION),
                          b->volume, b->address,
                          bytes_of(b, TEXT), length_of(b, TEXT),
                          (hiwalgam_written *)(void *)bytes_of(b, WRITTEN), length_of(b, WRITTEN));
}

static uint8_t call_release(struct bench *b)
{
    return hiwalgam_release(bytes_of(b, DEVICE), length_of(b, DEVICE),
                            numbers_of(b, MAPS), count_of(b, MAPS),
                            bytes_of(b, OWNERS), length_of(b, OWNERS),
                            numbers_of(b, PERMUTATION), count_of(b, PERMUTATION),
                            bytes_of(b, TAPE), length_of(b, TAPE), (size_t *)(void *)bytes_of(b, POSITION),
                            session_of(b), length_of(b, SESSION),
                            b->volume, b->logical_slice, (uint64_t *)(void *)bytes_of(b, SLICE));
}

static uint8_t call_close(struct bench *b)
{
    return hiwalgam_close(bytes_of(b, DEVICE), length_of(b, DEVICE),
                          numbers_of(b, MAPS), count_of(b, MAPS),
                          bytes_of(b, OWNERS), length_of(b, OWNERS),
                          session_of(b), length_of(b, SESSION));
}

static uint8_t call_format(struct bench *b)
{
    return hiwalgam_format(bytes_of(b, DEVICE), length_of(b, DEVICE),
                           (const hiwalgam_geometry *)(void *)bytes_of(b, GEOMETRY), length_of(b, GEOMETRY),
                           b->volumes,
                           bytes_of(b, KEY), length_of(b, KEY),
                           (const uint64_t *)(void *)bytes_of(b, COUNTS), length_of(b, COUNTS) / sizeof(uint64_t),
                           bytes_of(b, TAPE), length_of(b, TAPE), (size_t *)(void *)bytes_of(b, POSITION));
}

static uint8_t call_shuffle(struct bench *b)
{
    return hiwalgam_shuffle((const hiwalgam_geometry *)(void *)bytes_of(b, GEOMETRY), length_of(b, GEOMETRY),
                            numbers_of(b, PERMUTATION), count_of(b, PERMUTATION),
                            bytes_of(b, TAPE), length_of(b, TAPE), (size_t *)(void *)bytes_of(b, POSITION));
}

static uint8_t call_counter_mode(struct bench *b)
{
    return hiwalgam_counter_mode(bytes_of(b, KEY), length_of(b, KEY), bytes_of(b, IV), length_of(b, IV),
                                 bytes_of(b, TEXT), length_of(b, TEXT), bytes_of(b, BUFFER), length_of(b, BUFFER));
}

static uint8_t call_keystream_at(struct bench *b)
{
    return hiwalgam_keystream_at(bytes_of(b, KEY), length_of(b, KEY), bytes_of(b, IV), length_of(b, IV),
                                 b->text_position,
                                 bytes_of(b, TEXT), length_of(b, TEXT), bytes_of(b, BUFFER), length_of(b, BUFFER));
}

static uint8_t call_gcm_seal(struct bench *b)
{
    return hiwalgam_gcm_seal(bytes_of(b, KEY), length_of(b, KEY), bytes_of(b, IV), length_of(b, IV),
                             bytes_of(b, AAD), length_of(b, AAD), bytes_of(b, TEXT), length_of(b, TEXT),
                             bytes_of(b, BUFFER), length_of(b, BUFFER), bytes_of(b, TAG), length_of(b, TAG));
}

static uint8_t call_gcm_open(struct bench *b)
{
    return hiwalgam_gcm_open(bytes_of(b, KEY), length_of(b, KEY), bytes_of(b, IV), length_of(b, IV),
                             bytes_of(b, AAD), length_of(b, AAD), bytes_of(b, TEXT), length_of(b, TEXT),
                             bytes_of(b, TAG), length_of(b, TAG), bytes_of(b, BUFFER), length_of(b, BUFFER));
}

static size_t call(struct bench *bench, int function)
{
    bench->calls++;
    switch (function) {
    case OPEN: return call_open(bench);
    case READ: return call_read(bench);
    case FIND: return call_find(bench);
    case WRITE: return call_write(bench);
    case RELEASE: return call_release(bench);
    case CLOSE: return call_close(bench);
    case FORMAT: return call_format(bench);
    case SHUFFLE: return call_shuffle(bench);
    case COUNTER_MODE: return call_counter_mode(bench);
    case KEYSTREAM_AT: return call_keystream_at(bench);
    case GCM_SEAL: return call_gcm_seal(bench);
    default: return call_gcm_open(bench);
    }
}

static void check_answer(struct bench *bench, int function, size_t expected)
{
    char fault[80];
    size_t answer = call(bench, function);
    snprintf(fault, sizeof fault, "answers %lu, not %lu", (unsigned long)answer, (unsigned long)expected);
    check(bench, answer == expected, FUNCTION_NAMES[function], fault);
}

/* Calls, and looks at the answer and at everything that is lent. */
static void check_call(struct bench *bench, int function, size_t expected)
{
    check_answer(bench, function, expected);
    compare(bench);
}

static void expect_written(struct bench *bench, uint64_t claimed, uint64_t slice, uint64_t probes)
{
    hiwalgam_written written;
    written.claimed = claimed;
    written.slice = slice;
    written.probes = probes;
    expect(bench, WRITTEN, &written, sizeof written);
}

/* Lends the number that a served release sets, and expects it to stay. */
static void lend_slice(struct bench *bench)
{
    lend_filled(bench, SLICE, sizeof(uint64_t), UNSET_BYTE);
}

static void expect_slice(struct bench *bench, uint64_t slice)
{
    expect(bench, SLICE, &slice, sizeof slice);
}

/* Finds with an `out` of `room` bytes, and expects `length` bytes of the device from `at` on, or nothing. */
static void check_find(struct bench *bench, size_t room, size_t length, size_t at)
{
    lend_filled(bench, BUFFER, room, UNSET_BYTE);
    if (room == 0) lend_null(bench, BUFFER);
    if (length != 0 && length <= room)
        memcpy(bench->parts[BUFFER].expected.at, bench->parts[DEVICE].expected.at + at, length);
    check_call(bench, FIND, length);
}

/* Finds after a byte of the device was changed, which is then put back. */
static void check_find_changed(struct bench *bench, size_t byte, size_t length, size_t at)
{
    if (byte >= length_of(bench, DEVICE)) return;
    bench->parts[DEVICE].lent.at[byte] ^= 0x40;
    bench->parts[DEVICE].expected.at[byte] ^= 0x40;
    check_find(bench, length, length, at);
    bench->parts[DEVICE].lent.at[byte] ^= 0x40;
    bench->parts[DEVICE].expected.at[byte] ^= 0x40;
}

/* ---- Files and words ------------------------------------------------------------------------------------------ */

enum { WHOLE = -1 };

/* So many bytes of a file of the folder, or the WHOLE of it; `at` is NULL where they cannot be read. */
static struct bytes load_part(const struct bench *bench, const char *name, long offset, long length)
{
    struct bytes content = { NULL, 0 };
    char path[1024];
    FILE *file;
    long size;

    if (snprintf(path, sizeof path, "%s/%s", bench->folder, name) >= (int)sizeof path) return content;
    file = fopen(path, "rb");
    if (file == NULL) return content;
    if (fseek(file, 0, SEEK_END) == 0 && (size = ftell(file)) >= offset && size - offset >= length
        && fseek(file, offset, SEEK_SET) == 0) {
        content = new_bytes((size_t)(length == WHOLE ? size : length));
        if (fread(content.at, 1, content.length, file) != content.length) {
            free(content.at);
            memset(&content, 0, sizeof content);
        }
    }
    fclose(file);
    return content;
}

static struct bytes load(const struct bench *bench, const char *name)
{
    return load_part(bench, name, 0, WHOLE);
}

/* The words of a line, from which they are taken one by one. What is not as it has to be sets `wrong`. */
struct words {
    char **word;
    size_t count;
    size_t next;
    int wrong;
};

/* Words are separated by one space; the line is cut into them. */
static struct words split(char *line)
{
    struct words words = { NULL, 1, 0, 0 };
    size_t i = 0;

    for (const char *c = line; *c != 0; c++) words.count += *c == ' ';
    words.word = (char **)needed(malloc(words.count * sizeof *words.word));
    words.word[i++] = line;
    for (char *c = line; *c != 0; c++) {
        if (*c != ' ') continue;
        *c = 0;
        words.word[i++] = c + 1;
    }
    return words;
}

static size_t words_left(const struct words *words)
{
    return words->count - words->next;
}

static const char *take_word(struct words *words)
{
    if (words_left(words) == 0 || *words->word[words->next] == 0) {
        words->wrong = 1;
        return "";
    }
    return words->word[words->next++];
}

/* Takes the next word where it is this one. */
static int take_this(struct words *words, const char *word)
{
    if (words_left(words) == 0 || strcmp(words->word[words->next], word) != 0) return 0;
    words->next++;
    return 1;
}

static void take_equals(struct words *words)
{
    if (!take_this(words, "=")) words->wrong = 1;
}

static void take_end(struct words *words)
{
    if (words_left(words) != 0) words->wrong = 1;
}

static int is_digit(char c)
{
    return c >= '0' && c <= '9';
}

/* The number that the digits from *at on stand for, of which there is one at least; *at is then behind them. */
static uint64_t take_digits(struct words *words, const char **at, uint64_t most)
{
    uint64_t number = 0;

    if (!is_digit(**at)) words->wrong = 1;
    for (; is_digit(**at); (*at)++) {
        unsigned digit = (unsigned)(**at - '0');
        if (digit > most || number > (most - digit) / 10) {
            words->wrong = 1;
            return 0;
        }
        number = 10 * number + digit;
    }
    return number;
}

static uint64_t take_number(struct words *words, uint64_t most)
{
    const char *at = take_word(words);
    uint64_t number = take_digits(words, &at, most);
    if (*at != 0) words->wrong = 1;
    return number;
}

/* A length or an offset, of what is held in memory. */
static size_t take_length(struct words *words)
{
    return (size_t)take_number(words, 1u << 30);
}

static uint32_t take_entry(struct words *words)
{
    if (take_this(words, "-")) return HIWALGAM_UNMAPPED;
    return (uint32_t)take_number(words, UINT32_MAX);
}

static int hex_digit(char c)
{
    const char *digits = "0123456789abcdef";
    const char *found = c == 0 ? NULL : strchr(digits, c);
    return found == NULL ? -1 : (int)(found - digits);
}

/* The bytes that pairs of hexadecimal digits stand for; `at` is NULL where the word is made of anything else. */
static struct bytes from_hex(const char *hex)
{
    struct bytes bytes = new_bytes(strlen(hex) / 2);
    int wrong = strlen(hex) % 2 != 0;

    for (size_t i = 0; i < bytes.length && !wrong; i++) {
        int high = hex_digit(hex[2 * i]), low = hex_digit(hex[2 * i + 1]);
        wrong = high < 0 || low < 0;
        bytes.at[i] = (uint8_t)(16 * high + low);
    }
    if (wrong) {
        free(bytes.at);
        memset(&bytes, 0, sizeof bytes);
    }
    return bytes;
}

/* A word of counts with commas between them, COUNT*TIMES for one that comes so many times; `-` for none. */
static struct bytes take_counts(struct words *words)
{
    struct bytes counts = new_bytes(0);
    const char *at = take_this(words, "-") ? "" : take_word(words);

    while (*at != 0 && !words->wrong) {
        uint64_t count = take_digits(words, &at, UINT64_MAX);
        size_t times = 1;
        struct bytes longer;

        if (*at == '*') {
            at++;
            times = (size_t)take_digits(words, &at, 1u << 20);
        }
        longer = new_bytes(counts.length + times * sizeof count);
        memcpy(longer.at, counts.at, counts.length);
        for (size_t i = 0; i < times; i++) memcpy(longer.at + counts.length + i * sizeof count, &count, sizeof count);
        free(counts.at);
        counts = longer;
        if (*at == ',' && is_digit(at[1])) at++;
        else if (*at != 0) words->wrong = 1;
    }
    return counts;
}

static struct bytes take_hex(struct words *words)
{
    struct bytes bytes = from_hex(take_this(words, "-") ? "" : take_word(words));
    if (bytes.at == NULL) words->wrong = 1;
    return bytes;
}

/* Bytes of a file of the folder; words that ask for bytes that it has not are wrong. */
static struct bytes part_of_file(const struct bench *bench, struct words *words, const char *name, size_t offset,
                                 size_t length)
{
    struct bytes part = { NULL, 0 };

    if (!words->wrong) part = load_part(bench, name, (long)offset, (long)length);
    if (part.at == NULL) words->wrong = 1;
    return part;
}

static struct bytes take_part_of_file(const struct bench *bench, struct words *words)
{
    const char *name = take_word(words);
    size_t offset = take_length(words);
    size_t length = take_length(words);
    return part_of_file(bench, words, name, offset, length);
}

/* ---- Transcripts: the lines `given` and `then` ---------------------------------------------------------------- */

/* Sets a part: with `given` what is lent and what is expected, otherwise what is expected. Frees the bytes. */
static void set_whole(struct bench *bench, const struct words *words, int given, int part, struct bytes bytes)
{
    if (!words->wrong && given) lend(bench, part, bytes.at, bytes.length);
    if (!words->wrong && !given) expect(bench, part, bytes.at, bytes.length);
    free(bytes.at);
}

/* The same for some bytes of a part. */
static void set_some(struct bench *bench, struct words *words, int given, int part, size_t at, struct bytes bytes)
{
    struct bytes *expected = &bench->parts[part].expected;

    if (at > expected->length || bytes.length > expected->length - at) words->wrong = 1;
    if (given && length_of(bench, part) != expected->length) words->wrong = 1;
    if (!words->wrong && given) memcpy(bytes_of(bench, part) + at, bytes.at, bytes.length);
    if (!words->wrong) memcpy(expected->at + at, bytes.at, bytes.length);
    free(bytes.at);
}

static struct bytes take_entries(struct words *words)
{
    struct bytes entries = new_bytes(words_left(words) * sizeof(uint32_t));
    for (size_t i = 0; words_left(words) != 0 && !words->wrong; i++) {
        uint32_t entry = take_entry(words);
        memcpy(entries.at + i * sizeof entry, &entry, sizeof entry);
    }
    return entries;
}

static void set_device(struct bench *bench, struct words *words, int given)
{
    const char *name = take_word(words);
    size_t length = take_length(words);
    take_end(words);
    set_whole(bench, words, given, DEVICE, part_of_file(bench, words, name, 0, length));
}

static void set_zeros(struct bench *bench, struct words *words, int given)
{
    size_t length = take_length(words);
    take_end(words);
    set_whole(bench, words, given, DEVICE, filled(length, 0));
}

static void set_bytes(struct bench *bench, struct words *words, int given)
{
    size_t at = take_length(words);
    struct bytes bytes = take_part_of_file(bench, words);
    take_end(words);
    set_some(bench, words, given, DEVICE, at, bytes);
}

static void set_geometry(struct bench *bench, struct words *words, int given)
{
    hiwalgam_geometry geometry;
    struct bytes bytes = { NULL, 0 };

    geometry.block_bytes = take_number(words, UINT64_MAX);
    geometry.slice_blocks = take_number(words, UINT64_MAX);
    geometry.slices = take_number(words, UINT64_MAX);
    take_end(words);
    store(&bytes, &geometry, sizeof geometry);
    set_whole(bench, words, given, GEOMETRY, bytes);
}

static void set_maps(struct bench *bench, struct words *words, int given)
{
    size_t count = (size_t)take_number(words, 1u << 20);
    uint32_t entry = take_entry(words);
    struct bytes entries = new_bytes(count * sizeof entry);

    take_end(words);
    for (size_t i = 0; i < count; i++) memcpy(entries.at + i * sizeof entry, &entry, sizeof entry);
    set_whole(bench, words, given, MAPS, entries);
}

static void set_row(struct bench *bench, struct words *words, int given)
{
    size_t volume = take_length(words);
    struct bytes entries = take_entries(words);
    set_some(bench, words, given, MAPS, volume * entries.length, entries);
}

static void set_entry(struct bench *bench, struct words *words, int given)
{
    size_t volume = take_length(words);
    size_t logical = take_length(words);
    struct bytes entries = take_entries(words);
    size_t slices = bench->parts[MAPS].expected.length / sizeof(uint32_t) / HIWALGAM_VOLUMES;

    if (logical >= slices || entries.length != sizeof(uint32_t)) words->wrong = 1;
    set_some(bench, words, given, MAPS, (volume * slices + logical) * sizeof(uint32_t), entries);
}

static void set_owners(struct bench *bench, struct words *words, int given)
{
    struct bytes owners = new_bytes(words_left(words));
    for (size_t i = 0; i < owners.length; i++) owners.at[i] = (uint8_t)take_number(words, UINT8_MAX);
    set_whole(bench, words, given, OWNERS, owners);
}

static void set_owner(struct bench *bench, struct words *words, int given)
{
    size_t slice = take_length(words);
    struct bytes owner = filled(1, (int)take_number(words, UINT8_MAX));
    take_end(words);
    set_some(bench, words, given, OWNERS, slice, owner);
}

static void set_permutation(struct bench *bench, struct words *words, int given)
{
    set_whole(bench, words, given, PERMUTATION, take_entries(words));
}

/* The permutation, whose entries stand in a file with two bytes each, most significant first. */
static void set_order(struct bench *bench, struct words *words, int given)
{
    const char *name = take_word(words);
    size_t offset = take_length(words);
    size_t count = (size_t)take_number(words, 1u << 20);
    struct bytes part = part_of_file(bench, words, name, offset, 2 * count);
    struct bytes entries = new_bytes(count * sizeof(uint32_t));

    take_end(words);
    for (size_t i = 0; i < count && !words->wrong; i++) {
        uint32_t entry = 256u * part.at[2 * i] + part.at[2 * i + 1];
        memcpy(entries.at + i * sizeof entry, &entry, sizeof entry);
    }
    free(part.at);
    set_whole(bench, words, given, PERMUTATION, entries);
}

/* The tape: bytes of a file, or those that the one word stands for. */
static void set_tape(struct bench *bench, struct words *words, int given)
{
    struct bytes tape = words_left(words) == 1 ? take_hex(words) : take_part_of_file(bench, words);
    take_end(words);
    set_whole(bench, words, given, TAPE, tape);
}

static void set_position(struct bench *bench, struct words *words, int given)
{
    size_t position = (size_t)take_number(words, UINT64_MAX);
    struct bytes bytes = { NULL, 0 };

    take_end(words);
    store(&bytes, &position, sizeof position);
    set_whole(bench, words, given, POSITION, bytes);
}

static void set_session(struct bench *bench, struct words *words, int given)
{
    hiwalgam_session session;
    struct bytes counts, bytes = { NULL, 0 };

    memset(&session, 0, sizeof session);
    session.geometry.block_bytes = take_number(words, UINT64_MAX);
    session.geometry.slice_blocks = take_number(words, UINT64_MAX);
    session.geometry.slices = take_number(words, UINT64_MAX);
    session.volume = take_number(words, UINT64_MAX);
    session.open = take_number(words, 1);
    session.start_place = take_number(words, UINT64_MAX);
    counts = take_counts(words);
    if (counts.length > sizeof session.counts) words->wrong = 1;
    else memcpy(session.counts, counts.at, counts.length);
    free(counts.at);
    for (size_t i = 0; words_left(words) != 0 && !words->wrong; i++) {
        struct bytes key = take_hex(words);
        if (i == HIWALGAM_VOLUMES || key.length != HIWALGAM_KEY_BYTES) words->wrong = 1;
        else if (!words->wrong) memcpy(session.keys + i * HIWALGAM_KEY_BYTES, key.at, key.length);
        free(key.at);
    }
    store(&bytes, &session, sizeof session);
    set_whole(bench, words, given, SESSION, bytes);
}

/* The session's start place alone. */
static void set_start(struct bench *bench, struct words *words, int given)
{
    uint64_t start_place = take_number(words, UINT64_MAX);
    struct bytes bytes = { NULL, 0 };

    take_end(words);
    store(&bytes, &start_place, sizeof start_place);
    set_some(bench, words, given, SESSION, offsetof(hiwalgam_session, start_place), bytes);
}

/* The session's count of one volume alone. */
static void set_count(struct bench *bench, struct words *words, int given)
{
    size_t volume = (size_t)take_number(words, HIWALGAM_VOLUMES - 1);
    uint64_t count = take_number(words, UINT64_MAX);
    struct bytes bytes = { NULL, 0 };

    take_end(words);
    store(&bytes, &count, sizeof count);
    set_some(bench, words, given, SESSION, offsetof(hiwalgam_session, counts) + volume * sizeof count, bytes);
}

struct line_kind {
    const char *word;
    void (*set)(struct bench *bench, struct words *words, int given);
};

static const struct line_kind LINE_KINDS[] = {
    { "device", set_device }, { "zeros", set_zeros }, { "bytes", set_bytes }, { "geometry", set_geometry },
    { "maps", set_maps }, { "row", set_row }, { "entry", set_entry }, { "owners", set_owners },
    { "owner", set_owner }, { "permutation", set_permutation }, { "order", set_order }, { "tape", set_tape },
    { "position", set_position }, { "session", set_session }, { "start", set_start }, { "count", set_count }
};

static void set_part(struct bench *bench, struct words *words, int given)
{
    for (size_t i = 0; i < sizeof LINE_KINDS / sizeof *LINE_KINDS; i++) {
        if (!take_this(words, LINE_KINDS[i].word)) continue;
        LINE_KINDS[i].set(bench, words, given);
        return;
    }
    words->wrong = 1;
}

/* ---- Transcripts: sessions that are dropped ------------------------------------------------------------------- */

/* The key is held from a served opening on, while device, tables and session pass on untouched, to what ends that. */
static void forget_opener(struct bench *bench)
{
    free(bench->opener.at);
    memset(&bench->opener, 0, sizeof bench->opener);
}

static int is_beside_a_session(const char *word)
{
    static const char *const words[] = { "geometry", "permutation", "order", "tape", "position" };

    for (size_t i = 0; i < sizeof words / sizeof *words; i++)
        if (strcmp(word, words[i]) == 0) return 1;
    return 0;
}

/*
 * The session is dropped here: with its key a copy of the device opens to the tables and the session held, whose start
 * place alone goes by the permutation, here P - 1 down to 0. After every call, but in one placement alone: that tells as
 * much as all of them, in a quarter of the time, which counts under a memory checker.
 */
static void check_dropped(struct bench *bench)
{
    const struct lent *maps = &bench->parts[MAPS].lent, *owners = &bench->parts[OWNERS].lent;
    struct bytes device = { NULL, 0 }, new_maps, new_owners, permutation;
    hiwalgam_session held, opened;
    uint8_t answer;

    if (bench->opener.at == NULL || bench->placement != BETWEEN_GUARDS) return;
    memcpy(&held, bytes_of(bench, SESSION), sizeof held);
    memset(&opened, UNSET_BYTE, sizeof opened);
    store(&device, bytes_of(bench, DEVICE), length_of(bench, DEVICE));
    new_maps = filled(maps->length, UNSET_BYTE);
    new_owners = filled(owners->length, UNSET_BYTE);
    permutation = new_bytes((size_t)held.geometry.slices * sizeof(uint32_t));
    for (uint32_t place = 0; place < held.geometry.slices; place++) {
        const uint32_t slice = (uint32_t)held.geometry.slices - 1 - place;
        memcpy(permutation.at + place * sizeof slice, &slice, sizeof slice);
    }
    answer = hiwalgam_open(device.at, device.length, &held.geometry, sizeof held.geometry,
                           bench->opener.at, bench->opener.length,
                           (uint32_t *)(void *)new_maps.at, maps->length / sizeof(uint32_t),
                           new_owners.at, owners->length,
                           (const uint32_t *)(void *)permutation.at, (size_t)held.geometry.slices,
                           &opened, sizeof opened);
    opened.start_place = held.start_place;
    check(bench, answer == HIWALGAM_SERVED, "dropped session", "does not open again");
    check(bench, memcmp(&opened, &held, sizeof held) == 0, "dropped session", "opens to another one");
    check(bench, same_bytes(maps->at, maps->length, new_maps.at, new_maps.length), "dropped session",
          "opens to another map table");
    check(bench, same_bytes(owners->at, owners->length, new_owners.at, new_owners.length), "dropped session",
          "opens to another owner table");
    free(device.at);
    free(new_maps.at);
    free(new_owners.at);
    free(permutation.at);
}

/* ---- Transcripts: calls --------------------------------------------------------------------------------------- */

static void line_open(struct bench *bench, struct words *words)
{
    struct bytes key = take_hex(words);
    uint64_t answer, volume = 0;
    hiwalgam_session session;

    take_equals(words);
    answer = take_number(words, UINT8_MAX);
    if (answer == HIWALGAM_SERVED) volume = take_number(words, UINT64_MAX);
    take_end(words);
    forget_opener(bench);
    if (!words->wrong) {
        lend(bench, KEY, key.at, key.length);
        if (answer == HIWALGAM_SERVED) store(&bench->opener, key.at, key.length);
        check_answer(bench, OPEN, (size_t)answer);
        memcpy(&session, bytes_of(bench, SESSION), sizeof session);
        check(bench, session.volume == volume, "open", "gives another volume");
    }
    free(key.at);
}

static void line_read(struct bench *bench, struct words *words)
{
    struct bytes text = { NULL, 0 };
    size_t length;
    uint64_t answer;

    bench->volume = take_number(words, UINT64_MAX);
    bench->address = take_number(words, UINT64_MAX);
    length = take_length(words);
    take_equals(words);
    answer = take_number(words, UINT8_MAX);
    if (answer == HIWALGAM_SERVED) {
        const char *name = take_word(words);
        text = part_of_file(bench, words, name, take_length(words), length);
    }
    take_end(words);
    if (!words->wrong) {
        lend_filled(bench, BUFFER, length, UNSET_BYTE);
        if (answer == HIWALGAM_SERVED) expect(bench, BUFFER, text.at, text.length);
        check_answer(bench, READ, (size_t)answer);
    }
    free(text.at);
}

static void line_find(struct bench *bench, struct words *words)
{
    size_t length, at = 0;

    bench->volume = take_number(words, UINT64_MAX);
    bench->address = take_number(words, UINT64_MAX);
    take_equals(words);
    length = take_length(words);
    if (length != 0) at = take_length(words);
    take_end(words);
    if (at > length_of(bench, DEVICE) || length > length_of(bench, DEVICE) - at) words->wrong = 1;
    if (words->wrong) return;

    check_find(bench, 0, length, at);
    check_find(bench, 4097, length, at);
    check_find(bench, length, length, at);
    if (length == 0) return;
    check_find(bench, length - 1, length, at);
    check_find_changed(bench, at, length, at);
    check_find_changed(bench, at + length / 2, length, at);
    check_find_changed(bench, at + length - 1, length, at);
    check_find_changed(bench, at - 1, length, at);
    check_find_changed(bench, at + length, length, at);
}

/* The answer of a write, `0 claimed SLICE PROBES`, `0 rewritten SLICE PROBES` or `REFUSAL PROBES`. */
static uint64_t take_written(struct words *words, hiwalgam_written *written)
{
    uint64_t answer = take_number(words, UINT8_MAX);

    memset(written, 0, sizeof *written);
    if (answer == HIWALGAM_SERVED) {
        written->claimed = (uint64_t)take_this(words, "claimed");
        if (!written->claimed && !take_this(words, "rewritten")) words->wrong = 1;
        written->slice = take_number(words, UINT64_MAX);
    }
    written->probes = take_number(words, UINT64_MAX);
    take_end(words);
    return answer;
}

static void line_write(struct bench *bench, struct words *words)
{
    struct bytes text;
    hiwalgam_written written;
    uint64_t answer;

    bench->volume = take_number(words, UINT64_MAX);
    bench->address = take_number(words, UINT64_MAX);
    text = take_part_of_file(bench, words);
    take_equals(words);
    answer = take_written(words, &written);
    if (!words->wrong) {
        lend(bench, TEXT, text.at, text.length);
        lend_filled(bench, WRITTEN, sizeof written, UNSET_BYTE);
        expect(bench, WRITTEN, &written, sizeof written);
        check_answer(bench, WRITE, (size_t)answer);
    }
    free(text.at);
}

static void line_release(struct bench *bench, struct words *words)
{
    uint64_t answer, slice = 0;

    bench->volume = take_number(words, UINT64_MAX);
    bench->logical_slice = take_number(words, UINT64_MAX);
    take_equals(words);
    answer = take_number(words, UINT8_MAX);
    if (answer == HIWALGAM_SERVED) slice = take_number(words, UINT64_MAX);
    take_end(words);
    if (words->wrong) return;
    lend_slice(bench);
    if (answer == HIWALGAM_SERVED) expect_slice(bench, slice);
    check_answer(bench, RELEASE, (size_t)answer);
}

/* A call without words of its own, and with an answer of one number: a close or a shuffle. */
static void line_alone(struct bench *bench, struct words *words, int function)
{
    uint64_t answer;

    take_equals(words);
    answer = take_number(words, UINT8_MAX);
    take_end(words);
    if (!words->wrong) check_answer(bench, function, (size_t)answer);
    if (function == CLOSE && answer == HIWALGAM_SERVED) forget_opener(bench);
}

static void line_format(struct bench *bench, struct words *words)
{
    struct bytes keys, counts;
    uint64_t answer;

    bench->volumes = (size_t)take_number(words, UINT64_MAX);
    keys = take_hex(words);
    counts = take_counts(words);
    take_equals(words);
    answer = take_number(words, UINT8_MAX);
    take_end(words);
    if (!words->wrong) {
        lend(bench, KEY, keys.at, keys.length);
        lend(bench, COUNTS, counts.at, counts.length);
        check_answer(bench, FORMAT, (size_t)answer);
    }
    if (answer == HIWALGAM_SERVED) forget_opener(bench);
    free(keys.at);
    free(counts.at);
}

static void line_image(struct bench *bench, struct words *words)
{
    struct bytes image = load(bench, take_word(words));

    take_end(words);
    if (image.at == NULL) words->wrong = 1;
    else
        check(bench, same_bytes(bytes_of(bench, DEVICE), length_of(bench, DEVICE), image.at, image.length), "device",
              "is not the image");
    free(image.at);
}

/* After a call come lines `then` and one `compare`, and nothing else. */
static void run_line(struct bench *bench, struct words *words, int *compare_is_due)
{
    if (*compare_is_due) {
        if (take_this(words, "then")) {
            set_part(bench, words, 0);
        } else if (take_this(words, "compare")) {
            take_end(words);
            if (!words->wrong) {
                compare(bench);
                check_dropped(bench);
            }
            *compare_is_due = 0;
        } else {
            words->wrong = 1;
        }
        return;
    }
    if (take_this(words, "given")) {
        if (words_left(words) != 0 && !is_beside_a_session(words->word[words->next])) forget_opener(bench);
        set_part(bench, words, 1);
    } else if (take_this(words, "image")) {
        line_image(bench, words);
    } else {
        *compare_is_due = 1;
        if (take_this(words, "open")) line_open(bench, words);
        else if (take_this(words, "read")) line_read(bench, words);
        else if (take_this(words, "find")) line_find(bench, words);
        else if (take_this(words, "write")) line_write(bench, words);
        else if (take_this(words, "release")) line_release(bench, words);
        else if (take_this(words, "close")) line_alone(bench, words, CLOSE);
        else if (take_this(words, "format")) line_format(bench, words);
        else if (take_this(words, "shuffle")) line_alone(bench, words, SHUFFLE);
        else words->wrong = 1;
    }
}

/* The state that a transcript begins with: nothing lent, every number 0. */
static void lend_empty_state(struct bench *bench)
{
    for (int part = 0; part < PARTS; part++) lend(bench, part, NULL, 0);
    lend_filled(bench, GEOMETRY, sizeof(hiwalgam_geometry), 0);
    lend_filled(bench, SESSION, sizeof(hiwalgam_session), 0);
    lend_filled(bench, POSITION, sizeof(size_t), 0);
}

/* Runs the lines of a text, which ends with a byte 0; stops at a line that is malformed. */
static int run_lines(struct bench *bench, char *text)
{
    int compare_is_due = 0, wrong = 0;

    for (char *line = text; *line != 0 && !wrong;) {
        char *end = line + strcspn(line, "\n");
        char *next = *end == 0 ? end : end + 1;
        *end = 0;
        bench->line++;
        if (*line != 0 && *line != '#') {
            struct words words = split(line);
            run_line(bench, &words, &compare_is_due);
            wrong = words.wrong;
            free(words.word);
        }
        line = next;
    }
    return !wrong && !compare_is_due;
}

static void run_transcript(struct bench *bench)
{
    struct bytes text = load(bench, bench->group);

    lend_empty_state(bench);
    check(bench, text.at != NULL && memchr(text.at, 0, text.length) == NULL, "transcript", "cannot be read");
    if (text.at != NULL) {
        text.at[text.length] = 0; /* new_bytes has a byte of room */
        check(bench, run_lines(bench, (char *)text.at), "transcript", "is malformed");
    }
    bench->line = 0;
    check(bench, bench->calls != 0, "transcript", "makes no call");
    free(text.at);
}

/* ---- Cases: structs of other sizes, NULL, closed sessions ----------------------------------------------------- */

static void lend_file(struct bench *bench, int part, const char *name)
{
    struct bytes content = load(bench, name);
    check(bench, content.at != NULL, name, "cannot be read");
    lend(bench, part, content.at, content.length);
    free(content.at);
}

static void lend_hex(struct bench *bench, int part, const char *hex)
{
    struct bytes bytes = from_hex(hex);
    lend(bench, part, bytes.at, bytes.length);
    free(bytes.at);
}

/*
 * Address 4 of volume 0 has slice 2. Address 0 has none, and a claim takes slice 1, which alone is free: it stands at the
 * last of the four places, where the session's start place is, and so has one probe.
 */
enum {
    SMALL_B = 1024, SMALL_S = 4, SMALL_P = 4, SMALL_MAPPED = 4, SMALL_UNMAPPED = 0, SMALL_START = 3, SMALL_PROBES = 1
};

/* What the next call asks for: a block, or for a release the logical slice that the block is in, of so many blocks. */
static void ask(struct bench *bench, uint64_t volume, uint64_t address, uint64_t slice_blocks)
{
    bench->volume = volume;
    bench->address = address;
    bench->logical_slice = address / slice_blocks;
}

/* The data keys of its volumes 0, 1 and 2. */
static const char SMALL_DATA_KEYS[] =
    "d1f4a3dbe758f902f537eb7142290c85489a207279c03d51d2b63d1d7dcce303"
    "b1c2b2eec9c43d5c9a44608d3b19bd8e18f6d69723e846e2e3d49ce022127242"
    "9da555b126ea9b4128c3dfa68ada57f6df56c5f538201f472092f0296101b0a9";

/*
 * Lends small.img, opened with the key of its volume 2, and everything else that a call takes; keeps all that. The tape
 * is long enough to format the device with that key, and for a shuffle.
 */
static int open_small(struct bench *bench)
{
    const hiwalgam_geometry geometry = { SMALL_B, SMALL_S, SMALL_P };
    const uint32_t permutation[4] = { 2, 0, 3, 1 };
    const uint64_t count = SMALL_P;

    lend_empty_state(bench);
    lend_file(bench, DEVICE, "small.img");
    lend_file(bench, TAPE, "tapes.bin");
    lend_hex(bench, KEY, "209cf0aaac756d3e4868bdc62bb3bf4525de822d1cb4d63976e454b4c93b2794");
    lend(bench, GEOMETRY, &geometry, sizeof geometry);
    lend(bench, PERMUTATION, permutation, sizeof permutation);
    lend(bench, COUNTS, &count, sizeof count);
    lend_filled(bench, MAPS, HIWALGAM_VOLUMES * 4 * sizeof(uint32_t), UNSET_BYTE);
    lend_filled(bench, OWNERS, 4, UNSET_BYTE);
    lend_filled(bench, TEXT, SMALL_B, 't');
    lend_filled(bench, BUFFER, SMALL_B, UNSET_BYTE);
    lend_filled(bench, WRITTEN, sizeof(hiwalgam_written), UNSET_BYTE);
    lend_slice(bench);
    ask(bench, 0, SMALL_MAPPED, SMALL_S);
    bench->volumes = 1;
    check_answer(bench, OPEN, HIWALGAM_SERVED);
    keep_all(bench);
    check_answer(bench, FORMAT, HIWALGAM_SERVED);
    put_all_back(bench);
    check_answer(bench, SHUFFLE, HIWALGAM_SERVED);
    put_all_back(bench);
    return bench->failed == 0;
}

/* Lends a struct of another size, which begins with the bytes of the right one. */
static void lend_resized(struct bench *bench, int part, size_t size)
{
    struct bytes bytes = new_bytes(size);
    for (size_t i = 0; i < size; i++) bytes.at[i] = bench->parts[part].kept.at[i % bench->parts[part].kept.length];
    if (size == 0) lend_null(bench, part);
    else lend(bench, part, bytes.at, size);
    free(bytes.at);
}

/* Among them that without the last number, and that of a session without counts. */
enum { SIZES = 6 };

static size_t other_size(const struct bench *bench, int part, int which)
{
    size_t right = bench->parts[part].kept.length;
    size_t beginning = part == SESSION ? offsetof(hiwalgam_session, counts) : sizeof(uint64_t);
    const size_t sizes[SIZES] = { 0, beginning, right - sizeof(uint64_t), right - 1, right + 1, 2 * right };
    return sizes[which];
}

static int is_struct(int part)
{
    return part == GEOMETRY || part == SESSION || part == WRITTEN;
}

/* Makes every other refusal of a call apply too: no lists, and structs of the right size with numbers not allowed. */
static void lend_all_wrong(struct bench *bench, int function)
{
    for (int part = 0; part < PARTS; part++) {
        if (!takes(function, part)) continue;
        if (is_struct(part)) lend_filled(bench, part, length_of(bench, part), UNSET_BYTE);
        else lend_null(bench, part);
    }
    ask(bench, UINT64_MAX, UINT64_MAX, 1);
    bench->volumes = SIZE_MAX;
}

static void case_size(struct bench *bench, int function, int part, int which, int all_wrong)
{
    put_all_back(bench);
    ask(bench, 0, SMALL_MAPPED, SMALL_S);
    bench->volumes = 1;
    if (all_wrong) lend_all_wrong(bench, function);
    lend_resized(bench, part, other_size(bench, part, which));
    if (function == WRITE && part == SESSION) expect_zeros(bench, WRITTEN);
    check_call(bench, function, function == FIND ? 0 : HIWALGAM_WRONG_LENGTH);
}

static void case_two_sizes(struct bench *bench, int function, int part, int other_part, int which)
{
    put_all_back(bench);
    lend_resized(bench, part, other_size(bench, part, which % SIZES));
    lend_resized(bench, other_part, other_size(bench, other_part, which / SIZES));
    check_call(bench, function, HIWALGAM_WRONG_LENGTH);
}

static void group_struct_sizes(struct bench *bench)
{
    if (!open_small(bench)) return;
    for (int function = OPEN; function <= SHUFFLE; function++)
        for (int part = 0; part < PARTS; part++) {
            if (!is_struct(part) || !takes(function, part)) continue;
            for (int which = 0; which < SIZES; which++) {
                case_size(bench, function, part, which, 0);
                case_size(bench, function, part, which, 1);
            }
        }
    for (int which = 0; which < SIZES * SIZES; which++) {
        case_two_sizes(bench, OPEN, GEOMETRY, SESSION, which);
        case_two_sizes(bench, WRITE, SESSION, WRITTEN, which);
    }
}

/* The first of these parts that is NULL decides how the call is refused. */
struct refusal {
    int function;
    int part;
    uint8_t answer;
};

static const struct refusal NULL_REFUSALS[] = {
    { OPEN, GEOMETRY, 13 }, { OPEN, SESSION, 13 }, { OPEN, DEVICE, 2 }, { OPEN, KEY, 3 }, { OPEN, MAPS, 4 },
    { OPEN, OWNERS, 4 }, { OPEN, PERMUTATION, 5 },
    { READ, SESSION, 13 }, { READ, DEVICE, 2 }, { READ, MAPS, 4 }, { READ, OWNERS, 4 }, { READ, BUFFER, 13 },
    { FIND, SESSION, 0 }, { FIND, DEVICE, 0 }, { FIND, MAPS, 0 }, { FIND, OWNERS, 0 },
    { WRITE, SESSION, 13 }, { WRITE, WRITTEN, 13 }, { WRITE, DEVICE, 2 }, { WRITE, MAPS, 4 }, { WRITE, OWNERS, 4 },
    { WRITE, PERMUTATION, 5 }, { WRITE, TEXT, 13 }, { WRITE, TAPE, 21 },
    { RELEASE, SESSION, 13 }, { RELEASE, DEVICE, 2 }, { RELEASE, MAPS, 4 }, { RELEASE, OWNERS, 4 },
    { RELEASE, PERMUTATION, 5 }, { RELEASE, TAPE, 21 },
    { CLOSE, SESSION, 13 }, { CLOSE, DEVICE, 2 }, { CLOSE, MAPS, 4 }, { CLOSE, OWNERS, 4 },
    { FORMAT, GEOMETRY, 13 }, { FORMAT, COUNTS, 1 }, { FORMAT, DEVICE, 2 }, { FORMAT, KEY, 3 }, { FORMAT, TAPE, 21 },
    { SHUFFLE, GEOMETRY, 13 }, { SHUFFLE, PERMUTATION, 4 }, { SHUFFLE, TAPE, 21 }
};

static size_t answer_with_null(int function, unsigned nulls)
{
    for (size_t i = 0; i < sizeof NULL_REFUSALS / sizeof *NULL_REFUSALS; i++)
        if (NULL_REFUSALS[i].function == function && (nulls & BIT(NULL_REFUSALS[i].part)) != 0)
            return NULL_REFUSALS[i].answer;
    return SMALL_B; /* a find without `out` */
}

/* A formatting of no volume: with the count that is lent it is refused by 1, with no count by 2 or by 23. */
static size_t answer_without_volume(unsigned nulls)
{
    if ((nulls & BIT(GEOMETRY)) != 0) return HIWALGAM_WRONG_LENGTH;
    if ((nulls & BIT(COUNTS)) == 0) return HIWALGAM_BAD_GEOMETRY;
    return (nulls & BIT(DEVICE)) != 0 ? HIWALGAM_DEVICE_LENGTH : HIWALGAM_KEY_COUNT;
}

static void case_null(struct bench *bench, int function, unsigned nulls, uint64_t address, size_t volumes)
{
    size_t answer = answer_with_null(function, nulls);
    int claim = function == WRITE && address == SMALL_UNMAPPED;

    if (function == FORMAT && volumes == 0) answer = answer_without_volume(nulls);
    if (function == RELEASE && address == SMALL_UNMAPPED && answer == HIWALGAM_TAPE_SHORT) answer = HIWALGAM_SLICE_UNMAPPED;
    for (int part = 0; part < PARTS; part++) {
        put_back(bench, part);
        if ((nulls & BIT(part)) != 0) lend_null(bench, part);
    }
    ask(bench, 0, address, SMALL_S);
    bench->volumes = volumes;
    if (function == OPEN && answer != HIWALGAM_WRONG_LENGTH) expect_zeros(bench, SESSION);
    if (function == WRITE && (nulls & BIT(WRITTEN)) == 0)
        expect_written(bench, 0, 0, claim && answer == HIWALGAM_TAPE_SHORT ? SMALL_PROBES : 0);
    check_call(bench, function, answer);
}

/* Each list and struct alone, all together, and every choice between. */
static void group_null(struct bench *bench)
{
    if (!open_small(bench)) return;
    for (int function = OPEN; function <= SHUFFLE; function++)
        for (unsigned nulls = 1; nulls < BIT(PARTS); nulls++) {
            if ((nulls & ~TAKES[function]) != 0) continue;
            case_null(bench, function, nulls, SMALL_MAPPED, 1);
            if (function == WRITE || function == RELEASE) case_null(bench, function, nulls, SMALL_UNMAPPED, 1);
            if (function == FORMAT) case_null(bench, function, nulls, SMALL_MAPPED, 0);
        }
}

/* A session that is not open is refused by 20, whatever number says so, and keeps its bytes. */
static void group_closed(struct bench *bench)
{
    const uint64_t numbers[] = {
        0, 2, 7, 0x100, 0x101, 0x10001, (uint64_t)1 << 32, ((uint64_t)1 << 32) + 1, (uint64_t)1 << 63,
        ((uint64_t)1 << 63) + 1, UINT64_MAX
    };

    if (!open_small(bench)) return;
    for (size_t i = 0; i < sizeof numbers / sizeof *numbers; i++)
        for (int function = READ; function <= CLOSE; function++) {
            hiwalgam_session session;
            put_all_back(bench);
            memcpy(&session, bench->parts[SESSION].kept.at, sizeof session);
            session.open = numbers[i];
            lend(bench, SESSION, &session, sizeof session);
            if (function == WRITE) expect_zeros(bench, WRITTEN);
            check_call(bench, function, function == FIND ? 0 : HIWALGAM_NOT_OPEN);
        }
}

/* ---- Cases: every byte of a session --------------------------------------------------------------------------- */

/* The numbers of a session by their first bytes. Volume v has its count at COUNTS_AT + 8 * v. */
enum { VOLUME_AT = 24, OPEN_AT = 32, START_AT = 40, KEYS_AT = 48, COUNTS_AT = 528, SESSION_BYTES = 648 };

/* Sets a number of eight bytes, the least significant first. */
static void set_number(uint8_t *at, uint64_t number)
{
    for (int i = 0; i < 8; i++) at[i] = (uint8_t)(number >> 8 * i);
}

/* Expects a session with these numbers, keys and counts for the volumes 0, 1 .., and zeros in every other byte. */
static void expect_session(struct bench *bench, const uint64_t *numbers, const char *keys, const uint64_t *counts,
                           size_t volumes)
{
    struct bytes bytes = from_hex(keys);
    uint8_t session[SESSION_BYTES];

    memset(session, 0, sizeof session);
    for (size_t i = 0; i < 6; i++) set_number(session + 8 * i, numbers[i]);
    memcpy(session + KEYS_AT, bytes.at, bytes.length);
    for (size_t i = 0; i < volumes; i++) set_number(session + COUNTS_AT + 8 * i, counts[i]);
    expect(bench, SESSION, session, sizeof session);
    free(bytes.at);
}

/* The fields of a session stand one behind the other, as code in other languages has them. */
static void group_layout(struct bench *bench)
{
    const uint64_t numbers[6] = { SMALL_B, 4, SMALL_P, 2, 1, SMALL_START };
    const uint64_t counts[3] = { SMALL_P, SMALL_P, SMALL_P };

    lend_empty_state(bench);
    check(bench, sizeof(hiwalgam_session) == 648 && HIWALGAM_SESSION_BYTES == 648, "session", "has not 648 bytes");
    check(bench, offsetof(hiwalgam_session, geometry) == 0, "geometry", "is not at 0");
    check(bench, offsetof(hiwalgam_session, volume) == 24, "volume", "is not at 24");
    check(bench, offsetof(hiwalgam_session, open) == 32, "open", "is not at 32");
    check(bench, offsetof(hiwalgam_session, start_place) == 40, "start_place", "is not at 40");
    check(bench, offsetof(hiwalgam_session, keys) == 48, "keys", "are not at 48");
    check(bench, offsetof(hiwalgam_session, counts) == 528, "counts", "are not at 528");
    check(bench, sizeof(((hiwalgam_session *)NULL)->start_place) == 8, "start_place", "has not 8 bytes");
    check(bench, sizeof(((hiwalgam_session *)NULL)->counts) == 120, "counts", "have not 8 bytes for each volume");
    if (!open_small(bench)) return;
    lend_filled(bench, SESSION, SESSION_BYTES, UNSET_BYTE);
    expect_session(bench, numbers, SMALL_DATA_KEYS, counts, 3);
    check_call(bench, OPEN, HIWALGAM_SERVED);
}

/* Sets a number in the session that is lent, byte by byte, and expects it to stay. */
static void lend_number(struct bench *bench, size_t at, uint64_t number)
{
    set_number(bytes_of(bench, SESSION) + at, number);
    expect_as_lent(bench, SESSION);
}

/* Expects another number than is lent, and every other byte of the session as it is. */
static void expect_number(struct bench *bench, size_t at, uint64_t number)
{
    expect_as_lent(bench, SESSION);
    set_number(bench->parts[SESSION].expected.at + at, number);
}

/* A close: every entry and owner is wiped, the session closed and without keys; every other byte that is lent stays. */
static void check_closed(struct bench *bench)
{
    expect_filled(bench, MAPS, 0xff);
    expect_zeros(bench, OWNERS);
    expect_number(bench, OPEN_AT, 0);
    memset(bench->parts[SESSION].expected.at + KEYS_AT, 0, HIWALGAM_VOLUMES * HIWALGAM_KEY_BYTES);
    check_call(bench, CLOSE, HIWALGAM_SERVED);
}

/* A served call that leaves the session, but for a close. The rest of what it sets is in the transcripts. */
static void check_served(struct bench *bench, int function)
{
    if (function == CLOSE) {
        check_closed(bench);
        return;
    }
    check_answer(bench, function, function == FIND ? (size_t)SMALL_B : (size_t)HIWALGAM_SERVED);
    for (int part = 0; part < PARTS; part++)
        if (part != SESSION) expect_as_lent(bench, part);
    compare(bench);
}

/*
 * Expects on the device the map block of a volume of small.img, made of the expected map table. Its IV are the 16 bytes of
 * the tape that come `after` bytes behind the position, and the position is then behind these.
 */
static void expect_map_block(struct bench *bench, size_t volume, size_t after)
{
    uint8_t *block = bench->parts[DEVICE].expected.at + SMALL_B * (2 + 2 * volume);
    const uint8_t *key = bench->parts[SESSION].lent.at + KEYS_AT + volume * HIWALGAM_KEY_BYTES;
    struct bytes entries = filled(SMALL_B - HIWALGAM_IV_BYTES, 0xff);
    size_t position;

    memcpy(&position, bytes_of(bench, POSITION), sizeof position);
    for (size_t i = 0; i < SMALL_P; i++) {
        uint32_t entry;
        memcpy(&entry, bench->parts[MAPS].expected.at + (volume * SMALL_P + i) * sizeof entry, sizeof entry);
        for (size_t byte = 0; byte < 4; byte++) entries.at[4 * i + byte] = (uint8_t)(entry >> (24 - 8 * byte));
    }
    memcpy(block, bytes_of(bench, TAPE) + position + after, HIWALGAM_IV_BYTES);
    check(bench,
          hiwalgam_counter_mode(key, HIWALGAM_KEY_BYTES, block, HIWALGAM_IV_BYTES, entries.at, entries.length,
                                block + HIWALGAM_IV_BYTES, entries.length) == HIWALGAM_SERVED,
          "counter_mode", "is refused");
    position += after + HIWALGAM_IV_BYTES;
    expect(bench, POSITION, &position, sizeof position);
    free(entries.at);
}

/* ---- Cases: start places -------------------------------------------------------------------------------------- */

static void lend_start(struct bench *bench, uint64_t start_place)
{
    lend_number(bench, START_AT, start_place);
}

static void expect_start(struct bench *bench, uint64_t start_place)
{
    expect_number(bench, START_AT, start_place);
}

/* What open_small keeps, with another start place, for a call on an address of volume 0. */
static void lend_small(struct bench *bench, uint64_t start_place, uint64_t address)
{
    put_all_back(bench);
    lend_start(bench, start_place);
    ask(bench, 0, address, SMALL_S);
}

static void lend_owners(struct bench *bench, uint8_t value)
{
    lend_filled(bench, OWNERS, SMALL_P, value);
}

/* A claim with all slices held: 22, after which P stands in the session, and all else as it was. */
static void case_none_free(struct bench *bench, uint64_t start_place)
{
    lend_small(bench, start_place, SMALL_UNMAPPED);
    lend_owners(bench, 200);
    lend_null(bench, TAPE); /* a 21 would come later */
    expect_start(bench, SMALL_P);
    expect_written(bench, 0, 0, SMALL_P - start_place);
    check_call(bench, WRITE, HIWALGAM_NO_FREE_SLICE);

    lend_owners(bench, 0); /* slices that are free at earlier places are not seen */
    lend_filled(bench, WRITTEN, sizeof(hiwalgam_written), UNSET_BYTE);
    expect_written(bench, 0, 0, 0);
    check_call(bench, WRITE, HIWALGAM_NO_FREE_SLICE);
}

/* A claim with all slices free: it takes the slice at the start place. The transcripts say what it stores there. */
static void case_all_free(struct bench *bench, uint64_t start_place)
{
    const uint32_t slice = numbers_of(bench, PERMUTATION)[start_place];
    const size_t first = SMALL_B * (31 + slice * (1 + SMALL_S));

    lend_small(bench, start_place, SMALL_UNMAPPED);
    lend_owners(bench, 0);
    expect_start(bench, start_place + 1);
    expect_written(bench, 1, slice, 1);
    bench->parts[OWNERS].expected.at[slice] = 1;
    memcpy(bench->parts[MAPS].expected.at, &slice, sizeof slice);
    expect_map_block(bench, 0, SMALL_B);
    check_answer(bench, WRITE, HIWALGAM_SERVED);
    memcpy(bench->parts[DEVICE].expected.at + first, bytes_of(bench, DEVICE) + first, SMALL_B * (1 + SMALL_S));
    compare(bench);
}

/* Refusals of a claim that leave every byte of the session, with the probes from the start place on. */
static void case_refused_claims(struct bench *bench, uint64_t start_place)
{
    const uint32_t no_slice[SMALL_P] = { 4, 4, 4, 4 };
    const uint32_t no_slice_last[SMALL_P] = { 2, 0, 3, UINT32_MAX };

    lend_small(bench, start_place, SMALL_UNMAPPED);
    lend(bench, PERMUTATION, no_slice, sizeof no_slice);
    expect_written(bench, 0, 0, 1);
    check_call(bench, WRITE, HIWALGAM_BAD_PERMUTATION);

    lend_small(bench, start_place, SMALL_UNMAPPED);
    lend(bench, PERMUTATION, no_slice_last, sizeof no_slice_last);
    expect_written(bench, 0, 0, SMALL_P - start_place);
    check_call(bench, WRITE, HIWALGAM_BAD_PERMUTATION);

    lend_small(bench, start_place, SMALL_UNMAPPED);
    lend_null(bench, TAPE);
    expect_written(bench, 0, 0, SMALL_P - start_place);
    check_call(bench, WRITE, HIWALGAM_TAPE_SHORT);
}

/* Refusals of other calls, or before a place is looked at, with every start place that is allowed: no byte changes. */
static void case_other_refusals(struct bench *bench, uint64_t start_place)
{
    const int parts[] = { DEVICE, MAPS, OWNERS, PERMUTATION, TEXT, BUFFER, TAPE };

    for (int function = READ; function <= CLOSE; function++)
        for (size_t i = 0; i < sizeof parts / sizeof *parts; i++) {
            /* A find takes any buffer. */
            if (!takes(function, parts[i]) || (function == FIND && parts[i] == BUFFER)) continue;
            lend_small(bench, start_place, SMALL_MAPPED);
            lend_null(bench, parts[i]);
            if (function == WRITE) expect_zeros(bench, WRITTEN);
            check_call(bench, function, answer_with_null(function, BIT(parts[i])));
        }
    lend_small(bench, start_place, SMALL_UNMAPPED);
    bench->volume = 3;
    expect_zeros(bench, WRITTEN);
    check_call(bench, WRITE, HIWALGAM_VOLUME_ABOVE);
    lend_small(bench, start_place, 16);
    expect_zeros(bench, WRITTEN);
    check_call(bench, WRITE, HIWALGAM_ADDRESS_ABOVE);
    lend_small(bench, start_place, SMALL_UNMAPPED);
    numbers_of(bench, MAPS)[0] = SMALL_P;
    expect_as_lent(bench, MAPS);
    expect_zeros(bench, WRITTEN);
    check_call(bench, WRITE, HIWALGAM_BAD_ENTRY);
}

/* Calls that are served and look at no place leave the start place, a close too. Releases have a group of their own. */
static void case_served(struct bench *bench, uint64_t start_place)
{
    for (int function = READ; function <= CLOSE; function++) {
        if (function == RELEASE) continue;
        lend_small(bench, start_place, SMALL_MAPPED);
        check_served(bench, function);
    }
}

/* A refused opening sets the start place to 0 with the rest of the session, a formatting and a 13 leave it. */
static void case_opening(struct bench *bench, uint64_t start_place)
{
    lend_small(bench, start_place, SMALL_MAPPED);
    lend_null(bench, KEY);
    expect_zeros(bench, SESSION);
    check_call(bench, OPEN, HIWALGAM_KEY_LENGTH);

    lend_small(bench, start_place, SMALL_MAPPED);
    lend_filled(bench, KEY, HIWALGAM_KEY_BYTES, UNSET_BYTE);
    lend_filled(bench, MAPS, length_of(bench, MAPS), 0xff); /* what this refusal sets */
    lend_owners(bench, 0);
    expect_zeros(bench, SESSION);
    check_call(bench, OPEN, HIWALGAM_NO_CELL);

    lend_small(bench, start_place, SMALL_MAPPED);
    lend_null(bench, GEOMETRY);
    check_call(bench, OPEN, HIWALGAM_WRONG_LENGTH);

    lend_small(bench, start_place, SMALL_MAPPED);
    expect_start(bench, SMALL_START);
    check_call(bench, OPEN, HIWALGAM_SERVED);
}

static void group_start_places(struct bench *bench)
{
    if (!open_small(bench)) return;
    for (uint64_t start_place = 0; start_place <= SMALL_P; start_place++) {
        case_none_free(bench, start_place);
        if (start_place < SMALL_P) case_all_free(bench, start_place);
        if (start_place < SMALL_P) case_refused_claims(bench, start_place);
        case_other_refusals(bench, start_place);
        case_served(bench, start_place);
        case_opening(bench, start_place);
    }
}

/* A start place above P is refused by 20, with all else right and with all else wrong, and the session keeps its bytes. */
static void group_start_above(struct bench *bench)
{
    const uint64_t places[] = {
        5, 6, 255, 256, 257, 0x10000, 0x10003, (uint64_t)1 << 32, ((uint64_t)1 << 32) + 3, (uint64_t)1 << 63,
        ((uint64_t)1 << 63) + 4, UINT64_MAX - 3, UINT64_MAX
    };
    const int lists[] = { DEVICE, MAPS, OWNERS, PERMUTATION, TAPE, TEXT, BUFFER };

    if (!open_small(bench)) return;
    for (size_t i = 0; i < sizeof places / sizeof *places; i++)
        for (int function = READ; function <= CLOSE; function++)
            for (int wrong = 0; wrong < 3; wrong++) {
                lend_small(bench, places[i], wrong == 0 ? SMALL_MAPPED : SMALL_UNMAPPED);
                for (size_t list = 0; wrong == 2 && list < sizeof lists / sizeof *lists; list++)
                    lend_null(bench, lists[list]);
                if (wrong == 2) bench->volume = UINT64_MAX;
                if (function == WRITE) expect_zeros(bench, WRITTEN);
                check_call(bench, function, function == FIND ? 0 : HIWALGAM_NOT_OPEN);
            }
}

/* ---- Cases: releases ------------------------------------------------------------------------------------------ */

/* The mapped logical slice of each volume of small.img, its slice, and the place of that. */
struct mapped {
    uint64_t logical_slice;
    uint32_t slice;
    uint64_t place;
};

enum { SMALL_VOLUMES = 3 };

static const struct mapped SMALL_SLICES[SMALL_VOLUMES] = { { 1, 2, 0 }, { 3, 0, 1 }, { 0, 3, 2 } };

/* What open_small keeps, with another start place, for a release of a logical slice of some volume. */
static void lend_release(struct bench *bench, uint64_t start_place, uint64_t volume, uint64_t logical_slice)
{
    lend_small(bench, start_place, SMALL_UNMAPPED);
    bench->volume = volume;
    bench->logical_slice = logical_slice;
}

/* Sets an entry in the map table that is lent, and expects it to stay. */
static void lend_entry(struct bench *bench, size_t volume, uint64_t logical_slice, uint32_t entry)
{
    numbers_of(bench, MAPS)[volume * SMALL_P + logical_slice] = entry;
    expect_as_lent(bench, MAPS);
}

/* A release of what a volume has, whatever the owner byte is: every byte of all that is lent. A second is 25. */
static void case_release(struct bench *bench, size_t volume, uint64_t start_place, uint8_t owner)
{
    const struct mapped *mapped = &SMALL_SLICES[volume];
    const uint32_t unmapped = HIWALGAM_UNMAPPED;

    lend_release(bench, start_place, volume, mapped->logical_slice);
    bytes_of(bench, OWNERS)[mapped->slice] = owner;
    expect_as_lent(bench, OWNERS);
    bench->parts[OWNERS].expected.at[mapped->slice] = 0;
    memcpy(bench->parts[MAPS].expected.at + (volume * SMALL_P + mapped->logical_slice) * sizeof unmapped, &unmapped,
           sizeof unmapped);
    expect_start(bench, mapped->place < start_place ? mapped->place : start_place);
    expect_slice(bench, mapped->slice);
    expect_map_block(bench, volume, 0);
    check_call(bench, RELEASE, HIWALGAM_SERVED);

    lend_slice(bench);
    check_call(bench, RELEASE, HIWALGAM_SLICE_UNMAPPED);
}

/*
 * A bad entry at each place of the map table, without a tape: a claim and a release are 9 where it stands in the row of the
 * asked entry, and else 21; a rewrite is 21 wherever it stands, but for 9 at the asked entry itself. No byte changes.
 */
static void case_bad_entry(struct bench *bench, size_t place, uint32_t bad)
{
    const size_t in_row = place < SMALL_P ? (size_t)HIWALGAM_BAD_ENTRY : (size_t)HIWALGAM_TAPE_SHORT;
    const size_t alone = place == SMALL_MAPPED / SMALL_S ? (size_t)HIWALGAM_BAD_ENTRY : (size_t)HIWALGAM_TAPE_SHORT;
    const struct { int function; uint64_t address; size_t answer; } calls[] = {
        { WRITE, SMALL_UNMAPPED, in_row }, { RELEASE, SMALL_MAPPED, in_row }, { WRITE, SMALL_MAPPED, alone }
    };

    for (size_t i = 0; i < sizeof calls / sizeof *calls; i++) {
        const int claim = calls[i].function == WRITE && calls[i].address == SMALL_UNMAPPED;
        lend_small(bench, SMALL_START, calls[i].address);
        lend_entry(bench, place / SMALL_P, place % SMALL_P, bad);
        lend_null(bench, TAPE);
        if (calls[i].function == WRITE)
            expect_written(bench, 0, 0, claim && calls[i].answer == HIWALGAM_TAPE_SHORT ? SMALL_PROBES : 0);
        check_call(bench, calls[i].function, calls[i].answer);
    }
}

/* Refusals of a release behind 5, with every start place that is allowed: no byte changes. */
static void case_refused_release(struct bench *bench, uint64_t start_place)
{
    const uint32_t bad[] = { SMALL_P, SMALL_P + 1, 257, (uint32_t)1 << 31, HIWALGAM_UNMAPPED - 1 };
    const uint64_t above[] = { SMALL_P, SMALL_P + 3, 257, (uint64_t)1 << 32, ((uint64_t)1 << 32) + 1, UINT64_MAX };

    for (size_t i = 0; i < sizeof bad / sizeof *bad; i++) {
        lend_release(bench, start_place, 0, 1);
        lend_entry(bench, 0, 1, bad[i]);
        check_call(bench, RELEASE, HIWALGAM_BAD_ENTRY);
    }
    for (size_t i = 0; i < sizeof above / sizeof *above; i++)
        for (uint64_t volume = 0; volume <= SMALL_VOLUMES; volume++) {
            lend_release(bench, start_place, volume, above[i]);
            check_call(bench, RELEASE, volume < SMALL_VOLUMES ? HIWALGAM_ADDRESS_ABOVE : HIWALGAM_VOLUME_ABOVE);
        }
}

/* A release refused by 5 whatever it asks for: a mapped logical slice, an unmapped one, a volume above k. */
static void check_bad_permutation(struct bench *bench, const uint32_t *permutation, size_t count)
{
    for (uint64_t asked = 0; asked < 3; asked++) {
        lend_release(bench, SMALL_START, asked == 2 ? UINT64_MAX : 0, asked);
        lend(bench, PERMUTATION, permutation, count * sizeof *permutation);
        check_call(bench, RELEASE, HIWALGAM_BAD_PERMUTATION);
    }
}

/* Every place with a number that is no slice, and with one that stands at another place; other lengths. */
static void case_permutations(struct bench *bench)
{
    const uint32_t good[SMALL_P + 1] = { 2, 0, 3, 1, 0 };
    const uint32_t none[] = { SMALL_P, 257, UINT32_MAX };

    for (size_t place = 0; place < SMALL_P; place++) {
        uint32_t permutation[SMALL_P];
        memcpy(permutation, good, sizeof permutation);
        for (size_t i = 0; i < sizeof none / sizeof *none; i++) {
            permutation[place] = none[i];
            check_bad_permutation(bench, permutation, SMALL_P);
        }
        for (size_t other = 0; other < SMALL_P; other++) {
            permutation[place] = good[other];
            if (other != place) check_bad_permutation(bench, permutation, SMALL_P);
        }
    }
    for (size_t count = 0; count <= SMALL_P + 1; count++)
        if (count != SMALL_P) check_bad_permutation(bench, good, count);
}

static void group_releases(struct bench *bench)
{
    const uint8_t owners[] = { 0, 1, 2, 3, 16, 255 };

    if (!open_small(bench)) return;
    for (uint64_t start_place = 0; start_place <= SMALL_P; start_place++) {
        for (size_t volume = 0; volume < SMALL_VOLUMES; volume++)
            for (size_t i = 0; i < sizeof owners; i++) case_release(bench, volume, start_place, owners[i]);
        case_refused_release(bench, start_place);
    }
    for (size_t place = 0; place < HIWALGAM_VOLUMES * SMALL_P; place++) {
        case_bad_entry(bench, place, SMALL_P);
        case_bad_entry(bench, place, HIWALGAM_UNMAPPED - 1);
    }
    case_permutations(bench);
}

/* ---- Cases: shuffles ------------------------------------------------------------------------------------------ */

/* Lends what a shuffle takes: a list of so many places, none of which is a slice, and a tape of zeros. */
static void lend_shuffle(struct bench *bench, size_t slices, size_t tape_length, size_t position)
{
    const hiwalgam_geometry geometry = { SMALL_B, 1, slices };

    lend(bench, GEOMETRY, &geometry, sizeof geometry);
    lend_filled(bench, PERMUTATION, slices * sizeof(uint32_t), UNSET_BYTE);
    lend_filled(bench, TAPE, tape_length, 0);
    lend(bench, POSITION, &position, sizeof position);
}

/* Expects what draws of 0 lead to: 1 to P - 1, and 0 last. */
static void expect_shuffled(struct bench *bench, size_t slices, size_t position)
{
    for (size_t place = 0; place < slices; place++) {
        const uint32_t slice = (uint32_t)((place + 1) % slices);
        memcpy(bench->parts[PERMUTATION].expected.at + place * sizeof slice, &slice, sizeof slice);
    }
    expect(bench, POSITION, &position, sizeof position);
}

/* A tape that ends with the last draw, from an even and from an odd position, and one that ends a byte before. */
static void case_shuffle(struct bench *bench, size_t slices)
{
    const size_t used = 2 * (slices - 1);

    for (size_t position = 2; position <= 3; position++) {
        lend_shuffle(bench, slices, position + used, position);
        expect_shuffled(bench, slices, position + used);
        check_call(bench, SHUFFLE, HIWALGAM_SERVED);
        lend_shuffle(bench, slices, position + used - 1, position);
        check_call(bench, SHUFFLE, HIWALGAM_TAPE_SHORT);
    }
}

/* NULL for a tape of no bytes: one slice needs none, but a position that is not past its end. */
static void case_shuffle_without_tape(struct bench *bench)
{
    const size_t positions[] = { 0, 1, 2, (size_t)1 << 32, SIZE_MAX - 1, SIZE_MAX };

    for (size_t slices = 1; slices <= 2; slices++)
        for (size_t i = 0; i < sizeof positions / sizeof *positions; i++) {
            int served = slices == 1 && positions[i] == 0;
            lend_shuffle(bench, slices, 0, positions[i]);
            lend_null(bench, TAPE);
            if (served) expect_shuffled(bench, slices, 0);
            check_call(bench, SHUFFLE, served ? HIWALGAM_SERVED : HIWALGAM_TAPE_SHORT);
        }
}

/* Every number of slices to 300, and some up to 4,096; a session beside it keeps its bytes. */
static void group_shuffles(struct bench *bench)
{
    if (!open_small(bench)) return;
    for (size_t slices = 1; slices <= 4096; slices += slices < 300 ? 1 : 73) case_shuffle(bench, slices);
    case_shuffle_without_tape(bench);
}

/* ---- Cases: counts -------------------------------------------------------------------------------------------- */

/*
 * counts.img: volume v has COUNTED[v] logical slices of three blocks, on a device of seven slices. The last of each has a
 * slice. Address 0 of volume 0 has none, and a claim takes the slice at the session's start place.
 */
enum { COUNTED_S = 3, COUNTED_P = 7, COUNTED_VOLUMES = 4, COUNTED_START = 2, COUNTED_LENGTH = 60416 };

static const uint64_t COUNTED[COUNTED_VOLUMES] = { 5, 1, 7, 3 };

static const char COUNTED_DATA_KEYS[] =
    "2249b181c97400d763689bce6c2596cd5339fe380ce83d4a3cdbfd78b158402d"
    "9931888138f846d74b0be58734b56ae0ccb1a7fbaab0b6a692b7bfc22669c3a8"
    "63de4c63b82f11f85f7cfc4649cd53cd4108ce2e305cc7ea6d32bfce232d6497"
    "c271b218950e82385168fcfc660e7d18a576d20043a8e418e54c40c61cedbc59";

/* Lends counts.img, opened with the key of its volume 3, and everything else that a call takes; keeps all that. */
static int open_counted(struct bench *bench)
{
    const hiwalgam_geometry geometry = { SMALL_B, COUNTED_S, COUNTED_P };
    const uint64_t numbers[6] = { SMALL_B, COUNTED_S, COUNTED_P, COUNTED_VOLUMES - 1, 1, COUNTED_START };
    const uint32_t permutation[COUNTED_P] = { 3, 6, 2, 0, 5, 4, 1 };

    lend_empty_state(bench);
    lend_file(bench, DEVICE, "counts.img");
    lend_file(bench, TAPE, "tapes.bin");
    lend_hex(bench, KEY, "a41049ed71acdb991f516f37e2682ac76c867df210a373ee281a79536fcf0cda");
    lend(bench, GEOMETRY, &geometry, sizeof geometry);
    lend(bench, PERMUTATION, permutation, sizeof permutation);
    lend_filled(bench, MAPS, HIWALGAM_VOLUMES * COUNTED_P * sizeof(uint32_t), UNSET_BYTE);
    lend_filled(bench, OWNERS, COUNTED_P, UNSET_BYTE);
    lend_filled(bench, SESSION, SESSION_BYTES, UNSET_BYTE);
    lend_filled(bench, TEXT, SMALL_B, 't');
    lend_filled(bench, BUFFER, SMALL_B, UNSET_BYTE);
    lend_filled(bench, WRITTEN, sizeof(hiwalgam_written), UNSET_BYTE);
    lend_slice(bench);
    check_answer(bench, OPEN, HIWALGAM_SERVED);
    expect_as_lent(bench, MAPS);
    expect_as_lent(bench, OWNERS);
    expect_session(bench, numbers, COUNTED_DATA_KEYS, COUNTED, COUNTED_VOLUMES);
    compare(bench);
    keep_all(bench);
    return bench->failed == 0;
}

/* What open_counted keeps, with another count of one volume, for a call on an address of some volume. */
static void lend_count(struct bench *bench, size_t row, uint64_t count, uint64_t volume, uint64_t address)
{
    put_all_back(bench);
    lend_number(bench, COUNTS_AT + 8 * row, count);
    ask(bench, volume, address, COUNTED_S);
}

/* A count of 0 or above P up to k: 20, with all else right and with all else wrong, and the session keeps its bytes. */
static void group_bad_counts(struct bench *bench)
{
    const uint64_t counts[] = {
        0, COUNTED_P + 1, 255, 256, 257, 0x10003, (uint64_t)1 << 32, ((uint64_t)1 << 32) + 1, (uint64_t)1 << 63,
        ((uint64_t)1 << 63) + 7, UINT64_MAX
    };
    const int lists[] = { DEVICE, MAPS, OWNERS, PERMUTATION, TAPE, TEXT, BUFFER };

    if (!open_counted(bench)) return;
    for (size_t row = 0; row < COUNTED_VOLUMES; row++)
        for (size_t i = 0; i < sizeof counts / sizeof *counts; i++)
            for (int function = READ; function <= CLOSE; function++)
                for (int wrong = 0; wrong < 2; wrong++) {
                    lend_count(bench, row, counts[i], wrong ? UINT64_MAX : 2, 3 * COUNTED[2] - 1);
                    for (size_t list = 0; wrong && list < sizeof lists / sizeof *lists; list++)
                        lend_null(bench, lists[list]);
                    if (function == WRITE) expect_zeros(bench, WRITTEN);
                    check_call(bench, function, function == FIND ? 0 : HIWALGAM_NOT_OPEN);
                }
}

/* Claims leave the counts too: one that is served, and one that finds no slice. */
static void case_claims_and_counts(struct bench *bench, size_t row, uint64_t count)
{
    lend_count(bench, row, count, 0, 0);
    expect_start(bench, COUNTED_START + 1);
    check_served(bench, WRITE);

    lend_count(bench, row, count, 0, 0);
    lend_filled(bench, OWNERS, COUNTED_P, 200);
    expect_start(bench, COUNTED_P);
    expect_written(bench, 0, 0, COUNTED_P - COUNTED_START);
    check_call(bench, WRITE, HIWALGAM_NO_FREE_SLICE);
}

/* Above k any count may stand: the calls are served, and leave it, a close too. An opening sets 0 again. */
static void group_counts_above(struct bench *bench)
{
    const uint64_t counts[] = { 1, COUNTED_P, COUNTED_P + 1, UINT64_MAX };

    if (!open_counted(bench)) return;
    for (size_t row = COUNTED_VOLUMES; row < HIWALGAM_VOLUMES; row++)
        for (size_t i = 0; i < sizeof counts / sizeof *counts; i++) {
            for (int function = READ; function <= CLOSE; function++) {
                lend_count(bench, row, counts[i], 3, 3 * COUNTED[3] - 1);
                check_served(bench, function);
            }
            case_claims_and_counts(bench, row, counts[i]);
            lend_count(bench, row, counts[i], 0, 0);
            expect_number(bench, COUNTS_AT + 8 * row, 0);
            check_call(bench, OPEN, HIWALGAM_SERVED);
        }
}

/*
 * A block or a logical slice behind the end of a volume is 12 with every count that the session holds, a find of it empty;
 * all stays.
 */
static void case_behind_the_end(struct bench *bench, size_t volume, uint64_t count)
{
    const uint64_t behind[] = { 0, 1, COUNTED_S, (uint64_t)1 << 32, UINT64_MAX - COUNTED_S * count };

    for (size_t i = 0; i < sizeof behind / sizeof *behind; i++)
        for (int function = READ; function <= RELEASE; function++) {
            lend_count(bench, volume, count, volume, COUNTED_S * count + behind[i]);
            if (function == WRITE) expect_zeros(bench, WRITTEN);
            check_call(bench, function, function == FIND ? 0 : HIWALGAM_ADDRESS_ABOVE);
        }
}

/*
 * A claim and a release, without a tape: 9 where an entry of the volume stands at the count or past it, as that of its last
 * logical slice does with a lower count, and else 21. Volume 1 has one logical slice, and no claim.
 */
static void case_entry_past_the_end(struct bench *bench, size_t volume, uint64_t count)
{
    const int past = count < COUNTED[volume];
    const size_t answer = past ? (size_t)HIWALGAM_BAD_ENTRY : (size_t)HIWALGAM_TAPE_SHORT;

    if (volume != 1) {
        lend_count(bench, volume, count, volume, 0);
        lend_null(bench, TAPE);
        expect_written(bench, 0, 0, past ? 0 : 1);
        check_call(bench, WRITE, answer);
    }
    lend_count(bench, volume, count, volume, past ? 0 : COUNTED_S * COUNTED[volume] - 1);
    lend_null(bench, TAPE);
    check_call(bench, RELEASE, answer);
}

/* Every count that is allowed, in each row: the last block, those behind it, entries there, and a close, judging none. */
static void group_ends(struct bench *bench)
{
    if (!open_counted(bench)) return;
    for (size_t volume = 0; volume < COUNTED_VOLUMES; volume++)
        for (uint64_t count = 1; count <= COUNTED_P; count++) {
            lend_count(bench, volume, count, volume, COUNTED_S * count - 1);
            check_served(bench, READ);
            case_behind_the_end(bench, volume, count);
            case_entry_past_the_end(bench, volume, count);
            lend_count(bench, volume, count, volume, 0);
            check_closed(bench);
        }
}

/* Lends what a formatting of so many volumes takes: key v is 32 bytes v + 1, count v is 1 + (first + 3 * v) modulo 7. */
static void lend_volumes(struct bench *bench, size_t volumes, uint64_t first)
{
    put_all_back(bench);
    lend_filled(bench, KEY, volumes * HIWALGAM_KEY_BYTES, 0);
    lend_filled(bench, COUNTS, volumes * sizeof(uint64_t), 0);
    for (size_t v = 0; v < volumes; v++) {
        memset(bytes_of(bench, KEY) + v * HIWALGAM_KEY_BYTES, (int)v + 1, HIWALGAM_KEY_BYTES);
        set_number(bytes_of(bench, COUNTS) + 8 * v, 1 + (first + 3 * v) % COUNTED_P);
    }
    expect_as_lent(bench, KEY);
    expect_as_lent(bench, COUNTS);
    bench->volumes = volumes;
}

/*
 * Opens what was formatted with key v: every byte of the session. The data key of volume i is the tape's, behind the bytes
 * that fill the device and 64 for each volume below.
 */
static void check_formatted(struct bench *bench, size_t v, const uint8_t *counts)
{
    const uint64_t numbers[6] = { SMALL_B, COUNTED_S, COUNTED_P, v, 1, 0 };

    lend_filled(bench, KEY, HIWALGAM_KEY_BYTES, (int)v + 1);
    lend_filled(bench, SESSION, SESSION_BYTES, UNSET_BYTE);
    expect_session(bench, numbers, "", NULL, 0);
    for (size_t i = 0; i <= v; i++) {
        uint8_t *expected = bench->parts[SESSION].expected.at;
        memcpy(expected + KEYS_AT + i * HIWALGAM_KEY_BYTES, bytes_of(bench, TAPE) + COUNTED_LENGTH + 64 * i + 32,
               HIWALGAM_KEY_BYTES);
        memcpy(expected + COUNTS_AT + 8 * i, counts + 8 * i, 8);
    }
    check_answer(bench, OPEN, HIWALGAM_SERVED);
    lend_filled(bench, MAPS, length_of(bench, MAPS), 0xff);
    lend_filled(bench, OWNERS, COUNTED_P, 0);
    compare(bench);
}

static void case_formatting(struct bench *bench, size_t volumes, uint64_t first)
{
    uint8_t counts[HIWALGAM_VOLUMES * sizeof(uint64_t)];

    lend_volumes(bench, volumes, first);
    memcpy(counts, bytes_of(bench, COUNTS), length_of(bench, COUNTS));
    check_served(bench, FORMAT);
    for (size_t v = 0; v < volumes; v++) check_formatted(bench, v, counts);
}

/* A count that is not allowed, in each place; another number of counts than keys, also with no key and with 16. */
static void case_refused_counts(struct bench *bench, size_t volumes)
{
    const uint64_t counts[] = { 0, COUNTED_P + 1, ((uint64_t)1 << 32) + 1, UINT64_MAX };

    for (size_t v = 0; v < volumes; v++)
        for (size_t i = 0; i < sizeof counts / sizeof *counts; i++) {
            lend_volumes(bench, volumes, 0);
            set_number(bytes_of(bench, COUNTS) + 8 * v, counts[i]);
            expect_as_lent(bench, COUNTS);
            check_call(bench, FORMAT, HIWALGAM_BAD_GEOMETRY);
        }
    for (size_t handed = 0; handed <= HIWALGAM_VOLUMES + 2; handed++) {
        lend_volumes(bench, handed, 0);
        lend_filled(bench, KEY, volumes * HIWALGAM_KEY_BYTES, 1);
        bench->volumes = volumes;
        if (handed != volumes) check_call(bench, FORMAT, HIWALGAM_BAD_GEOMETRY);
    }
    lend_volumes(bench, volumes, 0);
    if (volumes == 0) lend_null(bench, COUNTS);
    if (volumes == 0 || volumes > HIWALGAM_VOLUMES) check_call(bench, FORMAT, HIWALGAM_KEY_COUNT);
}

/* The count of one volume may be the geometry's own number of slices: both are const. */
static void case_count_in_geometry(struct bench *bench)
{
    uint8_t count[8];

    if (bench->placement == UNALIGNED) return; /* the geometry's numbers are not aligned there */
    lend_volumes(bench, 1, 0);
    lend_shared(bench, COUNTS, GEOMETRY, sizeof(uint64_t));
    bench->parts[COUNTS].lent.at += offsetof(hiwalgam_geometry, slices);
    expect_as_lent(bench, COUNTS);
    set_number(count, COUNTED_P);
    check_served(bench, FORMAT);
    check_formatted(bench, 0, count);
}

static void group_formatting(struct bench *bench)
{
    const size_t refused[] = { 0, 1, 2, HIWALGAM_VOLUMES, HIWALGAM_VOLUMES + 1 };

    if (!open_counted(bench)) return;
    for (uint64_t first = 0; first < COUNTED_P; first++) case_formatting(bench, 1, first);
    case_formatting(bench, 2, 6);
    case_formatting(bench, HIWALGAM_VOLUMES, 0);
    case_formatting(bench, HIWALGAM_VOLUMES, 4);
    for (size_t i = 0; i < sizeof refused / sizeof *refused; i++) case_refused_counts(bench, refused[i]);
    case_count_in_geometry(bench);
}

/* ---- Cases: ciphers ------------------------------------------------------------------------------------------- */

struct vector {
    const char *key, *iv, *aad, *text, *ciphertext, *tag;
};

/* SP 800-38A, F.5.5. */
static const struct vector COUNTER_MODE_VECTOR = {
    "603deb1015ca71be2b73aef0857d77811f352c073b6108d72d9810a30914dff4", "f0f1f2f3f4f5f6f7f8f9fafbfcfdfeff", "",
    "6bc1bee22e409f96e93d7e117393172aae2d8a571e03ac9c9eb76fac45af8e51"
    "30c81c46a35ce411e5fbc1191a0a52eff69f2445df4f9b17ad2b417be66c3710",
    "601ec313775789a5b7a7f504bbf3d228f443e3ca4d62b59aca84e990cacaf5c5"
    "2b0930daa23de94ce87017ba2d84988ddfc9c58db67aada613c2dd08457941a6", ""
};

/* McGrew and Viega's test cases 13, 14 and 15, and one of NIST's (gcmEncryptExtIV256) with associated data. */
static const struct vector GCM_VECTORS[] = {
    { "0000000000000000000000000000000000000000000000000000000000000000", "000000000000000000000000", "", "", "",
      "530f8afbc74536b9a963b4f1c4cb738b" },
    { "0000000000000000000000000000000000000000000000000000000000000000", "000000000000000000000000", "",
      "00000000000000000000000000000000", "cea7403d4d606b6e074ec5d3baf39d18", "d0d1c8a799996bf0265b98b5d48ab919" },
    { "feffe9928665731c6d6a8f9467308308feffe9928665731c6d6a8f9467308308", "cafebabefacedbaddecaf888", "",
      "d9313225f88406e5a55909c5aff5269a86a7a9531534f7da2e4c303d8a318a72"
      "1c3c0c95956809532fcf0e2449a6b525b16aedf5aa0de657ba637b391aafd255",
      "522dc1f099567d07f47f37a32a84427d643a8cdcbfe5c0c97598a2bd2555d1aa"
      "8cb08e48590dbb3da7b08b1056828838c5f61e6393ba7a0abcc9f662898015ad", "b094dac5d93471bdec1a502270e3cc6c" },
    { "92e11dcdaa866f5ce790fd24501f92509aacf4cb8b1339d50c9c1240935dd08b", "ac93a1a6145299bde902f21a",
      "1e0889016f67601c8ebea4943bc23ad6", "2d71bcfa914e4ac045b2aa60955fad24", "8995ae2e6df3dbf96fac7b7137bae67f",
      "eca5aa77d51d4a0a14d9c51e1da474ab" }
};

enum { GCM_VECTOR_COUNT = sizeof GCM_VECTORS / sizeof *GCM_VECTORS, GCM_VECTOR_WITH_AAD = GCM_VECTOR_COUNT - 1 };

static void expect_hex(struct bench *bench, int part, const char *hex)
{
    struct bytes bytes = from_hex(hex);
    expect(bench, part, bytes.at, bytes.length);
    free(bytes.at);
}

/*
 * Lends what a cipher call takes for a text, given in hexadecimal, and a buffer and a tag that nothing is set in. What
 * has no bytes is NULL here.
 */
static void lend_vector(struct bench *bench, const struct vector *vector, const char *text)
{
    lend_hex(bench, KEY, vector->key);
    lend_hex(bench, IV, vector->iv);
    lend_hex(bench, AAD, vector->aad);
    lend_hex(bench, TEXT, text);
    lend_filled(bench, BUFFER, strlen(text) / 2, UNSET_BYTE);
    lend_filled(bench, TAG, HIWALGAM_GCM_TAG_BYTES, UNSET_BYTE);
    for (int part = 0; part < PARTS; part++)
        if (length_of(bench, part) == 0) lend_null(bench, part);
}

static void lend_sealed(struct bench *bench, const struct vector *vector)
{
    lend_vector(bench, vector, vector->ciphertext);
    lend_hex(bench, TAG, vector->tag);
}

static void group_published(struct bench *bench)
{
    lend_empty_state(bench);
    for (int function = COUNTER_MODE; function <= KEYSTREAM_AT; function++) {
        bench->text_position = 0;
        lend_vector(bench, &COUNTER_MODE_VECTOR, COUNTER_MODE_VECTOR.text);
        expect_hex(bench, BUFFER, COUNTER_MODE_VECTOR.ciphertext);
        check_call(bench, function, HIWALGAM_SERVED);
        lend_vector(bench, &COUNTER_MODE_VECTOR, COUNTER_MODE_VECTOR.ciphertext);
        expect_hex(bench, BUFFER, COUNTER_MODE_VECTOR.text);
        check_call(bench, function, HIWALGAM_SERVED);
    }
    for (int i = 0; i < GCM_VECTOR_COUNT; i++) {
        lend_vector(bench, &GCM_VECTORS[i], GCM_VECTORS[i].text);
        expect_hex(bench, BUFFER, GCM_VECTORS[i].ciphertext);
        expect_hex(bench, TAG, GCM_VECTORS[i].tag);
        check_call(bench, GCM_SEAL, HIWALGAM_SERVED);
        lend_sealed(bench, &GCM_VECTORS[i]);
        expect_hex(bench, BUFFER, GCM_VECTORS[i].text);
        check_call(bench, GCM_OPEN, HIWALGAM_SERVED);
    }
}

/* Each bit of tag, ciphertext, associated data, IV and key: the opening is refused, and the buffer stays. */
static void group_wrong_tag(struct bench *bench)
{
    const int parts[] = { TAG, TEXT, AAD, IV, KEY };

    lend_empty_state(bench);
    for (size_t i = 0; i < sizeof parts / sizeof *parts; i++) {
        lend_sealed(bench, &GCM_VECTORS[GCM_VECTOR_WITH_AAD]);
        for (size_t bit = 0; bit < 8 * length_of(bench, parts[i]); bit++) {
            bytes_of(bench, parts[i])[bit / 8] ^= (uint8_t)(1u << bit % 8);
            expect_as_lent(bench, parts[i]);
            check_call(bench, GCM_OPEN, HIWALGAM_TAG_DIFFERS);
            bytes_of(bench, parts[i])[bit / 8] ^= (uint8_t)(1u << bit % 8);
        }
    }
}

/* The lengths of a cipher call, and its answer. Counter mode takes neither associated data nor a tag. */
struct lengths {
    size_t key, iv, aad, text, out, tag;
    uint8_t answer;
};

static const struct lengths COUNTER_LENGTHS[] = {
    { 32, 16, 0, 0, 0, 0, 0 }, { 32, 16, 0, 1, 1, 0, 0 }, { 32, 16, 0, 4096, 4096, 0, 0 },
    { 32, 16, 0, 4097, 4097, 0, 13 }, { 32, 16, 0, 4096, 4095, 0, 13 }, { 32, 16, 0, 4095, 4096, 0, 13 },
    { 32, 16, 0, 0, 1, 0, 13 }, { 32, 16, 0, 1, 0, 0, 13 },
    { 32, 15, 0, 16, 16, 0, 13 }, { 32, 17, 0, 16, 16, 0, 13 }, { 32, 12, 0, 16, 16, 0, 13 },
    { 32, 0, 0, 16, 16, 0, 13 },
    { 31, 16, 0, 16, 16, 0, 3 }, { 33, 16, 0, 16, 16, 0, 3 }, { 16, 16, 0, 16, 16, 0, 3 },
    { 0, 0, 0, 4097, 1, 0, 3 }
};

static const struct lengths GCM_LENGTHS[] = {
    { 32, 12, 0, 0, 0, 16, 0 }, { 32, 12, 16, 256, 256, 16, 0 }, { 32, 12, 1, 255, 255, 16, 0 },
    { 32, 12, 15, 1, 1, 16, 0 },
    { 32, 12, 17, 16, 16, 16, 13 }, { 32, 12, 20, 60, 60, 16, 13 }, { 32, 12, 16, 257, 257, 16, 13 },
    { 32, 12, 16, 256, 255, 16, 13 }, { 32, 12, 16, 255, 256, 16, 13 }, { 32, 12, 16, 16, 0, 16, 13 },
    { 32, 12, 16, 0, 16, 16, 13 },
    { 32, 11, 16, 16, 16, 16, 13 }, { 32, 13, 16, 16, 16, 16, 13 }, { 32, 16, 16, 16, 16, 16, 13 },
    { 32, 0, 16, 16, 16, 16, 13 },
    { 32, 12, 16, 16, 16, 15, 13 }, { 32, 12, 16, 16, 16, 17, 13 }, { 32, 12, 16, 16, 16, 0, 13 },
    { 31, 12, 16, 16, 16, 16, 3 }, { 33, 12, 16, 16, 16, 16, 3 }, { 16, 12, 16, 16, 16, 16, 3 },
    { 0, 0, 17, 257, 1, 0, 3 }
};

static void lend_lengths(struct bench *bench, const struct lengths *lengths)
{
    lend_filled(bench, KEY, lengths->key, UNSET_BYTE);
    lend_filled(bench, IV, lengths->iv, UNSET_BYTE);
    lend_filled(bench, AAD, lengths->aad, UNSET_BYTE);
    lend_filled(bench, TEXT, lengths->text, UNSET_BYTE);
    lend_filled(bench, BUFFER, lengths->out, UNSET_BYTE);
    lend_filled(bench, TAG, lengths->tag, UNSET_BYTE);
}

/* What GCM sealed is opened, and gives the text back. */
static void case_round_trip(struct bench *bench)
{
    struct bytes text = { NULL, 0 };

    store(&text, bytes_of(bench, TEXT), length_of(bench, TEXT));
    lend(bench, TEXT, bytes_of(bench, BUFFER), length_of(bench, BUFFER));
    lend_filled(bench, BUFFER, text.length, 0);
    expect(bench, BUFFER, text.at, text.length);
    check_call(bench, GCM_OPEN, HIWALGAM_SERVED);
    free(text.at);
}

static void case_counter_lengths(struct bench *bench, int function, const struct lengths *lengths)
{
    lend_lengths(bench, lengths);
    check_answer(bench, function, lengths->answer);
    if (lengths->answer == HIWALGAM_SERVED) expect_as_lent(bench, BUFFER);
    compare(bench);
}

static void case_gcm_lengths(struct bench *bench, const struct lengths *lengths)
{
    int served = lengths->answer == HIWALGAM_SERVED;
    size_t opening = served ? (size_t)HIWALGAM_TAG_DIFFERS : lengths->answer;

    lend_lengths(bench, lengths);
    check_call(bench, GCM_OPEN, opening);
    check_answer(bench, GCM_SEAL, lengths->answer);
    if (served) {
        expect_as_lent(bench, BUFFER);
        expect_as_lent(bench, TAG);
    }
    compare(bench);
    if (served) case_round_trip(bench);
}

static void group_lengths(struct bench *bench)
{
    lend_empty_state(bench);
    bench->text_position = 0;
    for (size_t i = 0; i < sizeof COUNTER_LENGTHS / sizeof *COUNTER_LENGTHS; i++) {
        case_counter_lengths(bench, COUNTER_MODE, &COUNTER_LENGTHS[i]);
        case_counter_lengths(bench, KEYSTREAM_AT, &COUNTER_LENGTHS[i]);
    }
    for (size_t i = 0; i < sizeof GCM_LENGTHS / sizeof *GCM_LENGTHS; i++) case_gcm_lengths(bench, &GCM_LENGTHS[i]);
}

/* The lists of cipher calls as NULL, one at a time and all at once; a text and an output of no bytes are served. */
static void group_cipher_null(struct bench *bench)
{
    for (int function = COUNTER_MODE; function <= GCM_OPEN; function++) {
        const struct vector *vector =
            function >= GCM_SEAL ? &GCM_VECTORS[GCM_VECTOR_WITH_AAD] : &COUNTER_MODE_VECTOR;

        lend_empty_state(bench);
        lend_sealed(bench, vector);
        lend_filled(bench, TAG, HIWALGAM_GCM_TAG_BYTES, UNSET_BYTE);
        keep_all(bench);
        for (int part = 0; part < PARTS; part++) {
            if (!takes(function, part) || part == AAD) continue;
            put_all_back(bench);
            lend_null(bench, part);
            check_call(bench, function, part == KEY ? HIWALGAM_KEY_LENGTH : HIWALGAM_WRONG_LENGTH);
        }
        put_all_back(bench);
        lend_all_wrong(bench, function);
        check_call(bench, function, HIWALGAM_KEY_LENGTH);

        put_all_back(bench);
        lend_null(bench, AAD);
        lend_null(bench, TEXT);
        lend_null(bench, BUFFER);
        if (function == GCM_SEAL) {
            check_answer(bench, function, HIWALGAM_SERVED);
            expect_as_lent(bench, TAG);
            compare(bench);
            check_call(bench, GCM_OPEN, HIWALGAM_SERVED);
        } else {
            check_call(bench, function, function == GCM_OPEN ? HIWALGAM_TAG_DIFFERS : HIWALGAM_SERVED);
        }
    }
}

/* Adds to an IV as a number of 128 bits, most significant byte first. */
static void add_to_iv(uint8_t *iv, uint64_t number)
{
    for (int i = HIWALGAM_IV_BYTES - 1; i >= 0; i--) {
        number += iv[i];
        iv[i] = (uint8_t)number;
        number >>= 8;
    }
}

/* A text without regularity, of 4,096 bytes. */
static struct bytes long_text(void)
{
    struct bytes text = new_bytes(HIWALGAM_TEXT_LIMIT);
    uint32_t number = 1;

    for (size_t i = 0; i < text.length; i++) {
        number = 1664525 * number + 1013904223;
        text.at[i] = (uint8_t)(number >> 24);
    }
    return text;
}

/* Lends an IV that is `before` blocks before the last that 128 bits count, and a long text. */
static void lend_long_text(struct bench *bench, uint64_t before)
{
    struct bytes text = long_text();
    uint8_t iv[HIWALGAM_IV_BYTES];

    memset(iv, 0, sizeof iv);
    add_to_iv(iv, 0 - before);
    memset(iv, 0xff, 8);
    lend_empty_state(bench);
    lend_hex(bench, KEY, COUNTER_MODE_VECTOR.key);
    lend(bench, IV, iv, sizeof iv);
    lend(bench, TEXT, text.at, text.length);
    lend_filled(bench, BUFFER, text.length, UNSET_BYTE);
    free(text.at);
}

/* Part of a long text, from `position` on: `whole` is what counter mode makes of the long one. */
static void case_piece(struct bench *bench, const struct bytes *text, const struct bytes *whole, size_t position,
                       size_t length)
{
    if (position > text->length || length > text->length - position) return;
    bench->text_position = position;
    lend(bench, TEXT, text->at + position, length);
    lend_filled(bench, BUFFER, length, UNSET_BYTE);
    expect(bench, BUFFER, whole->at + position, length);
    check_call(bench, KEYSTREAM_AT, HIWALGAM_SERVED);
}

/* One block of a long text, in counter mode under the IV of that block. */
static void case_block(struct bench *bench, const struct bytes *text, const struct bytes *whole, size_t block)
{
    lend_long_text(bench, 100);
    add_to_iv(bytes_of(bench, IV), block);
    expect_as_lent(bench, IV);
    lend(bench, TEXT, text->at + 16 * block, 16);
    lend_filled(bench, BUFFER, 16, UNSET_BYTE);
    expect(bench, BUFFER, whole->at + 16 * block, 16);
    check_call(bench, COUNTER_MODE, HIWALGAM_SERVED);
}

/*
 * What counter_mode makes of a long text is what it makes of each block, and what keystream_at makes of each part. The
 * counter wraps at block 100. The library has one form for short texts and one for long, which takes 256 bytes to a lane:
 * lengths lie around the limit between the two, and around the edges of a block and of a lane.
 */
static void group_pieces(struct bench *bench)
{
    const size_t lengths[] = {
        0, 1, 15, 16, 17, 31, 33, 191, 192, 193, 239, 240, 241, 255, 256, 257, 271, 272, 273, 511, 512, 513, 1000,
        3839, 3841, 4079, 4080, 4081, 4095, 4096
    };
    const size_t positions[] = {
        47, 48, 49, 63, 64, 65, 255, 1023, 1024, 2047, 2049, 3096, 4079, 4080, 4081, 4095, 4096
    };
    struct bytes whole = { NULL, 0 };
    struct bytes text = long_text();

    lend_long_text(bench, 100);
    check_answer(bench, COUNTER_MODE, HIWALGAM_SERVED);
    store(&whole, bytes_of(bench, BUFFER), length_of(bench, BUFFER));
    for (size_t i = 0; i < sizeof lengths / sizeof *lengths; i++) {
        for (size_t position = 0; position <= 33; position++) case_piece(bench, &text, &whole, position, lengths[i]);
        for (size_t j = 0; j < sizeof positions / sizeof *positions; j++)
            case_piece(bench, &text, &whole, positions[j], lengths[i]);
    }
    for (size_t block = 0; block < text.length / 16; block++) case_block(bench, &text, &whole, block);
    free(whole.at);
    free(text.at);
}

/*
 * Far positions: a text that begins `back` bytes before the limit is compared with counter mode from the block that
 * holds its first byte on.
 */
static void case_far(struct bench *bench, size_t back, size_t length)
{
    uint64_t position = HIWALGAM_POSITION_LIMIT - back;
    size_t skipped = (size_t)(position % 16);
    struct bytes whole = { NULL, 0 };

    lend_long_text(bench, 7);
    add_to_iv(bytes_of(bench, IV), position / 16);
    expect_as_lent(bench, IV);
    check_answer(bench, COUNTER_MODE, HIWALGAM_SERVED);
    store(&whole, bytes_of(bench, BUFFER), length_of(bench, BUFFER));

    lend_long_text(bench, 7);
    bench->text_position = position;
    lend(bench, TEXT, bytes_of(bench, TEXT) + skipped, length);
    lend_filled(bench, BUFFER, length, UNSET_BYTE);
    expect(bench, BUFFER, whole.at + skipped, length);
    check_call(bench, KEYSTREAM_AT, HIWALGAM_SERVED);
    free(whole.at);
}

static void group_positions(struct bench *bench)
{
    const uint64_t refused[] = { (uint64_t)HIWALGAM_POSITION_LIMIT + 1, (uint64_t)1 << 63, UINT64_MAX };

    case_far(bench, 0, 0);
    case_far(bench, 0, 1);
    case_far(bench, 0, HIWALGAM_TEXT_LIMIT);
    for (size_t back = 1; back <= 33; back++) case_far(bench, back, 2000);
    for (size_t i = 0; i < sizeof refused / sizeof *refused; i++)
        for (size_t length = 0; length <= 16; length += 16) {
            lend_long_text(bench, 7);
            bench->text_position = refused[i];
            lend_filled(bench, TEXT, length, UNSET_BYTE);
            lend_filled(bench, BUFFER, length, UNSET_BYTE);
            check_call(bench, KEYSTREAM_AT, HIWALGAM_WRONG_LENGTH);
        }
}

/* ---- Cases: const buffers that overlap ------------------------------------------------------------------------ */

/* Makes a call, then the same one with a const part that stands where another does: all is as after the first. */
static void case_shared(struct bench *bench, int function, int part, int owner)
{
    size_t length = bench->parts[part].kept.length;

    put_all_back(bench);
    lend(bench, part, bench->parts[owner].kept.at, length);
    check_answer(bench, function, HIWALGAM_SERVED);
    for (int i = 0; i < PARTS; i++) expect_as_lent(bench, i);
    for (int i = 0; i < PARTS; i++) {
        struct bytes after = bench->parts[i].expected;
        memset(&bench->parts[i].expected, 0, sizeof after);
        put_back(bench, i);
        free(bench->parts[i].expected.at);
        bench->parts[i].expected = after;
    }
    lend_shared(bench, part, owner, length);
    check_call(bench, function, HIWALGAM_SERVED);
}

/* The permutation of a release may stand in the tape, where its bytes are the IV too. */
static void case_permutation_in_tape(struct bench *bench)
{
    const struct bytes *permutation = &bench->parts[PERMUTATION].kept;

    if (bench->placement == UNALIGNED || bench->placement == AT_END) return; /* the tape is not aligned there */
    memcpy(bench->parts[TAPE].kept.at, permutation->at, permutation->length);
    case_shared(bench, RELEASE, PERMUTATION, TAPE);
}

/* The geometry of a shuffle may stand in the tape, where its bytes are draws too. */
static void case_geometry_in_tape(struct bench *bench)
{
    const struct bytes *geometry = &bench->parts[GEOMETRY].kept;

    memcpy(bench->parts[TAPE].kept.at, geometry->at, geometry->length);
    case_shared(bench, SHUFFLE, GEOMETRY, TAPE);
}

static void group_overlap(struct bench *bench)
{
    if (!open_small(bench)) return;
    case_shared(bench, WRITE, TEXT, TAPE);
    bench->address = SMALL_UNMAPPED;
    case_shared(bench, WRITE, TEXT, TAPE);
    bench->address = SMALL_MAPPED;
    case_shared(bench, READ, OWNERS, DEVICE);
    case_shared(bench, FORMAT, KEY, TAPE);
    case_permutation_in_tape(bench);
    case_geometry_in_tape(bench);

    lend_empty_state(bench);
    lend_vector(bench, &COUNTER_MODE_VECTOR, COUNTER_MODE_VECTOR.text);
    keep_all(bench);
    case_shared(bench, COUNTER_MODE, IV, KEY);
    case_shared(bench, COUNTER_MODE, IV, TEXT);

    lend_empty_state(bench);
    lend_vector(bench, &GCM_VECTORS[GCM_VECTOR_WITH_AAD], GCM_VECTORS[GCM_VECTOR_WITH_AAD].text);
    keep_all(bench);
    case_shared(bench, GCM_SEAL, AAD, TEXT);
    case_shared(bench, GCM_SEAL, IV, KEY);
}

/* ---- All of it ------------------------------------------------------------------------------------------------ */

struct group {
    const char *name;
    void (*run)(struct bench *bench);
};

static const struct group GROUPS[] = {
    { "small.txt", run_transcript }, { "two-maps.txt", run_transcript }, { "fifteen.txt", run_transcript },
    { "widest.txt", run_transcript }, { "two-cells.txt", run_transcript }, { "damaged.txt", run_transcript },
    { "refusals.txt", run_transcript }, { "tables.txt", run_transcript }, { "above.txt", run_transcript },
    { "ignored.txt", run_transcript }, { "lengths.txt", run_transcript }, { "format.txt", run_transcript },
    { "format-sizes.txt", run_transcript }, { "format-refusals.txt", run_transcript },
    { "lower-cells.txt", run_transcript }, { "start-places.txt", run_transcript }, { "counts.txt", run_transcript },
    { "format-counts.txt", run_transcript }, { "releases.txt", run_transcript }, { "map-blocks.txt", run_transcript },
    { "dropped.txt", run_transcript }, { "shuffles.txt", run_transcript },
    { "sizes of structs", group_struct_sizes }, { "NULL", group_null }, { "closed sessions", group_closed },
    { "layout of a session", group_layout }, { "start places", group_start_places },
    { "start places above P", group_start_above }, { "releases", group_releases }, { "shuffles", group_shuffles },
    { "bad counts", group_bad_counts }, { "counts above k", group_counts_above }, { "ends of volumes", group_ends },
    { "counts of a formatting", group_formatting },
    { "published vectors", group_published }, { "wrong tags", group_wrong_tag }, { "cipher lengths", group_lengths },
    { "cipher NULL", group_cipher_null }, { "parts of a text", group_pieces }, { "far positions", group_positions },
    { "overlapping const", group_overlap }
};

/* Runs a group in a placement, and adds what it found to the sums. */
static void run_group(const struct group *group, const char *folder, int placement, struct bench *sums)
{
    struct bench bench;

    memset(&bench, 0, sizeof bench);
    bench.folder = folder;
    bench.group = group->name;
    bench.placement = placement;
    group->run(&bench);
    forget_opener(&bench);
    for (int part = 0; part < PARTS; part++) {
        take_back(&bench, part);
        free(bench.parts[part].expected.at);
        free(bench.parts[part].kept.at);
    }
    sums->calls += bench.calls;
    sums->passed += bench.passed;
    sums->failed += bench.failed;
}

int main(int argc, char **argv)
{
    unsigned long passed = 0, failed = 0;

    if (argc != 2) {
        fprintf(stderr, "usage: transcripts FOLDER\n");
        return 2;
    }
    for (size_t i = 0; i < sizeof GROUPS / sizeof *GROUPS; i++) {
        struct bench sums;
        memset(&sums, 0, sizeof sums);
        printf("%-22s", GROUPS[i].name);
        fflush(stdout); /* the name is seen also where a call ends the program */
        for (int placement = 0; placement < PLACEMENTS; placement++)
            run_group(&GROUPS[i], argv[1], placement, &sums);
        printf("%6lu calls: %lu passed, %lu failed\n", (unsigned long)sums.calls, (unsigned long)sums.passed,
               (unsigned long)sums.failed);
        passed += sums.passed;
        failed += sums.failed;
    }
    printf("%lu passed, %lu failed\n", passed, failed);
    return failed == 0 && passed != 0 ? 0 : 1;
}
