/* Calls each function of the header with arguments that differ from each other, and compares all that it answers and leaves
 * with numbers worked out by hand: an argument at another place than the archive has it changes an answer. That the types are
 * those of the archive, 64 bits wide, is written out below a second time, and numbers above 2^32 are passed. It is C and C++
 * at once; tests/c/face.sh compiles it as both.
 *
 * The picture is two pixels wide and of either head. Each strip of one row has the packets of rule 10.1, or of rule 10.14 where
 * it is monochrome. Its directory follows itself, so that it is every page; strip 1, where there is one, begins with block 1. */
#include "chelmesut.h"
#include <stdio.h>
#include <stdlib.h>
#include <string.h>

/* A header with other types is refused here by the compiler. */
#ifdef __cplusplus
extern "C" {
#endif
uint64_t chelmesut_inspect(const uint8_t *, size_t, uint64_t, uint64_t, uint64_t, uint64_t, uint64_t, uint64_t, uint64_t,
                           uint64_t *, uint64_t[17]);
uint64_t chelmesut_decode(const uint8_t *, size_t, uint64_t, uint64_t, uint64_t, uint64_t, uint64_t, uint64_t, uint64_t,
                          const uint64_t[17], uint64_t *, uint8_t *, size_t, uint8_t *, size_t);
uint64_t chelmesut_read_patchy(const uint8_t *, size_t, const uint8_t *, size_t, uint64_t, uint64_t, uint64_t, uint64_t,
                               uint64_t, uint64_t, uint64_t, uint64_t *, uint8_t *, size_t, uint8_t *, size_t, uint8_t *,
                               size_t, uint64_t[6]);
uint64_t chelmesut_work_limit(uint64_t, uint64_t, uint64_t, uint64_t, uint64_t, uint64_t, uint64_t, uint64_t *);
uint64_t chelmesut_receive_start(uint8_t *, size_t, uint8_t *, size_t, uint64_t[2], uint64_t);
uint64_t chelmesut_receive_block(uint8_t *, size_t, uint8_t *, size_t, uint64_t[2], uint64_t, const uint8_t *, size_t);
uint64_t chelmesut_replay(const uint8_t *, size_t, uint8_t *, size_t, uint8_t *, size_t, uint64_t[2]);
uint64_t chelmesut_predictor64(const uint8_t *, size_t, uint64_t, uint64_t, uint64_t, uint64_t, bool, bool, uint8_t *,
                               size_t);
uint64_t chelmesut_predictor3(const uint8_t *, size_t, uint64_t, uint64_t, uint64_t, bool, uint8_t *, size_t, uint8_t *,
                              size_t);
#ifdef __cplusplus
}
#endif

enum { WAS = 0xa5, GUARD = 8, ENTRIES = 10, DIRECTORY = ENTRIES + 1, PROFILE = 128, FRONT = 4 * DIRECTORY + PROFILE };
enum { PAGE = 3, ROOM = 2048 };
enum { MOST_STORED = 8, MOST_OUTPUT = 12, MOST_SCRATCH = 20 };

/* A head's picture of one strip: tags 262 and 277, the packets and the pixels that they stand for, and what is needed and
 * charged. */
struct head {
    uint32_t photometric, channels;
    size_t stored, output, scratch;
    uint64_t fee;
    uint8_t packets[MOST_STORED], pixels[MOST_OUTPUT];
};

static const struct head colour = {32845,
                                   3,
                                   8,
                                   12,
                                   20,
                                   49,
                                   {0x80, 0x07, 0x80, 0x01, 0x80, 0x02, 0x80, 0x03},
                                   {0x01, 0x07, 0xc7, 0x00, 0x17, 0x01, 0x01, 0x07, 0xc7, 0x00, 0x17, 0x01}};
static const struct head monochrome = {32844, 1, 4, 4, 8, 21, {0x80, 0x07, 0x80, 0x01}, {0x01, 0x07, 0x01, 0x07}};

/* That of rule 10.15: every pixel has the bytes of one that is not shown. */
static const struct head dark = {32844, 1, 4, 4, 8, 21, {0x80, 0x00, 0x80, 0x00}, {0x00, 0x00, 0x00, 0x00}};

/* In 32 bits it would be 0. */
static const uint64_t wide = (uint64_t)1 << 32;

static unsigned long compared;

static void same(const char *what, uint64_t is, uint64_t expected)
{
    compared++;
    if (is == expected)
        return;
    printf("face: %s is %llu, expected %llu\n", what, (unsigned long long)is, (unsigned long long)expected);
    exit(1);
}

static void same_bytes(const char *what, const uint8_t *are, const uint8_t *expected, size_t length)
{
    for (size_t i = 0; i < length; i++) {
        compared++;
        if (are[i] != expected[i]) {
            printf("face: byte %u of %s is %u, expected %u\n", (unsigned)i, what, are[i], expected[i]);
            exit(1);
        }
    }
}

static void all_are(const char *what, const uint8_t *are, size_t from, size_t to, uint8_t expected)
{
    for (size_t i = from; i < to; i++)
        same_bytes(what, are + i, &expected, 1);
}

/* ---- the file, of a picture or of a trace */

struct file {
    uint8_t bytes[ROOM];
    size_t length;
};

static void set(struct file *file, size_t at, uint64_t value, size_t size)
{
    for (size_t i = 0; i < size; i++)
        file->bytes[at + i] = (uint8_t)(value >> (8 * i));
}

static void put(struct file *file, uint64_t value, size_t size)
{
    set(file, file->length, value, size);
    file->length += size;
}

static void put_entry(struct file *file, uint32_t tag, uint32_t type, uint32_t count, uint32_t value)
{
    put(file, tag, 2);
    put(file, type, 2);
    put(file, count, 4);
    put(file, value, 4);
}

enum { BEHIND_DIRECTORY = 8 + 2 + 12 * ENTRIES + 4, DEPTHS = BEHIND_DIRECTORY, KINDS = DEPTHS + 6 };
enum { OFFSETS = KINDS + 6, COUNTS = OFFSETS + 8, STORED = COUNTS + 8 };
enum { ENTRY_OF_PHOTOMETRIC = 8 + 2 + 4 * 12, ENTRY_OF_SAMPLES = 8 + 2 + 6 * 12 }; /* the places of tags 262 and 277 */

static size_t one_strip(const struct head *head)
{
    return STORED + head->stored;
}

static size_t two_strips(const struct head *head)
{
    return CHELMESUT_BLOCK + head->stored;
}

/* With one strip its offset and count are in the entries, and with one channel its depth and kind. */
static void make_file(const struct head *head, struct file *file, uint32_t strips)
{
    bool alone = head->channels == 1;
    memset(file, 0, sizeof *file);
    put(file, 0x002a4949, 4);
    put(file, 8, 4);
    put(file, ENTRIES, 2);
    put_entry(file, 256, 3, 1, 2);
    put_entry(file, 257, 3, 1, strips);
    put_entry(file, 258, 3, head->channels, alone ? 16 : DEPTHS);
    put_entry(file, 259, 3, 1, 34676);
    put_entry(file, 262, 3, 1, head->photometric);
    put_entry(file, 273, 4, strips, strips == 1 ? STORED : OFFSETS);
    put_entry(file, 277, 3, 1, head->channels);
    put_entry(file, 278, 3, 1, 1);
    put_entry(file, 279, 4, strips, strips == 1 ? (uint32_t)head->stored : (uint32_t)COUNTS);
    put_entry(file, 339, 3, head->channels, alone ? 2 : KINDS);
    put(file, 8, 4);
    for (int i = 0; i < 3; i++)
        put(file, 16, 2);
    for (int i = 0; i < 3; i++)
        put(file, 2, 2);
    put(file, STORED, 4);
    put(file, CHELMESUT_BLOCK, 4);
    put(file, head->stored, 4);
    put(file, head->stored, 4);
    memcpy(file->bytes + STORED, head->packets, head->stored);
    file->length = one_strip(head);
    if (strips == 2) {
        memcpy(file->bytes + CHELMESUT_BLOCK, head->packets, head->stored);
        file->length = two_strips(head);
    }
}

/* ---- names */

static void names(void)
{
    char version[32];
    static const int refusals[] = {
        CHELMESUT_OK,          CHELMESUT_TRUNCATED,      CHELMESUT_INVALID,            CHELMESUT_UNSUPPORTED,
        CHELMESUT_LIMIT,       CHELMESUT_PAGE_NOT_FOUND, CHELMESUT_OUTPUT_TOO_SMALL,   CHELMESUT_BUDGET,
        CHELMESUT_NOT_ARRIVED, CHELMESUT_MAP_SIZE,       CHELMESUT_RECEIVER_TOO_SMALL, CHELMESUT_NO_SUCH_BLOCK,
        CHELMESUT_BLOCK_SIZE};
    static const int qualities[] = {CHELMESUT_QUALITY_UNREAD, CHELMESUT_QUALITY_GOOD, CHELMESUT_QUALITY_MISSING,
                                    CHELMESUT_QUALITY_OUTSIDE, CHELMESUT_QUALITY_REJECTED};
    for (int i = 0; i < 13; i++)
        same("a refusal", (uint64_t)refusals[i], (uint64_t)i);
    for (int i = 0; i < 5; i++)
        same("a quality", (uint64_t)qualities[i], (uint64_t)i);
    same("the words of a handle", CHELMESUT_HANDLE_WORDS, 17);
    same("the words of an answer", CHELMESUT_ANSWER_WORDS, 6);
    same("the channels among the words of a handle", CHELMESUT_CHANNELS, 2);
    same("the channels among the words of an answer", CHELMESUT_A_CHANNELS, 5);
    same("the words of a receiver", CHELMESUT_RECEIVER_WORDS, 2);
    same("a block", CHELMESUT_BLOCK, 512);
    snprintf(version, sizeof version, "%d.%d.%d", CHELMESUT_VERSION_MAJOR, CHELMESUT_VERSION_MINOR, CHELMESUT_VERSION_PATCH);
    same("whether the version is that of its three numbers", strcmp(version, CHELMESUT_VERSION) == 0, 1);
}

/* ---- strict reading */

/* The least limits under which page 3 of the one strip is read: no two are equal. */
enum { LIMITS = 6 };

struct limits {
    uint64_t limit[LIMITS];
};

static struct limits least_of(const struct head *head)
{
    struct limits least = {{one_strip(head), head->scratch, 2, 4, ENTRIES, 1}};
    return least;
}

static uint64_t inspect(const struct file *file, size_t length, uint64_t page, const uint64_t *limit, uint64_t *budget,
                        uint64_t *handle)
{
    for (int i = 0; i < CHELMESUT_HANDLE_WORDS + GUARD; i++)
        handle[i] = 0xfeed + (uint64_t)i;
    return chelmesut_inspect(file->bytes, length, page, limit[0], limit[1], limit[2], limit[3], limit[4], limit[5], budget,
                             handle);
}

static void inspect_refused(const char *what, const struct file *file, size_t length, uint64_t page, const uint64_t *limit,
                            uint64_t budget, uint64_t number, uint64_t charged)
{
    uint64_t handle[CHELMESUT_HANDLE_WORDS + GUARD], left = budget;
    same(what, inspect(file, length, page, limit, &left, handle), number);
    same("what inspection leaves", left, budget - charged);
    for (int i = 0; i < CHELMESUT_HANDLE_WORDS + GUARD; i++)
        same("a word of a handle after a refusal", handle[i], 0xfeed + (uint64_t)i);
}

/* Two limits stand before all else; the others are met behind the directories, or behind the profile's charge. */
static const uint64_t numbers[LIMITS] = {CHELMESUT_LIMIT, CHELMESUT_LIMIT, CHELMESUT_UNSUPPORTED,
                                         CHELMESUT_LIMIT, CHELMESUT_LIMIT, CHELMESUT_LIMIT};
static const uint64_t charged[LIMITS] = {0, FRONT, FRONT, 0, 0, FRONT};

static void inspection(const struct head *head)
{
    const uint64_t expected[CHELMESUT_HANDLE_WORDS] = {
        2, 1, head->channels, 16, 16, 1, 34676, PAGE, ENTRIES, 0, 0, head->output, head->scratch, head->fee, 2, 1, 1};
    const struct limits least = least_of(head);
    uint64_t handle[CHELMESUT_HANDLE_WORDS + GUARD], budget = 1000;
    struct limits limits;
    struct file file, other;
    make_file(head, &file, 1);
    same("inspection", inspect(&file, file.length, PAGE, least.limit, &budget, handle), CHELMESUT_OK);
    same("what inspection leaves", budget, 1000 - FRONT - head->fee);
    for (int i = 0; i < CHELMESUT_HANDLE_WORDS + GUARD; i++)
        same("a word of a handle", handle[i], i < CHELMESUT_HANDLE_WORDS ? expected[i] : 0xfeed + (uint64_t)i);
    for (int i = 0; i < LIMITS; i++) {
        limits = least;
        limits.limit[i]--;
        inspect_refused("inspection with one limit lower", &file, file.length, PAGE, limits.limit, 1000, numbers[i],
                        charged[i]);
    }
    for (int i = 0; i < LIMITS; i++)
        limits.limit[i] = wide;
    budget = wide + FRONT + head->fee;
    same("inspection with wide limits", inspect(&file, file.length, PAGE, limits.limit, &budget, handle), CHELMESUT_OK);
    same("what inspection leaves", budget, wide);
    inspect_refused("inspection of a late page", &file, file.length, wide + PAGE, least.limit, 1000, CHELMESUT_LIMIT, 0);
    inspect_refused("inspection of the page after the last allowed", &file, file.length, PAGE + 1, least.limit, 1000,
                    CHELMESUT_LIMIT, 0);
    inspect_refused("inspection of a short file", &file, file.length - 1, PAGE, least.limit, 1000, CHELMESUT_TRUNCATED,
                    FRONT);
    inspect_refused("inspection with a unit too few", &file, file.length, PAGE, least.limit, FRONT + head->fee - 1,
                    CHELMESUT_BUDGET, FRONT);
    other = file;
    other.bytes[STORED] = 0x83;
    inspect_refused("inspection of a long run", &other, file.length, PAGE, least.limit, 1000, CHELMESUT_INVALID,
                    FRONT + head->fee);
    other = file;
    memset(other.bytes + BEHIND_DIRECTORY - 4, 0, 4);
    inspect_refused("inspection without a page", &other, file.length, PAGE, least.limit, 1000, CHELMESUT_PAGE_NOT_FOUND,
                    DIRECTORY);
}

/* Without tag 277 a picture has one sample. */
static void samples_unsaid(const struct head *head)
{
    const struct limits least = least_of(head);
    uint64_t handle[CHELMESUT_HANDLE_WORDS + GUARD], budget = 1000;
    struct file file;
    make_file(head, &file, 1);
    set(&file, ENTRY_OF_SAMPLES, 65000, 2);
    if (head->channels == 3) {
        inspect_refused("inspection without the number of samples", &file, file.length, PAGE, least.limit, 1000,
                        CHELMESUT_UNSUPPORTED, FRONT);
        return;
    }
    same("inspection without the number of samples", inspect(&file, file.length, PAGE, least.limit, &budget, handle),
         CHELMESUT_OK);
    same("what inspection leaves", budget, 1000 - FRONT - head->fee);
    same("the channels", handle[CHELMESUT_CHANNELS], 1);
}

/* Buffers with bytes behind what is lent, which are never to change. */
struct lent {
    uint8_t output[2 * MOST_OUTPUT + GUARD], scratch[MOST_SCRATCH + GUARD], quality[4 + GUARD];
};

static void fill(struct lent *lent)
{
    memset(lent, WAS, sizeof *lent);
}

/* One word of the handle is forged by adding to it. */
static void decode(const char *what, const struct head *head, uint64_t page, int word, uint64_t forgery, size_t output,
                   size_t scratch, uint64_t budget, uint64_t number)
{
    struct file file;
    struct lent lent;
    uint64_t handle[CHELMESUT_HANDLE_WORDS + GUARD], words[CHELMESUT_HANDLE_WORDS + GUARD], left = 1000;
    struct limits limits = least_of(head);
    const uint64_t *limit = limits.limit;
    limits.limit[0]++; /* the length of the file is not among these */
    make_file(head, &file, 1);
    fill(&lent);
    same("inspection", inspect(&file, file.length, PAGE, limit, &left, handle), CHELMESUT_OK);
    handle[word] += forgery;
    memcpy(words, handle, sizeof words);
    left = budget;
    same(what,
         chelmesut_decode(file.bytes, file.length, page, limit[0], limit[1], limit[2], limit[3], limit[4], limit[5], handle,
                          &left, lent.output, output, lent.scratch, scratch),
         number);
    same("what decode leaves", left, number == CHELMESUT_OK ? budget - head->fee : budget);
    same("whether the handle is as it was", memcmp(words, handle, sizeof words) == 0, 1);
    if (number == CHELMESUT_OK) {
        same_bytes("output", lent.output, head->pixels, head->output);
        all_are("scratch", lent.scratch, 0, head->scratch, 0);
    }
    all_are("output that stays", lent.output, number == CHELMESUT_OK ? head->output : 0, sizeof lent.output, WAS);
    all_are("scratch that stays", lent.scratch, number == CHELMESUT_OK ? head->scratch : 0, sizeof lent.scratch, WAS);
}

static void decoding(const struct head *head)
{
    const int last = CHELMESUT_HANDLE_WORDS - 1;
    const size_t output = head->output, scratch = head->scratch;
    const uint64_t fee = head->fee, other_channels = 4 - 2 * (uint64_t)head->channels; /* from 3 to 1 or from 1 to 3 */
    decode("decode", head, PAGE, last, 0, output, scratch, fee, CHELMESUT_OK);
    decode("decode with longer buffers", head, PAGE, last, 0, output + 1, scratch + 2, fee + 3, CHELMESUT_OK);
    decode("decode of another page", head, PAGE - 1, last, 0, output, scratch, fee, CHELMESUT_INVALID);
    decode("decode of a forged handle", head, PAGE, last, 1, output, scratch, fee, CHELMESUT_INVALID);
    decode("decode of the other head's handle", head, PAGE, CHELMESUT_CHANNELS, other_channels, MOST_OUTPUT, MOST_SCRATCH,
           fee, CHELMESUT_INVALID);
    decode("decode with short output", head, PAGE, last, 0, output - 1, scratch, fee, CHELMESUT_OUTPUT_TOO_SMALL);
    decode("decode with short scratch", head, PAGE, last, 0, output, scratch - 1, fee, CHELMESUT_OUTPUT_TOO_SMALL);
    decode("decode with a unit too few", head, PAGE, last, 0, output, scratch, fee - 1, CHELMESUT_BUDGET);
}

/* ---- patchy reading, of two strips in two blocks */

struct trial {
    const char *what;
    const struct head *head;
    struct file file;
    size_t length, map_length, output, scratch, quality;
    uint8_t map[3];
    uint64_t limit[LIMITS], budget;
};

/* The least limits, but that max_dimension is one above the sides, so that no two are equal. (Output and scratch of the two
 * monochrome strips both have eight bytes.) */
static struct trial whole(const struct head *head, const char *what)
{
    const uint64_t least[LIMITS] = {two_strips(head), 2 * head->output, 3, 4, ENTRIES, 2};
    struct trial t;
    memset(&t, 0, sizeof t);
    t.what = what;
    t.head = head;
    make_file(head, &t.file, 2);
    t.length = t.file.length;
    t.map_length = 2;
    t.output = 2 * head->output;
    t.scratch = head->scratch;
    t.quality = 4;
    t.map[0] = t.map[1] = 1;
    memcpy(t.limit, least, sizeof t.limit);
    t.budget = 1000;
    return t;
}

/* The two strips get these codes; or, with a number that is not 0, the call is refused. */
static void read_patchy(const struct trial *t, uint64_t number, uint64_t charge, uint8_t first, uint8_t second)
{
    const struct head *head = t->head;
    const uint64_t expected[CHELMESUT_ANSWER_WORDS] = {2, 2, 2, 1, 2, head->channels}, *limit = t->limit;
    const uint8_t codes[2] = {first, second}, blank[MOST_OUTPUT] = {0};
    uint64_t answer[CHELMESUT_ANSWER_WORDS + GUARD], left = t->budget;
    struct lent lent;
    bool read = number == CHELMESUT_OK;
    fill(&lent);
    for (int i = 0; i < CHELMESUT_ANSWER_WORDS + GUARD; i++)
        answer[i] = 0xfeed + (uint64_t)i;
    same(t->what,
         chelmesut_read_patchy(t->file.bytes, t->length, t->map, t->map_length, PAGE, limit[0], limit[1], limit[2], limit[3],
                               limit[4], limit[5], &left, lent.output, t->output, lent.scratch, t->scratch, lent.quality,
                               t->quality, answer),
         number);
    same("what patchy reading leaves", left, t->budget - charge);
    for (int i = 0; i < CHELMESUT_ANSWER_WORDS + GUARD; i++)
        same("a word of an answer", answer[i], read && i < CHELMESUT_ANSWER_WORDS ? expected[i] : 0xfeed + (uint64_t)i);
    for (int k = 0; read && k < 2; k++)
        same_bytes("a strip", lent.output + (size_t)k * head->output,
                   codes[k] == CHELMESUT_QUALITY_GOOD ? head->pixels : blank, head->output);
    all_are("output that stays", lent.output, read ? 2 * head->output : 0, sizeof lent.output, WAS);
    all_are("scratch", lent.scratch, 0, read ? head->scratch : 0, 0);
    all_are("scratch that stays", lent.scratch, read ? head->scratch : 0, sizeof lent.scratch, WAS);
    same_bytes("quality", lent.quality, codes, read ? 2 : 0);
    all_are("quality without a segment", lent.quality, read ? 2 : 0, t->quality, CHELMESUT_QUALITY_UNREAD);
    all_are("quality that stays", lent.quality, t->quality, sizeof lent.quality, WAS);
}

static void read_strips(const struct head *head)
{
    const uint8_t good = CHELMESUT_QUALITY_GOOD, missing = CHELMESUT_QUALITY_MISSING;
    struct trial t = whole(head, "patchy reading, all came");
    read_patchy(&t, CHELMESUT_OK, FRONT + 2 * head->fee, good, good);
    t = whole(head, "patchy reading with wide limits");
    for (int i = 0; i < LIMITS; i++)
        t.limit[i] = wide;
    read_patchy(&t, CHELMESUT_OK, FRONT + 2 * head->fee, good, good);
    t = whole(head, "patchy reading without a map");
    t.map_length = 0;
    read_patchy(&t, CHELMESUT_OK, FRONT + 2 * head->fee, good, good);
    t = whole(head, "patchy reading, block 1 lost");
    t.map[1] = 0;
    read_patchy(&t, CHELMESUT_OK, FRONT + head->fee + 1, good, missing);
    t.map[1] = 2;
    memset(t.file.bytes + CHELMESUT_BLOCK, 0xff, head->stored);
    read_patchy(&t, CHELMESUT_OK, FRONT + head->fee + 1, good, missing);
    t = whole(head, "patchy reading of a short file");
    t.length--;
    read_patchy(&t, CHELMESUT_OK, FRONT + head->fee + 1, good, CHELMESUT_QUALITY_OUTSIDE);
    t = whole(head, "patchy reading of a long run");
    t.file.bytes[STORED] = 0x83;
    read_patchy(&t, CHELMESUT_OK, FRONT + 2 * head->fee, CHELMESUT_QUALITY_REJECTED, good);
}

static void refuse_strips(const struct head *head)
{
    struct trial t;
    for (int i = 0; i < LIMITS; i++) {
        t = whole(head, "patchy reading with one limit lower");
        t.limit[i] -= i == 2 ? 2 : 1; /* max_dimension */
        read_patchy(&t, numbers[i], charged[i], 0, 0);
    }
    t = whole(head, "patchy reading with a long map");
    t.map_length = 3;
    read_patchy(&t, CHELMESUT_MAP_SIZE, 0, 0, 0);
    t = whole(head, "patchy reading, block 0 lost");
    t.map[0] = 0;
    read_patchy(&t, CHELMESUT_NOT_ARRIVED, 0, 0, 0);
    t = whole(head, "patchy reading with short output");
    t.output--;
    read_patchy(&t, CHELMESUT_OUTPUT_TOO_SMALL, FRONT, 0, 0);
    t = whole(head, "patchy reading with short scratch");
    t.scratch--;
    read_patchy(&t, CHELMESUT_OUTPUT_TOO_SMALL, FRONT, 0, 0);
    t = whole(head, "patchy reading with short quality");
    t.quality = 1;
    read_patchy(&t, CHELMESUT_OUTPUT_TOO_SMALL, FRONT, 0, 0);
    t = whole(head, "patchy reading with a unit too few");
    t.budget = FRONT + 2 * head->fee - 1;
    read_patchy(&t, CHELMESUT_BUDGET, FRONT, 0, 0);
}

/* Photometric and samples must be those of one head together (rule 3.9), for either reading. */
static void other_heads(const struct head *head)
{
    static const uint32_t photometrics[] = {0, 1, 2, 32843, 32844, 32845, 32846}, samples[] = {0, 1, 2, 3, 4};
    const struct limits least = least_of(head);
    for (int p = 0; p < 7; p++)
        for (int c = 0; c < 5; c++) {
            struct trial t = whole(head, "patchy reading of a picture of no head");
            struct file file;
            if (photometrics[p] == head->photometric && samples[c] == head->channels)
                continue;
            /* The other head's two numbers go together; it is then the depths that are too many or too few. */
            make_file(head, &file, 1);
            set(&file, ENTRY_OF_PHOTOMETRIC + 8, photometrics[p], 2);
            set(&file, ENTRY_OF_SAMPLES + 8, samples[c], 2);
            inspect_refused("inspection of a picture of no head", &file, file.length, PAGE, least.limit, 1000,
                            CHELMESUT_UNSUPPORTED, FRONT);
            set(&t.file, ENTRY_OF_PHOTOMETRIC + 8, photometrics[p], 2);
            set(&t.file, ENTRY_OF_SAMPLES + 8, samples[c], 2);
            read_patchy(&t, CHELMESUT_UNSUPPORTED, FRONT, 0, 0);
        }
}

/* ---- the bound, in which max_dimension and max_directories have no part, and page and max_tags the same */

static void work_limit(void)
{
    uint64_t limit[2] = {0xfeed, 0xfeed};
    same("the number of the work limit", chelmesut_work_limit(2, 1000, 300, 77, 55, 10, 13, limit), CHELMESUT_OK);
    same("the work limit", limit[0], 3 * 11 + 128 + 13 * (1000 + 2 * 300 + 1));
    limit[0] = 0xfeed;
    same("the number of the work limit", chelmesut_work_limit(2, UINT64_MAX, 300, 77, 55, 10, 1, limit), CHELMESUT_LIMIT);
    same("the work limit after a refusal", limit[0], 0xfeed);
    same("the word behind the work limit", limit[1], 0xfeed);
}

/* ---- the receiver, of a picture of two blocks */

enum { LAST = 9, RECEIVED = CHELMESUT_BLOCK + LAST, BLOCKS = 2 };

/* What is lent to a receiver, and as much behind it as is never to change. */
struct receiver {
    uint8_t file[RECEIVED + GUARD], map[BLOCKS + GUARD];
    uint64_t words[CHELMESUT_RECEIVER_WORDS + GUARD];
};

static struct receiver receiver_with(uint64_t started, uint64_t length)
{
    struct receiver receiver;
    memset(&receiver, WAS, sizeof receiver);
    receiver.words[CHELMESUT_R_STARTED] = started;
    receiver.words[CHELMESUT_R_LENGTH] = length;
    return receiver;
}

static void same_receiver(const struct receiver *is, const struct receiver *expected)
{
    same_bytes("a received file", is->file, expected->file, sizeof is->file);
    same_bytes("a received map", is->map, expected->map, sizeof is->map);
    for (int i = 0; i < CHELMESUT_RECEIVER_WORDS + GUARD; i++)
        same("a word of a receiver", is->words[i], expected->words[i]);
}

/* What an accepted start and an accepted block leave. */
static void started(struct receiver *receiver, size_t map_length, uint64_t length)
{
    memset(receiver->map, 0, map_length);
    receiver->words[CHELMESUT_R_STARTED] = 1;
    receiver->words[CHELMESUT_R_LENGTH] = length;
}

static void placed(struct receiver *receiver, uint64_t number, const uint8_t *bytes, size_t size)
{
    memcpy(receiver->file + CHELMESUT_BLOCK * number, bytes, size);
    receiver->map[number] = 1;
}

static void start(const char *what, size_t file_length, size_t map_length, uint64_t length, uint64_t number)
{
    for (uint64_t word = 0; word < 3; word++) {
        struct receiver is = receiver_with(word, RECEIVED - 1), expected = is;
        same(what, chelmesut_receive_start(is.file, file_length, is.map, map_length, is.words, length), number);
        if (number == CHELMESUT_OK)
            started(&expected, map_length, length);
        same_receiver(&is, &expected);
    }
}

static void starts(void)
{
    start("a start", RECEIVED, BLOCKS, RECEIVED, CHELMESUT_OK);
    start("a start in longer buffers", RECEIVED + 1, BLOCKS + 2, RECEIVED, CHELMESUT_OK);
    start("a start of a whole block", CHELMESUT_BLOCK, 1, CHELMESUT_BLOCK, CHELMESUT_OK);
    start("a start of nothing", 0, 0, 0, CHELMESUT_OK);
    start("a start with a short file", RECEIVED - 1, BLOCKS, RECEIVED, CHELMESUT_RECEIVER_TOO_SMALL);
    start("a start with a short map", RECEIVED, BLOCKS - 1, RECEIVED, CHELMESUT_RECEIVER_TOO_SMALL);
    start("a start of a long picture", RECEIVED, BLOCKS, wide + RECEIVED, CHELMESUT_RECEIVER_TOO_SMALL);
    start("a start of the longest picture", RECEIVED, BLOCKS, UINT64_MAX, CHELMESUT_RECEIVER_TOO_SMALL);
}

static void make_bytes(uint8_t *bytes, size_t length)
{
    for (size_t i = 0; i < length; i++)
        bytes[i] = (uint8_t)(7 * i + 1);
}

static void block(const char *what, uint64_t word, uint64_t length, size_t file_length, size_t map_length, uint64_t number,
                  size_t size, uint64_t answer)
{
    struct receiver is = receiver_with(word, length), expected = is;
    uint8_t bytes[CHELMESUT_BLOCK + 1];
    make_bytes(bytes, sizeof bytes);
    same(what, chelmesut_receive_block(is.file, file_length, is.map, map_length, is.words, number, bytes, size), answer);
    if (answer == CHELMESUT_OK)
        placed(&expected, number, bytes, size);
    same_receiver(&is, &expected);
}

static void blocks(void)
{
    const uint64_t none = CHELMESUT_NO_SUCH_BLOCK, small = CHELMESUT_RECEIVER_TOO_SMALL, size = CHELMESUT_BLOCK_SIZE;
    block("a block", 1, RECEIVED, RECEIVED, BLOCKS, 0, CHELMESUT_BLOCK, CHELMESUT_OK);
    block("the last block", 1, RECEIVED, RECEIVED, BLOCKS, 1, LAST, CHELMESUT_OK);
    block("the last block in longer buffers", 1, RECEIVED, RECEIVED + 1, BLOCKS + 2, 1, LAST, CHELMESUT_OK);
    block("a last block that is whole", 1, CHELMESUT_BLOCK, RECEIVED, BLOCKS, 0, CHELMESUT_BLOCK, CHELMESUT_OK);
    block("a block before any start", 0, RECEIVED, RECEIVED, BLOCKS, 0, CHELMESUT_BLOCK, none);
    block("a block with a word that is not 1", wide + 1, RECEIVED, RECEIVED, BLOCKS, 0, CHELMESUT_BLOCK, none);
    block("a block before any start with no buffers", 0, RECEIVED, 0, 0, 0, CHELMESUT_BLOCK, none);
    block("a block with a short file", 1, RECEIVED, RECEIVED - 1, BLOCKS, 0, CHELMESUT_BLOCK, small);
    block("a block with a short map", 1, RECEIVED, RECEIVED, BLOCKS - 1, 0, CHELMESUT_BLOCK, small);
    block("a block of a long picture", 1, wide + RECEIVED, RECEIVED, BLOCKS, 0, CHELMESUT_BLOCK, small);
    block("a block behind the last, with a short file", 1, RECEIVED, RECEIVED - 1, BLOCKS, 2, 0, small);
    block("a block behind the last", 1, RECEIVED, RECEIVED, BLOCKS, 2, LAST, none);
    block("a block behind a last one that is whole", 1, CHELMESUT_BLOCK, RECEIVED, BLOCKS, 1, 0, none);
    block("a block of nothing", 1, 0, RECEIVED, BLOCKS, 0, 0, none);
    block("a block with a wide number", 1, RECEIVED, RECEIVED, BLOCKS, wide + 1, LAST, none);
    block("a block with the greatest number", 1, RECEIVED, RECEIVED, BLOCKS, UINT64_MAX, LAST, none);
    block("a short block", 1, RECEIVED, RECEIVED, BLOCKS, 0, CHELMESUT_BLOCK - 1, size);
    block("a long block", 1, RECEIVED, RECEIVED, BLOCKS, 0, CHELMESUT_BLOCK + 1, size);
    block("a short last block", 1, RECEIVED, RECEIVED, BLOCKS, 1, LAST - 1, size);
    block("a long last block", 1, RECEIVED, RECEIVED, BLOCKS, 1, LAST + 1, size);
    block("a whole last block", 1, RECEIVED, RECEIVED, BLOCKS, 1, CHELMESUT_BLOCK, size);
}

static void put_start(struct file *trace, uint64_t length)
{
    put(trace, 1, 1);
    put(trace, length, 8);
}

static void put_block(struct file *trace, uint64_t number, const uint8_t *bytes, size_t size)
{
    put(trace, 2, 1);
    put(trace, number, 8);
    put(trace, size, 2);
    memcpy(trace->bytes + trace->length, bytes, size);
    trace->length += size;
}

/* A trace with each kind of message: where each ends, and what a receiver is after it. */
enum { MESSAGES = 9, LENT_FILE = RECEIVED + 2, LENT_MAP = BLOCKS + 1 };

struct recording {
    struct file trace;
    size_t ends[MESSAGES + 1];
    struct receiver after[MESSAGES + 1];
    int messages;
};

/* A message was put, and leaves this. */
static void leaves(struct recording *recording, const struct receiver *receiver)
{
    recording->messages++;
    recording->ends[recording->messages] = recording->trace.length;
    recording->after[recording->messages] = *receiver;
}

static struct recording record(struct receiver receiver)
{
    struct recording recording;
    struct file *trace = &recording.trace;
    uint8_t bytes[CHELMESUT_BLOCK];
    memset(&recording, 0, sizeof recording);
    make_bytes(bytes, sizeof bytes);
    recording.after[0] = receiver;
    put_block(trace, 0, bytes, 1); /* refused, be it before any start or for its size */
    leaves(&recording, &receiver);
    put_start(trace, RECEIVED);
    started(&receiver, LENT_MAP, RECEIVED);
    leaves(&recording, &receiver);
    put_block(trace, 1, bytes + 1, LAST);
    placed(&receiver, 1, bytes + 1, LAST);
    leaves(&recording, &receiver);
    put_block(trace, 1, bytes, LAST);
    placed(&receiver, 1, bytes, LAST);
    leaves(&recording, &receiver);
    put_block(trace, wide, bytes, CHELMESUT_BLOCK);
    leaves(&recording, &receiver);
    put_start(trace, wide + 1);
    leaves(&recording, &receiver);
    put_block(trace, 0, bytes, CHELMESUT_BLOCK);
    placed(&receiver, 0, bytes, CHELMESUT_BLOCK);
    leaves(&recording, &receiver);
    put_block(trace, 1, bytes, 0);
    leaves(&recording, &receiver);
    put_start(trace, 1);
    started(&receiver, LENT_MAP, 1);
    leaves(&recording, &receiver);
    return recording;
}

static void replay(const char *what, const struct file *trace, struct receiver is, uint64_t number,
                   const struct receiver *expected)
{
    same(what, chelmesut_replay(trace->bytes, trace->length, is.file, LENT_FILE, is.map, LENT_MAP, is.words), number);
    same_receiver(&is, expected);
}

/* The trace up to each of its bytes; and behind each whole message a byte that begins none. */
static void replay_to_each_byte(const struct receiver *before)
{
    static const uint8_t foreign[] = {0, 3, 255};
    const struct recording recording = record(*before);
    struct file trace = recording.trace;
    int whole = 0;
    for (trace.length = 0; trace.length <= recording.trace.length; trace.length++) {
        if (whole < MESSAGES && trace.length == recording.ends[whole + 1])
            whole++;
        if (trace.length > recording.ends[whole]) {
            replay("a replay of a cut trace", &trace, *before, CHELMESUT_TRUNCATED, &recording.after[whole]);
            continue;
        }
        replay("a replay", &trace, *before, CHELMESUT_OK, &recording.after[whole]);
        for (size_t i = 0; i < sizeof foreign; i++) {
            struct file other = trace;
            put(&other, foreign[i], 1);
            replay("a replay of another message", &other, *before, CHELMESUT_INVALID, &recording.after[whole]);
        }
    }
}

static void replays(void)
{
    for (uint64_t word = 0; word < 2; word++) {
        struct receiver before = receiver_with(word, RECEIVED);
        replay_to_each_byte(&before);
    }
}

/* ---- predictors */

enum { SAMPLES = 6 };

static void put_samples(uint8_t *bytes, const uint64_t *samples, size_t count, bool little_endian)
{
    for (size_t i = 0; i < 8 * count; i++)
        bytes[i] = (uint8_t)(samples[i / 8] >> (8 * (little_endian ? i % 8 : 7 - i % 8)));
}

static void predict64(const char *what, const uint64_t *raw, size_t raw_length, uint64_t width, uint64_t height,
                      uint64_t channels, uint64_t reset_width, bool little_endian, bool predict, size_t output_length,
                      uint64_t number, const uint64_t *expected)
{
    uint8_t input[8 * SAMPLES], output[8 * SAMPLES + GUARD], bytes[8 * SAMPLES];
    size_t written = number == CHELMESUT_OK ? (size_t)(8 * width * height * channels) : 0;
    memset(output, WAS, sizeof output);
    put_samples(input, raw, raw_length / 8, little_endian);
    put_samples(bytes, expected, written / 8, true);
    same(what,
         chelmesut_predictor64(input, raw_length, width, height, channels, reset_width, little_endian, predict, output,
                               output_length),
         number);
    same_bytes(what, output, bytes, written);
    all_are("output that stays", output, written, sizeof output, WAS);
}

static void predictor64(void)
{
    static const uint64_t wraps[] = {UINT64_MAX, 2}, wrapped[] = {UINT64_MAX, 1};
    static const uint64_t raw[] = {1, 2, 3, 4, 5, 6}, rows[] = {1, 3, 3, 4, 9, 6}, pixel_pairs[] = {1, 2, 4, 6, 5, 6};
    static const uint64_t sums[] = {1, 3, 6, 10, 15, 21};
    predict64("predictor 64 that wraps", wraps, 16, 2, 1, 1, 2, true, true, 16, CHELMESUT_OK, wrapped);
    predict64("predictor 64, 3 by 2", raw, 48, 3, 2, 1, 2, false, true, 48, CHELMESUT_OK, rows);
    predict64("predictor 64, 3 by 1, two channels", raw, 48, 3, 1, 2, 2, true, true, 49, CHELMESUT_OK, pixel_pairs);
    predict64("predictor 64 that copies", raw, 48, 3, 2, 1, 2, false, false, 48, CHELMESUT_OK, raw);
    predict64("predictor 64, five channels", raw, 48, 3, 2, 5, 2, true, true, 48, CHELMESUT_UNSUPPORTED, raw);
    predict64("predictor 64, no columns", raw, 48, 0, 2, 1, 2, true, true, 48, CHELMESUT_INVALID, raw);
    predict64("predictor 64, too large", raw, 48, UINT64_MAX, 2, 1, 2, true, true, 48, CHELMESUT_LIMIT, raw);
    predict64("predictor 64, too high", raw, 48, 3, wide + 2, 1, 2, true, true, 48, CHELMESUT_TRUNCATED, raw);
    predict64("predictor 64, many channels", raw, 48, 3, 2, wide + 1, 2, true, true, 48, CHELMESUT_UNSUPPORTED, raw);
    predict64("predictor 64, a late reset", raw, 48, 6, 1, 1, wide + 2, true, true, 48, CHELMESUT_OK, sums);
    predict64("predictor 64, short input", raw, 40, 3, 2, 1, 2, true, true, 48, CHELMESUT_TRUNCATED, raw);
    predict64("predictor 64, short output", raw, 48, 3, 2, 1, 2, true, true, 47, CHELMESUT_OUTPUT_TOO_SMALL, raw);
}

enum { BYTES = 24 };

static void predict3(const char *what, size_t raw_length, uint64_t row, uint64_t channels, uint64_t sample_bytes,
                     bool little_endian, size_t scratch_length, size_t output_length, uint64_t number, const uint8_t *summed,
                     const uint8_t *gathered)
{
    uint8_t raw[BYTES], scratch[BYTES + GUARD], output[BYTES + GUARD];
    size_t written = number == CHELMESUT_OK ? raw_length : 0;
    memset(raw, 1, sizeof raw);
    memset(scratch, WAS, sizeof scratch);
    memset(output, WAS, sizeof output);
    same(what,
         chelmesut_predictor3(raw, raw_length, row, channels, sample_bytes, little_endian, scratch, scratch_length, output,
                              output_length),
         number);
    same_bytes("the sums of predictor 3", scratch, summed, written);
    same_bytes("what predictor 3 gathers", output, gathered, written);
    all_are("scratch that stays", scratch, written, sizeof scratch, WAS);
    all_are("output that stays", output, written, sizeof output, WAS);
}

static void predictor3(void)
{
    static const uint8_t sums[] = {1, 2, 3, 4}, little[] = {3, 1, 4, 2};
    static const uint8_t pairs[BYTES] = {1, 1, 2, 2, 3, 3, 4, 4, 5, 5, 6, 6, 1, 1, 2, 2, 3, 3, 4, 4, 5, 5, 6, 6};
    static const uint8_t big[BYTES] = {1, 3, 5, 1, 3, 5, 2, 4, 6, 2, 4, 6, 1, 3, 5, 1, 3, 5, 2, 4, 6, 2, 4, 6};
    predict3("predictor 3", 4, 4, 1, 2, true, 4, 4, CHELMESUT_OK, sums, little);
    predict3("predictor 3, two rows, two channels of three bytes", 24, 12, 2, 3, false, 25, 26, CHELMESUT_OK, pairs, big);
    predict3("predictor 3, samples of five bytes", 4, 4, 1, 5, true, 4, 4, CHELMESUT_UNSUPPORTED, sums, little);
    predict3("predictor 3, a row that is no multiple", 4, 3, 1, 2, true, 4, 4, CHELMESUT_INVALID, sums, little);
    predict3("predictor 3, a long row", 4, wide + 4, 1, 2, true, 4, 4, CHELMESUT_INVALID, sums, little);
    predict3("predictor 3, many channels", 4, 4, wide + 1, 2, true, 4, 4, CHELMESUT_UNSUPPORTED, sums, little);
    predict3("predictor 3, long samples", 4, 4, 1, wide + 2, true, 4, 4, CHELMESUT_UNSUPPORTED, sums, little);
    predict3("predictor 3, short scratch", 4, 4, 1, 2, true, 3, 4, CHELMESUT_OUTPUT_TOO_SMALL, sums, little);
    predict3("predictor 3, short output", 4, 4, 1, 2, true, 4, 3, CHELMESUT_OUTPUT_TOO_SMALL, sums, little);
}

int main(void)
{
    const struct head *heads[] = {&colour, &monochrome, &dark};
    names();
    for (int i = 0; i < 3; i++) {
        inspection(heads[i]);
        samples_unsaid(heads[i]);
        decoding(heads[i]);
        read_strips(heads[i]);
        refuse_strips(heads[i]);
        other_heads(heads[i]);
    }
    work_limit();
    starts();
    blocks();
    replays();
    predictor64();
    predictor3();
    printf("face: every call answers and leaves what it should; %lu numbers and bytes compared\n", compared);
    return 0;
}
