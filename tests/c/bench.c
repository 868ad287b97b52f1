/* Times the reader beside libtiff on the camera's size of picture, of either head, and the receiver beside memcpy on the longest
 * file of the camera, and prints tables in Markdown.
 *
 *     bench CAMERA MACHINE KIT [REPETITIONS]
 *
 * CAMERA is the camera's picture (640 x 480, 60 strips of 8 rows); MACHINE and KIT are names for the table's head. All is
 * done in one process, each repetition (201) measures every way of reading once, in turn, and medians are compared. All ways
 * read from memory into memory that was touched before, and no buffer is cleared between the repetitions. Pixels are compared
 * before anything is timed, and so is what was received. The exit status is 1 if strict or patchy reading of a whole picture has
 * less than 0.6 of libtiff's speed, or the receiver less than 0.5 of memcpy's.
 *
 * Compiled with -DBEFORE it also times another build of the library, whose functions begin with before_ in place of chelmesut_, in
 * turn with the others: two builds are compared in one run. */
#define _POSIX_C_SOURCE 200809L
#include "../../include/chelmesut.h"
#include "pictures.h"
#include <stdio.h>
#include <stdlib.h>
#include <string.h>
#include <time.h>

enum { WIDTH = 640, HEIGHT = 480, STRIP_ROWS = 8, STRIPS = 60 };
enum { OUTPUT = WIDTH * HEIGHT * 6, SCRATCH = 10 * WIDTH * STRIP_ROWS }; /* of the colour head, which needs more */
enum { MOST_REPETITIONS = 10001 };

static const double wanted = 0.6, wanted_of_receiver = 0.5;

static const struct limits limits = {2097152, 2097152, 65535, 4, 256, STRIPS};

/* A build of the library. */
struct library {
    __typeof__(chelmesut_inspect) *inspect;
    __typeof__(chelmesut_decode) *decode;
    __typeof__(chelmesut_read_patchy) *read_patchy;
};

static const struct library now = {chelmesut_inspect, chelmesut_decode, chelmesut_read_patchy};

#ifdef BEFORE
extern __typeof__(chelmesut_inspect) before_inspect;
extern __typeof__(chelmesut_decode) before_decode;
extern __typeof__(chelmesut_read_patchy) before_read_patchy;
static const struct library before = {before_inspect, before_decode, before_read_patchy};
enum { WITH_BEFORE = 1 };
#else
static const struct library before;
enum { WITH_BEFORE = 0 };
#endif

/* The ways of reading that are timed. Those by the build before are last, in the order of the others. */
enum way { LIBTIFF, STRICT, PATCHY_WHOLE, PATCHY_LOST, COPY, STRICT_BEFORE, PATCHY_WHOLE_BEFORE, PATCHY_LOST_BEFORE, MOST_WAYS };

static const enum way ways = WITH_BEFORE ? MOST_WAYS : STRICT_BEFORE;

struct content {
    const char *name;
    struct shape shape;
    struct memory file;
    uint8_t *whole, *lost; /* delivery maps: every block came, and some did not */
    uint32_t good;         /* strips of which every block came, under the second map */
    double median[MOST_WAYS];
};

static uint8_t expected[OUTPUT], output[OUTPUT], scratch[SCRATCH], quality[STRIPS];

/* ---- the contents, four of each head */

static struct shape camera_shape(const struct head *head)
{
    return (struct shape){
        .head = head, .width = WIDTH, .height = HEIGHT, .block_width = WIDTH, .block_height = STRIP_ROWS};
}

static void read_by_libtiff(struct content *content, uint8_t *pixels)
{
    TIFF *tiff = open_to_read(&content->file);
    read_pixels(tiff, &content->shape, pixels);
    TIFFClose(tiff);
}

/* A sum of two dice, so that small differences are more frequent. */
static int noise(struct dice *dice, uint32_t width)
{
    return (int)(below(dice, width) + below(dice, width)) - (int)(width - 1);
}

enum kind { RING, RING_WITH_NOISE, NOISE, FLAT, KINDS };

enum { HEADS = 2, CONTENTS = HEADS * KINDS };

static const char *const content_name[CONTENTS] = {
    "ring",             "ring, sensor noise",             "noise",             "flat",
    "monochrome: ring", "monochrome: ring, sensor noise", "monochrome: noise", "monochrome: flat"};

/* What the ring's sample becomes. The sensor's noise is of some steps of L (256 of them are a factor of two in light) and of less
 * than one step of u and v as they are stored, which is 80 here. */
static int16_t sample_of(struct dice *dice, enum kind kind, int channel, int16_t ring)
{
    switch (kind) {
    case RING_WITH_NOISE: return (int16_t)(ring + noise(dice, channel == 0 ? 16 : 60));
    case NOISE: return (int16_t)(channel == 0 ? (int)(roll(dice) >> 48) - 32768 : (int)below(dice, 20480));
    case FLAT: return channel == 0 ? 5000 : 15000;
    default: return ring;
    }
}

/* The same size and the same strips as the camera's picture, with samples made of its own. */
static void make_file(struct content *content, enum kind kind, const int16_t *ring)
{
    struct dice dice = {kind};
    uint32_t each = content->shape.head->samples;
    int16_t *samples = lend(pixel_bytes(&content->shape));
    TIFF *tiff = open_to_write(&content->file, false);
    for (size_t i = 0; i < (size_t)WIDTH * HEIGHT * each; i++)
        samples[i] = sample_of(&dice, kind, (int)(i % each), ring[i / each * 3 + i % each]);
    write_page(tiff, &content->shape, samples);
    TIFFClose(tiff);
    free(samples);
}

/* Whether a block lies wholly within the strips' stored bytes: the others hold header, directory and arrays. */
static bool only_strips(struct memory *file, size_t block)
{
    TIFF *tiff = open_to_read(file);
    uint64_t first = TIFFGetStrileOffset(tiff, 0);
    uint64_t end = TIFFGetStrileOffset(tiff, STRIPS - 1) + TIFFGetStrileByteCount(tiff, STRIPS - 1);
    TIFFClose(tiff);
    return block * CHELMESUT_BLOCK >= first && (block + 1) * CHELMESUT_BLOCK <= end;
}

/* One block in twenty is lost, the same ones in every run. */
static void make_maps(struct content *content)
{
    struct dice dice = {20};
    size_t blocks = blocks_of(&content->file), to_lose = (blocks + 10) / 20;
    content->whole = lend(blocks);
    content->lost = lend(blocks);
    memset(content->whole, 1, blocks);
    memset(content->lost, 1, blocks);
    while (to_lose > 0) {
        size_t block = below(&dice, (uint32_t)blocks);
        if (content->lost[block] == 1 && only_strips(&content->file, block)) {
            content->lost[block] = 0;
            to_lose--;
        }
    }
}

/* ---- the ways of reading */

static void must(const char *what, uint64_t number)
{
    if (number != 0)
        give_up("bench: %s is refused with %llu", what, (unsigned long long)number);
}

static void read_strictly(const struct library *library, const struct memory *file)
{
    uint64_t handle[CHELMESUT_HANDLE_WORDS], budget = UINT64_MAX;
    must("inspection", library->inspect(file->bytes, file->length, 0, WORDS_OF(limits), &budget, handle));
    must("decode", library->decode(file->bytes, file->length, 0, WORDS_OF(limits), handle, &budget, output, sizeof output, scratch,
                                   sizeof scratch));
}

static void read_patchily(const struct library *library, const struct memory *file, const uint8_t *map)
{
    uint64_t answer[CHELMESUT_ANSWER_WORDS], budget = UINT64_MAX;
    must("patchy reading",
         library->read_patchy(file->bytes, file->length, map, blocks_of(file), 0, WORDS_OF(limits), &budget, output,
                              sizeof output, scratch, sizeof scratch, quality, sizeof quality, answer));
}

static void read_by(int way, void *by)
{
    struct content *content = by;
    switch (way) {
    case LIBTIFF: read_by_libtiff(content, output); break;
    case STRICT: read_strictly(&now, &content->file); break;
    case PATCHY_WHOLE: read_patchily(&now, &content->file, content->whole); break;
    case PATCHY_LOST: read_patchily(&now, &content->file, content->lost); break;
    case STRICT_BEFORE: read_strictly(&before, &content->file); break;
    case PATCHY_WHOLE_BEFORE: read_patchily(&before, &content->file, content->whole); break;
    case PATCHY_LOST_BEFORE: read_patchily(&before, &content->file, content->lost); break;
    default: memcpy(output, expected, pixel_bytes(&content->shape));
    }
}

/* Every strip shows libtiff's pixels, or zero where it did not come. */
static void compare_pixels(struct content *content, enum way way)
{
    static const uint8_t blank[OUTPUT / STRIPS];
    size_t size = pixel_bytes(&content->shape) / STRIPS;
    memset(output, 0xa5, sizeof output);
    memset(quality, CHELMESUT_QUALITY_GOOD, sizeof quality);
    read_by(way, content);
    for (int strip = 0; strip < STRIPS; strip++) {
        size_t place = (size_t)strip * size;
        if (memcmp(output + place, quality[strip] == CHELMESUT_QUALITY_GOOD ? expected + place : blank, size) != 0)
            give_up("bench: the pixels of strip %d of '%s' are not libtiff's", strip, content->name);
        if (way == PATCHY_LOST)
            content->good += quality[strip] == CHELMESUT_QUALITY_GOOD;
        else if (way != PATCHY_LOST_BEFORE && quality[strip] != CHELMESUT_QUALITY_GOOD)
            give_up("bench: strip %d of '%s' came, and is marked %d", strip, content->name, quality[strip]);
    }
}

/* ---- timing */

/* Processor time of this thread: what other programs of the machine take is not counted. */
static double milliseconds(void)
{
    struct timespec time;
    clock_gettime(CLOCK_THREAD_CPUTIME_ID, &time);
    return (double)time.tv_sec * 1e3 + (double)time.tv_nsec * 1e-6;
}

static int by_size(const void *a, const void *b)
{
    double x = *(const double *)a, y = *(const double *)b;
    return x < y ? -1 : x > y;
}

/* The median of each of so many ways to do something, which take turns. */
static void time_ways(void (*by)(int way, void *what), void *what, int ways, size_t repetitions, double *median)
{
    double *times = lend((size_t)ways * repetitions * sizeof *times);
    for (size_t i = 0; i < repetitions; i++)
        for (int way = 0; way < ways; way++) {
            double start = milliseconds();
            by(way, what);
            times[(size_t)way * repetitions + i] = milliseconds() - start;
        }
    for (int way = 0; way < ways; way++) {
        double *own = times + (size_t)way * repetitions;
        qsort(own, repetitions, sizeof *own, by_size);
        median[way] = own[repetitions / 2];
    }
    free(times);
}

static void time_content(struct content *content, size_t repetitions)
{
    read_by_libtiff(content, expected);
    for (enum way way = LIBTIFF; way < ways; way++)
        compare_pixels(content, way);
    time_ways(read_by, content, (int)ways, repetitions, content->median);
}

/* ---- receiving: a file of 2 MiB by its blocks, in two orders */

enum { BLOCKS = 4096, SENT = BLOCKS * CHELMESUT_BLOCK };

/* Both copies by memcpy take the same bytes to the same places; the second goes by the trace's blocks, as the receiver does. */
enum delivery { COPY_AT_ONCE, COPY_BLOCKS, REPLAY, BLOCK_CALLS, DELIVERIES };

struct message {
    uint64_t number;
    size_t at, size; /* of the block's bytes in the trace */
};

struct sending {
    const char *order;
    struct memory trace;
    struct message messages[BLOCKS];
    double median[DELIVERIES];
};

static uint8_t sent[SENT], received[SENT], map[BLOCKS];

static void make_sent(void)
{
    struct dice dice = {2};
    for (size_t i = 0; i < SENT; i++)
        sent[i] = (uint8_t)(roll(&dice) >> 56);
}

static void shuffle(struct message *messages)
{
    struct dice dice = {BLOCKS};
    for (uint32_t i = BLOCKS - 1; i > 0; i--) {
        struct message *other = &messages[below(&dice, i + 1)], kept = *other;
        *other = messages[i];
        messages[i] = kept;
    }
}

static void make_sending(struct sending *sending, bool shuffled)
{
    sending->order = shuffled ? "shuffled" : "in order";
    for (size_t i = 0; i < BLOCKS; i++)
        sending->messages[i].number = i;
    if (shuffled)
        shuffle(sending->messages);
    put_start(&sending->trace, SENT);
    for (struct message *message = sending->messages; message < sending->messages + BLOCKS; message++) {
        message->size = CHELMESUT_BLOCK;
        put_block(&sending->trace, message->number, sent + message->number * CHELMESUT_BLOCK, message->size);
        message->at = sending->trace.length - message->size;
    }
}

static void copy_blocks(const struct sending *sending)
{
    for (const struct message *message = sending->messages; message < sending->messages + BLOCKS; message++)
        memcpy(received + message->number * CHELMESUT_BLOCK, sending->trace.bytes + message->at, message->size);
}

static void call_for_each_block(const struct sending *sending)
{
    uint64_t words[CHELMESUT_RECEIVER_WORDS] = {0};
    must("a start", chelmesut_receive_start(received, sizeof received, map, sizeof map, words, SENT));
    for (const struct message *message = sending->messages; message < sending->messages + BLOCKS; message++)
        must("a block", chelmesut_receive_block(received, sizeof received, map, sizeof map, words, message->number,
                                                sending->trace.bytes + message->at, message->size));
}

static void replay(const struct memory *trace)
{
    uint64_t words[CHELMESUT_RECEIVER_WORDS] = {0};
    must("replay", chelmesut_replay(trace->bytes, trace->length, received, sizeof received, map, sizeof map, words));
}

static void deliver_by(int delivery, void *by)
{
    const struct sending *sending = by;
    switch (delivery) {
    case COPY_AT_ONCE: memcpy(received, sent, sizeof received); break;
    case COPY_BLOCKS: copy_blocks(sending); break;
    case REPLAY: replay(&sending->trace); break;
    default: call_for_each_block(sending);
    }
}

/* Every byte came, and the receiver's map says so. */
static void compare_received(struct sending *sending, enum delivery delivery)
{
    memset(received, 0xa5, sizeof received);
    memset(map, 0xa5, sizeof map);
    deliver_by(delivery, sending);
    if (memcmp(received, sent, sizeof sent) != 0)
        give_up("bench: what is received %s is not what was sent", sending->order);
    for (size_t i = 0; i < BLOCKS; i++)
        if (map[i] != (delivery < REPLAY ? 0xa5 : 1))
            give_up("bench: block %zu, sent %s, is marked %d", i, sending->order, map[i]);
}

static void time_sending(struct sending *sending, bool shuffled, size_t repetitions)
{
    make_sending(sending, shuffled);
    for (enum delivery delivery = COPY_AT_ONCE; delivery < DELIVERIES; delivery++)
        compare_received(sending, delivery);
    time_ways(deliver_by, sending, DELIVERIES, repetitions, sending->median);
}

/* ---- the tables */

static double ratio(const struct content *content, enum way way)
{
    return content->median[LIBTIFF] / content->median[way];
}

/* Megabytes of output in a second. */
static double speed(const struct content *content, enum way way)
{
    return (double)pixel_bytes(&content->shape) / 1e3 / content->median[way];
}

/* On x86-64 the archive that is delivered is linked, elsewhere the one that tools/archive has rt build for this processor. */
#ifdef __x86_64__
static const char origin[] = "target/staticlib/libchelmesut.a, as rt builds it";
#else
static const char origin[] = "the archive that rt builds for this processor (tools/archive)";
#endif

static void print_head(const char *machine, const char *kit, size_t repetitions)
{
    const char *version = TIFFGetVersion();
    printf("- machine: %s\n- the reader: %s; kit: %s\n", machine, origin, kit);
    printf("- beside it: %.*s, called by a program of gcc %s\n", (int)strcspn(version, "\n"), version, __VERSION__);
    printf("- medians of %zu repetitions in one process, in which the ways of reading take turns; processor time of the one "
           "thread; buffers are warm and not cleared between repetitions\n\n",
           repetitions);
}

static void print_times(const struct content *contents)
{
    printf("| 640 x 480, times in ms | file, bytes | libtiff | inspect + decode | patchy, all came | patchy, 5%% lost "
           "| strips then good | memcpy |\n");
    printf("|---|---:|---:|---:|---:|---:|---:|---:|\n");
    for (const struct content *content = contents; content < contents + CONTENTS; content++)
        printf("| %s | %zu | %.3f | %.3f | %.3f | %.3f | %u of %d | %.3f |\n", content->name, content->file.length,
               content->median[LIBTIFF], content->median[STRICT], content->median[PATCHY_WHOLE],
               content->median[PATCHY_LOST], content->good, STRIPS, content->median[COPY]);
}

static void print_speeds(const struct content *contents)
{
    printf("\n| libtiff's time / ours; MB/s of pixels | inspect + decode | patchy, all came | libtiff, MB/s "
           "| inspect + decode, MB/s | patchy, MB/s |\n");
    printf("|---|---:|---:|---:|---:|---:|\n");
    for (const struct content *content = contents; content < contents + CONTENTS; content++)
        printf("| %s | %.2f | %.2f | %.0f | %.0f | %.0f |\n", content->name, ratio(content, STRICT),
               ratio(content, PATCHY_WHOLE), speed(content, LIBTIFF), speed(content, STRICT), speed(content, PATCHY_WHOLE));
}

/* The time of this build over that of the one before. */
static double change(const struct content *content, enum way way)
{
    return content->median[way] / content->median[way - STRICT + STRICT_BEFORE];
}

static void print_changes(const struct content *contents)
{
    printf("\n| this build's time / that of the one before | inspect + decode | patchy, all came | patchy, 5%% lost |\n");
    printf("|---|---:|---:|---:|\n");
    for (const struct content *content = contents; content < contents + CONTENTS; content++)
        printf("| %s | %.3f | %.3f | %.3f |\n", content->name, change(content, STRICT), change(content, PATCHY_WHOLE),
               change(content, PATCHY_LOST));
}

/* The least ratio of the two readings of whole pictures. */
static double least_ratio(const struct content *contents)
{
    double least = ratio(contents, STRICT);
    for (const struct content *content = contents; content < contents + CONTENTS; content++)
        for (enum way way = STRICT; way <= PATCHY_WHOLE; way++)
            if (least > ratio(content, way))
                least = ratio(content, way);
    return least;
}

enum { ORDERS = 2 };

static double ratio_of_receiver(const struct sending *sending, enum delivery delivery)
{
    return sending->median[COPY_BLOCKS] / sending->median[delivery];
}

static void print_received(const struct sending *sendings)
{
    printf("\n| 2 MiB in 4096 blocks, times in ms | memcpy at once | memcpy for each block | replay of the trace "
           "| receive_block for each | memcpy's time for each block / replay's | / receive_block's |\n");
    printf("|---|---:|---:|---:|---:|---:|---:|\n");
    for (const struct sending *sending = sendings; sending < sendings + ORDERS; sending++)
        printf("| %s | %.3f | %.3f | %.3f | %.3f | %.2f | %.2f |\n", sending->order, sending->median[COPY_AT_ONCE],
               sending->median[COPY_BLOCKS], sending->median[REPLAY], sending->median[BLOCK_CALLS],
               ratio_of_receiver(sending, REPLAY), ratio_of_receiver(sending, BLOCK_CALLS));
}

static double least_ratio_of_receiver(const struct sending *sendings)
{
    double least = ratio_of_receiver(sendings, REPLAY);
    for (const struct sending *sending = sendings; sending < sendings + ORDERS; sending++)
        for (enum delivery delivery = REPLAY; delivery < DELIVERIES; delivery++)
            if (least > ratio_of_receiver(sending, delivery))
                least = ratio_of_receiver(sending, delivery);
    return least;
}

/* Whether the least of some ratios is enough, which is said. */
static bool enough(double least, double bound)
{
    printf("\nThe least of the ratios is %.2f%s; `make bench` fails where it is below %.1f.\n", least,
           least >= bound ? "" : ", TOO LOW", bound);
    return least >= bound;
}

int main(int arguments, char **argument)
{
    static struct content contents[CONTENTS];
    static struct sending sendings[ORDERS];
    static int16_t ring[OUTPUT / sizeof(int16_t)];
    size_t repetitions = arguments > 4 ? strtoull(argument[4], NULL, 10) : 201;
    bool reads_fast, receives_fast;
    if (arguments < 4 || repetitions < 1 || repetitions > MOST_REPETITIONS)
        give_up("usage: bench CAMERA MACHINE KIT [REPETITIONS, 1 to %d]", MOST_REPETITIONS);
    for (int i = 0; i < CONTENTS; i++) {
        struct content *content = &contents[i];
        content->name = content_name[i];
        content->shape = camera_shape(i < KINDS ? &colour : &monochrome);
        if (i == RING) {
            read_file(&content->file, argument[1]);
            read_by_libtiff(content, (uint8_t *)ring);
        } else {
            make_file(content, (enum kind)(i % KINDS), ring);
        }
        make_maps(content);
        time_content(content, repetitions);
    }
    make_sent();
    for (int i = 0; i < ORDERS; i++)
        time_sending(&sendings[i], i > 0, repetitions);
    print_head(argument[2], argument[3], repetitions);
    print_times(contents);
    print_speeds(contents);
    reads_fast = enough(least_ratio(contents), wanted);
    if (WITH_BEFORE)
        print_changes(contents);
    print_received(sendings);
    receives_fast = enough(least_ratio_of_receiver(sendings), wanted_of_receiver);
    return reads_fast && receives_fast ? 0 : 1;
}
