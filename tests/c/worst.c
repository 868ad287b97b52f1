/* How much work a unit of the budget can stand for: files made to cost much and be charged little, each with the units
 * charged, the instructions and the time of one call; and the deepest stack of each function of the C face.
 *
 *     valgrind --tool=callgrind --collect-atstart=no --callgrind-out-file=DUMP worst count DUMP COUNTS
 *     worst table COUNTS
 *
 * The first writes the instructions of each call to COUNTS, as callgrind counts them between two marks about the call. The
 * second makes each call again without valgrind, times it, and prints the tables in Markdown. Files are little-endian, of the
 * colour head and, where the head can matter, of the monochrome one too. The exit status is 1 if a call takes as much stack as
 * the header says that none does. */
#define _XOPEN_SOURCE 700
#include "../../include/chelmesut.h"
#include "pictures.h"
#include <stdio.h>
#include <stdlib.h>
#include <string.h>
#include <time.h>
#include <ucontext.h>
#include <valgrind/callgrind.h>

static const struct limits limits = {UINT32_MAX, UINT32_MAX, UINT32_MAX, UINT32_MAX, 65535, UINT32_MAX};

enum { ROOM = 16 << 20, SEGMENT_ROOM = 65536, STACK = 1 << 20, TIMINGS = 7 };
enum { RECEIVED = 2 << 20, RECEIVED_BLOCKS = RECEIVED / CHELMESUT_BLOCK }; /* the longest file of the camera */
enum { FRONT_UNITS = 11 + 128 }; /* for the directory of a picture of strips, and for its profile */

static uint8_t *output, *scratch, *quality, received_map[RECEIVED_BLOCKS];

/* ---- inputs */

enum call { INSPECT, DECODE, PATCHY, WORK_LIMIT, START, BLOCK, REPLAY, PREDICTOR64, PREDICTOR3, NO_CALL, CALLS };

static const char *const call_name[CALLS] = {"inspect",       "decode", "read_patchy", "work_limit", "receive_start",
                                             "receive_block", "replay", "predictor64", "predictor3", "none"};

struct input {
    const struct head *head;
    struct memory file;
    uint8_t *map;
    size_t map_length;
    uint64_t page, budget;
    uint64_t handle[CHELMESUT_HANDLE_WORDS]; /* what inspection gives, or zeros where it refuses */
    bool forged;
};

static void put_header(struct memory *file)
{
    put(file, 0x002a4949, 4);
    put(file, 8, 4);
}

static void put_entry(struct memory *file, uint32_t tag, uint32_t type, uint32_t count, uint32_t value)
{
    put(file, tag, 2);
    put(file, type, 2);
    put(file, count, 4);
    put(file, value, 4);
}

static void let_all_come(struct input *input)
{
    input->map_length = blocks_of(&input->file);
    input->map = lend(input->map_length);
    memset(input->map, 1, input->map_length);
}

static void lose_last_block(struct input *input)
{
    input->map[input->map_length - 1] = 0;
}

/* ---- directories: one with many entries, or one that follows itself */

enum { FREE_TAG = 40000, TIMES = 5000 };

static void put_directory(struct memory *file, uint32_t n, uint32_t next)
{
    put(file, n, 2);
    for (uint32_t i = 0; i < n; i++)
        put_entry(file, FREE_TAG, 3, 1, 1);
    put(file, next, 4);
}

static void many_entries(struct input *input, uint32_t n)
{
    put_header(&input->file);
    put_directory(&input->file, n, 0);
    let_all_come(input);
}

static void loop_of_one_free_tag(struct input *input, uint32_t times)
{
    put_header(&input->file);
    put_directory(&input->file, 1, 8);
    input->page = times - 1;
    let_all_come(input);
}

/* The directory lies across two blocks, each of which is looked at in the map every time. */
static void loop_across_blocks(struct input *input, uint32_t times)
{
    enum { PLACE = CHELMESUT_BLOCK - 6 };
    put(&input->file, 0x002a4949, 4);
    put(&input->file, PLACE, 4);
    while (input->file.length < PLACE)
        put(&input->file, 0, 1);
    put_directory(&input->file, 1, PLACE);
    input->page = times - 1;
    let_all_come(input);
}

static void loop_of_all_known_tags(struct input *input, uint32_t times)
{
    static const uint16_t tags[] = {256, 257, 258, 259, 262, 266, 273, 274, 277, 278,
                                    279, 284, 317, 322, 323, 324, 325, 338, 339};
    enum { KNOWN = sizeof tags / sizeof *tags };
    put_header(&input->file);
    put(&input->file, KNOWN, 2);
    for (uint32_t i = 0; i < KNOWN; i++)
        put_entry(&input->file, tags[i], 3, 1, 1);
    put(&input->file, 8, 4);
    input->page = times - 1;
    let_all_come(input);
}

/* ---- pictures: header, directory, arrays, then stored bytes, which all segments share */

static void put_array(struct memory *file, uint32_t n, uint32_t value)
{
    for (uint32_t i = 0; i < n; i++)
        put(file, value, 4);
}

static uint32_t pieces(uint32_t side, uint32_t block)
{
    return (side - 1) / block + 1;
}

/* The directory after the picture's own is itself again, so that the picture is every page. Arrays of one value, as depths and
 * kinds of a monochrome picture are, stand in their entries; the bytes behind the directory are then unused. */
static void put_picture(struct memory *file, const struct shape *shape, const struct memory *stored)
{
    uint32_t samples = shape->head->samples;
    uint32_t segments = pieces(shape->width, shape->block_width) * pieces(shape->height, shape->block_height);
    uint32_t entries = shape->tiled ? 11 : 10;
    uint32_t depths = 8 + 2 + 12 * entries + 4, kinds = depths + 6;
    uint32_t offsets = kinds + 6, counts = offsets + 4 * segments;
    uint32_t first = counts + 4 * segments, count = (uint32_t)stored->length;
    put_header(file);
    put(file, entries, 2);
    put_entry(file, 256, 4, 1, shape->width);
    put_entry(file, 257, 4, 1, shape->height);
    put_entry(file, 258, 3, samples, samples == 1 ? 16 : depths);
    put_entry(file, 259, 3, 1, 34676);
    put_entry(file, 262, 3, 1, shape->head->photometric);
    put_entry(file, 277, 3, 1, samples);
    put_entry(file, 339, 3, samples, samples == 1 ? 2 : kinds);
    put_entry(file, shape->tiled ? 324 : 273, 4, segments, segments == 1 ? first : offsets);
    put_entry(file, shape->tiled ? 325 : 279, 4, segments, segments == 1 ? count : counts);
    if (shape->tiled) {
        put_entry(file, 322, 4, 1, shape->block_width);
        put_entry(file, 323, 4, 1, shape->block_height);
    } else {
        put_entry(file, 278, 4, 1, shape->block_height);
    }
    put(file, 8, 4);
    for (int i = 0; i < 3; i++)
        put(file, 16, 2);
    for (int i = 0; i < 3; i++)
        put(file, 2, 2);
    put_array(file, segments, first);
    put_array(file, segments, count);
    append(file, stored->bytes, stored->length);
}

/* Packets of one kind for so many pixels of a block, with a byte for each plane of the input's head. */
static struct memory in_literals(const struct input *input, size_t pixels, uint32_t length)
{
    struct memory stored = {0};
    for (size_t at = 0; at < input->head->planes * pixels; at += length) {
        put(&stored, length, 1);
        for (uint32_t i = 0; i < length; i++)
            put(&stored, at + i, 1);
    }
    return stored;
}

static struct memory in_runs(const struct input *input, size_t pixels, uint32_t length)
{
    struct memory stored = {0};
    for (size_t at = 0; at < input->head->planes * pixels; at += length) {
        put(&stored, length + 126, 1);
        put(&stored, at, 1);
    }
    return stored;
}

static struct shape strips(uint32_t width, uint32_t height, uint32_t rows)
{
    return (struct shape){.width = width, .height = height, .block_width = width, .block_height = rows};
}

static struct shape tiles(uint32_t width, uint32_t height, uint32_t block_width, uint32_t block_height)
{
    return (struct shape){
        .width = width, .height = height, .block_width = block_width, .block_height = block_height, .tiled = true};
}

static void picture_of(struct input *input, struct shape shape, struct memory stored)
{
    shape.head = input->head;
    put_picture(&input->file, &shape, &stored);
    drop(&stored);
    let_all_come(input);
}

static void empty_packets(struct input *input, uint32_t n)
{
    struct memory stored = {0}, pixel = in_literals(input, 1, 1);
    for (uint32_t i = 0; i < n; i++)
        put(&stored, 0, 1);
    append(&stored, pixel.bytes, pixel.length);
    drop(&pixel);
    picture_of(input, strips(1, 1, 1), stored);
}

/* A strip of 16 rows, as wide as packets of this length fill, up to 1024. */
static void literals(struct input *input, uint32_t length)
{
    uint32_t width = 1024 / length * length;
    picture_of(input, strips(width, 16, 16), in_literals(input, 16 * width, length));
}

static void runs(struct input *input, uint32_t length)
{
    uint32_t width = 1024 / length * length;
    picture_of(input, strips(width, 16, 16), in_runs(input, 16 * width, length));
}

static void single_pixels(struct input *input, uint32_t segments)
{
    picture_of(input, strips(1, segments, 1), in_literals(input, 1, 1));
}

static void single_rows(struct input *input, uint32_t segments)
{
    picture_of(input, strips(640, segments, 1), in_runs(input, 640, 128));
}

/* Of each tile one column lies in the picture. */
static void padding(struct input *input, uint32_t segments)
{
    picture_of(input, tiles(1, 16 * segments, 1024, 16), in_runs(input, 1024 * 16, 128));
}

static void small_tiles(struct input *input, uint32_t across)
{
    picture_of(input, tiles(16 * across, 16 * across, 16, 16), in_runs(input, 16 * 16, 16));
}

/* The packets of every segment are refused at their first byte. */
static void bad_packets(struct input *input, uint32_t segments)
{
    struct memory stored = {0};
    put(&stored, 255, 1);
    put(&stored, 0, 1);
    picture_of(input, strips(1, segments, 1), stored);
}

/* ---- much work for few units or none */

/* Stored bytes that no segment accepts, in so many blocks of their own, the last of which is lost. */
static void picture_without_end(struct input *input, struct shape shape, uint32_t blocks)
{
    struct memory stored = {0};
    for (uint32_t i = 0; i < blocks * CHELMESUT_BLOCK; i++)
        put(&stored, 0, 1);
    picture_of(input, shape, stored);
    lose_last_block(input);
}

static void lost_pixels(struct input *input, uint32_t segments)
{
    picture_without_end(input, strips(1, segments, 1), 1);
}

/* The file ends before the last of the stored bytes. */
static void outside_pixels(struct input *input, uint32_t segments)
{
    single_pixels(input, segments);
    input->file.length -= 1;
    input->map_length = blocks_of(&input->file);
}

static void lost_camera_picture(struct input *input, uint32_t rows)
{
    picture_without_end(input, strips(640, 480, rows), 1);
}

static void lost_block(struct input *input, uint32_t side)
{
    picture_without_end(input, tiles(side, side, side, side), 1);
}

/* Every block of a range is looked at before the lost one is met, for the charge and for the quality. */
static void long_ranges(struct input *input, uint32_t segments)
{
    picture_without_end(input, strips(1, segments, 1), 2048);
}

static void long_ranges_of_camera(struct input *input, uint32_t rows)
{
    picture_without_end(input, strips(640, 480, rows), 4095);
}

/* They are looked at before the one charge for all segments is known, too. */
static void long_ranges_unpaid(struct input *input, uint32_t segments)
{
    long_ranges(input, segments);
    input->budget = FRONT_UNITS;
}

static void unpaid_directory(struct input *input, uint32_t n)
{
    many_entries(input, n);
    input->budget = 0;
}

static void late_page(struct input *input, uint32_t page)
{
    single_pixels(input, 1);
    input->page = page;
}

static void forged_late_page(struct input *input, uint32_t page)
{
    late_page(input, page);
    input->forged = true;
}

static void forged_pixels(struct input *input, uint32_t segments)
{
    single_pixels(input, segments);
    input->forged = true;
}

/* A receiver knows no units. Each start clears the whole map. */
static void trace_of_starts(struct input *input, uint32_t starts)
{
    for (uint32_t i = 0; i < starts; i++)
        put_start(&input->file, RECEIVED);
}

static void trace_of_blocks(struct input *input, uint32_t blocks)
{
    static const uint8_t bytes[CHELMESUT_BLOCK];
    put_start(&input->file, RECEIVED);
    for (uint32_t i = 0; i < blocks; i++)
        put_block(&input->file, i, bytes, sizeof bytes);
}

/* ---- what is run */

struct trial {
    const char *words;
    void (*make)(struct input *input, uint32_t size);
    uint32_t size;
    enum call first, last; /* the calls that are tried */
    bool either;           /* whether it is tried with a monochrome picture too */
};

/* Work and charge go together. Every block has arrived; decode is tried where inspection accepts. */
static const struct trial paid[] = {
    {"a directory of 60000 unknown tags", many_entries, 60000, INSPECT, PATCHY, false},
    {"one unknown tag, 5000 times in a loop", loop_of_one_free_tag, TIMES, INSPECT, PATCHY, false},
    {"the same across two blocks", loop_across_blocks, TIMES, INSPECT, PATCHY, false},
    {"all 19 known tags, 5000 times in a loop", loop_of_all_known_tags, TIMES, INSPECT, PATCHY, false},
    {"a picture of one pixel", single_pixels, 1, INSPECT, PATCHY, true},
    {"one pixel, 100000 packets of control 0", empty_packets, 100000, INSPECT, PATCHY, true},
    {"a strip, literals of length 1", literals, 1, INSPECT, PATCHY, true},
    {"a strip, literals of length 127", literals, 127, INSPECT, PATCHY, true},
    {"a strip, runs of 2", runs, 2, INSPECT, PATCHY, true},
    {"a strip, runs of 129", runs, 129, INSPECT, PATCHY, true},
    {"10000 strips of one pixel", single_pixels, 10000, INSPECT, PATCHY, true},
    {"10000 strips of one pixel, packets refused at once", bad_packets, 10000, INSPECT, PATCHY, true},
    {"480 strips of 640 x 1", single_rows, 480, INSPECT, PATCHY, true},
    {"1024 tiles of 16 x 16", small_tiles, 32, INSPECT, PATCHY, true},
    {"100 tiles of 1024 x 16, one column in the picture", padding, 100, INSPECT, PATCHY, true},
};

/* They do not. */
static const struct trial unpaid[] = {
    {"10000 strips of one pixel, lost", lost_pixels, 10000, PATCHY, PATCHY, true},
    {"10000 strips of one pixel, outside the file", outside_pixels, 10000, PATCHY, PATCHY, false},
    {"60 strips of 640 x 8, lost", lost_camera_picture, 8, PATCHY, PATCHY, true},
    {"one tile of 1024 x 1024, lost", lost_block, 1024, PATCHY, PATCHY, true},
    {"60 strips of 640 x 8, each of 4095 blocks, the last lost", long_ranges_of_camera, 8, PATCHY, PATCHY, false},
    {"1000 strips of one pixel, each of 2048 blocks, the last lost", long_ranges, 1000, PATCHY, PATCHY, false},
    {"the same with units for directory and profile alone", long_ranges_unpaid, 1000, PATCHY, PATCHY, false},
    {"a directory of 60000 tags, no units", unpaid_directory, 60000, PATCHY, PATCHY, false},
    {"one pixel, page 5000 of a loop, its own handle", late_page, TIMES, DECODE, DECODE, true},
    {"the same, a forged handle", forged_late_page, TIMES, DECODE, DECODE, false},
    {"10000 strips of one pixel, a forged handle", forged_pixels, 10000, DECODE, DECODE, false},
    {"a trace of 2 MiB in 4096 blocks", trace_of_blocks, RECEIVED_BLOCKS, REPLAY, REPLAY, false},
    {"a trace of 10000 starts, a map of 4096 bytes", trace_of_starts, 10000, REPLAY, REPLAY, false},
};

enum { PAID = sizeof paid / sizeof *paid, UNPAID = sizeof unpaid / sizeof *unpaid };

/* Each trial with a colour picture, then those that are for either with a monochrome one. */
enum { HEADS = 2 };
static const struct head *const heads[HEADS] = {&colour, &monochrome};

static bool is_for(const struct trial *trial, const struct head *head)
{
    return trial->either || head == &colour;
}

/* The handle is made by an inspection that is not counted. */
static void make_input(const struct trial *trial, const struct head *head, struct input *input)
{
    uint64_t budget = UINT64_MAX;
    *input = (struct input){.head = head, .budget = UINT64_MAX};
    trial->make(input, trial->size);
    if (!input->forged)
        chelmesut_inspect(input->file.bytes, input->file.length, input->page, WORDS_OF(limits), &budget, input->handle);
}

/* Decode is tried where there is a handle; the other two always. */
static bool to_be_tried(enum call call, const struct input *input)
{
    return call != DECODE || input->handle[CHELMESUT_WIDTH] != 0 || input->forged;
}

static void drop_input(struct input *input)
{
    free(input->map);
    drop(&input->file);
}

/* One call, its number, and the units charged. The buffers are as large as any input needs. */
static uint64_t perform(enum call call, const struct input *input, uint64_t *units)
{
    const struct memory *file = &input->file;
    uint64_t budget = input->budget, number = 0, limit = 0, words[CHELMESUT_HANDLE_WORDS];
    uint64_t receiver[CHELMESUT_RECEIVER_WORDS] = {1, RECEIVED};
    switch (call) {
    case INSPECT:
        number = chelmesut_inspect(file->bytes, file->length, input->page, WORDS_OF(limits), &budget, words);
        break;
    case DECODE:
        number = chelmesut_decode(file->bytes, file->length, input->page, WORDS_OF(limits), input->handle, &budget, output,
                                  ROOM, scratch, ROOM);
        break;
    case PATCHY:
        number = chelmesut_read_patchy(file->bytes, file->length, input->map, input->map_length, input->page,
                                       WORDS_OF(limits), &budget, output, ROOM, scratch, ROOM, quality, SEGMENT_ROOM, words);
        break;
    case WORK_LIMIT: number = chelmesut_work_limit(input->page, WORDS_OF(limits), &limit); break;
    case START:
        number = chelmesut_receive_start(output, RECEIVED, received_map, sizeof received_map, receiver, RECEIVED);
        break;
    case BLOCK:
        number = chelmesut_receive_block(output, RECEIVED, received_map, sizeof received_map, receiver, 0, file->bytes,
                                         CHELMESUT_BLOCK);
        break;
    case REPLAY:
        number = chelmesut_replay(file->bytes, file->length, output, RECEIVED, received_map, sizeof received_map, receiver);
        break;
    case PREDICTOR64:
        number = chelmesut_predictor64(file->bytes, 8 * 64 * 48 * 3, 64, 48, 3, 16, true, true, output, ROOM);
        break;
    case PREDICTOR3:
        number = chelmesut_predictor3(file->bytes, 48 * 64 * 3 * 4, 64 * 3 * 4, 3, 4, true, scratch, ROOM, output, ROOM);
        break;
    default: break;
    }
    *units = input->budget - budget;
    return number;
}

/* ---- instructions, by callgrind */

/* The total of a dump that callgrind wrote. */
static uint64_t total_in(const char *path)
{
    char line[512];
    unsigned long long total = 0;
    bool found = false;
    FILE *stream = fopen(path, "r");
    if (!stream)
        give_up("worst: callgrind wrote no %s", path);
    while (fgets(line, sizeof line, stream))
        found = sscanf(line, "totals: %llu", &total) == 1 || found;
    fclose(stream);
    remove(path);
    if (!found)
        give_up("worst: %s has no total", path);
    return total;
}

static uint64_t count_instructions(enum call call, const struct input *input, const char *dump)
{
    static unsigned dumps;
    char path[1024];
    uint64_t units;
    CALLGRIND_TOGGLE_COLLECT;
    perform(call, input, &units);
    CALLGRIND_TOGGLE_COLLECT;
    CALLGRIND_DUMP_STATS;
    snprintf(path, sizeof path, "%s.%u", dump, ++dumps);
    return total_in(path);
}

/* What the marks themselves and an empty call take is taken off. */
static void count_trial(const struct trial *trial, const struct head *head, const char *dump, FILE *counts)
{
    struct input input;
    make_input(trial, head, &input);
    for (enum call call = trial->first; call <= trial->last; call++)
        if (to_be_tried(call, &input)) {
            uint64_t own = count_instructions(NO_CALL, &input, dump);
            fprintf(counts, "%llu\n", (unsigned long long)(count_instructions(call, &input, dump) - own));
        }
    drop_input(&input);
}

static void count_trials(const struct trial *trials, unsigned length, const char *dump, FILE *counts)
{
    for (int h = 0; h < HEADS; h++)
        for (unsigned i = 0; i < length; i++)
            if (is_for(&trials[i], heads[h]))
                count_trial(&trials[i], heads[h], dump, counts);
}

static void count_all(const char *dump, const char *path)
{
    FILE *counts = fopen(path, "w");
    if (!counts)
        give_up("worst: %s cannot be written", path);
    count_trials(paid, PAID, dump, counts);
    count_trials(unpaid, UNPAID, dump, counts);
    if (fclose(counts) != 0)
        give_up("worst: %s cannot be written", path);
}

/* ---- time and stack */

static double nanoseconds(void)
{
    struct timespec time;
    clock_gettime(CLOCK_THREAD_CPUTIME_ID, &time);
    return (double)time.tv_sec * 1e9 + (double)time.tv_nsec;
}

/* The least of some timings of a call: what disturbs it only adds. */
static double time_of(enum call call, const struct input *input)
{
    double least = 0;
    uint64_t units;
    for (int i = 0; i < TIMINGS; i++) {
        double start = nanoseconds(), time;
        perform(call, input, &units);
        time = nanoseconds() - start;
        if (i == 0 || time < least)
            least = time;
    }
    return least;
}

static struct {
    enum call call;
    const struct input *input;
    uint8_t stack[STACK];
    ucontext_t back, there;
} apart;

static void perform_apart(void)
{
    uint64_t units;
    perform(apart.call, apart.input, &units);
}

/* Bytes of a stack of its own that a call touches, by what has changed of a filling. */
static size_t touched(uint8_t filling)
{
    size_t place = 0;
    memset(apart.stack, filling, STACK);
    getcontext(&apart.there);
    apart.there.uc_stack.ss_sp = apart.stack;
    apart.there.uc_stack.ss_size = STACK;
    apart.there.uc_link = &apart.back;
    makecontext(&apart.there, perform_apart, 0);
    swapcontext(&apart.back, &apart.there);
    while (place < STACK && apart.stack[place] == filling)
        place++;
    return STACK - place;
}

/* The deeper of two fillings, as a byte may be written that equals one of them. */
static size_t depth_with(enum call call, const struct input *input)
{
    size_t first, second;
    apart.call = call;
    apart.input = input;
    first = touched(0xa5);
    second = touched(0x5a);
    return first > second ? first : second;
}

/* Below the caller's own frame, which is what a call that does nothing touches. */
static size_t depth_of(enum call call, const struct input *input)
{
    return depth_with(call, input) - depth_with(NO_CALL, input);
}

/* ---- the tables */

static size_t deepest[CALLS];

/* What the header says of every call. */
enum { STACK_BOUND = 2048 };

static void measure_depth(enum call call, const struct input *input)
{
    size_t depth = depth_of(call, input);
    if (deepest[call] < depth)
        deepest[call] = depth;
}

struct result {
    uint64_t number, units, instructions;
    double time;
};

/* One call again, with the instructions that were counted of it. */
static struct result result_of(enum call call, const struct input *input, FILE *counts)
{
    struct result result;
    unsigned long long instructions;
    if (fscanf(counts, "%llu", &instructions) != 1)
        give_up("worst: too few numbers were counted");
    measure_depth(call, input);
    result.number = perform(call, input, &result.units);
    result.instructions = instructions;
    result.time = time_of(call, input);
    return result;
}

static const char *prefix_of(const struct head *head)
{
    return head == &monochrome ? "monochrome: " : "";
}

static void print_paid(const struct trial *trial, const struct head *head, FILE *counts)
{
    struct input input;
    struct result results[3] = {{0}};
    make_input(trial, head, &input);
    for (enum call call = INSPECT; call <= PATCHY; call++)
        if (to_be_tried(call, &input))
            results[call] = result_of(call, &input, counts);
    printf("| %s%s | %llu | %llu |", prefix_of(head), trial->words, (unsigned long long)results[INSPECT].number,
           (unsigned long long)results[INSPECT].units);
    for (enum call call = INSPECT; call <= PATCHY; call++)
        if (results[call].units > 0)
            printf(" %.1f |", (double)results[call].instructions / (double)results[call].units);
        else
            printf(" - |");
    for (enum call call = INSPECT; call <= PATCHY; call++)
        if (results[call].units > 0)
            printf(" %.1f |", results[call].time / (double)results[call].units);
        else
            printf(" - |");
    printf("\n");
    drop_input(&input);
}

static void print_unpaid(const struct trial *trial, const struct head *head, FILE *counts)
{
    struct input input;
    struct result result;
    make_input(trial, head, &input);
    result = result_of(trial->first, &input, counts);
    printf("| %s%s | %s | %llu | %llu | %llu | %.3f |", prefix_of(head), trial->words, call_name[trial->first],
           (unsigned long long)result.number, (unsigned long long)result.units, (unsigned long long)result.instructions,
           result.time / 1e6);
    if (result.units > 0)
        printf(" %.0f |\n", (double)result.instructions / (double)result.units);
    else
        printf(" - |\n");
    drop_input(&input);
}

/* The functions that charge nothing, on enough bytes for their numbers. */
static void measure_others(void)
{
    struct input input = {.budget = 0};
    many_entries(&input, 60000);
    for (enum call call = WORK_LIMIT; call <= PREDICTOR3; call++)
        measure_depth(call, &input);
    drop_input(&input);
}

static void print_trials(const struct trial *trials, unsigned length,
                         void (*print)(const struct trial *trial, const struct head *head, FILE *counts), FILE *counts)
{
    for (int h = 0; h < HEADS; h++)
        for (unsigned i = 0; i < length; i++)
            if (is_for(&trials[i], heads[h]))
                print(&trials[i], heads[h], counts);
}

/* Whether every call keeps within the header's bound, which is said. */
static bool print_depths(void)
{
    size_t most = 0;
    printf("\n| function | deepest stack, bytes |\n|---|---:|\n");
    for (enum call call = INSPECT; call < NO_CALL; call++) {
        printf("| `chelmesut_%s` | %zu |\n", call_name[call], deepest[call]);
        if (most < deepest[call])
            most = deepest[call];
    }
    printf("\nThe deepest is %zu bytes%s; `make worst` fails where it is not below %d.\n", most,
           most < STACK_BOUND ? "" : ", TOO DEEP", STACK_BOUND);
    return most < STACK_BOUND;
}

static bool print_tables(const char *path)
{
    FILE *counts = fopen(path, "r");
    if (!counts)
        give_up("worst: no %s: count first, by valgrind", path);
    printf("| all in the file, all arrived | answer of inspect | its units | instructions a unit: inspect | decode | patchy "
           "| ns a unit: inspect | decode | patchy |\n");
    printf("|---|---:|---:|---:|---:|---:|---:|---:|---:|\n");
    print_trials(paid, PAID, print_paid, counts);
    printf("\n| much work for few units | call | answer | units | instructions | ms | instructions a unit |\n");
    printf("|---|---|---:|---:|---:|---:|---:|\n");
    print_trials(unpaid, UNPAID, print_unpaid, counts);
    fclose(counts);
    measure_others();
    return print_depths();
}

int main(int arguments, char **argument)
{
    output = lend(ROOM);
    scratch = lend(ROOM);
    quality = lend(SEGMENT_ROOM);
    memset(output, 1, ROOM);
    memset(scratch, 1, ROOM);
    memset(quality, 1, SEGMENT_ROOM);
    if (arguments == 4 && strcmp(argument[1], "count") == 0 && RUNNING_ON_VALGRIND)
        count_all(argument[2], argument[3]);
    else if (arguments == 3 && strcmp(argument[1], "table") == 0)
        return print_tables(argument[2]) ? 0 : 1;
    else
        give_up("usage: worst count DUMP COUNTS (under valgrind), then worst table COUNTS");
    return 0;
}
