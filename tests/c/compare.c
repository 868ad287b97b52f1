/* Compares the reader with libtiff on pictures that libtiff makes of random shapes and contents: every pixel, every word of the
 * handle and the answer, every unit charged, every quality byte, and every byte of a lent buffer that is to stay or to be zero.
 * Each page is of one of the two heads, so that files have pages of both; L as libtiff reads it is held to what was drawn, too.
 * Half of the files with lost blocks come by way of the receiver, which must have made of the messages what was lost and sent.
 * Where a page has two segments, its offsets and counts are often put into the fields of their entries, as two shorts each,
 * before libtiff reads its file back: it finds them there, and does not write them so itself.
 *
 *     compare [COUNT [SEED]]
 *
 * makes COUNT pictures (5000), the first with the seed SEED (1), each further one with the next; so `compare 1 S` makes the
 * picture of seed S alone. What is expected of libtiff's files is computed here from their bytes and from libtiff's answers:
 * they are whole and within the profile, so only lost blocks, short buffers, few units and a wrong page, handle or map can
 * have another answer than 0. On a difference the file is kept as target/compare-failed.tif, with its map beside it, and the exit
 * status is 1. */
#define _POSIX_C_SOURCE 200809L
#include "../../include/chelmesut.h"
#include "pictures.h"
#include <inttypes.h>
#include <stdarg.h>
#include <stdio.h>
#include <stdlib.h>
#include <string.h>
#include <unistd.h>

#define FAILED_FILE "target/compare-failed.tif"
#define FAILED_MAP "target/compare-failed.map"

enum { MOST_PAGES = 3, TAIL = 64, NEAR = 1 << 20, LONG_RUN = 1000 };

/* ---- a picture, what libtiff says of it, and what is charged for it */

struct page {
    struct shape shape; /* as libtiff reads it back, with the rows of a strip at most the page's */
    int16_t *samples;   /* as they were drawn */
    uint8_t *pixels;    /* by libtiff */
    uint32_t segments;
    uint64_t *offsets, *counts; /* of each segment's stored bytes, by libtiff */
    uint64_t directory;         /* its place in the file */
    uint32_t entries;
    uint64_t fees; /* of all segments */
};

struct picture {
    uint64_t seed;
    bool big_endian;
    struct memory file;
    uint32_t pages;
    struct page page[MOST_PAGES];
};

/* What a run counts, for its last line. */
static struct {
    uint64_t pages, pixels, patchy, good, missing, refused, received;
    uint64_t paired, places, lost_places;
    uint64_t monochrome, unsaid, mixed, dark; /* dark: good segments that show nothing but zeros, as those do that did not come */
} sum;

/* ---- saying what differs */

/* What is at hand, so that a difference can name it. */
static struct {
    const struct picture *picture;
    uint32_t page;
    const char *reading;
    uint64_t number;           /* that the call is to answer */
    const struct memory *file; /* as it was lent, lost blocks filled with other bytes */
    const uint8_t *map;
    size_t map_length;
} now;

static void keep(const char *path, const uint8_t *bytes, size_t length)
{
    FILE *stream = fopen(path, "wb");
    if (!stream || fwrite(bytes, 1, length, stream) != length || fclose(stream) != 0)
        fprintf(stderr, "compare: %s cannot be written\n", path);
    else
        fprintf(stderr, "compare: kept as %s\n", path);
}

_Noreturn static void differ(const char *words, ...) __attribute__((format(printf, 1, 2)));

_Noreturn static void differ(const char *words, ...)
{
    const struct shape *shape = &now.picture->page[now.page < now.picture->pages ? now.page : 0].shape;
    va_list values;
    fflush(stdout);
    fprintf(stderr,
            "\ncompare: DIFFERENT: seed %" PRIu64
            ", page %u of %u, %s, %u x %u, %s of %u x %u, %s-endian, %s, to be answered with %" PRIu64 ": ",
            now.picture->seed, now.page, now.picture->pages, shape->head->name, shape->width, shape->height,
            shape->tiled ? "tiles" : "strips", shape->block_width, shape->block_height,
            now.picture->big_endian ? "big" : "little", now.reading, now.number);
    va_start(values, words);
    vfprintf(stderr, words, values);
    va_end(values);
    fputc('\n', stderr);
    keep(FAILED_FILE, now.file->bytes, now.file->length);
    if (now.map_length)
        keep(FAILED_MAP, now.map, now.map_length);
    exit(1);
}

static void same(const char *what, uint64_t ours, uint64_t expected)
{
    if (ours != expected)
        differ("%s is %" PRIu64 ", expected %" PRIu64, what, ours, expected);
}

/* ---- making a picture */

/* Runs of one number, so long as the packets' own lengths or a little longer or shorter. */
static uint32_t run_length(struct dice *dice)
{
    static const uint8_t lengths[] = {1, 1, 1, 2, 2, 3, 4, 5, 8, 20, 63, 126, 127, 128, 129, 130, 131, 255};
    return lengths[below(dice, sizeof lengths)];
}

/* One of the samples of each pixel: flat, sloping, noisy a little or wholly, zero with some spots, or in runs. */
static void draw(struct dice *dice, const struct shape *shape, int16_t *samples, int32_t least, int32_t most)
{
    uint32_t kind = below(dice, 7), left = 0, span = (uint32_t)(most - least + 1), spots = 1 + below(dice, 5000);
    int32_t ground = least + (int32_t)below(dice, span), value = ground;
    int32_t slope_x = (int32_t)below(dice, 200) - 100, slope_y = (int32_t)below(dice, 200) - 100;
    for (uint32_t y = 0; y < shape->height; y++)
        for (uint32_t x = 0; x < shape->width; x++) {
            switch (kind) {
            case 0: break;
            case 1: value = ground + slope_x * (int32_t)x + slope_y * (int32_t)y; break;
            case 2: value = ground + (int32_t)below(dice, 32); break;
            case 3: value = least + (int32_t)below(dice, span); break;
            case 4: value = one_in(dice, 40) ? least + (int32_t)below(dice, span) : ground; break;
            case 5: value = one_in(dice, spots) ? least + (int32_t)below(dice, span) : 0; break;
            default:
                if (left == 0) {
                    left = run_length(dice);
                    value = least + (int32_t)below(dice, span);
                }
                left--;
            }
            samples[shape->head->samples * ((size_t)y * shape->width + x)] =
                (int16_t)(value < least ? least : value > most ? most : value);
        }
}

/* A picture that two tiles cover, side by side or one below the other. */
static void cover_with_two(struct dice *dice, struct shape *shape)
{
    bool beside = one_in(dice, 2);
    shape->width = between(dice, 1, shape->block_width) + (beside ? shape->block_width : 0);
    shape->height = between(dice, 1, shape->block_height) + (beside ? 0 : shape->block_height);
}

static struct shape some_shape(struct dice *dice)
{
    struct shape shape;
    uint32_t kind = below(dice, 20);
    shape.head = one_in(dice, 2) ? &monochrome : &colour;
    shape.samples_unsaid = shape.head == &monochrome && one_in(dice, 3);
    if (kind < 8) {
        shape.width = between(dice, 1, 40);
        shape.height = between(dice, 1, 40);
    } else if (kind < 15) {
        shape.width = between(dice, 1, 300);
        shape.height = between(dice, 1, 200);
    } else if (kind < 19) { /* about the lengths of packets and their multiples */
        shape.width = between(dice, 1, 6) * between(dice, 127, 129) + below(dice, 3) - 1;
        shape.height = between(dice, 1, 12);
    } else {
        shape.width = between(dice, 1000, 6000);
        shape.height = between(dice, 1, 4);
    }
    shape.tiled = one_in(dice, 3);
    if (shape.tiled) {
        shape.block_width = 16 * between(dice, 1, one_in(dice, 4) ? 20 : 6);
        shape.block_height = 16 * between(dice, 1, 6);
        if (one_in(dice, 4))
            cover_with_two(dice, &shape);
    } else {
        shape.block_width = shape.width;
        switch (below(dice, 6)) {
        case 0: shape.block_height = 1; break;
        case 1: shape.block_height = shape.height + below(dice, 3); break;
        case 2: shape.block_height = UINT32_MAX; break;
        case 3: shape.block_height = (shape.height + 1) / 2 + below(dice, shape.height / 2); break; /* two strips */
        default: shape.block_height = between(dice, 1, shape.height);
        }
    }
    return shape;
}

/* Tags that the reader passes over or finds at their only good value; the text moves all that follows. */
static void set_other_tags(struct dice *dice, TIFF *tiff)
{
    char text[700];
    uint32_t length = below(dice, sizeof text);
    if (one_in(dice, 2)) {
        memset(text, 'x', length);
        text[length] = '\0';
        TIFFSetField(tiff, TIFFTAG_IMAGEDESCRIPTION, text);
    }
    if (one_in(dice, 2))
        TIFFSetField(tiff, TIFFTAG_STONITS, 179.0);
    if (one_in(dice, 2))
        TIFFSetField(tiff, TIFFTAG_ORIENTATION, ORIENTATION_TOPLEFT);
    if (one_in(dice, 4))
        TIFFSetField(tiff, TIFFTAG_FILLORDER, FILLORDER_MSB2LSB);
}

static void write_picture(struct dice *dice, struct picture *picture)
{
    TIFF *tiff = open_to_write(&picture->file, picture->big_endian);
    for (uint32_t p = 0; p < picture->pages; p++) {
        struct page *page = &picture->page[p];
        struct shape *shape = &page->shape;
        *shape = some_shape(dice);
        page->samples = lend(pixel_bytes(shape));
        draw(dice, shape, page->samples, INT16_MIN, INT16_MAX);
        for (uint32_t i = 1; i < shape->head->samples; i++)
            draw(dice, shape, page->samples + i, 0, 20479);
        set_other_tags(dice, tiff);
        write_page(tiff, shape, page->samples);
    }
    TIFFClose(tiff);
    for (uint32_t p = 0; p < picture->pages; p++) {
        picture->page[p].directory = directory_of(&picture->file, p);
        picture->page[p].entries = (uint32_t)read_number(&picture->file, picture->page[p].directory, 2);
    }
}

/* ---- what stands in the file, by its bytes */

static uint32_t offsets_tag(const struct page *page)
{
    return page->shape.tiled ? TIFFTAG_TILEOFFSETS : TIFFTAG_STRIPOFFSETS;
}

static uint32_t counts_tag(const struct page *page)
{
    return page->shape.tiled ? TIFFTAG_TILEBYTECOUNTS : TIFFTAG_STRIPBYTECOUNTS;
}

/* The place of the entry of a tag of a page, which is there. */
static uint64_t entry_place(const struct picture *picture, const struct page *page, uint32_t tag)
{
    uint64_t entry = entry_of(&picture->file, page->directory, tag);
    if (entry == 0)
        give_up("a file that libtiff made has no tag %u (seed %" PRIu64 ")", tag, picture->seed);
    return entry;
}

/* The place of the i-th value of a tag of a page, and its size (rules 2.12 and 2.13). */
static uint64_t value_place(const struct picture *picture, const struct page *page, uint32_t tag, uint32_t i, uint32_t *size)
{
    const struct memory *file = &picture->file;
    uint64_t entry = entry_place(picture, page, tag), values = read_number(file, entry + 4, 4);
    *size = read_number(file, entry + 2, 2) == TIFF_SHORT ? 2 : 4;
    return (values * *size <= 4 ? entry + 8 : read_number(file, entry + 8, 4)) + (uint64_t)*size * i;
}

/* ---- pairs: two offsets or two counts of two bytes each, in the field of their entry */

static void scribble(struct dice *dice, uint8_t *bytes, size_t length)
{
    for (size_t i = 0; i < length; i++)
        bytes[i] = (uint8_t)roll(dice);
}

/* The stored bytes of two segments, which libtiff puts one behind the other, in the other order. So either half of a pair of
 * offsets may be the smaller one. */
static void swap_segments(struct picture *picture, const struct page *page)
{
    struct memory *file = &picture->file;
    uint64_t offsets = read_number(file, entry_place(picture, page, offsets_tag(page)) + 8, 4);
    uint64_t counts = read_number(file, entry_place(picture, page, counts_tag(page)) + 8, 4);
    uint64_t start = read_number(file, offsets, 4);
    uint64_t first = read_number(file, counts, 4), second = read_number(file, counts + 4, 4);
    uint8_t *kept = lend(first);
    memcpy(kept, file->bytes + start, first);
    memmove(file->bytes + start, file->bytes + start + first, second);
    memcpy(file->bytes + start + second, kept, first);
    write_number(file, offsets, 4, start + second);
    write_number(file, offsets + 4, 4, start);
    free(kept);
}

/* Two values of four bytes become a pair, if they fit. Where they stood other bytes stand then. */
static void move_to_field(struct dice *dice, struct picture *picture, const struct page *page, uint32_t tag)
{
    struct memory *file = &picture->file;
    uint64_t entry = entry_place(picture, page, tag), array = read_number(file, entry + 8, 4);
    uint64_t first = read_number(file, array, 4), second = read_number(file, array + 4, 4);
    if (first > UINT16_MAX || second > UINT16_MAX)
        return;
    write_number(file, entry + 2, 2, TIFF_SHORT);
    write_number(file, entry + 8, 2, first);
    write_number(file, entry + 10, 2, second);
    scribble(dice, file->bytes + array, 8);
}

/* Whether a tag has two values of four bytes, as libtiff writes them. */
static bool may_be_pair(const struct picture *picture, const struct page *page, uint32_t tag)
{
    uint64_t entry = entry_place(picture, page, tag);
    return read_number(&picture->file, entry + 2, 2) == TIFF_LONG && read_number(&picture->file, entry + 4, 4) == 2;
}

/* Makes pairs of the offsets, the counts, both or none of a page with two segments. */
static void make_pairs(struct dice *dice, struct picture *picture, const struct page *page)
{
    uint32_t which = below(dice, 4);
    if (!may_be_pair(picture, page, offsets_tag(page)) || !may_be_pair(picture, page, counts_tag(page)))
        return;
    if (one_in(dice, 2))
        swap_segments(picture, page);
    if (which & 1)
        move_to_field(dice, picture, page, offsets_tag(page));
    if (which & 2)
        move_to_field(dice, picture, page, counts_tag(page));
}

/* What the field of a pair would be as a place plays no part. Mostly it would lie outside the file; where it is near, the file is
 * often made so long that it lies inside, or the first of its bytes do. */
static void reach_places(struct dice *dice, struct picture *picture, const struct page *page)
{
    struct memory *file = &picture->file;
    uint64_t fields[MOST_PAIRS];
    uint32_t pairs = paired_fields(file, page->directory, fields);
    for (uint32_t i = 0; i < pairs; i++) {
        uint64_t place = read_number(file, fields[i], 4), end = place + between(dice, 1, CHELMESUT_BLOCK);
        if (place >= NEAR || one_in(dice, 4))
            continue;
        while (file->length < end)
            put(file, roll(dice), end - file->length < 8 ? end - file->length : 8);
    }
}

/* Such places that are in the file: how many, and which. */
static uint32_t places_inside(const struct picture *picture, const struct page *page, uint64_t places[MOST_PAIRS])
{
    uint64_t fields[MOST_PAIRS];
    uint32_t pairs = paired_fields(&picture->file, page->directory, fields), inside = 0;
    for (uint32_t i = 0; i < pairs; i++) {
        places[inside] = read_number(&picture->file, fields[i], 4);
        inside += places[inside] < picture->file.length;
    }
    return inside;
}

/* ---- what libtiff says of it */

static uint32_t rows_in(const struct page *page, uint32_t segment)
{
    const struct shape *shape = &page->shape;
    uint32_t y = segment * shape->block_height;
    return shape->tiled || shape->height - y > shape->block_height ? shape->block_height : shape->height - y;
}

static uint64_t fee_of(const struct page *page, uint32_t segment)
{
    return fee_for(page->shape.head, page->counts[segment], (uint64_t)page->shape.block_width * rows_in(page, segment));
}

/* L is copied (rule 6.2), by libtiff as well. */
static void holds_what_was_drawn(const struct page *page)
{
    const struct head *head = page->shape.head;
    for (size_t i = 0; i < (size_t)page->shape.width * page->shape.height; i++) {
        uint16_t drawn = (uint16_t)page->samples[head->samples * i];
        const uint8_t *read = page->pixels + head->pixel * i;
        if (read[0] != (drawn & 255) || read[1] != drawn >> 8)
            give_up("libtiff reads %02x %02x for L of pixel %zu of a %s page, which was drawn as %u", read[0], read[1], i,
                    head->name, drawn);
    }
}

/* Reads the page that libtiff has at hand. */
static void take_page(TIFF *tiff, struct page *page)
{
    page->shape = shape_of(tiff);
    page->segments = page->shape.tiled ? TIFFNumberOfTiles(tiff) : TIFFNumberOfStrips(tiff);
    if (!page->shape.tiled && page->shape.block_height > page->shape.height)
        page->shape.block_height = page->shape.height;
    page->pixels = lend(pixel_bytes(&page->shape));
    read_pixels(tiff, &page->shape, page->pixels);
    holds_what_was_drawn(page);
    page->offsets = lend(page->segments * sizeof *page->offsets);
    page->counts = lend(page->segments * sizeof *page->counts);
    page->fees = 0;
    for (uint32_t k = 0; k < page->segments; k++) {
        page->offsets[k] = TIFFGetStrileOffset(tiff, k);
        page->counts[k] = TIFFGetStrileByteCount(tiff, k);
        page->fees += fee_of(page, k);
    }
}

static void make_picture(struct picture *picture, uint64_t seed)
{
    struct dice dice = {seed};
    TIFF *tiff;
    *picture = (struct picture){.seed = seed};
    roll(&dice);
    picture->big_endian = one_in(&dice, 2);
    picture->pages = one_in(&dice, 3) ? between(&dice, 2, MOST_PAGES) : 1;
    write_picture(&dice, picture);
    for (uint32_t p = 0; p < picture->pages; p++)
        make_pairs(&dice, picture, &picture->page[p]);
    for (uint32_t p = 0; p < picture->pages; p++)
        reach_places(&dice, picture, &picture->page[p]);
    tiff = open_to_read(&picture->file);
    for (uint32_t p = 0; p < picture->pages; p++) {
        if (p > 0 && !TIFFReadDirectory(tiff))
            give_up("libtiff does not read its page %u (seed %" PRIu64 ")", p, seed);
        take_page(tiff, &picture->page[p]);
    }
    TIFFClose(tiff);
}

static void drop_picture(struct picture *picture)
{
    for (uint32_t p = 0; p < picture->pages; p++) {
        free(picture->page[p].samples);
        free(picture->page[p].pixels);
        free(picture->page[p].offsets);
        free(picture->page[p].counts);
    }
    drop(&picture->file);
}

/* ---- what is expected */

/* Units for the directories up to a page, and for its profile. */
static uint64_t front_units(const struct picture *picture, uint32_t page)
{
    uint64_t units = 128;
    for (uint32_t p = 0; p <= page; p++)
        units += picture->page[p].entries + 1;
    return units;
}

static uint64_t scratch_of(const struct page *page)
{
    return scratch_for(page->shape.head, (uint64_t)page->shape.block_width * page->shape.block_height);
}

/* Limits that let the page pass, some of them just so. */
static struct limits some_limits(struct dice *dice, const struct picture *picture, uint32_t p)
{
    const struct page *page = &picture->page[p];
    const struct shape *shape = &page->shape;
    uint64_t output = pixel_bytes(shape), scratch = scratch_of(page);
    struct limits limits = {picture->file.length,
                            output > scratch ? output : scratch,
                            shape->width > shape->height ? shape->width : shape->height,
                            p + 1,
                            0,
                            page->segments};
    for (uint32_t q = 0; q <= p; q++)
        if (limits.max_tags < picture->page[q].entries)
            limits.max_tags = picture->page[q].entries;
    if (one_in(dice, 2)) {
        limits.max_input += below(dice, 1000);
        limits.max_output = UINT64_MAX;
        limits.max_dimension += below(dice, 1000);
        limits.max_directories += below(dice, 5);
        limits.max_tags = 65535;
        limits.max_segments += below(dice, 1000);
    }
    return limits;
}

/* Whether every block of n bytes, which are in the file, came; no map: all came. */
static bool came(uint64_t at, uint64_t n)
{
    if (now.map_length == 0 || n == 0)
        return true;
    for (uint64_t block = at / CHELMESUT_BLOCK; block <= (at + n - 1) / CHELMESUT_BLOCK; block++)
        if (now.map[block] != 1)
            return false;
    return true;
}

static bool value_came(const struct picture *picture, const struct page *page, uint32_t tag, uint32_t i)
{
    uint32_t size;
    uint64_t place = value_place(picture, page, tag, i, &size);
    return came(place, size);
}

/* Whether all that is needed before the segments came, and the units charged until that is known. */
static bool front_came(const struct picture *picture, uint32_t page, uint64_t *units)
{
    static const uint16_t samples_tags[] = {TIFFTAG_BITSPERSAMPLE, TIFFTAG_SAMPLEFORMAT};
    *units = 0;
    if (!came(0, 8))
        return false;
    for (uint32_t p = 0; p <= page; p++) {
        const struct page *at = &picture->page[p];
        if (!came(at->directory, 2 + 12 * (uint64_t)at->entries + 4))
            return false;
        *units += at->entries + 1;
    }
    *units += 128;
    for (uint32_t t = 0; t < 2; t++)
        for (uint32_t i = 0; i < picture->page[page].shape.head->samples; i++)
            if (!value_came(picture, &picture->page[page], samples_tags[t], i))
                return false;
    return true;
}

static uint8_t code_of(const struct picture *picture, const struct page *page, uint32_t segment)
{
    return value_came(picture, page, offsets_tag(page), segment) && value_came(picture, page, counts_tag(page), segment) &&
                   came(page->offsets[segment], page->counts[segment])
               ? CHELMESUT_QUALITY_GOOD
               : CHELMESUT_QUALITY_MISSING;
}

/* ---- buffers with a known content, so that what stays and what changes can be told */

struct buffer {
    const char *name;
    uint8_t *bytes;
    size_t length;
    uint64_t salt;
};

static uint8_t filling(const struct buffer *buffer, size_t i)
{
    return (uint8_t)((i * 167 + buffer->salt + (i >> 8)) | 1);
}

/* A buffer of the length needed, and often some bytes more. */
static struct buffer new_buffer(struct dice *dice, const char *name, size_t needed)
{
    struct buffer buffer = {name, NULL, needed + (one_in(dice, 3) ? 0 : below(dice, TAIL)), roll(dice)};
    buffer.bytes = lend(buffer.length);
    for (size_t i = 0; i < buffer.length; i++)
        buffer.bytes[i] = filling(&buffer, i);
    return buffer;
}

static void stays_from(const struct buffer *buffer, size_t start)
{
    for (size_t i = start; i < buffer->length; i++)
        if (buffer->bytes[i] != filling(buffer, i))
            differ("byte %zu of %s, of which %zu may change, is %u and was %u", i, buffer->name, start, buffer->bytes[i],
                   filling(buffer, i));
}

static void zero_from(const struct buffer *buffer, size_t start, size_t end)
{
    for (size_t i = start; i < end; i++)
        if (buffer->bytes[i] != 0)
            differ("byte %zu of %s is %u, expected 0", i, buffer->name, buffer->bytes[i]);
}

/* The bytes of a pixel in hex. */
struct hex {
    char text[2 * MOST_PIXEL + 1];
};

static struct hex hex_of(const struct head *head, const uint8_t *pixel)
{
    struct hex hex = {""};
    for (uint32_t i = 0; i < head->pixel; i++)
        snprintf(hex.text + 2 * i, 3, "%02x", pixel[i]);
    return hex;
}

static const uint8_t nothing[MOST_PIXEL];

/* The pixels: libtiff's, or zero where the pixel's segment is not good. */
static void pixels_are(const struct page *page, const uint8_t *output, const uint8_t *codes)
{
    const struct shape *shape = &page->shape;
    uint32_t across = (shape->width - 1) / shape->block_width + 1, pixel = shape->head->pixel;
    for (uint32_t y = 0; y < shape->height; y++)
        for (uint32_t x = 0; x < shape->width; x++) {
            size_t at = pixel * ((size_t)y * shape->width + x);
            uint32_t segment = y / shape->block_height * across + x / shape->block_width;
            const uint8_t *ours = output + at,
                          *expected = codes[segment] == CHELMESUT_QUALITY_GOOD ? page->pixels + at : nothing;
            if (memcmp(ours, expected, pixel) != 0)
                differ("pixel (%u, %u) of segment %u, which has quality %u, is %s, expected %s", x, y, segment, codes[segment],
                       hex_of(shape->head, ours).text, hex_of(shape->head, expected).text);
        }
    sum.pixels += (uint64_t)shape->width * shape->height;
}

/* Whether a segment, as libtiff reads it, shows nothing but zeros, as one does that is not good (rule 6.7). */
static bool is_dark(const struct page *page, uint32_t segment)
{
    const struct shape *shape = &page->shape;
    uint32_t across = (shape->width - 1) / shape->block_width + 1, pixel = shape->head->pixel;
    uint32_t top = segment / across * shape->block_height, left = segment % across * shape->block_width;
    for (uint32_t y = top; y < shape->height && y - top < shape->block_height; y++)
        for (uint32_t x = left; x < shape->width && x - left < shape->block_width; x++)
            if (memcmp(page->pixels + pixel * ((size_t)y * shape->width + x), nothing, pixel) != 0)
                return false;
    return true;
}

/* ---- strict reading */

enum { GUARD = 4 };

/* Words with a known content before a call, and some more behind that no call may touch. */
static void fill_words(uint64_t *words, uint32_t length)
{
    for (uint32_t i = 0; i < length + GUARD; i++)
        words[i] = 0xfeed0000 + i;
}

static void words_stay(const char *what, const uint64_t *words, uint32_t from, uint32_t length)
{
    for (uint32_t i = from; i < length + GUARD; i++)
        if (words[i] != 0xfeed0000 + i)
            differ("word %u of the %s is %" PRIu64 ", and was to stay", i, what, words[i]);
}

static void words_are(const char *what, const uint64_t *words, const uint64_t *expected, uint32_t length)
{
    for (uint32_t i = 0; i < length; i++)
        if (words[i] != expected[i])
            differ("word %u of the %s is %" PRIu64 ", expected %" PRIu64, i, what, words[i], expected[i]);
    words_stay(what, words, length, length);
}

static void inspect_refused(const struct limits *limits, uint64_t page, uint64_t budget, uint64_t number, uint64_t left)
{
    const struct memory *file = now.file;
    uint64_t handle[CHELMESUT_HANDLE_WORDS + GUARD];
    now.number = number;
    fill_words(handle, CHELMESUT_HANDLE_WORDS);
    same("the number of inspection", chelmesut_inspect(file->bytes, file->length, page, WORDS_OF(*limits), &budget, handle),
         number);
    same("what inspection leaves of the budget", budget, left);
    words_stay("handle", handle, 0, CHELMESUT_HANDLE_WORDS);
}

static void inspect_page(struct dice *dice, const struct picture *picture, const struct limits *limits, uint64_t *handle)
{
    const struct page *page = &picture->page[now.page];
    const struct shape *shape = &page->shape;
    uint64_t work = front_units(picture, now.page) + page->fees, spare = below(dice, 2) ? roll(dice) >> 20 : 0;
    uint64_t budget = work + spare;
    const uint64_t expected[CHELMESUT_HANDLE_WORDS] = {shape->width,
                                                       shape->height,
                                                       shape->head->samples,
                                                       16,
                                                       16,
                                                       1,
                                                       34676,
                                                       now.page,
                                                       page->entries,
                                                       0,
                                                       0,
                                                       pixel_bytes(shape),
                                                       scratch_of(page),
                                                       page->fees,
                                                       shape->block_width,
                                                       shape->block_height,
                                                       page->segments};
    now.number = 0;
    fill_words(handle, CHELMESUT_HANDLE_WORDS);
    same("the number of inspection",
         chelmesut_inspect(picture->file.bytes, picture->file.length, now.page, WORDS_OF(*limits), &budget, handle), 0);
    same("what inspection leaves of the budget", budget, spare);
    words_are("handle", handle, expected, CHELMESUT_HANDLE_WORDS);
    /* One unit short: the last fee is not taken. */
    inspect_refused(limits, now.page, work - 1, CHELMESUT_BUDGET, fee_of(page, page->segments - 1) - 1);
}

/* Decode with what is lent, and what it answers and leaves. */
static void decode_page(const struct picture *picture, const struct limits *limits, const uint64_t *handle, uint64_t budget,
                        const struct buffer *output, const struct buffer *scratch, uint64_t number, uint64_t left)
{
    now.number = number;
    same("the number of decode",
         chelmesut_decode(picture->file.bytes, picture->file.length, now.page, WORDS_OF(*limits), handle, &budget,
                          output->bytes, output->length, scratch->bytes, scratch->length),
         number);
    same("what decode leaves of the budget", budget, left);
    stays_from(output, number == 0 ? handle[CHELMESUT_OUTPUT_LEN] : 0);
    stays_from(scratch, number == 0 ? handle[CHELMESUT_SCRATCH_LEN] : 0);
}

static void decode_all(struct dice *dice, const struct picture *picture, const struct limits *limits, uint64_t *handle)
{
    const struct page *page = &picture->page[now.page];
    struct buffer output = new_buffer(dice, "output", pixel_bytes(&page->shape));
    struct buffer scratch = new_buffer(dice, "scratch", scratch_of(page)), shorter;
    uint64_t spare = below(dice, 1000), forged[CHELMESUT_HANDLE_WORDS];
    uint8_t *codes = lend(page->segments);

    now.reading = "decode of a forged handle";
    memcpy(forged, handle, sizeof forged);
    forged[below(dice, CHELMESUT_HANDLE_WORDS)] += 1 + below(dice, 3);
    decode_page(picture, limits, forged, page->fees, &output, &scratch, CHELMESUT_INVALID, page->fees);

    now.reading = "decode of a handle with the channels of the other head";
    memcpy(forged, handle, sizeof forged);
    forged[CHELMESUT_CHANNELS] = page->shape.head == &colour ? monochrome.samples : colour.samples;
    decode_page(picture, limits, forged, page->fees, &output, &scratch, CHELMESUT_INVALID, page->fees);

    now.reading = "decode with short output";
    shorter = output;
    shorter.length = pixel_bytes(&page->shape) - 1;
    decode_page(picture, limits, handle, page->fees, &shorter, &scratch, CHELMESUT_OUTPUT_TOO_SMALL, page->fees);

    now.reading = "decode with short scratch";
    shorter = scratch;
    shorter.length = scratch_of(page) - 1;
    decode_page(picture, limits, handle, page->fees, &output, &shorter, CHELMESUT_OUTPUT_TOO_SMALL, page->fees);

    now.reading = "decode with a unit too few";
    decode_page(picture, limits, handle, page->fees - 1, &output, &scratch, CHELMESUT_BUDGET, page->fees - 1);

    now.reading = "decode";
    decode_page(picture, limits, handle, page->fees + spare, &output, &scratch, 0, spare);
    zero_from(&scratch, 0, scratch_of(page));
    memset(codes, CHELMESUT_QUALITY_GOOD, page->segments);
    pixels_are(page, output.bytes, codes);

    free(codes);
    free(output.bytes);
    free(scratch.bytes);
}

static void read_strictly(struct dice *dice, const struct picture *picture, const struct limits *limits)
{
    uint64_t handle[CHELMESUT_HANDLE_WORDS + GUARD];
    now.reading = "inspection";
    inspect_page(dice, picture, limits, handle);
    decode_all(dice, picture, limits, handle);
}

/* ---- patchy reading */

struct lent {
    struct buffer output, scratch, quality;
};

enum short_buffer { NONE_SHORT, SHORT_OUTPUT, SHORT_SCRATCH, SHORT_QUALITY };

static struct lent lend_buffers(struct dice *dice, const struct page *page)
{
    struct lent lent;
    lent.output = new_buffer(dice, "output", pixel_bytes(&page->shape));
    lent.scratch = new_buffer(dice, "scratch", scratch_of(page));
    lent.quality = new_buffer(dice, "quality", page->segments);
    return lent;
}

static void take_back(struct lent *lent)
{
    free(lent->output.bytes);
    free(lent->scratch.bytes);
    free(lent->quality.bytes);
}

/* One call with what is lent, its number, and what every call leaves. */
static void call_patchy(uint64_t page, const struct limits *limits, uint64_t budget, const struct lent *lent,
                        uint64_t number, uint64_t left, uint64_t *answer)
{
    now.number = number;
    fill_words(answer, CHELMESUT_ANSWER_WORDS);
    same("the number of patchy reading",
         chelmesut_read_patchy(now.file->bytes, now.file->length, now.map, now.map_length, page, WORDS_OF(*limits), &budget,
                               lent->output.bytes, lent->output.length, lent->scratch.bytes, lent->scratch.length,
                               lent->quality.bytes, lent->quality.length, answer),
         number);
    same("what patchy reading leaves of the budget", budget, left);
    sum.patchy++;
}

/* A refusal: all stays, but that quality is zero. One buffer may be a byte short. */
static void patchy_refused(struct dice *dice, const struct picture *picture, uint64_t page, const struct limits *limits,
                           uint64_t budget, enum short_buffer lacking, uint64_t number, uint64_t left)
{
    const struct page *shown = &picture->page[now.page];
    struct lent lent = lend_buffers(dice, shown);
    uint64_t answer[CHELMESUT_ANSWER_WORDS + GUARD];
    if (lacking == SHORT_OUTPUT)
        lent.output.length = pixel_bytes(&shown->shape) - 1;
    if (lacking == SHORT_SCRATCH)
        lent.scratch.length = scratch_of(shown) - 1;
    if (lacking == SHORT_QUALITY)
        lent.quality.length = shown->segments - 1;
    call_patchy(page, limits, budget, &lent, number, left, answer);
    words_stay("answer", answer, 0, CHELMESUT_ANSWER_WORDS);
    stays_from(&lent.output, 0);
    stays_from(&lent.scratch, 0);
    zero_from(&lent.quality, 0, lent.quality.length);
    take_back(&lent);
}

static void count_places(const struct picture *picture, const struct page *page)
{
    uint64_t places[MOST_PAIRS];
    uint32_t inside = places_inside(picture, page, places);
    sum.places += inside;
    for (uint32_t i = 0; i < inside; i++)
        sum.lost_places += !came(places[i], 1);
}

/* With the map at hand: the answer that the lost blocks leave, and the same with a unit too few. */
static void read_patchily(struct dice *dice, const struct picture *picture, const struct limits *limits)
{
    const struct page *page = &picture->page[now.page];
    const struct shape *shape = &page->shape;
    const uint64_t expected[CHELMESUT_ANSWER_WORDS] = {shape->width,        shape->height,  shape->block_width,
                                                       shape->block_height, page->segments, shape->head->samples};
    uint64_t answer[CHELMESUT_ANSWER_WORDS + GUARD], front, charges = 0, spare = below(dice, 1000);
    uint8_t *codes;
    struct lent lent;
    if (!front_came(picture, now.page, &front)) {
        sum.refused++;
        patchy_refused(dice, picture, now.page, limits, front + spare, NONE_SHORT, CHELMESUT_NOT_ARRIVED, spare);
        return;
    }
    count_places(picture, page);
    codes = lend(page->segments);
    for (uint32_t k = 0; k < page->segments; k++) {
        codes[k] = code_of(picture, page, k);
        charges += codes[k] == CHELMESUT_QUALITY_GOOD ? fee_of(page, k) : 1;
        sum.good += codes[k] == CHELMESUT_QUALITY_GOOD;
        sum.dark += codes[k] == CHELMESUT_QUALITY_GOOD && is_dark(page, k);
        sum.missing += codes[k] == CHELMESUT_QUALITY_MISSING;
    }
    lent = lend_buffers(dice, page);
    call_patchy(now.page, limits, front + charges + spare, &lent, 0, spare, answer);
    words_are("answer", answer, expected, CHELMESUT_ANSWER_WORDS);
    for (uint32_t k = 0; k < page->segments; k++)
        if (lent.quality.bytes[k] != codes[k])
            differ("the quality of segment %u is %u, expected %u", k, lent.quality.bytes[k], codes[k]);
    zero_from(&lent.quality, page->segments, lent.quality.length);
    zero_from(&lent.scratch, 0, scratch_of(page));
    stays_from(&lent.scratch, scratch_of(page));
    stays_from(&lent.output, pixel_bytes(shape));
    pixels_are(page, lent.output.bytes, codes);
    take_back(&lent);
    free(codes);
    patchy_refused(dice, picture, now.page, limits, front + charges - 1, NONE_SHORT, CHELMESUT_BUDGET, charges - 1);
}

static void let_come(uint8_t *map, uint64_t at, uint64_t n)
{
    for (uint64_t block = at / CHELMESUT_BLOCK; block <= (at + n - 1) / CHELMESUT_BLOCK; block++)
        map[block] = 1;
}

/* A map with some blocks lost. Mostly what stands before the segments comes, as else the answer is 8. */
static void some_map(struct dice *dice, const struct picture *picture, uint8_t *map, size_t blocks)
{
    static const uint8_t lost[] = {0, 0, 0, 2, 128, 255};
    uint32_t rate = 1 + below(dice, one_in(dice, 2) ? 3 : 40), size, inside;
    uint64_t places[MOST_PAIRS];
    const struct page *page = &picture->page[now.page];
    memset(map, 1, blocks);
    if (one_in(dice, 3))
        map[below(dice, (uint32_t)blocks)] = lost[below(dice, sizeof lost)];
    else
        for (size_t block = 0; block < blocks; block++)
            if (one_in(dice, rate))
                map[block] = lost[below(dice, sizeof lost)];
    inside = places_inside(picture, page, places);
    for (uint32_t i = 0; i < inside; i++)
        if (one_in(dice, 2))
            map[places[i] / CHELMESUT_BLOCK] = lost[below(dice, sizeof lost)];
    if (one_in(dice, 5))
        return;
    let_come(map, 0, 8);
    for (uint32_t p = 0; p <= now.page; p++)
        let_come(map, picture->page[p].directory, 6 + 12 * (uint64_t)picture->page[p].entries);
    for (uint32_t i = 0; i < page->shape.head->samples; i++) {
        let_come(map, value_place(picture, page, TIFFTAG_BITSPERSAMPLE, i, &size), 2);
        let_come(map, value_place(picture, page, TIFFTAG_SAMPLEFORMAT, i, &size), 2);
    }
}

static size_t size_of_block(const struct memory *file, size_t block)
{
    size_t rest = file->length - block * CHELMESUT_BLOCK;
    return rest < CHELMESUT_BLOCK ? rest : CHELMESUT_BLOCK;
}

/* A copy of the file in which each lost block holds other bytes. */
static struct memory with_stale_blocks(struct dice *dice, const struct memory *file, const uint8_t *map)
{
    struct memory stale = {0};
    append(&stale, file->bytes, file->length);
    for (size_t block = 0; block < blocks_of(file); block++)
        if (map[block] != 1)
            scribble(dice, stale.bytes + block * CHELMESUT_BLOCK, size_of_block(file, block));
    return stale;
}

/* ---- receiving */

/* A receiver that is told of each message by a call of its own, or of all at the end by the replay of their trace. */
struct bus {
    bool recorded;
    struct memory trace;
    struct buffer file, map;
    uint64_t words[CHELMESUT_RECEIVER_WORDS + GUARD];
};

static void send_start(struct bus *bus, uint64_t length, uint64_t number)
{
    now.number = number;
    if (bus->recorded)
        put_start(&bus->trace, length);
    else
        same("the number of a start",
             chelmesut_receive_start(bus->file.bytes, bus->file.length, bus->map.bytes, bus->map.length, bus->words, length),
             number);
}

static void send_block(struct bus *bus, uint64_t block, const uint8_t *bytes, size_t size, uint64_t number)
{
    now.number = number;
    if (bus->recorded)
        put_block(&bus->trace, block, bytes, size);
    else
        same("the number of a block",
             chelmesut_receive_block(bus->file.bytes, bus->file.length, bus->map.bytes, bus->map.length, bus->words, block,
                                     bytes, size),
             number);
}

/* The trace so far, at times with a message behind it that is cut or none at all. */
static void replay(struct dice *dice, struct bus *bus)
{
    now.number = below(dice, 3);
    if (now.number == CHELMESUT_TRUNCATED)
        put(&bus->trace, 2, 1 + below(dice, 8));
    if (now.number == CHELMESUT_INVALID)
        put(&bus->trace, 3, 1);
    same("the number of a replay",
         chelmesut_replay(bus->trace.bytes, bus->trace.length, bus->file.bytes, bus->file.length, bus->map.bytes,
                          bus->map.length, bus->words),
         now.number);
}

static void send_own(struct bus *bus, const struct memory *file, size_t block)
{
    send_block(bus, block, file->bytes + block * CHELMESUT_BLOCK, size_of_block(file, block), CHELMESUT_OK);
}

/* A message that changes nothing. */
static void send_refused(struct dice *dice, struct bus *bus, const struct memory *file)
{
    static const uint8_t bytes[CHELMESUT_BLOCK + 1];
    size_t block = below(dice, (uint32_t)blocks_of(file)), size = size_of_block(file, block);
    switch (below(dice, 3)) {
    case 0: send_start(bus, bus->file.length + 1 + (roll(dice) >> 1), CHELMESUT_RECEIVER_TOO_SMALL); break;
    case 1: send_block(bus, blocks_of(file) + (roll(dice) >> 1), bytes, size, CHELMESUT_NO_SUCH_BLOCK); break;
    default: send_block(bus, block, bytes, one_in(dice, 2) ? size + 1 : size - 1, CHELMESUT_BLOCK_SIZE);
    }
}

/* The blocks that came, each in its turn or later, some of them before with other bytes and some once more. */
static void send_what_came(struct dice *dice, struct bus *bus, const struct memory *file, const uint8_t *map)
{
    uint8_t other[CHELMESUT_BLOCK];
    size_t blocks = blocks_of(file), *order = lend(blocks * sizeof *order);
    memset(other, (uint8_t)roll(dice), sizeof other);
    for (size_t i = 0; i < blocks; i++) {
        size_t place = below(dice, (uint32_t)i + 1);
        order[i] = order[place];
        order[place] = i;
    }
    for (size_t i = 0; i < blocks; i++) {
        if (one_in(dice, 4))
            send_refused(dice, bus, file);
        if (map[order[i]] != 1)
            continue;
        if (one_in(dice, 4))
            send_block(bus, order[i], other, size_of_block(file, order[i]), CHELMESUT_OK);
        send_own(bus, file, order[i]);
        if (one_in(dice, 4))
            send_own(bus, file, order[i]);
    }
    free(order);
}

/* Sends a file of which some blocks are lost, and requires that it comes as it is, and its map with it. An earlier file leaves in
 * the buffer what stands in the place of the lost blocks. The map is made as a receiver leaves it, with 0 for a lost block. */
static void receive(struct dice *dice, const struct memory *file, uint8_t *map, size_t blocks)
{
    const uint64_t expected[CHELMESUT_RECEIVER_WORDS] = {1, file->length};
    struct bus bus = {.recorded = one_in(dice, 2),
                      .file = new_buffer(dice, "the received file", file->length),
                      .map = new_buffer(dice, "the received map", blocks)};
    now.reading = bus.recorded ? "the replay of a trace" : "receiving blocks";
    fill_words(bus.words, CHELMESUT_RECEIVER_WORDS);
    send_block(&bus, 0, file->bytes, size_of_block(file, 0), CHELMESUT_NO_SUCH_BLOCK);
    send_start(&bus, file->length, CHELMESUT_OK);
    for (size_t block = 0; block < blocks; block++) {
        map[block] = map[block] == 1;
        if (!map[block])
            send_own(&bus, file, block);
    }
    send_start(&bus, file->length, CHELMESUT_OK);
    send_what_came(dice, &bus, file, map);
    if (bus.recorded)
        replay(dice, &bus);

    words_are("receiver", bus.words, expected, CHELMESUT_RECEIVER_WORDS);
    for (size_t i = 0; i < file->length; i++)
        if (bus.file.bytes[i] != file->bytes[i])
            differ("byte %zu of %s is %u, expected %u", i, bus.file.name, bus.file.bytes[i], file->bytes[i]);
    for (size_t block = 0; block < blocks; block++)
        if (bus.map.bytes[block] != map[block])
            differ("byte %zu of %s is %u, expected %u", block, bus.map.name, bus.map.bytes[block], map[block]);
    stays_from(&bus.file, file->length);
    zero_from(&bus.map, blocks, bus.map.length);
    sum.received++;
    free(bus.file.bytes);
    free(bus.map.bytes);
    drop(&bus.trace);
}

static void read_every_map(struct dice *dice, const struct picture *picture, const struct limits *limits)
{
    const struct page *page = &picture->page[now.page];
    size_t blocks = blocks_of(&picture->file);
    uint8_t *map = lend(blocks + 1);
    uint64_t units = front_units(picture, now.page) + page->fees, front = front_units(picture, now.page);
    now.map = map;

    now.reading = "patchy reading with no map";
    now.map_length = 0;
    read_patchily(dice, picture, limits);

    now.reading = "patchy reading with a full map";
    memset(map, 1, blocks + 1);
    now.map_length = blocks;
    read_patchily(dice, picture, limits);

    now.reading = "patchy reading with a short buffer";
    patchy_refused(dice, picture, now.page, limits, units, SHORT_OUTPUT, CHELMESUT_OUTPUT_TOO_SMALL, units - front);
    patchy_refused(dice, picture, now.page, limits, units, SHORT_SCRATCH, CHELMESUT_OUTPUT_TOO_SMALL, units - front);
    patchy_refused(dice, picture, now.page, limits, units, SHORT_QUALITY, CHELMESUT_OUTPUT_TOO_SMALL, units - front);

    now.reading = "patchy reading with a map of the wrong length";
    now.map_length = blocks + 1;
    patchy_refused(dice, picture, now.page, limits, units, NONE_SHORT, CHELMESUT_MAP_SIZE, units);

    now.map_length = blocks;
    for (uint32_t turn = 0; turn < 3; turn++) {
        struct memory stale;
        some_map(dice, picture, map, blocks);
        stale = with_stale_blocks(dice, &picture->file, map);
        now.file = &stale;
        if (one_in(dice, 2))
            receive(dice, &stale, map, blocks);
        now.reading = "patchy reading with lost blocks";
        read_patchily(dice, picture, limits);
        now.file = &picture->file;
        drop(&stale);
    }
    now.map_length = 0;
    free(map);
}

/* ---- one picture, and many */

/* The page after the last one: every directory is charged, then 5. */
static void ask_for_too_much(struct dice *dice, const struct picture *picture)
{
    uint32_t last = picture->pages - 1;
    uint64_t front = front_units(picture, last) - 128, spare = below(dice, 1000);
    struct limits limits = some_limits(dice, picture, last);
    now.reading = "a page after the last";
    limits.max_directories = picture->pages + 1;
    inspect_refused(&limits, picture->pages, front + spare, CHELMESUT_PAGE_NOT_FOUND, spare);
    patchy_refused(dice, picture, picture->pages, &limits, front + spare, NONE_SHORT, CHELMESUT_PAGE_NOT_FOUND, spare);
    limits.max_directories = picture->pages;
    inspect_refused(&limits, picture->pages, spare, CHELMESUT_LIMIT, spare);
    patchy_refused(dice, picture, picture->pages, &limits, spare, NONE_SHORT, CHELMESUT_LIMIT, spare);
}

static void count_page(const struct picture *picture, const struct page *page)
{
    uint64_t fields[MOST_PAIRS];
    sum.pages++;
    sum.paired += paired_fields(&picture->file, page->directory, fields) > 0;
    sum.monochrome += page->shape.head == &monochrome;
    sum.unsaid += entry_of(&picture->file, page->directory, TIFFTAG_SAMPLESPERPIXEL) == 0;
    sum.mixed += page > picture->page && page->shape.head != page[-1].shape.head;
}

static void compare_picture(uint64_t seed)
{
    struct dice dice = {~seed};
    struct picture picture;
    make_picture(&picture, seed);
    now.picture = &picture;
    now.file = &picture.file;
    now.map = picture.file.bytes;
    now.map_length = 0;
    for (uint32_t p = 0; p < picture.pages; p++) {
        struct limits limits = some_limits(&dice, &picture, p);
        now.page = p;
        read_strictly(&dice, &picture, &limits);
        read_every_map(&dice, &picture, &limits);
        count_page(&picture, &picture.page[p]);
    }
    now.map = picture.file.bytes;
    ask_for_too_much(&dice, &picture);
    drop_picture(&picture);
}

/* In place on a terminal; else a line for each tenth. */
static void show_progress(uint64_t done, uint64_t count)
{
    static uint64_t tenths;
    if (isatty(STDOUT_FILENO)) {
        if (done % 20 == 0 || done == count)
            printf("\r%" PRIu64 " of %" PRIu64 " pictures%s", done, count, done == count ? "\r" : "");
        fflush(stdout);
    } else if (done * 10 / count > tenths) {
        tenths = done * 10 / count;
        printf("%" PRIu64 " of %" PRIu64 " pictures\n", done, count);
        fflush(stdout);
    }
}

static uint64_t number_in(const char *text)
{
    char *end;
    uint64_t number = strtoull(text, &end, 10);
    if (*text == '\0' || *end != '\0')
        give_up("usage: compare [COUNT [SEED]], two numbers");
    return number;
}

/* libtiff's version, the last word of the first line of what it says of itself. */
static const char *libtiff_version(void)
{
    static char line[64];
    char *word;
    snprintf(line, sizeof line, "%s", TIFFGetVersion());
    line[strcspn(line, "\n")] = '\0';
    word = strrchr(line, ' ');
    return word ? word + 1 : line;
}

/* A long run must have had what it is for. */
static void must_have_had(uint64_t times, const char *what)
{
    if (times == 0)
        give_up("compare: %s: this run shows less than it should", what);
}

int main(int arguments, char **argument)
{
    uint64_t count = arguments > 1 ? number_in(argument[1]) : 5000, seed = arguments > 2 ? number_in(argument[2]) : 1;
    for (uint64_t i = 0; i < count; i++) {
        compare_picture(seed + i);
        show_progress(i + 1, count);
    }
    if (count >= LONG_RUN) {
        must_have_had(sum.lost_places, "no page had inline shorts whose field, as a place, was lost");
        must_have_had(sum.pages - sum.monochrome, "no page was of the colour head");
        must_have_had(sum.monochrome, "no page was of the monochrome head");
        must_have_had(sum.unsaid, "no page was without its number of samples");
        must_have_had(sum.mixed, "no file had pages of both heads");
        must_have_had(sum.dark, "no good segment showed zeros alone");
    }
    printf("compare: no difference from libtiff %s: %" PRIu64 " pictures from seed %" PRIu64 ", %" PRIu64 " pages, %" PRIu64
           " pixels; %" PRIu64 " patchy calls, in which %" PRIu64 " segments were good and %" PRIu64 " lost, and %" PRIu64
           " calls lacked what comes before the segments; %" PRIu64
           " files with lost blocks came by way of the receiver; %" PRIu64
           " pages with inline shorts, whose field was as a place inside the file in %" PRIu64
           " patchy calls, and lost in %" PRIu64 "; %" PRIu64 " pages were monochrome, %" PRIu64
           " of them without tag 277; %" PRIu64 " pages came after one of the other head; %" PRIu64
           " times a good segment showed zeros alone\n",
           libtiff_version(), count, seed, sum.pages, sum.pixels, sum.patchy, sum.good, sum.missing, sum.refused,
           sum.received, sum.paired, sum.places, sum.lost_places, sum.monochrome, sum.unsaid, sum.mixed, sum.dark);
    return 0;
}
