/* Files in memory, pictures of either head that libtiff writes into them and reads from them, and what stands in them by their
 * bytes (see pictures.h). */
#include "pictures.h"
#include <stdarg.h>
#include <stdio.h>
#include <stdlib.h>
#include <string.h>

void give_up(const char *words, ...)
{
    va_list values;
    va_start(values, words);
    vfprintf(stderr, words, values);
    va_end(values);
    fputc('\n', stderr);
    exit(2);
}

void *lend(size_t bytes)
{
    void *memory = malloc(bytes ? bytes : 1);
    if (!memory)
        give_up("no memory for %zu bytes", bytes);
    return memory;
}

static void grow(struct memory *file, size_t length)
{
    if (length <= file->room)
        return;
    file->room = length < 4096 ? 8192 : 2 * length;
    file->bytes = realloc(file->bytes, file->room);
    if (!file->bytes)
        give_up("no memory for a file of %zu bytes", file->room);
}

void append(struct memory *file, const void *bytes, size_t length)
{
    grow(file, file->length + length);
    memcpy(file->bytes + file->length, bytes, length);
    file->length += length;
}

void put(struct memory *file, uint64_t value, size_t size)
{
    uint8_t bytes[8];
    for (size_t i = 0; i < size; i++)
        bytes[i] = (uint8_t)(value >> (8 * i));
    append(file, bytes, size);
}

void read_file(struct memory *file, const char *path)
{
    FILE *stream = fopen(path, "rb");
    uint8_t piece[4096];
    size_t length;
    if (!stream)
        give_up("%s cannot be opened", path);
    while ((length = fread(piece, 1, sizeof piece, stream)) > 0)
        append(file, piece, length);
    if (ferror(stream))
        give_up("%s cannot be read", path);
    fclose(stream);
}

void drop(struct memory *file)
{
    free(file->bytes);
    *file = (struct memory){0};
}

size_t blocks_of(const struct memory *file)
{
    return (file->length + CHELMESUT_BLOCK - 1) / CHELMESUT_BLOCK;
}

void put_start(struct memory *trace, uint64_t length)
{
    put(trace, 1, 1);
    put(trace, length, 8);
}

void put_block(struct memory *trace, uint64_t number, const uint8_t *bytes, size_t size)
{
    put(trace, 2, 1);
    put(trace, number, 8);
    put(trace, size, 2);
    append(trace, bytes, size);
}

/* splitmix64 */
uint64_t roll(struct dice *dice)
{
    uint64_t z = dice->state += 0x9e3779b97f4a7c15u;
    z = (z ^ (z >> 30)) * 0xbf58476d1ce4e5b9u;
    z = (z ^ (z >> 27)) * 0x94d049bb133111ebu;
    return z ^ (z >> 31);
}

uint32_t below(struct dice *dice, uint32_t bound)
{
    return (uint32_t)((roll(dice) >> 32) * bound >> 32);
}

uint32_t between(struct dice *dice, uint32_t least, uint32_t most)
{
    return least + below(dice, most - least + 1);
}

bool one_in(struct dice *dice, uint32_t n)
{
    return below(dice, n) == 0;
}

const struct head colour = {"colour", PHOTOMETRIC_LOGLUV, 3, 4, 6};
const struct head monochrome = {"monochrome", PHOTOMETRIC_LOGL, 1, 2, 2};

uint64_t scratch_for(const struct head *head, uint64_t area)
{
    return (head->planes + head->pixel) * area;
}

uint64_t fee_for(const struct head *head, uint64_t stored, uint64_t area)
{
    return stored + 2 * (head->planes + head->pixel) * area + 1;
}

size_t pixel_bytes(const struct shape *shape)
{
    return (size_t)shape->width * shape->height * shape->head->pixel;
}

static tmsize_t read_some(thandle_t handle, void *bytes, tmsize_t wanted)
{
    struct memory *file = handle;
    size_t length = (size_t)wanted;
    if (file->place >= file->length)
        return 0;
    if (length > file->length - file->place)
        length = file->length - file->place;
    memcpy(bytes, file->bytes + file->place, length);
    file->place += length;
    return (tmsize_t)length;
}

/* What lies between the end of the file and a place behind it is zero. */
static tmsize_t write_some(thandle_t handle, void *bytes, tmsize_t wanted)
{
    struct memory *file = handle;
    size_t length = (size_t)wanted, end = file->place + length;
    grow(file, end);
    if (file->place > file->length)
        memset(file->bytes + file->length, 0, file->place - file->length);
    memcpy(file->bytes + file->place, bytes, length);
    file->place = end;
    if (end > file->length)
        file->length = end;
    return wanted;
}

static toff_t seek_to(thandle_t handle, toff_t offset, int whence)
{
    struct memory *file = handle;
    if (whence == SEEK_SET)
        file->place = (size_t)offset;
    else if (whence == SEEK_CUR)
        file->place += (size_t)offset;
    else
        file->place = file->length + (size_t)offset;
    return file->place;
}

static int close_file(thandle_t handle)
{
    (void)handle;
    return 0;
}

static toff_t size_of(thandle_t handle)
{
    return ((struct memory *)handle)->length;
}

/* libtiff reads where the file lies, as it does with a mapped file: no copy of the stored bytes. */
static int map_file(thandle_t handle, void **bytes, toff_t *length)
{
    struct memory *file = handle;
    *bytes = file->bytes;
    *length = file->length;
    return 1;
}

static void unmap_file(thandle_t handle, void *bytes, toff_t length)
{
    (void)handle;
    (void)bytes;
    (void)length;
}

static TIFF *open_memory(struct memory *file, const char *mode)
{
    TIFF *tiff;
    TIFFSetWarningHandler(NULL);
    file->place = 0;
    tiff = TIFFClientOpen("memory", mode, file, read_some, write_some, seek_to, close_file, size_of, map_file, unmap_file);
    if (!tiff)
        give_up("libtiff does not open a file in memory");
    return tiff;
}

TIFF *open_to_write(struct memory *file, bool big_endian)
{
    return open_memory(file, big_endian ? "wb" : "wl");
}

TIFF *open_to_read(struct memory *file)
{
    return open_memory(file, "r");
}

static void set_number(TIFF *tiff, uint32_t tag, uint32_t value)
{
    if (!TIFFSetField(tiff, tag, value))
        give_up("libtiff does not take %u for tag %u", value, tag);
}

/* The tile at (x, y) of a page. Beyond the page's edge it repeats the last pixel of the row, and the last row. */
static void copy_to_tile(const struct shape *shape, uint32_t x, uint32_t y, const int16_t *samples, int16_t *tile)
{
    size_t each = shape->head->samples;
    for (uint32_t row = 0; row < shape->block_height; row++)
        for (uint32_t column = 0; column < shape->block_width; column++) {
            uint32_t from_x = x + column < shape->width ? x + column : shape->width - 1;
            uint32_t from_y = y + row < shape->height ? y + row : shape->height - 1;
            memcpy(tile + each * ((size_t)row * shape->block_width + column),
                   samples + each * ((size_t)from_y * shape->width + from_x), each * sizeof *tile);
        }
}

/* What of the tile at (x, y) lies in the page. */
static void copy_from_tile(const struct shape *shape, uint32_t x, uint32_t y, const uint8_t *tile, uint8_t *pixels)
{
    size_t pixel = shape->head->pixel;
    uint32_t columns = shape->width - x < shape->block_width ? shape->width - x : shape->block_width;
    uint32_t rows = shape->height - y < shape->block_height ? shape->height - y : shape->block_height;
    for (uint32_t row = 0; row < rows; row++)
        memcpy(pixels + pixel * ((size_t)(y + row) * shape->width + x), tile + pixel * ((size_t)row * shape->block_width),
               pixel * columns);
}

static uint32_t strip_rows(const struct shape *shape, uint32_t y)
{
    return shape->height - y < shape->block_height ? shape->height - y : shape->block_height;
}

/* Bytes of a segment's pixels, with so many rows. */
static tmsize_t segment_bytes(const struct shape *shape, uint32_t rows)
{
    return (tmsize_t)shape->head->pixel * shape->block_width * rows;
}

/* Before libtiff encodes 16-bit samples for a big-endian file it swaps their bytes in the lent buffer, though its encoder takes
 * them as numbers of this machine. They are swapped here too, so that the file has what was drawn. */
static void swap_beforehand(TIFF *tiff, int16_t *samples, tmsize_t size)
{
    if (TIFFIsByteSwapped(tiff))
        TIFFSwabArrayOfShort((uint16_t *)samples, size / (tmsize_t)sizeof *samples);
}

static void write_tiles(TIFF *tiff, const struct shape *shape, const int16_t *samples)
{
    tmsize_t size = segment_bytes(shape, shape->block_height);
    int16_t *tile = lend((size_t)size);
    uint32_t segment = 0;
    for (uint32_t y = 0; y < shape->height; y += shape->block_height)
        for (uint32_t x = 0; x < shape->width; x += shape->block_width) {
            copy_to_tile(shape, x, y, samples, tile);
            swap_beforehand(tiff, tile, size);
            if (TIFFWriteEncodedTile(tiff, segment++, tile, size) != size)
                give_up("libtiff does not write a tile");
        }
    free(tile);
}

static void write_strips(TIFF *tiff, const struct shape *shape, const int16_t *samples)
{
    size_t row = (size_t)shape->head->samples * shape->width;
    uint32_t segment = 0, rows;
    int16_t *strip = lend((size_t)segment_bytes(shape, strip_rows(shape, 0)));
    for (uint32_t y = 0; y < shape->height; y += rows) {
        tmsize_t size;
        rows = strip_rows(shape, y);
        size = segment_bytes(shape, rows);
        memcpy(strip, samples + row * y, (size_t)size);
        swap_beforehand(tiff, strip, size);
        if (TIFFWriteEncodedStrip(tiff, segment++, strip, size) != size)
            give_up("libtiff does not write a strip");
    }
    free(strip);
}

void write_page(TIFF *tiff, const struct shape *shape, const int16_t *samples)
{
    set_number(tiff, TIFFTAG_IMAGEWIDTH, shape->width);
    set_number(tiff, TIFFTAG_IMAGELENGTH, shape->height);
    set_number(tiff, TIFFTAG_BITSPERSAMPLE, 16);
    if (!shape->samples_unsaid)
        set_number(tiff, TIFFTAG_SAMPLESPERPIXEL, shape->head->samples);
    set_number(tiff, TIFFTAG_SAMPLEFORMAT, SAMPLEFORMAT_INT);
    set_number(tiff, TIFFTAG_PLANARCONFIG, PLANARCONFIG_CONTIG);
    set_number(tiff, TIFFTAG_COMPRESSION, COMPRESSION_SGILOG);
    set_number(tiff, TIFFTAG_PHOTOMETRIC, shape->head->photometric);
    set_number(tiff, TIFFTAG_SGILOGDATAFMT, SGILOGDATAFMT_16BIT);
    if (shape->tiled) {
        set_number(tiff, TIFFTAG_TILEWIDTH, shape->block_width);
        set_number(tiff, TIFFTAG_TILELENGTH, shape->block_height);
        write_tiles(tiff, shape, samples);
    } else {
        set_number(tiff, TIFFTAG_ROWSPERSTRIP, shape->block_height);
        write_strips(tiff, shape, samples);
    }
    if (!TIFFWriteDirectory(tiff))
        give_up("libtiff does not write a directory");
}

static uint32_t number_of(TIFF *tiff, uint32_t tag)
{
    uint32_t value = 0;
    if (!TIFFGetFieldDefaulted(tiff, tag, &value))
        give_up("libtiff finds no tag %u", tag);
    return value;
}

static const struct head *head_of(TIFF *tiff)
{
    const struct head *head;
    uint16_t photometric = 0, samples = 0;
    TIFFGetFieldDefaulted(tiff, TIFFTAG_PHOTOMETRIC, &photometric);
    TIFFGetFieldDefaulted(tiff, TIFFTAG_SAMPLESPERPIXEL, &samples);
    head = photometric == monochrome.photometric ? &monochrome : &colour;
    if (photometric != head->photometric || samples != head->samples)
        give_up("libtiff finds photometric %u and %u samples, which no head has", photometric, samples);
    return head;
}

struct shape shape_of(TIFF *tiff)
{
    struct shape shape;
    uint16_t samples;
    shape.head = head_of(tiff);
    shape.samples_unsaid = !TIFFGetField(tiff, TIFFTAG_SAMPLESPERPIXEL, &samples);
    shape.width = number_of(tiff, TIFFTAG_IMAGEWIDTH);
    shape.height = number_of(tiff, TIFFTAG_IMAGELENGTH);
    shape.tiled = TIFFIsTiled(tiff);
    if (shape.tiled) {
        shape.block_width = number_of(tiff, TIFFTAG_TILEWIDTH);
        shape.block_height = number_of(tiff, TIFFTAG_TILELENGTH);
    } else {
        shape.block_width = shape.width;
        shape.block_height = number_of(tiff, TIFFTAG_ROWSPERSTRIP);
    }
    return shape;
}

static void read_tiles(TIFF *tiff, const struct shape *shape, uint8_t *pixels)
{
    tmsize_t size = segment_bytes(shape, shape->block_height);
    uint8_t *tile = lend((size_t)size);
    uint32_t segment = 0;
    for (uint32_t y = 0; y < shape->height; y += shape->block_height)
        for (uint32_t x = 0; x < shape->width; x += shape->block_width) {
            if (TIFFReadEncodedTile(tiff, segment++, tile, size) != size)
                give_up("libtiff does not read a tile");
            copy_from_tile(shape, x, y, tile, pixels);
        }
    free(tile);
}

static void read_strips(TIFF *tiff, const struct shape *shape, uint8_t *pixels)
{
    size_t row = (size_t)shape->head->pixel * shape->width;
    uint32_t segment = 0, rows;
    for (uint32_t y = 0; y < shape->height; y += rows) {
        tmsize_t size;
        rows = strip_rows(shape, y);
        size = segment_bytes(shape, rows);
        if (TIFFReadEncodedStrip(tiff, segment++, pixels + row * y, size) != size)
            give_up("libtiff does not read a strip");
    }
}

void read_pixels(TIFF *tiff, const struct shape *shape, uint8_t *pixels)
{
    set_number(tiff, TIFFTAG_SGILOGDATAFMT, SGILOGDATAFMT_16BIT);
    if (shape->tiled)
        read_tiles(tiff, shape, pixels);
    else
        read_strips(tiff, shape, pixels);
}

/* A byte of a number, the lowest being byte 0. */
static uint8_t *byte_of(const struct memory *file, uint64_t at, uint32_t size, uint32_t i)
{
    if (at + size > file->length)
        give_up("a TIFF file of %zu bytes ends before a number of it", file->length);
    return file->bytes + (file->bytes[0] == 'M' ? at + size - 1 - i : at + i);
}

uint64_t read_number(const struct memory *file, uint64_t at, uint32_t size)
{
    uint64_t value = 0;
    for (uint32_t i = 0; i < size; i++)
        value |= (uint64_t)*byte_of(file, at, size, i) << (8 * i);
    return value;
}

void write_number(struct memory *file, uint64_t at, uint32_t size, uint64_t value)
{
    for (uint32_t i = 0; i < size; i++)
        *byte_of(file, at, size, i) = (uint8_t)(value >> (8 * i));
}

uint64_t directory_of(const struct memory *file, uint64_t page)
{
    uint64_t directory = read_number(file, 4, 4);
    for (; page > 0; page--)
        directory = read_number(file, directory + 2 + 12 * read_number(file, directory, 2), 4);
    return directory;
}

uint64_t entry_of(const struct memory *file, uint64_t directory, uint32_t tag)
{
    uint64_t end = directory + 2 + 12 * read_number(file, directory, 2);
    for (uint64_t entry = directory + 2; entry < end; entry += 12)
        if (read_number(file, entry, 2) == tag)
            return entry;
    return 0;
}

uint32_t paired_fields(const struct memory *file, uint64_t directory, uint64_t fields[MOST_PAIRS])
{
    static const uint16_t tags[MOST_PAIRS] = {TIFFTAG_STRIPOFFSETS, TIFFTAG_STRIPBYTECOUNTS, TIFFTAG_TILEOFFSETS,
                                              TIFFTAG_TILEBYTECOUNTS};
    uint32_t pairs = 0;
    for (uint32_t t = 0; t < MOST_PAIRS; t++) {
        uint64_t entry = entry_of(file, directory, tags[t]);
        if (entry && read_number(file, entry + 2, 2) == TIFF_SHORT && read_number(file, entry + 4, 4) == 2)
            fields[pairs++] = entry + 8;
    }
    return pairs;
}
