/* What the programs of this folder share: files in memory, pictures of either head that libtiff writes into them and reads
 * from them, numbers and entries of a TIFF file by its bytes, traces of its blocks, random numbers that are the same in every
 * run, and the limits of a call. */
#ifndef PICTURES_H
#define PICTURES_H
#include "../../include/chelmesut.h"
#include <stdbool.h>
#include <stddef.h>
#include <stdint.h>
#include <tiffio.h>

/* A head of the camera (rule 3.9): what its pages have in tags 262 and 277, how many planes a row is stored in, and how many
 * bytes a pixel is read as. Each sample is two of these bytes, in our pixels and in libtiff's 16-bit data. */
struct head {
    const char *name;
    uint32_t photometric, samples, planes, pixel;
};

extern const struct head colour, monochrome;

enum { MOST_PIXEL = 6 };

/* What a segment of so many pixels takes of scratch, and what is charged for it with so many stored bytes (rules 7.3, 5.3). */
uint64_t scratch_for(const struct head *head, uint64_t area);
uint64_t fee_for(const struct head *head, uint64_t stored, uint64_t area);

/* Says what went wrong by way of printf's words, and ends the program with status 2: a fault of the test itself. */
_Noreturn void give_up(const char *words, ...) __attribute__((format(printf, 1, 2)));

/* Memory of so many bytes (at least one); there is always some. */
void *lend(size_t bytes);

/* A file in memory. */
struct memory {
    uint8_t *bytes;
    size_t length, room, place;
};

void append(struct memory *file, const void *bytes, size_t length);
void put(struct memory *file, uint64_t value, size_t size); /* a number in so many bytes, the low byte first */
void read_file(struct memory *file, const char *path);
void drop(struct memory *file);

/* Blocks of a file, the last perhaps short. */
size_t blocks_of(const struct memory *file);

/* The messages of a trace, as the receiver takes it. */
void put_start(struct memory *trace, uint64_t length);
void put_block(struct memory *trace, uint64_t number, const uint8_t *bytes, size_t size);

/* Random numbers of a seed. */
struct dice {
    uint64_t state;
};

uint64_t roll(struct dice *dice);
uint32_t below(struct dice *dice, uint32_t bound);                  /* from 0 to bound - 1 */
uint32_t between(struct dice *dice, uint32_t least, uint32_t most); /* both may come */
bool one_in(struct dice *dice, uint32_t n);

/* Which head made a page, and how it is cut. A strip's block width is the page's width; its block height may be above the
 * page's, as in a file. Where the samples are unsaid the page has no tag 277, as a monochrome one may. */
struct shape {
    const struct head *head;
    uint32_t width, height, block_width, block_height;
    bool tiled, samples_unsaid;
};

size_t pixel_bytes(const struct shape *shape);

/* libtiff's handle of a file in memory. Its own messages are kept quiet. */
TIFF *open_to_write(struct memory *file, bool big_endian);
TIFF *open_to_read(struct memory *file);

/* Writes a page of the head's samples for each pixel, L, u, v or L alone; tags that are set before stay. */
void write_page(TIFF *tiff, const struct shape *shape, const int16_t *samples);

/* What libtiff says of the page that is at hand, and its pixels in 16-bit samples. */
struct shape shape_of(TIFF *tiff);
void read_pixels(TIFF *tiff, const struct shape *shape, uint8_t *pixels);

/* What stands in a TIFF file, in its own byte order. It is there, else the program gives up. */
uint64_t read_number(const struct memory *file, uint64_t at, uint32_t size);
void write_number(struct memory *file, uint64_t at, uint32_t size, uint64_t value);

/* Places in such a file: a page's directory, and the entry of a tag in a directory, or 0 where there is none. */
uint64_t directory_of(const struct memory *file, uint64_t page);
uint64_t entry_of(const struct memory *file, uint64_t directory, uint32_t tag);

/* The fields of a directory in which two offsets or two counts stand, as they do if they are of type 3 (rule 2.12): how many,
 * and their places. */
enum { MOST_PAIRS = 4 };
uint32_t paired_fields(const struct memory *file, uint64_t directory, uint64_t fields[MOST_PAIRS]);

/* The limits of a call, in the order of the C face. */
struct limits {
    uint64_t max_input, max_output, max_dimension, max_directories, max_tags, max_segments;
};

#define WORDS_OF(limits)                                                                        \
    (limits).max_input, (limits).max_output, (limits).max_dimension, (limits).max_directories,  \
        (limits).max_tags, (limits).max_segments
#endif
