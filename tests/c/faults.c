/* Mistakes between compare and the reader, one at a time, each of which compare must notice. It is linked into compare with
 *
 *     -Wl,--wrap=chelmesut_inspect,--wrap=chelmesut_decode,--wrap=chelmesut_read_patchy
 *     -Wl,--wrap=chelmesut_receive_start,--wrap=chelmesut_receive_block,--wrap=chelmesut_replay
 *
 * so that compare's calls come here. The environment's FAULT is the number of the mistake; with a number after the last one the
 * program ends with status 3. */
#include "../../include/chelmesut.h"
#include "pictures.h"
#include <stdio.h>
#include <stdlib.h>
#include <string.h>

#define LIMIT_WORDS max_input, max_output, max_dimension, max_directories, max_tags, max_segments

uint64_t __real_chelmesut_inspect(const uint8_t *file, size_t file_len, uint64_t page, CHELMESUT_LIMITS, uint64_t *budget,
                                  uint64_t handle[17]);
uint64_t __real_chelmesut_decode(const uint8_t *file, size_t file_len, uint64_t page, CHELMESUT_LIMITS,
                                 const uint64_t handle[17], uint64_t *budget, uint8_t *output, size_t output_len,
                                 uint8_t *scratch, size_t scratch_len);
uint64_t __real_chelmesut_read_patchy(const uint8_t *file, size_t file_len, const uint8_t *map, size_t map_len,
                                      uint64_t page, CHELMESUT_LIMITS, uint64_t *budget, uint8_t *output, size_t output_len,
                                      uint8_t *scratch, size_t scratch_len, uint8_t *quality, size_t quality_len,
                                      uint64_t answer[6]);
uint64_t __real_chelmesut_receive_start(uint8_t *file, size_t file_len, uint8_t *map, size_t map_len, uint64_t receiver[2],
                                        uint64_t length);
uint64_t __real_chelmesut_receive_block(uint8_t *file, size_t file_len, uint8_t *map, size_t map_len, uint64_t receiver[2],
                                        uint64_t number, const uint8_t *bytes, size_t bytes_len);
uint64_t __real_chelmesut_replay(const uint8_t *trace, size_t trace_len, uint8_t *file, size_t file_len, uint8_t *map,
                                 size_t map_len, uint64_t receiver[2]);
uint64_t __wrap_chelmesut_inspect(const uint8_t *file, size_t file_len, uint64_t page, CHELMESUT_LIMITS, uint64_t *budget,
                                  uint64_t handle[17]);
uint64_t __wrap_chelmesut_decode(const uint8_t *file, size_t file_len, uint64_t page, CHELMESUT_LIMITS,
                                 const uint64_t handle[17], uint64_t *budget, uint8_t *output, size_t output_len,
                                 uint8_t *scratch, size_t scratch_len);
uint64_t __wrap_chelmesut_read_patchy(const uint8_t *file, size_t file_len, const uint8_t *map, size_t map_len,
                                      uint64_t page, CHELMESUT_LIMITS, uint64_t *budget, uint8_t *output, size_t output_len,
                                      uint8_t *scratch, size_t scratch_len, uint8_t *quality, size_t quality_len,
                                      uint64_t *answer);
uint64_t __wrap_chelmesut_receive_start(uint8_t *file, size_t file_len, uint8_t *map, size_t map_len, uint64_t receiver[2],
                                        uint64_t length);
uint64_t __wrap_chelmesut_receive_block(uint8_t *file, size_t file_len, uint8_t *map, size_t map_len, uint64_t receiver[2],
                                        uint64_t number, const uint8_t *bytes, size_t bytes_len);
uint64_t __wrap_chelmesut_replay(const uint8_t *trace, size_t trace_len, uint8_t *file, size_t file_len, uint8_t *map,
                                 size_t map_len, uint64_t receiver[2]);

enum fault {
    NONE,
    HANDLE_OF_PREVIOUS_PAGE,
    HANDLE_WORK_TOO_SMALL,
    HANDLE_WRITTEN_ON_REFUSAL,
    INSPECT_CHARGES_WHAT_FAILS,
    DECODE_BIT_OF_PIXEL,
    DECODE_BYTE_AFTER_OUTPUT,
    DECODE_BYTE_AFTER_SCRATCH,
    DECODE_SCRATCH_NOT_ZERO,
    DECODE_CHARGES_NOTHING,
    DECODE_TAKES_FORGED_HANDLE,
    DECODE_OUTPUT_BEFORE_BUDGET,
    STRICT_PAIR_EXCHANGED_IN_BIG_ENDIAN,
    STRICT_PAIR_TAKEN_FROM_PLACE,
    STRICT_PAIR_OUTSIDE_AT_PLACE,
    STRICT_MONOCHROME_REFUSED,
    STRICT_SAMPLES_MUST_BE_SAID,
    STRICT_MONOCHROME_FOUR_PLANES,
    STRICT_MONOCHROME_FEE_OF_COLOUR,
    STRICT_COLOUR_FEE_OF_MONOCHROME,
    STRICT_MONOCHROME_SCRATCH_OF_COLOUR,
    HANDLE_CHANNELS_ALWAYS_THREE,
    HANDLE_CHANNELS_OF_FIRST_PAGE,
    DECODE_TAKES_FORGED_CHANNELS,
    DECODE_MONOCHROME_BYTES_EXCHANGED,
    DECODE_MONOCHROME_SIX_BYTES_APART,
    PATCHY_BIT_OF_PIXEL,
    PATCHY_PREVIOUS_PIXELS,
    PATCHY_LOST_MARKED_GOOD,
    PATCHY_ALL_MARKED_LOST,
    PATCHY_ODD_MARK_IS_ARRIVED,
    PATCHY_LAST_LOST_BLOCK_PASSED_OVER,
    PATCHY_CHARGE_OF_LOST_SEGMENT,
    PATCHY_QUALITY_STAYS_BEHIND_LAST,
    PATCHY_QUALITY_STAYS_ON_REFUSAL,
    PATCHY_SCRATCH_NOT_ZERO,
    PATCHY_BYTE_AFTER_OUTPUT,
    PATCHY_ANSWER_ON_REFUSAL,
    PATCHY_WRONG_MAP_TAKEN,
    PATCHY_PAIR_SECOND_IS_FIRST,
    PATCHY_PAIR_OUTSIDE_AT_PLACE,
    PATCHY_PAIR_LOST_AT_PLACE,
    PATCHY_MONOCHROME_REFUSED,
    PATCHY_SAMPLES_MUST_BE_SAID,
    PATCHY_MONOCHROME_FOUR_PLANES,
    PATCHY_MONOCHROME_FEE_OF_COLOUR,
    PATCHY_MONOCHROME_SCRATCH_OF_COLOUR,
    PATCHY_CHANNELS_ALWAYS_THREE,
    PATCHY_CHANNELS_NOT_WRITTEN,
    PATCHY_WORD_BEHIND_CHANNELS,
    PATCHY_MONOCHROME_BYTES_EXCHANGED,
    PATCHY_MONOCHROME_SIX_BYTES_BLANKED,
    PATCHY_COLOUR_TWO_BYTES_BLANKED,
    PATCHY_DARK_MARKED_LOST,
    START_LEAVES_MARKS,
    START_CLEARS_FILE,
    BLOCK_AGAIN_PASSED_OVER,
    BLOCK_MARKED_ON_REFUSAL,
    REPLAY_FORGETS_WHERE_IT_STOPS,
    REPLAY_TAKES_CUT_FOR_END,
    FAULTS
};

static enum fault fault;

/* Before main, which is compare's. */
__attribute__((constructor)) static void choose(void)
{
    const char *number = getenv("FAULT");
    fault = number ? (enum fault)atoi(number) : NONE;
    if (fault >= FAULTS)
        exit(3);
}

static uint8_t *copy_of(const uint8_t *bytes, size_t length)
{
    return memcpy(lend(length), bytes, length);
}

/* ---- pairs: two offsets or two counts in a field, which by mistake is taken for the number of their place */

static void misread_pair(struct memory *file, uint64_t field)
{
    uint64_t first = read_number(file, field, 2), second = read_number(file, field + 2, 2);
    uint64_t place = read_number(file, field, 4);
    if (fault == STRICT_PAIR_EXCHANGED_IN_BIG_ENDIAN && file->bytes[0] == 'M') {
        write_number(file, field, 2, second);
        write_number(file, field + 2, 2, first);
    }
    if (fault == STRICT_PAIR_TAKEN_FROM_PLACE && place + 4 <= file->length)
        memcpy(file->bytes + field, file->bytes + place, 4);
    if (fault == PATCHY_PAIR_SECOND_IS_FIRST)
        write_number(file, field + 2, 2, first);
}

/* A copy of the file with the pairs of a page as they are misread. The page's directory came. */
static struct memory with_misread_pairs(const uint8_t *file, size_t file_len, uint64_t page)
{
    struct memory copy = {0};
    uint64_t fields[MOST_PAIRS];
    uint32_t pairs;
    append(&copy, file, file_len);
    pairs = paired_fields(&copy, directory_of(&copy, page), fields);
    for (uint32_t i = 0; i < pairs; i++)
        misread_pair(&copy, fields[i]);
    return copy;
}

/* Whether a page, whose directory came, has a pair whose place would have this quality. */
static bool has_pair_at(const uint8_t *file, size_t file_len, const uint8_t *map, size_t map_len, uint64_t page, int quality)
{
    const struct memory lent = {.bytes = (uint8_t *)file, .length = file_len}; /* it is only read */
    uint64_t fields[MOST_PAIRS];
    uint32_t pairs = paired_fields(&lent, directory_of(&lent, page), fields);
    for (uint32_t i = 0; i < pairs; i++) {
        uint64_t place = read_number(&lent, fields[i], 4);
        bool outside = place >= file_len, lost = !outside && map_len > 0 && map[place / CHELMESUT_BLOCK] != 1;
        if (quality == CHELMESUT_QUALITY_OUTSIDE ? outside : lost)
            return true;
    }
    return false;
}

/* ---- heads: a reader that takes one for the other */

/* Whether a page, whose directory came, has its number of samples. */
static bool says_samples(const uint8_t *file, size_t file_len, uint64_t page)
{
    const struct memory lent = {.bytes = (uint8_t *)file, .length = file_len}; /* it is only read */
    return entry_of(&lent, directory_of(&lent, page), TIFFTAG_SAMPLESPERPIXEL) != 0;
}

/* What inspection finds of the channels of a page, or 0. */
static uint64_t channels_of(const uint8_t *file, size_t file_len, uint64_t page, CHELMESUT_LIMITS)
{
    uint64_t all = UINT64_MAX, handle[CHELMESUT_HANDLE_WORDS] = {0};
    __real_chelmesut_inspect(file, file_len, page, LIMIT_WORDS, &all, handle);
    return handle[CHELMESUT_CHANNELS];
}

/* The charge for so many pixels becomes that of the other head. Answers with 7 where it is not met. */
static uint64_t charge_other_head(uint64_t channels, uint64_t pixels, uint64_t *budget)
{
    uint64_t wrong = fee_for(&colour, 0, pixels) - fee_for(&monochrome, 0, pixels);
    if (channels == colour.samples)
        *budget += wrong;
    else if (*budget < wrong)
        return CHELMESUT_BUDGET;
    else
        *budget -= wrong;
    return CHELMESUT_OK;
}

/* The bytes of each L in the other order. */
static void exchange_bytes(uint8_t *pixels, uint64_t length)
{
    for (uint64_t i = 0; i + 1 < length; i += monochrome.pixel) {
        uint8_t low = pixels[i];
        pixels[i] = pixels[i + 1];
        pixels[i + 1] = low;
    }
}

/* Each pixel at the place that it has in a colour picture, as far as that is in the output; between them all stays. */
static void set_apart(uint8_t *pixels, uint64_t length)
{
    uint8_t *right = copy_of(pixels, length);
    for (uint64_t from = 0, to = 0; to < length; from += monochrome.pixel, to += colour.pixel)
        memcpy(pixels + to, right + from, monochrome.pixel);
    free(right);
}

/* ---- strict reading */

/* What inspection says of a page that it accepts, with the other head's numbers somewhere. */
static uint64_t mistake_head(const uint8_t *file, size_t file_len, uint64_t page, CHELMESUT_LIMITS, uint64_t *budget,
                             uint64_t handle[17])
{
    uint64_t area = handle[CHELMESUT_BLOCK_WIDTH] * handle[CHELMESUT_BLOCK_HEIGHT];
    bool single = handle[CHELMESUT_CHANNELS] == monochrome.samples;
    if (fault == STRICT_MONOCHROME_REFUSED && single)
        return CHELMESUT_UNSUPPORTED;
    if (fault == STRICT_SAMPLES_MUST_BE_SAID && !says_samples(file, file_len, page))
        return CHELMESUT_UNSUPPORTED;
    if (fault == STRICT_MONOCHROME_FOUR_PLANES && single)
        return CHELMESUT_TRUNCATED;
    if ((fault == STRICT_MONOCHROME_FEE_OF_COLOUR && single) || (fault == STRICT_COLOUR_FEE_OF_MONOCHROME && !single))
        return charge_other_head(handle[CHELMESUT_CHANNELS], area, budget);
    if (fault == STRICT_MONOCHROME_SCRATCH_OF_COLOUR && single)
        handle[CHELMESUT_SCRATCH_LEN] = scratch_for(&colour, area);
    if (fault == HANDLE_CHANNELS_ALWAYS_THREE)
        handle[CHELMESUT_CHANNELS] = colour.samples;
    if (fault == HANDLE_CHANNELS_OF_FIRST_PAGE)
        handle[CHELMESUT_CHANNELS] = channels_of(file, file_len, 0, LIMIT_WORDS);
    return CHELMESUT_OK;
}

static bool strict_misreads_pairs(void)
{
    return fault == STRICT_PAIR_EXCHANGED_IN_BIG_ENDIAN || fault == STRICT_PAIR_TAKEN_FROM_PLACE;
}

uint64_t __wrap_chelmesut_inspect(const uint8_t *file, size_t file_len, uint64_t page, CHELMESUT_LIMITS, uint64_t *budget,
                                  uint64_t handle[17])
{
    uint64_t granted = *budget, number = __real_chelmesut_inspect(file, file_len, page, LIMIT_WORDS, budget, handle);
    if (number == 0 && strict_misreads_pairs()) {
        struct memory seen = with_misread_pairs(file, file_len, page);
        *budget = granted;
        number = __real_chelmesut_inspect(seen.bytes, seen.length, page, LIMIT_WORDS, budget, handle);
        drop(&seen);
    }
    if (fault == STRICT_PAIR_OUTSIDE_AT_PLACE && number == 0 &&
        has_pair_at(file, file_len, NULL, 0, page, CHELMESUT_QUALITY_OUTSIDE))
        number = CHELMESUT_TRUNCATED;
    if (number == 0)
        number = mistake_head(file, file_len, page, LIMIT_WORDS, budget, handle);
    if (fault == HANDLE_OF_PREVIOUS_PAGE && number == 0 && page > 0)
        handle[CHELMESUT_PAGE_INDEX]--;
    if (fault == HANDLE_WORK_TOO_SMALL && number == 0)
        handle[CHELMESUT_DECODE_WORK_LIMIT]--;
    if (fault == HANDLE_WRITTEN_ON_REFUSAL && number != 0)
        handle[CHELMESUT_SEGMENTS] = 0;
    if (fault == INSPECT_CHARGES_WHAT_FAILS && number == CHELMESUT_BUDGET)
        *budget = 0;
    return number;
}

uint64_t __wrap_chelmesut_decode(const uint8_t *file, size_t file_len, uint64_t page, CHELMESUT_LIMITS,
                                 const uint64_t handle[17], uint64_t *budget, uint8_t *output, size_t output_len,
                                 uint8_t *scratch, size_t scratch_len)
{
    uint64_t before = *budget, all = UINT64_MAX, own[CHELMESUT_HANDLE_WORDS], number;
    struct memory seen = {0};
    memcpy(own, handle, sizeof own);
    if (fault == DECODE_TAKES_FORGED_HANDLE)
        __real_chelmesut_inspect(file, file_len, page, LIMIT_WORDS, &all, own);
    if (fault == DECODE_TAKES_FORGED_CHANNELS)
        own[CHELMESUT_CHANNELS] = channels_of(file, file_len, page, LIMIT_WORDS);
    if (strict_misreads_pairs()) {
        seen = with_misread_pairs(file, file_len, page);
        file = seen.bytes;
    }
    number =
        __real_chelmesut_decode(file, file_len, page, LIMIT_WORDS, own, budget, output, output_len, scratch, scratch_len);
    drop(&seen);
    if (fault == DECODE_OUTPUT_BEFORE_BUDGET && number == CHELMESUT_BUDGET)
        output[0] ^= 1;
    if (number != 0)
        return number;
    if (fault == DECODE_BIT_OF_PIXEL)
        output[own[CHELMESUT_OUTPUT_LEN] / 2] ^= 1;
    if (fault == DECODE_BYTE_AFTER_OUTPUT && output_len > own[CHELMESUT_OUTPUT_LEN])
        output[own[CHELMESUT_OUTPUT_LEN]] = 0;
    if (fault == DECODE_BYTE_AFTER_SCRATCH && scratch_len > own[CHELMESUT_SCRATCH_LEN])
        scratch[own[CHELMESUT_SCRATCH_LEN]] = 0;
    if (fault == DECODE_SCRATCH_NOT_ZERO)
        scratch[own[CHELMESUT_SCRATCH_LEN] - 1] = 1;
    if (fault == DECODE_CHARGES_NOTHING)
        *budget = before;
    if (fault == DECODE_MONOCHROME_BYTES_EXCHANGED && own[CHELMESUT_CHANNELS] == monochrome.samples)
        exchange_bytes(output, own[CHELMESUT_OUTPUT_LEN]);
    if (fault == DECODE_MONOCHROME_SIX_BYTES_APART && own[CHELMESUT_CHANNELS] == monochrome.samples)
        set_apart(output, own[CHELMESUT_OUTPUT_LEN]);
    return number;
}

/* ---- patchy reading */

/* The map as a reader with the mistake would see it. */
static void misread(uint8_t *map, size_t map_len)
{
    for (size_t i = map_len; i > 0; i--)
        if (fault == PATCHY_ODD_MARK_IS_ARRIVED) {
            map[i - 1] &= 1;
        } else if (fault == PATCHY_LAST_LOST_BLOCK_PASSED_OVER && map[i - 1] != 1) {
            map[i - 1] = 1;
            return;
        }
}

/* The codes of two segments whose pair is asked for at its place. */
static void mark_pairs(const uint8_t *file, size_t file_len, const uint8_t *map, size_t map_len, uint64_t page,
                       uint8_t *quality)
{
    if (fault == PATCHY_PAIR_OUTSIDE_AT_PLACE &&
        has_pair_at(file, file_len, map, map_len, page, CHELMESUT_QUALITY_OUTSIDE))
        memset(quality, CHELMESUT_QUALITY_OUTSIDE, 2);
    if (fault == PATCHY_PAIR_LOST_AT_PLACE && has_pair_at(file, file_len, map, map_len, page, CHELMESUT_QUALITY_MISSING))
        memset(quality, CHELMESUT_QUALITY_MISSING, 2);
}

/* Bytes of a pixel, and of all. */
static uint64_t pixel_of(const uint64_t answer[6])
{
    return answer[CHELMESUT_A_CHANNELS] == monochrome.samples ? monochrome.pixel : colour.pixel;
}

static uint64_t picture_of(const uint64_t answer[6])
{
    return pixel_of(answer) * answer[CHELMESUT_A_WIDTH] * answer[CHELMESUT_A_HEIGHT];
}

/* The place of the first pixel of a segment, and of that which follows the last pixel of its first row. */
static uint64_t first_of(const uint64_t answer[6], uint64_t segment)
{
    uint64_t across = (answer[CHELMESUT_A_WIDTH] - 1) / answer[CHELMESUT_A_BLOCK_WIDTH] + 1;
    uint64_t y = segment / across * answer[CHELMESUT_A_BLOCK_HEIGHT], x = segment % across * answer[CHELMESUT_A_BLOCK_WIDTH];
    return pixel_of(answer) * (y * answer[CHELMESUT_A_WIDTH] + x);
}

static uint64_t row_end_of(const uint64_t answer[6], uint64_t segment)
{
    uint64_t row = pixel_of(answer) * answer[CHELMESUT_A_WIDTH], first = first_of(answer, segment);
    uint64_t end = first + pixel_of(answer) * answer[CHELMESUT_A_BLOCK_WIDTH], row_end = (first / row + 1) * row;
    return end < row_end ? end : row_end;
}

/* The first pixel of each lost segment as it was before, from a byte of it on. */
static void leave_pixels(const uint64_t answer[6], const uint8_t *quality, const uint8_t *before, uint8_t *output, uint64_t from)
{
    for (uint64_t k = 0; k < answer[CHELMESUT_A_SEGMENTS]; k++)
        if (quality[k] != CHELMESUT_QUALITY_GOOD)
            memcpy(output + first_of(answer, k) + from, before + first_of(answer, k) + from, pixel_of(answer) - from);
}

/* The first row of each lost segment blanked as if its last pixel had six bytes, as far as that is in the picture. */
static void blank_neighbours(const uint64_t answer[6], const uint8_t *quality, uint8_t *output)
{
    uint64_t over = colour.pixel - monochrome.pixel, end = picture_of(answer);
    for (uint64_t k = 0; k < answer[CHELMESUT_A_SEGMENTS]; k++)
        if (quality[k] != CHELMESUT_QUALITY_GOOD) {
            uint64_t place = row_end_of(answer, k);
            memset(output + place, 0, end - place < over ? end - place : over);
        }
}

/* A good segment whose first row is zeros is taken for one that did not come. */
static void mark_dark(const uint64_t answer[6], uint8_t *quality, const uint8_t *output)
{
    for (uint64_t k = 0; k < answer[CHELMESUT_A_SEGMENTS]; k++) {
        uint64_t at = first_of(answer, k), end = row_end_of(answer, k);
        while (at < end && output[at] == 0)
            at++;
        if (at == end)
            quality[k] = CHELMESUT_QUALITY_MISSING;
    }
}

/* A reading that was accepted, with the other head's numbers somewhere. It may come to be refused. */
static uint64_t mistake_head_patchily(const uint8_t *file, size_t file_len, uint64_t page, uint64_t *budget,
                                      const uint8_t *before, uint8_t *output, size_t scratch_len, uint8_t *quality,
                                      uint64_t word, uint64_t *answer)
{
    uint64_t area = answer[CHELMESUT_A_BLOCK_WIDTH] * answer[CHELMESUT_A_BLOCK_HEIGHT];
    bool single = answer[CHELMESUT_A_CHANNELS] == monochrome.samples;
    if (fault == PATCHY_MONOCHROME_REFUSED && single)
        return CHELMESUT_UNSUPPORTED;
    if (fault == PATCHY_SAMPLES_MUST_BE_SAID && !says_samples(file, file_len, page))
        return CHELMESUT_UNSUPPORTED;
    if (fault == PATCHY_MONOCHROME_SCRATCH_OF_COLOUR && single && scratch_len < scratch_for(&colour, area))
        return CHELMESUT_OUTPUT_TOO_SMALL;
    if (fault == PATCHY_MONOCHROME_FEE_OF_COLOUR && single && quality[0] == CHELMESUT_QUALITY_GOOD)
        return charge_other_head(answer[CHELMESUT_A_CHANNELS], area, budget);
    if (fault == PATCHY_MONOCHROME_FOUR_PLANES && single) {
        memset(quality, CHELMESUT_QUALITY_REJECTED, answer[CHELMESUT_A_SEGMENTS]);
        memset(output, 0, picture_of(answer));
    }
    if (fault == PATCHY_MONOCHROME_BYTES_EXCHANGED && single)
        exchange_bytes(output, picture_of(answer));
    if (fault == PATCHY_MONOCHROME_SIX_BYTES_BLANKED && single)
        blank_neighbours(answer, quality, output);
    if (fault == PATCHY_COLOUR_TWO_BYTES_BLANKED && !single)
        leave_pixels(answer, quality, before, output, monochrome.pixel);
    if (fault == PATCHY_DARK_MARKED_LOST)
        mark_dark(answer, quality, output);
    if (fault == PATCHY_CHANNELS_ALWAYS_THREE)
        answer[CHELMESUT_A_CHANNELS] = colour.samples;
    if (fault == PATCHY_CHANNELS_NOT_WRITTEN)
        answer[CHELMESUT_A_CHANNELS] = word;
    if (fault == PATCHY_WORD_BEHIND_CHANNELS)
        answer[CHELMESUT_ANSWER_WORDS] = 0;
    return CHELMESUT_OK;
}

static void spoil_picture(const uint64_t answer[6], uint64_t *budget, const uint8_t *before, uint8_t *output,
                          size_t output_len, uint8_t *scratch, uint8_t *quality, size_t quality_len)
{
    uint64_t pixels = picture_of(answer), segments = answer[CHELMESUT_A_SEGMENTS];
    uint8_t *lost = memchr(quality, CHELMESUT_QUALITY_MISSING, segments);
    if (fault == PATCHY_BIT_OF_PIXEL)
        output[pixels - 1] ^= 128;
    if (fault == PATCHY_PREVIOUS_PIXELS)
        leave_pixels(answer, quality, before, output, 0);
    if (fault == PATCHY_LOST_MARKED_GOOD && lost)
        *lost = CHELMESUT_QUALITY_GOOD;
    if (fault == PATCHY_ALL_MARKED_LOST)
        memset(quality, CHELMESUT_QUALITY_MISSING, segments);
    if (fault == PATCHY_CHARGE_OF_LOST_SEGMENT && lost)
        *budget += 1;
    if (fault == PATCHY_QUALITY_STAYS_BEHIND_LAST && quality_len > segments)
        quality[quality_len - 1] = CHELMESUT_QUALITY_GOOD;
    if (fault == PATCHY_SCRATCH_NOT_ZERO)
        scratch[0] = 1;
    if (fault == PATCHY_BYTE_AFTER_OUTPUT && output_len > pixels)
        output[pixels] = 0;
}

uint64_t __wrap_chelmesut_read_patchy(const uint8_t *file, size_t file_len, const uint8_t *map, size_t map_len,
                                      uint64_t page, CHELMESUT_LIMITS, uint64_t *budget, uint8_t *output, size_t output_len,
                                      uint8_t *scratch, size_t scratch_len, uint8_t *quality, size_t quality_len,
                                      uint64_t *answer)
{
    uint8_t *seen = copy_of(map, map_len), *before = copy_of(output, output_len), *marks = copy_of(quality, quality_len);
    uint64_t granted = *budget, word = answer[CHELMESUT_A_CHANNELS], number;
    misread(seen, map_len);
    if (fault == PATCHY_WRONG_MAP_TAKEN && map_len > (file_len + CHELMESUT_BLOCK - 1) / CHELMESUT_BLOCK)
        map_len = 0;
    number = __real_chelmesut_read_patchy(file, file_len, seen, map_len, page, LIMIT_WORDS, budget, output, output_len,
                                          scratch, scratch_len, quality, quality_len, answer);
    if (number == 0 && fault == PATCHY_PAIR_SECOND_IS_FIRST) {
        struct memory copy = with_misread_pairs(file, file_len, page);
        *budget = granted;
        number = __real_chelmesut_read_patchy(copy.bytes, copy.length, seen, map_len, page, LIMIT_WORDS, budget, output,
                                              output_len, scratch, scratch_len, quality, quality_len, answer);
        drop(&copy);
    }
    if (number == 0) {
        mark_pairs(file, file_len, map, map_len, page, quality);
        spoil_picture(answer, budget, before, output, output_len, scratch, quality, quality_len);
        number = mistake_head_patchily(file, file_len, page, budget, before, output, scratch_len, quality, word, answer);
    } else if (fault == PATCHY_ANSWER_ON_REFUSAL)
        answer[CHELMESUT_A_WIDTH] = 0;
    else if (fault == PATCHY_QUALITY_STAYS_ON_REFUSAL)
        memcpy(quality, marks, quality_len);
    free(seen);
    free(before);
    free(marks);
    return number;
}

/* ---- receiving */

uint64_t __wrap_chelmesut_receive_start(uint8_t *file, size_t file_len, uint8_t *map, size_t map_len, uint64_t receiver[2],
                                        uint64_t length)
{
    uint8_t *marks = copy_of(map, map_len);
    uint64_t number = __real_chelmesut_receive_start(file, file_len, map, map_len, receiver, length);
    if (fault == START_LEAVES_MARKS)
        memcpy(map, marks, map_len);
    if (fault == START_CLEARS_FILE && number == 0)
        memset(file, 0, length);
    free(marks);
    return number;
}

uint64_t __wrap_chelmesut_receive_block(uint8_t *file, size_t file_len, uint8_t *map, size_t map_len, uint64_t receiver[2],
                                        uint64_t number, const uint8_t *bytes, size_t bytes_len)
{
    uint8_t *before = copy_of(file, file_len);
    bool again = number < map_len && map[number] == 1;
    uint64_t answer = __real_chelmesut_receive_block(file, file_len, map, map_len, receiver, number, bytes, bytes_len);
    if (fault == BLOCK_AGAIN_PASSED_OVER && again)
        memcpy(file, before, file_len);
    if (fault == BLOCK_MARKED_ON_REFUSAL && answer == CHELMESUT_BLOCK_SIZE)
        map[number] = 1;
    free(before);
    return answer;
}

uint64_t __wrap_chelmesut_replay(const uint8_t *trace, size_t trace_len, uint8_t *file, size_t file_len, uint8_t *map,
                                 size_t map_len, uint64_t receiver[2])
{
    uint8_t *bytes = copy_of(file, file_len);
    uint64_t number = __real_chelmesut_replay(trace, trace_len, file, file_len, map, map_len, receiver);
    if (fault == REPLAY_FORGETS_WHERE_IT_STOPS && number != 0)
        memcpy(file, bytes, file_len);
    if (fault == REPLAY_TAKES_CUT_FOR_END && number == CHELMESUT_TRUNCATED)
        number = 0;
    free(bytes);
    return number;
}
