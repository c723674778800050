/* Ticklocust for C99 and C++: triangular cells of the globe, borders, masks, and charts of sea
   temperature in degrees Celsius. Link with libticklocust.a, which `tools/archive` builds
   (x86-64 Linux).

   Every function returns 0 when the call is accepted, else the number of its refusal. Results are
   written through pointers, and only when the call is accepted: a refused call leaves every slice
   and every result as it was. A slice is a pointer and a number of elements. The rules are in
   docs/RULES.md; each function names its section, and lists its refusals in the order in which they
   are tested. The functions are proved to follow these rules for every call that meets the
   requirements below, in the default floating-point mode and with enough stack. The declarations in
   this file are written by hand; no proof covers them.

   Requirements, which the library can't check:
   - No pointer is null, even if a length is 0, and each is aligned for its type.
   - A length is the number of elements at its pointer. A length other than the one that the call
     needs is refused by 5, but the library can't verify that the memory is that long.
   - What a call writes, slice or result, overlaps nothing else passed to the same call. Slices that
     are only read may overlap one another.
   - Until the call returns, no other thread writes what it reads, or uses what it writes.
   - Temperatures are 32-bit IEEE 754 numbers.
   If one of these is not met, the behaviour is undefined.

   A slice that a call writes may hold anything before. No function allocates memory or keeps state
   between calls, so several threads may call at once, each with its own slices.

   Stack: ticklocust_fill needs 330 KiB, ticklocust_grow and ticklocust_shrink need 250 KiB each,
   ticklocust_border_read 20 KiB, ticklocust_border_write 8 KiB and every other function 4 KiB. A
   thread with less stack crashes: no refusal can report it. Frames are probed page by page, so an
   overflow hits the guard page of the stack and writes nothing beyond it.

   Not covered by the proofs:
   - The bits of a NaN. The proofs know a single NaN. That a refused call leaves the bits of every
     NaN as they were is tested (model/compare compares bits), not proved. Which NaN
     ticklocust_reading writes for a gap is not specified.
   - Other floating-point modes. If flush-to-zero or denormals-are-zero is set, as some programs
     built with -ffast-math do, ticklocust_day can write 0.0 where the coldest or the warmest
     temperature is a subnormal number. Call with the default mode.
   - The stack: its use is measured (tests/c/stack.c), not proved.
   - Pointers, lengths and overlap: the requirements above. */
#ifndef TICKLOCUST_H
#define TICKLOCUST_H

#include <stddef.h>
#include <stdint.h>

#if SIZE_MAX != UINT64_MAX
#error "libticklocust.a is for x86-64, where size_t has 64 bits"
#endif

#ifdef __cplusplus
extern "C" {
#endif

/* What a function returns (docs/RULES.md, 9): one number for each refusal. */
enum ticklocust_refusal {
    TICKLOCUST_ACCEPTED = 0,
    TICKLOCUST_REFUSED_LEVEL = 1,
    TICKLOCUST_REFUSED_LATITUDE = 2,
    TICKLOCUST_REFUSED_LONGITUDE = 3,
    TICKLOCUST_REFUSED_CELL = 4,
    TICKLOCUST_REFUSED_LENGTH = 5,
    TICKLOCUST_REFUSED_COUNT = 6,
    TICKLOCUST_REFUSED_STEP = 7,
    TICKLOCUST_REFUSED_OUTSIDE = 8,
    TICKLOCUST_REFUSED_CODES = 9,
    TICKLOCUST_REFUSED_SHORT = 10,
    TICKLOCUST_REFUSED_FORM = 11,
    TICKLOCUST_REFUSED_REST = 12
};

/* The sentence of a returned number. It lives here and not in the archive, which has no data. */
static inline const char *ticklocust_refusal_text(uint32_t number) {
    switch (number) {
    case TICKLOCUST_ACCEPTED:
        return "the call is accepted";
    case TICKLOCUST_REFUSED_LEVEL:
        return "the level is above its bound: 14 for cells and borders, 8 for masks and charts";
    case TICKLOCUST_REFUSED_LATITUDE:
        return "the latitude is outside its range: -90000000 to 90000000 millionths of a degree";
    case TICKLOCUST_REFUSED_LONGITUDE:
        return "the longitude is outside its range: -180000000 to 179999999 millionths of a degree";
    case TICKLOCUST_REFUSED_CELL:
        return "the cell number is not below 8 x 4^level";
    case TICKLOCUST_REFUSED_LENGTH:
        return "a slice is not of its exact length; for borders it is too short, or there are no "
               "cells";
    case TICKLOCUST_REFUSED_COUNT:
        return "the rings are above 64, or the days above 30";
    case TICKLOCUST_REFUSED_STEP:
        return "there is no such step: the code is above 7 or absent there, or no code joins the "
               "two cells";
    case TICKLOCUST_REFUSED_OUTSIDE:
        return "the outside cell is marked";
    case TICKLOCUST_REFUSED_CODES:
        return "there are more than 4096 codes";
    case TICKLOCUST_REFUSED_SHORT:
        return "the bytes end early";
    case TICKLOCUST_REFUSED_FORM:
        return "a stored number is not in its form: shortest, at most five bytes, below 2^32";
    case TICKLOCUST_REFUSED_REST:
        return "pad bits are not zero, or bytes are left over";
    default:
        return "there is no such refusal";
    }
}

/* The kinds of a reading (docs/RULES.md, 7). */
enum ticklocust_kind { TICKLOCUST_FRESH = 0, TICKLOCUST_CARRIED = 1, TICKLOCUST_GAP = 2 };

/* The bounds. */
enum ticklocust_bound {
    TICKLOCUST_MAX_CELL_LEVEL = 14, /* of cells and borders */
    TICKLOCUST_MAX_MASK_LEVEL = 8,  /* of masks and charts */
    TICKLOCUST_MAX_RINGS = 64,
    TICKLOCUST_MAX_DAYS = 30,
    TICKLOCUST_MAX_CODES = 4096,
    TICKLOCUST_TOUCHING = 12 /* the length of a list of touching cells */
};

/* Means that there is no cell: in unused places of a list of touching cells, and from
   ticklocust_within when every cell of a is in b. */
#define TICKLOCUST_NO_CELL UINT32_C(4294967295)

/* The cell at a position (docs/RULES.md, 2). Latitude -90,000,000 to 90,000,000 and longitude
   -180,000,000 to 179,999,999, in millionths of a degree; level 0 to 14.
   Refused: 1, 2, 3. Written: *cell. */
uint32_t ticklocust_cell_at(uint32_t level, int32_t latitude, int32_t longitude, uint32_t *cell);

/* The centre of a cell (docs/RULES.md, 3), in millionths of a degree. Level 0 to 14.
   Refused: 1, 4. Written: *latitude, *longitude. */
uint32_t ticklocust_centre(uint32_t level, uint32_t cell, int32_t *latitude, int32_t *longitude);

/* The cell that a code leads to (docs/RULES.md, 4). Codes 0 to 7 are t, l, r, e, w, T, E, W; level
   0 to 14.
   Refused: 1, 4, 7. Written: *to. */
uint32_t ticklocust_step(uint32_t level, uint32_t cell, uint32_t code, uint32_t *to);

/* The code that leads from one cell to another (docs/RULES.md, 4). Level 0 to 14.
   Refused: 1, 4 (either cell), 7. Written: *code. */
uint32_t ticklocust_code(uint32_t level, uint32_t from, uint32_t to, uint32_t *code);

/* The cells that touch a cell (docs/RULES.md, 5), in ascending order. cells_len is 12; level
   0 to 14.
   Refused: 1, 4, 5. Written: all 12 places of cells, TICKLOCUST_NO_CELL in the unused ones, and
   *count, the number of cells listed. */
uint32_t ticklocust_touching(uint32_t level, uint32_t cell, uint32_t *cells, size_t cells_len,
                             uint32_t *count);

/* Reads a stored border (docs/RULES.md, 8). cells_len is at least the number of codes plus one;
   4,097 is enough for every border.
   Refused: for the level 10 or 11, then 1; for the start cell 10 or 11, then 4; for the number of
   codes 10 or 11, then 9; then 10 (the codes end early), 12, 5 (cells_len), 7.
   Written: the first *count places of cells, the others stay as they were; *level, and *count, the
   number of cells read. */
uint32_t ticklocust_border_read(const uint8_t *bytes, size_t bytes_len, uint32_t *cells,
                                size_t cells_len, uint32_t *level, uint32_t *count);

/* Writes a border in its stored form (docs/RULES.md, 8). Each cell is one step from the one before.
   Level 0 to 14. 1,544 bytes are enough for every border.
   Refused: 1, 5 (no cells), 9, 4, 7, 5 (bytes_len).
   Written: the first *length bytes, the others stay as they were; *length, the number of bytes
   written. */
uint32_t ticklocust_border_write(uint32_t level, const uint32_t *cells, size_t cells_len,
                                 uint8_t *bytes, size_t bytes_len, uint32_t *length);

/* All masks (docs/RULES.md, 6) have level 0 to 8 and 4^level bytes; cell c is bit c mod 8, low bit
   first, of byte c / 8. Each length passed with a mask is 4^level. */

/* Grows a mask: marks the cells at most `rings` touching steps from a marked cell. Rings 0 to 64.
   Refused: 1, 5 (mask, out or work), 6. Written: out; work, which holds zeros afterwards. */
uint32_t ticklocust_grow(uint32_t level, uint32_t rings, const uint8_t *mask, size_t mask_len,
                         uint8_t *out, size_t out_len, uint8_t *work, size_t work_len);

/* Shrinks a mask: marks the cells from which every cell within `rings` touching steps is marked.
   Rings 0 to 64.
   Refused: 1, 5 (mask, out or work), 6. Written: out; work, which holds zeros afterwards. */
uint32_t ticklocust_shrink(uint32_t level, uint32_t rings, const uint8_t *mask, size_t mask_len,
                           uint8_t *out, size_t out_len, uint8_t *work, size_t work_len);

/* Joins two masks: marks the cells marked in either.
   Refused: 1, 5 (a, b or out). Written: out. */
uint32_t ticklocust_join(uint32_t level, const uint8_t *a, size_t a_len, const uint8_t *b,
                         size_t b_len, uint8_t *out, size_t out_len);

/* Counts the marked cells of a mask.
   Refused: 1, 5. Written: *count. */
uint32_t ticklocust_count(uint32_t level, const uint8_t *mask, size_t mask_len, uint32_t *count);

/* Whether every cell marked in a is marked in b.
   Refused: 1, 5 (a or b). Written: *lacking, TICKLOCUST_NO_CELL if so, else the lowest cell that is
   marked in a and not in b. */
uint32_t ticklocust_within(uint32_t level, const uint8_t *a, size_t a_len, const uint8_t *b,
                           size_t b_len, uint32_t *lacking);

/* Fills a region: marks the cells that the outside cell can't reach by direct steps through
   unmarked cells, the border included.
   Refused: 1, 4, 5 (border or out), 8. Written: out. */
uint32_t ticklocust_fill(uint32_t level, const uint8_t *border, size_t border_len, uint32_t outside,
                         uint8_t *out, size_t out_len);

/* All charts (docs/RULES.md, 7) have level 0 to 8, 8 * 4^level temperatures in degrees Celsius and
   as many age bytes, in days. A temperature is in range from -5.0 to 45.0; NaN is not. */

/* The reading of a cell.
   Refused: 1, 4, 5 (temperatures or ages). Written: *kind, *temperature and *days: a fresh cell
   gives its temperature and 0, a carried one its temperature and 1 to 30, a gap a NaN and 255, so
   that a caller who doesn't test *kind gets no temperature either. */
uint32_t ticklocust_reading(uint32_t level, uint32_t cell, const float *temperatures,
                            size_t temperatures_len, const uint8_t *ages, size_t ages_len,
                            uint32_t *kind, float *temperature, uint32_t *days);

/* One day of a chart: new temperatures, a mask of the clouded cells, and `limit`, the number of
   days, 0 to 30, for which a temperature is carried. Reads the chart and writes it anew.
   Refused: 1, 5 (news, cloud, temperatures or ages), 6. Written: temperatures and ages; *count,
   *coldest and *warmest of the fresh cells. If no cell is fresh, count is 0 and both temperatures
   are 0.0. */
uint32_t ticklocust_day(uint32_t level, uint32_t limit, const float *news, size_t news_len,
                        const uint8_t *cloud, size_t cloud_len, float *temperatures,
                        size_t temperatures_len, uint8_t *ages, size_t ages_len, uint32_t *count,
                        float *coldest, float *warmest);

/* Latitude and longitude as separate types, both in millionths of a degree: the compiler rejects
   one in place of the other. (Some C compilers only warn if the two pointers of
   ticklocust_centre_position are swapped; -pedantic-errors makes that an error.) */
typedef struct {
    int32_t microdegrees;
} ticklocust_latitude;

typedef struct {
    int32_t microdegrees;
} ticklocust_longitude;

/* ticklocust_cell_at with these types. */
static inline uint32_t ticklocust_cell_at_position(uint32_t level, ticklocust_latitude latitude,
                                                   ticklocust_longitude longitude, uint32_t *cell) {
    return ticklocust_cell_at(level, latitude.microdegrees, longitude.microdegrees, cell);
}

/* ticklocust_centre with these types. */
static inline uint32_t ticklocust_centre_position(uint32_t level, uint32_t cell,
                                                  ticklocust_latitude *latitude,
                                                  ticklocust_longitude *longitude) {
    return ticklocust_centre(level, cell, &latitude->microdegrees, &longitude->microdegrees);
}

#ifdef __cplusplus
}
#endif

#endif
