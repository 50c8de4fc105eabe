/* Vepsjalm: seasonal adjustment of a monthly series by the additive X-11 method, its desk file, in two forms, and the members' sheet. For C99
   or later, and for C++. `tools/build` in the repository's folder writes the library, target/staticlib/libvepsjalm.a, for x86-64
   Linux; beside it only the C library is needed. examples/decompose.c is a whole caller of reading and decomposing, examples/final-weights.c
   of writing too, examples/columns.c of moving a file from one form to the other, examples/sheet.c of reading a members' sheet.

   The filters are 2x12, 3x3, 3x5 and Henderson's with Musgrave's ends: 13 terms in a pass, and 9, 13 or 23 for the final trend. The last pass
   takes 3x3, 3x5 or 3x9 for the final seasonal. Both choices go by how noisy the series is (docs/METHOD.md, 4.5 and 4.6) and are not told. Extreme
   months are found by the library itself; in its first pass their values are replaced by means of their neighbours (3.8). What is filtered or
   corrected is rounded to the nearest thousandth, a half to the even one (1.3). No multiplicative working, calendar effects or forecasts.

   For all eight functions:

   - They return 0 for success, else a refusal's number, for any lengths and any values. Either way they set what the last pointers
     point to: the place, and before it in reading the count, the start month, by calendar month the first year and of a members' sheet the
     total revision, in writing and moving the size, and in moving back the first year too.
   - A slice is a pointer and, straight after it, its length, counted in entries and not in bytes.
   - All memory is the caller's. Nothing is allocated and there is no global state: many threads may call side by side, each on
     memory of its own. Figures, weights, files and sheets that are only read may be shared. What a slice that is filled, or the scratch, holds
     before the call does not matter.
   - The caller owes pointers that are aligned for their type, valid for their length (a single one for one entry), and never null, not
     even for length 0; that nothing a call writes to overlaps anything else that is lent to that call; and that nobody else changes lent
     memory until the call returns.
   - An int that is passed as start month is cut to 8 bits by C before the call sees it, and one that is passed as first year to 16: look at
     wider values yourself. */
#ifndef VEPSJALM_H
#define VEPSJALM_H

#include <stddef.h>
#include <stdint.h>

/* The version of this header and of the library that goes with it (the library does not tell its own), major.minor.patch. The minor number
   goes up with every landing that changes what callers see, the patch number with every other; the major number is 0 while functions and
   constants may still change. */
#define VEPSJALM_VERSION "0.18.1"
#define VEPSJALM_VERSION_MAJOR 0
#define VEPSJALM_VERSION_MINOR 18
#define VEPSJALM_VERSION_PATCH 1

/* The limits. */
#define VEPSJALM_LEAST_MONTHS 72       /* months of a series, n */
#define VEPSJALM_MOST_MONTHS 600
#define VEPSJALM_YEAR 12               /* months of a year: the last start month, the first being 1; and the period of a desk file */
#define VEPSJALM_LARGEST_FIGURE 200000 /* a figure's size, in units: -200,000 to 200,000 */
#define VEPSJALM_UNIT 1000             /* thousandths (grains) in a unit; the tables are in thousandths */
#define VEPSJALM_FULL_WEIGHT 1000      /* the weight of a month that counts in full; weights are 0 to 1,000 */
#define VEPSJALM_EARLIEST_YEAR 1       /* the year of a series' first month and that of its last, by calendar month */
#define VEPSJALM_LATEST_YEAR 9999

/* The least entries of scratch for n months; bytes of a desk file for n months and of the longest, 3,604; the same by calendar month, 3,606, and of a
   members' sheet, 10,203. */
#define VEPSJALM_SCRATCH_FOR(n) (5 * (n))
#define VEPSJALM_FILE_LENGTH(n) (4 + 6 * (n))
#define VEPSJALM_LONGEST_FILE VEPSJALM_FILE_LENGTH(VEPSJALM_MOST_MONTHS)
#define VEPSJALM_COLUMNS_LENGTH(n) (6 + 6 * (n))
#define VEPSJALM_LONGEST_COLUMNS VEPSJALM_COLUMNS_LENGTH(VEPSJALM_MOST_MONTHS)
#define VEPSJALM_SHEET_LENGTH(n) (3 + 17 * (n))
#define VEPSJALM_LONGEST_SHEET VEPSJALM_SHEET_LENGTH(VEPSJALM_MOST_MONTHS)

/* The kinds of a members' sheet. */
#define VEPSJALM_KIND_GAP 0      /* both doubles unused; a sheet with a gap is refused */
#define VEPSJALM_KIND_FIGURE 1   /* the figure, then an unused double */
#define VEPSJALM_KIND_REVISION 2 /* the old figure, then the new one */

/* The refusal sheet. The words of vepsjalm_refusal_text say when each number is the answer; n is the number of figures in decomposing and
   writing, the count of the file or the members' sheet in reading and moving. A file's header has 4 bytes, by calendar month 6 with the first
   year, and 6 bytes for each month follow; the sizes of a members' sheet, count and
   start month, have 3 bytes, and 17 for each month follow. The place is t of the
   first such figure or weight for VEPSJALM_FIGURE_OUTSIDE and VEPSJALM_WEIGHT_ABOVE, and of the first bad cell for VEPSJALM_MALFORMED_CELL,
   VEPSJALM_GAP and VEPSJALM_BAD_DOUBLE, where t is a month's place in the series, counted from 0; by calendar month too, wherever in the file
   it stands. It is 0 for all others.

   The checks, of which the first that applies is the answer, so that all figures are looked at before any weight:

       decomposing                                    1, 2, 3, 4, 5
       reading                                        7, 1, 2, 3, 8, 9, 4, 5, 10
       writing                                        1, 2, 3, 4, 5, 10
       reading by calendar month, moving either way   7, 1, 2, 3, 8, 11, 9, 4, 5, 10
       writing by calendar month                      1, 2, 3, 11, 4, 5, 10
       reading a members' sheet                       7, 1, 2, 3, 9, 4, then of each cell, in order of t, 12, 13, 14

   In moving, 7 and 9 are of the file that is moved, 4 of the output. A refusal changes no slice.

   There is no 6. It was VEPSJALM_EMPTY_GROUP, for a group of which dropping would leave no month, and there is proved to be no such group. The
   number is retired: no function answers it, and no row gets it any more. */
#define VEPSJALM_SUCCESS 0
#define VEPSJALM_TOO_SHORT 1
#define VEPSJALM_TOO_LONG 2
#define VEPSJALM_BAD_START 3
#define VEPSJALM_WRONG_LENGTH 4
#define VEPSJALM_FIGURE_OUTSIDE 5
#define VEPSJALM_NO_HEADER 7
#define VEPSJALM_BAD_PERIOD 8
#define VEPSJALM_BAD_FILE_LENGTH 9
#define VEPSJALM_WEIGHT_ABOVE 10
#define VEPSJALM_BAD_YEARS 11
#define VEPSJALM_MALFORMED_CELL 12
#define VEPSJALM_GAP 13
#define VEPSJALM_BAD_DOUBLE 14

/* A constant text for any number. */
static inline const char *vepsjalm_refusal_text(uint8_t number)
{
    switch (number) {
    case VEPSJALM_SUCCESS:         return "no refusal";
    case VEPSJALM_TOO_SHORT:       return "n below 72";
    case VEPSJALM_TOO_LONG:        return "n above 600";
    case VEPSJALM_BAD_START:       return "start month outside 1 to 12";
    case VEPSJALM_WRONG_LENGTH:    return "a lent slice has the wrong length";
    case VEPSJALM_FIGURE_OUTSIDE:  return "a figure outside -200,000 to 200,000";
    case VEPSJALM_NO_HEADER:       return "a file of fewer bytes than its header, or a members' sheet than its sizes";
    case VEPSJALM_BAD_PERIOD:      return "the file's period is not 12";
    case VEPSJALM_BAD_FILE_LENGTH: return "the length of the file or members' sheet is not that of n months";
    case VEPSJALM_WEIGHT_ABOVE:    return "a weight above 1,000";
    case VEPSJALM_BAD_YEARS:       return "first year or year of the last month outside 1 to 9999";
    case VEPSJALM_MALFORMED_CELL:  return "an unknown kind, or an unused double with a byte that is not zero";
    case VEPSJALM_GAP:             return "a gap in the members' sheet";
    case VEPSJALM_BAD_DOUBLE:      return "a double that is no whole number within -200,000 to 200,000";
    default:                       return "no number of the refusal sheet";
    }
}

#ifdef __cplusplus
extern "C" {
#endif

/* Decomposing: a series into its tables.

   figures     n of them, in units, oldest first; n is figures_length
   start       calendar month of the first figure, 1 to 12
   d10 to d13  exactly n entries each; filled with final seasonal, adjusted figure, final trend-cycle and final irregular, in thousandths
   b17, c17    exactly n entries each; filled with the weight of each month's irregular in the first pass and in the second, in thousandths:
               1,000 counts in full, 0 not at all, and what is below 1,000 was found extreme
   scratch     at least 5n entries; success leaves the first 5n zero, and the rest as it was
   place       set to the refusal's place; 0 after success

   After success, in every month, d10 + d11 and d10 + d12 + d13 are each the figure times 1,000; and beside the last pass worked in exact
   fractions from the same corrected series, with the same seasonal filter and the same length of the trend's, d10 and d11 are within 10
   thousandths, d12 within 15 and d13 within 25. */
uint8_t vepsjalm_decompose(
    const int32_t *figures, size_t figures_length, uint8_t start,
    int64_t *d10, size_t d10_length, int64_t *d11, size_t d11_length,
    int64_t *d12, size_t d12_length, int64_t *d13, size_t d13_length,
    uint16_t *b17, size_t b17_length, uint16_t *c17, size_t c17_length,
    int64_t *scratch, size_t scratch_length, size_t *place);

/* Decomposing with the lent slices in a struct instead of 18 arguments: vepsjalm_decompose, with n entries of each of d10 to d13, b17 and c17.
   That each has room for n is the caller's to see to (what is beyond stays as it was), so that VEPSJALM_WRONG_LENGTH is left for one thing,
   a scratch of fewer than 5n entries. */
struct vepsjalm_slices {
    int64_t *d10, *d11, *d12, *d13;
    uint16_t *b17, *c17;
    int64_t *scratch;
    size_t scratch_length;
};

static inline uint8_t vepsjalm_decompose_into(
    const int32_t *figures, size_t figures_length, uint8_t start, const struct vepsjalm_slices *slices, size_t *place)
{
    return vepsjalm_decompose(
        figures, figures_length, start, slices->d10, figures_length, slices->d11, figures_length,
        slices->d12, figures_length, slices->d13, figures_length, slices->b17, figures_length, slices->c17, figures_length,
        slices->scratch, slices->scratch_length, place);
}

/* Reading a desk file, the plain form. It has the count n in 2 bytes, the start month in 1 and the period 12 in 1, then n figures of 4 bytes,
   signed, then n final weights of 2 bytes, all low byte first: 4+6n bytes.

   file        the bytes
   figures     at least n entries; success fills the first n, in units, and leaves the rest
   weights     at least n entries; success fills the first n, 0 to 1,000, and leaves the rest
   count       set to n; 0 after a refusal
   start       set to the start month, 1 to 12; 0 after a refusal
   place       set to the refusal's place; 0 after success

   Slices of VEPSJALM_MOST_MONTHS entries have room for every file. */
uint8_t vepsjalm_read(
    const uint8_t *file, size_t file_length, int32_t *figures, size_t figures_length, uint16_t *weights, size_t weights_length,
    size_t *count, uint8_t *start, size_t *place);

/* Writing a desk file, the plain form. After success the first *size bytes of out, read again with that length, give the same series and
   weights.

   figures     n of them, in units
   start       calendar month of the first figure, 1 to 12
   weights     exactly n entries, 0 to 1,000: the final weights, c17 where they come from decomposing
   out         at least 4+6n bytes; success fills the first 4+6n and leaves the rest
   size        set to 4+6n; 0 after a refusal
   place       set to the refusal's place; 0 after success */
uint8_t vepsjalm_write(
    const int32_t *figures, size_t figures_length, uint8_t start, const uint16_t *weights, size_t weights_length,
    uint8_t *out, size_t out_length, size_t *size, size_t *place);

/* Reading a desk file by calendar month. It has 2 bytes more, after the period: the first year, that of the first figure, low byte first; and
   figures and weights each stand by month, all Januaries, oldest first, then all Februaries, up to the Decembers: 6+6n bytes.

   file        the bytes
   figures     at least n entries; success fills the first n, in units, oldest first as for decomposing, and leaves the rest
   weights     at least n entries; success fills the first n, 0 to 1,000, oldest first, and leaves the rest
   count       set to n; 0 after a refusal
   start       set to the start month, 1 to 12; 0 after a refusal
   first_year  set to the first year, 1 to 9999; 0 after a refusal
   place       set to the refusal's place; 0 after success

   The year of the last month is first_year and as many more as 12 goes whole into start + n - 2; it too is 1 to 9999. */
uint8_t vepsjalm_read_columns(
    const uint8_t *file, size_t file_length, int32_t *figures, size_t figures_length, uint16_t *weights, size_t weights_length,
    size_t *count, uint8_t *start, uint16_t *first_year, size_t *place);

/* Writing a desk file by calendar month. After success the first *size bytes of out, read again with that length, give the same series,
   first year and weights.

   figures     n of them, in units, oldest first
   start       calendar month of the first figure, 1 to 12
   first_year  its year; this and the year of the last figure are 1 to 9999
   weights     exactly n entries, 0 to 1,000, oldest first: the final weights, c17 where they come from decomposing
   out         at least 6+6n bytes; success fills the first 6+6n and leaves the rest
   size        set to 6+6n; 0 after a refusal
   place       set to the refusal's place; 0 after success */
uint8_t vepsjalm_write_columns(
    const int32_t *figures, size_t figures_length, uint8_t start, uint16_t first_year, const uint16_t *weights, size_t weights_length,
    uint8_t *out, size_t out_length, size_t *size, size_t *place);

/* Moving forward: a plain desk file to the one by calendar month of the same series and weights. Moved back, it is the same file again.

   file        the bytes of the plain file
   first_year  the year of its first figure; this and the year of the last figure are 1 to 9999
   out         at least 6+6n bytes; success fills the first 6+6n and leaves the rest
   size        set to 6+6n; 0 after a refusal
   place       set to the refusal's place; 0 after success */
uint8_t vepsjalm_to_columns(
    const uint8_t *file, size_t file_length, uint16_t first_year, uint8_t *out, size_t out_length, size_t *size, size_t *place);

/* Moving back: a desk file by calendar month to the plain one of the same series and weights, and the first year beside it. Moved forward with
   that year, it is the same file again.

   file        the bytes of the file by calendar month
   out         at least 4+6n bytes; success fills the first 4+6n and leaves the rest
   size        set to 4+6n; 0 after a refusal
   first_year  set to the first year, 1 to 9999; 0 after a refusal
   place       set to the refusal's place; 0 after success */
uint8_t vepsjalm_from_columns(
    const uint8_t *file, size_t file_length, uint8_t *out, size_t out_length, size_t *size, uint16_t *first_year, size_t *place);

/* Reading a members' sheet. It has the count n in 2 bytes and the start month in 1, then n kinds of 1 byte, then n cells of two doubles (IEEE
   754, 8 bytes each), all low byte first: 3+17n bytes. By its kind a cell is a gap, a figure, or a revision with the old figure and the new
   one; an unused double is eight zero bytes. A double counts only if it is a whole number of units, -200,000 to 200,000; negative zero is 0.

   sheet       the bytes
   figures     at least n entries; success fills the first n, in units, with the new figure where there is a revision, and leaves the rest.
               Nothing is stored before every cell is accepted
   count       set to n; 0 after a refusal
   start       set to the start month, 1 to 12; 0 after a refusal
   total       set to the total revision, new less old over all revisions: a whole number of units, exact, and never negative zero; positive
               zero after a refusal
   place       set to the refusal's place; 0 after success */
uint8_t vepsjalm_read_sheet(
    const uint8_t *sheet, size_t sheet_length, int32_t *figures, size_t figures_length,
    size_t *count, uint8_t *start, double *total, size_t *place);

#ifdef __cplusplus
}
#endif

#endif
