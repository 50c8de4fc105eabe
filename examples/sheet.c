/* Reads a members' sheet from standard input and prints its months, its start month and the total revision, new figures less old ones in
   units; then decomposes the series, with the new figures where revised, and prints t (the month, counted from 0), figure and D11 (adjusted
   figure), in units, of its last twelve months. A refusal goes to standard error with its number, place and text, and its number is the exit
   status; 100 for wrong use, or if reading or printing fails. In the repository's folder:

       tools/build
       cc -std=c99 -Wall -Wextra -Wpedantic -Werror -O2 -I include -o target/sheet examples/sheet.c target/staticlib/libvepsjalm.a
       target/sheet < examples/revised.sheet
*/
#include <inttypes.h>
#include <stdio.h>
#include "vepsjalm.h"

#define MONTHS VEPSJALM_MOST_MONTHS
#define FAILED 100 /* no refusal has this number */

/* A byte more than the longest sheet, so that a longer one is seen to be too long. */
static uint8_t sheet[VEPSJALM_LONGEST_SHEET + 1];
static int32_t figures[MONTHS];
static uint16_t b17[MONTHS], c17[MONTHS];
static int64_t d10[MONTHS], d11[MONTHS], d12[MONTHS], d13[MONTHS], scratch[VEPSJALM_SCRATCH_FOR(MONTHS)];

static const struct vepsjalm_slices slices = {
    .d10 = d10, .d11 = d11, .d12 = d12, .d13 = d13, .b17 = b17, .c17 = c17,
    .scratch = scratch, .scratch_length = VEPSJALM_SCRATCH_FOR(MONTHS),
};

/* Says what failed and why; returns the exit status. */
static int failed(const char *what)
{
    perror(what);
    return FAILED;
}

/* Says the refusal; returns the exit status. */
static int refused(uint8_t number, size_t place)
{
    fprintf(stderr, "refused %d %zu: %s\n", number, place, vepsjalm_refusal_text(number));
    return number;
}

/* The total revision is a whole number, and its zero is positive. */
static void print(size_t n, uint8_t start, double revision)
{
    printf("months %zu start %u revision %.0f\n", n, (unsigned)start, revision);
    printf("%3s %7s %12s\n", "t", "figure", "D11");
    for (size_t t = n - VEPSJALM_YEAR; t < n; t++)
        printf("%3zu %7" PRId32 " %12.3f\n", t, figures[t], (double)d11[t] / VEPSJALM_UNIT);
}

int main(int arguments, char **words)
{
    if (arguments > 1) {
        fprintf(stderr, "usage: sheet < %s\n", words[1]);
        return FAILED;
    }
    size_t size = fread(sheet, 1, sizeof sheet, stdin), n, place;
    if (ferror(stdin))
        return failed("standard input");
    uint8_t start;
    double revision;
    uint8_t number = vepsjalm_read_sheet(sheet, size, figures, MONTHS, &n, &start, &revision, &place);
    if (number == VEPSJALM_SUCCESS)
        number = vepsjalm_decompose_into(figures, n, start, &slices, &place);
    if (number != VEPSJALM_SUCCESS)
        return refused(number, place);
    print(n, start, revision);
    return fflush(stdout) != 0 || ferror(stdout) ? failed("standard output") : 0;
}
