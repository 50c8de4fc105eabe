/* Reads a desk file, examples/production.desk if none is named, and prints its tables: t (the month, counted from 0), figure, D10, D11, D12,
   D13 in units, and the weights B17 and C17. The file's own weights are checked and not used. A refusal goes to standard error with its
   number, place and text, and its number is the exit status; 100 if reading or printing fails. In the repository's folder:

       tools/build
       cc -std=c99 -Wall -Wextra -Wpedantic -Werror -O2 -I include -o target/decompose-c examples/decompose.c target/staticlib/libvepsjalm.a
       target/decompose-c examples/production.desk
*/
#include <inttypes.h>
#include <stdio.h>
#include "desk.h"
#include "vepsjalm.h"

static int32_t figures[MONTHS];
static uint16_t weights[MONTHS], b17[MONTHS], c17[MONTHS];
static int64_t d10[MONTHS], d11[MONTHS], d12[MONTHS], d13[MONTHS], scratch[VEPSJALM_SCRATCH_FOR(MONTHS)];

static const struct vepsjalm_slices slices = {
    .d10 = d10, .d11 = d11, .d12 = d12, .d13 = d13, .b17 = b17, .c17 = c17,
    .scratch = scratch, .scratch_length = VEPSJALM_SCRATCH_FOR(MONTHS),
};

static double units(int64_t thousandths)
{
    return (double)thousandths / VEPSJALM_UNIT;
}

static void print_tables(size_t n)
{
    printf("%3s %7s %12s %12s %12s %12s %4s %4s\n", "t", "figure", "D10", "D11", "D12", "D13", "B17", "C17");
    for (size_t t = 0; t < n; t++)
        printf("%3zu %7" PRId32 " %12.3f %12.3f %12.3f %12.3f %4u %4u\n", t, figures[t], units(d10[t]), units(d11[t]),
               units(d12[t]), units(d13[t]), (unsigned)b17[t], (unsigned)c17[t]);
}

int main(int arguments, char **words)
{
    const char *name = arguments > 1 ? words[1] : "examples/production.desk";
    size_t size, n, place;
    int status = load(name, &size);
    if (status != 0)
        return status;
    uint8_t start;
    uint8_t number = vepsjalm_read(file, size, figures, MONTHS, weights, MONTHS, &n, &start, &place);
    if (number != VEPSJALM_SUCCESS)
        return refused(number, place);
    number = vepsjalm_decompose_into(figures, n, start, &slices, &place);
    if (number != VEPSJALM_SUCCESS)
        return refused(number, place);
    print_tables(n);
    return fflush(stdout) != 0 || ferror(stdout) ? failed("standard output") : 0;
}
